"""Recordings item by item, and units built, repaired and bridged."""

import ctypes
import enum
import struct
import sys
import threading
import warnings
from functools import partial
from types import TracebackType
from typing import TYPE_CHECKING, Any, AsyncIterator, BinaryIO, Callable, Dict, Iterator, List, NoReturn, Optional, Tuple, Type, Union

from . import _calls
from ._calls import ADDRESS, SIZE, TEXT_ROOM, U64, UNIT_ROOM, ItemParts
from ._library import CAUSES, Cause, Error, View, call, checked, library, number_of, octets_of

if TYPE_CHECKING:
    from ._library import Octets
    from ._values import Fields, LinkControl, Packet

KINDS = ("", "unit", "broken", "nounit", "gap", "cut")
FAULTS = {number: cause.value for number, cause in CAUSES.items() if number <= -11}


class Kind(enum.IntEnum):
    """The kind of an item."""

    UNIT = _calls.UNIT
    """A whole data unit."""
    BROKEN = _calls.BROKEN
    """A data unit of which some fields fail."""
    NOUNIT = _calls.NOUNIT
    """A sync after which no data unit decodes; one bit."""
    GAP = _calls.GAP
    """Bits with which no sync begins, at most 4,096."""
    CUT = _calls.CUT
    """A sync with too few bits after it, at the end."""


class Duid(enum.IntEnum):
    """The data unit identifiers (DUID) that are decoded."""

    HDU = _calls.HDU
    """A header."""
    TDU = _calls.TDU
    """A terminator."""
    LDU1 = _calls.LDU1
    """Voice with link control (LC)."""
    LDU2 = _calls.LDU2
    """Voice with encryption sync (ES)."""
    PDU = _calls.PDU
    """A packet of data."""
    TDULC = _calls.TDULC
    """A terminator with link control (LC)."""


_KIND = (None, Kind.UNIT, Kind.BROKEN, Kind.NOUNIT, Kind.GAP, Kind.CUT)
_DUID = tuple(Duid(it) if it in set(Duid) else it for it in range(16))


_next_item = call("p25_next_item")
_build = call("p25_build")
_repair = call("p25_repair")
_bridge = call("p25_bridge")


class _Draft:
    """The parts of an item while they are written; then the object becomes an Item, which cannot be changed."""

    __slots__ = ("_octets", "_text", "bits", "duid", "fixes", "kind_id", "nac", "place")


class Item(_Draft):
    """A part of a recording: a whole unit, a broken unit, a false sync, a gap or a cut end. Items lie end to end and cover every bit. An item cannot be
    changed.

    As a tuple it is (kind, place, bits, fixes, nac, duid, text).
    """

    __slots__ = ()

    kind_id: Kind
    """The kind of the item, as a number with a name."""
    place: int
    """The bit of the recording at which it begins."""
    bits: int
    """The number of its bits, at least 1."""
    fixes: int
    """The number of bit errors in the examined bits of a unit; else 0."""
    nac: Optional[int]
    """The network access code (NAC) of a whole or broken unit, 0 to 4095; else None."""
    duid: Optional[int]
    """The data unit identifier (DUID), 0 to 15, of a whole or broken unit, a Duid if it is one that is decoded; else None."""
    _octets: bytes
    _text: Optional[str]

    @property
    def kind(self) -> str:
        """Returns the first word of its text: unit, broken, nounit, gap or cut."""
        return KINDS[self.kind_id]

    @property
    def text(self) -> str:
        """Returns the line of `p25 show`, without its end. The first use makes it."""
        if self._text is None:
            object.__setattr__(self, "_text", _text_of(self._octets, self.place))
        return self._text  # type: ignore[return-value]

    @property
    def octets(self) -> bytes:
        """Returns its bits as octets, the first bit highest, with zeros after the last if they fill no octet; `repair_unit` and `bridge_unit` take these."""
        return _cut(self._octets, self.place % 8, self.bits)

    @property
    def fields(self) -> "Optional[Fields]":
        """Returns the fields of a whole unit by their names, as item.fields.lc; else None. No text is made for them."""
        from ._values import fields_at

        return fields_at(self._octets, self.place) if self.kind_id == Kind.UNIT else None

    @property
    def line(self) -> str:
        """Returns the words of the text of a whole data unit that `build` takes; else ""."""
        return self.text.split(" ", 5)[-1] if self.kind_id == Kind.UNIT else ""

    @property
    def link(self) -> "Optional[LinkControl]":
        """Returns the link control (LC) of a whole LDU1 or TDULC; else None."""
        from ._values import read_link

        fields = self.fields if self.duid in (Duid.LDU1, Duid.TDULC) else None
        return None if fields is None or fields.lc is None else read_link(fields.lc)

    @property
    def packet(self) -> "Optional[Packet]":
        """Returns the packet of a packet unit (PDU), also if blocks of it fail; None if no packet decodes."""
        from ._values import packet_at

        return packet_at(self._octets, self.place) if self.duid == Duid.PDU else None

    def value(self, key: str) -> Optional[str]:
        """Returns the text of the value after KEY= in the line, as item.value("lc"), or None."""
        for word in self.text.split(" "):
            if word.startswith(f"{key}="):
                return word[len(key) + 1 :]
        return None

    def _tuple(self) -> Tuple[str, int, int, int, Optional[int], Optional[int], str]:
        return self.kind, self.place, self.bits, self.fixes, self.nac, self.duid, self.text

    def __iter__(self) -> Iterator[Any]:
        return iter(self._tuple())

    def __len__(self) -> int:
        return 7

    def __getitem__(self, i: Any) -> Any:
        return self._tuple()[i]

    def __eq__(self, other: object) -> bool:
        if not isinstance(other, (Item, tuple)):
            return NotImplemented
        return self._tuple() == (other._tuple() if isinstance(other, Item) else other)

    def __hash__(self) -> int:
        return hash(self._tuple())

    def __setattr__(self, name: str, value: object) -> NoReturn:
        raise AttributeError(f"an item cannot be changed, nor its {name}")

    def __delattr__(self, name: str) -> NoReturn:
        raise AttributeError(f"an item cannot be changed, nor its {name}")

    def __setstate__(self, state: "Tuple[None, Dict[str, object]]") -> None:
        for name, value in state[1].items():
            object.__setattr__(self, name, value)

    def __repr__(self) -> str:
        return "Item(kind={!r}, place={}, bits={}, fixes={}, nac={}, duid={}, text={!r})".format(*self._tuple())


def _text_at(address: Any, length: int, begin: int, place: int, ended: bool) -> str:
    """Returns the text of the item at a position of octets; the first octet begins at bit `begin`."""
    parts, text = ItemParts(), ctypes.create_string_buffer(TEXT_ROOM)
    _next_item(address, length, begin, place, ended, ctypes.byref(parts), text, TEXT_ROOM)
    return ctypes.string_at(text, parts.text_length).decode("ascii")


def _text_of(octets: bytes, place: int) -> str:
    """Returns the text of the item at a position, from the octets with its bits and those that decide it."""
    return _text_at(octets, len(octets), place - place % 8, place, True)


# The numbers of an item as p25_items writes them, and the most items of one call.
_ROW = struct.Struct("=QIIIHBB")
assert _ROW.size == ctypes.sizeof(ItemParts)
_rows_of, _AT_ONCE = _ROW.iter_unpack, 1024
# The arguments of p25_items are prepared here, because converting all of them anew costs more than finding a few items.
_many_items: Any = library["p25_items"]
_length_of, _place_of, _flag_of = SIZE.from_param, U64.from_param, ctypes.c_bool.from_param
_FIRST, _WITHIN, _ROOM = _place_of(0), tuple(map(_place_of, range(8))), _length_of(_AT_ONCE)
_OPEN, _ENDED = _flag_of(False), _flag_of(True)
_joined = b"".join
_new: Any = _Draft.__new__


# The two lowest bits of each octet, at each of the four positions of an octet.
_DIBIT_AT = tuple(bytes((it & 3) << shift for it in range(256)) for shift in (6, 4, 2, 0))
# Items that were found and not taken: their numbers, the octets, the argument of a call for these, and the bit of the recording at which they begin. Then
# whether no more octets follow, whether these may have more items, and the bit at which the last of these items ends.
_Batch = Tuple[Iterator[Any], "Union[bytes, memoryview]", Any, int, Any, bool, int]


def packed(dibits: bytes, tables: "Tuple[bytes, ...]" = _DIBIT_AT) -> bytes:
    """Returns the octets of dibits, four in each."""
    parts = (int.from_bytes(dibits[at::4].translate(tables[at]), "big") for at in range(4))
    return sum(parts).to_bytes(len(dibits) // 4, "big")


class Stream:
    """A recording that comes in chunks.

    `feed` takes the next octets, `feed_dibits` the next dibits and `feed_levels` the next soft symbols, in any number; `finish` states that
    none follow. Each yields the items that are decided then, as the library decides them, such as a data unit with its last bit.
    Items that a caller does not take come with the next call. Octets that no item needs any more are not kept.

    In a `with`, the end of the block finishes the stream. If items are left then, there is a warning, and `finish` yields them.

    One stream is for one thread at a time: Error(threads) if two use it at once. Streams of their own in several threads do not meet.
    """

    def __init__(self) -> None:
        self._batch: _Batch = (iter(()), b"", b"", 0, _OPEN, False, 0)
        # The bit after the last item that was taken.
        self._reached = 0
        # Chunks that were not examined yet, the end as an empty one, and dibits that wait for their octet.
        self._pieces: List[bytes] = []
        self._dibits = b""
        self._ended = False
        # Items that were left at the end of a `with`.
        self._left: List[Item] = []
        self._lock = threading.Lock()
        self._rows = ctypes.create_string_buffer(_AT_ONCE * _ROW.size)
        self._into, numbers = ctypes.byref(self._rows), memoryview(self._rows)
        self._numbers = [numbers[: it * _ROW.size] for it in range(16)] + [numbers]

    def feed(self, octets: "Octets") -> Iterator[Item]:
        """Takes octets, of any number, and returns an iterator over the items that are decided. Error(finished) after `finish`, and
        Error(dibits) if dibits wait for their octet."""
        given = octets if type(octets) is bytes else octets_of(octets)
        if self._dibits:
            raise Error(Cause.DIBITS)
        self._append(given)
        return self._items()

    def feed_dibits(self, dibits: "Octets") -> Iterator[Item]:
        """Takes dibits, one in each octet as its two lowest bits, of any number, and returns an iterator over the items that are decided.
        Dibits that fill no octet wait for the next ones. Error(finished) after `finish`."""
        given = self._dibits + octets_of(dibits)
        whole = len(given) // 4 * 4
        self._append(packed(given[:whole]))
        self._dibits = given[whole:]
        return self._items()

    def feed_levels(self, levels: "Octets") -> Iterator[Item]:
        """Takes soft symbols, as `hard_octets` does, of any number, and feeds the dibits that they are nearest to, as `feed_dibits` does. `Softener` also
        decodes broken packets from them."""
        from ._signals import hard_dibits

        return self.feed_dibits(hard_dibits(levels))

    def finish(self) -> Iterator[Item]:
        """Returns an iterator over all items that are left; the last one ends at the end of the recording. Dibits that fill no octet are left out."""
        if not self._ended:
            self._append(b"")
            self._ended, self._dibits = True, b""
        return self._items()

    def _append(self, octets: bytes) -> None:
        """Appends a chunk, or the end."""
        if not self._lock.acquire(False):
            raise Error(Cause.THREADS)
        try:
            if self._ended:
                raise Error(Cause.FINISHED)
            self._pieces.append(octets)
        finally:
            self._lock.release()

    def _items(self) -> Iterator[Item]:
        while True:
            while self._left:
                yield self._left.pop(0)
            batch = self._batch
            rows, octets, address, begin, last, _, _ = batch
            for at, bits, fixes, _, nac, duid, kind in rows:
                item, end = _new(_Draft), at + bits
                item.kind_id, item.place, item.bits, item.fixes = _KIND[kind], begin + at, bits, fixes
                self._reached = begin + end
                item._octets = bytes(octets[at >> 3 : (end + 7) >> 3])
                if kind < 3:
                    item.nac, item.duid, item._text = nac, _DUID[duid], None
                else:
                    # Further octets decide these, so the text is taken while they are there. It is short.
                    item.nac = item.duid = None
                    item._text = _text_at(address, len(octets), begin, item.place, last is _ENDED)
                item.__class__ = Item
                yield item
            if batch is self._batch and not self._find():
                return

    def _find(self) -> bool:
        """Finds the next items, and returns whether there were octets to examine."""
        if not self._lock.acquire(False):
            raise Error(Cause.THREADS)
        try:
            _, octets, address, begin, last, more, at = self._batch
            if not more:
                if not self._pieces:
                    return False
                # Octets that no item needs any more are dropped.
                octets = address = _joined((octets[at >> 3 :], *self._pieces))
                begin += at & -8
                at &= 7
                self._pieces.clear()
                if self._ended:
                    last = _ENDED
            place = _WITHIN[at] if at < 8 else _place_of(at)
            count = _many_items(address, _length_of(len(octets)), _FIRST, place, last, self._into, _ROOM)
            if count < 0:
                raise ValueError("outside")
            if count > 0:
                at, bits, *_ = _ROW.unpack_from(self._rows, (count - 1) * _ROW.size)
                at += bits
            rows = self._numbers[count] if count < 16 else self._numbers[16][: count * _ROW.size]
            self._batch = (_rows_of(rows), octets, address, begin, last, count == _AT_ONCE, at)
            return True
        finally:
            self._lock.release()

    def read(self, file: BinaryIO, size: int = 65536) -> Iterator[Item]:
        """Yields the items of an open file of octets as they are decided, up to its end, and finishes the stream. If the file has `read1`, as a buffered one
        has, it takes the octets that are there, so a live input waits for no further octets."""
        take: Callable[[int], bytes] = getattr(file, "read1", file.read)
        for piece in iter(partial(take, size), b""):
            yield from self.feed(piece)
        yield from self.finish()

    async def aread(self, reader: Any, size: int = 65536) -> AsyncIterator[Item]:
        """Yields the items of a reader with an asynchronous `read(size)`, as asyncio.StreamReader, up to its end, and finishes the stream."""
        while True:
            piece = await reader.read(size)
            if not piece:
                break
            for item in self.feed(piece):
                yield item
        for item in self.finish():
            yield item

    def __enter__(self) -> "Stream":
        return self

    def __exit__(self, kind: Optional[Type[BaseException]], error: Optional[BaseException], trace: Optional[TracebackType]) -> None:
        self._left = list(self.finish())
        if self._left and kind is None:
            warnings.warn(f"{len(self._left)} items of a p25.Stream were not taken in its block: finish() yields them", stacklevel=2)

    def __reduce__(self) -> Any:
        raise TypeError("a p25.Stream cannot be pickled: keep the octets, or the items")

    def __repr__(self) -> str:
        held = len(self._batch[1]) - (self._reached - self._batch[3]) // 8 + sum(map(len, self._pieces))
        return f"<p25.Stream at bit {self._reached}, {held} octets held{', finished' if self._ended else ''}>"


def items(octets: "Octets") -> Iterator[Item]:
    """Yields the items of a whole recording, from the first bit to the last. A buffer, as of mmap or numpy, is not copied."""
    given = checked(octets)
    if len(given) == 0:
        return
    view, stream = View(given), Stream()
    octets = given if isinstance(given, bytes) else memoryview(given).cast("B")
    stream._batch, stream._ended = (iter(()), octets, ADDRESS(view.address), 0, _ENDED, True, 0), True
    yield from stream._items()


def _unit(function: Any, *arguments: Any) -> bytes:
    """Returns the octets of the unit that a call of the library writes."""
    unit = ctypes.create_string_buffer(UNIT_ROOM)
    answer = function(*arguments, unit, UNIT_ROOM)
    if answer < 0:
        raise Error(CAUSES[answer])
    return unit.raw[:answer]


def build(line: "Union[str, Octets]", status: int = 0) -> bytes:
    """Returns the octets of the unit of a line, as `p25 build STATUS` reads it, a str or octets without an end of the line.

    All its status symbols are `status`, 0 to 3. Error has the cause, as `p25 build` prints it: long, form, kind, key or value; or status, if that is no
    status symbol.
    """
    octets = line.encode("utf-8", "surrogateescape") if isinstance(line, str) else octets_of(line)
    return _unit(_build, octets, len(octets), number_of(status, 3, Cause.STATUS))


def repair_unit(octets: "Octets") -> bytes:
    """Returns the unit with which the octets begin as it was transmitted. Error(unit) if they begin with no whole unit."""
    given = octets_of(octets)
    return _unit(_repair, given, len(given))


def bridge_unit(octets: "Octets", nac: int, status: int) -> bytes:
    """Returns the unit with which the octets begin, under a network access code (NAC), 0 to 4095, and with all status symbols the same, 0 to 3.

    Error has the cause nac or status, or unit if they begin with no whole unit.
    """
    given, nac, status = octets_of(octets), number_of(nac, 4095, Cause.NAC), number_of(status, 3, Cause.STATUS)
    return _unit(_bridge, given, len(given), nac, status)


def _cut(octets: bytes, place: int, bits: int) -> bytes:
    """Returns the bits from a position on as octets, with zeros after them if they fill no octet."""
    first, last = place // 8, (place + bits + 7) // 8
    number = int.from_bytes(octets[first:last], "big") >> (8 * last - place - bits) & ((1 << bits) - 1)
    return (number << -bits % 8).to_bytes((bits + 7) // 8, "big")


def put_bits(octets: bytearray, place: int, unit: bytes, bits: int) -> None:
    """Writes a number of bits of a unit into octets at a position."""
    first, last = place // 8, (place + bits + 7) // 8
    after = 8 * last - place - bits
    mask = ((1 << bits) - 1) << after
    number = int.from_bytes(octets[first:last], "big") & ~mask | int.from_bytes(unit, "big") >> -bits % 8 << after
    octets[first:last] = number.to_bytes(last - first, "big")


def repair(octets: "Octets") -> bytes:
    """Returns the recording with each whole unit as it was transmitted, as `p25 repair` writes it. All other bits stay."""
    given = octets_of(octets)
    repaired = bytearray(given)
    for item in items(given):
        if item.kind_id == Kind.UNIT:
            put_bits(repaired, item.place, repair_unit(item.octets), item.bits)
    return bytes(repaired)


def bridge(octets: "Octets", nac: int, status: int) -> bytes:
    """Returns the whole units of a recording one after the other, as `p25 bridge NAC STATUS` writes them. They have the network access code (NAC), 0 to 4095,
    and the one status symbol, 0 to 3. Error has the cause nac or status."""
    given, nac, status = octets_of(octets), number_of(nac, 4095, Cause.NAC), number_of(status, 3, Cause.STATUS)
    return b"".join(bridge_unit(it.octets, nac, status) for it in items(given) if it.kind_id == Kind.UNIT)


def main(words: List[str]) -> int:
    """Prints the lines of `p25 show` of a file or of standard input, and returns the status."""
    if len(words) > 1 or words[:1] in (["-h"], ["--help"]):
        print("usage: python3 -m p25 [FILE]", file=sys.stderr)
        return 1
    try:
        with open(words[0] if words and words[0] != "-" else 0, "rb", buffering=0) as file:
            stream = Stream()
            for piece in iter(lambda: file.read(65536), b""):
                for item in stream.feed(piece):
                    print(item.text)
                sys.stdout.flush()
            for item in stream.finish():
                print(item.text)
            sys.stdout.flush()
    except OSError as error:
        print(f"p25: {error}", file=sys.stderr)
        return 1
    return 0
