"""The fields of units, calls and packets as values; no text is made for them."""

import ctypes
import enum
from typing import TYPE_CHECKING, Any, Iterable, Iterator, List, NamedTuple, Optional, Tuple

from . import _calls
from ._calls import UNIT_ROOM, CallerState, CallParts, FieldParts, ItemParts, LinkParts, PacketParts
from ._library import CAUSES, Cause, Error, call, exactly, number_of
from ._recording import Duid, Item, Kind, items

if TYPE_CHECKING:
    from ._library import Octets


class LinkKind(enum.IntEnum):
    """The type of link control (LC), by its first octet."""

    OTHER = _calls.LINK_OTHER
    """Any other type, which is not interpreted."""
    GROUP = _calls.LINK_GROUP
    """A call to a group (00 hex)."""
    INDIVIDUAL = _calls.LINK_INDIVIDUAL
    """A call from unit to unit (03 hex)."""


class CallEnd(enum.IntEnum):
    """The end of a call."""

    OPEN = _calls.END_OPEN
    """Without a terminator."""
    TDU = _calls.END_TDU
    """With a terminator."""
    TDULC = _calls.END_TDULC
    """With a terminator with link control (LC)."""


class LinkControl(NamedTuple):
    """Link control (LC): talker and called. A value that its type does not have is None."""

    octets: bytes
    """The nine octets."""
    kind: LinkKind
    """The type."""
    mfid: Optional[int] = None
    """The manufacturer (MFID)."""
    source: Optional[int] = None
    """The unit that speaks, 24 bits."""
    group: Optional[int] = None
    """The group of a group call."""
    destination: Optional[int] = None
    """The called unit of a call from unit to unit, 24 bits."""
    emergency: bool = False
    """True if a call to a group is an emergency."""


class Fields(NamedTuple):
    """The fields of a unit by their names. A field that its type does not have is None."""

    nac: int
    """The network access code (NAC), 0 to 4095."""
    duid: Duid
    """The data unit identifier (DUID)."""
    lc: Optional[bytes] = None
    """Link control (LC), nine octets, of an LDU1 and a TDULC; `read_link` reads it."""
    mi: Optional[bytes] = None
    """The message indicator (MI), nine octets, of an HDU and an LDU2."""
    algid: Optional[int] = None
    """The algorithm (ALGID), beside `mi`; 0x80 means that the voice is not encrypted."""
    kid: Optional[int] = None
    """The key (KID), beside `mi`."""
    mfid: Optional[int] = None
    """The manufacturer (MFID), of an HDU."""
    tgid: Optional[int] = None
    """The talk group (TGID), of an HDU."""
    lsd: Optional[bytes] = None
    """Low speed data (LSD), two octets, of an LDU1 and an LDU2."""
    voice: Optional[Tuple[bytes, ...]] = None
    """The nine voice frames of 18 octets as received, of an LDU1 and an LDU2."""


class Call(NamedTuple):
    """A call: a longest run of voice units without a break inside, with voice in it, as `p25 calls` prints it. It ends at a terminator, before a header, a
    packet or another network, and if more than 3,456 bits lie between two units; not by a new speaker."""

    place: int
    """The bit at which its first unit begins."""
    bits: int
    """The number of bits from there to the end of its last unit."""
    nac: int
    """The network access code (NAC) of its units."""
    late: bool
    """True if it begins without a header (HDU)."""
    end: CallEnd
    """Its end."""
    links: int
    """The number of its voice units (LDU1 or LDU2)."""
    broken: int
    """The number of its broken units."""
    lc: Optional[bytes]
    """The link control (LC) of the first whole unit that carries one, nine octets."""
    algid: Optional[int]
    """The algorithm (ALGID) of the first whole unit that names one; 0x80 means that the voice is not encrypted."""

    @property
    def link(self) -> Optional[LinkControl]:
        """Returns its link control as values."""
        return None if self.lc is None else read_link(self.lc)

    def has(self, item: Item) -> bool:
        """Returns whether an item is a data unit of the call."""
        return item.kind_id <= Kind.BROKEN and self.place <= item.place < self.place + self.bits


class Packet(NamedTuple):
    """A packet (PDU): the fields of its header, and its data."""

    nac: int
    """The network access code (NAC) of its unit."""
    head: bytes
    """The ten octets of its header, without the check."""
    format: int
    """The format: 0x16 of a confirmed packet, 0x15 of an unconfirmed one, 0x03 of a response."""
    full: bool
    """The full message flag."""
    blocks: int
    """The number of blocks to follow."""
    pad: int
    """The number of pad octets."""
    llid: int
    """The logical link identifier (LLID), 24 bits."""
    syn: bool
    """The first bit of octet 8 of the header, in every format; in a confirmed packet it is the flag Syn."""
    number: int
    """The next three bits of octet 8, in every format; in a confirmed packet they are N(S)."""
    response_class: int
    """The first two bits of octet 1 of the header, in every format; in a response they are its class."""
    response_type: int
    """The next three bits of octet 1, in every format; in a response they are its type."""
    response_status: int
    """The last three bits of octet 1, in every format; in a response they are its status."""
    good: Tuple[bool, ...]
    """For each block of a confirmed packet, true if its check agrees."""
    serials: Tuple[int, ...]
    """The serial number of each block of a confirmed packet, 0 if its check does not agree."""
    data: bytes
    """The octets: for a confirmed packet 16 for each block, zeros if its check does not agree; for another those before the packet CRC."""


_link_read = call("p25_link_read")
_unit_fields = call("p25_unit_fields")
_build_fields = call("p25_build_fields")
_caller_begin_at = call("p25_caller_begin_at")
_caller_close = call("p25_caller_close")
_caller_take = call("p25_caller_take")
_caller_finish = call("p25_caller_finish")
_packet_read = call("p25_packet_read")
_build_packet = call("p25_build_packet")


def read_link(lc: "Octets") -> LinkControl:
    """Returns the values of the nine octets of link control (LC). Error(length) if there are more or fewer."""
    octets, link = exactly(lc, 9), LinkParts()
    _link_read(octets, ctypes.byref(link))
    if link.kind == LinkKind.GROUP:
        return LinkControl(octets, LinkKind.GROUP, link.mfid, link.source, group=link.group, emergency=link.emergency == 1)
    if link.kind == LinkKind.INDIVIDUAL:
        return LinkControl(octets, LinkKind.INDIVIDUAL, link.mfid, link.source, destination=link.destination)
    return LinkControl(octets, LinkKind.OTHER)


def _told_fields(octets: bytes, place: int) -> Optional[FieldParts]:
    """Returns the fields of the whole unit at a position, from the octets with its bits."""
    told = FieldParts()
    return told if _unit_fields(octets, len(octets), place - place % 8, place, ctypes.byref(told)) == _calls.FIELDS else None


def fields_at(octets: bytes, place: int) -> Optional[Fields]:
    """Returns the fields of the whole unit at a position, from the octets with its bits, or None if there is none."""
    told = _told_fields(octets, place)
    if told is None:
        return None
    voice = bytes(told.voice)
    return Fields(
        told.nac,
        Duid(told.duid),
        bytes(told.lc) if told.has_lc else None,
        bytes(told.mi) if told.has_mi else None,
        told.algid if told.has_mi else None,
        told.kid if told.has_mi else None,
        told.mfid if told.has_tgid else None,
        told.tgid if told.has_tgid else None,
        bytes(told.lsd) if told.has_voice else None,
        tuple(voice[at : at + 18] for at in range(0, 162, 18)) if told.has_voice else None,
    )


def packet_at(octets: bytes, place: int) -> Optional[Packet]:
    """Returns the packet of the unit at a position, from the octets with its bits, or None if none decodes."""
    told = PacketParts()
    if _packet_read(octets, len(octets), place - place % 8, place, ctypes.byref(told)) < 0:
        return None
    blocks = told.blocks if told.format == _calls.CONFIRMED else 0
    return Packet(
        told.nac,
        bytes(told.head),
        told.format,
        told.full == 1,
        told.blocks,
        told.pad,
        told.llid,
        told.syn == 1,
        told.number,
        told.response_class,
        told.response_type,
        told.response_status,
        tuple(it == 1 for it in told.good[:blocks]),
        tuple(told.serials[:blocks]),
        bytes(told.octets)[: told.length],
    )


def _written(function: Any, given: ctypes.Structure, status: int) -> bytes:
    """Returns the octets of the unit that a call of the library builds of a struct."""
    unit = ctypes.create_string_buffer(UNIT_ROOM)
    answer = function(ctypes.byref(given), number_of(status, 3, Cause.STATUS), unit, UNIT_ROOM)
    if answer < 0:
        raise Error(CAUSES[answer])
    return unit.raw[:answer]


def build_fields(fields: Fields, status: int = 0) -> bytes:
    """Returns the octets of the voice unit of fields, with all status symbols `status`, 0 to 3. Its `duid` determines which fields are used; a field that is
    None becomes zeros. Error has the cause nac, status, length, or duid if no voice unit has it."""
    given = FieldParts(nac=number_of(fields.nac, 4095, Cause.NAC), duid=number_of(fields.duid, 15, Cause.DUID))
    for name, most in (("kid", 65535), ("tgid", 65535), ("mfid", 255), ("algid", 255)):
        setattr(given, name, number_of(getattr(fields, name) or 0, most, Cause.VALUE))
    for name, count in (("lc", 9), ("mi", 9), ("lsd", 2)):
        octets = getattr(fields, name)
        if octets is not None:
            getattr(given, name)[:] = list(exactly(octets, count))
    if fields.voice is not None:
        given.voice[:] = list(exactly(b"".join(exactly(frame, 18) for frame in fields.voice), 162))
    return _written(_build_fields, given, status)


def build_packet(nac: int, head: "Octets", data: "Octets" = b"", serials: "Optional[Iterable[int]]" = None, status: int = 0) -> bytes:
    """Returns the octets of the unit of a packet (PDU), with all status symbols `status`, 0 to 3.

    `head` are the ten octets of its header without the check. `data` of a confirmed packet has 16 octets for each block, whose serial numbers are `serials`,
    or 0, 1, 2 and so on; `data` of another packet has the octets before the packet CRC, twelve for each block less four. Error has the cause nac, status,
    length or serial, or packet if the format is none of 0x16, 0x15 and 0x03.
    """
    header = exactly(head, 10)
    blocks, is_confirmed = header[6] % 128, header[0] % 32 == _calls.CONFIRMED
    given = PacketParts(nac=number_of(nac, 4095, Cause.NAC))
    given.head[:] = list(header)
    octets = exactly(data, 16 * blocks if is_confirmed else max(12 * blocks - 4, 0))
    given.octets[: len(octets)] = list(octets)
    if is_confirmed:
        numbers = [number_of(it, 127, Cause.SERIAL) for it in (range(blocks) if serials is None else serials)]
        if len(numbers) != blocks:
            raise Error(Cause.LENGTH)
        given.serials[:blocks] = numbers
        given.good[:blocks] = [1] * blocks
    return _written(_build_packet, given, status)


def item_struct(item: Item) -> ItemParts:
    """Returns the numbers of an item as the library takes them. TypeError if it is no item."""
    if not isinstance(item, Item):
        raise TypeError(f"an item is needed, and not {type(item).__name__}")
    return ItemParts(item.place, item.bits, item.fixes, 0, item.nac or 0, item.duid or 0, item.kind_id)


class Caller:
    """Groups the items of a recording into calls: `take` each in its turn, gaps too, and at the end `finish`.

    The first item is at bit `at`. With `by_gap`, a call without a terminator ends with the item that decides it, such as a gap of 4,096 bits;
    the calls are the same, but they come earlier.
    """

    def __init__(self, at: int = 0, by_gap: bool = False) -> None:
        self._state, self._call = CallerState(), CallParts()
        self._none = FieldParts()
        _caller_begin_at(ctypes.byref(self._state), number_of(at, (1 << 60) - 1, Cause.PLACE), by_gap)

    @property
    def is_open(self) -> bool:
        """Returns whether a run of voice units is open that a further one may still join."""
        return bool(self._state.is_open)

    @property
    def run(self) -> Optional[Call]:
        """Returns the open run of voice units, or None: it is a call once its `links` are above 0."""
        return _call_of(self._state.run) if self.is_open else None

    def take(self, item: Item) -> Optional[Call]:
        """Takes the next item and returns the call that ends, or None. The call ends with this item, its terminator, or with the data unit before, if there
        is a break after that one. Error(place) if the item does not begin at the end of the one before it."""
        told = item_struct(item)
        fields = _told_fields(item._octets, item.place) if item.kind_id == Kind.UNIT else None
        answer = _caller_take(ctypes.byref(self._state), ctypes.byref(told), ctypes.byref(fields or self._none), ctypes.byref(self._call))
        return self._answered(answer)

    def __getstate__(self) -> bytes:
        return bytes(self._state)

    def __setstate__(self, state: bytes) -> None:
        self._state, self._call, self._none = CallerState.from_buffer_copy(state), CallParts(), FieldParts()

    def close(self) -> Optional[Call]:
        """Ends the open run, and returns its call, or None. The caller goes on: the next item begins at the end of the last one."""
        return self._answered(_caller_close(ctypes.byref(self._state), ctypes.byref(self._call)))

    def finish(self) -> Optional[Call]:
        """Returns the open call, or None. The caller is then as a new one that begins at bit 0."""
        return self._answered(_caller_finish(ctypes.byref(self._state), ctypes.byref(self._call)))

    def _answered(self, answer: int) -> Optional[Call]:
        if answer < 0:
            raise Error(Cause.PLACE)
        return None if answer == 0 else _call_of(self._call)


def _call_of(it: CallParts) -> Call:
    lc = bytes(it.lc) if it.has_lc else None
    algid = it.algid if it.has_algid else None
    return Call(it.place, it.bits, it.nac, it.late == 1, CallEnd(it.end), it.links, it.broken, lc, algid)


def calls(octets: "Octets") -> Iterator[Call]:
    """Yields the calls of a whole recording, as `p25 calls` prints them."""
    for call, _ in calls_with_units(items(octets)):
        yield call


def calls_with_units(recording: Iterable[Item], at: int = 0, by_gap: bool = False) -> "Iterator[Tuple[Call, List[Item]]]":
    """Yields each call of items that come in their turn, gaps too, with its data units, whole and broken, in order. `at` and `by_gap` are as of
    a Caller."""
    caller = Caller(at, by_gap)
    units: List[Item] = []
    for item in recording:
        call = caller.take(item)
        if item.kind_id <= Kind.BROKEN:
            units.append(item)
        if call is not None:
            yield call, [it for it in units if call.has(it)]
        run = caller.run
        units = [] if run is None else [it for it in units if run.has(it)] if call is not None or run.place == item.place else units
    last = caller.finish()
    if last is not None:
        yield last, [it for it in units if last.has(it)]
