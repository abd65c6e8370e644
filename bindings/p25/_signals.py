"""Recordings from soft-symbol levels, with lost syncs restored, and forwarded in place."""

import ctypes
from typing import TYPE_CHECKING, Any, Iterable, Iterator, Union

from ._calls import FOLLOW_ROOM, PDU, UNIT_ROOM, FollowerState
from ._library import Cause, Error, call, checked, number_of, octets_of
from ._recording import Item, Kind, Stream, items, packed, put_bits
from ._values import item_struct

if TYPE_CHECKING:
    from ._library import Octets

    Levels = Union[Octets, Iterable[int]]

_level_dibit = call("p25_level_dibit")
_soften = call("p25_soften")
_relay_at = call("p25_relay_at")
_follower_begin_at = call("p25_follower_begin_at")
_follower_take = call("p25_follower_take")
_follower_finish = call("p25_follower_finish")

# The dibit of each octet, as a level in two's complement, at each of the four positions of an octet.
_HARD = bytes(_level_dibit(it - 256 * (it > 127)) for it in range(256))
_PLACED = tuple(bytes(it << shift for it in _HARD) for shift in (6, 4, 2, 0))


class Follower:
    """Restores the lost syncs of units that lie end to end after others: `take` each item in its turn, gaps too, and at the end `finish`. The octets that
    they return are, joined, the output of `p25 follow`; they can be fed to a `Stream` as they come. The first item is at bit `at`."""

    def __init__(self, at: int = 0) -> None:
        self._state, self._room = FollowerState(), ctypes.create_string_buffer(FOLLOW_ROOM)
        _follower_begin_at(ctypes.byref(self._state), number_of(at, (1 << 59), Cause.PLACE))

    def take(self, item: Item) -> bytes:
        """Takes the next item and returns the octets that it decides. Error(place) if the item does not begin at the end of the one before it, the first at
        bit 0."""
        told, octets = item_struct(item), item._octets
        return self._answered(
            _follower_take(ctypes.byref(self._state), octets, len(octets), item.place - item.place % 8, ctypes.byref(told), self._room, FOLLOW_ROOM)
        )

    def finish(self) -> bytes:
        """Returns the octets that were held back. The follower is then as a new one."""
        return self._answered(_follower_finish(ctypes.byref(self._state), self._room, FOLLOW_ROOM))

    def __getstate__(self) -> bytes:
        return bytes(self._state)

    def __setstate__(self, state: bytes) -> None:
        self._state, self._room = FollowerState.from_buffer_copy(state), ctypes.create_string_buffer(FOLLOW_ROOM)

    def _answered(self, answer: int) -> bytes:
        if answer < 0:
            raise Error(Cause.PLACE)
        return ctypes.string_at(self._room, answer)


def _followed(octets: "Octets") -> Iterator[bytes]:
    follower = Follower()
    for item in items(octets):
        yield follower.take(item)
    yield follower.finish()


def follow(octets: "Octets") -> bytes:
    """Returns the recording with lost syncs restored, as `p25 follow` writes it: with as many bits, of which only the syncs and NIDs of such units are
    changed."""
    return b"".join(_followed(octets))


def relay(octets: "Octets", nac: int, status: int) -> bytes:
    """Returns the recording as `p25 relay NAC STATUS` writes it, with each unit at its position. The units have the network access code (NAC), 0 to 4095, and
    the one status symbol, 0 to 3. Error has the cause nac or status."""
    given, nac, status = octets_of(octets), number_of(nac, 4095, Cause.NAC), number_of(status, 3, Cause.STATUS)
    relayed, room = bytearray(given), ctypes.create_string_buffer(UNIT_ROOM)
    for item in items(given):
        if item.kind_id <= Kind.BROKEN:
            it = item._octets
            answer = _relay_at(it, len(it), item.place - item.place % 8, item.place, nac, status, room, UNIT_ROOM)
            put_bits(relayed, item.place, ctypes.string_at(room, answer), item.bits)
    return bytes(relayed)


def _levels_of(levels: "Levels") -> bytes:
    """Returns levels as octets in two's complement. Error(letters) if one is no number from -128 to 127."""
    if isinstance(levels, (bytes, bytearray, memoryview)):
        return octets_of(levels)
    try:
        view: Any = memoryview(levels)  # type: ignore[arg-type]
    except TypeError:
        numbers = list(levels)  # type: ignore[arg-type]
        if not all(-128 <= it <= 127 for it in numbers):
            raise Error(Cause.LETTERS) from None
        return bytes(it % 256 for it in numbers)
    return bytes(checked(view))


def hard_octets(levels: "Levels") -> bytes:
    """Returns the octets of the dibits that levels are nearest to, four in each; a last octet that they do not fill ends in dibits 00.

    Levels are numbers from -128 to 127, or octets in two's complement: 96 is 01, 32 is 00, -32 is 10 and -96 is 11.
    """
    given = _levels_of(levels)
    return packed(given + b"\x20" * (-len(given) % 4), _PLACED)


def hard_dibits(levels: "Levels") -> bytes:
    """Returns the dibits that soft symbols are nearest to, one in each octet, as `Stream.feed_dibits` takes them."""
    return _levels_of(levels).translate(_HARD)


def soften(levels: "Levels") -> bytes:
    """Returns the octets of the levels of one unit, at most 12,960. Each failing block of a broken packet (PDU) becomes the block that is nearest to the
    levels. Error(length) if there are more levels."""
    given, room = _levels_of(levels), ctypes.create_string_buffer(UNIT_ROOM)
    answer = _soften(given, len(given), room, UNIT_ROOM)
    if answer < 0:
        raise Error(Cause.LENGTH)
    return ctypes.string_at(room, answer)


class Softener:
    """Decodes broken packets from the soft symbols of a recording that come in chunks: `feed` takes the next levels, in any number, and
    `finish` states that none follow. The octets that they return are, joined, the output of `p25 soft`; a `Stream` takes them as they come."""

    def __init__(self) -> None:
        self._stream = Stream()
        # Octets that are not returned yet, from octet `begin` of the recording on, and their levels; levels that fill no octet.
        self._octets, self._levels, self._begin = bytearray(), b"", 0
        self._waiting = b""

    def feed(self, levels: "Levels") -> bytes:
        """Takes levels and returns the octets that they decide. Error(finished) after `finish`."""
        given = self._waiting + _levels_of(levels)
        whole = len(given) // 4 * 4
        return self._settled(given[:whole], given[whole:], False)

    def finish(self) -> bytes:
        """Returns the octets that are left; dibits 00 fill the last one."""
        return self._settled(self._waiting + b"\x20" * (-len(self._waiting) % 4), b"", True)

    def __reduce__(self) -> Any:
        raise TypeError("a p25.Softener cannot be pickled: keep the soft symbols")

    def _settled(self, levels: bytes, waiting: bytes, is_last: bool) -> bytes:
        octets = packed(levels, _PLACED)
        found = list(self._stream.feed(octets)) if octets or not is_last else []
        self._waiting = waiting
        self._octets += octets
        self._levels += levels
        if is_last:
            found += self._stream.finish()
        for item in found:
            if item.kind_id == Kind.BROKEN and item.duid == PDU and item.place % 2 == 0:
                at = item.place - 8 * self._begin
                put_bits(self._octets, at, soften(self._levels[at // 2 : (at + item.bits) // 2]), item.bits)
        end = (found[-1].place + found[-1].bits) // 8 - self._begin if found else 0
        settled = bytes(self._octets if is_last else self._octets[:end])
        del self._octets[: len(settled)]
        self._levels = self._levels[4 * len(settled) :]
        self._begin += len(settled)
        return settled


def soft(levels: "Levels") -> bytes:
    """Returns the recording of levels, with the blocks that fail of broken packets (PDU) decoded from them, as `p25 soft` writes it."""
    softener = Softener()
    return softener.feed(levels) + softener.finish()
