"""Codewords, blocks, CRCs and network identifiers (NID)."""

import ctypes
from typing import TYPE_CHECKING, Any, Iterable, Optional, Tuple, TypeVar

from ._calls import NO_LETTERS, U8, U16, U32
from ._library import Cause, Error, call, exactly, number_of, octets_of

if TYPE_CHECKING:
    from ._library import Octets

Word = TypeVar("Word")


def _reading(word: Word, answer: int) -> Optional[Tuple[Word, int]]:
    """Returns a codeword with the return value of its decoding, or None if it is uncorrectable."""
    if answer == NO_LETTERS:
        raise Error(Cause.LETTERS)
    return None if answer < 0 else (word, answer)


class SymbolCode:
    """A Reed-Solomon code over GF(64). A word is n octets from 0 to 63, one for each symbol, the first k of them the information."""

    def __init__(self, n: int, k: int) -> None:
        self.n, self.k = n, k
        self._read = call(f"p25_rs_{n}_{k}_read")
        self._read_erased = call(f"p25_rs_{n}_{k}_read_erased")
        self._write = call(f"p25_rs_{n}_{k}_write")

    def read(self, symbols: "Octets", erased: Optional[Iterable[object]] = None) -> Optional[Tuple[bytes, int]]:
        """Returns the codeword that a received word decodes to, and how many symbols that changes; None if it is uncorrectable.

        At most (n - k) / 2 symbol errors are corrected. With `erased`, n truth values, the symbols with a true value are erased: then
        twice the errors among the others, and the erasures, are at most n - k. Error(letters) if an octet is above 63, an erased one too,
        and Error(length) if there are not n of them.
        """
        word = ctypes.create_string_buffer(exactly(symbols, self.n), self.n)
        if erased is None:
            answer = self._read(word)
        else:
            marks = [bool(it) for it in erased]
            if len(marks) != self.n:
                raise Error(Cause.LENGTH)
            answer = self._read_erased(word, (ctypes.c_bool * self.n)(*marks))
        return _reading(word.raw, answer)

    def write(self, info: "Octets") -> bytes:
        """Returns the codeword of an information of k octets. Error(letters) if one is above 63, Error(length) as above."""
        word = ctypes.create_string_buffer(exactly(info, self.k), self.n)
        if self._write(word) < 0:
            raise Error(Cause.LETTERS)
        return word.raw

    def __reduce__(self) -> Tuple[Any, ...]:
        return SymbolCode, (self.n, self.k)

    def __repr__(self) -> str:
        return f"<p25.SymbolCode ({self.n},{self.k})>"


class NumberCode:
    """A code of bits. A word is a number of n bits, the first one highest, and its k highest are the information."""

    def __init__(self, name: str, n: int, k: int) -> None:
        self.n, self.k = n, k
        self._name = name
        self._read = call(f"p25_{name}_read")
        self._write = call(f"p25_{name}_write")

    def read(self, word: int) -> Optional[Tuple[int, int]]:
        """Returns the codeword that a received word decodes to, and how many bits that changes; None if it is uncorrectable.
        Error(letters) if the number has more than n bits."""
        number = U32(number_of(word, (1 << self.n) - 1, Cause.LETTERS))
        answer = self._read(ctypes.byref(number))
        return _reading(number.value, answer)

    def write(self, info: int) -> int:
        """Returns the codeword of an information. Error(letters) if that has more than k bits."""
        return int(self._write(number_of(info, (1 << self.k) - 1, Cause.LETTERS)))

    def __reduce__(self) -> Tuple[Any, ...]:
        return NumberCode, (self._name, self.n, self.k)

    def __repr__(self) -> str:
        return f"<p25.NumberCode {self._name} ({self.n},{self.k})>"


class BlockCode:
    """A trellis code of packets (PDU). A block of 12 octets at half rate, or of 18 at three-quarter rate, is transmitted as 196 bits in 25 octets; the last
    four bits of these are not of the block."""

    def __init__(self, name: str, length: int) -> None:
        self.length = length
        self._name = name
        self._read = call(f"p25_{name}_read")
        self._read_levels = call(f"p25_{name}_read_levels")
        self._write = call(f"p25_{name}_write")

    def read(self, bits: "Octets") -> Tuple[bytes, int]:
        """Returns the octets of the first path that differs from the bits, 25 octets, in the fewest, and in how many bits it differs. The check of the block
        decides whether they are correct. Error(length) if there are not 25 octets."""
        octets = ctypes.create_string_buffer(self.length)
        distance = self._read(exactly(bits, 25), octets)
        return octets.raw, distance

    def read_levels(self, levels: Iterable[int]) -> Tuple[bytes, int]:
        """Returns the octets of the first path that is nearest to 98 levels, and its distance: the sum of the squares of the differences of the levels. A
        level is a number from -128 to 127 for two bits: 96 is 01, 32 is 00, -32 is 10 and -96 is 11. Error(length) if there are not 98, and Error(letters) if
        one is no such number."""
        given = list(levels)
        if len(given) != 98:
            raise Error(Cause.LENGTH)
        if not all(-128 <= it <= 127 for it in given):
            raise Error(Cause.LETTERS)
        octets = ctypes.create_string_buffer(self.length)
        cost = self._read_levels((ctypes.c_int8 * 98)(*given), octets)
        return octets.raw, cost

    def write(self, octets: "Octets") -> bytes:
        """Returns the 25 octets that carry a block. Error(length) if it has not its number of octets."""
        bits = ctypes.create_string_buffer(25)
        self._write(exactly(octets, self.length), bits)
        return bits.raw

    def __reduce__(self) -> Tuple[Any, ...]:
        return BlockCode, (self._name, self.length)

    def __repr__(self) -> str:
        return f"<p25.BlockCode {self._name}, {self.length} octets>"


RS_36_20, RS_24_12, RS_24_16 = SymbolCode(36, 20), SymbolCode(24, 12), SymbolCode(24, 16)
GOLAY_24, GOLAY_18 = NumberCode("golay24", 24, 12), NumberCode("golay18", 18, 6)
HAMMING_10, LSD_16 = NumberCode("hamming10", 10, 6), NumberCode("lsd16", 16, 8)
HALF_RATE, THREE_QUARTER_RATE = BlockCode("half_rate", 12), BlockCode("three_quarter_rate", 18)

_nid_read = call("p25_nid_read")
_nid_write = call("p25_nid_write")
_crc9 = call("p25_crc9")
_crc16 = call("p25_crc16")
_crc32 = call("p25_crc32")


def read_nid(bits: int) -> Optional[Tuple[int, int, int]]:
    """Returns the network access code (NAC) and data unit identifier (DUID) of 64 received bits of a network identifier (NID), and
    the number of bit errors in the first 63, at most 11; None if there are more. Error(letters) if the number has more than 64 bits."""
    nac, duid = U16(), U8()
    answer = _nid_read(number_of(bits, (1 << 64) - 1, Cause.LETTERS), ctypes.byref(nac), ctypes.byref(duid))
    return None if answer < 0 else (nac.value, duid.value, answer)


def write_nid(nac: int, duid: int) -> int:
    """Returns the 64 bits of a network identifier (NID) as a number. Error has the cause nac (above 4095) or duid (above 15)."""
    return int(_nid_write(number_of(nac, 4095, Cause.NAC), number_of(duid, 15, Cause.DUID)))


def crc9(serial: int, octets: "Octets") -> int:
    """Returns the nine check bits of a block of a confirmed packet (PDU), of its serial number and its sixteen octets. Error has
    the cause serial (above 127) or length."""
    return int(_crc9(number_of(serial, 127, Cause.SERIAL), exactly(octets, 16)))


def crc16(octets: "Octets") -> int:
    """Returns the sixteen check bits of the octets of the header of a packet (PDU)."""
    given = octets_of(octets)
    return int(_crc16(given, len(given)))


def crc32(octets: "Octets") -> int:
    """Returns the 32 check bits of the data and pad octets of a packet (PDU)."""
    given = octets_of(octets)
    return int(_crc32(given, len(given)))
