"""The forms in which receivers write a recording, converted to octets of p25 or levels of p25 soft.

A converter has two calls: `take(octets)` takes octets as they come and returns their conversion, and `end()` returns the rest at the end of the input.
"""

import array
import binascii
import functools
import itertools
import operator
import re
import struct
import sys

# The symbols of the dibits 0 to 3, and the dibits of the frame sync.
SYMBOLS = (1, 3, -1, -3)
SYNC = tuple(map(int, "111113113311333313133333"))
# Levels are followed over this many symbols after a sync, in blocks of this many.
FOLLOWED, BLOCK = 864, 72
BLANKS = b" \t\r\n\f\v"


class Refused(Exception):
    """An input of another form. `made` is the number of octets that were made before."""

    def __init__(self, why, made=b""):
        super().__init__(why)
        self.made = made


class Turns:
    """The turns of a form, which a converter takes back: in each dibit first the order of its bits, then its polarity; and in an octet the order of its
    dibits."""

    def __init__(self, polarity=False, swap=False, lowest=False):
        self.polarity, self.swap, self.lowest = polarity, swap, lowest

    def swapped(self, dibit):
        return dibit >> 1 | (dibit & 1) << 1 if self.swap else dibit

    def dibit(self, dibit):
        return self.swapped(dibit) ^ (2 if self.polarity else 0)

    def octets(self):
        """Returns the octet that each octet becomes, or None."""
        if not (self.polarity or self.swap or self.lowest):
            return None
        table = []
        for octet in range(256):
            dibits = [self.dibit(octet >> shift & 3) for shift in (6, 4, 2, 0)]
            a, b, c, d = reversed(dibits) if self.lowest else dibits
            table.append(a << 6 | b << 4 | c << 2 | d)
        return bytes(table)

    def level(self, level):
        """Returns the level that a level becomes: the nearest dibit changes, and its distance stays."""
        if self.swap:
            dibit = 1 if level >= 64 else 0 if level >= 0 else 2 if level >= -64 else 3
            level += 32 * (SYMBOLS[self.swapped(dibit)] - SYMBOLS[dibit])
        return max(-128, min(127, -level if self.polarity else level))


# Two digits of this many bits each, as an octet, are one digit of twice the bits.
NARROW = {bits: bytes(ord(f"{((octet >> 4) << bits | octet & (1 << bits) - 1) & 15:x}") for octet in range(256)) for bits in (1, 2)}


def packed(digits, bits):
    """Returns the octets of hexadecimal digits of 1, 2 or 4 bits each."""
    while True:
        digits = binascii.unhexlify(digits)
        if bits == 4:
            return digits
        digits = digits.translate(NARROW[bits])
        bits *= 2


class Whole:
    """Octets in groups that make whole octets, for `make`."""

    def __init__(self, size):
        self.size, self.kept = size, b""

    def take(self, octets):
        octets = self.kept + octets
        full = len(octets) - len(octets) % self.size
        self.kept = octets[full:]
        return self.make(octets[:full]) if full else b""

    def end(self):
        return b""

    def words(self):
        """Returns the message at the end, or None."""
        return None


class Digits(Whole):
    """Digits of 1, 2 or 4 bits as octets, which `values` maps to digits; `most` is the highest."""

    def __init__(self, turns, bits, values, most=255):
        super().__init__(8 // bits)
        self.bits, self.values, self.turned, self.most, self.others = bits, values, turns.octets(), most, 0
        self.usual = bytes(range(most + 1))

    def make(self, octets):
        if self.most < 255:
            self.others += len(octets.translate(None, self.usual))
        made = packed(octets.translate(self.values), self.bits) if self.bits < 8 else octets
        return made.translate(self.turned) if self.turned else made

    def words(self):
        if not self.others:
            return None
        which = ("0 to 3, and their lowest two bits were" if self.bits == 2 else "0 or 1, and their lowest bit was")
        return f"{self.others} octets were not {which} taken"


class Text:
    """A text of digits and blanks; with `is_log` the longest word of eight digits or more of each line."""

    def __init__(self, digits, signs, name, is_log):
        self.digits, self.name = digits, name
        self.other = re.compile(b"[^%s%s]" % (signs, BLANKS))
        self.word = re.compile(b"(?<![0-9A-Za-z.+])[%s]{8,}(?![0-9A-Za-z.])" % signs) if is_log else None
        self.usual = bytes(sign for sign in range(256) if not self.other.match(bytes([sign])))
        self.seen, self.kept = 0, b""

    def take(self, octets):
        if self.word:
            *lines, self.kept = (self.kept + octets).split(b"\n")
            return self.digits.take(b"".join(map(self.longest, lines)))
        # Leaving all usual signs out is quicker than a search.
        wrong = self.other.search(octets) if octets.translate(None, self.usual) else None
        made = self.digits.take(octets[: wrong.start() if wrong else None].translate(None, BLANKS))
        if wrong:
            sign = f"'{wrong[0].decode()}'" if b"!" <= wrong[0] <= b"~" else f"{wrong[0][0]:02x} hex"
            raise Refused(f"octet {self.seen + wrong.start()} is {sign}: a text of {self.name} and blanks", made)
        self.seen += len(octets)
        return made

    def longest(self, line):
        return max(self.word.findall(line), key=len, default=b"")

    def end(self):
        return self.digits.take(self.longest(self.kept)) if self.word else b""

    def words(self):
        return None


class Numbers:
    """A text of numbers with blanks or commas between them, as symbols."""

    number = re.compile(rb"[-+]?([0-9]+[.]?[0-9]*|[.][0-9]+)([eE][-+]?[0-9]+)?|nan|[-+]?inf", re.IGNORECASE)

    def __init__(self):
        self.kept, self.seen = b"", 0

    def symbols(self, octets, is_end=False):
        octets = self.kept + octets
        # A number ends with the blank after it.
        end = len(octets) if is_end else 1 + max(octets.rfind(blank) for blank in b" \t\r\n\f\v,;")
        whole, self.kept = octets[:end], octets[end:]
        texts = re.split(rb"[\s,;]+", whole.strip(b" \t\r\n\f\v,;"))
        try:
            return array.array("f", map(float, texts if texts != [b""] else []))
        except ValueError:
            text = next(text for text in texts if not self.number.fullmatch(text))
            raise Refused(f"'{text[:20].decode('latin-1')}' is no number: a text of numbers has blanks or commas between them") from None
        finally:
            self.seen += len(whole)


class Values:
    """Symbols as numbers of one width, lowest octet first."""

    def __init__(self, code):
        self.code, self.kept = code, b""
        self.width = array.array(code).itemsize

    def symbols(self, octets, is_end=False):
        octets = self.kept + octets
        full = len(octets) - len(octets) % self.width
        self.kept = octets[full:]
        values = array.array(self.code, octets[:full])
        if sys.byteorder == "big":
            values.byteswap()
        return values if self.code == "f" else array.array("f", values)


@functools.cache
def table_of(polarity, swap):
    """Returns the levels of floats by their upper two octets, which determine them."""
    turns = Turns(polarity, swap)
    return bytes(turns.level(level_of(symbol)) & 255 for (symbol,) in struct.iter_unpack("<f", b"".join(struct.pack("<I", upper << 16) for upper in range(65536))))


def level_of(symbol):
    """Returns the level of a symbol."""
    if symbol != symbol:
        return 0
    return 127 if symbol > 4 else -128 if symbol < -4 else -int(0.5 - 32 * symbol) if symbol < 0 else int(0.5 + 32 * symbol)


class Symbols:
    """Symbols as levels of p25 soft: 3 is 96."""

    def __init__(self, turns, source):
        self.source, self.turns = source, turns
        self.kept = array.array("f")
        self.table = None

    def take(self, octets):
        return self.given(self.source.symbols(octets))

    def end(self):
        return self.given(self.source.symbols(b"", True), True)

    def given(self, symbols, is_end=False):
        if self.turns.lowest:
            symbols = self.kept + symbols
            full = len(symbols) - len(symbols) % 4
            self.kept = symbols[full:]
            symbols = symbols[:full]
            symbols[0::4], symbols[1::4], symbols[2::4], symbols[3::4] = (symbols[place::4] for place in (3, 2, 1, 0))
        return self.levels(symbols, is_end)

    def levels(self, symbols, is_end):
        self.table = self.table or table_of(self.turns.polarity, self.turns.swap)
        uppers = array.array("H", struct.pack(f"<{len(symbols)}f", *symbols) if sys.byteorder == "big" else symbols.tobytes())
        return bytes(map(self.table.__getitem__, uppers[1::2]))

    def words(self):
        return None


def error_of(index):
    """Returns the distance of the level of an index, 0 to 255 for -128 to 127, from its nearest symbol, and that symbol; 0 outside of all."""
    level = index - 128
    nearest = 3 if level > 64 else 1 if level > 0 else -1 if level > -64 else -3
    error = level - 32 * nearest
    return (error if abs(error) < 32 else 0), nearest


ERRORS = bytes(error_of(index)[0] + 32 for index in range(256))
WEIGHTED = bytes(error_of(index)[0] * error_of(index)[1] + 96 for index in range(256))


class Adapted(Symbols):
    """Symbols at a scale and an offset that are not known.

    If 24 of them correlate with the sync by 0.9 or more, the line through them is the scale and the offset. The symbols of the unit after
    it correct both slowly. Each symbol waits for the 23 after it.
    """

    def __init__(self, turns, source, say):
        super().__init__(turns, source)
        self.say = say
        pattern = [SYMBOLS[next(dibit for dibit in range(4) if turns.dibit(dibit) == sync)] for sync in SYNC]
        self.mean = sum(pattern) / 24
        self.centred = [symbol - self.mean for symbol in pattern]
        self.spread = sum(it * it for it in self.centred)
        # A sync rises and falls as its pattern does, and few other positions do.
        steps = (b"\1" if after > before else b"\0" if after < before else b"." for before, after in zip(pattern, pattern[1:]))
        self.steps = re.compile(b"(?s)(?=" + b"".join(steps) + b")")
        self.table = bytes(turns.level(index - 128) & 255 for index in range(256))
        self.scale = None
        self.offset = 0.0
        self.syncs = self.left = self.symbol = 0
        self.waiting = array.array("f")
        self.told = ""

    def levels(self, symbols, is_end):
        waiting = self.waiting + symbols
        count = len(waiting) - (0 if is_end else 23)
        if count <= 0:
            self.waiting = waiting
            return b""
        if self.scale is None:
            self.begin(waiting)
        made, done = [], 0
        rises = bytes(map(operator.gt, itertools.islice(waiting, 1, None), waiting))
        for place in (found.start() for found in self.steps.finditer(rises)):
            if place >= count:
                break
            line = self.line(waiting[place : place + 24])
            if line:
                self.follow(waiting[done:place], made)
                done = place
                self.move(*line)
        self.follow(waiting[done:count], made)
        self.waiting = waiting[count:]
        return b"".join(made)

    def begin(self, symbols):
        """Sets the scale for the levels before the first sync, from their mean width."""
        usual = [it for it in symbols if abs(it) < 1e30]
        mean = sum(usual) / max(1, len(usual))
        width = sum((it - mean) ** 2 for it in usual) / max(1, len(usual))
        self.scale, self.offset = ((width / 5) ** 0.5, mean) if width > 0 else (1.0, 0.0)

    def line(self, symbols):
        """Returns the scale and offset of 24 symbols, if they are a sync."""
        total = sum(symbols)
        power = sum(map(operator.mul, symbols, symbols)) - total * total / 24
        along = sum(map(operator.mul, symbols, self.centred))
        if not (along > 0 and along * along >= 0.81 * self.spread * power):
            return None
        return along / self.spread, total / 24 - self.mean * along / self.spread

    def move(self, scale, offset):
        """Moves to the scale and offset of a sync: by a fourth of the way if they are near, else by all of it."""
        is_near = self.syncs and abs(scale / self.scale - 1) < 0.2 and abs(offset - self.offset) < 0.5 * self.scale
        part = 4 if is_near else 1
        self.scale += (scale - self.scale) / part
        self.offset += (offset - self.offset) / part
        self.syncs += 1
        self.left = FOLLOWED
        if not is_near:
            text = f"scale {self.scale:.4g}, offset {self.offset:.4g}"
            if text != self.told:
                self.say(f"from symbol {self.symbol} on: {text}")
            self.told = text

    def follow(self, symbols, made):
        """Appends the levels of symbols. Those in a unit correct the scale and the offset."""
        place = 0
        while place < len(symbols):
            size = min(BLOCK, self.left) if self.left else len(symbols)
            indices = self.indices(symbols[place : place + size])
            made.append(indices.translate(self.table))
            if self.left:
                count = len(indices)
                self.left -= count
                scale = self.scale / 32
                self.offset += scale * (sum(indices.translate(ERRORS)) - 32 * count) / 256
                self.scale += scale * (sum(indices.translate(WEIGHTED)) - 96 * count) / 1280
            place += len(indices)
        self.symbol += len(symbols)

    def indices(self, symbols):
        """Returns the levels of symbols, from 0 on for -128."""
        scale = 32 / self.scale
        offset = 128.5 - self.offset * scale
        try:
            return bytes([int(symbol * scale + offset) for symbol in symbols])
        except (ValueError, OverflowError):
            usual = (symbol * scale + offset if abs(symbol) < 1e30 else 128 for symbol in symbols)
            return bytes([0 if it < 0 else 255 if it > 255 else int(it) for it in usual])

    def words(self):
        if not self.syncs:
            return "no sync was found, so neither scale nor offset is known"
        return f"at the end: scale {self.scale:.4g}, offset {self.offset:.4g}, from {self.syncs} syncs"


SAME = bytes(range(256))
LOWEST = {bits: bytes(ord("0") + octet % 2**bits for octet in range(256)) for bits in (1, 2)}
TEXTS = {"digits": (2, b"0-3", "digits has the digits 0 to 3"), "bits": (1, b"01", "bits has the digits 0 and 1"), "hex": (4, b"0-9A-Fa-f", "hex has the digits 0 to f")}
WIDTHS = {"floats": "f", "doubles": "d", "shorts": "h", "signed": "b"}
FORMS = ("octets", "dibits", "unpacked", *TEXTS, *WIDTHS, "numbers")


def has_levels(form):
    """Returns whether a form becomes levels for p25 soft."""
    return form in WIDTHS or form == "numbers"


def converter(form, turns, adapts=False, is_log=False, say=lambda text: None):
    """Returns the converter of a form into octets, or into levels."""
    if form == "octets":
        return Digits(turns, 8, SAME)
    if form in ("dibits", "unpacked"):
        bits = 2 if form == "dibits" else 1
        return Digits(turns, bits, LOWEST[bits], 2**bits - 1)
    if form in TEXTS:
        bits, signs, name = TEXTS[form]
        return Text(Digits(turns, bits, SAME), signs, name, is_log)
    source = Numbers() if form == "numbers" else Values(WIDTHS[form])
    return Adapted(turns, source, say) if adapts else Symbols(turns, source)
