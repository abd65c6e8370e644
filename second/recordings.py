"""Units, the items of a recording, the commands that read a recording, and the lines that are built."""
import re
from functools import lru_cache
from itertools import repeat
from codes import (GOLAY_18, GOLAY_24, HAMMING_10, LOW_SPEED, SYNC, bch_nearest, bch_word, bits_of, crc_9, crc_16, crc_32, cut_up, distance,
                   golay_18, golay_24, hamming_10, low_speed_16, number_of, reed_solomon_near, reed_solomon_word, trellis_nearest, trellis_word)

DUIDS = {'hdu': 0, 'tdu': 3, 'ldu1': 5, 'ldu2': 10, 'confirmed': 12, 'plain': 12, 'response': 12, 'tdulc': 15}
KINDS = {0: 'hdu', 3: 'tdu', 5: 'ldu1', 10: 'ldu2', 15: 'tdulc'}
BITS = {0: 792, 3: 144, 5: 1728, 10: 1728, 15: 432}
# The types that may come after a unit of a type, with the next voice unit first.
AFTER = {0: (5, 15, 3), 5: (10, 15, 3), 10: (5, 15, 3), 15: (0, 15, 3)}
FORMATS = {0x16: 'confirmed', 0x15: 'plain', 0x03: 'response'}
KEYS = {'hdu': [('nac', 3), ('mi', 18), ('mfid', 2), ('algid', 2), ('kid', 4), ('tgid', 4)],
        'ldu1': [('nac', 3), ('lc', 18), ('lsd', 4), ('voice', 324)],
        'ldu2': [('nac', 3), ('mi', 18), ('algid', 2), ('kid', 4), ('lsd', 4), ('voice', 324)],
        'tdu': [('nac', 3)],
        'tdulc': [('nac', 3), ('lc', 18)],
        'confirmed': [('nac', 3), ('head', 20), ('blocks', None)],
        'plain': [('nac', 3), ('head', 20), ('octets', None)],
        'response': [('nac', 3), ('head', 20), ('octets', None)]}
VOICE = [112, 256, 440, 624, 808, 992, 1176, 1360, 1536]
LINKS = [place + 10 * word for place in (400, 584, 768, 952, 1136, 1320) for word in range(4)]
LONGEST = 8192


def hexadecimal(bits):
    return '%0*x' % (len(bits) // 4, number_of(bits))


def binary(digits):
    return bits_of(int(digits or '0', 16), 4 * len(digits))


def length_for(payload):
    """Returns the length of a unit with status symbols, given its length without: whole groups of 72 bits."""
    return 72 * -(-payload // 70)


def blocks_of(head):
    """Returns the number of blocks to follow that a header of 80 bits names."""
    return number_of(head[49:56])


# A unit is a type and a list of values, in digits of hexadecimal as in its line.

def line_of(unit):
    kind, values = unit
    return ' '.join([kind] + ['%s=%s' % (key, value) for (key, _), value in zip(KEYS[kind], values)])


def value(unit, key):
    for (known, _), answer in zip(KEYS[unit[0]], unit[1]):
        if known == key:
            return answer
    return None


def front(nac, duid):
    """Returns the sync and the 64 bits of the network identifier (NID); the last bit is 1 for a voice unit."""
    return bits_of(SYNC, 48) + bits_of(bch_word(nac << 4 | duid), 63) + ('1' if duid in (5, 10) else '0')


def payload_of(unit):
    """Returns the bits of a unit without its status symbols."""
    kind = unit[0]
    start = front(int(value(unit, 'nac'), 16), DUIDS[kind])
    if kind == 'hdu':
        rest = ''.join(bits_of(GOLAY_18[symbol], 18) for symbol in code_word(''.join(unit[1][1:]), 36))
    elif kind == 'tdulc':
        symbols = code_word(unit[1][1], 24)
        rest = ''.join(bits_of(GOLAY_24[symbols[place] << 6 | symbols[place + 1]], 24) for place in range(0, 24, 2))
    elif kind in ('ldu1', 'ldu2'):
        return voice_payload(start, unit)
    elif kind == 'tdu':
        rest = ''
    else:
        rest = packet_payload(unit)
    bits = start + rest
    return bits + '0' * (-len(bits) % 70)


def code_word(digits, size):
    return reed_solomon_word([int(six, 2) for six in cut_up(binary(digits), 6)], size)


def voice_payload(start, unit):
    bits = [None] * 1680
    bits[:112] = start

    def put(place, text):
        bits[place:place + len(text)] = text

    fields = unit[1][1] if unit[0] == 'ldu1' else ''.join(unit[1][1:4])
    for place, symbol in zip(LINKS, code_word(fields, 24)):
        put(place, bits_of(HAMMING_10[symbol], 10))
    for place, octet in zip((1504, 1520), cut_up(value(unit, 'lsd'), 2)):
        put(place, bits_of(LOW_SPEED[int(octet, 16)], 16))
    for place, frame in zip(VOICE, cut_up(value(unit, 'voice'), 36)):
        put(place, binary(frame))
    return ''.join(bits)


def packet_payload(unit):
    head = binary(value(unit, 'head'))
    blocks = [trellis_word(False, head + bits_of(crc_16(head), 16))]
    if unit[0] == 'confirmed':
        for serial, digits in listed_blocks(value(unit, 'blocks')):
            checked = bits_of(serial, 7) + binary(digits)
            blocks.append(trellis_word(True, checked[:7] + bits_of(crc_9(checked), 9) + checked[7:]))
    elif value(unit, 'octets') != '-':
        octets = binary(value(unit, 'octets'))
        blocks += [trellis_word(False, block) for block in cut_up(octets + bits_of(crc_32(octets), 32), 96)]
    return ''.join(blocks)


def listed_blocks(text):
    return [] if text == '-' else [(int(block[:2], 16), block[3:]) for block in text.split(',')]


def with_status(payload, symbols):
    return ''.join(piece + bits_of(symbol, 2) for piece, symbol in zip(cut_up(payload, 70), symbols))


def unit_bits(unit, status):
    return with_status(payload_of(unit), repeat(status))


def octets_of(bits):
    bits += '0' * (-len(bits) % 8)
    return number_of(bits).to_bytes(len(bits) // 8, 'big')


# Reading.

def without_status(bits):
    return ''.join(piece[:70] for piece in cut_up(bits, 72))


def statuses(bits):
    return [int(piece[70:], 2) for piece in cut_up(bits, 72)]


def words(payload, places, width):
    return [int(payload[place:place + width], 2) for place in places]


def as_digits(symbols):
    return hexadecimal(''.join(bits_of(symbol, 6) for symbol in symbols))


def split(digits, widths):
    answer = []
    for width in widths:
        answer.append(digits[:width])
        digits = digits[width:]
    return answer


def field(received, data):
    """Returns the digits of a Reed-Solomon field, or None."""
    symbols = reed_solomon_near(received, data)
    return None if symbols is None else as_digits(symbols)


def read_header(payload, nac, _):
    digits = field([golay_18(word) for word in words(payload, range(112, 760, 18), 18)], 20)
    return (None, ['header_word']) if digits is None else (('hdu', [nac] + split(digits, (18, 2, 2, 4, 4))), [])


def read_terminator(payload, nac, _):
    received = []
    for word in words(payload, range(112, 400, 24), 24):
        data = golay_24(word)
        received += [None, None] if data is None else [data >> 6, data & 63]
    digits = field(received, 12)
    return (None, ['link_control']) if digits is None else (('tdulc', [nac, digits]), [])


def read_voice(payload, nac, kind):
    faults = []
    received = [hamming_10(word) for word in words(payload, LINKS, 10)]
    digits = field(received, 12 if kind == 'ldu1' else 16)
    if digits is None:
        faults.append('link_control' if kind == 'ldu1' else 'encryption_sync')
    low = [low_speed_16(word) for word in words(payload, (1504, 1520), 16)]
    faults += ['low_speed_%d' % (place + 1) for place in (0, 1) if low[place] is None]
    if faults:
        return None, faults
    voice = hexadecimal(''.join(payload[place:place + 144] for place in VOICE))
    fields = [digits] if kind == 'ldu1' else split(digits, (18, 2, 4))
    return (kind, [nac] + fields + ['%02x%02x' % tuple(low), voice]), []


def confirmed_blocks(data):
    """Returns the serial number and the digits of each block of a confirmed packet, or None if its check does not agree."""
    blocks = [trellis_nearest(True, block) for block in data]
    return [(int(block[:7], 2), hexadecimal(block[16:])) if crc_9(block[:7] + block[16:]) == int(block[7:16], 2) else None for block in blocks]


def read_packet(payload, nac, head):
    kind = FORMATS.get(number_of(head[3:8]))
    if kind is None:
        return None, ['format']
    bare = hexadecimal(head)
    data = cut_up(payload[308:308 + 196 * blocks_of(head)], 196)
    if kind == 'confirmed':
        blocks = confirmed_blocks(data)
        faults = ['block.%d' % place for place, block in enumerate(blocks) if block is None]
        return (None, faults) if faults else ((kind, [nac, bare, ','.join('%02x:%s' % block for block in blocks) or '-']), [])
    blocks = [trellis_nearest(False, block) for block in data]
    octets = ''.join(blocks)
    if octets and crc_32(octets[:-32]) != int(octets[-32:], 2):
        return None, ['packet_crc']
    return (kind, [nac, bare, hexadecimal(octets[:-32]) if octets else '-']), []


def head_of(payload):
    """Returns the 80 bits of a packet's header, or None if its check does not agree."""
    block = trellis_nearest(False, payload[112:308])
    return block[:80] if crc_16(block[:80]) == int(block[80:], 2) else None


class Item:
    """A part of a recording: its word, its position, its bits, and the rest of its line."""

    def __init__(self, word, at, bits, **more):
        self.word, self.at, self.bits = word, at, bits
        self.unit = self.sent = self.raw = self.field = self.nac = self.duid = None
        self.fix = 0
        self.__dict__.update(more)

    def line(self):
        if self.word == 'unit':
            symbols = ''.join(map(str, statuses(self.raw)))
            return 'unit at=%d bits=%d fix=%d status=%s %s' % (self.at, self.bits, self.fix, symbols, line_of(self.unit))
        if self.word == 'broken':
            return 'broken at=%d bits=%d nac=%03x duid=%x fields=%s' % (self.at, self.bits, self.nac, self.duid, ','.join(self.field))
        if self.word == 'nounit':
            return 'nounit at=%d field=%s' % (self.at, self.field)
        return '%s at=%d bits=%d' % (self.word, self.at, self.bits)


def looked_at(unit, size):
    """Returns the positions of the bits without status symbols that are examined."""
    kind = unit[0]
    places = list(range(111))
    if kind in ('ldu1', 'ldu2'):
        return places + [place + bit for place in LINKS for bit in range(10)] + list(range(1504, 1536))
    ends = {'hdu': 760, 'tdu': 112, 'tdulc': 400}
    return places + list(range(112, ends.get(kind) or size))


def item_at(bits, at):
    """Returns the item that begins with the sync at a position."""
    left = len(bits) - at
    if left < 114:
        return Item('cut', at, left)
    word = bits[at:at + 114]
    data = bch_nearest(int(word[48:70] + word[72:113], 2))
    if data is None:
        return Item('nounit', at, 1, field='nid')
    nac, duid = data >> 4, data & 15
    head = None
    if duid == 12:
        if left < 316:
            return Item('cut', at, left)
        head = head_of(without_status(bits[at:at + 316]))
        if head is None:
            return Item('nounit', at, 1, field='packet_header')
        size = length_for(308 + 196 * blocks_of(head))
    elif duid in BITS:
        size = BITS[duid]
    else:
        return Item('nounit', at, 1, field='duid')
    if left < size:
        return Item('cut', at, left)
    raw = bits[at:at + size]
    return read_unit(Item('unit', at, size, raw=raw, nac=nac, duid=duid), head)


def read_unit(item, head):
    """Decodes the fields of a unit whose NID, and for a packet its header, decode."""
    payload = without_status(item.raw)
    read = {0: read_header, 3: lambda _, nac, __: (('tdu', [nac]), []), 12: read_packet, 15: read_terminator}.get(item.duid, read_voice)
    unit, faults = read(payload, '%03x' % item.nac, head or KINDS.get(item.duid))
    if faults:
        item.word, item.field = 'broken', faults
        return item
    item.unit, item.sent = unit, payload_of(unit)
    size = 308 + 196 * blocks_of(head) if head else 0
    item.fix = sum(item.sent[place] != payload[place] for place in looked_at(unit, size))
    return item


def sync_places(bits):
    """Yields each position at which 48 bits differ from the frame sync in at most four."""
    whole, mask, window = len(bits), (1 << 48) - 1, 0
    for place in range(whole):
        window = (window << 1 | (bits[place] == '1')) & mask
        if place >= 47 and (window ^ SYNC).bit_count() <= 4:
            yield place - 47


@lru_cache(maxsize=1)
def items(bits):
    at, found = 0, []
    for place in sync_places(bits):
        if place >= at:
            found += gaps(at, place) + [item_at(bits, place)]
            at = place + found[-1].bits
    return found + gaps(at, len(bits))


def gaps(start, end):
    return [Item('gap', at, min(4096, end - at)) for at in range(start, end, 4096)]


# Commands that read a recording: each returns the output and the exit status.

def show(bits):
    return ''.join(item.line() + '\n' for item in items(bits)).encode(), 0, ''


def check(bits):
    units, lines = 0, []
    for item in items(bits):
        if item.word == 'unit':
            units += 1
        else:
            lines.append(item.line() + '\n')
    faults = len(lines)
    lines.append('check units=%d faults=%d\n' % (units, faults))
    return ''.join(lines).encode(), 7 if faults else 0, 'found %d\n' % faults if faults else ''


def written(bits, change):
    """Returns the octets of a recording with some of its items changed; all other bits stay."""
    changed = [change(item) for item in items(bits)]
    return octets_of(''.join(bits[item.at:item.at + item.bits] if new is None else new for item, new in zip(items(bits), changed))), 0, ''


def repair(bits):
    return written(bits, lambda item: with_status(item.sent, statuses(item.raw)) if item.unit else None)


def under(item, nac, status):
    """Returns a unit under a NAC and with a status symbol; a broken unit keeps the bits after sync and NID."""
    if item.unit:
        return unit_bits((item.unit[0], ['%03x' % nac] + item.unit[1][1:]), status)
    return with_status(front(nac, item.duid) + without_status(item.raw)[112:], repeat(status))


def bridge(bits, nac, status):
    return written(bits, lambda item: under(item, nac, status) if item.unit else '')


def relay(bits, nac, status):
    return written(bits, lambda item: under(item, nac, status) if item.raw else None)


def follow(bits):
    found = [item for item in items(bits) if item.raw or item.word == 'cut']
    for item, then in zip(found, found[1:] + [None]):
        at, kind, end = item.at + item.bits, item.duid, then.at if then else len(bits)
        while at < end and (kind := coming(bits, at, end, item.nac, kind, then)) is not None:
            new = front(item.nac, kind)
            bits = bits[:at] + new[:70] + bits[at + 70:at + 72] + new[70:] + bits[at + 114:]
            at += BITS[kind]
    return octets_of(bits), 0, ''


def coming(bits, at, end, nac, kind, then, lost=3):
    """Returns the type of the unit at a position after a unit, if it is found there or is the next unit found. Else it is that of a voice unit whose sync and
    NID are lost, if some more may be lost; or None."""
    may = AFTER.get(kind, ())
    if at == end:
        return then.duid if then and then.nac == nac and then.duid in may else None
    if not may or end - at < 144:
        return None
    word = int(bits[at + 48:at + 70] + bits[at + 72:at + 113], 2)
    data = bch_nearest(word)
    if data is None:
        near = min(may, key=lambda one: distance(bch_word(nac << 4 | one), word))
        wrong = distance(bch_word(nac << 4 | near), word)
        told = wrong <= 16 and wrong + distance(int(bits[at:at + 48], 2), SYNC) <= 30
    else:
        near, told = data & 15, True
        if data >> 4 != nac or near not in may:
            return None
    if told and at + BITS[near] <= end:
        return near
    voice, after = may[0], at + 1728
    if lost and voice and after <= end and coming(bits, after, end, nac, voice, then, lost - 1) is not None:
        return voice
    return None


class Call:
    def __init__(self, item):
        self.at, self.nac, self.entry = item.at, item.nac, 'header' if item.duid == 0 else 'late'
        self.end = item.at
        self.links = self.broken = 0
        self.link_control = self.algorithm = 'none'

    def take(self, item):
        self.end = item.at + item.bits
        self.links += item.duid in (5, 10)
        self.broken += item.word == 'broken'
        if item.word == 'unit' and item.unit[0] in ('ldu1', 'tdulc') and self.link_control == 'none':
            self.link_control = value(item.unit, 'lc')
        if item.word == 'unit' and item.unit[0] in ('hdu', 'ldu2') and self.algorithm == 'none':
            self.algorithm = value(item.unit, 'algid')

    def line(self, end):
        return 'call at=%d bits=%d nac=%03x entry=%s end=%s links=%d broken=%d lc=%s alg=%s\n' % (
            self.at, self.end - self.at, self.nac, self.entry, end, self.links, self.broken, self.link_control, self.algorithm)


def calls(bits):
    lines, call = [], None

    def close(end):
        if call and call.links:
            lines.append(call.line(end))

    for item in items(bits):
        if item.word not in ('unit', 'broken'):
            continue
        if call and (item.duid in (0, 12) or item.nac != call.nac or item.at - call.end > 3456):
            close('open')
            call = None
        if item.duid == 12:
            continue
        call = call or Call(item)
        call.take(item)
        if item.duid in (3, 15):
            close(KINDS[item.duid])
            call = None
    close('open')
    return (''.join(lines) + 'calls=%d\n' % len(lines)).encode(), 0, ''


# Building.

class Fault(Exception):
    """The first fault of a line."""


def words_of(line):
    """Returns the words of a line of octets, or raises its fault."""
    if len(line) > LONGEST:
        raise Fault('long')
    if not re.fullmatch(rb'[\x21-\x7e]+( [\x21-\x7e]+)*', line):
        raise Fault('form')
    return line.decode('ascii').split(' ')


def parsed(line):
    """Returns the unit of a line of octets."""
    kind, *given = words_of(line)
    if kind not in KEYS:
        raise Fault('kind')
    keys = KEYS[kind]
    if len(given) != len(keys) or any(not word.startswith(key + '=') for word, (key, _) in zip(given, keys)):
        raise Fault('key')
    values = [word.split('=', 1)[1] for word in given]
    for text, (_, width) in zip(values, keys):
        if width and not re.fullmatch('[0-9a-f]{%d}' % width, text):
            raise Fault('value')
    unit = (kind, values)
    if kind in ('confirmed', 'plain', 'response') and not packet_agrees(unit):
        raise Fault('value')
    return unit


def packet_agrees(unit):
    kind, (_, head, data) = unit
    count = blocks_of(binary(head))
    if FORMATS.get(int(head[:2], 16) & 31) != kind:
        return False
    if count == 0:
        return data == '-'
    if kind == 'confirmed':
        return bool(re.fullmatch('[0-7][0-9a-f]:[0-9a-f]{32}(,[0-7][0-9a-f]:[0-9a-f]{32}){%d}' % (count - 1), data))
    return bool(re.fullmatch('[0-9a-f]{%d}' % (24 * count - 8), data))


def lines_of(text):
    lines = text.split(b'\n')
    return lines[:-1] if lines[-1] == b'' else lines


def build(text, status):
    parts = []
    for number, line in enumerate(lines_of(text), 1):
        try:
            unit = parsed(line)
        except Fault as fault:
            return octets_of(''.join(parts)), 2, 'line %d: %s\n' % (number, fault)
        parts.append(unit_bits(unit, status))
    return octets_of(''.join(parts)), 0, ''
