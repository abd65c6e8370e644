"""Random inputs: recordings, unit lines and scripts. Each call takes the source of numbers, a random.Random."""
import codes
import recordings
import stations
from codes import bits_of, cut_up

RATES = [0, 0, 0.0005, 0.002, 0.005, 0.01, 0.02, 0.03, 0.05, 0.07, 0.09, 0.12, 0.2]


def digits(lot, count):
    fill = lot.choice(['0123456789abcdef', '0123456789abcdef', '0', '01', 'f'])
    return ''.join(lot.choice(fill) for _ in range(count))


def noise(lot, count):
    return bits_of(lot.getrandbits(count), count) if count else ''


def some_blocks(lot):
    return lot.choice([0, 1, 1, 2, 2, 3, 4, 5, 8, lot.randrange(20), lot.randrange(128) if lot.random() < 0.1 else 3])


def head(lot, form, blocks):
    octets = [lot.randrange(256) for _ in range(10)]
    octets[0] = octets[0] & 0xE0 | form
    octets[6] = octets[6] & 0x80 | blocks
    return ''.join('%02x' % octet for octet in octets)


def unit(lot, nac=None, kind=None):
    """Returns a unit of any type, or of a given one."""
    nac = nac or digits(lot, 3)
    kind = kind or lot.choice(['hdu', 'ldu1', 'ldu1', 'ldu2', 'ldu2', 'tdu', 'tdulc', 'confirmed', 'plain', 'response'])
    if kind not in recordings.FORMATS.values():
        return kind, [nac] + [digits(lot, width) for _, width in recordings.KEYS[kind][1:]]
    blocks = some_blocks(lot)
    form = {name: form for form, name in recordings.FORMATS.items()}[kind]
    data = '-'
    if blocks and kind == 'confirmed':
        data = ','.join('%02x:%s' % (lot.randrange(128), digits(lot, 32)) for _ in range(blocks))
    elif blocks:
        data = digits(lot, 24 * blocks - 8)
    return kind, [nac, head(lot, form, blocks), data]


def flipped(bits, places):
    bits = list(bits)
    for place in places:
        if place < len(bits):
            bits[place] = '10'[int(bits[place])]
    return ''.join(bits)


def some_of(lot, start, size, most):
    """Returns a number of positions, up to a limit, within a range."""
    return [start + place for place in lot.sample(range(size), min(size, lot.randrange(most + 1)))]


# For a type with codewords: their positions, their length, their decoder, a table of all codewords, how many bit errors each corrects, and how many may be
# erased.
WORDS = {'hdu': (range(112, 760, 18), 18, codes.golay_18, codes.GOLAY_18, 3, 16),
         'tdulc': (range(112, 400, 24), 24, codes.golay_24, codes.GOLAY_24, 3, 6),
         'ldu1': (recordings.LINKS, 10, codes.hamming_10, codes.HAMMING_10, 1, 12),
         'ldu2': (recordings.LINKS, 10, codes.hamming_10, codes.HAMMING_10, 1, 8)}


def bordered(lot, kind, payload):
    """Returns the bits of a unit of which about as many codewords are erased and wrong as its outer code corrects."""
    places, width, read, table, most, room = WORDS[kind]
    lost = lot.randrange(room + 1)
    wrong = max(0, (room - lost) // 2 + lot.choice([-1, 0, 0, 0, 1]))
    chosen = lot.sample(places, lost + wrong + lot.choice([0, 0, 0, 1]))
    for number, place in enumerate(chosen):
        word = lot.getrandbits(width) if number < lost else lot.choice(table) ^ lot.choice([0, 1, 1 << width - 1])
        while number < lost and read(word) is not None:
            word = lot.getrandbits(width)
        payload = payload[:place] + bits_of(word, width) + payload[place + width:]
    return flipped(payload, [place + bit for place in places if place not in chosen for bit in some_of(lot, 0, width, lot.randrange(most + 1))])


def strained(lot, kind, payload):
    """Returns the bits of a unit, damaged near the correction radii of its codes."""
    places = []
    if lot.random() < 0.4:
        places += [bit for bit in lot.sample(range(48), lot.choice([1, 3, 4, 4, 5]))]
    if lot.random() < 0.4:
        places += [48 + bit for bit in lot.sample(range(64), lot.choice([1, 5, 9, 10, 11, 11, 12, 13]))]
    if kind in WORDS:
        payload = bordered(lot, kind, payload)
    if kind in ('ldu1', 'ldu2'):
        places += some_of(lot, 1504, 16, 3) + some_of(lot, 1520, 16, 3)
    if kind in recordings.FORMATS.values():
        for start in range(112, len(payload) - 195, 196):
            places += some_of(lot, start, 196, lot.choice([0, 2, 4, 6, 8]))
    return flipped(payload, places)


def raw_packet(lot, form, blocks, bodies):
    """Returns a packet whose header names a format and blocks, and that carries blocks of the two rates, correct or wrong."""
    nac = lot.randrange(4096)
    bits = recordings.front(nac, 12)
    top = recordings.binary(head(lot, form, blocks))
    check = codes.crc_16(top) ^ (lot.random() < 0.1)
    bits += codes.trellis_word(False, top + bits_of(check, 16))
    for _ in range(bodies):
        body = lot.randrange(4)
        if body == 0:
            bits += codes.trellis_word(False, noise(lot, 96))
        elif body == 1:
            bits += codes.trellis_word(True, noise(lot, 144))
        elif body == 2:
            checked = noise(lot, 135)
            bits += codes.trellis_word(True, checked[:7] + bits_of(codes.crc_9(checked), 9) + checked[7:])
        else:
            bits += noise(lot, 196)
    return bits + '0' * (-len(bits) % 70)


def statuses(lot, payload):
    count = len(payload) // 70 + 1
    same = lot.randrange(4)
    return [lot.randrange(4) for _ in range(count)] if lot.random() < 0.5 else [same] * count


def piece(lot, nac, rate):
    """Returns a part of a recording."""
    chance = lot.random()
    if chance < 0.62:
        made = unit(lot, nac if lot.random() < 0.8 else None)
        payload = recordings.payload_of(made)
        if lot.random() < 0.35:
            payload = strained(lot, made[0], payload)
        return worn(lot, recordings.with_status(payload, statuses(lot, payload)), rate)
    if chance < 0.70:
        return noise(lot, lot.choice([1, 3, 17, 60, 144, 500, 3000, 5000, lot.randrange(12000)]))
    if chance < 0.76:
        length = lot.choice([2, 72, 100, 1728, 3455, 3456, 3457, 4095, 4096, 4097, lot.randrange(9000)])
        return lot.choice(['0', '1', '01', '0011']) * (length // 2)
    if chance < 0.84:
        payload = raw_packet(lot, lot.choice([0x16, 0x15, 0x03, lot.randrange(32)]), lot.choice([0, 1, 2, 127, lot.randrange(128)]), lot.randrange(5))
        return worn(lot, recordings.with_status(payload, statuses(lot, payload)), rate)
    if chance < 0.89:
        return crowd(lot)
    if chance < 0.96:
        return worn(lot, chain(lot, nac), lot.choice([0, 0, rate]))
    # A sync with an NID of any data unit, and noise.
    payload = recordings.front(lot.randrange(4096), lot.randrange(16))
    payload = flipped(payload, [48 + bit for bit in lot.sample(range(64), lot.randrange(14))])
    return recordings.with_status(payload, statuses(lot, payload)) + noise(lot, lot.choice([0, 30, 200, 400]))


def chain(lot, nac):
    """Returns units end to end; in many of them sync and NID are damaged or lost."""
    parts, lost, kind = [], 0, lot.choice([0, 5, 10, 15, 5, 3])
    for _ in range(lot.choice([2, 4, 6, 9])):
        if lot.random() < 0.06:
            nac = digits(lot, 3)
        made = unit(lot, nac, recordings.KINDS[kind] if lot.random() < 0.97 else None)
        payload = recordings.payload_of(made)
        if lot.random() < 0.15:
            payload = strained(lot, made[0], payload)
        lost = lost - 1 if lost else lot.choice([0, 0, 0, 0, 1, 1, 2, 3, 4])
        if parts and (lost or lot.random() < 0.5):
            payload = other_front(lot, int(nac, 16), kind, lost) + payload[112:]
        bits = recordings.with_status(payload, statuses(lot, payload))
        if lot.random() < 0.06:
            # Another sync and NID, or noise, is in the unit.
            place, there = lot.randrange(len(bits)), lot.choice([recordings.front(int(nac, 16), lot.choice([0, 3, 5, 10, 15])), noise(lot, 112), noise(lot, 4)])
            bits = bits[:place] + there + bits[place + len(there) + lot.choice([0, 0, 0, 1, -1]):]
        parts.append(bits)
        kinds = recordings.AFTER.get(kind, (0, 5, 10, 15)) if lot.random() < 0.95 else (0, 5, 10, 15, 3)
        kind = kinds[0] if lot.random() < 0.7 else lot.choice(kinds)
    bits = ''.join(parts)
    return bits[:len(bits) - lot.choice([1, 2, 8, 100, 143, 144, 145, 431, 432, 1727, 1728, lot.randrange(2000)])] if lot.random() < 0.3 else bits


def other_front(lot, nac, kind, lost):
    """Returns 112 bits: sync and NID with about as many bit errors as are still found, those of another unit, or noise."""
    chance, sent = lot.random(), recordings.front(nac, kind)
    if lost or chance < 0.1:
        return noise(lot, 112)
    wrong = lot.choice([0, 1, 10, 11, 11, 12, 12, 14, 15, 16, 16, 16, 17, 17])
    if chance < 0.2:
        # An NID about as far from that of another type that may come.
        other = recordings.front(nac, lot.choice([0, 3, 5, 10, 15]))
        apart = [place for place in range(48, 111) if sent[place] != other[place]]
        places = lot.sample(apart, min(len(apart), len(apart) // 2 + lot.choice([0, 0, 1]))) + lot.sample(range(48), lot.choice([0, 5, 14, 18]))
        return flipped(sent, places)
    if chance < 0.3:
        sent = recordings.front(lot.choice([nac, nac ^ 1, lot.randrange(4096)]), lot.randrange(16))
    of_sync = lot.choice([3, 4, 5, 5, 6, 14, 24, 29 - wrong, 30 - wrong, 30 - wrong, 31 - wrong, 31 - wrong, 40, 48])
    return flipped(sent, lot.sample(range(48), of_sync) + lot.sample(range(48, 111), wrong) + some_of(lot, 111, 1, 1))


def crowd(lot):
    """Returns many syncs, near one another and one over the other."""
    parts = []
    for _ in range(lot.randrange(1, 13)):
        sync = flipped(bits_of(codes.SYNC, 48), lot.sample(range(48), lot.choice([0, 0, 1, 4, 5])))
        parts.append(sync[:lot.choice([48, 48, 48, 30, 47])] + noise(lot, lot.choice([0, 0, 1, 20, 66, 68, 100])))
    return ''.join(parts)


def worn(lot, bits, rate):
    """Returns the bits with bit errors at a rate, and sometimes a fade, a slip or a missing end."""
    if not bits:
        return bits
    bits = flipped(bits, [place for place in range(len(bits)) if lot.random() < rate]) if rate else bits
    chance = lot.random()
    if chance < 0.08:
        start, size = lot.randrange(len(bits)), lot.choice([10, 40, 80, 200, 600])
        bits = bits[:start] + noise(lot, min(size, len(bits) - start)) + bits[start + size:]
    elif chance < 0.14:
        place = lot.randrange(len(bits))
        bits = bits[:place] + lot.choice([noise(lot, lot.randrange(1, 6)) + bits[place:], bits[place + lot.randrange(1, 6):]])
    elif chance < 0.17:
        bits = bits[:lot.randrange(len(bits))]
    return bits


def recording(lot):
    nac = digits(lot, 3)
    rate = lot.choice(RATES)
    bits = noise(lot, lot.choice([0, 0, 1, 5, 11]))
    for _ in range(lot.choice([0, 1, 1, 2, 3, 5, 8])):
        bits += piece(lot, nac, rate if lot.random() < 0.7 else lot.choice(RATES))
    if lot.random() < 0.3:
        bits = bits[:max(0, len(bits) - lot.randrange(1, 2000))]
    if lot.random() < 0.2:
        # The end is near the end of an NID or of a header.
        last = recordings.unit_bits(unit(lot, nac), 1)
        bits += flipped(last, some_of(lot, 48, 300, lot.choice([0, 0, 50])))[:lot.choice([47, 48, 49, 112, 113, 114, 115, 143, 144, 315, 316, 317, 359, 360])]
    bits = bits[:len(bits) - len(bits) % 8] if lot.random() < 0.5 else bits
    return recordings.octets_of(bits)


def chains(lot):
    """Returns a recording of chains, most of them without other damage."""
    parts = [worn(lot, chain(lot, digits(lot, 3)), lot.choice([0, 0, 0, 0.003, 0.02])) for _ in range(lot.choice([1, 1, 2, 3]))]
    return recordings.octets_of(noise(lot, lot.choice([0, 0, 3])) + ''.join(parts) + noise(lot, lot.choice([0, 0, 9, 200, 2000])))


def levels(lot):
    """Returns a recording of levels: bits at their nominal levels with noise, fades and clicks, and an end at any level."""
    octets = chains(lot) if lot.random() < 0.5 else recording(lot)
    bits = bits_of(int.from_bytes(octets, 'big'), 8 * len(octets)) if octets else ''
    if lot.random() < 0.3:
        bits += ''.join(recordings.unit_bits(unit(lot, kind=lot.choice(['confirmed', 'plain', 'response'])), 1) for _ in range(3))
    if lot.random() < 0.3:
        bits = lot.choice(['0', '00', '0000', '000000']) + bits
    wide = lot.choice([0, 5, 15, 25, 32, 38, 45, 60])
    scale = lot.choice([1, 1, 1, 0.8, 1.2])
    answer = []
    for dibit in cut_up(bits, 2):
        level = scale * {'00': 32, '01': 96, '10': -32, '11': -96}.get(dibit, 0) + (lot.gauss(0, wide) if wide else 0)
        answer.append(max(-128, min(127, round(level))))
    if answer and lot.random() < 0.4:
        start, size = lot.randrange(len(answer)), lot.choice([20, 60, 200, 800])
        answer[start:start + size] = [lot.randrange(-128, 128) for _ in answer[start:start + size]]
    for _ in range(lot.choice([0, 0, 3, 30])):
        if answer:
            answer[lot.randrange(len(answer))] = lot.choice([-128, 127, 64, -64, 0, 32])
    if lot.random() < 0.3:
        answer = answer[:max(0, len(answer) - lot.randrange(1, 500))]
    return bytes(level & 255 for level in answer)


def lines(lot):
    """Returns unit lines, of which one may be wrong."""
    made = [recordings.line_of(unit(lot)).encode() for _ in range(lot.choice([0, 1, 2, 4, 7]))]
    if made and lot.random() < 0.7:
        place = lot.randrange(len(made))
        made[place] = spoiled(lot, made[place])
    return b'\n'.join(made) + (b'\n' if lot.random() < 0.8 else b'')


def spoiled(lot, line):
    """Returns a line with some faults of form."""
    for _ in range(lot.choice([1, 1, 2])):
        place = lot.randrange(len(line) + 1)
        spaces = [at for at, octet in enumerate(line) if octet == 32] or [0]
        chance = lot.randrange(9)
        if chance == 0:
            line = line[:place] + bytes([lot.choice([0, 9, 13, 31, 32, 33, 126, 127, 128, 255])]) + line[place:]
        elif chance == 1:
            line = line[:place] + line[place + lot.randrange(1, 4):]
        elif chance == 2:
            line = line[:place] + bytes([lot.choice(b'0123456789abcdefABCg:,-=8')]) + line[place + 1:]
        elif chance == 3:
            line = line.upper()
        elif chance == 4:
            line += lot.choice([b' ', b' x=1', b'0', b',', b'-', b' ' + line, b'\r'])
        elif chance == 5:
            at = lot.choice(spaces)
            line = line[:at] + lot.choice([b'', b'  ', b'=']) + line[at + 1:]
        elif chance == 6:
            line += b'0' * max(0, lot.choice([8191, 8192, 8193, 9000]) - len(line))
        elif chance == 7:
            at = lot.choice(spaces)
            line = lot.choice([line[:at], line[at:], line[at + 1:], b''])
        else:
            words = line.split(b' ')
            lot.shuffle(words)
            line = b' '.join(words)
    return line


# Scripts: the second implementation runs beside, so that a delivery may change the transmitted unit into something else.

def message(lot, most):
    size = lot.choice([0, 1, 12, 13, 28, 60, 60, 200, lot.randrange(300), lot.choice([lot.randrange(most + 1), 1005, 1020, 1021, 1100, 1500])])
    return lot.randbytes(min(most, size))


def other_head(lot, top):
    """Returns a head with some octet in another form."""
    octets = bytearray.fromhex(top)
    for _ in range(lot.choice([1, 1, 2])):
        place = lot.choice([0, 1, 1, 1, 2, 5, 6, 6, 7, 7, 8, 8, 8, 8, 9])
        if place == 1 and lot.random() < 0.8:
            octets[1] = lot.choice([0x08, 0x48, 0x68, 0x80, 0x10, 0x50, 0x60, 0x88, 0xC0]) | lot.choice([octets[1] & 7, lot.randrange(8)])
        elif place == 8:
            octets[8] = octets[8] & 0x8F | lot.randrange(8) << 4 if lot.random() < 0.7 else octets[8] ^ lot.choice([128, 8, 1])
        elif place == 6:
            octets[6] = lot.choice([octets[6] ^ 128, octets[6] & 128 | lot.randrange(max(1, (octets[6] & 127) + 2))])
        elif place == 0:
            octets[0] = lot.choice([0x56, 0x16, 0x36, 0x76, 0x23, 0x03, 0x35, 0x15, octets[0] & 0xE0 | lot.randrange(32)])
        else:
            octets[place] = lot.choice([0, octets[place] ^ 1, lot.randrange(32), lot.randrange(256)])
    return octets.hex()


def other_blocks(lot, blocks):
    """Returns blocks of a confirmed packet in another form."""
    for _ in range(lot.choice([1, 1, 2, 4])):
        place = lot.randrange(len(blocks))
        chance = lot.random()
        if chance < 0.3:
            blocks[place] = lot.choice([lot.randrange(128), lot.randrange(len(blocks) + 2), 0]), blocks[place][1]
        elif chance < 0.6:
            blocks[place] = blocks[place][0], digits(lot, 32)
        elif chance < 0.8:
            known = sorted(blocks)
            whole = digits(lot, 32 * len(known) - 8)
            check = '%08x' % codes.crc_32(recordings.binary(whole))
            blocks = list(zip([serial for serial, _ in known], cut_up(whole + check, 32)))
        elif chance < 0.9:
            # The same message, but with another first octet and the check of it.
            whole = ''.join(data for _, data in blocks)[2:-8]
            whole = '%02x' % (lot.choice([0, 0, 128]) + lot.choice([0, 1, 2, 3, 9, lot.randrange(128)])) + whole
            blocks = list(enumerate(cut_up(whole + '%08x' % codes.crc_32(recordings.binary(whole)), 32)))
        else:
            del blocks[place]
            if not blocks:
                return blocks
    return blocks


def other_unit(lot, sent):
    """Returns a packet like one that is sent."""
    kind, (nac, top, data) = sent
    chance = lot.random()
    if chance < 0.08:
        return kind, [digits(lot, 3), lot.choice([top, other_head(lot, top)]), data]
    if chance < 0.14 and kind == 'confirmed':
        # An opening packet.
        return kind, [nac, top[:12] + '8000%02x00' % (lot.choice([0x80, 0x88]) | lot.randrange(8) << 4), '-']
    if chance < 0.7 or data == '-':
        top = other_head(lot, top)
    if kind == 'confirmed' and data != '-' and chance > 0.6:
        blocks = other_blocks(lot, recordings.listed_blocks(data))
        data = ','.join('%02x:%s' % block for block in blocks) or '-'
        if lot.random() < 0.8:
            top = '%s%02x%s' % (top[:12], int(top[12:14], 16) & 128 | len(blocks), top[14:])
    if kind == 'response' and lot.random() < 0.4:
        count = lot.choice([0, 1, 1, 2])
        data = (lot.choice(['f', 'f', '']) * 80 + digits(lot, 40))[lot.randrange(60, 81):][:24 * count - 8] if count else '-'
        data += '0' * (24 * count - 8 - len(data)) if count else ''
        top = '%s%02x%s' % (top[:12], 128 | count, top[14:])
    return kind, [nac, top, data]


def turned_places(lot, sent):
    """Returns the positions of bit errors of a delivery of a unit, or of nothing."""
    if not sent:
        return some_of(lot, 0, 360, 3)
    size = len(recordings.unit_bits(sent, 0))
    chance = lot.random()
    if chance < 0.3:
        return []
    if chance < 0.65:
        places = []
        for _ in range(5):
            one, other = recordings.unit_bits(sent, 0), recordings.unit_bits(other_unit(lot, sent), 0)
            places = [place for place, (here, there) in enumerate(zip(one, other)) if here != there]
            if places and len(place_list(places)) < 8100:
                break
        return places
    if chance < 0.69:
        return lot.sample(range(48), lot.choice([3, 4, 5])) + lot.sample(range(48, 70), lot.choice([0, 3, 10, 11, 12]))
    if chance < 0.95 and size > 360:
        # Some of the blocks come damaged.
        places = []
        for block in range((size * 70 // 72 - 308) // 196):
            if lot.random() < 0.4:
                places += [place + place // 70 * 2 for place in some_of(lot, 308 + 196 * block, 196, 12)]
        return places
    return [place for place in range(size + 10) if lot.random() < lot.choice([0.003, 0.01, 0.05])]


def place_list(places):
    text = ''
    for place in sorted(set(places)):
        if len(text) > 8100:
            break
        text += ',%d' % place
    return text[1:] or '-'


def script(lot, command):
    """Returns a script of one of the commands, in which one line may be wrong."""
    play, made, skew = stations.PLAYS[command](), [], lot.choice([0, 0, 1, 2])
    for _ in range(lot.choice([3, 10, 30, 60])):
        line = script_line(lot, command, play, skew)
        made.append(line.encode())
        play.step(stations.event_of(made[-1], command))
    if made and lot.random() < 0.2:
        place = lot.randrange(len(made))
        made[place] = spoiled(lot, made[place])
    return b'\n'.join(made) + (b'\n' if lot.random() < 0.8 else b'')


def script_line(lot, command, play, skew):
    station = lot.choice('ab') + ' ' if command == 'duplex' else ''
    chance = lot.random()
    if chance < 0.25:
        offer = message(lot, 4000 if command == 'fragments' else 2028)
        return '%s%s %s' % (station, 'long' if command == 'fragments' else 'send', offer.hex() or '-')
    if chance < (0.35, 0.6, 0.9)[skew]:
        return station + 'timeout'
    if chance < (0.36, 0.65, 0.95)[skew]:
        return station + 'reopen'
    ways = ('ab', 'ba') if command == 'duplex' else ('data', 'answer')
    way = lot.choice([way for way in ways if play.sent[way]] or ways)
    return 'deliver %s %s' % (way, place_list(turned_places(lot, play.sent[way])))
