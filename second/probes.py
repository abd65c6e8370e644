"""A fixed list of inputs: each number that docs/FORMATS.md names, and the ones beside it."""
import codes
import recordings
import stations
from lots import flipped

EVERY = ['show', 'check', 'repair', 'follow', 'calls', 'bridge 123 2', 'relay 123 2']
SCRIPTS = list(stations.PLAYS)
ZEROS = {kind: [''.zfill(width or 0) for _, width in keys[1:]] for kind, keys in recordings.KEYS.items()}


def bits(kind, nac='293', status=1):
    """Returns the bits of a unit of zeros, of a type that is no packet."""
    return recordings.unit_bits((kind, [nac] + ZEROS[kind]), status)


def packet(form, blocks, flag=1):
    """Returns the bits of a packet of a format, whose blocks are zeros."""
    head = '%02xc000000001%02x000800' % (0x40 | form, 128 * flag | blocks)
    kind = recordings.FORMATS.get(form, 'plain')
    data = ','.join('%02x:%032x' % (serial, serial) for serial in range(blocks)) if kind == 'confirmed' else ''.zfill(max(0, 24 * blocks - 8))
    return recordings.unit_bits((kind, ['293', head, data or '-']), 0)


def with_front(unit, of_sync, of_identifier):
    """Returns the bits of a unit with a number of bit errors in the sync and in the NID."""
    return flipped(unit, list(range(of_sync)) + [48 + place + 2 * (place > 21) for place in range(1, 63, 3)][:of_identifier])


def recordings_probed():
    """Yields the names of recordings and their bits."""
    voice = [bits('ldu1'), bits('ldu2')] * 4
    for pause in (0, 1, 47, 48, 3455, 3456, 3457, 4095, 4096, 4097, 8192):
        yield 'a pause of %d bits' % pause, voice[0] + '0' * pause + voice[1] + bits('tdu')
        yield 'an end of %d bits' % pause, bits('tdulc') + '0' * pause
        yield 'a beginning of %d bits' % pause, '0' * pause + bits('hdu') + voice[0]
    for wrong in range(3, 7):
        yield 'a sync with %d bit errors' % wrong, with_front(bits('tdu'), wrong, 0)
        yield 'a sync after a header with %d bit errors' % wrong, bits('hdu') + with_front(voice[0], wrong, 0) + bits('tdu')
    for wrong in range(10, 20):
        for of_sync in (0, 4, 5, 30 - wrong, 31 - wrong):
            there = with_front(voice[0], of_sync, wrong)
            yield 'a sync and an NID with %d and %d bit errors' % (of_sync, wrong), bits('hdu') + there + voice[1]
            yield 'a sync and an NID with %d and %d bit errors, and no more' % (of_sync, wrong), bits('hdu') + there
    for lost in range(1, 6):
        gone = ''.join(flipped(unit, range(0, 114, 2)) for unit in voice[:lost])
        for name, then in (('a voice unit', voice[lost]), ('a voice unit of another network', bits('ldu%d' % (lost % 2 + 1), '294')), ('a header', bits('hdu')),
                           ('the other voice unit', voice[lost + 1]), ('a terminator', bits('tdulc')), ('a far terminator', with_front(bits('tdu'), 14, 16)),
                           ('nothing', ''), ('an octet', '0' * 8), ('a cut terminator', bits('tdulc')[:-8]),
                           ('a cut voice unit', voice[lost][:1000]), ('a cut voice unit with a lost sync', with_front(voice[lost], 5, 0)[:1720])):
            yield '%d lost syncs with NID, and then %s' % (lost, name), bits('hdu') + gone + then
    for kind in ('hdu', 'ldu1', 'ldu2', 'tdu', 'tdulc'):
        for other in ('hdu', 'ldu1', 'ldu2', 'tdu', 'tdulc'):
            there = with_front(bits(other), 5, 0)
            yield '%s after %s' % (other, kind), bits(kind) + there
            for cut in (1, 8):
                yield '%s after %s, %d bits short' % (other, kind, cut), bits(kind) + there[:-cut] + bits('hdu')
        for size in (47, 48, 112, 113, 114, 115, 143, 144, 145, len(bits(kind)) - 1):
            yield '%d bits of %s' % (size, kind), bits(kind)[:size]
    for one, other in (('ldu1', 'tdulc'), ('ldu1', 'tdu'), ('tdulc', 'tdu')):
        apart = [place for place in range(48, 113) if bits(one)[place] != bits(other)[place]]
        for count in range(10, len(apart) - 9):
            yield 'between %s and %s, %d bits away' % (one, other, count), bits('hdu') + flipped(bits(one), apart[:count])
    there = with_front(voice[0], 5, 0)
    inner = recordings.front(0x293, 0)
    for place in (200, 1000, 1500, 1610, 1616, 1700):
        cut = there[:place] + inner[:70] + '11' + inner[70:]
        yield 'a sync and an NID at bit %d of a unit whose sync is lost' % place, bits('hdu') + cut[:1728].ljust(1728, '0')
        found = with_front(voice[0], 20, 20)[:place] + inner[:48]
        yield 'a sync at bit %d of a unit whose sync and NID are lost' % place, bits('hdu') + found.ljust(1728, '0') + voice[1]
    after = there + with_front(voice[1], 5, 0) + with_front(bits('tdulc'), 5, 0)
    for kind in ('hdu', 'ldu1', 'ldu2', 'tdulc'):
        yield 'a broken %s and lost syncs' % kind, flipped(bits(kind), range(114, len(bits(kind)), 2)) + after
    for form in (0x16, 0x15, 0x03, 0x02):
        for blocks in (0, 1, 2, 64, 65, 127):
            there = packet(form, blocks, blocks % 2)
            yield 'a packet of format %x and %d blocks' % (form, blocks), there + bits('tdu')
            yield 'a packet of format %x and %d blocks, damaged and cut' % (form, blocks), flipped(there, range(320, 25920, 197))[:-8]
    for size in (0, 1, 315, 316, 317, 359):
        yield '%d bits of a packet' % size, packet(0x16, 1)[:size]


def answers_probed(lines, words):
    """Yields scripts in which the response packet after some lines has another octet 1."""
    sent = stations.Stations()
    for line in lines:
        sent.step(stations.event_of(line.encode(), 'stations'))
    kind, (nac, head, flags) = sent.sent['answer']
    here = recordings.unit_bits((kind, [nac, head, flags]), 0)
    for word in words:
        there = recordings.unit_bits((kind, [nac, '23%02x' % word + head[4:], flags]), 0)
        places = ','.join(str(place) for place in range(len(here)) if here[place] != there[place])
        yield 'a response whose octet 1 is %02x, after %s' % (word, lines[-2].split()[0]), 'stations', lines + ['deliver answer ' + (places or '-')]


def scripts_probed():
    """Yields commands and scripts that their lines make."""
    for size in (0, 1, 11, 12, 13, 28, 1004, 1005, 1020, 1021, 1500, 2027, 2028, 2029):
        text = '5a' * size or '-'
        damaged = ','.join(str(308 + 204 * block) for block in range(0, 126, 3))
        lines = ['send ' + text, 'deliver data ' + damaged, 'deliver answer -', 'deliver data -', 'deliver answer -']
        yield 'a message of %d octets' % size, 'stations', lines
        yield 'a message of %d octets' % size, 'duplex', ['a send ' + text, 'deliver ab ' + damaged, 'deliver ba -', 'deliver ab -', 'deliver ba -']
    for size in (0, 1, 499, 500, 501, 1000, 3999, 4000, 4001):
        yield 'a long message of %d octets' % size, 'fragments', ['long ' + ('a5' * size or '-')] + ['deliver data -', 'deliver answer -'] * 9
    yield from answers_probed(['send ' + '61' * 20, 'deliver data 320,330,340,350,360,370,380,390,400'], list(range(0, 256, 8)) + list(range(129, 136)))
    yield from answers_probed(['send 61'] + ['timeout'] * 16 + ['reopen', 'deliver data -'], list(range(4, 256, 8)) + list(range(8, 16)))
    yield 'a sender that gives up', 'stations', ['send 61'] + ['timeout'] * 17 + ['reopen', 'reopen'] + ['deliver data -', 'deliver answer -'] * 2 + ['send 62']
    yield 'an opening that is given up', 'stations', ['send 61'] + ['timeout'] * 16 + ['reopen'] + ['timeout'] * 17 + ['reopen', 'deliver data -']
    yield 'numbers that go round', 'stations', ['send 61', 'deliver data -', 'deliver answer -', 'deliver data -'] * 10
    for kind in SCRIPTS:
        way = 'ab' if kind == 'duplex' else 'data'
        for size in (8191, 8192, 8193):
            # Positions of four digits, as many as are needed so that positions of five digits fill the rest.
            room = size + 1 - len('deliver %s ' % way)
            short = next(count for count in range(6) if (room - 5 * count) % 6 == 0)
            places = list(range(9000, 9000 + short)) + list(range(10000, 10000 + (room - 5 * short) // 6))
            line = 'deliver %s %s' % (way, ','.join(map(str, places)))
            assert len(line) == size
            yield 'positions in a line of %d octets' % size, kind, [line, line]
            yield 'a line of %d octets and a longer one' % size, kind, [line, line + ',25000']
        for places in ('25919', '25920', '0', '00', '01', '1,1', '2,1', '0,1', '-', '1,', ',1', '0-3'):
            yield 'places ' + places, kind, ['deliver %s %s' % (way, places)]


def lines_probed():
    """Yields names and texts of unit lines."""
    for kind in recordings.KEYS:
        if kind not in recordings.FORMATS.values():
            line = recordings.line_of((kind, ['293'] + ZEROS[kind]))
            for name, text in (('as it is', line), ('upper case', line.replace('293', '29A')), ('a digit more', line + '0'), ('a digit less', line[:-1]),
                               ('a space more', line + ' '), ('a word more', line + ' x'), ('no value', kind)):
                yield '%s, %s' % (kind, name), text.encode() + b'\n'
            for size in (8191, 8192, 8193):
                yield '%s of %d octets' % (kind, size), line.encode().ljust(size, b'0')
    for kind, form in (('confirmed', '56'), ('plain', '35'), ('response', '23')):
        for blocks in (0, 1, 127):
            for wrong in (0, 1):
                count = max(0, blocks - wrong)
                data = ','.join('7f:' + '0' * 32 for _ in range(count)) if kind == 'confirmed' else ''.zfill(max(0, 24 * count - 8))
                line = '%s nac=293 head=%sc00000000181000000 %s=%s' % (kind, form, 'blocks' if kind == 'confirmed' else 'octets', data or '-')
                yield '%s of %d blocks and %d less' % (kind, blocks, wrong), line.replace('0181', '01%02x' % (128 + blocks)).encode() + b'\n'
    for octet in (0, 9, 13, 31, 33, 126, 127, 128, 255):
        yield 'an octet %d' % octet, b'tdu nac=293' + bytes([octet]) + b'\n'


def probes():
    """Yields the names of the inputs, each with a command and the octets."""
    for name, there in recordings_probed():
        for command in EVERY:
            yield name, command, recordings.octets_of(there)
    for name, command, lines in scripts_probed():
        yield name, command, '\n'.join(lines).encode() + b'\n'
        yield name + ', without the last line feed', command, '\n'.join(lines).encode()
    for name, text in lines_probed():
        yield name, 'build 3', text
    for command in EVERY + SCRIPTS + ['build 0']:
        for data in (b'', b'\n', b'\n\n', b' ', b'\0', b'tdu nac=293', b'timeout', b'a timeout', b'timeout\r\n', codes.SYNC.to_bytes(6, 'big')):
            yield 'the input %r' % data, command, data
    for command in ('', 'Show', 'show 1', 'bridge 12 0', 'bridge 12A 0', 'bridge 123 4', 'relay', 'relay 123', 'relay 123 4', 'relay 1234 0', 'follow 1',
                    'build', 'build 4', 'build 00', 'calls -', 'stations 1'):
        yield 'the words %r' % command, command, b''
