"""The packet stations and their scripts."""
import re
from types import SimpleNamespace
import codes
import recordings
from codes import bits_of, crc_32, cut_up, number_of
from recordings import Fault, binary, hexadecimal, lines_of, words_of

NAC = 0x293
ADDRESS = '000001'
TRIES = 16
LARGEST = 2028
PART = 500
PARTS = 8


def pairs(octets):
    return octets.hex() or '-'


class Sender:
    """Sends one message after the other, each until it is acknowledged."""

    def __init__(self):
        self.number = 0
        self.outstanding = None
        self.down = self.lost_message = False
        self.tries = self.sessions = 1

    def send(self, message):
        if self.down:
            return 'send down', None
        if self.outstanding:
            return 'send busy', None
        padded = message + bytes(-(len(message) + 4) % 16)
        whole = padded + crc_32(bits_of(int.from_bytes(padded, 'big'), 8 * len(padded))).to_bytes(4, 'big')
        self.outstanding = (cut_up(whole.hex(), 32), len(padded) - len(message))
        self.tries = 1
        return 'send taken ns=%d blocks=%d' % (self.number, len(self.outstanding[0])), self.packet()

    def packet(self, serials=None):
        """Returns the packet of the outstanding message, or of some of its blocks."""
        blocks, pad = self.outstanding
        opening = not blocks
        listed = list(range(len(blocks))) if serials is None else serials
        head = '56c000%s%02x%02x%02x00' % (ADDRESS, (128 if serials is None else 0) | len(listed), pad, 128 * opening | self.number << 4 | 8)
        return 'confirmed', ['%03x' % NAC, head, ','.join('%02x:%s' % (serial, blocks[serial]) for serial in listed) or '-']

    def again(self):
        """Returns whether one more transmission may be made; if not, the sender gives up."""
        if self.tries == TRIES:
            self.down, self.lost_message, self.outstanding = True, bool(self.outstanding[0]), None
            return False
        self.tries += 1
        return True

    def timeout(self):
        if not self.down and not self.outstanding:
            return 'timeout idle', None
        if self.down or not self.again():
            return 'timeout down', None
        return 'timeout sent ns=%d try=%d' % (self.number, self.tries), self.packet()

    def reopen(self):
        if not self.down:
            return 'reopen up', None
        self.down, self.tries = False, 1
        if self.lost_message:
            self.sessions += 1
            self.number = (self.number + 4) % 8
        self.outstanding = ([], 0)
        return 'reopen sent ns=%d' % self.number, self.packet()

    def hear(self, packet):
        """Returns the step for a response packet, and the packet that is sent."""
        word = int(packet.head[2:4], 16)
        ours = packet.kind == 'response' and packet.nac == NAC and packet.head[6:12] == ADDRESS
        if not ours or not self.outstanding or word & 7 != self.number:
            return 'answer ignored', None
        blocks, number, missing = self.outstanding[0], self.number, None
        if word >> 3 == 1:
            self.outstanding = None
            self.number = (number + 1) % 8
            return 'answer %s ns=%d' % ('acknowledged' if blocks else 'opened', number), None
        if not blocks:
            return 'answer ignored', None
        if word >> 6 == 2:
            missing = [serial for serial, flag in zip(range(len(blocks)), binary(packet.octets)) if flag == '0']
        if word >> 3 != 9 and not (missing and 4 * len(packet.octets) >= len(blocks)):
            return 'answer ignored', None
        if not self.again():
            return 'answer down', None
        step = 'retry ns=%d blocks=%s' % (number, ','.join(map(str, missing))) if missing else 'repeat ns=%d' % number
        return 'answer %s try=%d' % (step, self.tries), self.packet(missing)

    def more(self):
        """Returns the end of the last line."""
        return ' sessions=%d' % self.sessions if self.sessions > 1 else ''


class Receiver:
    """Takes messages in their order, and keeps the blocks of the message that is not whole."""

    def __init__(self):
        self.last = 7
        self.held = {}
        self.count = self.pad = 0

    def answer(self, word, number, octets='-'):
        blocks = 0 if octets == '-' else (len(octets) + 8) // 24
        return 'response', ['%03x' % NAC, '23%02x00%s%02x000000' % (word + number, ADDRESS, 128 | blocks), octets]

    def hear(self, packet):
        """Returns the step for a packet, and the response packet; also the message, if it came whole."""
        if packet.kind != 'confirmed' or packet.nac != NAC or packet.head[6:12] != ADDRESS:
            return 'data ignored', None, None
        head = binary(packet.head)
        opening, number = head[64] == '1', number_of(head[65:68])
        full, count, pad = head[48] == '1', recordings.blocks_of(head), number_of(head[59:64])
        if opening and count:
            return 'data ignored', None, None
        if opening:
            self.last, self.held, self.count = number, {}, 0
            return 'data opened ns=%d' % number, self.answer(0x08, number), None
        if number == self.last:
            return 'data again ack=%d' % number, self.answer(0x08, number), None
        if number != (self.last + 1) % 8:
            return 'data refused order vr=%d' % self.last, self.answer(0x68, self.last), None
        if not (count if full else self.count):
            return 'data ignored', None, None
        if full and (count, pad) != (self.count, self.pad):
            self.count, self.pad, self.held = count, pad, {}
        for block in packet.blocks:
            if block:
                self.held[block[0]] = block[1]
        if any(serial not in self.held for serial in range(self.count)):
            width = 64 if self.count <= 64 else 128
            flags = hexadecimal(''.join('01'[serial in self.held and serial < self.count] for serial in range(width)))
            octets = flags if width == 64 else flags + '00000000'
            return 'data kept ns=%d flags=%s' % (number, flags), self.answer(0x80, number, octets), None
        whole = ''.join(self.held[serial] for serial in range(self.count))
        self.held, self.count = {}, 0
        if self.pad > len(whole) // 2 - 4 or crc_32(binary(whole[:-8])) != int(whole[-8:], 16):
            return 'data refused crc ns=%d' % number, self.answer(0x48, number), None
        self.last = number
        message = bytes.fromhex(whole[:-8])
        message = message[:len(message) - self.pad]
        return 'data delivered ns=%d message=%s' % (number, pairs(message)), self.answer(0x08, number), message


def heard(bits):
    """Returns the packet of a transmission: its kind, NAC, head, and blocks (None if the check fails) or octets; or the name of the field that does not
    decode."""
    payload = recordings.without_status(bits)
    if codes.distance(int(payload[:48], 2), codes.SYNC) > 4:
        return 'sync'
    data = codes.bch_nearest(int(payload[48:111], 2))
    if data is None:
        return 'nid'
    if data & 15 != 12:
        return 'duid'
    head = recordings.head_of(payload)
    if head is None:
        return 'packet_header'
    if recordings.length_for(308 + 196 * recordings.blocks_of(head)) > len(bits):
        return 'length'
    kind = recordings.FORMATS.get(number_of(head[3:8]))
    if kind is None:
        return 'format'
    packet = SimpleNamespace(kind=kind, nac=data >> 4, head=hexadecimal(head), blocks=[], octets='')
    if kind == 'confirmed':
        packet.blocks = recordings.confirmed_blocks(cut_up(payload[308:308 + 196 * recordings.blocks_of(head)], 196))
        return packet
    unit, faults = recordings.read_packet(payload, '%03x' % packet.nac, head)
    if faults:
        return faults[0]
    packet.octets = '' if unit[1][2] == '-' else unit[1][2]
    return packet


def delivered(unit, places):
    """Returns the packet received of a unit that is sent, with bit errors at some positions, and whether it is another one."""
    bits = recordings.unit_bits(unit, 0)
    turned = list(bits)
    for place in places:
        if place < len(bits):
            turned[place] = '10'[int(bits[place])]
    packet = heard(''.join(turned))
    return packet, not isinstance(packet, str) and packet.nac == NAC and differs(packet, unit)


def differs(packet, unit):
    """Returns whether the decoding of a packet differs from the packet transmitted."""
    if (packet.kind, packet.head) != (unit[0], unit[1][1]):
        return True
    if packet.kind == 'confirmed':
        return any(block and block != sent for block, sent in zip(packet.blocks, recordings.listed_blocks(unit[1][2])))
    return packet.octets != unit[1][2].replace('-', '')


class Link:
    """A sender and a receiver, and the last packet of each."""

    def __init__(self):
        self.sender, self.receiver = Sender(), Receiver()
        self.sent = {'data': None, 'answer': None}
        self.counts = dict.fromkeys(('sent', 'delivered', 'acknowledged', 'false'), 0)
        self.message = None

    def act(self, event):
        """Returns the step of an event: its words, the last of which is an octet string or a list of positions."""
        step, packet = {'send': lambda: self.sender.send(event[1]), 'timeout': self.sender.timeout, 'reopen': self.sender.reopen}[event[0]]()
        if packet:
            self.sent['data'] = packet
        self.counts['sent'] += step.startswith('send taken')
        return step

    def deliver(self, way, places):
        self.message = None
        if not self.sent[way]:
            return way + ' none'
        packet, other = delivered(self.sent[way], places)
        if isinstance(packet, str):
            return '%s lost %s' % (way, packet)
        if way == 'data':
            step, answer, self.message = self.receiver.hear(packet)
            if answer:
                self.sent['answer'] = answer
        else:
            step, packet = self.sender.hear(packet)
            if packet:
                self.sent['data'] = packet
        self.counts['delivered'] += step.startswith('data delivered')
        self.counts['acknowledged'] += step.startswith('answer acknowledged')
        if other:
            self.counts['false'] += 1
            step += ' false'
        return step


def event_of(line, command):
    """Returns the event of a line of a script."""
    given = words_of(line)
    offer = 'long' if command == 'fragments' else 'send'
    alone = {offer: 1, 'timeout': 0, 'reopen': 0}
    kinds, at, ways = (['deliver', 'a', 'b'], 1, ('ab', 'ba')) if command == 'duplex' else (['deliver', *alone], 0, ('data', 'answer'))
    if given[0] not in kinds:
        raise Fault('kind')
    if given[0] == 'deliver':
        if len(given) != 3 or given[1] not in ways:
            raise Fault('key')
        given[2] = places_of(given[2])
        return given
    if len(given) <= at or given[at] not in alone or len(given) != at + 1 + alone[given[at]]:
        raise Fault('key')
    if given[at] == offer:
        given[-1] = message_of(given[-1], 4000 if offer == 'long' else LARGEST)
    return given


def message_of(text, most):
    if text == '-':
        return b''
    if not re.fullmatch('([0-9a-f]{2})+', text) or len(text) > 2 * most:
        raise Fault('value')
    return bytes.fromhex(text)


def places_of(text):
    if text == '-':
        return []
    if not re.fullmatch('(0|[1-9][0-9]{0,4})(,[1-9][0-9]{0,4})*', text):
        raise Fault('value')
    places = [int(place) for place in text.split(',')]
    if places[-1] >= 25920 or any(one >= other for one, other in zip(places, places[1:])):
        raise Fault('value')
    return places


class Stations(Link):
    """Runs a script of `stations`."""

    def step(self, event):
        return self.deliver(*event[1:]) if event[0] == 'deliver' else self.act(event)

    def last(self):
        return ' '.join('%s=%d' % pair for pair in self.counts.items()) + self.sender.more()


class Fragments(Link):
    """Runs a script of `fragments`: messages that are sent in parts."""

    def __init__(self):
        super().__init__()
        self.parts, self.begun, self.next = [], b'', 0
        self.longs = dict.fromkeys(('taken', 'whole', 'acknowledged'), 0)

    def step(self, event):
        if event[0] == 'long':
            return self.offer(event[1])
        if event[0] != 'deliver':
            return self.act(event)
        step = self.deliver(*event[1:])
        if self.message is not None:
            return step + '\n' + self.joined(self.message)
        if step.startswith('data opened'):
            self.begun, self.next = b'', 0
        if step.startswith('answer acknowledged'):
            self.parts.pop(0)
            if self.parts:
                return step + '\n' + self.act(('send', self.parts[0]))
            self.longs['acknowledged'] += 1
            step += '\nlong acknowledged'
        return step

    def offer(self, message):
        if self.sender.down:
            return 'long down'
        if self.sender.outstanding:
            return 'long busy'
        pieces = cut_up(message, PART) or [b'']
        self.parts = [bytes([number]) + piece for number, piece in enumerate(pieces)]
        self.parts[-1] = bytes([128 | self.parts[-1][0]]) + self.parts[-1][1:]
        self.longs['taken'] += 1
        return 'long taken parts=%d\n' % len(pieces) + self.act(('send', self.parts[0]))

    def joined(self, part):
        """Returns the step for a part that came: all except the last have 500 octets, and a part that does not continue drops all before it."""
        last = part and part[0] > 127
        fits = part and part[0] & 127 == self.next and (len(part) <= PART + 1 if last else len(part) == PART + 1 and part[0] < PARTS - 1)
        if not fits:
            self.begun, self.next = b'', 0
            return 'part refused'
        self.begun += part[1:]
        self.next += 1
        if not last:
            return 'part %d' % part[0]
        whole, self.begun, self.next = self.begun, b'', 0
        self.longs['whole'] += 1
        return 'whole message=' + pairs(whole)

    def last(self):
        return ' '.join('%s=%d' % pair for pair in self.longs.items()) + ' false=%d' % self.counts['false'] + self.sender.more()


class Duplex:
    """Runs a script of `duplex`: two stations that both send."""

    def __init__(self):
        self.stations = {'a': Link(), 'b': Link()}
        self.sent = {'ab': None, 'ba': None}
        self.false = 0

    def step(self, event):
        if event[0] != 'deliver':
            link = self.stations[event[0]]
            link.sent['data'] = None
            step = link.act(event[1:])
            if link.sent['data']:
                self.sent['ab' if event[0] == 'a' else 'ba'] = link.sent['data']
            return event[0] + ' ' + step
        way, places = event[1:]
        link, sent = self.stations[way[1]], self.sent[way]
        heard_as = 'data'
        if sent:
            packet, _ = delivered(sent, places)
            if not isinstance(packet, str) and packet.kind == 'response' and packet.nac == NAC:
                heard_as = 'answer'
        before = link.counts['false']
        link.sent = {heard_as: sent}
        step = link.deliver(heard_as, places)
        answer = link.sent.get('answer' if heard_as == 'data' else 'data')
        if answer:
            self.sent[way[::-1]] = answer
        self.false += link.counts['false'] - before
        return way[1] + ' ' + step

    def last(self):
        lines = []
        for name, other in ('ab', 'ba'):
            link = self.stations[name]
            # The packets of one station are delivered at the other.
            lines.append('%s sent=%d delivered=%d acknowledged=%d' % (
                name, link.counts['sent'], self.stations[other].counts['delivered'], link.counts['acknowledged']) + link.sender.more())
        return '\n'.join(lines) + '\nfalse=%d' % self.false


PLAYS = {'stations': Stations, 'fragments': Fragments, 'duplex': Duplex}


def run(text, command):
    play, written = PLAYS[command](), []
    for number, line in enumerate(lines_of(text), 1):
        try:
            event = event_of(line, command)
        except Fault as fault:
            return ''.join(written).encode(), 2, 'line %d: %s\n' % (number, fault)
        written.append(play.step(event) + '\n')
    return (''.join(written) + play.last() + '\n').encode(), 0, ''
