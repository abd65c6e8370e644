"""The lines of p25 as values, and their calls, talkers, networks and segments.

Positions and lengths are whole numbers of bits. Nothing here decodes.
"""

import re

BITS_A_SECOND = 9600
# The bits of a unit, with its status symbols. A packet has the length in its line.
LENGTHS = {"hdu": 792, "ldu1": 1728, "ldu2": 1728, "tdu": 144, "tdulc": 432}
# The bits of a unit that are examined: its sync, 63 bits of its NID, and its codewords.
LOOKED_AT = {"hdu": 759, "ldu1": 383, "ldu2": 383, "tdu": 111, "tdulc": 399}
# The same for a packet: its first bits, and those of its header and of each block.
LOOKED_AT_PACKET, LOOKED_AT_BLOCK = 111, 196
# The types of units by their DUIDs.
KINDS = {"0": "hdu", "3": "tdu", "5": "ldu1", "a": "ldu2", "c": "packet", "f": "tdulc"}
PACKETS = ("confirmed", "plain", "response", "packet")
LINK_UNITS = ("ldu1", "ldu2")
TERMINATORS = ("tdu", "tdulc")
# The most bits between two units of one call.
PAUSE = 3456
# The most bits between two calls that may be parts of one: five seconds.
NEAR = 48000
# Reception is good if at most the first % of the voice units are broken or lost, fair up to the second, and else poor.
GOOD, FAIR = 1, 5
ALGORITHMS = {"80": "clear", "81": "DES-OFB", "83": "3DES", "84": "AES-256", "85": "AES-128", "9f": "DES-XL", "aa": "ADP (RC4)"}
# The formats of link control, by the lowest six bits.
FORMATS = {
    0x02: "channel update",
    0x04: "channel update",
    0x05: "unit-to-unit answer request",
    0x06: "telephone call",
    0x07: "telephone answer request",
    0x09: "longer number of the radio",
    0x0A: "unit-to-unit voice with longer numbers",
    0x0F: "end of the call",
    0x10: "group affiliation query",
    0x11: "unit registration command",
    0x12: "unit authentication command",
    0x13: "status query",
    0x14: "status update",
    0x15: "message update",
    0x16: "call alert",
    0x17: "extended function command",
    0x18: "channel identifier update",
    0x19: "channel identifier update",
    0x20: "system service broadcast",
    0x21: "secondary control channel",
    0x22: "adjacent site",
    0x23: "site status",
    0x24: "network status",
    0x25: "protection parameters",
    0x26: "secondary control channel",
    0x27: "adjacent site",
    0x28: "site status",
    0x29: "network status",
    0x2A: "conventional fallback",
}
# The formats of manufacturers, whose fields are not read.
MAKERS = {
    **{("90", code): "talker alias" for code in (0x15, 0x17)},
    **{("a4", code): "talker alias" for code in (0x32, 0x33, 0x34, 0x35)},
    ("90", 0x06): "position of the radio",
    ("a4", 0x2A): "position of the radio",
}


class Item:
    """An item of p25 show. `kind` is unit, broken, nounit, gap or cut; `unit` is the type of a unit, or None."""

    __slots__ = ("kind", "at", "bits", "fix", "unit", "nac", "lc", "alg", "key", "group", "looked", "names")

    def __init__(self, kind, at, bits):
        self.kind, self.at, self.bits = kind, at, bits
        self.fix = 0
        self.unit = self.nac = self.lc = self.alg = self.key = self.group = None
        self.looked = 0
        self.names = ""

    @property
    def end(self):
        """Returns the position after the last bit."""
        return self.at + self.bits


# The keys of each type of unit after its NAC.
HEX = "[0-9a-f]"
KEYS = {
    "hdu": f" mi={HEX}{{18}} mfid={HEX}{{2}} algid=(?P<alg>{HEX}{{2}}) kid=(?P<key>{HEX}{{4}}) tgid=(?P<group>{HEX}{{4}})",
    "ldu1": f" lc=(?P<lc>{HEX}{{18}}) lsd={HEX}{{4}} voice={HEX}{{324}}",
    "ldu2": f" mi={HEX}{{18}} algid=(?P<alg>{HEX}{{2}}) kid=(?P<key>{HEX}{{4}}) lsd={HEX}{{4}} voice={HEX}{{324}}",
    "tdu": "",
    "tdulc": f" lc=(?P<lc>{HEX}{{18}})",
    "confirmed": f" head=(?P<head>{HEX}{{20}}) blocks=[-0-9a-f:,]+",
    "plain": f" head=(?P<head>{HEX}{{20}}) octets=(?:-|{HEX}+)",
    "response": f" head=(?P<head>{HEX}{{20}}) octets=(?:-|{HEX}+)",
}
REST = {kind: re.compile(keys) for kind, keys in KEYS.items()}
UNIT = re.compile(f"unit at=([0-9]+) bits=([0-9]+) fix=([0-9]+) status=[0-3]+ ({'|'.join(KEYS)}) nac=({HEX}{{3}})")
GAP = re.compile("(gap|cut) at=([0-9]+) bits=([0-9]+)")
BROKEN = re.compile(f"broken at=([0-9]+) bits=([0-9]+) nac=({HEX}{{3}}) duid=({HEX}) fields=([a-z0-9_.,]+)")
NOUNIT = re.compile("nounit at=([0-9]+) field=([a-z_]+)")


def unit_of(line):
    """Returns the item of a line of a whole unit, or None."""
    found = UNIT.match(line)
    rest = REST[found[4]].fullmatch(line, found.end()) if found else None
    if not rest:
        return None
    at, bits, fix, unit, nac = found.groups()
    item = Item("unit", int(at), int(bits))
    item.fix, item.unit, item.nac = int(fix), unit, nac
    values = rest.groupdict()
    item.lc, item.alg, item.key = values.get("lc"), values.get("alg"), values.get("key")
    if unit == "hdu":
        item.group = int(values["group"], 16) or None
    if unit in LOOKED_AT:
        item.looked = LOOKED_AT[unit]
    else:
        # The last seven bits of the seventh octet are the number of blocks.
        item.looked = LOOKED_AT_PACKET + LOOKED_AT_BLOCK * (1 + int(values["head"][12:14], 16) % 128)
    return item


def item_of(line):
    """Returns the item of a line of p25 show or check, or None."""
    first = line[:1]
    if first == "u":
        return unit_of(line)
    if first in ("g", "c"):
        found = GAP.fullmatch(line)
        return Item(found[1], int(found[2]), int(found[3])) if found else None
    if first == "b":
        found = BROKEN.fullmatch(line)
        if not found or found[4] not in KINDS:
            return None
        item = Item("broken", int(found[1]), int(found[2]))
        item.nac, item.unit, item.names = found[3], KINDS[found[4]], found[5]
        return item
    found = NOUNIT.fullmatch(line)
    if not found:
        return None
    item = Item("nounit", int(found[1]), 1)
    item.names = found[2]
    return item


class Talk:
    """The talker and the called of a link control word: numbers, or None."""

    __slots__ = ("lc", "format", "maker", "radio", "group", "called", "emergency")

    def __init__(self, lc=None, group=None):
        self.lc, self.group = lc, group
        self.format = self.maker = self.radio = self.called = self.emergency = None
        if lc is None:
            return
        self.format = lc[:2]
        # The second octet is the manufacturer's, unless a bit of the first one is set.
        if not int(self.format, 16) & 0x40 and lc[2:4] not in ("00", "01"):
            self.maker = lc[2:4]
        if self.format == "00":
            self.group = int(lc[8:12], 16)
        elif self.format == "03":
            self.called = int(lc[6:12], 16)
        else:
            return
        self.radio = int(lc[12:18], 16)
        self.emergency = int(lc[4], 16) >= 8

    @property
    def who(self):
        """Returns the radio and the called, or None."""
        return None if self.radio is None else (self.radio, self.group, self.called)

    @property
    def to(self):
        """Returns the called: group or radio, and its number, or None."""
        return ("group", self.group) if self.group is not None else ("radio", self.called) if self.called is not None else None

    def same(self, other):
        """Returns whether the two may have the same radio and called, as far as both are known."""
        return self.radio is None or other.radio is None or self.who == other.who

    def format_name(self):
        """Returns the words for a format that names no radio."""
        code = int(self.format, 16)
        name = "protected" if code & 0x80 else MAKERS.get((self.maker, code & 0x3F)) if self.maker else FORMATS.get(code & 0x3F)
        text = f"link control of format {self.format}"
        return f"{name} ({text})" if name else text


class Call:
    """A run of voice units, or a part of one in which one radio speaks. A value that only p25 show has is None in a run of p25 calls.

    `base` is the position at which its segment begins; `at` counts from there.
    """

    __slots__ = (
        *("at", "end_at", "nac", "base", "entry", "end", "links", "voice", "broken", "lc", "alg", "units", "looked", "wrong"),
        *("votes", "ciphers", "group", "goes_on", "heard", "in_step"),
    )

    def __init__(self, at, nac, base=0, keeps=False):
        self.at = self.end_at = at
        self.nac, self.base = nac, base
        self.entry, self.end = "late", "open"
        # Voice units whose NID decodes, those that decode whole, and units of any type that do not.
        self.links = self.voice = self.broken = self.units = 0
        self.lc = self.alg = self.group = None
        self.looked = self.wrong = 0
        self.in_step = True    # whether each voice unit is at a position of its type after the header
        self.votes, self.ciphers = {}, {}    # how often each link control decodes, and each algorithm with its key
        self.goes_on = None    # the call of which this one may be a part
        self.heard = [] if keeps else None    # position, end, bits examined and bit errors of each whole unit

    def add(self, item):
        """Takes a unit of the call."""
        self.end_at = item.end
        self.units += 1
        if item.unit in LINK_UNITS:
            self.links += 1
            self.voice += item.kind == "unit"
            step = (item.at - self.at - LENGTHS["hdu"]) % (2 * LENGTHS["ldu1"])
            self.in_step = self.in_step and step == (0 if item.unit == "ldu1" else LENGTHS["ldu1"])
        elif item.unit in TERMINATORS:
            self.end = item.unit
        elif item.unit == "hdu":
            self.entry = "header"
        if item.kind == "broken":
            self.broken += 1
            return
        self.looked += item.looked
        self.wrong += item.fix
        if self.heard is not None:
            self.heard.append((item.at, item.end, item.looked, item.fix))
        self.group = self.group or item.group
        if item.lc is not None:
            self.lc = self.lc or item.lc
            self.votes[item.lc] = self.votes.get(item.lc, 0) + 1
        if item.alg is not None:
            self.alg = self.alg or item.alg
            cipher = (item.alg, item.key)
            self.ciphers[cipher] = self.ciphers.get(cipher, 0) + 1

    @property
    def bits(self):
        """Returns the length from its first unit to the end of its last one."""
        return self.end_at - self.at

    @property
    def begin(self):
        """Returns its first bit, counted from the first segment."""
        return self.base + self.at

    @property
    def cipher(self):
        """Returns the algorithm and the key of most units, or None."""
        return max(self.ciphers, key=self.ciphers.get) if self.ciphers else (self.alg, None)

    def sent(self):
        """Returns how many voice units fit into its length, at least those that were heard, and whether this is exact.

        It is exact if both ends were heard, whole voice units fill the bits between them in turn, and no word has another talk or cipher.
        """
        bits = self.bits
        if self.entry == "header":
            bits -= LENGTHS["hdu"]
        if self.end != "open":
            bits -= LENGTHS[self.end]
        # To the nearest whole number, a half up.
        sent = (2 * bits + LENGTHS["ldu1"]) // (2 * LENGTHS["ldu1"])
        return max(sent, self.links), not self.doubts()

    def doubts(self):
        """Returns why the number of voice units that were sent is not exact."""
        if self.entry == "late" or self.end == "open":
            return ["beginning not heard"] * (self.entry == "late") + ["end not heard"] * (self.end == "open")
        if Told(self).others:
            return ["more than one talker is told"]
        is_one = self.in_step and (self.bits - LENGTHS["hdu"] - LENGTHS[self.end]) % LENGTHS["ldu1"] == 0 and len(self.ciphers) < 2
        return [] if is_one else ["perhaps two calls"]

    def line(self, more=False):
        """Returns the line that p25 calls prints for it; with `more` the values that only p25 show has come after that."""
        text = (
            f"call at={self.at} bits={self.bits} nac={self.nac} entry={self.entry} end={self.end} links={self.links}"
            f" broken={self.broken} lc={self.lc or 'none'} alg={self.alg or 'none'}"
        )
        if more:
            votes = ",".join(f"{word}:{count}" for word, count in self.votes.items()) or "-"
            text += f" looked={self.looked} wrong={self.wrong} votes={votes}"
        return text


CALL = re.compile(
    f"call at=([0-9]+) bits=([0-9]+) nac=({HEX}{{3}}) entry=(header|late) end=(tdu|tdulc|open) links=([0-9]+) broken=([0-9]+)"
    f" lc=(none|{HEX}{{18}}) alg=(none|{HEX}{{2}})(?: looked=([0-9]+) wrong=([0-9]+) votes=(-|[0-9a-f:,]+))?"
)


def call_of(line):
    """Returns the call of a line of p25 calls, or of p25-calls -v, or None."""
    found = CALL.fullmatch(line)
    if not found:
        return None
    at, bits, nac, entry, end, links, broken, lc, alg, looked, wrong, votes = found.groups()
    call = Call(int(at), nac)
    call.end_at = call.at + int(bits)
    call.entry, call.end, call.links, call.broken = entry, end, int(links), int(broken)
    call.lc = None if lc == "none" else lc
    call.alg = None if alg == "none" else alg
    if looked is None:
        call.looked = call.wrong = call.votes = None
    else:
        call.looked, call.wrong = int(looked), int(wrong)
        for vote in [] if votes == "-" else votes.split(","):
            word, _, count = vote.partition(":")
            call.votes[word] = int(count)
    return call


class Told:
    """The talker of a call.

    `talk` is the talk of most words that name a radio, and `by` the number of these, of `total` words. `ties` are talks of as many words, and `also` those of
    two words or more, or emergencies. `others` has each other talk of a word or of the header, with its number of words.
    """

    def __init__(self, call):
        votes = {call.lc: 1} if call.votes is None and call.lc else call.votes or {}
        self.total = sum(votes.values())
        counts, talks = {}, {}
        for word, count in votes.items():
            talk = Talk(word)
            if talk.who is None:
                continue
            counts[talk.who] = counts.get(talk.who, 0) + count
            first = talks.setdefault(talk.who, talk)
            first.emergency = first.emergency or talk.emergency
        most = max(counts.values(), default=0)
        # Among talks of as many words an emergency comes first.
        best = sorted((who for who in counts if counts[who] == most), key=lambda who: not talks[who].emergency)
        self.by_header = not best and call.group is not None
        if best:
            self.talk = talks[best[0]]
        elif self.by_header:
            self.talk = Talk(group=call.group)
        else:
            self.talk = Talk(call.lc)
        self.by = most
        self.ties = [talks[who] for who in best[1:]]
        rest = [who for who in counts if counts[who] < most]
        self.also = [talks[who] for who in rest if counts[who] > 1 or talks[who].emergency]
        self.others = [(talks[who], counts[who]) for who in [*best[1:], *rest]]
        if best and call.group not in (None, self.talk.group):
            self.others.append((Talk(group=call.group), 0))

    @property
    def talks(self):
        """Returns all talks that the line of the call names."""
        return [self.talk, *self.ties, *self.also]

    @property
    def emergency(self):
        """Returns whether one of them is an emergency; None if no radio is known."""
        return None if self.talk.radio is None else any(talk.emergency for talk in self.talks)

    @property
    def certainty(self):
        """Returns the source of the talker: words, once, a tie, the header, or None."""
        if self.by == 0:
            return "header" if self.by_header else None
        return "tie" if self.ties else "once" if self.by == 1 else "words"


class Calls:
    """The calls among items, as p25 calls groups them, or with `by_talker` their parts.

    A run of units is divided by a packet, another NAC, a terminator before, a header after, more than 3,456 bits between two units, and positions that begin
    anew. These are of another segment, and continue from the end of the one before. `pauses` closes a run too once no later unit can belong to it.

    If a terminator and a header were lost, two radios speak in one run. With `by_talker` a talk begins a part at its first unit, if two words of the run have
    it, or an emergency, or the group of the header. Until then its units wait. An emergency makes a call even from units without voice.
    """

    def __init__(self, pauses=False, by_talker=False, keeps=False):
        self.pauses, self.by_talker, self.keeps = pauses, by_talker, keeps
        self.run = None    # the open run, or its open part
        self.base = self.place = 0    # the begin of the segment, and the end of the last item in it
        self.segments = 0
        self.forget()

    def forget(self):
        """Forgets the state of the run."""
        self.end_at = self.links = 0
        self.has_emergency = False
        self.counts, self.sure = {}, set()    # the words of each talk in the run, and the talks that are sure
        self.speaker = self.other = None    # the talk of the open part, and the one that may begin the next
        self.waiting = []    # its units

    def begin(self, at, nac):
        """Begins a run or a part."""
        self.run = Call(at, nac, self.base, self.keeps)

    def settle(self):
        """Adds the units that wait to the open part."""
        for item in self.waiting:
            self.run.add(item)
        self.waiting, self.other = [], None

    def close(self):
        """Ends the open run, and returns it or its last part, if it is a call."""
        if self.run is None:
            return None
        self.settle()
        run = self.run if self.links or self.has_emergency else None
        self.run = None
        self.forget()
        return run

    def add(self, item):
        """Adds a unit to the run, and returns the part that it closes, or None."""
        self.end_at = item.end
        self.links += item.unit in LINK_UNITS
        talk = Talk(item.lc)
        if not self.by_talker or talk.who is None:
            if self.waiting:
                self.waiting.append(item)
            else:
                self.run.add(item)
            return None
        self.has_emergency = self.has_emergency or talk.emergency
        count = self.counts[talk.who] = self.counts.get(talk.who, 0) + 1
        if count > 1 or talk.emergency or self.run.group is not None and talk.group == self.run.group and not self.speaker:
            self.sure.add(talk.who)
        if self.speaker in (None, talk.who):
            self.speaker = talk.who
            self.settle()
            self.run.add(item)
            return None
        if self.other != talk.who:
            self.settle()
            self.other = talk.who
        self.waiting.append(item)
        if talk.who not in self.sure:
            return None
        closed = None
        if self.speaker in self.sure:
            closed = self.run
            self.begin(self.waiting[0].at, item.nac)
        self.speaker = talk.who
        self.settle()
        return closed

    def take(self, item):
        """Takes the next item, and returns the calls that it closes."""
        closed = []
        is_anew = item.at < self.place
        if self.run is not None:
            far = item.at > self.end_at + PAUSE or is_anew
            if item.nac is None:
                # A unit that does not decode ends no call, as long as the next unit may belong to it.
                is_closed = is_anew or self.pauses and (far or item.kind == "gap" and item.end > self.end_at + PAUSE)
            else:
                is_closed = far or item.unit in PACKETS or item.nac != self.run.nac or item.unit == "hdu"
            if is_closed:
                closed.append(self.close())
        if is_anew or not self.segments:
            self.segments += 1
            self.base += self.place
        self.place = item.end
        if item.nac is not None and item.unit not in PACKETS:
            if self.run is None:
                self.begin(item.at, item.nac)
            closed.append(self.add(item))
            if item.unit in TERMINATORS:
                closed.append(self.close())
        return [call for call in closed if call is not None]


# The sync, and the generator of the code of the NID.
SYNC, GENERATOR = 0x5575F5FF77FF, 0o6331141367235453
DUIDS = {**{unit: int(duid, 16) for duid, unit in KINDS.items()}, **dict.fromkeys(PACKETS, 0xC)}
# The correction radius of a sync and of an NID.
SYNC_RADIUS, NID_RADIUS = 4, 11


def front_of(nac, unit):
    """Returns the 111 bits of the sync and the NID of a unit."""
    word = rest = (int(nac, 16) << 4 | DUIDS[unit]) << 47
    for place in range(62, 46, -1):
        if rest >> place & 1:
            rest ^= GENERATOR << place - 47
    return SYNC << 63 | word | rest


def front_bits(octets, at):
    """Returns the 111 bits of sync and NID at a position, without the status symbol after the 22nd bit of the NID."""
    first, last = at // 8, (at + 113 + 7) // 8
    bits = int.from_bytes(octets[first:last], "big") >> (8 * last - at - 113)
    return (bits >> 43 & (1 << 70) - 1) << 41 | bits & (1 << 41) - 1


def front_errors(octets, item):
    """Returns the bit errors of the sync and of the NID of a unit in a recording, or None if the recording ends before."""
    if item.at + 113 > 8 * len(octets):
        return None
    wrong = front_bits(octets, item.at) ^ front_of(item.nac, item.unit)
    return bin(wrong >> 63).count("1"), bin(wrong & (1 << 63) - 1).count("1")


class Hidden:
    """The syncs with NID of a recording that p25 does not find, because they have too many bit errors.

    Each is that of a unit of a network with a whole unit before, with at most 12 bit errors in the sync and 26 in the 111 bits. At a BER of 15 % this finds
    97 % of them, at 20 % 77 %, and in an hour of noise one position for each network.
    """

    def __init__(self, octets):
        self.octets, self.words, self.edge = octets, {}, 0    # the sync and NID of each network; the bits before the edge were examined

    def take(self, item):
        """Yields position and bit errors of those up to the next unit, or within the next item."""
        if item.kind == "unit" and item.nac not in self.words:
            self.words[item.nac] = [front_of(item.nac, unit) for unit in KINDS.values()]
        end = item.end if item.nac is None else item.at
        if self.words:
            yield from self.look(max(self.edge, end - NEAR), min(end, 8 * len(self.octets)))
            self.edge = max(self.edge, end - 112)
        if item.nac is not None:
            self.edge = item.end

    def look(self, begin, end):
        """Examines all positions of some bits."""
        count, last = end - begin - 112, -(-end // 8)
        if count <= 0:
            return
        bits, every = int.from_bytes(self.octets[begin // 8 : last], "big") >> 8 * last - end, (1 << count) - 1
        # The errors of the sync at all positions are counted at once: each of these numbers has one binary digit of every count.
        digits = [0] * 6
        for place in range(48):
            wrong = bits >> 112 - place & every ^ (every if SYNC >> 47 - place & 1 else 0)
            for digit in range(6):
                digits[digit], wrong = digits[digit] ^ wrong, digits[digit] & wrong
        few = every & ~(digits[5] | digits[4] | digits[3] & digits[2] & (digits[1] | digits[0]))
        while few:
            place = few.bit_length() - 1
            few ^= 1 << place
            at = begin + count - 1 - place
            came = front_bits(self.octets, at)
            least = min(bin(came ^ word).count("1") for words in self.words.values() for word in words)
            if least <= 26:
                yield at, least


class Network:
    """The counts of the units of a network."""

    def __init__(self, nac):
        self.nac = nac
        self.whole = self.broken = self.packets = 0


class Recording:
    """The calls, the networks and the units of a recording."""

    def __init__(self, network=Network, keeps=False):
        self.calls = Calls(pauses=True, by_talker=True, keeps=keeps)
        self.parts = Parts()
        self.network = network
        self.networks = {}
        self.whole = self.broken = self.nounit = 0

    @property
    def end_at(self):
        """Returns the end of the last item, counted from the first segment."""
        return self.calls.base + self.calls.place

    def take(self, item):
        """Takes the next item, and returns the calls that it closes."""
        closed = self.calls.take(item)
        self.nounit += item.kind == "nounit"
        if item.nac is not None:
            network = self.networks.get(item.nac)
            if network is None:
                network = self.networks[item.nac] = self.network(item.nac)
            is_whole = item.kind == "unit"
            for counted in (self, network):
                counted.whole += is_whole
                counted.broken += not is_whole
            network.packets += item.unit in PACKETS
        for call in closed:
            self.parts.mark(call)
        return closed

    def end(self):
        """Returns the calls that the end closes."""
        call = self.calls.close()
        if call is None:
            return []
        self.parts.mark(call)
        return [call]


class Parts:
    """Marks calls that may be parts of one: neither the end of the first nor the beginning of the second was heard."""

    def __init__(self):
        self.last = {}

    def mark(self, call):
        """Sets `goes_on` if it may continue the last call of its network."""
        before = self.last.get(call.nac)
        if (
            before is not None
            and before.end == "open"
            and call.entry == "late"
            and 0 <= call.begin - before.base - before.end_at <= NEAR
            and Told(before).talk.same(Told(call).talk)
            and (before.alg is None or call.alg is None or before.alg == call.alg)
        ):
            call.goes_on = before
        self.last[call.nac] = call


class Chosen:
    """The choice of calls by options."""

    def __init__(self, group=None, radio=None, emergency=False):
        self.group, self.radio, self.emergency = group, radio, emergency

    def has(self, call):
        """Returns whether one of the talks in a call is chosen."""
        return any(
            (self.group is None or talk.group == self.group)
            and (self.radio is None or self.radio in (talk.radio, talk.called))
            and (bool(talk.emergency) or not self.emergency)
            for talk in Told(call).talks
        )


def grade_of(missed, sent):
    """Returns the word for a reception, given how many voice units were broken or lost."""
    share = 100 * missed / sent
    return "good" if share <= GOOD else "fair" if share <= FAIR else "poor"


def rate_of(wrong, looked):
    """Returns the bit error rate in %, to four digits after the point, or None."""
    return round(100 * wrong / looked, 4) if looked else None


def thousandths(bits):
    """Returns bits as ms, to the nearest."""
    return (bits * 2000 + BITS_A_SECOND) // (2 * BITS_A_SECOND)


def seconds(bits):
    """Returns bits as seconds with three digits after the point."""
    whole, part = divmod(thousandths(bits), 1000)
    return f"{whole}.{part:03d}"
