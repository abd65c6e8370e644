"""Makes the calls of the package p25, one kind in a run, so that bindings/test can compare their results. The status is 0 if all are as expected.

usage: try.py recording FILE SHOWN REPAIRED BRIDGED      the outputs of p25 for the file; bridged under 123 with status 2
       try.py build LINES UNITS                          the units of the lines with status 3
       try.py fault LINES                                prints the fault of the one line
       try.py words                                      standard input is lines CODE RECEIVED, as in words.txt
       try.py codes                                      the other calls on codewords, blocks and checks
       try.py others                                     refusals, numbers and doc strings
       try.py values FILE UNITS CALLS                    the lines of its whole units, and the output of p25 calls for it
       try.py layout                                     the size of each struct of values, and the offsets of its members
       try.py types FILE                                 the types that are taken for octets, and each way to use a stream, on a recording
"""

import array
import asyncio
import ctypes
import inspect
import mmap
import os
import sys
import time

import p25


DUIDS = {"hdu": 0, "tdu": 3, "ldu1": 5, "ldu2": 10, "confirmed": 12, "plain": 12, "response": 12, "tdulc": 15}


def read(path):
    """Returns the octets of a file."""
    with open(path, "rb") as file:
        return file.read()


def raised(cause, call, *arguments):
    """Checks that a call raises ValueError with this cause."""
    try:
        call(*arguments)
    except ValueError as error:
        assert str(error) == cause, (call, arguments, str(error), cause)
    else:
        raise AssertionError((call, arguments, "raises nothing"))


def in_pieces(octets, size):
    """Returns the items of a recording that comes in chunks of a size, and checks that each is an item of the whole as it is decided."""
    stream, found = p25.Stream(), []
    for place in range(0, len(octets), size):
        found += stream.feed(octets[place : place + size])
        held = len(stream._batch[1]) + sum(map(len, stream._pieces))
        assert held <= 3241 + size, held
    return found + list(stream.finish())


def try_recording(path, shown, repaired, bridged):
    octets, lines = read(path), read(shown).decode().splitlines()
    whole = list(p25.items(octets))
    assert [it.text for it in whole] == lines
    end = 0
    for it in whole:
        assert it.place == end and it.bits > 0 and it.text.startswith(f"{it.kind} at={it.place} ")
        assert it.value("at") == str(it.place) and it.value("bits") in (None, str(it.bits)) and it.value("a") is None
        assert (it.value("fix") or "0") == str(it.fixes)
        assert it.value("nac") == (None if it.nac is None else f"{it.nac:03x}")
        assert it.value("duid") in (None, f"{it.duid or 0:x}")
        assert it.kind != "unit" or it.duid == DUIDS[it.text.split(" ")[5]]
        end += it.bits
    assert end == 8 * len(octets)
    for size in range(1, 21):
        assert in_pieces(octets, size) == whole, size
    stream = p25.Stream()
    stream.feed(octets)
    stream.feed(bytearray())
    assert list(stream.finish()) == whole, "items that were not taken come later"
    assert p25.repair(memoryview(octets)) == read(repaired)
    assert p25.bridge(octets, 0x123, 2) == read(bridged)


def try_build(lines, units):
    built = [p25.build(line, 3) for line in read(lines).decode().splitlines()]
    assert b"".join(built) == read(units)
    for line, unit in zip(read(lines).decode().splitlines(), built):
        (item,) = p25.items(unit)
        assert item.kind == "unit" and item.text.endswith(line) and p25.build(line.encode(), 3) == unit
        assert p25.repair_unit(unit + b"more") == unit
        assert p25.bridge_unit(unit, item.nac, 3) == unit


def try_fault(lines):
    try:
        p25.build(read(lines)[:-1], 1)
    except ValueError as error:
        print(error)


def release():
    """Returns the numbers of this release."""
    number = read(os.path.join(os.path.dirname(os.path.dirname(os.path.abspath(__file__))), "RELEASE")).decode().split()[-1]
    return tuple(int(it) for it in f"{number}.0.0".split(".")[:3])


def try_others():
    unit = p25.build("tdu nac=293")
    assert unit == p25.build("tdu nac=293", 0) and len(unit) == 18
    raised("status", p25.build, "tdu nac=293", 4)
    raised("status", p25.build, "tdu nac=293", -1)
    raised("status", p25.build, "tdu nac=293", 256)
    raised("unit", p25.repair_unit, b"")
    raised("unit", p25.repair_unit, unit[:17])
    raised("unit", p25.bridge_unit, bytes(100), 0, 0)
    raised("nac", p25.bridge_unit, unit, 4096, 0)
    raised("nac", p25.bridge_unit, unit, -1, 0)
    raised("nac", p25.bridge_unit, unit, 65536, 0)
    raised("status", p25.bridge_unit, unit, 0, 4)
    raised("nac", p25.bridge, b"", 4096, 4)
    stream = p25.Stream()
    # An item comes with the octet that decides it, and the last one at the end.
    counts = [len(list(stream.feed(bytes([octet])))) for octet in unit]
    assert counts == [0] * 17 + [1], counts
    assert list(stream.finish()) == [] and list(stream.finish()) == []
    raised("finished", stream.feed, b"")
    assert list(p25.items(b"")) == []
    assert p25.version() == release(), p25.version()
    for name, value in vars(p25).items():
        if not name.startswith("_") and getattr(value, "__module__", "").startswith("p25") and callable(value):
            assert inspect.getdoc(value), name


def refused(call, *arguments):
    """Checks that a call raises TypeError."""
    try:
        call(*arguments)
    except TypeError:
        return
    raise AssertionError((call, arguments, "raises no TypeError"))


class Reader:
    """A reader as asyncio has them, over octets."""

    def __init__(self, octets):
        self._octets = octets

    async def read(self, size):
        piece, self._octets = self._octets[:size], self._octets[size:]
        return piece


async def taken(reader):
    return [it async for it in p25.Stream().aread(reader, 999)]


def try_types(path):
    octets = read(path)
    whole = list(p25.items(octets))
    for given in (bytearray(octets), memoryview(octets), list(octets), array.array("B", octets)):
        assert list(p25.items(given)) == whole and p25.repair(given) == p25.repair(octets) and p25.crc32(given) == p25.crc32(octets)
    with open(path, "rb") as file, mmap.mmap(file.fileno(), 0, access=mmap.ACCESS_READ) as mapped:
        assert list(p25.items(mapped)) == whole
        file.seek(0)
        with p25.Stream() as stream:
            assert list(stream.read(file, 1000)) == whole
    assert list(p25.items(memoryview(octets)[::2])) == list(p25.items(octets[::2]))
    assert asyncio.run(taken(Reader(octets))) == whole
    for wrong in (5, 1.5, None, "text", array.array("i", [1, 2]), [256], ["a"]):
        for call in (p25.items, p25.repair, p25.repair_unit, p25.crc16, p25.RS_24_12.read, p25.Stream().feed):
            try:
                list(call(wrong)) if call is p25.items else call(wrong)
            except (TypeError, ValueError):
                continue
            raise AssertionError((call, wrong))
    for call in (p25.repair, p25.crc16, p25.crc32, p25.RS_24_12.read, p25.repair_unit):
        refused(call, 24)
        refused(call, "text")
        refused(call, array.array("q", range(24)))
    refused(p25.build, "tdu nac=293", 1.0)
    refused(p25.bridge_unit, octets, 1.5, 0)
    refused(p25.bridge_unit, octets, None, 0)
    for item in whole:
        kind, place, bits, *_, text = item
        assert item[0] == kind == item.kind and (place, bits, text) == (item.place, item.bits, item.text) and len(item) == 7
        assert item == tuple(item) and hash(item) == hash(item) and repr(item).startswith(f"Item(kind={kind!r}, place={place},")
        assert item.kind == item.kind_id.name.lower() and len(item.octets) == (bits + 7) // 8
        assert item.kind != "unit" or p25.repair_unit(item.octets) and isinstance(item.duid, p25.Duid)
    # Items that are not taken cost no more than items that are: a feed is as quick with a million octets held as with none.
    stream, begun = p25.Stream(), time.process_time()
    for _ in range(4000):
        stream.feed(bytes(1000))
    assert time.process_time() - begun < 1, "a feed is linear"
    error = p25.Error("unit")
    assert error.cause is p25.Cause.UNIT == "unit" and str(error) == "unit" and isinstance(error, ValueError)
    assert set(p25.__all__) <= set(vars(p25)) and p25.__version__ == ".".join(map(str, release()))


def unit_line(item):
    """Returns the line of a whole unit by its values."""
    it = item.fields
    assert (it.nac, it.duid) == (item.nac, item.duid)
    if item.duid == p25.Duid.PDU:
        packet = item.packet
        assert packet.nac == item.nac and all(packet.good) and packet.blocks == packet.head[6] % 128
        assert p25.bridge_unit(p25.build_packet(packet.nac, packet.head, packet.data, packet.serials or None, 1), item.nac, 0) == p25.bridge_unit(item.octets, item.nac, 0)
        kind = {0x16: "confirmed", 0x15: "plain", 0x03: "response"}[packet.format]
        rest = packet.data.hex() or "-"
        if kind == "confirmed":
            parts = (packet.data[at : at + 16].hex() for at in range(0, len(packet.data), 16))
            rest = ",".join(f"{serial:02x}:{part}" for serial, part in zip(packet.serials, parts)) or "-"
        return f"{kind} nac={item.nac:03x} head={packet.head.hex()} {'blocks' if kind == 'confirmed' else 'octets'}={rest}"
    assert item.packet is None and (item.link is None) == (it.lc is None)
    assert p25.build_fields(it, 1) == p25.bridge_unit(item.octets, item.nac, 1)
    words = [it.duid.name.lower(), f"nac={it.nac:03x}"]
    words += [f"{key}={getattr(it, key).hex()}" for key in ("lc", "mi") if getattr(it, key) is not None]
    for key, digits in (("mfid", 2), ("algid", 2), ("kid", 4), ("tgid", 4)):
        if getattr(it, key) is not None:
            words.append(f"{key}={getattr(it, key):0{digits}x}")
    if it.voice is not None:
        words += [f"lsd={it.lsd.hex()}", f"voice={b''.join(it.voice).hex()}"]
    return " ".join(words)


def call_line(it):
    """Returns the line of a call by its values."""
    assert it.link is None if it.lc is None else it.link == p25.read_link(it.lc)
    lc, algid = "none" if it.lc is None else it.lc.hex(), "none" if it.algid is None else f"{it.algid:02x}"
    words = f"call at={it.place} bits={it.bits} nac={it.nac:03x} entry={'late' if it.late else 'header'} end={it.end.name.lower()}"
    return f"{words} links={it.links} broken={it.broken} lc={lc} alg={algid}"


def try_values(path, units, calls):
    octets = read(path)
    whole = list(p25.items(octets))
    assert [unit_line(it) for it in whole if it.kind == "unit"] == read(units).decode().splitlines()
    assert all(it.fields is None for it in whole if it.kind != "unit")
    lines = [call_line(it) for it in p25.calls(octets)]
    assert lines + [f"calls={len(lines)}"] == read(calls).decode().splitlines()
    caller = p25.Caller()
    if whole and whole[-1].place > 0:
        raised("place", caller.take, whole[-1])
        assert not caller.is_open
    link = p25.read_link(bytes.fromhex("00908000ffff00abcd"))
    assert link == (link.octets, p25.LinkKind.GROUP, 0x90, 0xABCD, 0xFFFF, None, True)
    assert p25.read_link(bytes.fromhex("03900012345600abcd"))[1:6] == (p25.LinkKind.INDIVIDUAL, 0x90, 0xABCD, None, 0x123456)
    raised("length", p25.read_link, bytes(8))
    raised("duid", p25.build_fields, p25.Fields(1, 12))
    raised("nac", p25.build_fields, p25.Fields(4096, 3))
    raised("status", p25.build_fields, p25.Fields(1, 3), 4)
    raised("length", p25.build_fields, p25.Fields(1, 15, lc=bytes(8)))
    raised("packet", p25.build_packet, 1, bytes(10))
    raised("length", p25.build_packet, 1, bytes(9))
    raised("serial", p25.build_packet, 1, b"\x16" + bytes(5) + b"\x01" + bytes(3), bytes(16), [128])


def try_follows(recording, levels, followed, relayed, softened):
    octets, given = read(recording), read(levels)
    assert p25.follow(octets) == read(followed)
    assert p25.relay(octets, 0x123, 2) == read(relayed)
    assert p25.soft(given) == read(softened) == p25.soft([it - 256 * (it > 127) for it in given])
    assert p25.hard_octets(given)[: len(octets)] == p25.hard_octets(bytearray(given))[: len(octets)]
    follower, stream = p25.Follower(), p25.Stream()
    # The octets that are written as the items come go into a stream as they come, and give the same items as all octets at once.
    found = [it for item in p25.items(octets) for it in stream.feed(follower.take(item))]
    found += [*stream.feed(follower.finish()), *stream.finish()]
    assert found == list(p25.items(read(followed)))
    whole = list(p25.items(octets))
    if len(whole) > 1:
        raised("place", p25.Follower().take, whole[1])
    raised("nac", p25.relay, octets, 4096, 0)
    raised("status", p25.relay, octets, 0, 4)
    raised("letters", p25.soft, [128])
    raised("length", p25.soften, bytes(12961))


def try_layout():
    """Prints the lines of `values layout`."""
    it = p25._calls
    for it in (it.LinkParts, it.FieldParts, it.CallParts, it.CallerState, it.PacketParts, it.FollowerState):
        print(ctypes.sizeof(it), *(getattr(it, part[0]).offset for part in it._fields_))


CODES = {
    "golay24": p25.GOLAY_24,
    "golay18": p25.GOLAY_18,
    "hamming10": p25.HAMMING_10,
    "lsd16": p25.LSD_16,
    "rs36_20": p25.RS_36_20,
    "rs24_12": p25.RS_24_12,
    "rs24_16": p25.RS_24_16,
}


def read_as(name, received):
    """Returns the decoding of a word, in the form of words.txt."""
    if name == "bch63":
        reading = p25.read_nid(int(received, 16) << 1)
        return reading and (f"{p25.write_nid(*reading[:2]) >> 1:016X}", reading[2])
    code = CODES[name]
    if not isinstance(code, p25.SymbolCode):
        reading = code.read(int(received, 16))
        assert reading is None or code.write(reading[0] >> (code.n - code.k)) == reading[0]
        return reading and (f"{reading[0]:0{len(received)}X}", reading[1])
    reading = code.read(int(received[at : at + 2], 8) for at in range(0, 2 * code.n, 2))
    assert reading is None or code.write(reading[0][: code.k]) == reading[0]
    return reading and ("".join(f"{it:02o}" for it in reading[0]), reading[1])


def try_words():
    for line in sys.stdin:
        name, received = line.split()
        reading = read_as(name, received)
        print(name, received, *(("Found", *reading) if reading else ("Beyond",)))


def try_codes():
    """Makes the calls of codes.c that words.txt does not have, and checks their refusals."""
    for code in (p25.RS_36_20, p25.RS_24_12, p25.RS_24_16):
        word = code.write(range(1, code.k + 1))
        lost = code.n - code.k
        assert code.read(bytes(lost) + word[lost:], [at < lost for at in range(code.n)]) == (word, lost - word[:lost].count(0))
        assert code.read(word, [0] * code.n) == code.read(word) == (word, 0)
        assert code.read(bytes([1]) * lost + bytes(code.k)) is None
        raised("length", code.read, word[1:])
        raised("length", code.read, word, [True])
        raised("length", code.write, word)
        raised("letters", code.read, [64] + [0] * (code.n - 1))
        raised("letters", code.read, [64] + [0] * (code.n - 1), [True] + [False] * (code.n - 1))
        raised("letters", code.write, [64] * code.k)
    for code in (p25.GOLAY_24, p25.GOLAY_18, p25.HAMMING_10, p25.LSD_16):
        raised("letters", code.read, 1 << code.n)
        raised("letters", code.read, -1)
        raised("letters", code.write, 1 << code.k)
        raised("letters", code.write, 1 << 32)
    carried = bytes.fromhex("56C0001234568100089ABCDEF00F1E2D3C4B")
    for code, sent in (
        (p25.HALF_RATE, "C4229CAE21AF9052CF092274B022EB0221D83D221EDC29A560"),
        (p25.THREE_QUARTER_RATE, "EF2F227A148A60275F264EE8892A7EDD0FCF162C3AE5A2A980"),
    ):
        octets, bits = carried[: code.length], bytes.fromhex(sent)
        levels = [(32, 96, -32, -96)[bits[at // 4] >> (6 - 2 * (at % 4)) & 3] for at in range(98)]
        assert code.write(octets) == bits and code.read(bits) == (octets, 0) and code.read_levels(levels) == (octets, 0)
        assert code.read(bytes([bits[0] ^ 1]) + bits[1:]) == (octets, 1)
        assert code.read_levels([levels[0] + 6] + levels[1:]) == (octets, 36)
        raised("length", code.write, octets[1:])
        raised("length", code.read, bits[1:])
        raised("length", code.read_levels, levels[1:])
        raised("letters", code.read_levels, [128] + levels[1:])
    assert p25.write_nid(0x293, 5) == 0x293555EF2C653437 and p25.read_nid(0x293555EF2C653437 ^ 0x7FF0) == (0x293, 5, 11)
    raised("nac", p25.write_nid, 4096, 16)
    raised("duid", p25.write_nid, 4095, 16)
    raised("letters", p25.read_nid, 1 << 64)
    assert (p25.crc9(0, bytes(16)), p25.crc16(b"123456789"), p25.crc32(b"123456789")) == (0x1FF, 0xCE3C, 0x765E7680)
    raised("serial", p25.crc9, 128, bytes(16))
    raised("length", p25.crc9, 127, bytes(15))


CALLS = {
    "recording": try_recording,
    "build": try_build,
    "fault": try_fault,
    "words": try_words,
    "codes": try_codes,
    "others": try_others,
    "types": try_types,
    "values": try_values,
    "layout": try_layout,
    "follows": try_follows,
}

if __name__ == "__main__":
    CALLS[sys.argv[1]](*sys.argv[2:])
