"""p25-rate, p25-json, p25-split, p25-damage and p25-flip; and the common parts of all helper scripts: options, ends, pages,
completion."""

import json
import math
import os
import re
import signal
import subprocess
import threading
import time

import pytest
from conftest import LC, RECORDINGS, SAMPLES, SCRIPTS, TOP, UNITS, ZEROS, hdu, ldu1, ldu2, need, tdulc
from test_files import noise
from test_forms import CALLS, control_channel

# -- Bit errors.


@pytest.mark.parametrize("words, checksum", [("7 0", None), ("7 1", "2415897771"), ("7 5.5", "3229497955"), ("7 100%", "2986237897")])
def test_damage_is_the_same_everywhere(room, words, checksum):
    assert room.text(f"p25-damage {words} < call.bin | cksum").split()[0] == (checksum or room.text("cksum < call.bin").split()[0])


def bits(octets):
    return int.from_bytes(octets, "big")


@pytest.mark.parametrize("rate", [1, 3, 8, 16])
def test_damage_by_its_draws(room, mixed, rate):
    s, limit, wanted = 4000000000, rate * 4294967296 // 100, 0
    for place in range(8 * len(mixed[0]) + 1):
        s = (1664525 * s + 1013904223) % 4294967296
        wanted = wanted << 1 | (s < limit and place > 0)
    errors = bits(room.octets(f"p25-damage 4000000000 {rate}", mixed[0])) ^ bits(mixed[0])
    assert errors == wanted
    assert abs(bin(errors).count("1") - 8 * len(mixed[0]) * rate / 100) < 5 * math.sqrt(8 * len(mixed[0]) * rate / 100)
    assert errors & ~(bits(room.octets(f"p25-damage 4000000000 {rate + 1}", mixed[0])) ^ bits(mixed[0])) == 0


def test_flip(room, mixed):
    assert room.text("p25-flip 0,7-20,100 < call.bin | cksum").startswith("1021816518 ")
    assert room.lines("p25-flip 3,2,1,0 < terminators.bin | p25 show")[0].startswith("unit at=0 bits=144 fix=4 ")
    assert room.lines("p25-flip 0-4 < terminators.bin | p25 show")[0] == "gap at=0 bits=144"
    assert room.octets("p25-flip 5,77,4000-4100 | p25-flip 4000-4100,5,77", mixed[0]) == mixed[0]
    status, out, told = room.run("p25-flip 431,432 < terminators.bin")
    assert (status, told) == (1, "p25-flip: the recording has 432 bits, so place 432 is not in it\n")
    assert bits(out) ^ bits(SAMPLES["terminators.bin"].read_bytes()) == 1
    assert room.run("p25-flip 5-999999999999 < terminators.bin")[2].endswith("so place 999999999999 is not in it\n")
    assert room.run("p25-flip 1,0-2 < terminators.bin")[::2] == (2, "p25-flip: place 1 stands twice\n")


# -- p25-rate.


def total(room, shown, words=""):
    return [line.split() for line in room.lines(f"p25-rate {words}", shown) if line.startswith(("all", "front"))]


@pytest.mark.parametrize("unit", UNITS)
def test_bits_that_are_looked_at(room, unit):
    """Checks that each copy of the unit with one bit error is whole, and that the sum of their fixes is the divisor for each."""
    octets = room.build(unit)
    copies = b"".join((bits(octets) ^ 1 << place).to_bytes(len(octets), "big") for place in range(8 * len(octets)))
    ((_, units, looked, wrong, _, _),) = total(room, room.octets("p25 show", copies))
    assert (int(units), int(looked)) == (8 * len(octets), 8 * len(octets) * int(wrong))


@pytest.fixture(scope="module")
def long(mixed):
    return 20 * mixed[0][: -len(SAMPLES["noise.bin"].read_bytes()) - len(SAMPLES["damaged_call.bin"].read_bytes())]


@pytest.mark.parametrize("rate", [1, 2, 3, 6, 10, 16])
def test_rates(room, long, rate):
    """Checks that the table agrees with another count of the lines, and is near to the bits that were inverted."""
    shown = room.octets(f"p25-damage {rate} {rate} | p25 show", long)
    rows = [line.split() for line in room.lines("p25-rate -c", shown)]
    rows = {row[0].split(",")[0]: row[0].split(",")[1:] for row in rows}
    lines = shown.decode().splitlines()
    for kind in ("hdu", "ldu1", "tdulc"):
        of = [int(re.search("fix=([0-9]+)", line)[1]) for line in lines if line.startswith("unit") and line.split()[5] == kind]
        assert not of or [int(rows[kind][0]), int(rows[kind][2])] == [len(of), sum(of)]
    assert int(rows["broken"][0]) == sum(line.startswith("broken") for line in lines)
    if rate <= 3:
        assert 0.93 * rate < float(rows["all"][3]) < 1.07 * rate


def test_rate_of_fronts(room, long):
    """Checks that with the recording, received syncs and NIDs of all units count."""
    for name in ("traffic.bin", "terminators.bin", "shifted.bin"):
        assert room.text(f"p25 show < {name} | p25-rate --recording {name}").count(" 0    0.000 %") >= 3
    room.put("long.bin", long)
    room.octets("p25-damage 5 8 < long.bin > damaged.bin")
    everything, front = total(room, room.octets("p25 follow < damaged.bin | p25 show"), "--recording damaged.bin")
    assert int(front[1]) > 1.2 * int(everything[1])
    assert 7.4 < float(front[4]) < 8.4 and float(everything[4]) < 8
    # Fades of half a second with a BER of 20 %.
    octets = bytearray(b"".join(room.octets(f"p25-damage {place} {20 if place % 3 == 0 else 1}", long[600 * place : 600 * place + 600]) for place in range(60)))
    room.put("fades.bin", bytes(octets))
    everything, front = total(room, room.octets("p25 follow < fades.bin | p25 show"), "--recording fades.bin")
    truth = 100 * bin(bits(bytes(octets)) ^ bits(long[:36000])).count("1") / (8 * 36000)
    assert abs(float(front[4]) - truth) < 0.25 * abs(float(everything[4]) - truth)
    rows = [line.split(",") for line in room.lines("p25 follow < fades.bin | p25 show | p25-rate -t 7 -c --recording fades.bin")][1:]
    assert [sum(int(row[place]) for row in rows) for place in (11, 12)] == [int(front[1]), int(front[3])]
    room.put("more.bin", bytes(octets) + noise(1200 * 120))
    assert int(total(room, room.octets("p25 follow < more.bin | p25 show"), "--recording more.bin")[1][1]) < int(front[1]) + 3


@pytest.mark.parametrize("seconds", ["0.1", "0.3333", "1", "7", "3.14159", "0.0003", "1000", "86400"])
def test_rate_by_time(room, long, seconds):
    """Checks that there are as many slices as the time has, and that their sums are those of the recording."""
    octets = long[: len(long) // (20 if seconds == "0.0003" else 4)]
    shown = room.octets("p25-damage 6 6 | p25 show", octets)
    rows = [line.split(",") for line in room.lines(f"p25-rate -t {seconds} -c", shown)][1:]
    assert len(rows) == math.ceil(8 * len(octets) / 9600 / float(seconds))
    whole = sum(int(size) for size in re.findall(rb"^unit at=\d+ bits=(\d+)", shown, re.M))
    assert sum(int(row[6]) for row in rows) == len(re.findall(rb"^unit ", shown, re.M))
    assert sum(int(row[7]) for row in rows) == len(re.findall(rb"^(?:broken|nounit) ", shown, re.M))
    assert abs(sum(float(row[1]) for row in rows) * 9600 - 8 * len(octets)) < 5 * len(rows) + 1
    assert abs(sum(96 * float(row[1]) * float(row[8]) for row in rows) - (8 * len(octets) - whole)) < 5 * len(rows) + 1
    text = room.lines(f"p25-rate -t {seconds}", shown)
    assert len(text) == len(rows) + 1


def loss(room):
    """Returns the lines of a call of which one unit of six is lost, and of a pause as long as ten."""
    units = [*UNITS[:3], *UNITS[1:3], UNITS[4], 2160, UNITS[0], UNITS[1], 216, *UNITS[1:3], UNITS[4]]
    return room.octets("p25 show", room.build(*units))


def test_loss_within_calls(room):
    size = 2 * (792 + 4 * 1728 + 432) + 17280
    row = room.lines("p25-rate -t 1000 -c", loss(room))[1].split(",")
    assert row[6:] == ["11", "0", f"{100 * (17280 + 1728) / size:.4f}", f"{(size - 17280) / 9600:.3f}", f"{100 * 1728 / (size - 17280):.4f}"]
    assert room.lines("p25-rate -t 1000", loss(room))[1].split()[-2:] == ["11", "%"]
    assert room.lines("p25-rate -t 1 -c --begin 2026-11-28T08:00:00+01:00", loss(room))[2].startswith("1.000,1.000,2026-11-28T08:00:01.000+01:00,")


def test_picture(room, mixed):
    shown = room.put("shown", room.octets("p25-damage 6 6 | p25 show", 5 * mixed[0]))
    room.octets(f"p25-rate -t 0.5 -g pic < {shown} > counted; mkdir sub; cd sub; p25-rate -g < ../{shown}")
    assert (room.path / "sub" / "rate.gp").exists()
    rows = [line.split() for line in room.get("pic.dat").decode().splitlines()]
    table = [line.split(",") for line in room.get("pic.csv").decode().splitlines()]
    assert table[0] == "begin,seconds,time,looked,wrong,rate,whole,broken,unread,in_calls,lost".split(",")
    assert [[row[0], row[2], row[3]] for row in rows] == [[row[0], row[6], row[7]] for row in table[1:]]
    assert abs(9600 * (float(rows[-1][0]) + float(rows[-1][5])) - 40 * len(mixed[0])) < 10
    need("gnuplot")
    room.octets("gnuplot pic.gp")
    assert room.get("pic.png")[1:4] == b"PNG"


def test_picture_with_a_clock(room, mixed):
    """Checks the labels of the axis as they are drawn: each has a time and a day, in two lines."""
    need("gnuplot")
    room.octets("p25 show | p25-rate -t 0.5 -g pic --begin 2026-11-28T23:59:58+01:00 > counted", 8 * CALLS)
    room.put("pic.gp", room.get("pic.gp").replace(b"set terminal png size", b"set terminal svg size").replace(b"'pic.png'", b"'pic.svg'"))
    room.run("gnuplot pic.gp")
    texts = re.findall(r"<tspan[^>]*>([^<]*)</tspan>", room.get("pic.svg").decode())
    times = [text.strip() for text in texts if re.fullmatch(r"\d\d:\d\d:\d\d", text.strip())]
    assert len(times) >= 4 and times == sorted(times, key=lambda text: (text < "12", text))
    assert texts.count("28.11.") + texts.count("29.11.") == len(times) and "29.11." in texts
    assert any("UTC+01:00" in text for text in texts) and not any("\\n" in text for text in texts)


# -- p25-json.

OTHER_LINES = """\
broken at=0 bits=792 nac=293 duid=0 fields=header_word
broken at=792 bits=1728 nac=293 duid=5 fields=link_control,low_speed_1,low_speed_2
broken at=792 bits=720 nac=293 duid=c fields=block.0,block.12
broken at=792 bits=720 nac=293 duid=c fields=format
broken at=792 bits=720 nac=293 duid=c fields=packet_crc
nounit at=5 field=packet_header
send busy
send down
timeout sent ns=3 try=2
timeout idle
timeout down
reopen sent ns=0
reopen up
data none
answer none
data lost nid
answer lost block.1
data ignored
answer ignored
data delivered ns=0 message=-
data delivered ns=1 message=6162 false
data opened ns=0
data again ack=1
data kept ns=1 flags=5000000000000000
data refused crc ns=2
data refused order vr=7
answer acknowledged ns=1
answer opened ns=0
answer retry ns=1 blocks=0 try=2
answer repeat ns=1 try=3
answer down
sent=2 delivered=2 acknowledged=2 false=0 sessions=2
long taken parts=9
long busy
long down
part 3
part refused
whole message=6162
long acknowledged
taken=1 whole=1 acknowledged=1 false=0
a send taken ns=0 blocks=1
b data lost sync
b sent=1 delivered=0 acknowledged=0
false=0
call at=0 bits=1728 nac=293 entry=late end=open links=1 broken=1 lc=none alg=none
"""


def test_json_of_all_lines(room, mixed):
    room.put("mixed", mixed[0])
    room.put("control", control_channel(room))
    room.put("units", "".join(f"{unit}\n" for unit in UNITS))
    room.put("others", OTHER_LINES)
    lines = room.run("""
        p25 show < mixed; p25-damage 1 8 < mixed | p25 show; p25 check < mixed; cat far_identifier.bin cut_off.bin | p25 check
        p25 show < control; p25 calls < mixed; p25 stations < script.txt; p25 duplex < duplex.txt
        printf 'long -\\ndeliver data -\\ndeliver answer -\\nlong 6162\\ntimeout\\ndeliver data 0,1,2,3,4,5\\n' | p25 fragments
        p25 sample 100; cat units others""")[1].decode().splitlines()
    objects = [json.loads(line) for line in room.lines("p25-json", "\n".join(lines) + "\n")]
    assert len(objects) == len(lines)
    numbers = set("at bits fix units faults calls links broken flips exact ns try vr ack parts sent delivered acknowledged false taken whole sessions".split())
    for line, value in zip(lines, objects):
        for key, text in re.findall(r"(\w+)=(\S*)", line):
            wanted = int(text) if key in numbers else None if text == "none" else "" if text == "-" else text
            if key == "fields" or key == "blocks" and value["kind"] != "send taken":
                wanted = [] if text == "-" else text.split(",")
            if key == "blocks" and value["kind"] in ("send taken", "answer retry"):
                wanted = int(text) if value["kind"] == "send taken" else list(map(int, wanted))
            assert value[key] == wanted, line
        if re.match("(unit|broken|nounit|gap|cut|call|check)\\b", line):
            assert value["kind"] == (line.split()[5] if line.startswith("unit") else line.split()[0])


@pytest.mark.parametrize(
    "line, wanted",
    [
        ("data lost nid", '{"kind":"data lost","lost":"nid"}'),
        ("data delivered ns=1 message=6162 false", '{"kind":"data delivered","false_pass":true,"ns":1,"message":"6162"}'),
        ("data refused crc ns=2", '{"kind":"data refused","cause":"crc","ns":2}'),
        ("part 3", '{"kind":"part","part":3}'),
        ("a send taken ns=0 blocks=1", '{"kind":"send taken","station":"a","ns":0,"blocks":1}'),
        ("b sent=1 delivered=0 acknowledged=0", '{"kind":"end","station":"b","sent":1,"delivered":0,"acknowledged":0}'),
        ("tdu nac=293", '{"kind":"tdu","nac":"293"}'),
        *((line, None) for line in ("hello world", "unit at=0", 'say "so"', "", "gap at=0 bits=5 ", "send", "data lost", "tdu nac=29",
                                    "2.718 s, for 0.720 s, nac 293: radio 1 to group 1, clear; voice units 2 sent, 2 heard, 0 lost")),
    ],
)
def test_json_of_a_line(room, line, wanted):
    status, out, told = room.run("p25-json", f"calls=0\n{line}\n")
    assert (out.decode().splitlines()[1:], told) == (([wanted], "") if wanted else ([], "p25-json: line 2 is none of p25\n"))
    assert status == (wanted is None)


def test_json_of_calls(room, mixed):
    values = [json.loads(line) for line in room.lines("p25-calls -v | p25-json", mixed[1])]
    assert all(set(value) >= {"looked", "wrong", "votes"} for value in values[:-1]) and len(values) > 4


# -- p25-split.


@pytest.fixture(scope="module")
def ragged(tmp_path_factory, mixed):
    """Returns a recording of units at all distances from an octet, long packets, gaps of all lengths and damage, and its lines."""
    from conftest import Room

    room = Room(tmp_path_factory.mktemp("ragged"))
    shifted, cut = SAMPLES["shifted.bin"].read_bytes(), SAMPLES["cut_off.bin"].read_bytes()
    packet = "confirmed nac=293 head=56c000000001ff0c0800 blocks=" + ",".join(f"{place:02x}:{place:032x}" for place in range(127))
    parts = [shifted, mixed[0], room.build(packet, status=2), bytes(700)]
    for rate in (0, 2, 6, 9, 16):
        parts += [room.octets(f"p25-damage {rate} {rate}", CALLS), shifted]
    octets = b"".join([*parts, control_channel(room), bytes(9000), cut, shifted, cut])
    return octets, room.octets("p25 show", octets)


@pytest.mark.parametrize("size", [4096, 4097, 4111, 5000, 6007, 8191, 12345, 30000, 16777216])
def test_split_into_chunks(room, ragged, size):
    room.put("ragged", ragged[0])
    assert room.octets(f"p25-split ragged {size}") == ragged[1]
    assert room.octets(f"p25-split - {size}", ragged[0]) == ragged[1]
    assert room.octets(f"p25-split ragged {size} | p25-rate") == room.octets("p25-rate", ragged[1])


@pytest.mark.parametrize("size", [0, 1, 5, 6, 100, 4095, 4096, 4097, 4100, 8192, 8200, 9999])
def test_split_ends_anywhere(room, ragged, size):
    room.put("made", ragged[0][:size])
    assert room.octets("p25-split made 4096") == room.octets("p25 show < made")


def test_split_ends_at_each_octet(room):
    """Checks a unit whose voice ends with a part of a sync that continues after it."""
    shifted = SAMPLES["shifted.bin"].read_bytes()
    voice = room.build(f"ldu1 nac=293 lc={'0' * 18} lsd=0000 voice={'0' * 319}155d7", "tdu nac=293", status=3)[:216]
    room.put("made", bytes(4090) + shifted + bytes(9) + voice + b"\x5f\xf7\x7f\xf0" + bytes(8) + shifted + bytes(2000))
    wanted = room.octets("p25 show < made")
    assert re.findall(rb"^unit at=(\d+)", wanted, re.M) == [b"32723", b"32944", b"34771"]
    assert room.octets("for size in $(seq 4096 9 4380); do p25-split made $size | cksum; done | sort -u | wc -l") == b"1\n"
    assert room.octets("p25-split made 4096") == wanted


@pytest.mark.parametrize("before", [0, 5000])
def test_split_live(room, before):
    """Checks that a line is there while the pipe is open, and that an interrupt shows the rest."""
    run = subprocess.Popen(["p25-split", "-", "4096"], stdin=subprocess.PIPE, stdout=subprocess.PIPE, bufsize=0)
    run.stdin.write(bytes(before) + SAMPLES["call.bin"].read_bytes() + SAMPLES["call.bin"].read_bytes()[:50])
    lines = b""
    while lines.count(b"unit at") < 4:
        lines += run.stdout.read(65536)
    run.send_signal(signal.SIGINT)
    rest = run.communicate()[0]
    assert (run.returncode, rest.split(b"\n")[-2].split(b" ")[0]) == (130, b"cut")


def goes_on(run, chunk):
    """Writes input to a program without a pause, until the program takes no more."""
    try:
        while True:
            run.stdin.write(chunk)
            time.sleep(0.01)
    except OSError:
        pass


def catches(run, number):
    """Returns whether a process catches a signal."""
    with open(f"/proc/{run.pid}/status", encoding="ascii") as status:
        return int(re.search("SigCgt:\t([0-9a-f]+)", status.read())[1], 16) >> number - 1 & 1


@pytest.mark.parametrize("command", ["p25-split -", "p25-record day", "p25-talkers", "p25-rate"])
def test_an_end_does_not_wait_for_a_receiver_that_goes_on(room, command):
    """Shows that SIGTERM ends a script while its input goes on without a pause."""
    chunk = 50 * b"gap at=0 bits=4096\n" if command in ("p25-talkers", "p25-rate") else bytes(4096)
    run = subprocess.Popen(command.split(), cwd=room.path, stdin=subprocess.PIPE, stdout=subprocess.DEVNULL, bufsize=0)
    threading.Thread(target=goes_on, args=(run, chunk), daemon=True).start()
    while not catches(run, signal.SIGTERM):
        time.sleep(0.01)
    run.send_signal(signal.SIGTERM)
    try:
        assert run.wait(timeout=60) == 143
    finally:
        run.kill()
    if command == "p25-record day":
        # It ended as it should: nothing is left to go on with.
        assert not (room.path / "day" / "recorder.json").exists()


def test_split_of_what_is_longer_than_p25_reads(room):
    room.put("long.bin", 4000 * CALLS)
    assert room.run("p25 show < long.bin | tail -n 1")[2] == "input too long\n"
    room.octets("p25-split long.bin > lines; p25-split long.bin 3000000 | cmp - lines")
    place = units = 0
    with open(room.path / "lines", encoding="ascii") as lines:
        for line in lines:
            kind, at, *rest = line.split()
            assert at == f"at={place}"
            place += 1 if kind == "nounit" else int(rest[0][5:])
            units += kind == "unit"
    assert (place, units) == (8 * 4000 * len(CALLS), 4000 * 23)
    calls = room.lines("p25-calls < lines")
    first = room.run("p25 calls < long.bin")[1].decode().splitlines()[:-2]
    assert calls[: len(first)] == first and calls[-1] == "calls=16000"
    assert calls[-2].split()[1:3] == [f"at={3999 * 8 * len(CALLS) + 37728}", "bits=8136"]


# Prints the CPU seconds of a command, and the memory of its largest process in kilobytes. (Measured from pytest that includes pytest's own memory.)
MEASURE = """\
import resource, subprocess, sys
subprocess.run(["sh", "-c", sys.argv[1]], check=True)
usage = resource.getrusage(resource.RUSAGE_CHILDREN)
print(usage.ru_utime + usage.ru_stime, usage.ru_maxrss)
"""


def test_a_day_takes_a_minute_and_100_mb(room):
    """Checks that a twentieth of a day takes at most six times a twentieth of a CPU minute, and at most 100 MB."""
    room.put("some.bin", 900 * CALLS)
    room.put("measure.py", MEASURE)
    seconds, kilobytes = room.text("python3 measure.py 'p25-split some.bin > lines && p25-talkers -c < lines > talkers'").split()
    assert room.get("talkers").count(b"\n") == 3601
    assert float(seconds) <= 60 * 900 * 4.8 / 86400 * 6
    assert int(kilobytes) < 100000


# -- The results for all samples.


@pytest.mark.parametrize("name", RECORDINGS)
def test_samples(room, name):
    shown = room.text(f"p25 show < {name}")
    fixes = [int(fix) for fix in re.findall(r"^unit .*? fix=(\d+)", shown, re.M)]
    assert len(room.lines(f"p25 show < {name} | p25-json")) == shown.count("\n")
    ((_, units, _, wrong, *_),) = total(room, shown)
    assert [int(units), int(wrong)] == [len(fixes), sum(fixes)]
    octets = SAMPLES[name].read_bytes()
    assert room.text(f"p25-split {name} 4096") == shown
    assert room.octets(f"p25-flip 0,9,17-40 < {name} | p25-flip 17-40,9,0") == room.octets(f"p25-damage 9 0 < {name}") == octets


# -- Options, ends and pages of all.

# Arguments with which a script reads its input.
INPUT = {"p25-octets": "octets", "p25-damage": "1 2", "p25-flip": "0", "p25-split": "-", "p25-page": "", "p25-watch": ""}


@pytest.mark.parametrize("name", SCRIPTS)
def test_help_and_version(room, name):
    text = room.text(f"{name} -h")
    assert text == room.text(f"{name} --help") and text.split()[0] == name
    assert len(re.findall("^Example: .*p25-", text, re.M)) == len(re.findall("^Exit status: 0 ", text, re.M)) == 1
    assert room.text(f"{name} --version") == f"{name}, {(TOP / 'RELEASE').read_text()}"
    assert max(map(len, text.splitlines())) <= 80


@pytest.mark.parametrize("name", [name for name in SCRIPTS if name not in ("p25-guess", "p25-record")])
def test_ends(room, name):
    command = f"{name} {INPUT.get(name, '')}"
    folder, closed = room.run(f"{command} < ."), room.run(f"{command} <&-")
    assert (folder[0], folder[2].count("\n")) == (3, 1) and folder[2].startswith(f"{name}: ") and "Is a directory" in folder[2]
    assert closed[0] in (0, 3) or name == "p25-octets"
    given = room.octets("p25 show < traffic.bin") if name not in INPUT or name in ("p25-page", "p25-watch") else CALLS
    if name == "p25-page":
        pytest.importorskip("jinja2")
    assert room.run(f"{command} > /dev/full", given)[::2] == (4, f"{name}: the output cannot be written: No space left on device\n")
    # A reader that ends early ends a script without a message.
    assert room.run(f"{command} | head -c 1", given if name == "p25-page" else 300 * given)[2] == ""


REFUSED = """
p25-octets |p25-octets bytes|p25-octets -x octets|p25-octets octets dibits|p25-octets -a dibits|p25-calls file|p25-calls -x|p25-calls -c -j|p25-calls --begin
p25-talkers --begin yesterday|p25-talkers --begin 2026-11-28|p25-talkers --begin 2026-11-28T08:00:00|p25-talkers --begin 2026-13-28T08:00:00Z
p25-talkers --begin '2026-11-28T08:00:00 Nowhere/Else'|p25-talkers --begin '2026-03-29T02:30:00 Europe/Berlin'|p25-talkers --group Fire|p25-talkers -c -j|p25-talkers one two
p25-talkers -x|p25-talkers -c one two|p25-guess |p25-guess one two|p25-guess -x|p25-rate -t 0|p25-rate -t 0.0|p25-rate -t x|p25-rate -t ''|p25-rate -t -1|p25-rate -t 1.2.3
p25-rate -t .|p25-rate -t 0.00001|p25-rate -t|p25-rate -g ''|p25-rate -g "it's"|p25-rate file|p25-json file|p25-damage |p25-damage 1|p25-damage x 1|p25-damage -1 1
p25-damage 4294967296 1|p25-damage 1 101|p25-damage 1 100.5|p25-damage 1 0.00001|p25-damage 1 -5|p25-damage 1 5 6|p25-flip |p25-flip ''|p25-flip x|p25-flip 1,,2
p25-flip 1, 2|p25-split |p25-split call.bin 4095|p25-split call.bin 16777217|p25-split call.bin x|p25-split call.bin 5000 x|p25-watch -x|p25-watch --begin|p25-watch -a
p25-watch --begin yesterday|p25-watch --group x|p25-watch --radio -5|p25-watch one two|p25-page -x|p25-page --begin "8 o'clock"|p25-page --group x|p25-page one two|p25-page -a
"""


@pytest.mark.parametrize("command", re.split("[|\n]", REFUSED.strip()))
def test_words_that_are_refused(room, command):
    status, out, told = room.run(f"{command} < /dev/null")
    assert (status, out, told.count("\n")) == (2, b"", 1) and told.startswith(f"{command.split()[0]}: ")


@pytest.mark.parametrize("command, name", [("p25-split NAME", "missing"), ("p25-talkers -a NAME", "missing.csv"), ("p25-watch NAME", "missing"), ("p25-rate --recording NAME", "missing")])
def test_files_that_cannot_be_read(room, command, name):
    command = command.replace("NAME", name)
    assert room.run(command) == (3, b"", f"{command.split()[0]}: '{name}' cannot be read: No such file or directory\n")


def test_a_name_that_begins_with_a_dash(room):
    room.put("-odd", CALLS)
    assert room.octets("p25-split -- -odd") == room.octets("p25 show", CALLS)
    assert room.run("p25-guess -- -odd")[0] == 0


# -- The installation.


@pytest.fixture(scope="module")
def installed(tmp_path_factory):
    folder = tmp_path_factory.mktemp("install") / "a prefix"
    ended = subprocess.run([TOP / "install.sh", folder], capture_output=True, text=True)
    if ended.returncode:
        pytest.skip(f"install.sh: {ended.stderr}")
    assert f"man -M '{folder}/share/man' p25" in ended.stdout
    return folder


def test_installed_files(room, installed):
    files = {f"companions/{name}": f"bin/{name}" for name in SCRIPTS}
    files |= {"RELEASE": "share/p25/RELEASE", "samples/traffic.bin": "share/p25/samples/traffic.bin"}
    files |= {f"docs/{name}.png": f"share/p25/{name}.png" for name in ("rate", "weak-found", "weak-whole")}
    for source, target in files.items():
        assert (TOP / source).read_bytes() == (installed / target).read_bytes()
    for name in ("RECIPES", "FORMATS", "WEAK"):
        assert room.octets(f"{TOP}/packaging/page {TOP}/docs/{name}.md") == (installed / f"share/p25/{name}.md").read_bytes()
    assert not re.search("[.]/p25|samples/", (installed / "share/p25/samples/README.md").read_text())
    (room.path / "linked").symlink_to(installed / "bin/p25-talkers")
    path = {**os.environ, "PATH": "/usr/bin:/bin"}
    assert len(room.run("./linked", room.octets("p25 show < call.bin"), env=path)[1].splitlines()) == 1
    assert room.run(f"'{installed}/bin/p25-guess' capture.dibits", env=path)[1].split()[0] == b"10"
    assert room.run("./linked --version", env=path)[1].decode() == f"p25-talkers, {(TOP / 'RELEASE').read_text()}"


@pytest.mark.parametrize("name", SCRIPTS)
def test_man_page(room, installed, name):
    need("lexgrog", "groff", "col")
    page = f"'{installed}/share/man/man1/{name}.1'"
    assert room.text(f"lexgrog {page} | cut -d '\"' -f 2").split()[0] == name
    assert room.run(f"groff -man -ww -z {page}") == (0, b"", "")
    text = room.text(f"groff -man -Tascii -P-c -rLL=78n {page} | col -bx")
    assert max(map(len, text.splitlines())) <= 80 and "\nEXAMPLE" in text and "\nEXIT STATUS" in text


def test_man_pages_by_their_words(room, installed):
    need("mandb")
    room.run(f"mandb -q -c '{installed}/share/man'")
    for word in "scanner decoder voice call talker trunk dibit C4FM json recording live".split():
        assert "p25-" in room.run(f"apropos -M '{installed}/share/man' {word}")[1].decode(), word


@pytest.mark.parametrize(
    "function, words, wanted",
    [
        ("_p25", "p25 s", "show soft stations sample"), ("_p25", "p25 build ''", "0 1 2 3"), ("_p25", "p25 bridge 293 ''", "0 1 2 3"), ("_p25_companion", "p25-octets d", "dibits digits doubles"),
        ("_p25_companion", "p25-talkers --r", "--radio"), ("_p25_companion", "p25-rate -", "-h --help --version --begin --recording -c -g -j -t"),
        ("_p25_companion", "p25-guess ''", ""), ("_p25_companion", "p25-page ''", ""),
    ],
)
def test_completion_of_bash(room, installed, function, words, wanted):
    count = len(words.split()) - 1
    script = f'. "{installed}/share/bash-completion/completions/p25-octets"; COMP_WORDS=({words}); COMP_CWORD={count}; {function}; echo "${{COMPREPLY[*]}}"; complete -p p25-split'
    assert room.lines(f"bash -c '{script.replace(chr(39), chr(39) + chr(92) + chr(39) * 2)}'") == [wanted, "complete -o default -F _p25_companion p25-split"]


def test_completion_of_zsh(room, installed):
    need("zsh")
    room.put("words", f"""
compadd() {{ shift; print -- "$@"; }}
_files() {{ :; }}
complete_words() {{ words=("$@"); CURRENT=$#; source "{installed}/share/zsh/site-functions/_p25"; }}
complete_words p25 ""
complete_words p25 build ""
complete_words p25-talkers --r
complete_words p25-page ""
""")
    commands = re.findall("^command ([a-z]+) ", (TOP / "bench/kinds.txt").read_text(), re.M)
    assert room.lines("zsh -f words") == [" ".join(commands), "0 1 2 3", "-h --help --version --begin --emergency --group --radio -a -c -j -v", ""]
