"""p25-octets and p25-guess: the forms of receivers."""

import math
import os
import re
import select
import struct
import subprocess
import time

import pytest
from conftest import RECORDINGS, SAMPLES, TURNS, UNITS, options_of, received

FORMS = ("octets", "dibits", "digits", "bits")
CALLS = SAMPLES["traffic.bin"].read_bytes()


@pytest.mark.parametrize("turns", TURNS)
def test_turns(room, mixed, turns):
    octets, shown = mixed
    for form in FORMS:
        assert room.octets(f"p25-octets {options_of(turns)} {form}", received(form, turns, octets)) == octets, form
    assert room.octets(f"p25-octets {options_of(turns)} floats | p25 soft | p25 show", received("floats", turns, octets)) == shown


@pytest.mark.parametrize("scale, offset", [(0.3333, 0), (1.5, 0), (1, 0.5), (1000, 150), (0.001, -0.002), (-1, 0.25)])
def test_scale_and_offset(room, mixed, scale, offset):
    floats = received("floats", "", mixed[0], scale, offset)
    status, out, told = room.run(f"p25-octets {'-p' if scale < 0 else ''} floats -a | p25 soft | p25 show", floats)
    assert (status, out) == (0, mixed[1])
    found, moved = map(float, re.search(r"scale (\S+), offset (\S+),", told.splitlines()[-1]).groups())
    assert 0.9 < found / abs(scale) < 1.1 and abs(moved - offset) < 0.1 * abs(scale)


def test_levels_that_change(room):
    call = SAMPLES["call.bin"].read_bytes()
    floats = received("floats", "", call, 1000, 150) + received("floats", "", call, 0.2, -3)
    status, out, told = room.run("p25-octets -a floats | p25 soft", floats)
    assert (status, out, told.count("octets: from symbol ")) == (0, 2 * call, 2)
    assert room.run("p25-octets -a floats") == (0, b"", "p25-octets: no sync was found, so neither scale nor offset is known\n")


def test_ends_and_chunks(room, mixed):
    dibits = received("dibits", "", mixed[0])
    assert room.octets("p25-octets dibits", dibits + b"\1\2\3") == mixed[0]
    assert room.octets("p25-octets dibits") == b""
    run = subprocess.Popen(["p25-octets", "dibits"], stdin=subprocess.PIPE, stdout=subprocess.PIPE, bufsize=0)
    place = 0
    for number in range(1, len(dibits)):
        run.stdin.write(dibits[place : place + number % 997])
        place += number % 997
        if place >= len(dibits):
            break
    assert run.communicate()[0] == mixed[0]


def test_other_signs(room, mixed):
    dibits = bytearray(received("dibits", "", mixed[0]))
    for place in range(1000):
        dibits[4 * place] |= 0xA4
    assert room.run("p25-octets dibits", bytes(dibits)) == (0, mixed[0], "p25-octets: 1000 octets were not 0 to 3, and their lowest two bits were taken\n")
    for form in ("digits", "bits"):
        octets = room.build(*UNITS)
        status, out, told = room.run(f"p25-octets {form}", received(form, "", octets) + b" 0101x0101")
        assert (status, out[: len(octets)]) == (1, octets) and re.search("octet [0-9]* is 'x'", told)


def test_levels(room):
    floats = (3, 1, -1, -3, 0, 0.5, 0.26, -0.26, 3.9, 4, 100, -100, math.inf, -math.inf, 2.02, -2.02)
    assert struct.unpack("16b", room.octets("p25-octets floats", struct.pack("<16f", *floats))) == (
        96, 32, -32, -96, 0, 16, 8, -8, 125, 127, 127, -128, 127, -128, 65, -65)


@pytest.mark.parametrize("form, first", [("octets", 18), ("dibits", 80), ("digits", 80), ("bits", 153), ("floats", 1152), ("floats -a", 1152)])
def test_live(room, form, first):
    """Checks that the first line is there 0.2 s after the octets that decide it, in the best of the tries of a minute."""
    made = received(form.split()[0], "", SAMPLES["terminators.bin"].read_bytes())
    began, best = time.monotonic(), 9.0
    while best >= 0.2 and time.monotonic() < began + 60:
        command = f"p25-octets {form} 2> told {'| p25 soft' if 'floats' in form else ''} | p25 show"
        run = subprocess.Popen(["sh", "-c", command], cwd=room.path, stdin=subprocess.PIPE, stdout=subprocess.PIPE, bufsize=0)
        run.stdin.write(made[:16])
        time.sleep(1 + best / 9)
        run.stdin.write(made[16:first])
        given = time.monotonic()
        if select.select([run.stdout], [], [], 5)[0]:
            best = min(best, time.monotonic() - given)
        run.communicate(made[first:])
    assert best < 0.2


SPEEDS = {
    "octets": (b"\x55\x75\xf5\xff", 2), "dibits": (b"\1\1\1\1\1\3\1\1\3\3\1\1\3\3\3\3", 2), "digits": (b"1111131133113333", 2),
    "bits": (b"01010101011101011111010111111111", 2), "floats": (struct.pack("<16f", *[3.0] * 5, -3, 3, 3, -3, -3, 3, 3, *[-3.0] * 4), 4),
}


@pytest.mark.parametrize("form", SPEEDS)
def test_speed(room, form):
    """Checks the most CPU time of 16 MiB of output."""
    octets, seconds = SPEEDS[form]
    room.put("made", octets * (1048576 if form == "floats" else 4194304))
    before = os.times()
    room.octets(f"p25-octets {form} < made > taken")
    after = os.times()
    assert after.children_user + after.children_system - before.children_user - before.children_system <= seconds
    assert (room.path / "taken").stat().st_size == 16777216


def guessed(room, name, status=0):
    """Returns the lines of p25-guess for a file, and its message on standard error."""
    ended, out, told = room.run(f"p25-guess '{name}'")
    assert ended == status, told
    return out.decode().splitlines(), told.splitlines()


def best(lines):
    """Returns the command of the first line."""
    return lines[0].split("others  ")[1]


@pytest.mark.parametrize("form", [*FORMS, "floats"])
@pytest.mark.parametrize("turns", TURNS)
def test_guess(room, form, turns):
    shown = room.octets("p25 show", CALLS)
    lines, told = guessed(room, room.put("a file", received(form, turns, CALLS)))
    units = shown.count(b"unit at")
    assert lines[0].split()[0] == str(units) and told == [f"p25-guess: in the first line {units} of {units} syncs gave units, 100 %"]
    assert room.octets(best(lines)) == shown
    if form == "octets":
        lines, _ = guessed(room, room.put("other", room.octets(f"p25-octets {options_of(turns)} octets", CALLS)))
        assert room.octets(best(lines)) == shown


def test_guess_lines(room):
    """Checks that each line has the number of units that its command finds, and that the best comes first."""
    lines, _ = guessed(room, room.put("made", received("dibits", "s", CALLS)))
    counts = [int(line.split()[0]) for line in lines]
    assert len(lines) == 32 and counts == sorted(counts, reverse=True)
    for line, count in zip(lines, counts):
        # p25-octets prints what it finds in soft symbols.
        shown = room.run(best([line]))[1]
        assert shown.count(b"unit at") == count + shown.count(b"nounit at")


@pytest.mark.parametrize(
    "make, command",
    [
        *((lambda room, rate=rate: received("digits", "s", room.octets(f"p25-damage 5 {rate}", CALLS)), "p25-octets -s digits < made | p25 show") for rate in (1, 4, 8)),
        (lambda room: received("floats", "", CALLS, 0.3333), "p25-octets floats -a < made | p25 soft | p25 show"),
        (lambda room: received("floats", "", CALLS, 1000, 150), "p25-octets floats -a < made | p25 soft | p25 show"),
        (lambda room: received("dibits", "p", control_channel(room)), "p25-octets -p dibits < made | p25 show"),
    ],
)
def test_guess_commands(room, make, command):
    assert best(guessed(room, room.put("made", make(room)))[0]) == command


def control_channel(room):
    """Returns units with the DUID 7, made from terminators, and bits after them."""
    flips = "61,64,65,73-77,80,83,84,87,88,92,95-97,99,104-106,108,112"
    unit = room.octets(f"p25-flip {flips}", room.build("tdu nac=293"))
    noise = SAMPLES["noise.bin"].read_bytes()
    return b"".join(unit + noise[20 * place : 20 * place + 72] for place in range(20))


def test_guess_logs_and_names(room):
    digits = received("digits", "", CALLS)
    lines, _ = guessed(room, room.put("log", b"12:00 heard\n" + digits))
    assert best(lines) == "p25-octets -w digits < log | p25 show"
    stream = re.sub(rb"\s", b"", digits)
    log = b"".join(b"2026-11-28 08:00:00 rx[0] dibits: %s\n" % stream[place : place + 80] for place in range(0, len(stream), 80))
    lines, told = guessed(room, room.put("log", log))
    assert told == ["p25-guess: in the first line 23 of 23 syncs gave units, 100 %"]
    assert room.octets(best(lines)) == room.octets("p25 show", CALLS)
    name = room.put("it's $(x) & y", CALLS)
    status, out, _ = room.run('p25-guess "it\'s \\$(x) & y"')
    assert room.octets(best(out.decode().splitlines())) == room.octets("p25 show", CALLS), name
    lines, told = guessed(room, room.put("made", room.octets("p25-damage 4 14", CALLS)))
    assert any("probably none of these forms" in line for line in told)
    assert room.run("p25-guess missing") == (3, b"", "p25-guess: 'missing' cannot be read\n")
    assert room.run("p25-guess /dev/stdin | cat", b"x")[2].endswith("and is read several times: put the recording in a file first\n")


@pytest.mark.parametrize("name", RECORDINGS)
def test_guess_samples(room, name):
    units = room.text(f"p25 show < {name}").count("unit at=") - room.text(f"p25 show < {name}").count("nounit at=")
    if units:
        assert guessed(room, name)[0][0].split()[0::6] == [str(units), "p25"]
