"""Files as people have them: each is decoded, or its type is named; and the helper scripts that take a file in any form."""

import array
import bz2
import datetime
import gzip
import lzma
import math
import random
import re
import shutil
import struct
import sys
import time

import pytest
from conftest import SAMPLES, TOP, received

sys.path.append(str(TOP / "companions"))
import p25_folder
import p25_forms
import p25_guess

CALLS = SAMPLES["traffic.bin"].read_bytes()
DIBITS = received("dibits", "", CALLS)
SYMBOLS = [(1, 3, -1, -3)[dibit] for dibit in DIBITS]
DIGITS = "".join(map(str, DIBITS))
BITS = "".join(f"{octet:08b}" for octet in CALLS)
UNITS = 23


def logged(text, before, after, width=80):
    """Returns lines of a log with parts of a text in them."""
    return "".join(f"{before}{text[place : place + width]}{after}\n" for place in range(0, len(text), width)).encode()


def texts(values, between="\n"):
    return between.join(values).encode() + b"\n"


def sine(code, size, width=7):
    """Returns samples of a tone."""
    return array.array(code, ((int if code in "hB" else float)(size * math.sin(place / width) + (128 if code == "B" else 0)) for place in range(40000))).tobytes()


def wav(samples, channels=1):
    head = struct.pack("<IHHIIHH", 16, 1, channels, 48000, 96000 * channels, 2 * channels, 16)
    return b"RIFF" + struct.pack("<I", 36 + len(samples)) + b"WAVEfmt " + head + b"data" + struct.pack("<I", len(samples)) + samples


def noise(count):
    return random.Random(7).randbytes(count)


# The name of a file, its octets, and the form that is found.
READ = {
    "octets": (CALLS, "octets"),
    "octets, inverted": (received("octets", "p", CALLS), "-p octets"),
    "octets, lowest bit first": (received("octets", "sl", CALLS), "-s -l octets"),
    "octets after noise": (noise(3000) + CALLS, "octets"),
    "dibits": (DIBITS, "dibits"),
    "dibits, bits changed round": (received("dibits", "s", CALLS), "-s dibits"),
    "dibits with flags above": (bytes(dibit | 0x80 for dibit in DIBITS), "dibits"),
    "unpacked bits": (bytes(map(int, BITS)), "unpacked"),
    "unpacked bits, inverted": (bytes(map(int, "".join(f"{octet:08b}" for octet in received("octets", "p", CALLS)))), "-p unpacked"),
    "signed octets": (array.array("b", SYMBOLS).tobytes(), "signed"),
    "signed octets, turned": (array.array("b", [-it for it in SYMBOLS]).tobytes(), "-p signed"),
    "signed octets at 32": (array.array("b", [32 * it for it in SYMBOLS]).tobytes(), "signed -a"),
    "16-bit symbols": (array.array("h", SYMBOLS).tobytes(), "shorts -a"),
    "16-bit symbols at 5000": (array.array("h", [5000 * it + 300 for it in SYMBOLS]).tobytes(), "shorts -a"),
    "16-bit symbols, turned": (array.array("h", [-1000 * it for it in SYMBOLS]).tobytes(), "-p shorts -a"),
    "floats": (received("floats", "", CALLS), "floats"),
    "floats at a third": (received("floats", "", CALLS, 1 / 3), "floats -a"),
    "floats, turned, with an offset": (received("floats", "", CALLS, -1000, 150), "-p floats -a"),
    "doubles": (array.array("d", SYMBOLS).tobytes(), "doubles"),
    "doubles at 0.2": (array.array("d", [0.2 * it - 3 for it in SYMBOLS]).tobytes(), "doubles -a"),
    "digits": (DIGITS.encode(), "digits"),
    "digits in lines": (received("digits", "", CALLS), "digits"),
    "digits of other bits": (received("digits", "s", CALLS), "-s digits"),
    "bits": (received("bits", "", CALLS), "bits"),
    "hexadecimal": (CALLS.hex().encode() + b"\n", "hex"),
    "hexadecimal, capitals in lines": (texts([CALLS.hex()[place : place + 60].upper() for place in range(0, 2 * len(CALLS), 60)]), "hex"),
    "hexadecimal, octets apart": (texts([f"{octet:02x}" for octet in CALLS], " "), "hex"),
    "floats as text": (texts([f"{it * 0.98:.4f}" for it in SYMBOLS]), "numbers"),
    "signs and digits": (texts([f"{it:+d}" for it in SYMBOLS], " "), "numbers"),
    "floats as text, with commas": (texts([f"{it * 400 + 12:.2e}" for it in SYMBOLS], ", "), "numbers -a"),
    "a log with words before": (logged(DIGITS, "2026-11-28 08:00:00 rx[0] dibits: ", ""), "-w digits"),
    "a log with words after": (logged(DIGITS, "", " dB=-60.2 ok"), "-w digits"),
    "a log with words around": (logged(DIGITS, "sym ", " 12 dB"), "-w digits"),
    "a log of bits": (logged(BITS, "08:00:01 bits=", " end"), "-w bits"),
}
# The name of a file, its octets, and the message about it.
NAMED = {
    "gzip": (gzip.compress(CALLS), "is packed with gzip: unpack it first"),
    "bzip2": (bz2.compress(CALLS), "is packed with bzip2"),
    "xz": (lzma.compress(CALLS), "is packed with xz"),
    "WAV": (wav(sine("h", 8000)), "is a WAV file of 16-bit samples, 48000 a second: sound or a discriminator, of which no symbols are read"),
    "WAV with a false unit": (wav(noise(4000) + CALLS[:18] + noise(4000)), "is a WAV file of 16-bit samples"),
    "WAV of two channels": (wav(sine("h", 8000), 2), "is a WAV file of 16-bit samples of two channels, so perhaps IQ"),
    "IQ of 32-bit floats": (sine("f", 0.7), "looks like 32-bit floats, several for each symbol"),
    "IQ of octets": (sine("B", 90), "looks like octets without a sign"),
    "16-bit samples": (sine("h", 8000), "looks like 16-bit samples, the lowest octet first: sound, IQ or a discriminator, of which no symbols are read"),
    "floats, highest octet first": (struct.pack(f">{len(SYMBOLS)}f", *SYMBOLS), "looks like 32-bit floats with the highest octet first"),
    "a dump with addresses": (b"".join(b"%08x: %s\n" % (place, CALLS[place : place + 16].hex(" ", 2).encode()) for place in range(0, 4096, 16)), "is a dump with addresses: xxd -r"),
    "words": (b"Lorem ipsum dolor sit amet, consetetur sadipscing elitr.\n" * 40, "is a text, but not of digits alone: octet 0 is 'L'"),
    "noise": (noise(20000), "holds no bits of P25 Phase 1 in any form that is known"),
    "a unit in noise": (noise(3000) + CALLS[:7] + noise(3000), "holds no bits of P25 Phase 1"),
    "zeros": (bytes(200000), "has the octet 00 alone"),
    "nothing": (b"", "is empty"),
}


@pytest.mark.parametrize("name", READ)
def test_read(room, name):
    """Checks that the first line is correct, and that its command decodes the file."""
    octets, words = READ[name]
    status, out, _ = room.run(f"p25-guess {room.put('made', octets)}")
    count, command = re.match(r" *(\d+) units .* others  (.*)", out.decode()).groups()
    assert (status, count) == (0, str(UNITS)) and command.startswith(f"p25-octets {words} < made" if words != "octets" else "p25 show < made")
    status, out, _ = room.run(command)
    assert (status, len(re.findall("^unit ", out.decode(), re.MULTILINE))) == (0, UNITS)


@pytest.mark.parametrize("name", NAMED)
def test_named(room, name):
    octets, words = NAMED[name]
    status, _, told = room.run(f"p25-guess {room.put('made', octets)}")
    assert status == 1 and told.splitlines()[-1].startswith(f"p25-guess: made {words}")


def test_count():
    assert len(READ) + len(NAMED) >= 40


@pytest.mark.parametrize("page", ["docs/RECIPES.md", "docs/FORMATS.md", "docs/WEAK.md", "samples/README.md"])
def test_installed_pages(room, page):
    """Checks that each link of an installed page leads to a heading of its own, or to an installed file, and that its commands are installed."""
    text = room.text(f"{TOP}/packaging/page {TOP}/{page}")
    installed = (TOP / "install.sh").read_text()
    for link in re.findall(r"\]\(([^)]*)\)", text):
        assert link.startswith("#") or link.split("#")[0] in installed, link
    assert "./p25 " not in text and "companions/p25-" not in text
    assert text.count("![") == (TOP / page).read_text().count("![")


def ended(lines):
    """Returns the lines of p25-watch on calls that have ended; the line of a call that begins depends on the lines that came together."""
    return [line for line in lines.splitlines() if not line.startswith(b"begins ")]


ONE = [("octets", CALLS), ("-s -l dibits", received("dibits", "sl", CALLS)), ("floats -a", received("floats", "", CALLS, 0.2, 3))]


@pytest.mark.parametrize("form, octets", ONE, ids=[form for form, _ in ONE])
def test_one_command(room, form, octets):
    """Checks that a file in any form gives the same as its lines, with the syncs that follow finds, and that standard error has the form."""
    name = room.put("a file", octets)
    shown = room.octets("p25 follow | p25 show", CALLS)
    for script in ("p25-talkers", "p25-watch --plain"):
        status, out, told = room.run(f"{script} '{name}'")
        assert (status, ended(out)) == (0, ended(room.octets(script, shown)))
        assert told.startswith(f"{script.split()[0]}: 'a file' is taken for the form {form}: ")
        # The command that it prints gives the same lines; p25-octets -a prints what it found.
        assert room.run(told.split(f"form {form}: ")[1].rstrip("\n"))[1] == shown
    status, page, told = room.run(f"p25-page '{name}'")
    assert status == 0 and f"taken for the form {form}: " in told and b"4097" in page


def test_one_command_refuses(room):
    assert room.run("p25-talkers missing") == (3, b"", "p25-talkers: 'missing' cannot be read: No such file or directory\n")
    room.put("noise", noise(20000))
    assert room.run("p25-talkers noise") == (1, b"", "p25-talkers: 'noise' holds no bits of P25 Phase 1 in any form that is known\n")
    shown = room.octets("p25 show", CALLS)
    assert room.octets(f"p25-talkers {room.put('lines', shown)}") == room.octets("p25-talkers", shown)


def test_without_the_program(room):
    """Checks the message of a copy of the scripts without p25."""
    copy = room.path / "copy"
    copy.mkdir()
    for path in (TOP / "companions").glob("p25*"):
        if path.is_file():
            shutil.copy(path, copy)
    room.put("made", CALLS)
    for name in ("p25-guess", "p25-talkers"):
        told = f"{name}: p25 does not run: it is looked for beside the helper scripts, and in the path\n"
        assert room.run(f"PATH=/usr/bin:/bin copy/{name} made") == (1, b"", told)


def test_speed_of_levels():
    """Checks that 100 s of soft symbols take at most 0.5 s of CPU time."""
    symbols = array.array("f", [1000 * it + 150 for it in SYMBOLS] * 21).tobytes()
    made = p25_forms.converter("floats", p25_forms.Turns(), True)
    began = time.process_time()
    octets = made.take(symbols) + made.end()
    assert len(octets) * 4 == len(symbols) and time.process_time() - began < 0.5


def test_times_of_names():
    for name, time_ in (
        ("2026-11-28T080000Z.bin", "2026-11-28T08:00:00+00:00"),
        ("rx_20261128_080000+0100.bin", "2026-11-28T07:00:00+00:00"),
        ("20261128_080001.raw", "2026-11-28T08:00:01+00:00"),
        ("2026-11-28 08-00-30 dibits.bin", "2026-11-28T08:00:30+00:00"),
        ("gqrx_20261128_0805_154000000.bin", "2026-11-28T08:05:00+00:00"),
    ):
        assert p25_folder.time_of(name) == datetime.datetime.fromisoformat(time_).timestamp(), name
    assert p25_folder.time_of("12345678_999999.bin") is p25_folder.time_of("call.bin") is None


def test_page_of_a_folder(room):
    """Checks that files are ordered by the times of their names, and that files that continue one another are one recording, in which a unit over two files
    is whole."""
    folder = room.path / "day"
    folder.mkdir()
    half = len(CALLS) // 2
    # The second file begins at the end of the first one.
    (folder / "2026-11-28T080000Z.bin").write_bytes(CALLS[:half])
    (folder / "2026-11-28T080002Z.bin").write_bytes(CALLS[half:])
    (folder / "20261128_093000.dibits").write_bytes(received("dibits", "s", CALLS))
    (folder / "2026-11-28T090000Z.bin").write_bytes(noise(20000))
    (folder / "notes.bin").write_bytes(CALLS)
    (folder / "2026-11-28T080000Z.csv").write_text("begin\n")
    status, page, told = room.run("TZ=UTC p25-page day")
    assert status == 0, told
    assert told.splitlines() == [
        "p25-page: '2026-11-28T090000Z.bin' holds no bits of P25 Phase 1 in any form that is known, and is left out",
        "p25-page: 'notes.bin' has no time in its name, and is left out",
    ]
    text = page.decode()
    calls = len(room.lines("p25 show | p25-talkers", CALLS))
    assert f"{2 * UNITS} whole, 0 broken" in text and f"carried {2 * calls} calls" in text
    assert "2026-11-28 08:00:00 to 2026-11-28 09:30:04 UTC" in text and "2026-11-28 09:30:03" in text and "day (3 files by time)" in text
    assert "In 1 h 30 min, from the first recording to the last," in text
    assert room.run("p25-page --begin 2026-11-28T08:00:00Z day")[0] == 2
    (room.path / "empty").mkdir()
    assert room.run("p25-page empty")[2].startswith("p25-page: 'empty' has no recording with a time in its name")


def test_calls_of_one_name_are_files_of_their_own(room):
    """Bits that come so fast that all calls have one time: the second call of a radio to a group has a number."""
    room.put("twice.bin", 2 * SAMPLES["traffic.bin"].read_bytes())
    room.octets("p25-record --calls --rate 9999999999 day < twice.bin")
    names = sorted(re.sub("^[0-9TZ.]+-", "", path.name) for path in (room.path / "day" / "calls").glob("*.bin"))
    base = ["nac293-group100-from4097", "nac293-group200-from4098", "nac293-radio4100-from4099", "nac2a1-group100-from4097"]
    assert names == sorted(f"{it}{number}.bin" for it in base for number in ("", "-2"))
    assert len(list((room.path / "day" / "calls").glob("*.json"))) == 8
