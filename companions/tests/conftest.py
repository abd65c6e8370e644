"""The parts that the tests of the helper scripts share. A shell runs the commands of a test in a folder of its own, with links to the samples."""

import itertools
import os
import pathlib
import random
import shutil
import struct
import subprocess

import pytest

TOP = pathlib.Path(__file__).resolve().parent.parent.parent
SAMPLES = {path.name: path for path in sorted((TOP / "samples").iterdir())}
RECORDINGS = [name for name in SAMPLES if name.endswith(".bin")]
SCRIPTS = sorted(path.name for path in (TOP / "companions").glob("p25-*"))
os.environ["PATH"] = f"{TOP}/companions:{TOP}:{os.environ['PATH']}"
os.environ["LC_ALL"] = "C"
ZEROS = "0" * 324
LC = "000000000064001001"


def ldu1(lc=LC, nac="293"):
    return f"ldu1 nac={nac} lc={lc} lsd=0000 voice={ZEROS}"


def ldu2(alg="80", key="0000", nac="293"):
    return f"ldu2 nac={nac} mi={'0' * 18} algid={alg} kid={key} lsd=0000 voice={ZEROS}"


def hdu(group=100, alg="80", key="0000", nac="293"):
    return f"hdu nac={nac} mi={'0' * 18} mfid=00 algid={alg} kid={key} tgid={group:04x}"


def tdulc(lc=LC, nac="293"):
    return f"tdulc nac={nac} lc={lc}"


# A unit of each type, packets with none, one and several blocks.
UNITS = [
    "hdu nac=293 mi=0123456789abcdef01 mfid=00 algid=84 kid=1234 tgid=0064",
    f"ldu1 nac=293 lc={LC} lsd=1234 voice={ZEROS}",
    f"ldu2 nac=293 mi=0123456789abcdef01 algid=84 kid=1234 lsd=abcd voice={ZEROS}",
    "tdu nac=f7e",
    f"tdulc nac=293 lc={LC}",
    "confirmed nac=293 head=56c000000001800c0800 blocks=-",
    f"confirmed nac=293 head=56c000000001820c0800 blocks=00:{'0' * 32},01:0123456789abcdef0123456789abcdef",
    "plain nac=293 head=35c00000000180000000 octets=-",
    f"plain nac=293 head=35c00000000183000000 octets={'0' * 64}",
    "response nac=293 head=23080000000180000000 octets=-",
    "response nac=293 head=23800000000181000000 octets=f000000000000000",
]


class Room:
    """A folder in which a shell runs commands."""

    def __init__(self, path):
        self.path = path
        for name, sample in SAMPLES.items():
            (path / name).symlink_to(sample)

    def put(self, name, octets):
        """Writes a file."""
        (self.path / name).write_bytes(octets.encode() if isinstance(octets, str) else octets)
        return name

    def get(self, name):
        return (self.path / name).read_bytes()

    def run(self, command, given=b"", **more):
        """Runs a command, and returns the status, the output and the error."""
        given = given.encode() if isinstance(given, str) else given
        ended = subprocess.run(["sh", "-c", command], cwd=self.path, input=given, capture_output=True, timeout=570, **more)
        return ended.returncode, ended.stdout, ended.stderr.decode()

    def octets(self, command, given=b""):
        """Returns the output of a command that succeeds without a message."""
        status, out, error = self.run(command, given)
        assert (status, error) == (0, ""), command
        return out

    def text(self, command, given=b""):
        return self.octets(command, given).decode()

    def lines(self, command, given=b""):
        return self.text(command, given).splitlines()

    def build(self, *units, status=1):
        """Returns the recording of some units; a number is a number of zero octets."""
        parts = []
        for is_zeros, group in itertools.groupby(units, lambda unit: isinstance(unit, int)):
            parts.append(bytes(sum(group)) if is_zeros else self.octets(f"p25 build {status}", "".join(f"{unit}\n" for unit in group)))
        return b"".join(parts)


@pytest.fixture
def room(tmp_path):
    return Room(tmp_path)


@pytest.fixture(scope="session")
def mixed(tmp_path_factory):
    """Returns a recording with units of all types, and its lines."""
    room = Room(tmp_path_factory.mktemp("mixed"))
    octets = room.build(*UNITS) + b"".join(SAMPLES[name].read_bytes() for name in ("traffic.bin", "noise.bin", "damaged_call.bin"))
    return octets, room.octets("p25 show", octets)


def pytest_sessionstart(session):
    if shutil.which("p25") is None or subprocess.run(["p25", "show"], input=b"", capture_output=True).stderr:
        pytest.exit("the proved program is needed: ./prove makes it", 1)


def need(*names):
    """Skips a test if a program is not installed."""
    for name in names:
        if shutil.which(name) is None:
            pytest.skip(f"{name} is not installed")


TURNS = ("", "p", "s", "ps", "l", "pl", "sl", "psl")


def options_of(turns):
    return " ".join(f"-{letter}" for letter in turns)


def received(form, turns, octets, scale=1.0, offset=0.0):
    """Returns a recording in a form of a receiver, with the turns p, then s, then l."""
    dibits = [octet >> shift & 3 for octet in octets for shift in (6, 4, 2, 0)]
    if "p" in turns:
        dibits = [(2, 3, 0, 1)[dibit] for dibit in dibits]
    if "s" in turns:
        dibits = [(0, 2, 1, 3)[dibit] for dibit in dibits]
    if "l" in turns:
        dibits = [dibit for place in range(0, len(dibits), 4) for dibit in reversed(dibits[place : place + 4])]
    if form == "dibits":
        return bytes(dibits)
    digits = "".join(map(str, dibits))
    if form == "digits":
        return "".join(f"{digits[place : place + 77]} \r\n" for place in range(0, len(digits), 77)).encode()
    if form == "floats":
        draw = random.Random(1)
        return struct.pack(f"<{len(dibits)}f", *(scale * ((1, 3, -1, -3)[dibit] + draw.uniform(-0.8, 0.8)) + offset for dibit in dibits))
    bits = "".join(f"{dibit:02b}" for dibit in dibits)
    if form == "bits":
        return "".join(f"{bits[place : place + 61]}\t\n" for place in range(0, len(bits), 61)).encode()
    return int(bits, 2).to_bytes(len(bits) // 8, "big")


def lines_of_calls(calls, pairs, is_clear=False):
    """Returns the lines of p25 show of calls of four networks with a number of pairs of voice units and as long pauses; some units are broken or lost if not
    clear."""
    at, lines = 0, []

    def add(kind, bits, rest=None, fix=0):
        nonlocal at
        lines.append(f"{kind} at={at} bits={bits}" + (f" fix={fix} status={'1' * (bits // 72)} {rest}" if kind == "unit" else f" {rest}" if rest else ""))
        at += bits

    for call in range(calls):
        nac, alg = ("293", "2a1", "f7e", "001")[call % 4], ("80", "80", "84")[call % 3]
        lc = f"0000{128 if call % 97 == 5 else 0:02x}00{100 + call % 37:04x}{4097 + call % 211:06x}"
        add("unit", 792, hdu(100, alg, nac=nac), call % 9)
        for pair in range(pairs):
            is_lost, is_broken = (not is_clear and (call + pair) % part == rest for part, rest in ((61, 7), (53, 3)))
            add(*("gap", 1728) if is_lost else ("unit", 1728, ldu1(lc, nac), (call + pair) % 17))
            add(*("broken", 1728, f"nac={nac} duid=a fields=encryption_sync,low_speed_1") if is_broken else ("unit", 1728, ldu2(alg, nac=nac), (call + pair) % 13))
        add("unit", 432, tdulc(lc, nac))
        for _ in range(1 + pairs * 3456 // 4096):
            add("gap", 4096)
    return "".join(f"{line}\n" for line in lines)
