"""Tests the package for Python by pytest: live input, threads, types of arguments, versions, calls, and the wheel.

`bindings/package_test` runs it. `./prove` and `./prove library` make what it needs, out/p25 and out/libp25.so.
"""

import array
import copy
import ctypes
import hashlib
import os
import pathlib
import pickle
import random
import shutil
import subprocess
import sys
import threading
import time
import warnings

import pytest

HERE = pathlib.Path(__file__).resolve().parent
TOP = HERE.parent
sys.path.insert(0, str(HERE))
sys.dont_write_bytecode = True

import make_wheel  # noqa: E402
import p25  # noqa: E402
from p25 import _calls  # noqa: E402

SAMPLES = sorted(it for it in (TOP / "samples").glob("*.bin") if it.name != "levels.bin")
LEVELS = (TOP / "samples/levels.bin").read_bytes()


def program(words, octets):
    """Returns the output of p25."""
    return subprocess.run([TOP / "out/p25", *words], input=octets, stdout=subprocess.PIPE, check=False).stdout


def chunks(given, seed, most):
    """Yields random chunks, some of them empty."""
    lot, at = random.Random(seed), 0
    while at < len(given):
        size = lot.randrange(most)
        yield given[at : at + size]
        at += size


def dibits_of(octets):
    return bytes(it >> shift & 3 for it in octets for shift in (6, 4, 2, 0))


def levels_of(octets):
    return array.array("b", [(32, 96, -32, -96)[it] for it in dibits_of(octets)])


@pytest.mark.parametrize("path", SAMPLES, ids=lambda it: it.name)
@pytest.mark.parametrize("way", ["feed", "feed_dibits", "feed_levels"])
def test_chunks_of_any_number(path, way):
    octets = path.read_bytes()
    given = {"feed": bytes, "feed_dibits": dibits_of, "feed_levels": levels_of}[way](octets)
    for seed, most in enumerate((2, 7, 1001, 4096)):
        stream = p25.Stream()
        found = [item for it in chunks(given, seed, most) for item in getattr(stream, way)(it)] + list(stream.finish())
        assert found == list(p25.items(octets))


@pytest.mark.parametrize("most", [2, 5, 999, 1001, 20000])
def test_soft_symbols_in_chunks(most):
    softener = p25.Softener()
    assert b"".join(map(softener.feed, chunks(LEVELS, most, most))) + softener.finish() == program(["soft"], LEVELS)
    with pytest.raises(p25.Error, match="finished"):
        softener.feed(b"\x20" * 4)


def test_dibits_wait_for_their_octet():
    stream = p25.Stream()
    list(stream.feed_dibits([0, 1, 2]))
    with pytest.raises(p25.Error, match="dibits"):
        stream.feed(b"")
    list(stream.feed_dibits([7]))
    assert [it.octets for it in [*stream.feed(b"\xff"), *stream.finish()]] == [b"\x1b\xff"]


WRONG = [5, 1.5, None, "text", {1, 2}, frozenset([1]), {1: 2}, [True, False], array.array("i", [1]), array.array("f", [1.0]), memoryview(bytes(4)).cast("?")]
CALLS = [p25.repair, p25.bridge, p25.crc16, p25.follow, p25.RS_24_12.read, p25.Stream().feed, p25.Stream().feed_dibits]


@pytest.mark.parametrize("call", CALLS)
@pytest.mark.parametrize("wrong", WRONG, ids=repr)
def test_arguments_that_are_no_octets(call, wrong):
    with pytest.raises(TypeError):
        call(wrong, *([1, 0] if call is p25.bridge else []))


def test_arrays_of_numpy():
    numpy = pytest.importorskip("numpy")
    octets = SAMPLES[0].read_bytes()
    assert p25.repair(numpy.frombuffer(octets, numpy.uint8)) == p25.repair(octets)
    for wrong in (numpy.zeros(24, bool), numpy.zeros(24, numpy.int64), numpy.zeros(24, numpy.float32)):
        with pytest.raises(TypeError):
            p25.repair(wrong)


def test_no_item_is_lost_by_a_with():
    with pytest.warns(UserWarning, match="1 items"), p25.Stream() as stream:
        assert list(stream.feed(b"\x00" * 3)) == []
    assert [it.bits for it in stream.finish()] == [24] and list(stream.finish()) == []
    with warnings.catch_warnings():
        warnings.simplefilter("error")
        with p25.Stream() as stream:
            assert len([*stream.feed(b"\x00" * 3), *stream.finish()]) == 1


def test_two_threads_in_a_call():
    stream = p25.Stream()
    with stream._lock:
        for call in (lambda: stream.feed(b"\x00"), lambda: list(stream._items()), stream.finish):
            with pytest.raises(p25.Error, match="threads"):
                call()
    octets = b"".join(it.read_bytes() for it in SAMPLES)
    whole = [it for it in p25.items(octets)]
    found, ends = [], time.monotonic() + 3

    def take():
        while time.monotonic() < ends:
            try:
                found.extend(stream.feed(octets[:1000]))
            except p25.Error as error:
                assert error.cause is p25.Cause.THREADS

    threads = [threading.Thread(target=take) for _ in range(4)]
    for it in threads:
        it.start()
    for it in threads:
        it.join()
    found += [*stream.finish()]
    # Each item came once, and its bits are those at its position, at which a multiple of the input lies.
    assert len({it.place for it in found}) == len(found) and sum(it.bits for it in found) % 8000 == 0
    assert whole


@pytest.mark.parametrize("path", SAMPLES, ids=lambda it: it.name)
def test_calls_with_their_units(path):
    octets = path.read_bytes()
    items = list(p25.items(octets))
    wanted = program(["calls"], octets).decode().splitlines()
    for by_gap in (False, True):
        found = list(p25.calls_with_units(items, by_gap=by_gap))
        assert [f"{it.place} {it.bits}" for it, _ in found] == [" ".join(part.split("=")[1] for part in line.split()[1:3]) for line in wanted[:-1]]
        for call, units in found:
            assert units == [it for it in items if call.has(it)]
            assert units[0].place == call.place and units[-1].place + units[-1].bits == call.place + call.bits


def test_a_call_ends_with_the_gap_that_decides_it():
    voice = b"".join(p25.build(f"ldu1 nac=293 lc=000000000100000200 lsd=0000 voice={'00' * 162}") for _ in range(3))
    items = list(p25.items(voice + bytes(2000)))
    for by_gap, wanted in ((False, None), (True, items[3].place)):
        caller, ends = p25.Caller(by_gap=by_gap), None
        for item in items:
            call = caller.take(item)
            if call is not None:
                ends = item.place
                assert (call.place, call.links, call.end) == (0, 3, p25.CallEnd.OPEN)
        assert ends == wanted
    caller = p25.Caller()
    assert [caller.take(it) for it in items[:3]] == [None] * 3 and caller.run.links == 3
    closed = caller.close()
    assert closed.links == 3 and caller.close() is None and not caller.is_open
    assert caller.take(items[3]) is None


def test_callers_and_followers_begin_at_any_position():
    octets = SAMPLES[-1].read_bytes()
    items = list(p25.items(octets))
    first = next(i for i, it in enumerate(items) if i > 0 and it.kind_id <= p25.Kind.BROKEN)
    caller, follower = p25.Caller(at=items[first].place), p25.Follower(at=items[first].place)
    for item in items[first:]:
        caller.take(item)
        follower.take(item)
    with pytest.raises(p25.Error, match="place"):
        p25.Caller(at=1).take(items[0])
    with pytest.raises(p25.Error, match="place"):
        p25.Caller(at=1 << 60)


def test_lines_of_units_are_built():
    for item in p25.items(SAMPLES[0].read_bytes()):
        assert p25.build(item.line) == p25.bridge_unit(item.octets, item.nac, 0) if item.kind_id == p25.Kind.UNIT else item.line == ""


def test_items_cannot_be_changed():
    for item in p25.items(SAMPLES[0].read_bytes()):
        parts, octets = tuple(item), item.octets
        for name in ("place", "kind_id", "nac", "text", "_octets", "further"):
            with pytest.raises(AttributeError, match="cannot be changed"):
                setattr(item, name, 5)
            with pytest.raises(AttributeError, match="cannot be changed"):
                delattr(item, name)
        assert tuple(item) == parts and item.octets == octets


def pickled(given):
    return pickle.loads(pickle.dumps(given))


COPIES = [copy.copy, copy.deepcopy, pickled]


@pytest.mark.parametrize("again", COPIES)
@pytest.mark.parametrize("path", SAMPLES, ids=lambda it: it.name)
def test_copies_of_items_are_equal(again, path):
    for item in p25.items(path.read_bytes()):
        other = again(item)
        assert (other, hash(other), other.octets, other.fields, other.packet) == (item, hash(item), item.octets, item.fields, item.packet)
        with pytest.raises(AttributeError, match="cannot be changed"):
            other.place = 5


@pytest.mark.parametrize("again", COPIES)
def test_copies_of_codes_give_the_same_codewords(again):
    for code in (p25.RS_24_12, p25.RS_36_20, p25.GOLAY_24, p25.LSD_16, p25.HALF_RATE, p25.THREE_QUARTER_RATE):
        info = getattr(code, "length", None) or code.k
        given = 5 if isinstance(code, p25.NumberCode) else bytes(range(info))
        word = code.write(given)
        assert again(code).write(given) == word and again(code).read(word) == code.read(word) and repr(again(code)) == repr(code)


@pytest.mark.parametrize("again", COPIES)
@pytest.mark.parametrize("path", SAMPLES, ids=lambda it: it.name)
def test_copies_of_callers_and_followers_go_on_alone(again, path):
    items = list(p25.items(path.read_bytes()))
    for begin in (lambda: p25.Caller(by_gap=True), p25.Follower):
        one = begin()
        for item in items[: len(items) // 2]:
            one.take(item)
        other, ends = again(one), []
        for it in (one, other):
            ends.append([it.take(item) for item in items[len(items) // 2 :]] + [it.finish()])
        assert ends[0] == ends[1]


@pytest.mark.parametrize("kept", [p25.Stream, p25.Softener])
def test_what_keeps_octets_is_not_pickled(kept):
    for again in COPIES:
        with pytest.raises(TypeError, match=f"p25.{kept.__name__} cannot be pickled"):
            again(kept())


@pytest.mark.parametrize("wrong", [None, 5, "gap", (1, 2), [None]], ids=repr)
def test_arguments_that_are_no_items(wrong):
    for take in (p25.Caller().take, p25.Follower().take, lambda it: list(p25.calls_with_units([it]))):
        with pytest.raises(TypeError, match=f"an item is needed, and not {type(wrong).__name__}"):
            take(wrong)


@pytest.mark.parametrize("release", ["3.8", "3.13"])
def test_types_by_mypy(release):
    mypy = shutil.which("mypy")
    if not mypy:
        pytest.skip("mypy is not installed")
    words = [mypy, "--strict", "--cache-dir", os.devnull, "--python-version", release, HERE / "p25"]
    made = subprocess.run(words, stdout=subprocess.PIPE, stderr=subprocess.PIPE, text=True, check=False)
    if "not supported" in made.stderr:
        pytest.skip(f"mypy does not know Python {release}")
    assert made.stdout.startswith("Success"), made.stdout + made.stderr


def test_layouts_are_those_of_the_rule():
    for name in ("ItemParts", "Stream", "FollowerState", "LinkParts", "FieldParts", "CallParts", "CallerState", "PacketParts"):
        struct = getattr(_calls, name)
        assert f"of {ctypes.sizeof(struct)} octets" in struct.__doc__


VERSIONS = [(10000, False), (10099, False), (10100, True), (10203, True), (20000, False)]


@pytest.mark.parametrize("number, fits", VERSIONS)
def test_a_library_of_another_release(tmp_path, number, fits):
    (tmp_path / "p25").mkdir()
    for it in (HERE / "p25").glob("*.py"):
        (tmp_path / "p25" / it.name).write_bytes(it.read_bytes())
    names = "".join(f"int {name}() {{ return {number if name == 'p25_version' else 1}; }}\n" for name in _calls.CALLS)
    (tmp_path / "stub.c").write_text(names)
    subprocess.run([os.environ.get("CC", "cc"), "-shared", "-fPIC", "-o", tmp_path / "p25/libp25.so", tmp_path / "stub.c"], check=True)
    made = subprocess.run([sys.executable, "-c", "import p25"], cwd=tmp_path, stderr=subprocess.PIPE, text=True, env={**os.environ, "PYTHONPATH": str(tmp_path)}, check=False)
    assert (made.returncode == 0) == fits
    if not fits:
        release = f"{number // 10000}.{number // 100 % 100}.{number % 100}"
        assert made.stderr.splitlines()[-1] == f"ImportError: libp25.so is release {release}, and this package needs 1.1.0 or later"


@pytest.mark.parametrize("epoch", ["", "1700000000"])
def test_archives_are_reproducible(tmp_path, monkeypatch, epoch):
    monkeypatch.setenv("SOURCE_DATE_EPOCH", epoch or "0")
    sums = set()
    for name in ("one", "other"):
        (tmp_path / name).mkdir()
        made = [make_wheel.build_wheel(tmp_path / name), make_wheel.build_sdist(tmp_path / name)]
        sums.add(tuple(hashlib.sha256((tmp_path / name / it).read_bytes()).hexdigest() for it in made))
        time.sleep(1.1)
    assert len(sums) == 1


def test_a_wheel_is_for_the_machine_of_its_library():
    octets = make_wheel.library()
    assert make_wheel.tag_of(octets).endswith("_x86_64")
    with pytest.raises(SystemExit, match="x86_64.*aarch64"):
        make_wheel.tag_of(octets, "aarch64")
    other = bytearray(octets)
    other[18] = 183
    with pytest.raises(SystemExit, match="aarch64"):
        make_wheel.tag_of(bytes(other), "x86_64")
