"""p25-talkers and p25-calls: talkers in lines, CSV and JSON, live and with times."""

import datetime
import json
import os
import re
import signal
import subprocess
import time

import pytest
from conftest import LC, RECORDINGS, SAMPLES, hdu, ldu1, ldu2, need, tdulc

SECOND, ALARM = "0000000004d2001111", "0000800004d200162e"


def told(room, units, words="", source="p25 show"):
    """Returns the lines of p25-talkers for some units."""
    return room.text(f"{source} | p25-talkers {words} 2>/dev/null", room.build(*units)).splitlines()


def who(line):
    """Returns the talker of a line."""
    return line.split(": ", 1)[1].split("; ")[0]


def pairs(count, lc, alg="80", key="0000"):
    return [ldu1(lc), ldu2(alg, key)] * count


def test_four_calls(room):
    assert room.text("p25 calls < traffic.bin | p25-talkers") == """\
0.000 s, for 1.208 s, nac 293: radio 4097 to group 100, clear; voice units 6 sent, 6 heard, 0 lost
1.708 s, for 0.735 s, nac 293: radio 4098 to group 200, AES-256; voice units at least 4 sent, 4 heard, 0 broken; beginning not heard
2.943 s, for 0.488 s, nac 293: radio 4099 to radio 4100, clear; voice units 2 sent, 2 heard, 0 lost
3.930 s, for 0.848 s, nac 2a1: radio 4097 to group 100, emergency, clear; voice units 4 sent, 4 heard, 0 lost
"""
    table = room.lines("p25 show < traffic.bin | p25-talkers -c")
    assert [",".join(line.split(",")[:16]) for line in table] == [
        "begin,seconds,nac,entry,end,format,manufacturer,radio,group,called,emergency,algorithm,sent,heard,lost,broken",
        "0.000,1.208,293,header,tdulc,00,,4097,100,,0,clear,6,6,0,0",
        "1.708,0.735,293,late,tdu,00,,4098,200,,0,AES-256,4,4,0,0",
        "2.943,0.488,293,header,tdulc,03,,4099,,4100,0,clear,2,2,0,0",
        "3.930,0.848,2a1,header,tdulc,00,,4097,100,,1,clear,4,4,0,0",
    ]


# Two radios in one run of voice, and the output of each form.
EMERGENCY = [hdu(1234), *pairs(4, ALARM), *pairs(5, SECOND), "tdu nac=293"]


def test_emergency_in_a_run_of_two(room):
    recording = room.put("two.bin", room.build(*EMERGENCY))
    shown = room.put("two.show", room.octets(f"p25 show < {recording}"))
    first, second = room.lines(f"p25-talkers < {shown}")
    assert first.startswith("0.000 s, for 1.523 s, nac 293: radio 5678 to group 1234, emergency, clear; voice units at least 8 sent, 8 heard")
    assert second.startswith("1.523 s, for 1.815 s, nac 293: radio 4369 to group 1234, clear; voice units at least 10 sent, 10 heard")
    assert room.lines(f"p25-talkers --emergency < {shown}") == room.lines(f"p25-talkers --radio 5678 < {shown}") == [first]
    assert room.lines(f"p25-talkers --group 1234 < {shown}") == [first, second]
    assert [json.loads(line)["emergency"] for line in room.lines(f"p25-talkers -j < {shown}")] == [True, False]
    assert [line.split(",")[10] for line in room.lines(f"p25-talkers -c < {shown}")] == ["emergency", "1", "0"]
    watched = room.lines(f"p25-watch < {shown}")
    assert "ended  0:00:00.0, for 1.5 s, nac 293: radio 5678 to group 1234, EMERGENCY, clear" in watched[1]
    assert watched[-1] == "units 20 whole, 0 broken, 0 lost; 2 calls, 1 emergency; 3.3 s"
    assert len(room.lines(f"p25-watch --emergency < {shown}")) == 3
    # As one call of p25-calls both are named, and the emergency is found.
    (line,) = room.lines(f"p25-calls -v < {shown} | p25-talkers --emergency")
    assert who(line) == "radio 4369 to group 1234, also radio 5678 to group 1234, emergency, clear"
    assert "at least 18 sent, 18 heard, 0 broken; more than one talker is told" in line
    assert room.lines(f"p25-calls -c < {shown} | cut -d , -f 19") == ["emergency", "1"]


A, B, C = (f"000000000064{radio:06x}" for radio in (0xA, 0xB, 0xC))
UPDATE = "420000000064001001"


@pytest.mark.parametrize(
    "units, wanted",
    [
        # Two words of the second talk divide, one does not.
        ([*pairs(2, A), *pairs(2, B)], ["radio 10 to group 100, clear", "radio 11 to group 100, clear"]),
        ([*pairs(2, A), *pairs(1, B)], ["radio 10 to group 100, clear"]),
        ([*pairs(2, A), *pairs(1, B), tdulc(B)], ["radio 10 to group 100, clear", "radio 11 to group 100, clear"]),
        # One word of a talk that was named before is enough.
        ([*pairs(2, A), *pairs(2, B), *pairs(1, A)], ["radio 10 to group 100, clear", "radio 11 to group 100, clear", "radio 10 to group 100, clear"]),
        ([*pairs(2, A), *pairs(1, B), *pairs(1, C), *pairs(1, A)], ["radio 10 to group 100, clear"]),
        # Words of other formats name no one.
        ([ldu1(A), *pairs(2, UPDATE), ldu1(A), *pairs(1, UPDATE), *pairs(2, B)], ["radio 10 to group 100, clear", "radio 11 to group 100, clear"]),
        # A single word at the beginning is no talker, unless it has the group of the header.
        ([*pairs(1, C), *pairs(3, B)], ["radio 11 to group 100, clear"]),
        ([hdu(100), *pairs(1, C), *pairs(3, B)], ["radio 12 to group 100, clear", "radio 11 to group 100, clear"]),
        ([hdu(7), *pairs(1, C), *pairs(3, B)], ["radio 11 to group 100, clear"]),
        # A tie is named as one.
        ([*pairs(1, A), *pairs(1, B)], ["radio 10 to group 100 or radio 11 to group 100, clear"]),
        # An emergency takes one word, in a terminator too, and without voice.
        ([*pairs(2, A), *pairs(1, ALARM), *pairs(2, A)], ["radio 10 to group 100, clear", "radio 5678 to group 1234, emergency, clear", "radio 10 to group 100, clear"]),
        ([*pairs(2, A), tdulc(ALARM)], ["radio 10 to group 100, clear", "radio 5678 to group 1234, emergency, algorithm unknown"]),
        ([tdulc(ALARM)], ["radio 5678 to group 1234, emergency, algorithm unknown"]),
        ([tdulc(A)], []),
        ([ldu1(A), ldu2(), ldu1(A[:4] + "80" + A[6:])], ["radio 10 to group 100, emergency, clear"]),
        # The header has group and key, and no radio.
        ([hdu(8004, "9f", "9184"), ldu2("9f", "9184")], ["radio not known to group 8004, DES-XL, key 9184"]),
        ([hdu(0), ldu2()], ["talkers not known, clear"]),
    ],
)
def test_talks_of_a_run(room, units, wanted):
    lines = told(room, units)
    assert [who(line) for line in lines] == wanted
    assert all("at least" in line for line in lines) or len(set(units)) < 3


@pytest.mark.parametrize(
    "words, is_exact",
    [([A, A], True), ([A, UPDATE], True), ([A, B], False), ([A, A, A, B], False), ([A, "000000000065" + A[12:]], False)],
)
def test_exact_only_if_no_word_disagrees(room, words, is_exact):
    (line,) = told(room, [hdu(100), *(unit for word in words for unit in pairs(1, word)), "tdu nac=293"])
    assert (f"voice units {2 * len(words)} sent, {2 * len(words)} heard, 0 lost" in line) == is_exact
    # So does a header of another group.
    (line,) = told(room, [hdu(101), *pairs(2, A), "tdu nac=293"])
    assert "at least 4 sent, 4 heard, 0 broken; more than one talker is told" in line


@pytest.mark.parametrize(
    "units",
    [
        # A terminator and a header were lost: the distance between the voice units is no multiple of one.
        [*pairs(1, A), 117, *pairs(1, UPDATE)],
        [*pairs(1, A), 18, *pairs(1, UPDATE), 198, *pairs(1, UPDATE)],
        # Two units of a type follow one another, or units of another cipher.
        [*pairs(1, A), ldu2()],
        [*pairs(1, A), 216, ldu1(UPDATE), ldu2()],
        [*pairs(1, A), *pairs(1, UPDATE, "84", "0001")],
    ],
)
def test_exact_only_if_the_units_are_of_one_call(room, units):
    (line,) = told(room, [hdu(100), *units, "tdu nac=293"])
    assert re.search("voice units at least [0-9]+ sent, [0-9]+ heard, 0 broken; perhaps two calls; 0 of ", line)
    # Lost units in the turn of their types divide nothing.
    (line,) = told(room, [hdu(100), *pairs(1, A), 432, *pairs(1, UPDATE), "tdu nac=293"])
    assert "voice units 6 sent, 4 heard, 2 lost; 0 of " in line


def test_most_ciphers_tell(room):
    assert who(told(room, [ldu1(), ldu2("84", "0001"), ldu1(), ldu2("aa", "1234"), ldu1(), ldu2("aa", "1234")])[0]).endswith("100, ADP (RC4), key 1234")


@pytest.mark.parametrize(
    "alg, name",
    [*zip("80 81 83 84 85 9f aa 00 c7".split(), "clear DES-OFB 3DES AES-256 AES-128 DES-XL ADP_(RC4) algorithm_00 algorithm_c7".split())],
)
def test_algorithms(room, alg, name):
    (line,) = told(room, [ldu2(alg, "0001"), "tdu nac=293"], source="p25 calls")
    assert line == f"0.000 s, for 0.195 s, nac 293: talkers not known, {name.replace('_', ' ')}; voice units at least 1 sent, 1 heard, 0 broken; beginning not heard"


@pytest.mark.parametrize(
    "lc, wanted",
    [
        ("00000000ffffffffff", "radio 16777215 to group 65535"),
        ("000080000000000001", "radio 1 to group 0, emergency"),
        ("00007f000001000002", "radio 2 to group 1"),
        ("009000000064001001", "radio 4097 to group 100, manufacturer 90"),
        ("000100000064001001", "radio 4097 to group 100"),
        ("0300000000010f4240", "radio 1000000 to radio 1"),
        ("030080ffffff000001", "radio 1 to radio 16777215, emergency"),
        (UPDATE, "channel update (link control of format 42)"),
        ("4f0000000000000000", "end of the call (link control of format 4f)"),
        ("560000000000000000", "call alert (link control of format 56)"),
        ("540000000000000000", "status update (link control of format 54)"),
        ("159000000064001001", "talker alias (link control of format 15), manufacturer 90"),
        ("2aa400000064001001", "position of the radio (link control of format 2a), manufacturer a4"),
        ("3f9000000064001001", "link control of format 3f, manufacturer 90"),
        ("800000000064001001", "protected (link control of format 80)"),
    ],
)
def test_link_control(room, lc, wanted):
    (line,) = told(room, [ldu1(lc), tdulc("0" * 18)], source="p25 calls")
    assert line == f"0.000 s, for 0.225 s, nac 293: {wanted}, algorithm unknown; voice units at least 1 sent, 1 heard, 0 broken; beginning not heard"


def test_calls_without_a_name_say_that_show_tells_more(room):
    recording = room.build(ldu1(UPDATE), ldu2(), *pairs(1, A), "tdu nac=293")
    status, out, error = room.run("p25 calls | p25-talkers", recording)
    assert (status, out.count(b"channel update")) == (0, 1)
    assert error == "p25-talkers: 1 of 1 calls have no name: their first link control has none; p25 show in place of p25 calls tells more\n"
    assert who(room.text("p25 show | p25-talkers", recording)) == "radio 10 to group 100, clear"


# A call of a header of 99 octets, six voice units of 216 and a terminator of 54, of which parts are lost.
@pytest.mark.parametrize(
    "cut, wanted",
    [
        (lambda call: bytes(315) + call[315:], "voice units at least 5 sent, 5 heard, 0 broken; beginning not heard"),
        (lambda call: call[:963] + bytes(2000), "voice units at least 4 sent, 4 heard, 0 broken; end not heard"),
        (lambda call: bytes(315) + call[315:531] + bytes(216) + call[747:963] + bytes(2000), "voice units at least 3 sent, 2 heard, 0 broken; beginning not heard, end not heard"),
        (lambda call: call[:315] + bytes(216) + call[531:], "voice units 6 sent, 5 heard, 1 lost"),
    ],
)
def test_what_was_not_heard(room, cut, wanted):
    call = room.build(hdu(100), *pairs(3, LC), tdulc())
    assert room.text("p25 show | p25-talkers", cut(call)).split("clear; ")[1].startswith(f"{wanted}; 0 of")


def test_parts_of_one_call(room):
    call = room.build(hdu(100), *pairs(3, LC), tdulc())
    other = room.build(hdu(100), *pairs(3, A), tdulc(A))
    torn = call[:315] + bytes(648)
    first, second = room.lines("p25 show | p25-talkers", torn + call[963:])
    assert "; end not heard;" in first and second.endswith("; may go on the call of 0.000 s")
    assert [line.split(",")[22] for line in room.lines("p25 show | p25-talkers -c", torn + call[963:])] == ["goes_on", "", "0.000"]
    assert "may go on" not in room.text("p25 show | p25-talkers", torn + other[963:])


def test_votes(room):
    recording = room.build(ldu1("0000000000c8001002"), ldu2(), ldu1(LC), ldu1(UPDATE), ldu2(), tdulc(LC))
    line = room.text("p25 show | p25-talkers -v", recording)
    votes = "told by 2 of 4 link control words, radio 4098 to group 200 by 1, channel update (link control of format 42) by 1\n"
    assert line.endswith(votes) and who(line) == "radio 4097 to group 100, clear"
    assert room.text("p25 show | p25-calls -v | p25-talkers -v", recording) == line
    assert room.run("p25 calls | p25-talkers -v", recording)[::2] == (
        1, "p25-talkers: line 1 tells no votes: -v wants the lines of p25 show, or of p25-calls -v\n")


def test_bit_errors_of_a_call(room):
    shown = room.octets("p25-damage 8 2 | p25 show", room.build(hdu(100), *pairs(3, LC), tdulc()))
    _, units, looked, wrong, rate, _ = next(line for line in room.lines("p25-rate", shown) if line.startswith("all")).split()
    assert room.text("p25-talkers", shown).endswith(f"; {wrong} of {looked} bits wrong, {rate} %\n")
    assert room.lines("p25-talkers -c", shown)[1].split(",")[19:21] == [looked, wrong]


@pytest.mark.parametrize(
    "words, wanted",
    [
        ("--begin 2026-12-31T23:59:58Z", ["2026-12-31T23:59:58.000Z", "2026-12-31T23:59:59.708Z", "2027-01-01T00:00:00.943Z", "2027-01-01T00:00:01.930Z"]),
        ("--begin 2026-12-31T23:59:58-05:00", ["2026-12-31T23:59:58.000-05:00", "2026-12-31T23:59:59.708-05:00", "2027-01-01T00:00:00.943-05:00", "2027-01-01T00:00:01.930-05:00"]),
        # Over a change to summer time.
        ("--begin '2026-03-29T01:59:58 Europe/Berlin'", ["2026-03-29T01:59:58.000+01:00", "2026-03-29T01:59:59.708+01:00", "2026-03-29T03:00:00.943+02:00", "2026-03-29T03:00:01.930+02:00"]),
        ("--begin '2026-07-01 10:00:00 America/New_York'", ["2026-07-01T10:00:00.000-04:00", "2026-07-01T10:00:01.708-04:00", "2026-07-01T10:00:02.943-04:00", "2026-07-01T10:00:03.930-04:00"]),
    ],
)
def test_times(room, words, wanted):
    for script, place in (("p25-talkers", 16), ("p25-calls", 11)):
        assert [line.split(",")[place] for line in room.lines(f"p25 show < traffic.bin | {script} -c {words}")] == ["time", *wanted]


class Live:
    """A pipeline that is fed bit by bit, and whose lines are taken as they come."""

    def __init__(self, room, command):
        self.run = subprocess.Popen(["sh", "-c", command], cwd=room.path, stdin=subprocess.PIPE, stdout=subprocess.PIPE, start_new_session=True)

    def give(self, octets):
        self.run.stdin.write(octets)
        self.run.stdin.flush()

    def line(self):
        """Returns the next line."""
        return self.run.stdout.readline().decode()

    def end(self):
        rest = self.run.communicate()[0].decode()
        return self.run.returncode, rest


def time_of(line):
    return datetime.datetime.fromisoformat(line.split(", for", 1)[0].replace("Z", "+00:00"))


def test_now_is_the_first_bit_and_silence_counts(room):
    """Checks the times if the first bit comes two seconds after the script, and three seconds are left out between two calls."""
    first, second = (room.octets("p25 show", room.build(hdu(100), *pairs(3, lc), tdulc(lc))) for lc in (A, B))
    second = b"".join(b"%s at=%d %s\n" % (kind, int(at[3:]) + 11592, rest) for kind, at, rest in (line.split(b" ", 2) for line in second.splitlines()))
    live = Live(room, "p25-talkers --begin now")
    time.sleep(2)
    for lines in (first, second):
        # At the speed of the channel.
        for line in lines.splitlines(keepends=True):
            time.sleep(int(line.split(b"bits=")[1].split()[0]) / 9600)
            live.give(line)
        came = datetime.datetime.now().astimezone()
        begin = time_of(live.line())
        assert abs((came - begin).total_seconds() - 11592 / 9600) < 0.7
        time.sleep(3)
    live.end()


def test_live_lines(room):
    """Checks that a line is there while the pipe is open, and that an interrupt gives the call that is open."""
    shown = room.octets("p25 show < traffic.bin").splitlines(keepends=True)
    live = Live(room, "exec p25-talkers")
    live.give(b"".join(shown[:8]))
    assert live.line().startswith("0.000 s, for 1.208 s")
    live.give(b"".join(shown[8:14]))
    time.sleep(0.5)
    os.kill(live.run.pid, signal.SIGINT)
    status, rest = live.end()
    assert (status, rest.count("AES-256")) == (130, 1)
    # A pause ends a call; without -p p25-calls waits for the next unit.
    open_call = room.octets("p25 show | sed '$d'", room.build(hdu(100), *pairs(1, LC), 1200))
    for command, comes in (("exec p25-talkers", True), ("exec p25-calls -p", True), ("exec p25-calls", False)):
        live = Live(room, command)
        live.give(open_call)
        if comes:
            assert live.line()
        assert (live.end()[1].count("call at=") == 1) == (not comes)


@pytest.mark.parametrize("pipe", ["p25 show | p25-talkers", "p25-split - | p25-talkers", "p25-split - | p25-calls -v | p25-talkers"])
def test_interrupt_of_a_pipe(room, pipe):
    octets = SAMPLES["traffic.bin"].read_bytes()[:747]
    # The time that the pipe takes, on a machine as busy as it is now.
    began = time.monotonic()
    room.octets(pipe, octets)
    took = time.monotonic() - began
    live = Live(room, f"trap : INT; {pipe}")
    live.give(octets)
    time.sleep(2 + 4 * took)
    os.killpg(live.run.pid, signal.SIGINT)
    assert "at least 3 sent, 3 heard, 0 broken; end not heard" in live.line()
    live.end()


NAMES = '# names\r\nkind,number,name\r\ngroup,100,"Fire, dispatch"\r\nradio,4097,Engine 3\r\nradio,4100,=1+1\r\nnac,2a1,County\r\n'


def test_names(room):
    room.put("names.csv", NAMES)
    lines = room.lines("p25 show < traffic.bin | p25-talkers -a names.csv")
    assert who(lines[0]) == "radio 4097 (Engine 3) to group 100 (Fire, dispatch), clear"
    assert "nac 2a1 (County): radio 4097 (Engine 3)" in lines[3]
    assert room.lines("p25 show < traffic.bin | p25-talkers -c -a names.csv")[3].split(",")[23:26] == ["", "", "'=1+1"]


@pytest.mark.parametrize(
    "words, names",
    [
        ("-a one.csv", {"one.csv": "group,100,County fire,2a1\ngroup,100,City fire\n"}),
        ("-a 2a1=one.csv -a two.csv", {"one.csv": "group,100,County fire\n", "two.csv": "group,100,City fire\n"}),
        ("-a two.csv -a 2A1=one.csv", {"one.csv": "Decimal,Hex,Mode,Alpha Tag,Description\n100,64,D,County fire,x\n", "two.csv": "DEC,Mode,Name of Group\n100,A,City fire\n"}),
    ],
)
def test_names_by_network(room, words, names):
    for name, text in names.items():
        room.put(name, text)
    groups = [line.split(" to ")[1].split(",")[0] for line in room.lines(f"p25 show < traffic.bin | p25-talkers {words}")]
    assert groups == ["group 100 (City fire)", "group 200", "radio 4100", "group 100 (County fire)"]
    assert "County fire to" not in room.text(f"p25 show < traffic.bin | p25-watch {words}")
    assert room.text(f"p25 show < traffic.bin | p25-watch {words}").count("to County fire") == 2


@pytest.mark.parametrize(
    "words, count",
    [
        ("--group 100", 2), ("-a names.csv --group 'fire, dispatch'", 2), ("--radio 4098", 1), ("--radio 4100", 1), ("--emergency", 1), ("--emergency --group 200", 0),
    ],
)
def test_filters(room, words, count):
    room.put("names.csv", NAMES)
    assert len(room.lines(f"p25 calls < traffic.bin | p25-talkers {words}")) == count


@pytest.mark.parametrize(
    "octets, error",
    [
        (b"group;100;Fire\n", "is no file of names: its row 'group;100;Fire' is none as group,100,Fire dispatch or radio,4097,Engine 3"),
        (b"group,100,F\xfcr\n", "is no file of names: it is not in UTF-8, as which iconv -f LATIN1 -t UTF-8 'wrong.csv' writes it"),
    ],
)
def test_files_of_other_names(room, octets, error):
    room.put("wrong.csv", octets)
    assert room.run("p25-talkers -a wrong.csv < /dev/null") == (1, b"", f"p25-talkers: 'wrong.csv' {error}\n")


def test_json_and_csv_are_read(room):
    """Checks that numbers are numbers, and that a NAC is a text."""
    shown = room.put("codes.show", room.octets("p25 show", room.build(
        ldu1("000080000064001001", "001"), "tdu nac=001", ldu1("0300000010040010ff", "2e1"), "tdu nac=2e1", status=0)))
    rows = [json.loads(line) for line in room.lines(f"p25-talkers -j < {shown}")]
    assert [[row[name] for name in ("nac", "network", "radio", "group", "called", "emergency", "seconds", "sent", "rate", "key", "also")] for row in rows] == [
        ["001", "NAC 001", 4097, 100, None, True, 0.195, 1, 0.0, None, None], ["2e1", "NAC 2e1", 4351, None, 4100, False, 0.195, 1, 0.0, None, None]]
    rows = [json.loads(line) for line in room.lines(f"p25-calls -j < {shown}")]
    assert [[row[name] for name in ("at", "nac", "lc", "alg", "radio")] for row in rows] == [
        [0, "001", "000080000064001001", None, 4097], [1872, "2e1", "0300000010040010ff", None, 4351]]
    pandas = pytest.importorskip("pandas")
    for script in ("p25-talkers", "p25-calls"):
        room.run(f"{script} -c < {shown} > table.csv; {script} -j < {shown} > table.json")
        for table in (pandas.read_csv(room.path / "table.csv"), pandas.read_json(room.path / "table.json", lines=True)):
            assert [list(table.network), table.radio.sum(), table.seconds.dtype] == [["NAC 001", "NAC 2e1"], 8448, "float64"]


@pytest.mark.parametrize("name", RECORDINGS)
def test_calls_of_samples(room, name):
    calls = room.text(f"p25 calls < {name}")
    assert room.text(f"p25 show < {name} | p25-calls") == calls
    assert len(room.lines(f"p25 show < {name} | p25-talkers")) == calls.count("call at=")


def test_calls_of_damaged_recordings(room, mixed):
    """Checks that the calls of hundreds of recordings are those of p25, also by -p, by chunks of p25-split, and after -v."""
    some = room.put("some.bin", mixed[0] + SAMPLES["shifted.bin"].read_bytes() + SAMPLES["traffic.bin"].read_bytes())
    calls = room.put("all.calls", b"")
    room.run(f"for seed in $(seq 1 20); do for rate in 0.5 2 4 6 8 10 13; do p25-damage $seed $rate < {some} > made; p25 show < made >> shown; p25 calls < made | sed '$d' >> {calls}; done; done")
    wanted = room.get(calls)
    assert wanted.count(b"\n") > 1000
    for words in ("", "-p", "-v | sed 's/ looked=.*//'"):
        assert room.octets(f"cat shown | p25-calls {words} | sed '$d'") == wanted
    wanted = room.octets(f"p25 calls < {some}")
    for octets in (4096, 4111, 5000):
        assert room.octets(f"p25-split {some} {octets} | p25-calls") == wanted


def test_other_lines(room):
    assert room.run("echo hello | p25-calls") == (1, b"", "p25-calls: line 1 is none of p25 show\n")
    assert room.run("p25 sample 1 | p25-talkers") == (1, b"", "p25-talkers: line 1 is none of p25 calls or p25 show\n")
    assert room.text("echo calls=0 | p25-talkers") == ""


def test_jq(room):
    need("jq")
    assert room.text("p25 show < traffic.bin | p25-talkers -j | jq -s 'map(.sent) | add'") == "16\n"
