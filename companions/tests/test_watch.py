"""p25-watch: its lines, and its screen in a terminal of tmux, which is examined until it has the expected text."""

import os
import re
import subprocess
import time

import pytest
from conftest import LC, SAMPLES, hdu, ldu1, ldu2, lines_of_calls, need, tdulc

LINES = """\
begins 0:00:00.0, nac 293: radio 4097 to group 100, clear
ended  0:00:00.0, for 1.2 s, nac 293: radio 4097 to group 100, clear; voice units 6 sent, 6 heard, 0 lost, 0 broken; wrong bits 0.000 %
begins 0:00:01.7, nac 293: radio 4098 to group 200, AES-256, key 0123
ended  0:00:01.7, for 0.7 s, nac 293: radio 4098 to group 200, AES-256, key 0123; voice units at least 4 sent, 4 heard, 0 lost, 0 broken; wrong bits 0.000 %
begins 0:00:02.9, nac 293: radio 4099 to radio 4100, clear
ended  0:00:02.9, for 0.5 s, nac 293: radio 4099 to radio 4100, clear; voice units 2 sent, 2 heard, 0 lost, 0 broken; wrong bits 0.000 %
begins 0:00:03.9, nac 2a1: radio 4097 to group 100, EMERGENCY, clear
ended  0:00:03.9, for 0.8 s, nac 2a1: radio 4097 to group 100, EMERGENCY, clear; voice units 4 sent, 4 heard, 0 lost, 0 broken; wrong bits 0.000 %
units 23 whole, 0 broken, 0 lost; 4 calls, 1 emergency; 4.8 s
"""
NAMES = "# names\ngroup,100,Fire dispatch\nradio,4097,Engine 3\nradio,4099,a\033[31mb\n"


@pytest.fixture
def shown(room):
    """Returns the lines of four calls, also in files."""
    lines = room.octets("p25 show < traffic.bin")
    room.put("traffic.show", lines)
    room.put("open.show", b"".join(lines.splitlines(keepends=True)[:-1]))
    room.put("names.csv", NAMES)
    return lines.splitlines(keepends=True)


@pytest.mark.parametrize(
    "command, wanted",
    [
        ("p25-watch < traffic.show", LINES),
        ("p25-watch --begin 2026-11-28T23:59:58+01:00 -a names.csv --group 'Fire dispatch' --emergency < traffic.show | head -n 1",
         "begins 00:00:01.9, nac 2a1: Engine 3 to Fire dispatch, EMERGENCY, clear\n"),
        ("p25-watch --radio 4100 < traffic.show | grep -c '^ended'", "1\n"),
        ("p25-watch < /dev/null", "units 0 whole, 0 broken, 0 lost; 0 calls; 0.0 s\n"),
        ("p25-watch < open.show | grep -c '^ended'", "4\n"),
        # Segments, whose positions begin anew, are joined end to end.
        ("cat traffic.show traffic.show | p25-watch | tail -n 1", "units 46 whole, 0 broken, 0 lost; 8 calls, 2 emergencies; 9.6 s\n"),
    ],
)
def test_lines(room, shown, command, wanted):
    assert room.text(command) == wanted


def test_live(room, shown):
    run = subprocess.Popen("p25-watch", stdin=subprocess.PIPE, stdout=subprocess.PIPE, bufsize=0)
    run.stdin.write(b"".join(shown[:3]))
    assert run.stdout.readline().decode() == LINES.splitlines(keepends=True)[0]
    run.stdin.write(b"".join(shown[3:10]))
    assert run.stdout.readline().decode() == LINES.splitlines(keepends=True)[1]
    run.communicate()


@pytest.mark.parametrize("seed", range(1, 25))
def test_damaged_recordings(room, mixed, seed):
    """Checks that it shows the calls of p25 calls, with the numbers of p25-talkers."""
    room.put("damaged.bin", room.octets(f"p25-damage {seed} {seed % 12}", mixed[0]))
    shown = room.text("p25 show < damaged.bin > damaged.show; cat damaged.show")
    told = room.lines("p25-watch < damaged.show")
    ended = re.findall(r"^ended .* nac (\w+): .* (\d+) sent, (\d+) heard, (\d+) lost, (\d+) broken", "\n".join(told), re.M)
    # An emergency in a terminator alone is no call of p25 calls.
    calls = re.findall(r"^call .* nac=(\w+) .* links=(\d+) broken=(\d+) ", room.text("p25 calls < damaged.bin"), re.M)
    assert [(nac, heard, broken) for nac, _, heard, _, broken in ended if heard != "0"] == calls
    rows = [line.split(",")[12:15] for line in room.lines("p25-talkers -c < damaged.show")[1:]]
    assert [[sent, heard, lost] for _, sent, heard, lost, _ in ended] == rows
    units = [len(re.findall(f"^{kind} ", shown, re.M)) for kind in ("unit", "broken")]
    assert told[-1].startswith(f"units {units[0]} whole, {units[1]} broken, {sum(int(row[2]) for row in rows)} lost;")


def test_wrong_lines(room, shown):
    wrong = b"".join([*shown[:2], b"unit at=5\nhello world\n", *shown[2:]])
    assert room.run("p25-watch", wrong) == (1, LINES.encode(), "p25-watch: 2 lines are none of p25 show; the first is line 3\n")
    status, out, _ = room.run("head -c 300000 /dev/urandom | p25-watch")
    assert (status, out) == (1, b"units 0 whole, 0 broken, 0 lost; 0 calls; 0.0 s\n")
    assert "\033" not in room.text("p25-watch -a names.csv < traffic.show")


@pytest.mark.parametrize("name", ["traffic.bin", "capture.dibits", "capture.digits", "capture.floats"])
def test_recordings(room, name):
    status, out, told = room.run(f"p25-watch {name}")
    shown = told.rstrip("\n").split(": ", 2)[2]
    # The line of a call that begins depends on the lines that came together.
    assert status == 0 and re.sub(b"begins .*\n", b"", out) == re.sub(b"begins .*\n", b"", room.octets("p25-watch", room.octets(shown)))


def test_replay(room, shown):
    """Checks that no call begins sooner than in the recording."""
    began = time.monotonic()
    run = subprocess.Popen(["p25-watch", "--replay", "--plain"], stdin=open(room.path / "traffic.show", "rb"), stdout=subprocess.PIPE)
    times = [(time.monotonic() - began, line.split()[1].rstrip(b",")) for line in run.stdout]
    assert all(after >= float(text.rpartition(b":")[2]) for after, text in times[:-1] if b":" in text) and 4.7 <= times[-1][0] < 35


class Terminal:
    """A terminal of tmux with a shell."""

    count = 0

    def __init__(self, room, width=80, height=24):
        Terminal.count += 1
        self.tmux = ["tmux", "-L", f"p25-watch-{os.getpid()}-{Terminal.count}", "-f", "/dev/null"]
        environment = {**os.environ, "LC_ALL": "C.UTF-8"}
        environment.pop("NO_COLOR", None)
        self.mux("new-session", "-d", "-x", str(width), "-y", str(height), "env PS1='ready> ' ENV= TERM=screen-256color sh", cwd=room.path, env=environment)
        self.mux("set-option", "-g", "status", "off")
        self.sees("ready>")

    def mux(self, *words, **more):
        return subprocess.run([*self.tmux, *words], capture_output=True, text=True, **more).stdout

    def type(self, line):
        self.mux("send-keys", "-l", line)
        self.mux("send-keys", "Enter")

    def keys(self, *names):
        self.mux("send-keys", *names)

    def shown(self, colours=False):
        return self.mux("capture-pane", "-p", *(["-e"] if colours else []))

    def state(self):
        """Returns whether a program has the screen, and whether its cursor is seen."""
        return self.mux("display-message", "-p", "#{alternate_on} #{cursor_flag}").strip()

    def until(self, holds):
        """Waits until something holds, half a minute at most."""
        for _ in range(300):
            if holds():
                return
            time.sleep(0.1)
        pytest.fail(self.shown())

    def sees(self, *texts, colours=False):
        """Waits until the screen has some texts."""
        self.until(lambda: all(text in self.shown(colours) for text in texts))

    def is_as_before(self):
        """Checks that the screen is that of the shell, with its cursor and its keys."""
        self.until(lambda: self.state() == "0 1")
        self.sees("before the screen")
        self.type('stty -a | grep -o "[-]*icanon\\|[-]*echo " | tr -d " " | paste -s -d , -; echo "then $?"')
        self.sees("icanon,echo", "then 0")


@pytest.fixture
def terminal(room, shown):
    need("tmux")
    made = []

    def opened(line, width=80, height=24):
        made.append(Terminal(room, width, height))
        made[-1].type("echo before the screen")
        made[-1].sees("before the screen\n")
        made[-1].type(line)
        return made[-1]

    yield opened
    for it in made:
        it.mux("kill-server")


def test_screen(terminal):
    screen = terminal("(cat open.show; sleep 1000) | p25-watch -a names.csv; echo status $?")
    screen.sees("WHO SPEAKS NOW", "EMERGENCY Engine 3 to Fire di", "22 whole, 0 broken, 0 lost; last unit", "WRONG BITS    0.0 %", "▁▁▁▁", "293 quiet; last ",
                "293 4098 to group 200             AES-256", "2a1 EMERGENCY Engine 3 to Fire di… silent")
    assert screen.state() == "1 0"
    assert (len(screen.shown().splitlines()), max(map(len, screen.shown().splitlines()))) == (24, 80)
    screen.sees("\033[37m\033[41mEMERGENCY", colours=True)
    for width, height in ((132, 40), (60, 12), (20, 3), (80, 24)):
        screen.mux("resize-window", "-x", str(width), "-y", str(height))
        screen.until(lambda: len(screen.shown().splitlines()[0].rstrip()) == width and "q ends" in screen.shown())
    screen.sees("EMERGENCY Engine 3 to Fire di")
    screen.keys("x")
    time.sleep(0.5)
    assert screen.state() == "1 0"
    screen.keys("q")
    screen.sees("units 22 whole")
    screen.keys("C-c")
    screen.is_as_before()


def test_interrupt(terminal):
    screen = terminal("(cat open.show; sleep 1000) | p25-watch; echo status $?")
    screen.sees("EMERGENCY 4097 to group 100", "22 whole")
    screen.keys("C-c")
    screen.sees("units 22 whole", "status 130")
    screen.is_as_before()


def test_end_of_input_without_colour(room, terminal):
    screen = terminal("(cat open.show; until [ -e go ]; do sleep 0.1; done; tail -n 1 traffic.show) | NO_COLOR=1 p25-watch; echo status $?")
    screen.sees("7mEMERGENCY", colours=True)
    assert not re.search("\033\\[(?:[0-9;]*;)?[34][0-8]", screen.shown(True))
    room.put("go", b"")
    screen.sees("status 0", "units 23 whole, 0 broken, 0 lost; 4 calls, 1 emergency; 4.8 s")
    screen.is_as_before()


def test_signal(room, terminal):
    screen = terminal("(cat open.show; sleep 1000) | sh -c 'echo $$ >number; exec p25-watch'; echo status $?")
    screen.sees("EMERGENCY 4097 to group 100")
    os.kill(int(room.get("number")), 15)
    screen.until(lambda: screen.state() == "0 1")


@pytest.mark.parametrize("words", ["TERM=dumb p25-watch", "TERM=no-such-terminal p25-watch", "p25-watch --plain"])
def test_terminals_that_take_lines(terminal, words):
    screen = terminal(f"{words} < traffic.show", 160)
    screen.sees("EMERGENCY, clear; voice units 4 sent")
    assert screen.state().startswith("0")


def test_ascii(terminal):
    screen = terminal("(cat open.show; sleep 1000) | LC_ALL=C p25-watch")
    screen.sees("22 whole", "last minute  " + "." * 60)
    assert "▁" not in screen.shown()


def test_meter(room, terminal):
    """Checks the meter for eight units with 19 bit errors in 383 bits each, one broken unit and one lost."""
    lines = [f"unit at={place * 1728} bits=1728 fix=19 status={'1' * 24} {ldu1()}" for place in range(10)]
    lines[3], lines[4] = f"gap at={3 * 1728} bits=1728", f"broken at={4 * 1728} bits=1728 nac=293 duid=a fields=encryption_sync"
    room.put("meter.show", "".join(f"{line}\n" for line in lines))
    screen = terminal("(cat meter.show; sleep 1000) | p25-watch")
    screen.sees("8 whole, 1 broken, 1 lost", " 8      1     1 ", "last minute  ·", "▄▄")
    screen.until(lambda: re.search("^broken, lost ·*2·*$", screen.shown(), re.M))
    # The last five seconds go by while nothing comes.
    screen.keys("q")
    screen = terminal("while :; do cat meter.show; sleep 1; done | p25-watch")
    screen.sees("WRONG BITS    5.0 % ███████████████░░░░░░░░░░░░░░░ poor")


def test_lines_that_are_wrong_and_files_that_grow(room, shown, terminal):
    room.put("wrong.show", b"".join([*shown[:2], b"unit at=5\nhello world\n", *shown[2:]]))
    screen = terminal("(cat wrong.show; sleep 1000) | p25-watch")
    screen.sees("2 lines are none of p25 show, the first is line 3")
    room.put("grows.show", b"".join(shown[:10]))
    screen = terminal("p25-watch grows.show")
    screen.sees("8 whole", "p25-watch   grows.show")
    with open(room.path / "grows.show", "ab") as file:
        file.write(b"".join(shown[10:]))
    screen.sees("23 whole")


def test_replay_on_the_screen(room, terminal):
    later = room.octets("p25 show", room.build(hdu(), ldu1(), ldu2(), tdulc(), 48000, ldu1("0000800000640010ff"), tdulc()))
    screen = terminal(f"p25-watch --replay < {room.put('later.show', later)}")
    screen.sees("0:00:00.0    0.5 s 293", "4 whole")
    assert "EMERGENCY" not in screen.shown()


def test_silence_of_a_live_pipe(room, shown, terminal):
    """Checks that silence that the receiver leaves out passes in wall-clock time."""
    os.mkfifo(room.path / "live")
    screen = terminal("p25-watch --begin now < live")
    with open(room.path / "live", "wb", buffering=0) as pipe:
        pipe.write(b"".join(shown[:10]))
        screen.sees("group 100")
        time.sleep(6)
        # The receiver gives the beginning of the second call.
        pipe.write(b"".join(shown[10:13]))
        screen.sees("293 4098 to group 200")
        pipe.write(b"".join(shown[13:]))
        screen.sees("EMERGENCY")
        times = [sum(60**place * float(part) for place, part in zip((2, 1, 0), time.split(":"))) for time in re.findall(r"^(\d\d:\d\d:\d\d\.\d) .*group [12]00 ", screen.shown(), re.M)]
        assert 4.5 < times[-2] - times[-1] < 30


def test_speed(room, terminal):
    """Checks that 100,000 units take at most 30 s of CPU time, and that the screen is alive meanwhile."""
    room.put("many.show", lines_of_calls(2000, 24, is_clear=True))
    screen = terminal("cat many.show | p25-watch; times >took; echo done")
    counts = set()
    while "\ndone" not in screen.shown():
        counts |= set(re.findall(r"^UNITS  *([0-9,]*) whole", screen.shown(), re.M))
        time.sleep(0.1)
    assert len(counts - {"0", "100,000"}) >= 2
    screen.sees("units 100,000 whole, 0 broken, 0 lost; 2,000 calls, 21 emergencies;")
    took = re.findall(r"(\d+)m([0-9.]+)s", room.get("took").decode())[2:]
    assert sum(60 * int(minutes) + float(seconds) for minutes, seconds in took) <= 30
