"""The form in which a file holds a recording, and the lines of p25 show of a file in any form."""

import itertools
import os
import re
import shlex
import struct
import subprocess
import sys
import threading

from p25_forms import TEXTS, Refused, Turns, converter, has_levels
from p25_lines import item_of
from p25_program import program

# The numbers of octets of p25 that are examined, more if fewer do not decide. The last is the most that p25 reads at once.
LOOKS = (65536, 1048576, 16777216)
MOST = LOOKS[-1]
# The number of octets of a file in an octet of p25.
WIDTHS = {"octets": 1, "dibits": 4, "unpacked": 8, "digits": 5, "bits": 9, "hex": 3, "floats": 16, "doubles": 32, "shorts": 8, "signed": 4, "numbers": 32}
TURNS = ("", "p", "s", "ps", "l", "pl", "sl", "psl")
PACKED = {b"\x1f\x8b\x08": "gzip", b"BZh": "bzip2", b"\xfd7zXZ\0": "xz", b"\x28\xb5\x2f\xfd": "zstd", b"PK\3\4": "zip", b"7z\xbc\xaf": "7z"}
SOUND = {b"fLaC": "FLAC", b"OggS": "Ogg", b"ID3": "MP3", b"\xff\xfb": "MP3", b".snd": "AU", b"FORM": "AIFF"}
# The types of samples that a file may have. In octets both halves, as I and Q, are steady; in wider samples one half is not.
SAMPLES = (
    ("=B", "octets without a sign"),
    ("<h", "16-bit samples, the lowest octet first"),
    (">h", "16-bit samples, the highest octet first"),
    (">f", "32-bit floats with the highest octet first"),
    ("<f", "32-bit floats, several for each symbol"),
)


class NoProgram(Exception):
    """p25 does not run."""

    def __init__(self):
        super().__init__("p25 does not run: it is looked for beside the helper scripts, and in the path")


def run(command, octets):
    """Returns the output of a command of p25 for octets."""
    try:
        ended = subprocess.run([program(), command], input=octets, capture_output=True)
    except OSError:
        raise NoProgram from None
    if ended.returncode in (70, 126, 127):
        raise NoProgram
    return ended.stdout


class Guess:
    """A form with its turns, and the items that p25 finds with it in the beginning of a file."""

    def __init__(self, form, turns="", after="", adapts=False, is_log=False):
        self.form, self.turns, self.after, self.adapts, self.is_log = form, turns, after, adapts, is_log
        self.units = self.broken = self.others = self.unread = self.sure = 0

    def again(self):
        """Returns the same guess, for another file."""
        return Guess(self.form, self.turns, self.after, self.adapts, self.is_log)

    def converter(self):
        return converter(self.form, Turns(*(letter in self.turns for letter in "psl")), self.adapts, self.is_log)

    def octets(self, chunks):
        """Yields the octets of p25 of the chunks of a file, in parts that p25 reads."""
        made, after = self.converter(), Turns(*(letter in self.after for letter in "psl")).octets()
        parts = itertools.chain(map(made.take, chunks), (made.end() for _ in (1,)))
        for part in in_parts(parts):
            part = run("soft", part) if has_levels(self.form) else part
            yield part.translate(after) if after else part

    def look(self, chunks):
        """Counts the items that p25 finds."""
        try:
            octets = b"".join(self.octets(chunks))[:MOST]
        except Refused:
            return
        for line in run("show", octets).decode().splitlines():
            item = item_of(line)
            self.units += item.kind == "unit"
            self.broken += item.kind == "broken"
            self.others += item.kind == "nounit" and item.names == "duid"
            self.unread += item.kind == "nounit"
            # A false unit has an NID at the correction radius.
            self.sure += item.kind == "unit" and 12 * item.fix <= item.looked

    @property
    def syncs(self):
        return self.units + self.broken + self.unread

    @property
    def is_sure(self):
        """Returns whether enough of the syncs begin units, and not only one that may be false."""
        found = self.units + self.broken + self.others
        return 4 * found >= self.syncs and (self.sure > 0 or found > 2)

    @property
    def is_clear(self):
        """Returns whether nearly all of the syncs begin whole units."""
        return self.sure > 2 and 10 * self.units >= 9 * self.syncs

    @property
    def words(self):
        """Returns the arguments of p25-octets."""
        options = "".join(f" -{letter}" for letter in self.turns) + (" -w" if self.is_log else "")
        return f"{options} {self.form}{' -a' if self.adapts else ''}"

    def commands(self, name):
        """Returns the commands that make octets of p25 from a file, or None if it has them."""
        if self.form == "octets" and not self.turns:
            return None
        after = f" | p25-octets -{self.after} octets" if self.after else ""
        return f"p25-octets{self.words} < {name}{after}{' | p25 soft' if has_levels(self.form) else ''}"

    def line(self, name):
        commands = self.commands(name)
        command = f"{commands} | p25 show" if commands else f"p25 show < {name}"
        return f"{self.units:7d} units {self.broken:6d} broken {self.others:6d} others  {command}"


def in_parts(chunks):
    """Yields octets in parts that p25 reads."""
    kept = b""
    for chunk in chunks:
        kept += chunk
        while len(kept) >= MOST:
            yield kept[:MOST]
            kept = kept[MOST:]
    if kept:
        yield kept


def chunks_of(path, most=None, size=1 << 20):
    """Yields the octets of a file, or its first ones."""
    with open(path, "rb") as file:
        while chunk := file.read(size if most is None else min(size, most)):
            most = None if most is None else most - len(chunk)
            yield chunk


def is_text(octets):
    return not re.search(rb"[^\t\n\r\f\v -~]", octets)


def forms_of(begin):
    """Yields the forms of a file with this beginning, whether scale and offset are sought, and whether it is a log."""
    if is_text(begin):
        for form, (_, signs, _) in TEXTS.items():
            if not re.search(b"[^%s%s]" % (signs, rb"\s"), begin) and (form != "hex" or re.search(b"[4-9A-Fa-f]", begin)):
                yield form, False, False
            elif re.search(b"[^%s%s]" % (TEXTS["hex"][1], rb"\s"), begin) and re.search(b"(?<![0-9A-Za-z.])[%s]{16,}(?![0-9A-Za-z.])" % signs, begin):
                yield form, False, True
        if re.match(rb"[\s,;]*[-+]?[0-9.]+(e[-+0-9]+)?[\s,;]", begin) and not re.search(rb"[^-+0-9.eE,;\s]", begin):
            yield "numbers", False, False
            yield "numbers", True, False
        return
    values = set(begin)
    yield "octets", False, False
    if values <= {0, 1}:
        yield "unpacked", False, False
    else:
        yield "dibits", False, False
    if values <= {0xFD, 0xFF, 0, 1, 3}:
        yield "signed", False, False
    floats = struct.unpack(f"<{min(len(begin) // 4, 2048)}f", begin[: min(len(begin) // 4, 2048) * 4])
    doubles = struct.unpack(f"<{min(len(begin) // 8, 2048)}d", begin[: min(len(begin) // 8, 2048) * 8])
    yield "floats", False, False
    for form, numbers in (("floats", floats), ("doubles", doubles)):
        if len(numbers) >= 24 and sum(it == 0 or 1e-6 < abs(it) < 1e7 for it in numbers) >= len(numbers) - 2:
            if form == "doubles":
                yield form, False, False
            yield form, True, False
    yield "shorts", True, False
    yield "signed", True, False


def guesses_of(begin):
    """Yields all guesses for a file with this beginning."""
    for form, adapts, is_log in forms_of(begin):
        for turns in ("", "p") if adapts else TURNS:
            yield Guess(form, turns, "", adapts, is_log)
        # The second bit of each dibit may be inverted.
        if not has_levels(form):
            yield Guess(form, "p", "s", adapts, is_log)
            yield Guess(form, "pl", "s", adapts, is_log)


def steadiness(samples):
    """Returns how near each sample is to the one before, in parts of its distance from the mean; None if all are the same."""
    mean = sum(samples) / len(samples)
    size = sum(abs(it - mean) for it in samples)
    return sum(abs(after - before) for before, after in zip(samples, samples[1:])) / size if size else None


def text_kind(begin):
    """Returns the type of a text."""
    if re.match(rb"[0-9a-f]{7,8}:? ", begin):
        return "is a dump with addresses: xxd -r makes its octets of it, if xxd wrote it"
    if re.match(rb"(unit|gap|broken|nounit|cut|call) at=[0-9]", begin):
        return "has lines of p25, which p25-talkers, p25-watch and p25-page read as they are"
    wrong = re.search(rb"[^0-3\s]", begin)
    return f"is a text, but not of digits alone: octet {wrong.start()} is '{wrong[0].decode()}'" if wrong else "is a text of digits"


def kind_of(begin):
    """Returns the type of a file by its first octets, or None."""
    for table, text in ((PACKED, "is packed with {}: unpack it first"), (SOUND, "is sound, in a file of {}: no bits are read from it")):
        for magic, name in table.items():
            if begin.startswith(magic):
                return text.format(name)
    if re.match(b"(?s)(RIFF|RF64)....WAVE", begin):
        found = re.search(b"(?s)fmt ....(..)(..)(....)......(..)", begin)
        _, channels, rate, bits = struct.unpack("<HHIH", b"".join(found.groups())) if found else (0, 0, 0, 0)
        form = f" of {bits}-bit samples{' of two channels, so perhaps IQ' if channels == 2 else ''}, {rate} a second" if found else ""
        return f"is a WAV file{form}: sound or a discriminator, of which no symbols are read"
    return None


def likely_kind(begin):
    """Returns what the octets of a file look like, or None."""
    if is_text(begin):
        return text_kind(begin)
    for letter, name in SAMPLES:
        width = struct.calcsize(letter)
        count = len(begin) // width
        samples = struct.unpack(f"{letter[:-1]}{count}{letter[-1]}", begin[: count * width])
        if count < 1000 or not all(abs(it) < 1e6 and (it == 0 or abs(it) > 1e-6) for it in samples[:1000]):
            continue
        if letter == ">f":
            return f"looks like {name}: they are read by: perl -0777 -ne 'print(pack(\"V*\", unpack(\"N*\", $_)))' FILE | p25-octets floats -a"
        # A sample of a signal is near to the one before, or before that, as I and Q are.
        halves = [it for it in (steadiness(samples[::2]), steadiness(samples[1::2])) if it is not None]
        if halves and (max(halves) if width == 1 else min(halves[0], steadiness(samples))) < 0.7:
            return f"looks like {name}: sound, IQ or a discriminator, of which no symbols are read"
    return None


def uniform(path):
    """Returns the one octet of the first part of a file, and how many; or None."""
    count, first = 0, None
    for chunk in chunks_of(path, 4 * MOST):
        first = chunk[:1] if first is None else first
        if chunk.strip(first):
            return None
        count += len(chunk)
    return (first[0], count) if count else None


class Search:
    """Returns the guesses for a file, the best first, and why none is sure. The first clear guess ends the search, unless `all` is
    set."""

    def __init__(self, path, say=lambda text: None, all=False):
        self.path, self.say, self.all = path, say, all
        self.size = os.path.getsize(path)
        self.begin = b"".join(chunks_of(path, 65536))
        self.kind = kind_of(self.begin)
        self.guesses, self.looked = [], 0
        self.why = self.is_none()
        if self.why is None:
            for looked in LOOKS:
                self.try_all(looked)
                if self.is_sure or self.kind or self.size <= looked * min(WIDTHS[it.form] for it in self.guesses):
                    break
                if looked < MOST:
                    self.say(f"the beginning of '{path}', {looked} octets of p25, settles nothing: more of it is looked at")
            if not self.is_sure:
                self.why = self.kind or likely_kind(self.begin) or "holds no bits of P25 Phase 1 in any form that is known"

    def is_none(self):
        """Returns why nothing is tried, or None."""
        if self.size == 0:
            return "is empty"
        if is_text(self.begin) and not list(forms_of(self.begin)):
            return text_kind(self.begin)
        found = uniform(self.path)
        return f"has the octet {found[0]:02x} alone, in its first {found[1]} octets" if found and self.size > 64 else None

    def try_all(self, most):
        """Tries all guesses over this many octets of p25."""
        self.looked, self.guesses = most, list(guesses_of(self.begin))
        for guess in self.guesses:
            guess.look(chunks_of(self.path, most * WIDTHS[guess.form]))
            if guess.is_clear and not self.all:
                break
        self.guesses.sort(key=lambda it: (-it.units, -it.broken, -it.others))

    @property
    def best(self):
        return self.guesses[0] if self.guesses else None

    @property
    def is_sure(self):
        return self.best is not None and self.best.is_sure and not (self.kind and self.best.sure < 3)

    @property
    def is_beginning(self):
        """Returns whether only a part of the file was examined."""
        return self.best is not None and self.size > self.looked * WIDTHS[self.best.form]


def has_lines(path):
    """Returns whether a file has lines of p25 show or p25 calls."""
    begin = b"".join(chunks_of(path, 4096))
    return bool(re.match(rb"(unit|gap|broken|nounit|cut|call) at=[0-9]+ |nounit at=|calls=[0-9]|check units=", begin))


def may_be_recording(path):
    """Returns whether a file has no lines of p25, and may be a recording."""
    begin = b"".join(chunks_of(path, 65536))
    return len(begin) >= 16 and not has_lines(path) and (not is_text(begin) or any(forms_of(begin)))


def guessed(script, path, otherwise=None):
    """Returns the best guess for a file, and prints it to standard error. If none is sure, it returns `otherwise`, or the script
    ends."""
    if os.path.exists(path) and not os.path.isfile(path):
        script.fail(3, f"'{path}' cannot be read: it is no file")
    try:
        with script.reads(path):
            search = Search(path, lambda text: sys.stderr.write(f"{script.name}: {text}\n"))
    except NoProgram as fault:
        script.fail(1, str(fault))
    if not search.is_sure:
        if otherwise is None:
            script.fail(1, f"'{path}' {search.why}")
        sys.stderr.write(f"{script.name}: '{path}' {search.why}\n")
        return otherwise
    name = shlex.quote(path)
    commands = search.best.commands(name) or f"cat {name}"
    sys.stderr.write(f"{script.name}: '{path}' is taken for the form{search.best.words}: {commands} | p25 follow | p25-split -\n")
    sys.stderr.flush()
    return search.best


def followed_of(chunks):
    """Yields octets with the syncs that p25 follow finds."""
    for part in in_parts(chunks):
        yield run("follow", part)


def split_program():
    """Returns the path of p25-split."""
    here = os.path.join(os.path.dirname(os.path.realpath(sys.argv[0])), "p25-split")
    return here if os.path.exists(here) else "p25-split"


def stream(script, path, guess):
    """Returns a pipe with the lines of p25 show of a file."""
    split = subprocess.Popen([split_program(), "-"], stdin=subprocess.PIPE, stdout=subprocess.PIPE)

    def feed():
        try:
            for octets in followed_of(guess.octets(chunks_of(path))):
                split.stdin.write(octets)
            split.stdin.close()
        except Refused as refused:
            script.fail(1, f"'{path}' has another form further on: {refused}")
        except OSError:
            pass    # p25-split has ended, and said why

    threading.Thread(target=feed, daemon=True).start()
    return os.dup(split.stdout.fileno())


def take_file(script, path):
    """Replaces standard input by the lines of p25 show of a file. The file has lines, or a recording in any form."""
    if os.path.isfile(path) and has_lines(path):
        source = os.open(path, os.O_RDONLY)
    else:
        source = stream(script, path, guessed(script, path))
    os.dup2(source, 0)
    os.close(source)
    if sys.stdin is None:
        sys.stdin = os.fdopen(0, closefd=False)
