"""The parts that helper scripts share: options, input and output, names, the time, lines, tables, exit statuses."""

import argparse
import bisect
import contextlib
import csv
import datetime
import json
import os
import re
import select
import signal
import sys
import time
import zoneinfo

from p25_lines import ALGORITHMS, BITS_A_SECOND, Chosen, Told, rate_of, seconds, thousandths

STATUSES = """\
Exit status: 0 all was read and written; 1 the input is not of the form that is
wanted; 2 a word of the command is refused; 3 the input, or a file that an
option names, cannot be read; 4 the output cannot be written; 130 and 143 an
interrupt and a wish to end. A line on standard error says why it is not 0.
"""
# The help text of each script with these options.
TABLES = """\
-c prints CSV with a first line of names, and -j a JSON object for each line.
What is not known is empty, or null. The access code of a call is a text, and
there twice: "network" (NAC 293) stays one where a program takes 293 or 2e1 for
a number.
"""
TIMES = """\
TIME is that of the first bit, as 2026-11-28T08:00:00Z, with its zone or the
name of one ('2026-11-28T09:00:00 Europe/Berlin'), or now, for a live pipe: the
time at which the first bit comes, and silence that the receiver leaves out
counts too.
"""
NAMES = """\
NAMES is a CSV file with rows as group,100,Fire dispatch or radio,4097,Engine 3
or nac,293,County; a fourth cell is the NAC of the one network in which the name
holds, as NAC=FILE in place of FILE says it for all. A list of talk groups with
the titles Decimal and Alpha Tag is read as it is.
"""
CHOICE = """\
--group, --radio (it speaks, or is called) and --emergency choose calls; a name
of NAMES serves as a number does.
"""
# A pipe was silent if nothing came in it for this many seconds.
SILENCE = 1.0
# A script reads an input without pauses for this many seconds after the signal: octets of a receiver, or lines of a program that got the signal too.
LAST_OCTETS, LAST_LINES = 2.0, 5.0


def one_line(text):
    """Returns a text without signs that would end or change a line."""
    return "".join(sign if sign.isprintable() else " " for sign in text)


class Clock:
    """The time of each bit, with the silence that a live pipe left out. `begin` is None if no time is known."""

    def __init__(self, word=None):
        self.begin = self.zone = None
        self.is_live = word == "now"
        # Bits, and the silence so far at each of them, in seconds.
        self.places, self.silences = [0], [0.0]
        self.started = None
        self.base = self.last = 0
        if word is None or self.is_live:
            return
        # Python before 3.11 does not read a Z.
        text, _, zone = re.sub("[zZ]$", "+00:00", word).replace("[", " ").rstrip("]").partition(" ")
        if re.match("[0-9]{2}:", zone):
            # A blank is allowed in place of the T.
            hours, _, zone = zone.partition(" ")
            text = f"{text}T{hours}"
        if not re.match("[0-9]{4}-[0-9]{2}-[0-9]{2}T[0-9]{2}:[0-9]{2}", text):
            raise ValueError(word)
        self.begin = datetime.datetime.fromisoformat(text)
        if zone:
            self.begin = self.local(self.begin, zone)
        if self.begin.tzinfo is None:
            raise ValueError(word)

    def local(self, begin, zone):
        """Returns a time in the zone of this name, or, for local, in that of this machine."""
        if begin.tzinfo is not None:
            raise ValueError(zone)
        if zone == "local":
            return begin.astimezone()
        try:
            self.zone = zoneinfo.ZoneInfo(zone)
        except (OSError, zoneinfo.ZoneInfoNotFoundError):
            raise ValueError(zone) from None
        begin = begin.replace(tzinfo=self.zone)
        # A time that the change to summer time leaves out does not convert back to itself.
        again = begin.astimezone(datetime.timezone.utc).astimezone(self.zone)
        if again.replace(tzinfo=None) != begin.replace(tzinfo=None):
            raise ValueError(zone)
        return begin

    def arrive(self, at, end):
        """Notes that the bits from `at` to `end` of a segment came just now."""
        if not self.is_live:
            return
        if at < self.last:
            self.base += self.last
        self.last = end
        now = time.monotonic()
        at, end = self.base + at, (self.base + end) / BITS_A_SECOND
        if self.started is None:
            self.started = now - end
            self.begin = datetime.datetime.now().astimezone() - datetime.timedelta(seconds=end)
        late = now - self.started - end - self.silences[-1]
        if late > SILENCE:
            self.places.append(at)
            self.silences.append(self.silences[-1] + late)

    def silence(self, bits):
        """Returns the seconds of silence before a bit."""
        return self.silences[bisect.bisect_right(self.places, bits) - 1]

    def wall(self, bits):
        """Returns the position of a bit in a recording in which nothing was left out."""
        return bits + round(BITS_A_SECOND * self.silence(bits))

    def shown(self, bits):
        """Returns the time of a bit of a recording in which nothing was left out."""
        after = datetime.timedelta(milliseconds=thousandths(bits))
        if self.zone is None:
            return self.begin + after
        return (self.begin.astimezone(datetime.timezone.utc) + after).astimezone(self.zone)

    def zone_text(self):
        """Returns the zone of the times, as UTC or UTC+01:00."""
        begin = self.begin or datetime.datetime.now().astimezone()
        return "UTC" if not begin.utcoffset() else begin.strftime("UTC%z")[:6] + ":" + begin.strftime("%z")[3:5]

    def at(self, bits):
        """Returns the time of a bit, to the nearest ms, as ISO 8601 with its zone, or None."""
        if self.begin is None:
            return None
        return self.shown(self.wall(bits)).isoformat(timespec="milliseconds").replace("+00:00", "Z")


# The columns of lists of talk groups or radios of scanner programs, for the number and for its name, the best first.
NUMBERS = ("decimal", "dec", "tgid", "talkgroup id", "talkgroup", "radio id", "rid", "unit id")
TITLES = ("alpha tag", "alphatag", "alias", "name of group", "name", "description")


class Names:
    """Names of groups, radios and networks, for all networks or for one. The help of -a has the files."""

    def __init__(self):
        self.tables = {"group": {}, "radio": {}}
        self.nac = {}

    def read(self, path, nac=None):
        """Reads a file, of one network if it is named."""
        try:
            with open(path, encoding="utf-8-sig", newline="") as file:
                rows = [[cell.strip() for cell in row] for row in csv.reader(file)]
        except UnicodeDecodeError:
            raise ValueError(f"it is not in UTF-8, as which iconv -f LATIN1 -t UTF-8 '{path}' writes it") from None
        rows = [row for row in rows if any(row) and not row[0].startswith("#")]
        titles = [cell.lower() for cell in rows[0]] if rows else []
        number = next((titles.index(title) for title in NUMBERS if title in titles), None)
        name = next((titles.index(title) for title in TITLES if title in titles), None)
        if number is None or name is None or titles[0] in ("kind", "type", "group", "radio", "nac"):
            for row in rows:
                self.add(row, nac)
            return
        kind = "radio" if titles[number] in NUMBERS[-3:] else "group"
        for row in rows[1:]:
            if len(row) > max(number, name) and row[name]:
                self.add([kind, row[number], row[name]], nac)

    def add(self, row, nac):
        """Adds a row."""
        kind, *rest = row
        kind = kind.lower()
        if len(row) >= 3 and kind in self.tables and re.fullmatch("[0-9]{1,8}", row[1]):
            code = row[3].lstrip("$").lower() if len(row) > 3 and row[3] else nac
            if code is None or re.fullmatch("[0-9a-f]{3}", code):
                self.tables[kind][code, int(row[1])] = one_line(row[2])
                return
        elif len(row) >= 3 and kind == "nac" and re.fullmatch("[$]?[0-9A-Fa-f]{3}", row[1]):
            self.nac[row[1].lstrip("$").lower()] = one_line(row[2])
            return
        elif len(row) >= 3 and kind in ("kind", "type"):
            return
        raise ValueError(f"its row '{','.join(row)}' is none as group,100,Fire dispatch or radio,4097,Engine 3")

    def of(self, kind, nac, number):
        """Returns the name of a group or radio in a network, or None."""
        table = self.tables[kind]
        return table.get((nac, number)) or table.get((None, number))

    def scope(self, kind, nac, number):
        """Returns the network of the name of a group or radio, or None if the name is for all."""
        return nac if (nac, number) in self.tables[kind] else None

    def number(self, kind, word):
        """Returns the number of a word: a decimal number, or a name in a file."""
        if re.fullmatch("[0-9]{1,8}", word):
            return int(word)
        for (_, number), name in self.tables[kind].items():
            if name.lower() == word.lower():
                return number
        raise ValueError(word)

    def who(self, talk, nac):
        """Returns talker and called: numbers with their names."""

        def named(kind, number):
            name = self.of(kind, nac, number)
            return f"{kind} {number}" + (f" ({name})" if name else "")

        if talk.radio is not None:
            text = f"{named('radio', talk.radio)} to {named(*talk.to)}"
        elif talk.group is not None:
            text = f"radio not known to {named('group', talk.group)}"
        else:
            text = "talkers not known" if talk.format is None else talk.format_name()
        return text + (f", manufacturer {talk.maker}" if talk.maker else "") + (", emergency" if talk.emergency else "")


def cipher_text(cipher, unknown="not known"):
    """Returns an algorithm and its key in words."""
    alg, key = cipher
    return unknown if alg is None else ALGORITHMS.get(alg, f"algorithm {alg}") + (f", key {key}" if key and alg != "80" else "")


# The columns of p25-talkers, those of release 1.0 first.
TALKERS = (
    "begin seconds nac entry end format manufacturer radio group called emergency algorithm sent heard lost broken"
    " time network sent_is looked wrong rate goes_on radio_name group_name called_name votes others key talker_is also"
).split()
# The columns of p25-calls, the keys of the line of a call first.
CALLS = (
    "at bits nac entry end links broken lc alg begin seconds time network format manufacturer radio group called emergency"
    " algorithm sent sent_is lost looked wrong rate goes_on key talker_is also"
).split()


def values_of(call, clock, names):
    """Returns the values of a call by the names of their columns; None for an unknown value."""
    who = Told(call)
    talk = who.talk
    sent, is_exact = call.sent()
    alg, key = call.cipher
    return {
        "at": call.at,
        "bits": call.bits,
        "begin": Number(seconds(call.at)),
        "seconds": Number(seconds(call.bits)),
        "time": clock.at(call.begin),
        "nac": call.nac,
        "network": f"NAC {call.nac}",
        "entry": call.entry,
        "end": call.end,
        "links": call.links,
        "lc": call.lc,
        "alg": call.alg,
        "format": talk.format,
        "manufacturer": talk.maker,
        "radio": talk.radio,
        "group": talk.group,
        "called": talk.called,
        "emergency": who.emergency,
        "algorithm": ALGORITHMS.get(alg, alg) if alg else None,
        "key": key if alg != "80" else None,
        "sent": sent,
        "sent_is": "exact" if is_exact else "least",
        "heard": call.links,
        "lost": sent - call.links,
        "broken": call.broken,
        "looked": call.looked,
        "wrong": call.wrong,
        "rate": rate_of(call.wrong, call.looked),
        "goes_on": Number(seconds(call.goes_on.at)) if call.goes_on else None,
        "radio_name": names.of("radio", call.nac, talk.radio),
        "group_name": names.of("group", call.nac, talk.group),
        "called_name": names.of("radio", call.nac, talk.called),
        "votes": None if call.votes is None else who.by,
        "others": None if call.votes is None else who.total - who.by,
        "talker_is": None if call.votes is None else who.certainty,
        "also": "; ".join(names.who(other, call.nac) for other in who.talks[1:]) or None,
    }


class Number:
    """A number that is printed with the digits of a text."""

    __slots__ = ("text",)

    def __init__(self, text):
        self.text = text


def json_line(values):
    """Returns names and values as one JSON object."""
    texts = (value.text if isinstance(value, Number) else json.dumps(value, ensure_ascii=False) for value in values.values())
    return "{" + ",".join(f"{json.dumps(name)}:{text}" for name, text in zip(values, texts)) + "}"


def csv_cell(value):
    """Returns a value as a cell of CSV."""
    if value is None:
        return ""
    if isinstance(value, Number):
        return value.text
    if isinstance(value, bool):
        return str(int(value))
    if isinstance(value, float):
        return f"{value:.4f}"
    text = str(value)
    if isinstance(value, str):
        # A spreadsheet takes a text with such a beginning for a formula.
        if text[:1] in ("=", "+", "-", "@", "\t"):
            text = "'" + text
        if any(sign in text for sign in ',"\n\r'):
            text = '"' + text.replace('"', '""') + '"'
    return text


def csv_line(values):
    """Returns values as a line of CSV."""
    return ",".join(csv_cell(value) for value in values)


def beside(*names):
    """Returns the path of a file of the checkout or of an installation."""
    for folder in (".", "..", "../share/p25"):
        path = os.path.join(sys.path[0], folder, *names)
        if os.path.exists(path):
            return path
    return None


def release():
    """Returns the release."""
    path = beside("RELEASE")
    if path is None:
        return "p25, of a release that is not known"
    with open(path, encoding="ascii") as file:
        return file.read().strip()


class Script(argparse.ArgumentParser):
    """A helper script. The first lines of its help, up to an empty one, name its options."""

    def __init__(self, name, text):
        super().__init__(prog=name, add_help=False, allow_abbrev=False)
        self.name, self.text, self.shared = name, text, ""
        self.caught = 0    # the signal that ends the script
        self.asked = 0.0    # the time of this signal
        self.number = 0    # the last line that was read
        if sys.stdout is None:
            self.fail(4, "the output cannot be written: it is closed")
        sys.stdout.reconfigure(encoding="utf-8", errors="backslashreplace", newline="\n")
        # A reader that ends early, as head, ends a script without a message.
        signal.signal(signal.SIGPIPE, signal.SIG_DFL)
        self.add_argument("-h", "--help", action="store_true")
        self.add_argument("--version", action="store_true")

    # -- Options.

    def has_tables(self):
        """Adds -c and -j."""
        self.shared += TABLES
        forms = self.add_mutually_exclusive_group()
        forms.add_argument("-c", dest="form", action="store_const", const="csv")
        forms.add_argument("-j", dest="form", action="store_const", const="json")

    def has_clock(self):
        """Adds --begin."""
        self.shared += TIMES
        self.add_argument("--begin")

    def has_names(self):
        """Adds -a."""
        self.shared += NAMES
        self.add_argument("-a", dest="names", action="append", default=[])

    def has_calls(self):
        """Adds the options that name groups and radios, and choose calls."""
        self.has_names()
        self.has_clock()
        self.shared += CHOICE
        self.add_argument("--group")
        self.add_argument("--radio")
        self.add_argument("--emergency", action="store_true")

    def error(self, message):
        """Refuses the arguments of the command."""
        self.fail(2, f"{message}: {self.name} -h tells more")

    def options(self, files=0):
        """Returns the options; at most `files` arguments have no dash."""
        words = sys.argv[1:]
        place = words.index("--") if "--" in words else len(words)
        words, after = words[:place], words[place + 1 :]
        for word in words:
            if word in ("-h", "--help"):
                text, example, rest = self.text.partition("Example: ")
                self.write(f"{text}{self.shared and self.shared + chr(10)}{STATUSES}\n{example}{rest}")
                self.end()
            if word == "--version":
                self.write(f"{self.name}, {release()}\n")
                self.end()
        self.add_argument("files", nargs="*")
        options = self.parse_intermixed_args(words)
        options.files += after
        if files == 0 and options.files:
            self.fail(2, f"'{options.files[0]}' is no option: the lines come on standard input, as in p25 show < FILE | {self.name}")
        if len(options.files) > files:
            self.error(f"'{options.files[files]}' is a word too many")
        return options

    def clock(self, options):
        """Returns the clock of --begin."""
        try:
            return Clock(options.begin)
        except ValueError:
            zones = "2026-11-28T08:00:00Z, 2026-11-28T09:00:00+01:00, '2026-11-28T09:00:00 Europe/Berlin' or now"
            self.fail(2, f"'{options.begin}' is no time with its zone, as {zones}")

    def names(self, options):
        """Returns the names in the files of -a."""
        names = Names()
        for word in options.names:
            nac, path = re.fullmatch("(?:[$]?([0-9A-Fa-f]{3})=)?(.*)", word, re.DOTALL).groups()
            try:
                with self.reads(path):
                    names.read(path, nac.lower() if nac else None)
            except (ValueError, csv.Error) as fault:
                self.fail(1, f"'{path}' is no file of names: {fault}")
        return names

    def chosen(self, options, names):
        """Returns the choice of calls by the options."""
        numbers = {"group": options.group, "radio": options.radio}
        for kind, word in numbers.items():
            if word is not None:
                try:
                    numbers[kind] = names.number(kind, word)
                except ValueError:
                    self.fail(2, f"'{word}' is no number of a {kind}, and no name of one that -a tells")
        return Chosen(numbers["group"], numbers["radio"], options.emergency)

    # -- Input and output.

    def fail(self, status, why):
        """Prints why the script cannot continue, and ends."""
        try:
            if sys.stdout is not None:
                sys.stdout.flush()
        except OSError:
            pass
        sys.stderr.write(f"{self.name}: {why}\n")
        sys.stderr.flush()
        os._exit(status)

    def refuse(self, of):
        """Ends at a line of another kind."""
        self.fail(1, f"line {self.number} is none of {of}")

    def write(self, text):
        """Writes a text."""
        try:
            sys.stdout.write(text)
        except OSError as fault:
            self.fail(4, f"the output cannot be written: {fault.strerror}")

    def out(self, line):
        """Prints a line, at the latest when all input so far was read."""
        self.write(line + "\n")

    def flush(self, octets=b""):
        """Writes the printed lines, and octets."""
        try:
            sys.stdout.flush()
            sys.stdout.buffer.write(octets)
            sys.stdout.buffer.flush()
        except OSError as fault:
            self.fail(4, f"the output cannot be written: {fault.strerror}")

    def row(self, form, names, values):
        """Prints values as CSV or as JSON."""
        self.out(csv_line(values) if form == "csv" else json_line(dict(zip(names, values))))

    def wants_input(self):
        """Ends if standard input is closed."""
        if sys.stdin is None:
            self.fail(3, "the input cannot be read: it is closed")

    @contextlib.contextmanager
    def reads(self, path):
        """Ends if a file cannot be read."""
        try:
            yield
        except OSError as fault:
            self.fail(3, f"'{path}' cannot be read: {fault.strerror}")

    def catch(self):
        """Lets an interrupt and SIGTERM set `caught`, and returns a descriptor that can be read from then on."""
        wake, waked = os.pipe()
        os.set_blocking(waked, False)

        def note(number, _frame):
            if not self.caught:
                self.asked = time.monotonic()
            self.caught = number
            try:
                os.write(waked, b"x")
            except OSError:
                pass

        for number in (signal.SIGINT, signal.SIGTERM):
            if signal.getsignal(number) != signal.SIG_IGN:
                signal.signal(number, note)
        return wake

    def is_over(self, source, silence, last):
        """Returns whether a signal came, and after it no input for some seconds, or input until the last second."""
        if not self.caught:
            return False
        return time.monotonic() > self.asked + last or not select.select([source], [], [], silence)[0]

    def read(self, source, count):
        """Reads octets."""
        try:
            return os.read(source, count)
        except OSError as fault:
            self.fail(3, f"the input cannot be read: {fault.strerror}")

    def octets(self, count=262144):
        """Yields the octets of standard input as they come."""
        self.wants_input()
        while chunk := self.read(0, count):
            yield chunk

    def lines(self, arrived=lambda lines: None):
        """Yields the lines of standard input as they come; `arrived` gets those that came together.

        An interrupt or SIGTERM ends them after half a second without a line, and after five seconds in any case.
        """
        self.wants_input()
        wake = self.catch()
        kept = []
        while True:
            if not self.caught:
                ready = select.select([0, wake], [], [])[0]
                if wake in ready:
                    continue
            elif self.is_over(0, 0.5, LAST_LINES):
                break
            chunk = self.read(0, 262144)
            if not chunk:
                break
            kept.append(chunk)
            if b"\n" not in chunk:
                continue
            *lines, rest = b"".join(kept).decode("latin-1").split("\n")
            kept = [rest.encode("latin-1")] if rest else []
            arrived(lines)
            for line in lines:
                self.number += 1
                yield line
            self.flush()
        # A last line without its end counts, unless an interrupt may have cut it.
        if kept and not self.caught:
            line = b"".join(kept).decode("latin-1")
            arrived([line])
            self.number += 1
            yield line

    def end(self):
        """Writes all output, and ends."""
        self.flush()
        os._exit(128 + self.caught if self.caught else 0)


def arrivals(clock, parse):
    """Returns the function that `Script.lines` calls with lines that came together, for the clock. `parse` reads a line."""

    def arrived(lines):
        spans = [(it.at, it.at + it.bits) for it in map(parse, (lines[0], lines[-1])) if it is not None]
        if spans:
            clock.arrive(spans[0][0], spans[-1][1])

    return arrived if clock.is_live else lambda lines: None


def program():
    """Returns the path of p25."""
    here = os.path.dirname(os.path.realpath(sys.argv[0]))
    for path in (os.path.join(sys.path[0], "p25"), os.path.join(here, "..", "p25"), os.path.join(here, "p25")):
        if os.access(path, os.X_OK) and os.path.isfile(path):
            return path
    return "p25"
