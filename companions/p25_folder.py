"""The recordings of a folder, by the times of their names, as one recording with the pauses between them."""

import calendar
import datetime
import hashlib
import os
import re
import subprocess
import sys
import threading

from p25_guess import Search, chunks_of, followed_of, has_lines, split_program
from p25_lines import BITS_A_SECOND, item_of

NAME = re.compile(r"(?<![0-9])([0-9]{4})-?([0-9]{2})-?([0-9]{2})[T_ -]?([0-9]{2})[-:_]?([0-9]{2})(?:[-:_]?([0-9]{2}))?(?![0-9])(Z|[-+][0-9]{2}:?[0-9]{2})?")
# Files beside recordings.
OTHERS = (".times", ".csv", ".json", ".lock", ".html", ".new", ".txt.gz", ".wav", ".md")
# A file continues the file before if it begins at most this many seconds before or after its end.
NEAR = 2.0


def time_of(name):
    """Returns the time in a name as seconds since 1970, or None. It is in this machine's zone, unless Z or the hours from UTC are after it."""
    for found in NAME.finditer(name):
        *parts, zone = found.groups()
        try:
            time = datetime.datetime(*(int(part or 0) for part in parts))
        except ValueError:
            continue
        if zone is None:
            return time.timestamp()
        hours = "+00:00" if zone == "Z" else zone
        offset = datetime.datetime.strptime(hours.replace(":", ""), "%z").utcoffset()
        return calendar.timegm(time.timetuple()) - offset.total_seconds()
    return None


def print_of(script, name, paths):
    """Returns the name, the size and the SHA-256 of each file."""
    digest, size = hashlib.sha256(), 0
    for path in paths:
        with script.reads(path):
            for chunk in chunks_of(path):
                digest.update(chunk)
                size += len(chunk)
    return {"name": name, "size": f"{size:,}", "sha256": digest.hexdigest()}


class File:
    """A recording of a folder."""

    def __init__(self, path, begin):
        self.path, self.begin = path, begin
        self.guess = None
        times = os.path.splitext(path)[0] + ".times"
        if os.path.isfile(times):
            # p25-record notes when the first octet came.
            with open(times, encoding="ascii", errors="replace") as lines:
                found = re.match(r"[0-9]+ ([0-9.]+)\n", lines.readline())
            self.begin = float(found[1]) if found else begin


class Folder:
    """The recordings of a folder in the order of their times."""

    def __init__(self, script, path):
        self.script, self.path = script, path
        self.files = sorted(self.found(), key=lambda file: (file.begin, file.path))
        self.next = 0
        if not self.files:
            script.fail(1, f"'{path}' has no recording with a time in its name, as 2026-11-28T080000Z.bin or 20261128_080000.bin")
        self.begin = self.files[0].begin

    def say(self, text):
        sys.stderr.write(f"{self.script.name}: {text}\n")
        sys.stderr.flush()

    def found(self):
        """Yields the recordings. A file with no time in its name, or without bits of P25, is reported and left out."""
        guess = None
        for name in sorted(os.listdir(self.path)):
            path = os.path.join(self.path, name)
            if name.startswith(".") or name.endswith(OTHERS) or not os.path.isfile(path):
                continue
            begin = time_of(name)
            if begin is None:
                self.say(f"'{name}' has no time in its name, and is left out")
                continue
            file = File(path, begin)
            if not has_lines(path):
                guess = file.guess = self.guess(path, name, guess)
                if guess is None:
                    continue
            yield file

    def guess(self, path, name, last):
        """Returns the form of a file: that of the last file, if it fits, which is quicker."""
        if last is not None:
            again = last.again()
            again.look(chunks_of(path, 65536 * 16))
            if again.is_sure:
                return again
        search = Search(path)
        if search.is_sure:
            return search.best
        self.say(f"'{name}' {search.why}, and is left out")
        return None

    def print(self):
        """Returns the name, the size and the SHA-256 of all files."""
        count = len(self.files)
        name = os.path.basename(os.path.abspath(self.path))
        return print_of(self.script, f"{name} ({count} file{'s' if count > 1 else ''} by time)", [file.path for file in self.files])

    def octets(self):
        """Yields the octets of the next files that continue one another."""
        first = self.files[self.next]
        count = 0
        while self.next < len(self.files):
            file = self.files[self.next]
            end = first.begin + 8 * count / BITS_A_SECOND
            if file.guess is None or file is not first and abs(file.begin - end) > NEAR:
                return
            self.next += 1
            for octets in file.guess.octets(chunks_of(file.path)):
                count += len(octets)
                yield octets

    def lines(self):
        """Yields the lines of p25 show of the next files that continue one another."""
        file = self.files[self.next]
        if file.guess is None:
            self.next += 1
            with open(file.path, encoding="latin-1") as lines:
                yield from (line.rstrip("\n") for line in lines)
            return
        with subprocess.Popen([split_program(), "-"], stdin=subprocess.PIPE, stdout=subprocess.PIPE) as split:

            def feed():
                for octets in followed_of(self.octets()):
                    split.stdin.write(octets)
                split.stdin.close()

            feeder = threading.Thread(target=feed, daemon=True)
            feeder.start()
            for line in split.stdout:
                yield line.decode("latin-1").rstrip("\n")
            feeder.join()
        if split.returncode:
            self.script.fail(1, f"p25-split could not show '{file.path}'")

    def items(self):
        """Yields all items, with their positions from the beginning of the first file on."""
        end = 0
        while self.next < len(self.files):
            file = self.files[self.next]
            base = round(BITS_A_SECOND * (file.begin - self.begin))
            if base < end:
                self.say(f"'{os.path.basename(file.path)}' begins {(end - base) / BITS_A_SECOND:.1f} s before the end of the file before it, and is told later by so much")
                base = end
            for line in self.lines():
                item = item_of(line)
                if item is None:
                    self.script.fail(1, f"'{file.path}' has a line that is none of p25 show")
                item.at += base
                end = item.end
                yield item
