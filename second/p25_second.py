#!/usr/bin/env python3
"""A second implementation of the commands of `p25`, written from the documents without the crates (see README.md beside it).

usage: second/p25_second.py COMMAND..    as `p25`, except `sample`
"""
import re
import sys

import levels
import recordings
import stations

COMMANDS = 'show|check|repair|follow|calls|soft|(bridge|relay) [0-9a-f]{3} [0-3]|build [0-3]|' + '|'.join(stations.PLAYS)


def run(words, data):
    """Returns the output of a command for an input, its exit status, and its line on standard error."""
    name, *rest = words or ['']
    if not re.fullmatch(COMMANDS, ' '.join(words)):
        return b'', 1, 'usage\n'
    if name in stations.PLAYS:
        return stations.run(data, name)
    if name == 'build':
        return recordings.build(data, int(rest[0]))
    if name == 'soft':
        return levels.soft(data)
    bits = recordings.bits_of(int.from_bytes(data, 'big'), 8 * len(data))
    return getattr(recordings, name)(bits, *(int(word, 16) for word in rest))


def main():
    written, status, line = run(sys.argv[1:], sys.stdin.buffer.read())
    sys.stdout.buffer.write(written)
    sys.stdout.buffer.flush()
    sys.stderr.write(line)
    return status


if __name__ == '__main__':
    sys.exit(main())
