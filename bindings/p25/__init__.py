"""Project 25 radio traffic (Phase 1, TIA-102.BAAA) in Python: recordings item by item, units built, repaired and bridged, and words.

    for item in p25.items(open("call.bin", "rb").read()):
        print(item.place, item.kind, item.value("nac"), item.text)

    python3 -m p25 FILE        prints the lines of `p25 show < FILE`; without FILE, those of standard input

The shared library libp25.so does the work, and each of its calls is proved to meet its contract; this package, which calls it by ctypes, is
not proved. A recording is octets, each octet's most significant bit first; its positions (`place`) count bits from the first one.

An argument of octets is bytes, a bytearray, a memoryview, an array of octets (as of mmap or numpy, dtype uint8), or a list of numbers below
256. A number, a text, a set, a mapping, an array of bool or of wider items, and a list with a bool raise TypeError. A call that has no value
to return raises `Error`, a ValueError, whose `cause` states why.

Threads: a call takes about a millionth of a second and keeps the interpreter's lock, so threads make nothing quicker; processes do.
"""

from ._calls import TEXT_ROOM, UNIT_ROOM
from ._library import Cause, Error, version
from ._recording import (
    FAULTS,
    KINDS,
    Duid,
    Item,
    Kind,
    Stream,
    bridge,
    bridge_unit,
    build,
    items,
    main,
    repair,
    repair_unit,
)
from ._signals import Follower, Softener, follow, hard_dibits, hard_octets, relay, soft, soften
from ._values import (
    Call,
    CallEnd,
    Caller,
    Fields,
    LinkControl,
    LinkKind,
    Packet,
    build_fields,
    build_packet,
    calls,
    calls_with_units,
    read_link,
)
from ._words import (
    GOLAY_18,
    GOLAY_24,
    HALF_RATE,
    HAMMING_10,
    LSD_16,
    RS_24_12,
    RS_24_16,
    RS_36_20,
    THREE_QUARTER_RATE,
    BlockCode,
    NumberCode,
    SymbolCode,
    crc9,
    crc16,
    crc32,
    read_nid,
    write_nid,
)

__version__ = "{}.{}.{}".format(*version())
__all__ = [
    "FAULTS",
    "GOLAY_18",
    "GOLAY_24",
    "HALF_RATE",
    "HAMMING_10",
    "KINDS",
    "LSD_16",
    "RS_24_12",
    "RS_24_16",
    "RS_36_20",
    "TEXT_ROOM",
    "THREE_QUARTER_RATE",
    "UNIT_ROOM",
    "BlockCode",
    "Call",
    "CallEnd",
    "Caller",
    "Cause",
    "Duid",
    "Error",
    "Fields",
    "Follower",
    "Item",
    "Kind",
    "LinkControl",
    "LinkKind",
    "NumberCode",
    "Packet",
    "Softener",
    "Stream",
    "SymbolCode",
    "bridge",
    "bridge_unit",
    "build",
    "build_fields",
    "build_packet",
    "calls",
    "calls_with_units",
    "crc9",
    "crc16",
    "crc32",
    "follow",
    "hard_dibits",
    "hard_octets",
    "items",
    "main",
    "read_link",
    "read_nid",
    "relay",
    "repair",
    "repair_unit",
    "soft",
    "soften",
    "version",
    "write_nid",
]
