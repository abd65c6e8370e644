"""The numbers, structs and calls of the library, made of the crate p25_c by `bench/checks/header --write`."""

from ctypes import POINTER, Structure, c_bool, c_int8, c_int32, c_size_t, c_uint8, c_uint16, c_uint32, c_uint64, c_void_p
from typing import Any, Dict, Tuple

U8, U16, U32, U64, I8, I32, BOOL = c_uint8, c_uint16, c_uint32, c_uint64, c_int8, c_int32, c_bool
# A pointer to octets takes bytes as they are, an array, or an address.
ADDRESS, SIZE = c_void_p, c_size_t

VERSION = 10100

OUTSIDE = -1
NO_ROOM = -2
NO_UNIT = -3
WRONG_NAC = -4
WRONG_STATUS = -5
ENDED = -6
DIBITS_WAIT = -7
WRONG_DUID = -8
WRONG_PACKET = -9
LINE_LONG = -11
LINE_FORM = -12
LINE_KIND = -13
LINE_KEY = -14
LINE_VALUE = -15
PACKET_HEADER = -21
PACKET_CUT = -22
PACKET_FORMAT = -23
PACKET_CRC = -24
HDU = 0
TDU = 3
LDU1 = 5
LDU2 = 10
PDU = 12
TDULC = 15
UNIT = 1
BROKEN = 2
NOUNIT = 3
GAP = 4
CUT = 5
ITEM = 1
NONE = 0
TEXT_ROOM = 8192
NEEDED = 3241
UNIT_ROOM = 3240
STREAM_OCTETS = 8168
FOLLOW_ROOM = 4104
STRETCH_ROOM = 864
LEVELS_MOST = 12960
LINK_OTHER = 0
LINK_GROUP = 1
LINK_INDIVIDUAL = 2
FIELDS = 1
END_OPEN = 0
END_TDU = 1
END_TDULC = 2
CALL = 1
NO_CALL = 0
CONFIRMED = 22
PLAIN = 21
RESPONSE = 3
BEYOND = -1
NO_LETTERS = -2
NO_WORD = 4294967295
NO_NID = 18446744073709551615
NO_CRC9 = 65535

# The word of each number below 0.
WORDS: Dict[int, str] = {
    -1: "outside",
    -2: "room",
    -3: "unit",
    -4: "nac",
    -5: "status",
    -6: "finished",
    -7: "dibits",
    -8: "duid",
    -9: "packet",
    -11: "long",
    -12: "form",
    -13: "kind",
    -14: "key",
    -15: "value",
    -21: "header",
    -22: "cut",
    -23: "format",
    -24: "crc",
}


class ItemParts(Structure):
    """p25_item of p25.h, of 24 octets."""

    _fields_ = (
        ("place", U64),
        ("bits", U32),
        ("fixes", U32),
        ("text_length", U32),
        ("nac", U16),
        ("duid", U8),
        ("kind", U8),
    )


class Stream(Structure):
    """p25_stream of p25.h, of 8192 octets."""

    _fields_ = (
        ("begin", U64),
        ("from", U64),
        ("held", U32),
        ("ended", U8),
        ("dibits", U8),
        ("waiting", U8),
        ("unused", U8),
        ("octets", U8 * 8168),
    )


class FollowerState(Structure):
    """p25_follower of p25.h, of 880 octets."""

    _fields_ = (
        ("reached", U64),
        ("nac", U16),
        ("stretch", U16),
        ("duid", U8),
        ("has_unit", U8),
        ("waits", U8),
        ("waiting", U8),
        ("octets", U8 * 864),
    )


class LinkParts(Structure):
    """p25_link of p25.h, of 16 octets."""

    _fields_ = (
        ("source", U32),
        ("destination", U32),
        ("group", U16),
        ("kind", U8),
        ("mfid", U8),
        ("emergency", U8),
    )


class FieldParts(Structure):
    """p25_fields of p25.h, of 196 octets."""

    _fields_ = (
        ("nac", U16),
        ("kid", U16),
        ("tgid", U16),
        ("duid", U8),
        ("mfid", U8),
        ("algid", U8),
        ("has_lc", U8),
        ("has_mi", U8),
        ("has_tgid", U8),
        ("has_voice", U8),
        ("lc", U8 * 9),
        ("mi", U8 * 9),
        ("lsd", U8 * 2),
        ("voice", U8 * 162),
    )


class CallParts(Structure):
    """p25_call of p25.h, of 40 octets."""

    _fields_ = (
        ("place", U64),
        ("bits", U64),
        ("links", U32),
        ("broken", U32),
        ("nac", U16),
        ("late", U8),
        ("end", U8),
        ("has_lc", U8),
        ("has_algid", U8),
        ("algid", U8),
        ("lc", U8 * 9),
    )


class CallerState(Structure):
    """p25_caller of p25.h, of 56 octets."""

    _fields_ = (
        ("reached", U64),
        ("taken", U32),
        ("is_open", U8),
        ("by_gap", U8),
        ("run", CallParts),
    )


class PacketParts(Structure):
    """p25_packet of p25.h, of 2316 octets."""

    _fields_ = (
        ("llid", U32),
        ("nac", U16),
        ("length", U16),
        ("head", U8 * 10),
        ("format", U8),
        ("full", U8),
        ("blocks", U8),
        ("pad", U8),
        ("syn", U8),
        ("number", U8),
        ("response_class", U8),
        ("response_type", U8),
        ("response_status", U8),
        ("bad", U8),
        ("good", U8 * 127),
        ("serials", U8 * 127),
        ("octets", U8 * 2032),
    )


# What each call returns and takes.
CALLS: Dict[str, Tuple[Any, Tuple[Any, ...]]] = {
    "p25_version": (U32, ()),
    "p25_next_item": (I32, (ADDRESS, SIZE, U64, U64, BOOL, POINTER(ItemParts), ADDRESS, SIZE)),
    "p25_items": (I32, (ADDRESS, SIZE, U64, U64, BOOL, ADDRESS, SIZE)),
    "p25_build": (I32, (ADDRESS, SIZE, U8, ADDRESS, SIZE)),
    "p25_repair": (I32, (ADDRESS, SIZE, ADDRESS, SIZE)),
    "p25_bridge": (I32, (ADDRESS, SIZE, U16, U8, ADDRESS, SIZE)),
    "p25_item_octets": (I32, (ADDRESS, SIZE, U64, POINTER(ItemParts), ADDRESS, SIZE)),
    "p25_repair_at": (I32, (ADDRESS, SIZE, U64, U64, ADDRESS, SIZE)),
    "p25_bridge_at": (I32, (ADDRESS, SIZE, U64, U64, U16, U8, ADDRESS, SIZE)),
    "p25_relay_at": (I32, (ADDRESS, SIZE, U64, U64, U16, U8, ADDRESS, SIZE)),
    "p25_stream_begin": (None, (POINTER(Stream),)),
    "p25_stream_begin_at": (None, (POINTER(Stream), U64)),
    "p25_stream_push": (I32, (POINTER(Stream), ADDRESS, SIZE)),
    "p25_stream_push_dibits": (I32, (POINTER(Stream), ADDRESS, SIZE)),
    "p25_stream_next": (I32, (POINTER(Stream), POINTER(ItemParts), ADDRESS, SIZE)),
    "p25_stream_end": (None, (POINTER(Stream),)),
    "p25_follower_begin": (None, (POINTER(FollowerState),)),
    "p25_follower_begin_at": (None, (POINTER(FollowerState), U64)),
    "p25_follower_take": (I32, (POINTER(FollowerState), ADDRESS, SIZE, U64, POINTER(ItemParts), ADDRESS, SIZE)),
    "p25_follower_finish": (I32, (POINTER(FollowerState), ADDRESS, SIZE)),
    "p25_level_dibit": (U8, (I8,)),
    "p25_dibit_level": (I8, (U8,)),
    "p25_soften": (I32, (ADDRESS, SIZE, ADDRESS, SIZE)),
    "p25_link_read": (None, (ADDRESS, POINTER(LinkParts))),
    "p25_unit_fields": (I32, (ADDRESS, SIZE, U64, U64, POINTER(FieldParts))),
    "p25_build_fields": (I32, (POINTER(FieldParts), U8, ADDRESS, SIZE)),
    "p25_caller_begin": (None, (POINTER(CallerState),)),
    "p25_caller_begin_at": (None, (POINTER(CallerState), U64, BOOL)),
    "p25_caller_take": (I32, (POINTER(CallerState), POINTER(ItemParts), POINTER(FieldParts), POINTER(CallParts))),
    "p25_caller_finish": (I32, (POINTER(CallerState), POINTER(CallParts))),
    "p25_caller_close": (I32, (POINTER(CallerState), POINTER(CallParts))),
    "p25_call_has": (BOOL, (POINTER(CallParts), POINTER(ItemParts))),
    "p25_packet_read": (I32, (ADDRESS, SIZE, U64, U64, POINTER(PacketParts))),
    "p25_build_packet": (I32, (POINTER(PacketParts), U8, ADDRESS, SIZE)),
    "p25_stream_item_octets": (I32, (POINTER(Stream), POINTER(ItemParts), ADDRESS, SIZE)),
    "p25_stream_repair": (I32, (POINTER(Stream), POINTER(ItemParts), ADDRESS, SIZE)),
    "p25_stream_bridge": (I32, (POINTER(Stream), POINTER(ItemParts), U16, U8, ADDRESS, SIZE)),
    "p25_stream_relay": (I32, (POINTER(Stream), POINTER(ItemParts), U16, U8, ADDRESS, SIZE)),
    "p25_stream_fields": (I32, (POINTER(Stream), POINTER(ItemParts), POINTER(FieldParts))),
    "p25_stream_packet": (I32, (POINTER(Stream), POINTER(ItemParts), POINTER(PacketParts))),
    "p25_stream_follow": (I32, (POINTER(Stream), POINTER(ItemParts), POINTER(FollowerState), ADDRESS, SIZE)),
    "p25_rs_36_20_read": (I32, (ADDRESS,)),
    "p25_rs_24_12_read": (I32, (ADDRESS,)),
    "p25_rs_24_16_read": (I32, (ADDRESS,)),
    "p25_rs_36_20_read_erased": (I32, (ADDRESS, ADDRESS)),
    "p25_rs_24_12_read_erased": (I32, (ADDRESS, ADDRESS)),
    "p25_rs_24_16_read_erased": (I32, (ADDRESS, ADDRESS)),
    "p25_rs_36_20_write": (I32, (ADDRESS,)),
    "p25_rs_24_12_write": (I32, (ADDRESS,)),
    "p25_rs_24_16_write": (I32, (ADDRESS,)),
    "p25_rs_36_20_read_marked": (I32, (ADDRESS, ADDRESS)),
    "p25_rs_24_12_read_marked": (I32, (ADDRESS, ADDRESS)),
    "p25_rs_24_16_read_marked": (I32, (ADDRESS, ADDRESS)),
    "p25_golay24_read": (I32, (ADDRESS,)),
    "p25_golay18_read": (I32, (ADDRESS,)),
    "p25_hamming10_read": (I32, (ADDRESS,)),
    "p25_lsd16_read": (I32, (ADDRESS,)),
    "p25_golay24_write": (U32, (U32,)),
    "p25_golay18_write": (U32, (U32,)),
    "p25_hamming10_write": (U32, (U32,)),
    "p25_lsd16_write": (U32, (U32,)),
    "p25_nid_read": (I32, (U64, ADDRESS, ADDRESS)),
    "p25_nid_write": (U64, (U16, U8)),
    "p25_half_rate_read": (U32, (ADDRESS, ADDRESS)),
    "p25_three_quarter_rate_read": (U32, (ADDRESS, ADDRESS)),
    "p25_half_rate_read_levels": (U32, (ADDRESS, ADDRESS)),
    "p25_three_quarter_rate_read_levels": (U32, (ADDRESS, ADDRESS)),
    "p25_half_rate_write": (None, (ADDRESS, ADDRESS)),
    "p25_three_quarter_rate_write": (None, (ADDRESS, ADDRESS)),
    "p25_crc9": (U16, (U8, ADDRESS)),
    "p25_crc16": (U16, (ADDRESS, SIZE)),
    "p25_crc32": (U32, (ADDRESS, SIZE)),
}
