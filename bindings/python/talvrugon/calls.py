"""The functions and structs of include/fast.h, over ctypes, and checks of integers that are passed to them."""

from __future__ import annotations

import ctypes as c
import operator
import struct
from typing import Any

# What fast_interface has to return: the library and this module are of one build.
INTERFACE = 2

# The kinds of records (fast_kind).
MESSAGE_START, UNSIGNED, SIGNED, DECIMAL, ASCII, UNICODE, BYTES = range(1, 8)
GROUP_START, GROUP_END, SEQUENCE_START, ELEMENT_START, ELEMENT_END, SEQUENCE_END, MESSAGE_END = range(8, 15)


class Record(c.Structure):
    """An event of fixed size: fast_record of fast.h. ROW is its layout."""

    _fields_ = [("kind", c.c_uint32), ("node", c.c_uint32), ("value", c.c_uint64), ("length", c.c_uint32), ("exponent", c.c_int32)]


ROW = struct.Struct("<IIQIi")


class Fed(c.Structure):
    """The result of a feed: fast_fed."""

    _fields_ = [(name, c.c_uint64) for name in ("taken", "records", "texts", "consumed")] + [("between", c.c_uint32), ("status", c.c_uint32)]


class Put(c.Structure):
    """The result of encoding a message: fast_put."""

    _fields_ = [("waiting", c.c_uint64), ("record", c.c_uint64), ("status", c.c_uint32), ("unused", c.c_uint32)]


class Handle(c.Structure):
    """A pointer of the library, passed by value."""

    _fields_ = [("at", c.c_void_p)]


assert (ROW.size, c.sizeof(Record), c.sizeof(Fed), c.sizeof(Put), c.sizeof(c.c_size_t)) == (24, 24, 40, 24, 8)

U, N, P = c.c_uint32, c.c_size_t, c.c_void_p
FUNCTIONS = {
    "fast_interface": (U,),
    "fast_status_words": (N, U, P, N),
    "fast_set_read": (U, c.c_char_p, N, P),
    "fast_set_close": (None, Handle),
    "fast_set_templates": (U, Handle),
    "fast_set_nodes": (U, Handle),
    "fast_template_name": (N, Handle, U, P, N),
    "fast_node_name": (N, Handle, U, P, N),
    "fast_set_entries": (U, Handle),
    "fast_set_depth": (U, Handle),
    "fast_set_cap": (c.c_uint64, Handle, U, U),
    "fast_template_by_id": (U, Handle, U),
    "fast_template_by_name": (U, Handle, c.c_char_p, N),
    "fast_template_describe": (U, Handle, U, P),
    "fast_node_describe": (U, Handle, U, P),
    "fast_template_body": (N, Handle, U, P, N),
    "fast_node_body": (N, Handle, U, P, N),
    "fast_template_child": (U, Handle, U, c.c_char_p, N),
    "fast_node_child": (U, Handle, U, c.c_char_p, N),
    "fast_node_parent": (U, Handle, U),
    "fast_node_template": (U, Handle, U),
    "fast_decoder_due": (None, Handle, P),
    "fast_decoder_open": (U, Handle, U, U, U, U, P),
    "fast_decoder_feed": (None, Handle, P, P, N, P, N, P, N, P),
    "fast_decoder_packet": (None, Handle, P, U, P, N, P, N, P, N, P),
    "fast_decoder_reset": (None, Handle, P),
    "fast_decoder_close": (None, Handle),
    "fast_encoder_open": (U, Handle, U, U, U, P),
    "fast_encoder_put": (None, Handle, P, P, N, c.c_char_p, N, P),
    "fast_encoder_take": (N, Handle, P, P, N),
    "fast_encoder_reset": (None, Handle, P),
    "fast_encoder_close": (None, Handle),
}


def integer(name: str, value: Any, bits: int, signed: bool = False) -> int:
    """Returns an integer of this many bits; raises a TypeError or a ValueError, with its name, if it is none."""
    low, high = (-(1 << bits - 1), (1 << bits - 1) - 1) if signed else (0, (1 << bits) - 1)
    try:
        number = operator.index(value)
    except TypeError:
        raise TypeError(f"{name} is {value!r}, and has to be an integer from {low} to {high}") from None
    if not low <= number <= high:
        raise ValueError(f"{name} is {number}, and has to be from {low} to {high}")
    return number


def numbers_of(**named: Any) -> list[int]:
    return [integer(name, value, 32) for name, value in named.items()]
