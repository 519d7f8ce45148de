"""Events as tuples: what a decoder's records say, and the records of events."""

from __future__ import annotations

import struct
from collections.abc import Iterator
from typing import Any

from .calls import ASCII, BYTES, DECIMAL, MESSAGE_END, MESSAGE_START, ROW, SIGNED, UNICODE, Record, integer

try:
    import numpy
except ImportError:
    numpy = None

# (kind, node, value); the value of a decimal is (mantissa, exponent), that of a string is bytes, and that of MESSAGE_END the offset at which
# the message ends
Event = tuple[int, int, Any]


class Events:
    """The events of a decoded piece: pairs of records and their strings, as bytes."""

    def __init__(self, parts: list[tuple[bytes, bytes]]):
        self.parts = parts  # of each call of the library

    def __len__(self) -> int:
        return sum(len(records) for records, _ in self.parts) // ROW.size

    def __iter__(self) -> Iterator[Event]:
        for records, texts in self.parts:
            for kind, node, value, length, exponent in ROW.iter_unpack(records):
                if kind in (SIGNED, DECIMAL):
                    value -= (value >> 63) << 64
                if kind == DECIMAL:
                    value = value, exponent
                elif ASCII <= kind <= BYTES:
                    value = texts[value : value + length]
                yield kind, node, value

    def arrays(self) -> list[tuple[Any, bytes]]:
        """Returns pairs of an array of Record (a NumPy structured array if NumPy is installed) and the bytes of their strings."""
        if numpy:
            return [(numpy.frombuffer(records, dtype=numpy.dtype(Record)), texts) for records, texts in self.parts]
        return [((Record * (len(records) // ROW.size)).from_buffer_copy(records), texts) for records, texts in self.parts]

    def template(self) -> tuple[bool, int | None]:
        """Returns whether a message starts or ends in these events, and the template of the last message that starts and does not end."""
        for records, _ in reversed(self.parts):
            for at in range(len(records) - ROW.size, -1, -ROW.size):
                kind, node = struct.unpack_from("<II", records, at)
                if kind in (MESSAGE_START, MESSAGE_END):
                    return True, node if kind == MESSAGE_START else None
        return False, None


def packed(name: str, event: Event, texts: bytearray) -> bytes:
    """Returns the record of an event, and appends its string to texts."""
    kind, node, value = event
    length = exponent = 0
    if kind == DECIMAL:
        value, exponent = value
        exponent = integer(f"the exponent of {name}", exponent, 32, signed=True)
    if kind in (SIGNED, DECIMAL):
        value = integer(f"the value of {name}", value, 64, signed=True) & (1 << 64) - 1
    elif kind in (ASCII, UNICODE, BYTES):
        text, value = bytes(memoryview(value)), len(texts)
        texts += text
        length = len(text)
    else:
        value = integer(f"the value of {name}", value, 64)
    return ROW.pack(integer(f"the kind of {name}", kind, 32), integer(f"the node of {name}", node, 32), value, length, exponent)
