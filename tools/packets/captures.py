"""Reads captures, pcap and pcapng, frame by frame, in constant memory."""

from __future__ import annotations

import struct
from dataclasses import dataclass

# No network has frames of more bytes: the capture is damaged.
MOST = 1 << 20
PIECE = 1 << 16
SECOND = 10**9

# The first bytes of a pcap file: its byte order, and the number of its time units in a second.
PCAP = {
    b"\xd4\xc3\xb2\xa1": ("<", 10**6),
    b"\xa1\xb2\xc3\xd4": (">", 10**6),
    b"\x4d\x3c\xb2\xa1": ("<", SECOND),
    b"\xa1\xb2\x3c\x4d": (">", SECOND),
}
SECTION = b"\x0a\x0d\x0d\x0a"
ORDERS = {b"\x4d\x3c\x2b\x1a": "<", b"\x1a\x2b\x3c\x4d": ">"}
INTERFACE, OLD_PACKET, SIMPLE_PACKET, PACKET = 1, 2, 3, 6
RESOLUTION, OFFSET = 9, 14


class Failed(Exception):
    """The error of a run that cannot go on: the exit status, and the reason with what to do."""

    def __init__(self, status, words):
        super().__init__(words)
        self.status = status


@dataclass
class Frame:
    """A captured frame: its time, in nanoseconds since 1970 if that is known, and its link type."""

    time: int | None
    link: int
    data: bytes


class Source:
    """A file that is read from start to end, and the current offset."""

    def __init__(self, file, name):
        self.file, self.name, self.at = file, name, 0

    def failed(self, words):
        """Raises the error that the file cannot be read on."""
        return Failed(3, f"{self.name}: {words}")

    def take(self, count):
        data = self.file.read(count)
        self.at += len(data)
        return data

    def whole(self, count, what):
        """Returns this many bytes, or nothing at the end of the file."""
        if count > MOST:
            raise self.failed(f"{what} at byte {self.at} has {count} bytes: the capture is damaged there")
        at, data = self.at, self.take(count)
        if data and len(data) < count:
            raise self.failed(f"it ends at byte {self.at}, inside {what} at byte {at}: it was cut, capture or copy it again")
        return data

    def rest(self, count, what):
        """Returns this many bytes of a record that has begun."""
        data = self.whole(count, what) if count else b""
        if len(data) < count:
            raise self.failed(f"it ends at byte {self.at}, inside {what}: it was cut, capture or copy it again")
        return data

    def skip(self, count, what):
        while count:
            count -= len(self.rest(min(count, PIECE), what))


def frames(source):
    """Yields the frames of a capture."""
    magic = source.take(4)
    if magic in PCAP:
        yield from pcap(source, *PCAP[magic])
    elif magic == SECTION:
        yield from pcapng(source)
    elif not magic:
        raise source.failed("it is empty: give a capture")
    elif magic[:2] == b"\x1f\x8b":
        raise source.failed("it is packed by gzip: zcat FILE | tools/packets/run .. -")
    else:
        raise source.failed(f"it begins with {magic.hex(' ')}, so it is neither pcap nor pcapng: messages by themselves are shown by fastcat show")


def pcap(source, order, units):
    head = source.rest(20, "its head")
    link = struct.unpack(order + "I", head[16:])[0] & 0xFFFF
    while head := source.whole(16, "the head of a record"):
        seconds, parts, count = struct.unpack(order + "III4x", head)
        yield Frame(seconds * SECOND + parts * (SECOND // units), link, source.rest(count, "a record"))


@dataclass
class Interface:
    """An interface of a pcapng section: its link type, the number of its time units in a second, the time offset, and the captured
    length."""

    link: int
    units: int
    offset: int
    kept: int

    def time(self, high, low):
        return ((high << 32 | low) * SECOND) // self.units + self.offset * SECOND


def pcapng(source):
    """Yields the frames of a capture whose first four bytes were those of a section."""
    order, interfaces, kind = section(source), [], SECTION
    while head := source.whole(8, "the head of a block"):
        if head[:4] == SECTION:
            order, interfaces = section(source, head[4:]), []
            continue
        kind, size = struct.unpack(order + "II", head)
        if size < 12 or size % 4:
            raise source.failed(f"the block at byte {source.at - 8} has {size} bytes: the capture is damaged there")
        if kind not in (INTERFACE, OLD_PACKET, SIMPLE_PACKET, PACKET):
            source.skip(size - 12, "a block")
        else:
            yield from block(source, kind, source.rest(size - 12, "a block"), order, interfaces)
        if struct.unpack(order + "I", source.rest(4, "a block"))[0] != size:
            raise source.failed(f"the block that ends at byte {source.at} has two lengths: the capture is damaged there")


def section(source, size=b""):
    """Returns the byte order of a section whose first four bytes were read."""
    size, magic = size or source.rest(4, "a section"), source.rest(4, "a section")
    if magic not in ORDERS:
        raise source.failed(f"the section at byte {source.at - 12} has no order of bytes: the capture is damaged there")
    size = struct.unpack(ORDERS[magic] + "I", size)[0]
    if size < 28 or size % 4:
        raise source.failed(f"the section at byte {source.at - 12} has {size} bytes: the capture is damaged there")
    source.skip(size - 12, "a section")
    return ORDERS[magic]


def block(source, kind, body, order, interfaces):
    """Returns the frame of a block, if it has one; keeps an interface."""
    try:
        if kind == INTERFACE:
            interfaces.append(interface(body, order))
        elif kind == SIMPLE_PACKET:
            (length,) = struct.unpack_from(order + "I", body)
            of = interfaces[0]
            yield Frame(None, of.link, cut(body, 4, min(length, of.kept or length)))
        else:
            form = order + ("IIII4x" if kind == PACKET else "HxxIII4x")
            which, high, low, count = struct.unpack_from(form, body)
            of = interfaces[which]
            yield Frame(of.time(high, low), of.link, cut(body, 20, count))
    except (struct.error, IndexError) as error:
        raise source.failed(f"the block that ends at byte {source.at + 4} has no frame of an interface: the capture is damaged there") from error


def cut(body, at, count):
    if at + count > len(body):
        raise IndexError
    return body[at : at + count]


def interface(body, order):
    link, _, kept = struct.unpack_from(order + "HHI", body)
    found, at = Interface(link, 10**6, 0, kept), 8
    while at + 4 <= len(body):
        code, size = struct.unpack_from(order + "HH", body, at)
        value = body[at + 4 : at + 4 + size]
        if code == RESOLUTION and size == 1:
            found.units = 2 ** (value[0] & 127) if value[0] & 128 else 10 ** value[0]
        elif code == OFFSET and size == 8:
            found.offset = int.from_bytes(value, "little" if order == "<" else "big", signed=True)
        at += 4 + (size + 3) // 4 * 4
        if code == 0:
            break
    return found
