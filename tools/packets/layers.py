"""The payloads of frames: UDP datagrams, and TCP data in the order in which it was sent."""

from __future__ import annotations

import ipaddress
import struct
from dataclasses import dataclass
from functools import lru_cache

ETHERNET, COOKED, COOKED_2, LOOPBACK = 1, 113, 276, (0, 108)
RAW = (12, 14, 101, 228, 229)
IP, IP_6 = 0x0800, 0x86DD
TAGS = (0x8100, 0x88A8, 0x9100)
TCP, UDP = 6, 17
# IPv6 headers between the first one and the payload: hop-by-hop options, routing, destination options; and the fragment header.
BETWEEN, FRAGMENT = (0, 43, 60), 44
FIN, SYN, RST = 1, 2, 4

# The greatest number of bytes and of segments of a TCP stream that wait for a gap, and of streams that are followed at a time.
WAITING, SEGMENTS = 1 << 20, 1024
STREAMS = 1024


@dataclass
class Piece:
    """Bytes that arrived: their time and flow, the number of bytes that were sent, and the number of bytes missing before them in a
    stream."""

    time: int | None
    flow: tuple
    data: bytes
    sent: int
    is_stream: bool = False
    gap: int = 0
    ends: bool = False


@lru_cache(1024)
def address(packed):
    return str(ipaddress.ip_address(packed))


def place(packed, port):
    return f"{address(packed)}:{port}" if len(packed) == 4 else f"[{address(packed)}]:{port}"


def named(flow):
    """Returns the name of a flow: its destination, and for a TCP stream the source too."""
    of, source, source_port, to, port = flow
    return place(to, port) if of == UDP else f"{place(source, source_port)}>{place(to, port)}"


class Payloads:
    """Extracts the payloads of frames. It counts the frames that it skips."""

    def __init__(self, ports):
        self.ports, self.passed, self.streams = ports, {}, {}

    def count(self, what):
        self.passed[what] = self.passed.get(what, 0) + 1

    def of(self, frame):
        """Yields the pieces that are complete with a frame."""
        try:
            packet = self.network(frame)
            found = packet and self.transport(*packet)
        except (struct.error, IndexError):
            self.count("frames that end inside their headers")
            return
        if not found or self.ports and found[0][4] not in self.ports:
            return
        flow, data, sent, *control = found
        if flow[0] == UDP:
            yield Piece(frame.time, flow, data, sent)
        else:
            if flow not in self.streams and len(self.streams) >= STREAMS:
                self.count("streams beyond those that are followed at a time")
                yield from self.streams.pop(next(iter(self.streams))).flush(frame.time)
            yield from self.streams.setdefault(flow, Stream(flow)).take(frame.time, data, sent, *control)

    def last(self):
        """Yields the pieces that still wait after the last frame."""
        for stream in self.streams.values():
            yield from stream.flush(None)

    def network(self, frame):
        """Returns the IP packet of a frame, with its version, if there is one."""
        data, link = frame.data, frame.link
        if link in RAW:
            return self.ip(data)
        if link in LOOPBACK:
            return self.ip(data[4:])
        if link not in (ETHERNET, COOKED, COOKED_2):
            self.count(f"frames of link type {link}")
            return None
        at, behind = {ETHERNET: (12, 14), COOKED: (14, 16), COOKED_2: (0, 20)}[link]
        (kind,) = struct.unpack_from(">H", data, at)
        while kind in TAGS:
            (kind,) = struct.unpack_from(">H", data, behind + 2)
            behind += 4
        return self.ip(data[behind:]) if kind in (IP, IP_6) else None

    def ip(self, data):
        """Returns the content of an IP packet: protocol, addresses, the captured bytes, and the number of bytes that were sent."""
        if data[0] >> 4 == 4:
            length, cut, protocol = struct.unpack_from(">2xHxxHxB", data)
            head = (data[0] & 15) * 4
            if cut & 0x3FFF:
                self.count("fragments of IP")
                return None
            sent = (length or len(data)) - head
            return protocol, data[12:16], data[16:20], data[head : head + max(sent, 0)], sent
        if data[0] >> 4 != 6:
            self.count("frames without an IP packet")
            return None
        length, following = struct.unpack_from(">4xHB", data)
        at, end = 40, 40 + length
        while following in BETWEEN or following == FRAGMENT:
            if following == FRAGMENT and struct.unpack_from(">H", data, at + 2)[0] & 0xFFF9:
                self.count("fragments of IP")
                return None
            following, at = data[at], at + (8 if following == FRAGMENT else 8 + 8 * data[at + 1])
        return following, data[8:24], data[24:40], data[at:end], end - at

    def transport(self, protocol, source, to, data, sent):
        """Returns the flow and the payload of a datagram or a segment, with sequence number and flags, as far as they are known."""
        if protocol == UDP:
            source_port, port, length = struct.unpack_from(">HHH2x", data)
            sent = max(min(sent, length or sent) - 8, 0)
            return (UDP, source, source_port, to, port), data[8 : 8 + sent], sent
        if protocol == TCP:
            source_port, port, number, head, flags = struct.unpack_from(">HHI4xBB6x", data)
            head = head >> 4 << 2
            return (TCP, source, source_port, to, port), data[head:], sent - head, number, flags
        return None


class Stream:
    """A TCP stream in one direction: the next sequence number, and the segments that arrived too early."""

    def __init__(self, flow):
        self.flow, self.next, self.waiting, self.held = flow, None, {}, 0

    def take(self, time, data, sent, number, flags):
        """Adds a segment, and yields the pieces that are in order with it."""
        if flags & SYN:
            yield from self.flush(time)
            self.next = number = (number + 1) & 0xFFFFFFFF
        if self.next is None:
            self.next = number
        if sent > 0:
            yield from self.place(time, data, sent, number)
        if self.held > WAITING or len(self.waiting) > SEGMENTS:
            yield from self.bridge()
        if flags & (FIN | RST):
            yield from self.flush(time)

    def ahead(self, number):
        """Returns how far a sequence number is ahead of the next one; negative if it is past."""
        return ((number - self.next + 2**31) & 0xFFFFFFFF) - 2**31

    def place(self, time, data, sent, number):
        """Yields a segment that is next, with those that waited for it; keeps one that is early."""
        ahead = self.ahead(number)
        if ahead > 0:
            kept = self.waiting.get(number)
            if kept is None or kept[2] < sent:
                self.held += len(data) - (len(kept[1]) if kept else 0)
                self.waiting[number] = time, data, sent
            return
        if ahead + sent <= 0:
            return
        yield self.given(time, data[-ahead:], sent + ahead)
        yield from self.ready()

    def given(self, time, data, sent, gap=0):
        self.next = (self.next + gap + sent) & 0xFFFFFFFF
        return Piece(time, self.flow, data, sent, True, gap)

    def ready(self):
        """Yields the segments that have become next."""
        while self.waiting:
            number = self.next if self.next in self.waiting else min(self.waiting, key=self.ahead)
            ahead = self.ahead(number)
            if ahead > 0:
                return
            time, data, sent = self.waiting.pop(number)
            self.held -= len(data)
            if ahead + sent > 0:
                yield self.given(time, data[-ahead:], sent + ahead)

    def bridge(self):
        """Skips a gap, and yields the segments after it."""
        number = min(self.waiting, key=self.ahead)
        time, data, sent = self.waiting.pop(number)
        self.held -= len(data)
        yield self.given(time, data, sent, self.ahead(number))
        yield from self.ready()

    def flush(self, time):
        """Ends the stream, or restarts it: yields all segments that wait, with the gaps."""
        while self.waiting:
            yield from self.bridge()
        if self.next is not None:
            yield Piece(time, self.flow, b"", 0, True, 0, True)
