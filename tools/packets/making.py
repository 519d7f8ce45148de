#!/usr/bin/env python3
"""Makes captures, for tests and for examples/packets.

    tools/packets/making.py PACKETS.hex >CAPTURE     a pcap of Ethernet and UDP: a packet for each line of hexadecimal digits
"""

import ipaddress
import struct
import sys

BEGUN = 1_290_000_000 * 10**9
STEP = 1_500_000_125
FROM, TO = ("10.0.0.1", 30001), ("239.1.2.3", 30002)
FROM_6, TO_6 = ("fd00::1", 30001), ("ff15::7", 30002)


def time_of(number):
    """Returns the time of a packet, in nanoseconds."""
    return BEGUN + number * STEP


def packed(place):
    return ipaddress.ip_address(place[0]).packed


def udp(payload, source=FROM, to=TO, length=None):
    return 17, source, to, struct.pack(">HHHH", source[1], to[1], 8 + len(payload) if length is None else length, 0) + payload


def tcp(payload, number, source=FROM, to=TO, flags=16, options=b""):
    head = struct.pack(">HHIIBBHHH", source[1], to[1], number % 2**32, 0, 5 + len(options) // 4 << 4, flags, 8192, 0, 0)
    return 6, source, to, head + options + payload


def ip(segment, cut=0, length=None):
    """Returns an IPv4 or IPv6 packet, by its addresses; `cut` is the field of flags and offset of a fragment."""
    protocol, source, to, data = segment
    if len(packed(source)) == 16:
        return struct.pack(">IHBB", 6 << 28, len(data) if length is None else length, protocol, 64) + packed(source) + packed(to) + data
    length = 20 + len(data) if length is None else length
    return struct.pack(">BBHHHBBH", 0x45, 0, length, 0, cut, 64, protocol, 0) + packed(source) + packed(to) + data


def kind_of(packet):
    return 0x0800 if packet[0] >> 4 == 4 else 0x86DD


def ethernet(packet, tags=()):
    """Returns a frame with VLAN tags, padded to 60 bytes."""
    head = bytes(12) + b"".join(struct.pack(">HH", tag, 7) for tag in tags)
    return (head + struct.pack(">H", kind_of(packet)) + packet).ljust(60, b"\xaa")


def cooked(packet, tags=()):
    kinds = [*tags, kind_of(packet)]
    return struct.pack(">HHH8sH", 0, 1, 6, bytes(8), kinds[0]) + b"".join(struct.pack(">HH", 7, it) for it in kinds[1:]) + packet


def cooked_2(packet, tags=()):
    kinds = [*tags, kind_of(packet)]
    return struct.pack(">HHIHBB8s", kinds[0], 0, 2, 1, 0, 6, bytes(8)) + b"".join(struct.pack(">HH", 7, it) for it in kinds[1:]) + packet


def pcap(frames, link=1, order="<", nanoseconds=True, most=None):
    """Returns a pcap of frames, each captured up to `most` bytes."""
    units = 1 if nanoseconds else 1000
    made = [struct.pack(order + "IHHiIII", 0xA1B23C4D if nanoseconds else 0xA1B2C3D4, 2, 4, 0, 0, most or 262144, link)]
    for number, frame in enumerate(frames):
        seconds, parts = divmod(time_of(number), 10**9)
        kept = frame[:most]
        made.append(struct.pack(order + "IIII", seconds, parts // units, len(kept), len(frame)) + kept)
    return b"".join(made)


def block(order, kind, body):
    body += bytes(-len(body) % 4)
    return struct.pack(order + "II", kind, len(body) + 12) + body + struct.pack(order + "I", len(body) + 12)


def interface(order, link, resolution=None, offset=0):
    options = b"" if resolution is None else struct.pack(order + "HHBxxx", 9, 1, resolution)
    options += struct.pack(order + "HHq", 14, 8, offset) if offset else b""
    return block(order, 1, struct.pack(order + "HHI", link, 0, 0) + options + (bytes(4) if options else b""))


def section(order):
    return block(order, 0x0A0D0D0A, struct.pack(order + "IHHq", 0x1A2B3C4D, 1, 0, -1))


def packet_block(order, frame, time, kind=6, which=0):
    form = {6: "IIIII", 2: "HHIIII"}[kind]
    head = (which, *([0xFFFF] if kind == 2 else []), time >> 32, time & 0xFFFFFFFF, len(frame), len(frame))
    return block(order, kind, struct.pack(order + form, *head) + frame)


def pcapng(frames, link=1, order="<", resolution=9, kind=6):
    """Returns a pcapng of frames, with blocks of other types between them. `resolution` is that of its times: decimal digits, or from 128
    on bits."""
    units = 2 ** (resolution - 128) if resolution >= 128 else 10**resolution
    made = section(order) + interface(order, link, resolution) + block(order, 4, b"names of addresses")
    for number, frame in enumerate(frames):
        if kind == 3:
            made += block(order, 3, struct.pack(order + "I", len(frame)) + frame)
        else:
            made += packet_block(order, frame, time_of(number) * units // 10**9, kind)
        made += block(order, 5, bytes(12)) if number % 7 == 3 else b""
    return made


def segments(*parts, begun=2**32 - 5, flags=None):
    """Returns a capture of TCP segments, each an offset in the stream and its bytes; `flags` are those of some segments, by their
    number."""
    kinds = flags or {}
    return pcap([ethernet(ip(tcp(data, begun + at, flags=kinds.get(it, 16)))) for it, (at, data) in enumerate(parts)])


if __name__ == "__main__":
    if len(sys.argv) != 2:
        sys.exit(__doc__)
    with open(sys.argv[1], encoding="ascii") as it:
        sys.stdout.buffer.write(pcap([ethernet(ip(udp(bytes.fromhex(line)))) for line in it]))
