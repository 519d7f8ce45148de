"""Tests of the packets of captures: files, links, networks, TCP streams, preambles; and of damaged captures."""

import random

import making as m
from common import cut_out, expect

PAYLOADS = [bytes([it] * (it * 7 + 1)) for it in range(12)]


def due(resolution=1):
    """Returns the packets of a capture of the payloads, whose times have this resolution in nanoseconds."""
    return [(m.time_of(number) // resolution * resolution, None, it, 0, "") for number, it in enumerate(PAYLOADS)], ""


def test_forms():
    """Each form of a file, of a link and of a network yields the payloads."""
    packets = [m.ip(m.udp(it)) for it in PAYLOADS]
    sixes = [m.ip(m.udp(it, m.FROM_6, m.TO_6)) for it in PAYLOADS]
    frames = [m.ethernet(it) for it in packets]
    for order in "<>":
        expect(f"pcap {order}", cut_out(m.pcap(frames, 1, order)) == due())
        expect(f"pcap {order} of microseconds", cut_out(m.pcap(frames, 1, order, False)) == due(1000))
        for resolution, step in ((9, 1), (6, 1000), (3, 10**6)):
            expect(f"pcapng {order} {resolution}", cut_out(m.pcapng(frames, 1, order, resolution)) == due(step))
        expect(f"pcapng {order} old", cut_out(m.pcapng(frames, 1, order, 9, 2)) == due())
        simple = [(None, *it[1:]) for it in due()[0]]
        # a simple block has no time, and its frame is that of the first interface
        expect(f"pcapng {order} simple", cut_out(m.pcapng(frames, 1, order, 9, 3)) == (simple, ""))
    for of in (packets, sixes):
        for tags in ((), (0x8100,), (0x88A8, 0x8100)):
            expect(f"ethernet {tags}", cut_out(m.pcap([m.ethernet(it, tags) for it in of])) == due())
            expect(f"cooked {tags}", cut_out(m.pcap([m.cooked(it, tags) for it in of], 113)) == due())
            expect(f"cooked v2 {tags}", cut_out(m.pcap([m.cooked_2(it, tags) for it in of], 276)) == due())
        for link in (12, 14, 101):
            expect(f"raw {link}", cut_out(m.pcap(of, link)) == due())
        expect("loopback", cut_out(m.pcap([b"\2\0\0\0" + it for it in of], 0)) == due())


def test_sections():
    """A section has its own byte order and interfaces, with times in binary fractions and an offset."""
    frame, raw = m.ethernet(m.ip(m.udp(b"one"))), m.ip(m.udp(b"two"))
    made = m.section("<") + m.interface("<", 1) + m.packet_block("<", frame, 5_000_001)
    made += m.section(">") + m.interface(">", 127) + m.interface(">", 101, 128 + 10, 100) + m.packet_block(">", raw, 1536, 6, 1)
    made += m.packet_block(">", raw, 0, 6, 0)
    found = [(5_000_001_000, None, b"one", 0, ""), (101_500_000_000, None, b"two", 0, "")]
    expect("sections", cut_out(made) == (found, "1 frames of link type 127"))


def test_network():
    """Frames without payload are skipped, and counted if something is lost; IPv6 headers in between, and truncated captures."""
    good = m.ethernet(m.ip(m.udp(b"good")))
    kept = [(m.time_of(1), None, b"good", 0, "")]
    six = m.udp(b"good", m.FROM_6, m.TO_6)
    behind = (0, *six[1:3], bytes([60, 0]) + bytes(6) + bytes([17, 1]) + bytes(14) + six[3])
    whole = (44, *six[1:3], bytes([17, 0, 0, 0]) + bytes(4) + six[3])
    part, first = ((44, *six[1:3], bytes([17, 0, 0, it]) + bytes(4) + six[3]) for it in (8, 1))
    odd = bytes(12) + b"\x08\x06" + bytes(46)
    for name, frame, passed in (
        ("arp", odd, ""),
        ("a fragment", m.ethernet(m.ip(m.udp(b"x"), 0x2000)), "1 fragments of IP"),
        ("a last fragment", m.ethernet(m.ip(m.udp(b"x"), 5)), "1 fragments of IP"),
        ("a fragment of IPv6", m.ethernet(m.ip(part)), "1 fragments of IP"),
        ("a first fragment of IPv6", m.ethernet(m.ip(first)), "1 fragments of IP"),
        ("another protocol", m.ethernet(m.ip((1, m.FROM, m.TO, bytes(20)))), ""),
        ("half a header", good[:20], "1 frames that end inside their headers"),
        ("no header", b"", "1 frames that end inside their headers"),
    ):
        expect(name, cut_out(m.pcap([frame, good])) == (kept, passed))
    for name, segment in (("headers between", behind), ("a fragment that is all", whole)):
        expect(name, cut_out(m.pcap([m.ethernet(m.ip(segment))]))[0] == [(m.time_of(0), None, b"good", 0, "")])
    expect("no length of IP", cut_out(m.pcap([m.ip(m.udp(b"good"), length=0)], 101))[0] == [(m.time_of(0), None, b"good", 0, "")])
    expect("a length of UDP", cut_out(m.pcap([m.ip(m.udp(b"good", length=10))], 101))[0] == [(m.time_of(0), None, b"go", 0, "")])
    expect("cut", cut_out(m.pcap([m.ethernet(m.ip(m.udp(bytes(100))))], most=102)) == ([(m.time_of(0), None, bytes(60), 0, "cut 60 of 100")], ""))
    other = m.ethernet(m.ip(m.udp(b"other", to=("239.1.2.3", 7))))
    expect("port", cut_out(m.pcap([other, good]), "--port", "30002") == (kept, ""))
    expect("ports", len(cut_out(m.pcap([other, good]), "--port", "30002", "--port", "7")[0]) == 2)


def test_tcp():
    """A stream is put in order, without duplicates, and its gaps are reported; sequence numbers wrap at 2^32."""
    def stream(*parts, **more):
        found, ended = cut_out(m.segments(*parts, **more))
        return [(data, gap) for _, _, data, gap, _ in found], ended

    a, b, c = (0, b"abcd"), (4, b"efgh"), (8, b"ijkl")
    in_order = [(b"abcd", 0), (b"efgh", 0), (b"ijkl", 0)]
    expect("in order", stream(a, b, c) == (in_order, ""))
    expect("out of order", stream(a, c, b) == (in_order, ""))
    expect("twice", stream(a, a, c, c, b, a, b) == (in_order, ""))
    expect("over one another", stream(a, (2, b"cdef"), (5, b"fghijkl")) == ([(b"abcd", 0), (b"ef", 0), (b"ghijkl", 0)], ""))
    expect("over one another, out of order", stream(a, (6, b"ghij"), c, b) == (in_order, ""))
    expect("a gap", stream(a, c, (12, b"mn")) == ([(b"abcd", 0), (b"ijkl", 4), (b"mn", 0)], ""))
    expect("a longer one", stream(a, (8, b"ij"), c, (8, b"i"), b) == (in_order, ""))
    expect("a gap, then another beginning", stream(a, c, (0, b""), flags={2: 2}) == ([(b"abcd", 0), (b"ijkl", 4)], ""))
    waits = m.pcap([m.ethernet(m.ip(m.tcp(b"abcd", 9, options=bytes([1, 1, 1, 0]))))])
    expect("options", [it[2] for it in cut_out(waits)[0]] == [b"abcd"])
    expect("a gap, then its bytes too late", stream(a, c, (12, b""), flags={2: 17}) == ([(b"abcd", 0), (b"ijkl", 4)], ""))
    opened = [(-1, b""), a, c, b]
    expect("a beginning", stream(*opened, flags={0: 2}) == (in_order, ""))
    expect("nothing before its beginning", stream((-1, b""), b, flags={0: 2}) == ([(b"efgh", 4)], ""))
    expect("a second one on the same ports", stream(a, (999, b""), (1000, b"wxyz"), flags={1: 2}) == ([(b"abcd", 0), (b"wxyz", 0)], ""))
    far = [(at, bytes(1000)) for at in range(1004, 1004 + 2000 * 1000, 1000)]
    found, _ = stream(a, *far)
    expect("a gap that ends", found[1] == (bytes(1000), 1000) and sum(len(it) for it, _ in found) == 4 + 2000 * 1000)
    for name, size, count in (("bytes", 1400, 800), ("segments", 1, 1100)):
        waiting = [m.tcp(b"ab", 0), *(m.tcp(bytes(size), 9 + it * size) for it in range(count)), m.udp(b"last")]
        found = cut_out(m.pcap([m.ethernet(m.ip(it)) for it in waiting]))[0]
        expect(f"a gap that is not waited for, by {name}", found[-1][2] == b"last" and sum(it[3] for it in found) == 7)
    many = [m.ethernet(m.ip(m.tcp(b"x", 1, ("10.0.0.1", 1024 + it)))) for it in range(1030)]
    expect("many streams", cut_out(m.pcap(many))[1] == "6 streams beyond those that are followed at a time")


def test_preambles():
    """Preambles: bytes, sequence numbers in all forms, lengths, the ten bytes of B3."""
    def cut(payloads, *words):
        return [(it[1], it[2], it[4]) for it in cut_out(m.pcap([m.ethernet(m.ip(m.udp(it))) for it in payloads]), *words)[0]]

    expect("skip", cut([b"12345abc"], "--skip", "5") == [(None, b"abc", "")])
    expect("skip all", cut([b"12345"], "--skip", "5") == [(None, b"", "")])
    expect("skip more", cut([b"1234", b"12345a"], "--skip", "5") == [(None, b"", "damaged preamble 4 of 5"), (None, b"a", "")])
    numbers = {"be4": 0x01020304, "le4": 0x04030201, "be8": 0x0102030405060708, "le8": 0x0807060504030201, "le2": 513, "be1": 1}
    for form, number in numbers.items():
        size = int(form[2:])
        data = bytes(range(1, 12))
        expect(form, cut([data], "--sequence", form) == [(number, data[size:], "")])
        expect(f"{form} and more", cut([data], "--skip", "9", "--sequence", form) == [(number, data[9:], "")])
    expect("lengths", cut([b"\0\3abc\0\0\0\1d"], "--length", "be2") == [(None, b"abc", ""), (None, b"", ""), (None, b"d", "")])
    expect("lengths, numbers", cut([b"\3\0\7ab\2\0\x08c"], "--length", "le2", "--sequence", "le1") == [(7, b"ab", ""), (8, b"c", "")])
    found = [(None, b"abc", ""), (None, b"", "damaged length 6 of 3"), (None, b"e", "")]
    expect("a length too long", cut([b"\0\3abc\0\4d", b"\0\1e"], "--length", "be2") == found)
    expect("half a length", cut([b"\0"], "--length", "be2") == [(None, b"", "damaged length 2 of 1")])
    expect("a length of gigabytes", cut([b"\x80\0\0\0a"], "--length", "be4") == [(None, b"", "damaged length 2147483652 of 5")])
    endless = m.segments((0, b"\x80\0\0\0a"), (5, b"\0\0\0\1b"))
    found = [(b"", 0, "damaged length 2147483652 of 5"), (b"b", 0, "")]
    expect("a length of gigabytes in a stream", [it[2:] for it in cut_out(endless, "--length", "be4")[0]] == found)
    stream = m.segments((0, b"\0\3a"), (3, b"bc\0"), (6, b"\1d\0\7"), (10, b"e"), (15, b"\0\2fg"))
    wrong = [(b"abc", 0, ""), (b"d", 0, ""), (b"", 4, "damaged length 9 of 3"), (b"fg", 0, "")]
    expect("lengths in a stream", [it[2:] for it in cut_out(stream, "--length", "be2")[0]] == wrong)
    ended = m.segments((0, b"\0\3abc\0\4d"))
    found = [(b"abc", 0, ""), (b"", 0, "damaged length 6 of 3")]
    expect("a stream that ends inside one", [it[2:] for it in cut_out(ended, "--length", "be2")[0]] == found)


def test_b3():
    """Messages in one chunk and in several, which may come in any order, and missing chunks."""
    def head(number, many, which, data, length=None):
        numbers = (number, 4), (many, 2), (which, 2), (len(data) if length is None else length, 2)
        return b"".join(it.to_bytes(size, "big") for it, size in numbers) + data

    def cut(*payloads):
        return [(it[1], it[2], it[4]) for it in cut_out(m.pcap([m.ethernet(m.ip(m.udp(it))) for it in payloads]), "--b3")[0]]

    expect("b3", cut(head(7, 1, 1, b"abc"), head(8, 1, 1, b"")) == [(7, b"abc", ""), (8, b"", "")])
    chunks = head(7, 3, 1, b"ab"), head(7, 3, 3, b"e"), head(7, 3, 2, b"cd"), head(8, 1, 1, b"f")
    expect("b3 chunks", cut(*chunks) == [(7, b"abcde", ""), (8, b"f", "")])
    expect("b3 missing", cut(head(7, 2, 1, b"ab"), head(8, 1, 1, b"c")) == [(7, b"", "damaged chunks 1 of 2"), (8, b"c", "")])
    expect("b3 missing at the end", cut(head(8, 1, 1, b"c"), head(9, 2, 2, b"ab")) == [(8, b"c", ""), (9, b"", "damaged chunks 1 of 2")])
    for length in (2, 4):
        expect("b3 length", cut(head(7, 1, 1, b"abc", length)) == [(7, b"abc", f"damaged length {length} of 3")])
    for which in (0, 3):
        expect("b3 chunk", cut(head(7, 2, which, b"abc")) == [(7, b"abc", f"damaged chunk {which} of 2")])
    expect("b3 chunk twice", cut(head(7, 2, 1, b"ab"), head(7, 2, 1, b"xx"), head(7, 2, 2, b"c")) == [(7, b"abc", "")])
    in_tcp = m.segments((0, head(7, 1, 1, b"abc")), (13, b""), flags={1: 17})
    expect("b3 in a stream", [it[2:] for it in cut_out(in_tcp, "--b3")[0]] == [(b"abc", 0, "")])
    flows = [m.udp(head(7, 2, 1, b"a"), ("10.0.0.1", it)) for it in range(1030)] + [m.udp(head(8, 1, 1, b"b"))]
    found = cut_out(m.pcap([m.ethernet(m.ip(it)) for it in flows]), "--b3")[0]
    expect("b3 flows", len(found) == 1031 and found[6][2] == b"b")
    expect("b3 short", cut(b"123456789") == [(None, b"", "damaged preamble 9 of 10")])
    expect("b3 large", cut(*(head(7, 65535, it + 1, bytes(1400)) for it in range(750)))[0] == (7, b"", "damaged chunks 749 of 65535"))


def whole_of(capture, kind):
    """Returns a capture, and the offsets at which its records or blocks end."""
    at, ends = (24, [24]) if kind == "pcap" else (0, [0])
    while at < len(capture):
        at += 16 + int.from_bytes(capture[at + 8 : at + 12], "little") if kind == "pcap" else int.from_bytes(capture[at + 4 : at + 8], "little")
        ends.append(at)
    return ends


def test_cut():
    """A capture that is truncated at any byte yields the packets that are whole before it, and reports where it ends."""
    frames = [m.ethernet(m.ip(m.udp(it))) for it in PAYLOADS]
    for kind, capture in (("pcap", m.pcap(frames)), ("pcapng", m.pcapng(frames))):
        ends, all_found = whole_of(capture, kind), cut_out(capture)[0]
        for at in sorted({*range(0, len(capture), 5), *range(64), *(end + it for end in ends for it in (-1, 0, 1) if end + it < len(capture))}):
            found, ended = cut_out(capture[:at])
            is_whole = at in ends[1:] or at == ends[0] > 0
            said = "" if is_whole else "capture: it is empty: give a capture" if at == 0 else None
            is_told = ended == said if said is not None else at < 4 or ended.startswith(f"capture: it ends at byte {at}, ")
            many = sum(end <= at for end in ends[1:]) if kind == "pcap" else len(found)
            expect(f"{kind} cut at {at}", is_told and found == all_found[:many] and (kind == "pcap" or len(found) <= len(PAYLOADS)))
        expect(f"{kind} whole", len(all_found) == len(PAYLOADS))


def test_damaged():
    """Damaged captures are read as far as possible, with any arguments, or end with a line that says where."""
    chance = random.Random(20261129)
    frames = [m.ethernet(m.ip(m.udp(it)), (0x8100,)) for it in PAYLOADS] + [m.ethernet(m.ip(m.tcp(it, it[0] * 9))) for it in PAYLOADS]
    captures = (m.pcap(frames), m.pcapng(frames, 1, ">"), m.pcap([m.cooked_2(m.ip(m.udp(it, m.FROM_6, m.TO_6))) for it in PAYLOADS], 276, ">", False))
    words = ((), ("--skip", "3", "--sequence", "le2"), ("--length", "be2"), ("--length", "le4"), ("--b3",), ("--port", "30002"))
    ended = set()
    for _ in range(600):
        capture = bytearray(chance.choice(captures))
        for _ in range(chance.choice((1, 1, 3, 20))):
            capture[chance.randrange(len(capture))] = chance.choice((0, 1, 127, 128, 255, chance.randrange(256)))
        ended.add(cut_out(bytes(capture), *chance.choice(words))[1].partition(" ")[2][:12])
    expect("damaged in several ways", len(ended) > 8)
