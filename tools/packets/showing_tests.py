"""Tests of the output for packets, compared with that of `fastcat show` for the same bytes."""

import random
import re
import subprocess
import time

import making as m
from common import HERE, MADE, TOP, content, expect, run, shown

EXAMPLES = ("trades", "increments", "snapshots")


def example(name):
    """Returns the template file of an example, its messages, and the lines of each."""
    folder = f"{TOP}/examples/{name}"
    lines = re.findall(r"message .*?\nend message\n", content(f"{folder}/stream.lines").decode(), re.S)
    return f"{folder}/templates.toml", [bytes.fromhex(it) for it in content(f"{folder}/stream.hex").decode().split()], lines


def headed(lines, flow="239.1.2.3:30002", sequence="-", step=1):
    """Returns the lines of packets, each after its header line."""
    made = []
    for number, it in enumerate(lines):
        seconds, parts = divmod(m.time_of(number) // step * step, 10**9)
        day = time.strftime("%Y-%m-%dT%H:%M:%S", time.gmtime(seconds))
        made.append(f"packet {number} {day}.{parts:09}Z {flow} {sequence if sequence == '-' else sequence + number}\n{it}")
    return "".join(made).encode()


def test_shows():
    """Packets of one message each, whose dictionary continues, have the lines of `fastcat show`, in datagrams and in a stream."""
    for name in EXAMPLES:
        templates, messages, lines = example(name)
        all_lines = shown(templates, b"".join(messages))
        expect(f"{name} by fastcat", all_lines.decode() == "".join(lines))
        numbered = [(7 + number).to_bytes(4, "little") + it for number, it in enumerate(messages)]
        capture = m.pcap([m.ethernet(m.ip(m.udp(it))) for it in numbered])
        words = ("--reset", "never", "--sequence", "le4", templates)
        expect(f"{name} in datagrams", run(*words, "-", stdin=capture) == (0, headed(lines, sequence=7), ""))
        stream, at, segment = b"".join(messages), 0, []
        for size in (1, 2, 3, 500, 20, 1, 1400, *[97] * 1000):
            segment.append(m.ethernet(m.ip(m.tcp(stream[at : at + size], at))))
            at += size
        status, out, said = run("--reset", "never", templates, stdin=m.pcapng(segment[: at // 97]))
        is_whole = re.sub(rb"packet .*\n", b"", out) == all_lines[: len(re.sub(rb"packet .*\n", b"", out))]
        expect(f"{name} in a stream", is_whole and said == "" and status in (0, 1))


def payloads():
    """Returns the messages of each packet of the example, without the five bytes before them."""
    return [bytes.fromhex(it)[5:] for it in content(f"{TOP}/examples/packets/packets.hex").decode().splitlines()]


def packets_of(out):
    """Returns the lines of each packet, without its header line."""
    return [it.partition(b"\n")[2] for it in re.split(rb"^(?=packet )", out, flags=re.M)[1:]]


def test_faults():
    """Each packet that starts afresh, damaged or not, has the lines that `fastcat show` prints for its bytes, and so have those after
    it."""
    templates = f"{TOP}/examples/packets/templates.toml"
    heads = [it for it in payloads() if shown(templates, it).endswith(b"end message\n")]
    chance, damaged = random.Random(20261129), []
    for it in heads * 4:
        place = chance.randrange(len(it))
        damaged += [it, it[:place] + bytes([chance.randrange(256)]) + it[place + 1 :], it[:place], it + it[:place]]
    capture = MADE.file("damaged.pcap", m.pcap([m.ethernet(m.ip(m.udp(b"ab" + it))) for it in damaged]))
    status, out, said = run("--reset", "always", "--skip", "2", templates, capture)
    parts = packets_of(out)
    expect("damaged packets", status == 1 and said == "" and len(parts) == len(damaged))
    alone = [shown(templates, it) for it in damaged]
    expect("damaged packets as fastcat shows them", parts == alone)
    kinds = {it for part in alone for it in re.findall(rb"^(?:fault \w\w|truncated)", part, re.M)}
    expect("damaged packets of more than one kind", len(kinds) > 3 and sum(it.endswith(b"end message\n") for it in alone) > len(damaged) // 4)
    for number in (0, 1, 17, len(damaged) - 1):
        expect(f"the bytes of packet {number}", run("--packet", str(number), "--skip", "2", capture) == (0, damaged[number], ""))
    named = run("--packet", str(len(damaged)), capture)
    expect("no such packet", named == (1, b"", f"packets: {capture}: it has {len(damaged)} packets, from 0: no packet {len(damaged)}\n"))


def test_goes_on():
    """A packet with a fault ends a dictionary that continues; each flow has its own, and a gap ends that of a stream."""
    templates, messages, lines = example("increments")
    other = ("239.1.2.4", 30002)
    frames = [m.ethernet(m.ip(m.udp(it, to=to))) for it in messages[:40] for to in (m.TO, other)]
    out = run("--reset", "never", templates, stdin=m.pcap(frames))
    expect("two flows", out[0] == 0 and packets_of(out[1]) == [it.encode() for it in lines[:40] for _ in range(2)])
    first, second = messages[0], messages[1]
    cut = [m.ethernet(m.ip(m.udp(it))) for it in (first, second[:-1], first, second)]
    out = run("--reset", "never", templates, stdin=m.pcap(cut))
    is_cut = packets_of(out[1])[1].endswith(b"\ntruncated at %d\n" % (len(second) - 1))
    expect("a cut packet", out[0] == 1 and packets_of(out[1])[2:] == [it.encode() for it in lines[:2]] and is_cut)
    out = run("--reset", "never", templates, stdin=m.segments((0, first), (len(first) + 9, first + second)))
    gap = [lines[0].encode(), b"gap 9\n" + (lines[0] + lines[1]).encode()]
    expect("a gap", out[0] == 1 and packets_of(out[1]) == gap)
    out = run("--reset", "never", templates, stdin=m.segments((0, first + second[:-2]), (0, b""), flags={1: 17}))
    end = rb"packet 0 .*\n(?s:.*)packet - 2010-11-17T13:20:01\.500000125Z 10\.0\.0\.1:30001>239\.1\.2\.3:30002 -\ntruncated at %d\n"
    expect("a stream that ends inside a message", out[0] == 1 and re.fullmatch(end % (len(first + second) - 2), out[1]) is not None)


def test_wrong():
    """The fault of a packet itself follows the lines of its bytes."""
    templates, first = f"{TOP}/examples/packets/templates.toml", payloads()[0]
    whole, frame = shown(templates, first), m.ethernet(m.ip(m.udp(first)))
    cut = run("--reset", "always", templates, stdin=m.pcap([frame], most=52))
    expect("a packet that the capture cuts", cut[0] == 1 and packets_of(cut[1]) == [shown(templates, first[:10]) + b"cut 10 of %d\n" % len(first)])
    short = m.pcap([m.ethernet(m.ip(m.udp(it))) for it in (b"abc", b"abcde" + first)])
    out = run("--reset", "always", "--skip", "5", templates, stdin=short)
    expect("a packet shorter than its preamble", out[0] == 1 and packets_of(out[1]) == [b"damaged preamble 3 of 5\n", whole])
    fragment = m.pcap([m.ethernet(m.ip(m.udp(first), 0x2000)), frame])
    out = run("--reset", "always", templates, stdin=fragment)
    expect("a fragment", out[::2] == (1, "packets: -: 1 fragments of IP passed over\n") and packets_of(out[1]) == [whole])


def test_large():
    """A packet of more events than the library returns in one call starts afresh once."""
    templates, sent = f"{TOP}/examples/packets/templates.toml", bytes.fromhex("c0018581") + b"\x80\x81" * 30000
    out = run("--reset", "always", templates, stdin=m.pcap([m.ethernet(m.ip(m.udp(sent)))]))
    expect("a large packet", out[0] == 0 and packets_of(out[1]) == [shown(templates, sent)] and out[1].count(b"end message\n") == 30001)


def test_texts():
    """All characters of a string, and all bytes of a byte vector, are written as fastcat writes them."""
    templates, text = f"{TOP}/examples/packets/templates.toml", bytes(range(128)) + "é€𝄞".encode()
    sent = b"".join((bytes.fromhex("c09f07f10153bd"), bytes([len(text) + 1 >> 7, len(text) + 1 & 127 | 128]), text, b"\x02\x81", bytes(range(256))))
    out = run("--reset", "always", templates, stdin=m.pcap([m.ethernet(m.ip(m.udp(sent)))]))
    expect("texts", out[0] == 0 and packets_of(out[1]) == [shown(templates, sent)] and out[1].count(b"\n") == 8)


def test_limits():
    """Limits and strict mode are those of fastcat."""
    templates = f"{TOP}/examples/packets/templates.toml"
    # of two elements, of a string of 17 bytes, and of an integer with one byte too many
    sent = [payloads()[4], bytes.fromhex(f"c09f07f10153bd92{'41' * 17}80"), bytes.fromhex("c001850007ef")]
    capture = m.pcap([m.ethernet(m.ip(m.udp(it))) for it in sent])
    faults = {(): None, ("--max-elements", "1"): b"L2", ("--max-total", "1"): b"L5", ("--max-text", "16"): b"L1", ("--strict",): b"R6"}
    for words, fault in faults.items():
        out = run("--reset", "always", *words, templates, stdin=capture)[1]
        is_there = fault is None or b"\nfault %b at" % fault in out
        expect(f"limits {words}", is_there and packets_of(out) == [shown(templates, it, *words) for it in sent])


def test_example():
    """The capture of the example is what the script makes from its packets, and has its lines; each packet is shown as by `fastcat
    show`."""
    folder = f"{TOP}/examples/packets"
    made = subprocess.run([f"{HERE}/making.py", f"{folder}/packets.hex"], stdout=subprocess.PIPE).stdout
    expect("the example's capture", made == content(f"{folder}/capture.pcap"))
    words = ("--skip", "5", "--sequence", "be4", f"{folder}/templates.toml", f"{folder}/capture.pcap")
    out = run("--reset", "always", *words)
    expect("the example's lines", out == (1, content(f"{folder}/capture.lines"), ""))
    sent = payloads()
    expect("the example as fastcat shows it", packets_of(out[1]) == [shown(words[4], it) for it in sent])
    bare = [m.ethernet(m.ip(m.udp(it))) for it in (sent[0], sent[3] + sent[5], sent[4])]
    wrong = run("--reset", "never", words[4], stdin=m.pcap([m.ethernet(m.ip(m.udp(it))) for it in sent[:3]]))
    prices = re.findall(rb"MDEntryPx d (\d+)e0", wrong[1])
    expect("wrong prices where the dictionary goes on", wrong[0] == 0 and prices == [b"129700", b"259425", b"389125"])
    expect("two messages in a packet", run("--reset", "always", words[4], stdin=m.pcap(bare))[0] == 0)
