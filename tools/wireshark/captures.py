"""The captures of the test, and the feeds that they are of."""

import os
import random
import shutil
import sys
from dataclasses import dataclass

HERE = os.path.dirname(os.path.realpath(__file__))
TOP = os.path.dirname(os.path.dirname(HERE))
sys.path.insert(0, f"{TOP}/tools/packets")
import making as m

EXAMPLE = f"{TOP}/examples/packets"

# A name with a point, a name of the dissector itself, and one with two types; a sequence without presence maps, whose one field may be null; an
# optional group; decimals of both forms.
NAMES = """[[template]]
name = "first.template"
id = 1
fields = [
    { kind = "uInt32", name = "Order-Side.1" },
    { kind = "int64", name = "fault", optional = true },
    { kind = "decimal", name = "Price" },
    { kind = "group", name = "Header", optional = true, fields = [
        { kind = "decimal", name = "Yield", exponent = { op = "default", value = "-2" }, mantissa = { op = "copy" }, optional = true },
        { kind = "group", name = "Inner", fields = [{ kind = "unicode", name = "Text", op = "tail" }] },
    ] },
    { kind = "sequence", name = "Legs", optional = true, fields = [{ kind = "uInt32", name = "Leg", optional = true }] },
]

[[template]]
name = "second"
id = 2
reset = true
fields = [
    { kind = "ascii", name = "Price", op = "delta" },
    { kind = "bytes", name = "Data", op = "tail", value = "0102" },
    { kind = "uInt64", name = "Big", op = "constant", value = "18446744073709551615" },
]
"""
# Packets of these.
NAMED = ("e08181ffff85a081c082414284818086", "e08181ffff85a081c082414284818086808280818380a083808081c0808081", "c0828041c2", "e0828041c282ff01")


@dataclass
class Feed:
    """A feed: its port, its row of the table, the options of tools/packets/run, and its payloads."""

    name: str
    port: int
    templates: str
    payloads: list
    words: list
    skip: int = 0
    sequence: str = ""
    reset: bool = False
    fields: str = ""
    is_stream: bool = False
    cuts: tuple = ()
    is_both_ways: bool = False

    def row(self):
        kind = "TCP" if self.is_stream else "UDP"
        words = (kind, self.port, self.templates, self.fields, self.sequence, self.skip, "TRUE" if self.reset else "FALSE")
        return ",".join(f'"{it}"' for it in words)

    def options(self):
        words = ["--reset", "always" if self.reset else "never", "--skip", str(self.skip), "--port", str(self.port)]
        words += ["--port", str(m.FROM[1])] if self.is_both_ways else []
        return words + (["--sequence", self.sequence] if self.sequence else []) + self.words + [self.templates]

    def packets(self):
        """Returns the frames of the payloads; a stream is split at its cuts."""
        to = ("239.1.2.3", self.port)
        if self.is_both_ways:
            ways = {"source": m.FROM, "to": to}, {"source": to, "to": m.FROM}
            return [m.ethernet(m.ip(m.udp(it, **way))) for it in self.payloads for way in ways]
        if not self.is_stream:
            return [m.ethernet(m.ip(m.udp(it, to=to))) for it in self.payloads]
        stream, at, made = b"".join(self.payloads), 0, []
        while at < len(stream):
            size = self.cuts[len(made) % len(self.cuts)]
            made.append(m.ethernet(m.ip(m.tcp(stream[at : at + size], 1000 + at, to=("10.0.0.2", self.port)))))
            at += size
        return made


def hexes(path):
    with open(path, encoding="ascii") as it:
        return [bytes.fromhex(line) for line in it]


def damaged(payloads, chance):
    """Returns each payload whole, with another byte, truncated, and with the start of a second one after it."""
    made = []
    for it in payloads:
        place = chance.randrange(len(it))
        made += [it, it[:place] + bytes([chance.randrange(256)]) + it[place + 1 :], it[:place], it + it[:place]]
    return made


def feeds(folder):
    """Returns the feeds, with the files that they need in a folder."""
    chance = random.Random(20261129)
    example, templates = hexes(f"{EXAMPLE}/packets.hex"), shutil.copy(f"{EXAMPLE}/templates.toml", folder)
    made = [Feed("example", 30002, templates, example, [], 5, "be4", True, f"{folder}/fields.tsv")]
    for number, name in enumerate(("trades", "increments", "snapshots")):
        messages = hexes(f"{TOP}/examples/{name}/stream.hex")
        path = shutil.copy(f"{TOP}/examples/{name}/templates.toml", f"{folder}/{name}.toml")
        numbered = [(7 + at).to_bytes(4, "little") + it for at, it in enumerate(messages[:99])]
        made.append(Feed(name, 30010 + number, path, numbered, [], 4, "le4"))
        cuts = (1, 2, 3, 50, 20, 1, 140, 97, 33)
        made.append(Feed(f"{name} in a stream", 30020 + number, path, messages[:200], [], is_stream=True, cuts=cuts))
        if name == "increments":
            made.append(Feed("both ways", 30070, path, messages[:20], [], is_both_ways=True))
        made.append(Feed(f"{name} damaged", 30030 + number, path, damaged(messages[:16], chance), []))
    heads = [it[5:] for it in example]
    made.append(Feed("damaged", 30040, templates, [b"ab" + it for it in damaged(heads * 2, chance)] + [b"a", b"ab"], [], 2, reset=True))
    made.append(Feed("texts", 30050, templates, [texts()], [], reset=True))
    with open(f"{folder}/names.toml", "w", encoding="utf-8") as it:
        it.write(NAMES)
    messages = [bytes.fromhex(it) for it in NAMED]
    made.append(Feed("names", 30060, f"{folder}/names.toml", messages + damaged(messages * 5, chance), [], reset=True))
    return made


def texts():
    """Returns a message with the characters that can be displayed as they are, some others, and all bytes of a byte vector."""
    text = bytes(range(32, 127)) + "é€𝄞".encode()
    length = bytes([len(text) + 1 >> 7, len(text) + 1 & 127 | 128])
    return b"".join((bytes.fromhex("c09f07f10153bd"), length, text, b"\x02\x81", bytes(range(256))))
