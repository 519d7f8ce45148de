"""What tshark shows of captures, and what tools/packets/run shows of them, in one form: a list of lines for each packet."""

import json
import re
import xml.etree.ElementTree as tree
from dataclasses import dataclass

# The fields of the dissector itself.
HEADS = ("fast.packet_sequence", "fast.preamble")
SILENT = ("fast.map", "fast.template_id", "fast.length", "fast.absent", "fast.rest")
LETTERS = {"FT_UINT64": "u", "FT_INT64": "i", "FT_DOUBLE": "d", "FT_STRING": "s", "FT_BYTES": "b"}
CONTROL = re.compile(r"[\x00-\x1f\x7f]")
ESCAPE = re.compile(rb"\\(?:x(..)|(.))", re.S)


@dataclass
class Item:
    """An item of the tree: its filter name, label, value, offset and bytes, and the items in it."""

    filter: str
    label: str
    show: str
    pos: int
    size: int
    data: bytes
    items: list

    @property
    def name(self):
        return re.sub(r"(?: \(\d+\))?: .*|: $", "", self.label, flags=re.S)

    @property
    def is_container(self):
        return self.filter in ("fast.message", "fast.element") or bool(self.items)

    def leaves(self):
        """Yields the items without others in them, in order."""
        if not self.is_container:
            yield self
        for it in self.items:
            yield from it.leaves()

    def all(self):
        yield self
        for it in self.items:
            yield from it.all()


def item(element):
    """Returns the item of an element of PDML."""
    of = element.get
    data, items = bytes.fromhex(of("value", "")), [item(it) for it in element if it.tag == "field"]
    return Item(of("name"), of("showname", ""), of("show", ""), int(of("pos")), int(of("size")), data, items)


def frames_of_pdml(text):
    """Returns the items of the protocol in each frame: a list for each, one entry for each time that it is there."""
    found = []
    for packet in tree.fromstring(text).iter("packet"):
        found.append([item(it) for it in packet if it.get("name") == "fast"])
    return found


def unescaped(text):
    """Returns a string of a line as its bytes."""
    return ESCAPE.sub(lambda it: bytes.fromhex(it[1].decode()) if it[1] else it[2], text)


def due_line(line):
    """Returns a line of tools/packets/run without what a tree does not have: the numbers of nodes, and the two types of strings apart."""
    words = line.split(b" ", 4)
    if words[0] == b"field":
        letter, value = words[3].decode(), words[4] if len(words) > 4 else b""
        if letter in "as":
            return f"{words[2].decode()} s", unescaped(value[1:-1]).decode().replace("\0", "\\x00")
        return f"{words[2].decode()} {letter}", value.decode()
    if words[0] in (b"group", b"sequence"):
        return f"{words[0].decode()} {words[2].decode()}", b" ".join(words[3:]).decode()
    return words[0].decode(), b" ".join(words[1:]).decode()


def without_offset(depth, what, value):
    """Returns a line, that of a fault without its offset."""
    return depth, what, value.partition(" ")[0] if what in ("fault", "truncated") else value


def due(lines, is_stream=False):
    """Returns the lines of a packet with their depths. The offsets of faults in a stream are left out: a tree counts from its piece."""
    depth, made = 0, []
    for line in lines.splitlines():
        if line.startswith(b"end "):
            depth -= 1
            continue
        what, value = due_line(line)
        if what in ("fault", "truncated", "cut", "damaged"):
            made.append(without_offset(0, what, value) if is_stream else (0, what, value))
        elif what != "gap":
            made.append((depth, what, value))
        if what in ("message", "element", "group", "sequence") or what.startswith(("group ", "sequence ")):
            depth += 1
    return made


def fault_of(item):
    """Returns the fault of a packet as tools/packets/run writes it."""
    found = re.fullmatch(r"Fault: (.*); at byte (\d+)(?:, .*)?", item.label)
    if not found:
        what, _, value = item.show.partition(" ")
        return what, value
    if item.show.startswith("the packet ends"):
        return "truncated", f"at {found[2]}"
    return "fault", f"{item.show[:2]} at {found[2]}"


def decimal_of(item):
    """Returns the exact value beside the nearest double; a decimal of which the double is another one has none."""
    value, exact = re.fullmatch(r".*?: (\S+) \((\S+)\)", item.label).groups()
    return exact if float(exact) == float(item.show) and abs(float(value) - float(exact)) <= 1e-14 * abs(float(exact)) else ""


def line_of(item, types):
    """Returns the line of an item; None for one that tools/packets/run does not show."""
    if item.filter in SILENT or item.filter in HEADS:
        return None
    if item.filter in ("fast.message", "fast.element"):
        return item.filter[5:], item.show if item.filter == "fast.message" else ""
    if item.filter == "fast.fault":
        return fault_of(item)
    if ": " not in item.label:
        return f"group {item.label}", ""
    if item.items and item.items[0].filter == "fast.length":
        return f"sequence {item.name}", item.show
    letter = LETTERS.get(types.get(item.filter), "")
    value = decimal_of(item) if letter == "d" else item.show.replace(":", "") if letter == "b" else item.show
    return f"{item.name} {letter}", value


def shown(items, types, depth=0):
    """Yields the lines of items with their depths, those of faults with 0."""
    for it in items:
        line = line_of(it, types)
        if line:
            is_fault = line[0] in ("fault", "truncated", "cut", "damaged")
            yield 0 if is_fault else depth, *line
        yield from shown(it.items, types, depth + 1)


def adopt(items, values):
    """Takes the values of strings from JSON, since PDML has others for control characters. Returns whether all others are the same."""
    is_same = len(items) == len(values)
    for it, (name, value, inner) in zip(items, values):
        is_same &= it.filter == name and (it.show == value or CONTROL.search(value) is not None) and adopt(it.items, inner)
        it.show = value
    return is_same


def type_names(header):
    """Returns the names of the types of fields by their numbers, from a header of Wireshark."""
    with open(header, encoding="utf-8") as it:
        return re.findall(r"^\t(FT_\w+)", re.search(r"enum ftenum \{(.*?)\}", it.read(), re.S)[1], re.M)


def of_json(text, types, names):
    """Returns the values of the protocol in each frame of JSON: lists of filter name, value and what is within. Adds the types of the fields
    with bytes to `types`, by filter name."""

    def values(pairs):
        made = []
        for name, value in pairs:
            if name.endswith("_raw"):
                types[name[:-4]] = names[value[4]]
            elif name.endswith("_tree"):
                made[-1][2].extend(values(value))
            else:
                made.append((name, value if isinstance(value, str) else "", values(value) if isinstance(value, list) else []))
        return made

    frames = []
    for frame in json.loads(text, object_pairs_hook=list):
        layers = dict(dict(frame)["_source"])["layers"]
        frames.append([values(value) if isinstance(value, list) else [] for name, value in layers if name == "fast"])
    return frames
