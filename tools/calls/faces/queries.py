"""queries.py LIBRARY FILE: writes what a template set answers to each query of the module talvrugon, as queries.c does."""

import os
import sys

sys.path.insert(0, os.path.join(os.path.dirname(os.path.abspath(__file__)), "../../../bindings/python"))
import talvrugon
from talvrugon import queries

NAMES = ("All", "Nested.One", "Part", "", "al", "All.a", "\udcff")
PATHS = ("a", "e", "i", "", ".", "x", "x.s", "x.s.t", "x.y.z", "x.s.y", "x.s.y.z", "x.s.y.z.z", "x.", ".x", "x..s", "n", "x-y.z")
STREAM = bytes((0xE0, 0x80, 0xC0, 0x81, 0x82, 0xC0, 0x81, 0x81, 0x80, 0x80, 0x80, 0xC0, 0x87, 0x80))


def number(name, it):
    return f" {name} {'-' if it is None else it}"


def body(nodes):
    return " body" + "".join(f" {it}" for it in nodes)


def template_line(templates, at):
    """Returns the line of a template; of one that is not there, what queries.c writes of it."""
    try:
        it = templates.template(at)
    except IndexError:
        return f"template {at}: 0 id 9 9 reset 9 body"
    return f"template {at}: 1 id {int(it.id is not None)} {it.id or 0} reset {int(it.reset)}{body(it.body)}"


def node_line(templates, at):
    """Returns the line of a node; of one that is not there, what queries.c writes of it."""
    try:
        it = templates.node(at)
    except IndexError:
        return f"node {at}: 0 type 9 optional 9 op 9 entry 9 mantissa 9 entry 9 parent - template - body"
    kind, op, mantissa = queries.TYPES.index(it.type), queries.OPERATORS.index(it.op), queries.OPERATORS.index(it.mantissa_op)
    uses = f"op {op}{number('entry', it.entry)} mantissa {mantissa}{number('entry', it.mantissa_entry)}"
    place = number("parent", it.parent) + number("template", it.template)
    return f"node {at}: 1 type {kind} optional {int(it.optional)} {uses}{place}{body(it.body)}"


def due(templates):
    decoder = templates.decoder()
    for at in range(len(STREAM) + 1):
        what, node = decoder.in_hand
        print(f"after {at}: {queries.AWAITED.index(what)} {node or 0}")
        try:
            decoder.feed(STREAM[at : at + 1])
        except talvrugon.Error:
            pass


def check_words(templates):
    """Checks the words of types, operators and what a decoder waits for, the names, and what numbers and absence are returned as."""
    types = [templates.node(at).type for at in (0, 1, 2, 3, 4, 6, 7, 8, 5, 9, 11)]
    assert types == "uInt32 int32 uInt64 int64 decimal ascii unicode bytes decimalParts group sequence".split(), types
    operators = [templates.node(at).op for at in (7, 2, 4, 0, 1, 3, 6)]
    assert operators == "none constant default copy increment delta tail".split(), operators
    template, node = templates.template(0), templates.node(1)
    assert (template.name, template.reset, node.name, node.optional, templates.node(0).optional) == ("All", True, "b", True, False)
    assert template.reset is True and node.optional is True
    assert templates.message_cap() == templates.message_cap(max_elements=1000, max_total=1000) < templates.message_cap(max_total=1001)
    assert templates.message_cap() > templates.message_cap(max_elements=400) and templates.find_node(0, "\udcff") is None
    with templates.decoder() as decoder:
        assert decoder.in_hand == ("message", None)
        for piece, due in ((STREAM[:2], ("map", None)), (STREAM[2:3], ("node", 10)), (STREAM[3:11], ("message", None))):
            decoder.feed(piece)
            assert decoder.in_hand == due, decoder.in_hand
        refuses(talvrugon.Error, decoder.feed, STREAM[11:13])
        assert decoder.in_hand == ("node", 0), decoder.in_hand
    refuses(talvrugon.Error, lambda: decoder.in_hand)


def refuses(error, call, *given):
    """Says where a number out of range is not refused by name."""
    try:
        call(*given)
    except error:
        return
    sys.exit(f"calls: queries.py: {call.__name__}{given} is taken")


def main(library, path):
    with open(path, encoding="utf-8") as file:
        it = talvrugon.Library(library).set(file.read())
    sizes = f"{it.templates} templates {it.nodes} nodes {it.entries} entries {it.depth} deep"
    print(f"{sizes} {it.message_cap(max_elements=10, max_total=30)} events")
    for at in range(it.templates + 1):
        print(template_line(it, at))
    for at in range(it.nodes + 1):
        print(node_line(it, at))
    found = [number("?" if name == "\udcff" else name, it.find_template(name)) for name in NAMES]
    print("".join(found + [number("id", it.find_template(which)) for which in (0, 7, 1)]))
    for at in range(4):
        print(f"in {at}:" + "".join(number(path, it.find_node(at, path)) for path in PATHS))
    due(it)
    check_words(it)
    for call in (it.message_cap, it.find_template, it.template, it.node):
        refuses(ValueError, call, -1)
        refuses(ValueError, call, 1 << 32)
        refuses(TypeError, call, 1.5)
    refuses(ValueError, it.find_node, -1, "a")


if __name__ == "__main__":
    main(*sys.argv[1:])
