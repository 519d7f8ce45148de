"""Queries of a template set: what its templates and nodes are, and how they are found by name."""

from __future__ import annotations

import ctypes as c
from ctypes import byref
from typing import Any, NamedTuple

from .calls import integer, numbers_of

NONE = 0xFFFFFFFF

TYPES = ("", "uInt32", "int32", "uInt64", "int64", "decimal", "ascii", "unicode", "bytes", "decimalParts", "group", "sequence")
OPERATORS = ("none", "constant", "default", "copy", "increment", "delta", "tail")
AWAITED = ("message", "map", "node")

U = c.c_uint32


class Template(NamedTuple):
    """A template: its name, its identifier (None where it cannot be sent), whether a message of it resets the dictionary, and its nodes."""

    name: str
    id: int | None
    reset: bool
    body: list[int]


class Node(NamedTuple):
    """A field, group or sequence.

    type: one of TYPES. op: one of OPERATORS; of a sequence that of its length, of a decimal in two parts that of its exponent, of a group "none".
    entry: the dictionary entry of the operator, or None. mantissa_op, mantissa_entry: of a decimal in two parts, else "none" and None. parent: the
    group or sequence that it is directly in, or None. body: the nodes directly in a group or in each element of a sequence.
    """

    name: str
    type: str
    optional: bool
    op: str
    entry: int | None
    mantissa_op: str
    mantissa_entry: int | None
    template: int
    parent: int | None
    body: list[int]


def name_by(library: Any, handle: Any, call: str, number: int) -> str:
    """Returns a name by a call, such as fast_node_name, and raises an IndexError where the set has no such number."""
    function = getattr(library.calls, call)
    room = c.create_string_buffer(function(handle, integer("the number", number, 32), c.create_string_buffer(1), 0) or 1)
    length = function(handle, number, room, len(room))
    if not length:
        raise IndexError(f"the set has no number {number}")
    return room.raw[:length].decode()


def body_by(library: Any, handle: Any, call: str, number: int) -> list[int]:
    """Returns the nodes of a body by a call, such as fast_node_body."""
    body = getattr(library.calls, call)
    nodes = (U * body(handle, number, (U * 1)(), 0))()
    body(handle, number, nodes, len(nodes))
    return list(nodes)


def described_by(library: Any, handle: Any, call: str, number: int, count: int) -> list[int]:
    """Returns the numbers of a description by a call, such as fast_node_describe, which writes this many."""
    raw = (U * count)()
    getattr(library.calls, call)(handle, number, raw)
    return list(raw)


def some(number: int) -> int | None:
    return None if number == NONE else number


class Queries:
    """The queries of a Set, which has `library`, `handle`, `template_name` and `node_name`."""

    library: Any
    handle: Any
    template_name: Any
    node_name: Any

    @property
    def entries(self) -> int:
        """The number of dictionary entries. Entry 0 is the template identifier's."""
        return self.library.calls.fast_set_entries(self.handle)

    @property
    def depth(self) -> int:
        """How deep groups and sequences nest: 0 for a set without any."""
        return self.library.calls.fast_set_depth(self.handle)

    def message_cap(self, max_elements: int = 1000, max_total: int = 1000) -> int:
        """Returns the greatest number of events that a message can have under these limits."""
        limits = numbers_of(max_elements=max_elements, max_total=max_total)
        return self.library.calls.fast_set_cap(self.handle, *limits)

    def find_template(self, which: int | str) -> int | None:
        """Returns the number of the template with an identifier or a name; None where the set has none."""
        calls = self.library.calls
        if isinstance(which, str):
            name = which.encode(errors="surrogateescape")
            return some(calls.fast_template_by_name(self.handle, name, len(name)))
        return some(calls.fast_template_by_id(self.handle, integer("the identifier", which, 32)))

    def template(self, number: int) -> Template:
        """Returns a template by its number, and raises an IndexError where the set has none."""
        name = self.template_name(number)
        has_id, identifier, reset = described_by(self.library, self.handle, "fast_template_describe", number, 3)
        body = body_by(self.library, self.handle, "fast_template_body", number)
        return Template(name, identifier if has_id else None, bool(reset), body)

    def node(self, number: int) -> Node:
        """Returns a node by its number, and raises an IndexError where the set has none. Looks through the set: not for each event."""
        name, raw = self.node_name(number), described_by(self.library, self.handle, "fast_node_describe", number, 6)
        kind, optional, op, entry, mantissa_op, mantissa_entry = raw
        parent = some(self.library.calls.fast_node_parent(self.handle, number))
        uses = OPERATORS[op], some(entry), OPERATORS[mantissa_op], some(mantissa_entry)
        body = body_by(self.library, self.handle, "fast_node_body", number)
        return Node(name, TYPES[kind], bool(optional), *uses, self._template_of(number), parent, body)

    def find_node(self, template: int, path: str) -> int | None:
        """Returns the node at a path in a template, names with points between them, such as "MDEntries.MDEntryPx"; None where there is none.

        Of nodes with one name it is the first. Where a name has points itself, the longest name comes first.
        """
        return self._find_below("fast_template_child", integer("the template", template, 32), path.encode(errors="surrogateescape"))

    def _find_below(self, child: str, number: int, path: bytes) -> int | None:
        for cut in range(len(path), 0, -1):
            if cut < len(path) and path[cut : cut + 1] != b".":
                continue
            found = some(getattr(self.library.calls, child)(self.handle, number, path[:cut], cut))
            if found is not None and cut < len(path):
                found = self._find_below("fast_node_child", found, path[cut + 1 :])
            if found is not None:
                return found
        return None

    def _template_of(self, number: int) -> int:
        calls = self.library.calls
        while (parent := calls.fast_node_parent(self.handle, number)) != NONE:
            number = parent
        return calls.fast_node_template(self.handle, number)


def in_hand(library: Any, handle: Any) -> tuple[str, int | None]:
    """Returns what a decoder waits for, as `Decoder.in_hand` says it."""
    due = (U * 2)()
    library.calls.fast_decoder_due(handle, byref(due))
    return AWAITED[due[0]], due[1] if due[0] == 2 else None
