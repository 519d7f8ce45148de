"""Messages as dictionaries.

A message is {"template": name, "id": identifier, "message": fields}. Fields have a key for each field, group and sequence that is present: an
integer is an int, a decimal a decimal.Decimal with its exponent, a string a str, a byte vector bytes, a group a dictionary of fields, a sequence
a list of such dictionaries. Of nodes with one name in a segment (a template, a group or the elements of a sequence), the second has the key
NAME#2, the third NAME#3 and so on, by their places in the template.
"""

from __future__ import annotations

from collections.abc import Mapping
from decimal import Decimal
from typing import Any, NamedTuple

from .calls import (
    ASCII,
    BYTES,
    DECIMAL,
    ELEMENT_END,
    ELEMENT_START,
    GROUP_END,
    GROUP_START,
    MESSAGE_END,
    MESSAGE_START,
    ROW,
    SEQUENCE_END,
    SEQUENCE_START,
    SIGNED,
    UNICODE,
    UNSIGNED,
    integer,
)
from .queries import TYPES, body_by, described_by, name_by

Message = dict[str, Any]

# The bits of each type of integers, and whether it has a sign.
INTEGERS = {"uInt32": (32, False), "int32": (32, True), "uInt64": (64, False), "int64": (64, True)}
# What a value of each other type has to be.
EXPECTED = {
    "decimal": "a decimal.Decimal",
    "decimalParts": "a decimal.Decimal",
    "ascii": "a str of characters below U+0080",
    "unicode": "a str",
    "bytes": "bytes",
    "group": "a dictionary",
    "sequence": "a list of dictionaries",
}


class Slot(NamedTuple):
    """A node in the dictionaries of its segment. body: the slots in a group or in each element of a sequence."""

    node: int
    key: str
    type: str
    optional: bool
    body: list[Slot]


class Forms:
    """The form of a set's messages, as plain data.

    keys: of each node. templates: of each the name, the identifier and the slots. numbers: of the templates, by name.
    """

    def __init__(self, library: Any, handle: Any):
        self.keys = [""] * library.calls.fast_set_nodes(handle)
        self.templates: list[tuple[str, int | None, list[Slot]]] = []
        for number in range(library.calls.fast_set_templates(handle)):
            name = name_by(library, handle, "fast_template_name", number)
            has_id, identifier, _ = described_by(library, handle, "fast_template_describe", number, 3)
            body = self._slots(library, handle, body_by(library, handle, "fast_template_body", number))
            self.templates.append((name, identifier if has_id else None, body))
        self.numbers = {name: number for number, (name, _, _) in enumerate(self.templates)}

    def _slots(self, library: Any, handle: Any, nodes: list[int]) -> list[Slot]:
        slots: list[Slot] = []
        seen: dict[str, int] = {}
        for node in nodes:
            name = name_by(library, handle, "fast_node_name", node)
            seen[name] = seen.get(name, 0) + 1
            self.keys[node] = f"{name}#{seen[name]}" if seen[name] > 1 else name
            kind, optional, *_ = described_by(library, handle, "fast_node_describe", node, 6)
            body = self._slots(library, handle, body_by(library, handle, "fast_node_body", node))
            slots.append(Slot(node, self.keys[node], TYPES[kind], bool(optional), body))
        return slots


class Builder:
    """Makes dictionaries of records, which may end inside a message. message: the one that is open, as far as it has come, or None."""

    def __init__(self) -> None:
        self.clear()

    def clear(self) -> None:
        self.message: Message | None = None
        self._outer: list[Any] = []  # the dictionaries and lists around the one that is filled
        self._inner: Any = {}

    def take(self, forms: Forms, parts: list[tuple[bytes, bytes]]) -> list[Message]:
        """Takes pairs of records and their strings, and returns the messages that they complete."""
        whole: list[Message] = []
        for records, texts in parts:
            for kind, node, value, length, exponent in ROW.iter_unpack(records):
                if kind == MESSAGE_START:
                    self._start(forms, node)
                elif kind == MESSAGE_END:
                    whole.append(self.message or {})
                    self.clear()
                elif kind in (GROUP_START, SEQUENCE_START, ELEMENT_START):
                    self._enter(forms, kind, node)
                elif kind in (GROUP_END, SEQUENCE_END, ELEMENT_END):
                    self._inner = self._outer.pop()
                else:
                    self._inner[forms.keys[node]] = value_of(kind, value, texts[value : value + length], exponent)
        return whole

    def _start(self, forms: Forms, number: int) -> None:
        name, identifier, _ = forms.templates[number]
        self._outer, self._inner = [], {}
        self.message = {"template": name, "id": identifier, "message": self._inner}

    def _enter(self, forms: Forms, kind: int, node: int) -> None:
        inner: Any = [] if kind == SEQUENCE_START else {}
        if kind == ELEMENT_START:
            self._inner.append(inner)
        else:
            self._inner[forms.keys[node]] = inner
        self._outer.append(self._inner)
        self._inner = inner


def value_of(kind: int, value: int, text: bytes, exponent: int) -> Any:
    """Returns the value of a field's record."""
    if kind == UNSIGNED:
        return value
    if kind in (SIGNED, DECIMAL):
        signed = value - ((value >> 63) << 64)
        return signed if kind == SIGNED else Decimal(f"{signed}e{exponent}")
    return text if kind == BYTES else text.decode()


def json_value(value: Any) -> str:
    """Returns what `fastcat show --json` has for a decimal, "MANTISSAeEXPONENT", or a byte vector, hexadecimal digits: for the values that the
    module json does not know.

        json.dumps(message, default=talvrugon.json_value)

    Raises a TypeError for any other value.
    """
    if isinstance(value, Decimal):
        mantissa, exponent = parts_of(value)
        return f"{mantissa}e{exponent}"
    if isinstance(value, (bytes, bytearray, memoryview)):
        return bytes(value).hex()
    raise TypeError(f"{value!r} is no value of a message")


def parts_of(value: Decimal) -> tuple[int, int]:
    """Returns the mantissa and the exponent of a decimal, which are not normalised. Raises a ValueError for an infinity and for no number."""
    sign, digits, exponent = value.as_tuple()
    if not isinstance(exponent, int):
        raise ValueError(f"{value!r} is no number")
    mantissa = int("".join(map(str, digits)))
    return -mantissa if sign else mantissa, exponent


class Packer:
    """Makes the records of one message from its dictionary. texts: their strings."""

    def __init__(self, forms: Forms, message: Mapping[str, Any]):
        self.records: list[bytes] = []
        self.texts = bytearray()
        self._above: list[str] = []  # the keys and indexes of the groups, sequences and elements that are open
        self._template = ""
        number = self._number(forms, message)
        self._add(MESSAGE_START, number)
        self._fields(forms.templates[number][2], message["message"])
        self._add(MESSAGE_END)

    def _number(self, forms: Forms, message: Mapping[str, Any]) -> int:
        if not {"template", "message"} <= message.keys() <= {"template", "id", "message"}:
            raise ValueError(f"the keys of a message are template, id and message, and not {', '.join(map(str, message))}")
        self._template = message["template"]
        if not isinstance(self._template, str) or self._template not in forms.numbers:
            raise ValueError(f"the template is {self._template!r}, and has to be one of the set: {', '.join(forms.numbers)}")
        number = forms.numbers[self._template]
        identifier = forms.templates[number][1]
        if message.get("id", identifier) != identifier:
            raise ValueError(f"the id of {self._template} is {message['id']!r}, and has to be {identifier}")
        if not isinstance(message["message"], Mapping):
            raise TypeError(f"the message of {self._template} is {message['message']!r}, and has to be a dictionary")
        return number

    def _name(self, key: Any) -> str:
        """Returns how an error names a field: by its path, and by the template."""
        return f"{''.join(self._above)}{key} of {self._template}"

    def _add(self, kind: int, node: int = 0, value: int = 0, length: int = 0, exponent: int = 0) -> None:
        self.records.append(ROW.pack(kind, node, value, length, exponent))

    def _fields(self, slots: list[Slot], fields: Mapping[str, Any]) -> None:
        """Adds the fields of a segment, in the order of its template."""
        count = 0
        for slot in slots:
            if slot.key in fields:
                count += 1
                self._field(slot, fields[slot.key])
            elif not slot.optional:
                raise ValueError(f"{self._name(slot.key)} is missing: it is mandatory, and has to be {expected(slot)}")
        if count < len(fields):
            keys = [slot.key for slot in slots]
            other = next(key for key in fields if key not in keys)
            raise ValueError(f"{self._name(other)} is not in the template, which has there {', '.join(keys) or 'nothing'}")

    def _field(self, slot: Slot, value: Any) -> None:
        if slot.type in INTEGERS:
            self._integer(slot, value)
        elif slot.type in ("decimal", "decimalParts"):
            self._decimal(slot, value)
        elif slot.type == "group":
            self._group(slot, value)
        elif slot.type == "sequence":
            self._sequence(slot, value)
        else:
            self._string(slot, value)

    def _wrong(self, slot: Slot, value: Any, error: type[Exception] = TypeError) -> Exception:
        return error(f"{self._name(slot.key)} is {value!r}, and has to be {expected(slot)}")

    def _integer(self, slot: Slot, value: Any) -> None:
        if isinstance(value, bool):
            raise self._wrong(slot, value)
        bits, signed = INTEGERS[slot.type]
        number = integer(self._name(slot.key), value, bits, signed)
        self._add(SIGNED if signed else UNSIGNED, slot.node, number & (1 << 64) - 1)

    def _decimal(self, slot: Slot, value: Any) -> None:
        if not isinstance(value, Decimal):
            raise self._wrong(slot, value)
        if not value.is_finite():
            raise self._wrong(slot, value, ValueError)
        mantissa, exponent = parts_of(value)
        if not -63 <= exponent <= 63:
            raise ValueError(f"the exponent of {self._name(slot.key)} is {exponent}, and has to be from -63 to 63")
        mantissa = integer(f"the mantissa of {self._name(slot.key)}", mantissa, 64, signed=True)
        self._add(DECIMAL, slot.node, mantissa & (1 << 64) - 1, 0, exponent)

    def _string(self, slot: Slot, value: Any) -> None:
        if slot.type == "bytes":
            if not isinstance(value, (bytes, bytearray, memoryview)):
                raise self._wrong(slot, value)
            kind, text = BYTES, bytes(value)
        else:
            if not isinstance(value, str):
                raise self._wrong(slot, value)
            kind = ASCII if slot.type == "ascii" else UNICODE
            try:
                text = value.encode("ascii" if kind == ASCII else "utf-8")
            except UnicodeEncodeError:
                raise self._wrong(slot, value, ValueError) from None
        self._add(kind, slot.node, len(self.texts), len(text))
        self.texts += text

    def _group(self, slot: Slot, value: Any) -> None:
        if not isinstance(value, Mapping):
            raise self._wrong(slot, value)
        self._add(GROUP_START, slot.node)
        self._above.append(f"{slot.key}.")
        self._fields(slot.body, value)
        self._above.pop()
        self._add(GROUP_END)

    def _sequence(self, slot: Slot, value: Any) -> None:
        if not isinstance(value, (list, tuple)):
            raise self._wrong(slot, value)
        self._add(SEQUENCE_START, slot.node, len(value))
        for index, element in enumerate(value):
            if not isinstance(element, Mapping):
                raise TypeError(f"{self._name(f'{slot.key}[{index}]')} is {element!r}, and has to be a dictionary")
            self._add(ELEMENT_START)
            self._above.append(f"{slot.key}[{index}].")
            self._fields(slot.body, element)
            self._above.pop()
            self._add(ELEMENT_END)
        self._add(SEQUENCE_END)


def expected(slot: Slot) -> str:
    """Returns what a value of a slot has to be."""
    if slot.type not in INTEGERS:
        return EXPECTED[slot.type]
    bits, signed = INTEGERS[slot.type]
    low, high = (-(1 << bits - 1), (1 << bits - 1) - 1) if signed else (0, (1 << bits) - 1)
    return f"an integer from {low} to {high}"
