"""Converts elements of templates to the TOML notation of fastcat."""

from __future__ import annotations

import re
from dataclasses import dataclass

from elements import Element
from grammar import ATTRIBUTES, CHILDREN, ENTRIES, FIELDS, LATER, OPERATORS, OWN, SCALARS, YES_NO
from values import initial_in, number_in, quoted, suits, table

# The greatest depth of groups and sequences; and the height from which they have their own headers, since TOML allows 80 nested arrays and
# tables.
DEEPEST = 64
INLINE = 29


@dataclass
class Row:
    """A field: its element, its type, its keys, its comment, and, for a group or a sequence, its rows."""

    element: Element
    kind: str
    pairs: list
    note: str = ""
    rows: list | None = None
    height: int = 0

    def __post_init__(self):
        self.height = 0 if self.rows is None else 1 + height(self.rows)

    @property
    def name(self):
        return self.element.attributes.get("name", "")


@dataclass
class Template:
    """A template: its element, the lines of its keys, and its rows."""

    element: Element
    keys: list
    rows: list

    @property
    def name(self):
        return self.element.attributes.get("name", "")

    def lines(self):
        return [*self.keys, *array(self.rows, "template"), ""]


def height(rows):
    """Returns the depth to which groups and sequences nest in rows."""
    return max((it.height for it in rows), default=0)


def inline(row, margin):
    """Returns the lines of a row within an array."""
    if row.rows is None:
        return [f"{margin}{table(row.pairs)},{row.note}"]
    pairs = ", ".join(f"{key} = {value}" for key, value in row.pairs)
    inner = [line for it in row.rows for line in inline(it, margin + "    ")]
    return [f"{margin}{{ {pairs}, fields = [{row.note}", *inner, f"{margin}] }},"]


def array(rows, path):
    """Returns the lines of the rows at a path: an array, or, if they nest too deep for one, a header for each row."""
    if not rows:
        return []
    if height(rows) <= INLINE:
        return ["fields = [", *(line for it in rows for line in inline(it, "    ")), "]"]
    path += ".fields"
    return [line for it in rows for line in ("", f"[[{path}]]{it.note}", *(f"{key} = {value}" for key, value in it.pairs), *array(it.rows, path))]


def remark(element, *more):
    """Returns a comment with the parts of an element that are kept but do not affect the encoding."""
    said = [f"id {element.attributes['id']}"] if element.attributes.get("id") else []
    for it in element.of("length"):
        name = it.attributes.get("name") if element.tag in SCALARS else None
        words = [*([name] if name else []), *([f"id {it.attributes['id']}"] if it.attributes.get("id") else [])]
        said += [" ".join(["length", *words])] if words else []
    said += [f"type {it.attributes['name']}" for it in element.of("typeRef") if it.attributes.get("name")]
    return commented(*said, *more)


def commented(*said):
    return " # " + ", ".join(re.sub(r"[^ -~\u00a0-\U0010ffff]", "?", it) for it in said) if said else ""


def remedy(name):
    """Returns what to do about a name that the notation cannot express."""
    return "take it out" if name in OWN else f"where it changes no byte, --pass-over {name}"


class Writer:
    """Converts the elements of a template file to the notation, and reports names that it cannot express."""

    def __init__(self, wanted, report):
        self.wanted, self.report, self.spaces, self.depth = wanted, report, {}, 0

    def fault(self, element, what):
        self.report.refuse(element.line, what)

    def look(self, element):
        """Reports the attributes and children that an element cannot have."""
        for name in element.attributes:
            if name not in ATTRIBUTES[element.tag]:
                self.fault(element, f"{name} of {element.tag}: no such attribute: {remedy(name)}")
        for it in element.children:
            if it.tag in LATER:
                self.fault(it, f"{it.tag}: FAST 1.2; {LATER[it.tag]}, or use the exchange's 1.1 file")
            elif it.tag not in ATTRIBUTES:
                self.fault(it, f"{it.tag}: no element of FAST 1.1: {remedy(it.tag)}")
            elif it.tag not in CHILDREN.get(element.tag, ()):
                self.fault(it, f"{it.tag} in {element.tag}: it has no place there")

    def look_at_names(self, element, around):
        """Reports a second namespace of names: one for all names has no meaning, but two would distinguish names that are equal here."""
        spaces = {it: element.attributes.get(it, around[it]) for it in around}
        which = "templateNs" if element.tag in ("template", "templateRef") else "ns"
        if element.tag != "typeRef" and {"name", "key"} & {*element.attributes}:
            known = self.spaces.setdefault(which, spaces[which])
            if known != spaces[which]:
                what = f"{which} {quoted(spaces[which])}: a second namespace of names, beside {quoted(known)}"
                self.fault(element, f"{what}: names have one here, so give them names of their own, and one {which}")
        for it in element.children:
            self.look_at_names(it, spaces)

    def once(self, element, *tags):
        """Returns the only one of these children, if there is one."""
        found = element.of(*tags)
        for it in found[1:]:
            self.fault(it, f"{it.tag}: a second {'operator' if it.tag in OPERATORS else it.tag} in {element.tag}")
        return found[0] if found else None

    def name(self, element, attribute="name"):
        """Returns a name in a form that the notation accepts."""
        name = element.attributes.get(attribute)
        if name is None:
            self.fault(element, f"{element.tag} without {attribute}")
            return ""
        if not re.fullmatch(r"[A-Za-z0-9_.-]{1,64}", name):
            self.fault(element, f"{attribute} {quoted(name)}: no name of 1 to 64 letters, digits, _, - and points: rename it, it is not sent")
        return name

    def dictionary(self, element, scope):
        """Returns the dictionary that an element names, else that of the scope."""
        if "dictionary" not in element.attributes:
            return scope
        name = self.name(element, "dictionary")
        if name == "type":
            what = "dictionary type: application types have no dictionaries here"
            self.fault(element, f"{what}: name one for each type, such as the name of its typeRef")
        return name

    def initial(self, element, kind, is_optional):
        """Returns the initial value of an operator."""
        text = element.attributes.get("value")
        if text is None:
            if element.tag == "constant":
                self.fault(element, "constant without value")
            elif element.tag == "default" and not is_optional:
                self.fault(element, "default without value, where the field is mandatory")
            return []
        value = initial_in(text, kind)
        if value is None:
            self.fault(element, f"value {quoted(text)}: no initial value of {kind}")
        if kind == "unicode" and self.wanted.bytes_for_unicode:
            value = text.encode().hex()
        return [("value", quoted(value or ""))]

    def operator(self, element, kind, is_optional, scope):
        """Returns the keys of an element's operator, if it has one. The scope is the dictionary of the enclosing element."""
        it = self.once(element, *sorted(OPERATORS))
        if it is None:
            return []
        self.look(it)
        if not suits(it.tag, kind):
            self.fault(it, f"{it.tag} of {kind}: the operator does not suit the type")
        pairs = [("op", quoted(it.tag)), *self.initial(it, kind, is_optional)]
        if it.tag in ENTRIES:
            if "key" in it.attributes:
                pairs.append(("key", quoted(self.name(it, "key"))))
            dictionary = self.dictionary(it, scope)
            if dictionary is not None:
                pairs.append(("dictionary", quoted(dictionary)))
        return pairs

    def presence(self, element):
        """Returns whether an element is optional, and the key that says so."""
        said = element.attributes.get("presence", "mandatory")
        if said not in ("mandatory", "optional"):
            self.fault(element, f"presence {quoted(said)}: neither mandatory nor optional")
        return said == "optional", [("optional", "true")] if said == "optional" else []

    def head(self, element, kind):
        is_optional, key = self.presence(element)
        return is_optional, [("kind", quoted(kind)), ("name", quoted(self.name(element))), *key]

    def kind(self, element):
        """Returns the type of a scalar by its XML."""
        if element.tag != "string":
            return {"byteVector": "bytes"}.get(element.tag, element.tag)
        charset = element.attributes.get("charset", "ascii")
        if charset not in ("ascii", "unicode"):
            self.fault(element, f"charset {quoted(charset)}: neither ascii nor unicode")
        return charset

    def scalar(self, element, scope):
        kind = self.kind(element)
        as_bytes = kind == "unicode" and self.wanted.bytes_for_unicode
        written = "bytes" if as_bytes else kind
        is_optional, pairs = self.head(element, written)
        self.unsent_length(element)
        if kind == "decimal" and element.of("exponent", "mantissa"):
            pairs += self.parts(element, is_optional, scope)
        else:
            pairs += self.operator(element, kind, is_optional, scope)
        return Row(element, written, pairs, remark(element, *(["charset unicode"] if as_bytes else [])))

    def unsent_length(self, element):
        """Checks the name of the length of a string or byte vector, which is kept as a comment."""
        if "length" in CHILDREN[element.tag] and (it := self.once(element, "length")):
            self.look(it)
            for operator in it.of(*OPERATORS):
                self.fault(operator, f"{operator.tag} in the length of a {element.tag}: that length is sent as it is: take the operator out")

    def parts(self, element, is_optional, scope):
        """Returns the keys of a decimal with operators for exponent and mantissa."""
        if whole := self.once(element, *sorted(OPERATORS)):
            self.fault(whole, f"{whole.tag} of a decimal beside operators of its parts")
        pairs = []
        for tag in ("exponent", "mantissa"):
            if part := self.once(element, tag):
                self.look(part)
                pairs.append((tag, table(self.operator(part, tag, is_optional and tag == "exponent", scope))))
        return pairs

    def length(self, element, is_optional, scope):
        """Returns the key of a sequence's length, if it is written."""
        it = self.once(element, "length")
        if it is None:
            return []
        self.look(it)
        name = [("name", quoted(self.name(it)))] if "name" in it.attributes else []
        return [("length", table(name + self.operator(it, "length", is_optional, scope)))]

    def instruction(self, element, scope):
        """Returns the row of a field."""
        self.look(element)
        if element.tag == "templateRef":
            if "name" not in element.attributes:
                what = "templateRef without name: no template is chosen by the stream within a message"
                self.fault(element, f"{what}: only a set whose references have names is read")
                return Row(element, "ref", [])
            return Row(element, "ref", [("kind", quoted("ref")), ("name", quoted(self.name(element)))])
        if element.tag in SCALARS:
            return self.scalar(element, scope)
        scope = self.dictionary(element, scope)
        is_optional, pairs = self.head(element, element.tag)
        if element.tag == "sequence":
            pairs += self.length(element, is_optional, scope)
        self.depth += 1
        if self.depth == DEEPEST + 1:
            self.fault(element, f"{element.tag}: more than {DEEPEST} groups and sequences, one in another, which no set can have")
        row = Row(element, element.tag, pairs, remark(element), self.body(element, scope))
        self.depth -= 1
        return row

    def body(self, element, scope):
        if it := self.once(element, "typeRef"):
            self.look(it)
        return [self.instruction(it, scope) for it in element.of(*FIELDS)]

    def identifier(self, element):
        """Returns the identifier of a template: its own, else the one given by the call."""
        name, text = element.attributes.get("name"), element.attributes.get("id")
        if text is None:
            return [f"id = {self.wanted.ids[name]}"] if name in self.wanted.ids else []
        number = number_in(text, "uInt32")
        if number is None:
            self.fault(element, f"id {quoted(text)}: a template's is a number from 0 to 4294967295")
        elif name in self.wanted.ids:
            self.fault(element, f"id {quoted(text)}: {name} has an identifier, and needs none by --id")
        return [f"id = {number}"]

    def resets(self, element):
        said = element.attributes.get("reset", "no")
        if said.lower() not in YES_NO:
            self.fault(element, f"reset {quoted(said)}: neither yes nor no")
        return ["reset = true"] if self.wanted.reset or YES_NO.get(said.lower()) else []

    def template(self, element, dictionary):
        """Returns a template. Its dictionary is that of the operators that name none."""
        self.look(element)
        lines = ["[[template]]" + commented(*(f"type {it.attributes['name']}" for it in element.of("typeRef") if it.attributes.get("name")))]
        lines += [f"name = {quoted(self.name(element))}", *self.identifier(element), *self.resets(element)]
        dictionary = self.dictionary(element, dictionary)
        if dictionary is not None:
            lines.append(f"dictionary = {quoted(dictionary)}")
        return Template(element, lines, self.body(element, None))

    def unused(self, templates):
        """Reports templates that no message can have, and identifiers that no template gets."""
        used, names = set(), {it.attributes.get("name") for it in templates}
        walk = list(templates)
        while walk:
            it = walk.pop()
            used |= {it.attributes.get("name")} if it.tag == "templateRef" else set()
            walk += it.children
        for it in templates:
            name = it.attributes.get("name")
            if "id" not in it.attributes and name not in used | {*self.wanted.ids}:
                what = f"template {name} has no identifier, and nothing refers to it: no message can have it"
                self.report.warn(it.line, f"{what} (--id {name}=N gives it one)")
        for name in sorted({*self.wanted.ids} - names):
            self.report.refuse(1, f"no template {name}, to which --id gives an identifier")

    def document(self, root):
        """Returns the templates of a file of templates, or of one template."""
        self.look_at_names(root, {"ns": "", "templateNs": ""})
        if root.tag == "template":
            self.unused([root])
            return [self.template(root, None)]
        if root.tag != "templates":
            self.fault(root, f"{root.tag}: neither templates nor a template")
            return []
        self.look(root)
        dictionary = self.dictionary(root, None)
        if not root.of("template"):
            self.fault(root, "templates without a template")
        self.unused(root.of("template"))
        return [self.template(it, dictionary) for it in root.of("template")]
