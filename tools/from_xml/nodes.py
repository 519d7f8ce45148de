"""The numbers of a set's nodes, as in lines and records: in the order of the file, with references resolved."""

import re
from dataclasses import astuple, dataclass, fields

# The greatest number of nodes of a set, and the limits on chains of references and on rows.
NODES = 65_536
CHAIN = 64
STEPS = 1_000_000


@dataclass
class Node:
    """A node, or a template with its own number: a row of the table of fields."""

    node: int
    template: str
    path: str
    name: str
    kind: str
    tag: str
    length: str = ""
    length_tag: str = ""
    parts: tuple = ()


def plain(text):
    """Returns a string of the XML in the form of a cell of the table."""
    return re.sub(r"[^ -~\u00a0-\U0010ffff]", "?", text or "")


def identifier(template):
    """Returns the identifier of a template as it is written."""
    return next((it.removeprefix("id = ") for it in template.keys if it.startswith("id = ")), "")


class Numbering:
    """Numbers the nodes of templates, or reports why they have no numbers."""

    def __init__(self, templates, report):
        self.report, self.named, self.nodes, self.count, self.steps = report, {}, [], 0, 0
        for it in templates:
            if self.named.setdefault(it.name, it) is not it:
                report.refuse(it.element.line, f"template {it.name}: a second of its name, so that nodes have no numbers: rename one")
        for number, it in enumerate(templates):
            self.nodes.append(Node(number, it.name, "", it.name, "template", identifier(it)))
            self.walk(it.rows, it.name, (), (it.name,))

    def walk(self, rows, template, path, way):
        """Numbers rows at a path of groups and sequences, reached by a chain of references."""
        for row in rows:
            self.steps += 1
            if self.steps > STEPS or self.count > NODES:
                self.report.refuse(row.element.line, f"a set has at most {NODES} nodes, with references in place: divide it")
                return
            if row.kind == "ref":
                self.follow(row, template, path, way)
                continue
            here = (*path, row.name)
            length = next(iter(row.element.of("length")), None)
            named = [plain(length.attributes.get(it)) for it in ("name", "id")] if length else ["", ""]
            tag = plain(row.element.attributes.get("id"))
            self.nodes.append(Node(self.count, template, ".".join(here), row.name, row.kind, tag, *named, here))
            self.count += 1
            self.walk(row.rows or (), template, here, way)

    def follow(self, row, template, path, way):
        """Numbers the target of a reference, in its place."""
        if row.name not in self.named:
            what = "no template has the name, so that nodes have no numbers: add it to the set"
            self.report.refuse(row.element.line, f"templateRef {row.name}: {what}")
        elif row.name in way or len(way) > CHAIN:
            self.report.refuse(row.element.line, f"templateRef {row.name}: references in a circle, or more than {CHAIN} in a chain")
        else:
            self.walk(self.named[row.name].rows, template, path, (*way, row.name))


def numbered(templates, report):
    """Returns the templates of a set, each followed by its nodes."""
    return Numbering(templates, report).nodes


def tabled(nodes):
    """Returns the table of fields: a line each, separated by tabs."""
    head = [it.name for it in fields(Node) if it.name != "parts"]
    return "".join("\t".join(map(str, row)) + "\n" for row in [head, *(astuple(it)[: len(head)] for it in nodes)])
