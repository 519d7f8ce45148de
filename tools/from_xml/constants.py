"""The numbers of templates and nodes, and the tags of FIX, as constants of a programming language."""

import re

MOST = 2**31 - 1
WIDTH = 16


def word(text):
    return re.sub(r"[^A-Za-z0-9]", "_", text)


class Names:
    """Unique names of constants: a name that is taken already gets a number appended."""

    def __init__(self, prefix):
        self.prefix, self.given = f"{prefix}_" if prefix else "", set()

    def name(self, text):
        first = self.prefix + text
        first = f"N{first}" if first[0].isdigit() else first
        name, count = first, 1
        while name in self.given:
            count += 1
            name = f"{first}__{count}"
        self.given.add(name)
        return name


def tag_in(text):
    """Returns a tag as a number of 31 bits; 0 if it is not one."""
    return int(text) if re.fullmatch(r"[0-9]{1,10}", text) and int(text) <= MOST else 0


def note_of(node):
    return f"tag {tag_in(node.tag)}" if tag_in(node.tag) else ""


def tags_of(nodes):
    """Returns each name with each of its tags, once, in the order of the nodes; the name of a sequence's length too."""
    pairs = [pair for it in nodes if it.kind != "template" for pair in ((it.name, it.tag), (it.length, it.length_tag))]
    return [(name, tag_in(tag)) for name, tag in dict.fromkeys(pairs) if name and tag_in(tag)]


class Constants:
    """The constants of a set: names with values and remarks, and the tag of each node in order."""

    def __init__(self, nodes, prefix):
        names = Names(prefix)
        self.row = names.name("TAG_OF_NODE")
        templates, fields = ([it for it in nodes if (it.kind == "template") is which] for which in (True, False))
        self.templates = [(names.name(f"TEMPLATE_{word(it.name)}"), it.node, f"id {it.tag}" if it.tag else "") for it in templates]
        self.fields = [(names.name("__".join(map(word, (it.template, *it.parts)))), it.node, note_of(it)) for it in fields]
        self.tags = [(names.name(f"TAG_{word(name)}"), tag, "") for name, tag in tags_of(nodes)]
        self.tag_of_node = [tag_in(it.tag) for it in fields]

    def groups(self):
        """Returns the groups of constants that are not empty, each with a heading."""
        groups = [("Templates by number", self.templates), ("Nodes", self.fields), ("Tags of FIX", self.tags)]
        return [(head, rows) for head, rows in groups if rows]

    def tag_lines(self):
        """Returns the tags of all nodes, several on a line; at least one, since C has no empty array."""
        tags = self.tag_of_node or [0]
        return [", ".join(map(str, tags[at : at + WIDTH])) + "," for at in range(0, len(tags), WIDTH)]


def block(it, form, mark="//"):
    """Returns the lines of all constants in one form, with headings and remarks as comments."""
    lines = []
    for head, rows in it.groups():
        lines += ["", f"{mark.strip()} {head}"] + [form.format(name, value) + (f" {mark} {note}" if note else "") for name, value, note in rows]
    return lines


def in_c(it, head):
    lines = [f"// {head}", "#pragma once", "", "#include <stdint.h>"]
    for title, rows in it.groups():
        inner = [f"    {name} = {value}," + (f" // {note}" if note else "") for name, value, note in rows]
        lines += ["", f"// {title}", "enum {", *inner, "};"]
    row = [f"    {line}" for line in it.tag_lines()]
    return [*lines, "", "// The tag of each node, 0 where it has none", f"static const uint32_t {it.row}[] = {{", *row, "};"]


def in_cpp(it, head):
    lines = [f"// {head}", "#pragma once", "", "#include <cstdint>", *block(it, "inline constexpr std::uint32_t {} = {};")]
    row = [f"    {line}" for line in it.tag_lines()]
    return [*lines, "", "// The tag of each node, 0 where it has none", f"inline constexpr std::uint32_t {it.row}[] = {{", *row, "};"]


def in_rust(it, head):
    lines = [f"//! {head}", "#![allow(dead_code, non_upper_case_globals)]", *block(it, "pub const {}: u32 = {};")]
    row = [f"    {line}" for line in it.tag_lines()]
    count = len(it.tag_of_node) or 1
    return [*lines, "", "/// The tag of each node, 0 where it has none", f"pub const {it.row}: [u32; {count}] = [", *row, "];"]


def in_python(it, head):
    row = [f"    {line}" for line in it.tag_lines()]
    return [f'"""{head}"""', *block(it, "{} = {}", " #"), "", "# The tag of each node, 0 where it has none", f"{it.row} = (", *row, ")"]


LANGUAGES = {"c": in_c, "cpp": in_cpp, "rust": in_rust, "python": in_python}


def constants(nodes, language, prefix, source):
    """Returns the file of a set's constants in a language."""
    source = re.sub(r"[^A-Za-z0-9._-]", "_", source)
    return "\n".join(LANGUAGES[language](Constants(nodes, prefix), f"Numbers of {source}, made by from_xml.")) + "\n"
