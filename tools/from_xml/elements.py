"""XML as elements of templates, and the report of what is wrong with it."""

import re
from dataclasses import dataclass, field
from xml.parsers import expat

from grammar import FIELDS, INCLUDE, SCP, SILENT, TD, TD_OF_ANY

# The greatest depth of elements, and their greatest number.
DEPTH = 200
MOST = 500_000
# The first bytes of files that determine the character encoding; the longer ones first.
MARKS = (
    *((b"\xff\xfe\0\0", "utf-32"), (b"\0\0\xfe\xff", "utf-32"), (b"\xff\xfe", "utf-16"), (b"\xfe\xff", "utf-16"), (b"\xef\xbb\xbf", "utf-8-sig")),
    *((b"<\0\0\0", "utf-32-le"), (b"\0\0\0<", "utf-32-be"), (b"<\0", "utf-16-le"), (b"\0<", "utf-16-be")),
)
DECLARED = re.compile(rb"""\s*<\?xml[^>]*?\sencoding\s*=\s*["']([^"'>]*)["']""")
# The parser's codes for a file that ends too early.
CUT = {expat.errors.codes[getattr(expat.errors, f"XML_ERROR_{it}")] for it in ("NO_ELEMENTS", "UNCLOSED_TOKEN", "UNCLOSED_CDATA_SECTION")}


@dataclass
class Element:
    """An element of XML: its line, its name without prefix, and its content."""

    line: int
    tag: str
    attributes: dict
    children: list = field(default_factory=list)

    def of(self, *tags):
        return [it for it in self.children if it.tag in tags]


class Refused(Exception):
    """The file is not XML, or XML that is not accepted."""


class Report:
    """The messages about a file, by line: errors and warnings. A message is kept once for each line."""

    def __init__(self):
        self.refused, self.warned, self.passed = {}, {}, {}

    def refuse(self, line, what):
        self.refused.setdefault(line, {})[what] = True

    def warn(self, line, what):
        self.warned.setdefault(line, {})[what] = True

    def pass_over(self, line, what):
        """Warns about a name that is skipped, once, at its first line."""
        if self.passed.setdefault(what, line) == line:
            self.warn(line, f"passed over: {what}")

    def lines(self, name):
        """Returns the errors; if there are none, the warnings."""
        said = self.refused or self.warned
        return [f"{name}:{line}: {what}" for line in sorted(said) for what in said[line]]


def decoded(text, report):
    """Decodes a file to characters: by its first bytes, or by its first line."""
    found = DECLARED.match(text)
    codec = next((codec for mark, codec in MARKS if text.startswith(mark)), found[1].decode("latin-1") if found else "utf-8")
    try:
        return text.decode(codec)
    except UnicodeDecodeError as error:
        line = text.count(b"\n", 0, error.start) + 1
        remedy = "name the encoding of the file in its first line (gb18030 has all of GBK and GB2312)"
        report.refuse(line, f"no XML: byte {error.start} is no character of {codec}: {remedy}")
    except (LookupError, ValueError):
        report.refuse(1, f"no XML: the encoding {codec} is not known: write the file in UTF-8")
    raise Refused


class Reader:
    """Reads XML into elements, and reports names outside the namespaces of templates."""

    def __init__(self, wanted, report):
        self.wanted, self.report = wanted, report
        self.open, self.root, self.skipped, self.count = [], None, [], 0
        self.parser = expat.ParserCreate("utf-8", " ")
        self.parser.StartElementHandler = self.start
        self.parser.EndElementHandler = self.end
        self.parser.CharacterDataHandler = self.text
        self.parser.EntityDeclHandler = self.entity

    @property
    def line(self):
        return self.parser.CurrentLineNumber

    def refuse(self, what):
        self.report.refuse(self.line, what)

    def read(self, text):
        text = decoded(text, self.report)
        try:
            self.parser.Parse(text.encode("utf-8", "surrogatepass"), True)
        except expat.ExpatError as error:
            self.report.refuse(error.lineno, f"no XML: {self.why(error, text)}")
            raise Refused from error
        except ValueError as error:
            self.refuse(f"no XML: {error}")
            raise Refused from error
        return self.root

    def why(self, error, text):
        """Returns what is wrong with a file that is not XML, and what to do."""
        if not text.strip():
            return "nothing stands in it: give the exchange's template file"
        if error.code in CUT and self.open:
            return f"it ends inside {self.open[-1].tag} of line {self.open[-1].line}: the file is cut, fetch it again"
        if "[[template]]" in text:
            return "a template text in TOML, which fastcat reads as it is"
        return f"{expat.ErrorString(error.code)}: give the exchange's template file as it was handed out"

    def start(self, name, attributes):
        space, _, tag = name.rpartition(" ")
        if self.skipped or space not in TD or tag in self.wanted.pass_over:
            self.skip(space, tag)
            return
        it = Element(self.line, tag, self.kept(tag, attributes))
        if self.open:
            self.open[-1].children.append(it)
        else:
            self.root = it
        self.open.append(it)
        self.count += 1
        if len(self.open) > DEPTH:
            self.refuse(f"elements nest deeper than {DEPTH}: groups nest at most 64 deep")
            raise Refused
        if self.count > MOST:
            self.refuse(f"more than {MOST} elements: a set has at most 65536 fields; divide it")
            raise Refused

    def skip(self, space, tag):
        """Skips an element with all its content, or reports it."""
        if self.skipped:
            if space in TD and tag in FIELDS | {"template"} and self.skipped[0]:
                around = self.skipped[0]
                self.refuse(f"{tag} within {around}, which is passed over: it belongs to no template there: take it out of {around}")
        elif space in TD:
            self.report.pass_over(self.line, f"the element {tag}, as --pass-over says")
        elif space.startswith(TD_OF_ANY):
            version = space.removeprefix(TD_OF_ANY)
            self.refuse(f"{tag} of the namespace {space}: FAST {version}, and FAST 1.1 is read: use the exchange's 1.1 file")
        elif space == INCLUDE:
            self.refuse(f"{tag} of the namespace {space}: put the file in its place first (xmllint --xinclude)")
        elif not self.open:
            self.refuse(f"{tag} of the namespace {space}: no templates of FAST: give the exchange's template file")
        else:
            self.foreign(f"{tag} of the namespace {space}")
        self.skipped.append("" if space in TD else tag)

    def foreign(self, what):
        if self.wanted.strict_xml:
            self.refuse(f"{what}: none of FAST: take it out, or leave --strict-xml away")
        else:
            self.report.pass_over(self.line, what)

    def kept(self, tag, attributes):
        """Returns the attributes that belong to templates."""
        found = {}
        for name, value in attributes.items():
            space, _, bare = name.rpartition(" ")
            if space == "" and bare in self.wanted.pass_over:
                self.report.pass_over(self.line, f"the attribute {bare}, as --pass-over says")
            elif space == "" or space in SCP and bare == "reset":
                found[bare] = value
            elif space.startswith(TD_OF_ANY) or space in TD:
                self.refuse(f"{bare} of {tag}: an attribute of the namespace {space}: FAST's own have no prefix: take it away")
            elif space not in SILENT:
                self.foreign(f"the attribute {bare} of the namespace {space}")
        return found

    def end(self, _):
        if self.skipped:
            self.skipped.pop()
        else:
            self.open.pop()

    def text(self, text):
        if text.strip() and not self.skipped:
            self.refuse(f"text in {self.open[-1].tag}, where none belongs: take it out, or make it a comment")

    def entity(self, name, *_):
        self.refuse(f"the entity {name}: declarations are not read: put its text in its places")
        raise Refused
