"""What the headers of include/ declare."""

import re
import textwrap

# A function at the start of a line: static inline or not, its type, name and parameters, and a body or a semicolon.
FUNCTION = re.compile(r"^(static inline )?([a-z]\w*(?: \w+)*[ *]+)(fast_\w+)\(([^()]*)\)\s*([;{])", re.M)
WIDTH = 78


def functions(header):
    """Returns the functions of a header: (is inline, type, name, parameters)."""
    header = re.sub(r"/\*.*?\*/|//[^\n]*", "", header, flags=re.S)
    return [(bool(inline), kind, name, " ".join(parameters.split())) for inline, kind, name, parameters, _ in FUNCTION.findall(header)]


def exported(header):
    """Returns the names of the functions that the library has."""
    return sorted(name for inline, _, name, _ in functions(header) if not inline)


def synopsis(header):
    """Returns the functions that programs call as lines of a man page: the inline ones, and those of the library that no inline one calls."""
    found = functions(header)
    bodies = "".join(re.findall(r"^static inline .*?^}", header, re.M | re.S))
    lines = []
    for inline, kind, name, parameters in found:
        if inline or not re.search(rf"\b{name}\(", bodies):
            whole = f"{kind}{name}({parameters});".replace(" ", "\0").replace(",\0", ", ")  # broken between parameters alone
            lines += [it.replace("\0", " ") for it in textwrap.wrap(whole, WIDTH, subsequent_indent="    ")]
    return "\n".join(lines)
