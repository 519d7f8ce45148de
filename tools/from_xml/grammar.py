"""The grammar of FAST 1.1 templates, and what later versions add."""

TD = (
    "",
    "http://www.fixprotocol.org/ns/fast/td/1.1",
    "http://www.fixprotocol.org/ns/fast/td/1.0",
    "http://www.fixprotocol.org/ns/template-definition",
)
# The start of other versions of these namespaces.
TD_OF_ANY = "http://www.fixprotocol.org/ns/fast/td/"
SCP = ("", "http://www.fixprotocol.org/ns/fast/scp/1.1", "http://www.fixprotocol.org/ns/fast/scp/1.0")
# Attributes in these namespaces mean nothing for templates.
SILENT = ("http://www.w3.org/XML/1998/namespace", "http://www.w3.org/2001/XMLSchema-instance")
# Elements in this namespace stand for content of other files.
INCLUDE = "http://www.w3.org/2001/XInclude"

RANGES = {"uInt32": (0, 2**32 - 1), "int32": (-(2**31), 2**31 - 1), "uInt64": (0, 2**64 - 1), "int64": (-(2**63), 2**63 - 1)}
RANGES.update({"length": RANGES["uInt32"], "mantissa": RANGES["int64"], "exponent": (-63, 63)})
SCALARS = {"uInt32", "int32", "uInt64", "int64", "decimal", "string", "byteVector"}
ENTRIES = {"copy", "increment", "delta", "tail"}
OPERATORS = {"constant", "default"} | ENTRIES
FIELDS = SCALARS | {"group", "sequence", "templateRef"}
NAMED = {"name", "ns", "id"}
# The attributes of each element, besides operators.
ATTRIBUTES = {
    "templates": {"ns", "templateNs", "dictionary"},
    "template": NAMED | {"templateNs", "dictionary", "reset"},
    "typeRef": {"name", "ns"},
    "templateRef": {"name", "templateNs"},
    "group": NAMED | {"presence", "dictionary"},
    "sequence": NAMED | {"presence", "dictionary"},
    "length": NAMED,
    "string": NAMED | {"presence", "charset"},
    "exponent": set(),
    "mantissa": set(),
    "constant": {"value"},
    "default": {"value"},
    **{it: NAMED | {"presence"} for it in SCALARS - {"string"}},
    **{it: {"value", "key", "ns", "dictionary"} for it in ENTRIES},
}
CHILDREN = {
    "templates": {"template"},
    "template": FIELDS | {"typeRef"},
    "group": FIELDS | {"typeRef"},
    "sequence": FIELDS | {"typeRef", "length"},
    "length": OPERATORS,
    "decimal": OPERATORS | {"exponent", "mantissa"},
    "exponent": OPERATORS,
    "mantissa": OPERATORS,
    **{it: OPERATORS for it in SCALARS - {"decimal"}},
    **{it: OPERATORS | {"length"} for it in ("string", "byteVector")},
}
YES_NO = {"yes": True, "true": True, "y": True, "t": True, "1": True, "no": False, "false": False, "n": False, "f": False, "0": False}
# All of these names, which cannot be skipped on request.
OWN = {*ATTRIBUTES, *(name for names in ATTRIBUTES.values() for name in names)}

# Elements of FAST 1.2, and the FAST 1.1 types with the same encoding.
SENT_AS = {
    **{"enum": "uInt32", "boolean": "uInt32", "set": "uInt64", "timestamp": "uInt64"},
    **{"int8": "int32", "int16": "int32", "uInt8": "uInt32", "uInt16": "uInt32"},
}
LATER = {
    **{tag: f"sent as {kind}: write that" for tag, kind in SENT_AS.items()},
    "bitGroup": "its bits have no type in 1.1: write the integer or bytes that the exchange sends them as",
    "define": "it names a type: write that type where the name is used",
    "field": "its type stands elsewhere: write that type in its place",
    "type": "its type stands elsewhere: write that type in its place",
}
