"""Initial values, and strings as TOML writes them."""

import json
import re

from grammar import RANGES


def quoted(text):
    """Returns a string in the form of TOML."""
    return json.dumps(text, ensure_ascii=False).replace("\x7f", "\\u007F")


def table(pairs):
    return "{ " + ", ".join(f"{key} = {value}" for key, value in pairs) + " }" if pairs else "{}"


def number_in(text, kind):
    """Returns an integer of a type in the form of the notation, or None."""
    low, high = RANGES[kind]
    bare = text.strip()
    return str(int(bare)) if re.fullmatch(r"-?[0-9]{1,30}", bare) and low <= int(bare) <= high else None


def decimal_in(text):
    """Returns a decimal as mantissa and exponent, normalised: the mantissa does not end in a zero."""
    found = re.fullmatch(r"(-?)([0-9]{0,90})(?:\.([0-9]{0,90}))?", text.strip())
    if not found or not (found[2] or found[3]):
        return None
    digits, exponent = found[2] + (found[3] or ""), -len(found[3] or "")
    bare = digits.rstrip("0")
    if not bare:
        return "0"
    exponent += len(digits) - len(bare)
    mantissa = int(found[1] + bare)
    low, high = RANGES["int64"]
    if not (low <= mantissa <= high and abs(exponent) <= 63):
        return None
    return f"{mantissa}e{exponent}" if exponent else str(mantissa)


def bytes_in(text):
    bare = "".join(text.split())
    return bare.lower() if re.fullmatch(r"(?:[0-9A-Fa-f]{2})*", bare) else None


def initial_in(text, kind):
    """Returns an initial value in the form of the notation, or None if it is not a value of the type."""
    if kind in RANGES:
        return number_in(text, kind)
    if kind == "decimal":
        return decimal_in(text)
    if kind == "bytes":
        return bytes_in(text)
    return text if kind == "unicode" or text.isascii() else None


def suits(operator, kind):
    """Returns whether an operator suits a type."""
    return {"increment": kind in RANGES, "tail": kind in ("ascii", "unicode", "bytes")}.get(operator, True)
