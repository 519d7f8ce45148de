"""dictionaries.py LIBRARY TEMPLATES STREAM: tests messages as dictionaries, over tools/calls/sets/names.toml and its stream: in pieces, at faults,
next to events, and what an encoder refuses."""

import copy
import os
import sys
from decimal import Decimal, localcontext

sys.path.insert(0, os.path.join(os.path.dirname(os.path.abspath(__file__)), "../../../bindings/python"))
import talvrugon

SAME = {"template": "Same", "id": 4294967295, "message": {"F": 1, "F#4": {"F": Decimal("-1.50"), "F#2": b"\x00"}, "F#5": [{"F": 2, "F#2": []}]}}
VALUES = {
    "template": "Values",
    "id": 0,
    "message": {
        **{"u.32": 1, "i-32": -1, "u_64": 2**64 - 1, "i64": -(2**63), "d": Decimal("0.00"), "e": Decimal(5), "a": "x", "s": "ü", "b": b""},
        **{"g": {}, "q": [{}, {"c": 3}], "k": "kept"},
    },
}

# What an encoder refuses: the error, the template, how its sentence begins, and where the message is changed, to this value or by leaving it out.
REFUSED = [
    (ValueError, "Same", "F of Same is 4294967296, and has to be from 0 to 4294967295", ("F",), 2**32),
    (ValueError, "Same", "F of Same is -1, and has to be from 0 to 4294967295", ("F",), -1),
    (ValueError, "Values", "u_64 of Values is 18446744073709551616, and has to be from 0 to 18446744073709551615", ("u_64",), 2**64),
    (ValueError, "Values", "i-32 of Values is 2147483648, and has to be from -2147483648 to 2147483647", ("i-32",), 2**31),
    (ValueError, "Values", f"i64 of Values is {-(2**63) - 1}, and has to be from {-(2**63)} to {2**63 - 1}", ("i64",), -(2**63) - 1),
    (TypeError, "Values", "u.32 of Values is '1', and has to be an integer from 0 to 4294967295", ("u.32",), "1"),
    (TypeError, "Values", "u.32 of Values is True, and has to be an integer", ("u.32",), True),
    (TypeError, "Values", "u.32 of Values is 1.0, and has to be an integer", ("u.32",), 1.0),
    (TypeError, "Values", "u.32 of Values is None, and has to be an integer", ("u.32",), None),
    (TypeError, "Values", "q[1].c of Values is '3', and has to be an integer from 0 to 4294967295", ("q", 1, "c"), "3"),
    (TypeError, "Values", "d of Values is 1.5, and has to be a decimal.Decimal", ("d",), 1.5),
    (TypeError, "Values", "e of Values is (1, 0), and has to be a decimal.Decimal", ("e",), (1, 0)),
    (ValueError, "Values", "d of Values is Decimal('NaN'), and has to be a decimal.Decimal", ("d",), Decimal("NaN")),
    (ValueError, "Values", "d of Values is Decimal('-Infinity'), and has to be a decimal.Decimal", ("d",), Decimal("-inf")),
    (ValueError, "Same", "the exponent of F#4.F of Same is 64, and has to be from -63 to 63", ("F#4", "F"), Decimal("1e64")),
    (ValueError, "Same", "the exponent of F#4.F of Same is -64, and has to be from -63 to 63", ("F#4", "F"), Decimal("1e-64")),
    (ValueError, "Same", "the mantissa of F#4.F of Same is 9223372036854775808, and has to", ("F#4", "F"), Decimal(2**63)),
    (TypeError, "Values", "a of Values is b'x', and has to be a str of characters below U+0080", ("a",), b"x"),
    (ValueError, "Values", "a of Values is 'ü', and has to be a str of characters below U+0080", ("a",), "ü"),
    (ValueError, "Values", "s of Values is '\\ud800', and has to be a str", ("s",), "\ud800"),
    (TypeError, "Values", "b of Values is '00', and has to be bytes", ("b",), "00"),
    (TypeError, "Values", "g of Values is [], and has to be a dictionary", ("g",), []),
    (TypeError, "Values", "q of Values is {}, and has to be a list of dictionaries", ("q",), {}),
    (TypeError, "Values", "q[0] of Values is 1, and has to be a dictionary", ("q",), [1]),
    (ValueError, "Same", "F#4.x of Same is not in the template, which has there F, F#2, n", ("F#4", "x"), 1),
    (ValueError, "Same", "F#6 of Same is not in the template, which has there F, F#2, n, F#3, F#4, F#5, n#2", ("F#6",), 1),
    (ValueError, "Same", "F of Same is missing: it is mandatory, and has to be an integer from 0 to 4294967295", ("F",)),
    (ValueError, "Same", "F#5[0].F#2 of Same is missing: it is mandatory, and has to be a list of dictionaries", ("F#5", 0, "F#2")),
    (ValueError, "Values", "k of Values is missing: it is mandatory, and has to be a str of characters below U+0080", ("k",)),
]


def raised(kind, words, call, *arguments):
    """Checks that a call raises an error of this type, whose sentence begins with these words, and returns the error."""
    try:
        call(*arguments)
    except kind as error:
        assert type(error) is kind and str(error).startswith(words), f"{error} does not begin with {words!r}"
        return error
    raise AssertionError(f"{words!r}: no {kind.__name__}")


def changed(message, path, *value):
    """Returns a copy of a message with another value at a path, or without it."""
    copied = copy.deepcopy(message)
    at = copied
    for key in path[:-1]:
        at = at[key]
    if value:
        at[path[-1]] = value[0]
    else:
        del at[path[-1]]
    return copied


def same(one, other):
    """Whether messages are equal to the exponents of decimals."""
    return repr(one) == repr(other)


def is_part(one, whole):
    """Whether a value that is not read to its end is the start of another one."""
    if isinstance(one, dict):
        return list(one) == list(whole)[: len(one)] and all(is_part(one[key], whole[key]) for key in one)
    if isinstance(one, list):
        return len(one) <= len(whole) and all(map(is_part, one, whole))
    return same(one, whole)


def check_values(of):
    """Checks the types of values, each of which keeps all that the stream has, under any decimal context."""
    encoder, decoder = of.encoder(), of.decoder()
    for message in (SAME, VALUES):
        assert same(list(decoder.messages(encoder.encode(message))), [message])
    with localcontext() as context:
        context.prec, context.Emax, context.Emin = 1, 1, -1
        wide = changed(SAME, ("message", "F#4", "F"), Decimal("-9223372036854775808e-63"))
        assert same(list(decoder.messages(encoder.encode(wide))), [wide])
    mixed = {"message": {key: VALUES["message"][key] for key in reversed(VALUES["message"])}, "template": "Values"}
    assert same(list(decoder.messages(encoder.encode(changed(mixed, ("message", "q"), ({}, {"c": 3}))))), [VALUES])
    assert same(list(decoder.messages(encoder.encode(changed(VALUES, ("message", "b"), bytearray())))), [VALUES])
    assert [talvrugon.json_value(it) for it in (Decimal("-1.50"), Decimal("12e3"), b"\x00\xff")] == ["-150e-2", "12e3", "00ff"]
    raised(TypeError, "5", talvrugon.json_value, 5)


def check_refusals(of):
    """Checks each refusal of a dictionary: it names the path and what is expected, and nothing changes."""
    encoder, fields = of.encoder(), "message"
    due = of.encoder().encode(VALUES)
    for kind, name, words, path, *value in REFUSED:
        raised(kind, words, encoder.encode, changed(SAME if name == "Same" else VALUES, (fields, *path), *value))
    raised(ValueError, "the id of Values is 1, and has to be 0", encoder.encode, changed(VALUES, ("id",), 1))
    raised(ValueError, "the template is 'X', and has to be one of the set: Part, Same, Values", encoder.encode, changed(VALUES, ("template",), "X"))
    raised(ValueError, "the keys of a message are template, id and message", encoder.encode, changed(VALUES, ("x",), 1))
    raised(ValueError, "the template is ['Same'], and has to be one of the set", encoder.encode, changed(SAME, ("template",), ["Same"]))
    raised(ValueError, "the keys of a message are template, id and message", encoder.encode, {"message": {}})
    raised(TypeError, "the message of Values is [], and has to be a dictionary", encoder.encode, changed(VALUES, (fields,), []))
    refused = raised(talvrugon.Error, "E1", encoder.encode, {"template": "Part", "message": {}})
    assert refused.status == 401
    raised(talvrugon.Error, "E3", encoder.encode, changed(VALUES, (fields, "k"), "other"))
    raised(talvrugon.Error, "E4", encoder.encode, changed(VALUES, (fields, "s"), "x" * 1025))
    assert encoder.encode(VALUES) == due


def check_pieces(of, stream, due):
    """Checks that a stream in two pieces, split anywhere, has the same messages, each given with the piece in which it ends."""
    decoder = of.decoder()
    for at in range(len(stream) + 1):
        first = list(decoder.messages(stream[:at]))
        assert same(first, due[: len(first)])
        assert (decoder.partial is None) or decoder.partial["template"] == due[len(first)]["template"]
        assert same(first + list(decoder.messages(stream[at:])), due) and decoder.between and decoder.partial is None
        decoder.reset()
    small = of.decoder(room=talvrugon.Room(1, 1))
    assert same([it for byte in stream for it in small.messages(bytes([byte]))], due)
    # The stream is decoded when the call returns, whether its messages are read or not.
    small.messages(stream)
    assert small.between and small.consumed == 2 * len(stream)


def check_faults(of, due):
    """Checks that the messages before a fault come first, and that the one with the fault is there as far as it has come."""
    encoder, decoder = of.encoder(), of.decoder()
    whole, broken = encoder.encode(VALUES), of.encoder().encode(SAME)[:7] + b"\x7f" * 10
    seen = []
    for _ in range(2):
        messages = decoder.messages(whole + broken)
        fault = raised(talvrugon.Error, "D2", lambda given: seen.extend(given), messages)
        assert (fault.code, fault.template, decoder.between) == ("D2", 1, False) and same(fault.messages, seen)
        assert same(seen, [VALUES]) and same(decoder.partial, {"template": "Same", "id": 4294967295, "message": {"F": 1}})
        again = raised(talvrugon.Error, "D2", list, decoder.messages(whole))
        assert (again.place, again.messages) == (fault.place, []) and decoder.partial["message"] == {"F": 1}
        raised(talvrugon.Error, "D2", decoder.feed, whole)
        decoder.reset()
        seen.clear()
        assert decoder.partial is None
    assert same(list(decoder.messages(whole)), [VALUES])
    # Open groups, sequences and elements.
    nested = of.encoder().encode(due[2])
    for at in range(len(nested)):
        list(decoder.messages(nested[:at]))
        part = decoder.partial
        assert part is None or is_part(part["message"], due[2]["message"]), part
        decoder.reset()
    with of.decoder(max_elements=1) as few:
        raised(talvrugon.Error, "L2", list, few.messages(nested))
        assert few.partial["message"] == {key: due[2]["message"][key] for key in ("F", "F#2", "n", "F#3", "F#4")}


def check_packets(of):
    """Checks packets: each afresh or not, and one that ends inside a message."""
    whole, decoder = of.encoder().encode(VALUES), of.decoder()
    assert same(list(decoder.packet_messages(whole)), [VALUES])
    cut = raised(talvrugon.Error, "the packet ends inside a message", list, decoder.packet_messages(whole[:4]))
    assert (cut.status, cut.messages) == (6, []) and decoder.partial["template"] == "Values"
    assert raised(talvrugon.Error, "", list, decoder.packet_messages(whole, afresh=False)).status == 6
    # A new packet has nothing of the one before it.
    assert raised(talvrugon.Error, "", list, decoder.packet_messages(whole[:1])).status == 6 and decoder.partial is None
    assert same(list(decoder.packet_messages(whole)), [VALUES]) and decoder.partial is None
    encoder = of.encoder()
    first, second = encoder.encode(VALUES), encoder.encode(VALUES)
    assert first != second and same(list(decoder.packet_messages(first)) + list(decoder.packet_messages(second, afresh=False)), [VALUES, VALUES])


def check_both_forms(of):
    """Checks that no message is returned half in one form and half in the other, and that dictionaries outlive a closed set."""
    whole, decoder = of.encoder().encode(SAME), of.decoder()
    count = len(decoder.feed(whole))
    assert same(list(decoder.messages(whole)), [SAME]) and len(decoder.feed(whole)) == count
    decoder.feed(whole[:8])
    raised(RuntimeError, "the open message", decoder.messages, whole[8:])
    assert decoder.feed(whole[8:]) and decoder.between
    list(decoder.messages(whole[:8]))
    raised(RuntimeError, "the open message", decoder.feed, whole[8:])
    raised(RuntimeError, "the open message", decoder.packet, whole[8:], False)
    assert same(list(decoder.messages(whole[8:])), [SAME])
    list(decoder.messages(whole[:8]))
    assert len(decoder.packet(whole)) == count and same(list(decoder.packet_messages(whole)), [SAME])


def check_closing(library, templates):
    """Checks that messages are read and encoded after their set is closed, and not after the decoder or the encoder is."""
    of = library.set(templates)
    decoder, encoder = of.decoder(), of.encoder()
    of.close()
    assert same(list(decoder.messages(encoder.encode(SAME))), [SAME])
    decoder.close(), encoder.close()
    raised(talvrugon.Error, "", decoder.messages, b"")
    raised(talvrugon.Error, "", encoder.encode, SAME)


def main(path, templates, stream):
    with open(templates, encoding="utf-8") as text, open(stream, "rb") as bytes_of:
        templates, stream = text.read(), bytes_of.read()
    library = talvrugon.Library(path)
    of = library.set(templates)
    due = list(of.decoder().messages(stream))
    assert [it["template"] for it in due] == ["Same"] * 4 + ["Values"] * 2
    check_values(of)
    check_refusals(of)
    check_pieces(of, stream, due)
    check_faults(of, due)
    check_packets(of)
    check_both_forms(of)
    check_closing(library, templates)


if __name__ == "__main__":
    main(*sys.argv[1:])
