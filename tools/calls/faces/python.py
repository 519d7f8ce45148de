"""python.py LIBRARY: tests bindings/python/talvrugon with numbers out of range, closed sets, pieces of all types and unread results."""

import os
import sys

HERE = os.path.dirname(os.path.abspath(__file__))
sys.path.insert(0, os.path.join(HERE, "../../../bindings/python"))
import talvrugon

SET = """
[[template]]
name = "T"
id = 1
fields = [
  { kind = "uInt64", name = "u" },
  { kind = "int64", name = "i" },
  { kind = "decimal", name = "d" },
  { kind = "bytes", name = "b" },
]
"""
START, END = (talvrugon.MESSAGE_START, 0, 0), (talvrugon.MESSAGE_END, 0, 0)
MESSAGE = [START, (talvrugon.UNSIGNED, 0, 5), (talvrugon.SIGNED, 1, -5), (talvrugon.DECIMAL, 2, (-7, -2)), (talvrugon.BYTES, 3, b"abc"), END]


def decoded(end):
    """Returns the message as a decoder has it: its end has the number of bytes of the stream up to there."""
    return [*MESSAGE[:-1], (talvrugon.MESSAGE_END, 0, end)]


def raised(kind, words, call, *arguments, **named):
    """Checks that a call raises an error of this type, whose sentence contains these words, and returns the error."""
    try:
        call(*arguments, **named)
    except kind as error:
        assert words in str(error), f"{words!r} is not in {error}"
        return error
    raise AssertionError(f"{call.__name__}{arguments}{named} raises no {kind.__name__}")


def with_value(number, value):
    """Returns the message with another value."""
    kind, node, _ = MESSAGE[number]
    return [*MESSAGE[:number], (kind, node, value), *MESSAGE[number + 1 :]]


def check_numbers(of):
    """Checks that each number must be an integer in range; the error names the number, and nothing changes."""
    encoder = of.encoder()
    due = encoder.encode(MESSAGE)
    for event, value in ((1, 2**64 + 5), (1, -1), (2, 2**63), (2, -(2**63) - 1), (3, (2**63, 0)), (3, (0, 2**31)), (3, (0, -(2**31) - 1))):
        raised(ValueError, f"event {event}", encoder.encode, with_value(event, value))
    for event, value in ((1, 5.0), (1, "5"), (2, None), (3, (1.5, 0))):
        raised(TypeError, f"event {event}", encoder.encode, with_value(event, value))
    raised(TypeError, "", encoder.encode, with_value(4, 5))
    raised(TypeError, "", encoder.encode, with_value(4, "abc"))
    raised(ValueError, "the node of event 1", encoder.encode, [START, (talvrugon.UNSIGNED, 2**32, 5), END])
    raised(ValueError, "the kind of event 0", encoder.encode, [(-1, 0, 0)])
    assert raised(talvrugon.Error, "", encoder.encode, MESSAGE[:-1]).place == 5
    encoder.reset()
    assert encoder.encode(MESSAGE) == due
    assert encoder.encode(with_value(1, 2**64 - 1)) and encoder.encode(with_value(2, -(2**63)))
    for name in ("max_text", "max_elements", "max_total"):
        for make in (of.decoder, of.encoder):
            raised(ValueError, name, make, **{name: -1})
            raised(ValueError, name, make, **{name: 2**32})
            raised(TypeError, name, make, **{name: 16.0})
    raised(TypeError, "strict", of.decoder, strict=1)
    raised(IndexError, "7", of.node_name, 7)
    raised(ValueError, "the number", of.template_name, -1)
    assert (of.template_name(0), of.node_name(0), of.template_name(0)) == ("T", "u", "T")
    return due


def check_pieces(of, due):
    """Checks that a piece is bytes or has the buffer protocol, and nothing else; all of it is decoded when the call returns."""
    for piece in (due, bytearray(due), memoryview(due), memoryview(bytearray(due))):
        with of.decoder() as decoder:
            events = decoder.feed(piece)
            assert (decoder.consumed, decoder.between) == (len(due), True)
            assert list(events) == decoded(len(due)) and list(events) == decoded(len(due)) and len(events) == len(MESSAGE)
            assert of.encoder().encode(events) == due
    decoder = of.decoder(room=talvrugon.Room(1, 1))
    for piece in (5, "abc", None, [1, 2]):
        raised(TypeError, "", decoder.feed, piece)
    assert decoder.consumed == 0
    decoder.feed(due)
    assert decoder.consumed == len(due)
    for event in decoder.feed(due):
        break
    assert list(decoder.feed(due)) == decoded(3 * len(due)) and decoder.consumed == 3 * len(due)
    parts = decoder.feed_records(due)
    assert [len(records) for records, _ in parts] == [1] * len(MESSAGE) and parts[4][1] == b"abc"


def check_faults(of, due):
    """Checks that an error has the code, the offset, the template and the events before it, in pieces too; and that a truncated packet is
    an error."""
    decoder = of.decoder()
    fault = raised(talvrugon.Error, "D2", decoder.feed, due + due[:2] + b"\x7f" * 10)
    assert (fault.status, fault.code, fault.place, fault.template) == (101, "D2", len(due) + 12, 0)
    assert list(fault.events) == [*decoded(len(due)), START]
    again = raised(talvrugon.Error, "D2", decoder.feed, due)
    assert (again.place, len(again.events)) == (fault.place, 0) and not decoder.between
    decoder.reset()
    assert (decoder.consumed, decoder.between) == (0, True) and len(decoder.feed(due)) == len(MESSAGE)
    fault = raised(talvrugon.Error, "D9", decoder.feed, b"\xc0\xff")
    assert (fault.code, fault.place, fault.template) == ("D9", len(due) + 2, None)
    decoder.reset()
    decoder.feed(due[:4])
    assert raised(talvrugon.Error, "", decoder.feed, b"\x7f" * 10).template == 0
    # with room for one record, so that a packet takes several calls of the library
    decoder = of.decoder(room=talvrugon.Room(1, 3))
    assert list(decoder.packet(due)) == decoded(len(due))
    cut = raised(talvrugon.Error, "", decoder.packet, due[:4])
    assert (cut.status, cut.code, cut.place, cut.template) == (6, None, 4, 0) and not decoder.between
    assert raised(talvrugon.Error, "", decoder.packet, due, afresh=False).status == 6
    assert list(decoder.packet(due)) == decoded(len(due)) and list(decoder.packet(due, afresh=False)) == decoded(2 * len(due))
    assert decoder.consumed == 2 * len(due) and list(decoder.packet(b"")) == []


def check_closing(library, due):
    """Checks that a closed object raises status 4, and that decoders and encoders of a closed set stay usable."""
    of = library.set(SET)
    with of.decoder() as decoder, of.encoder() as encoder:
        of.close()
        of.close()
        assert list(decoder.feed(due)) == decoded(len(due)) and encoder.encode(MESSAGE) == due
        for call in (of.decoder, of.encoder, lambda: of.nodes, lambda: of.node_name(0)):
            assert raised(talvrugon.Error, "", call).status == talvrugon.CLOSED
    for call in (lambda: decoder.feed(b""), decoder.reset, lambda: encoder.encode(MESSAGE), encoder.reset):
        assert raised(talvrugon.Error, "", call).status == talvrugon.CLOSED
    raised(talvrugon.Error, "S1", library.set, "x")
    raised(UnicodeError, "surrogate", library.set, f"# \udcff{SET}")
    assert raised(talvrugon.Error, "", library.set(SET).decoder, max_text=15).status == 201


def check_room(of):
    """Checks that a string of max_text bytes is decoded, whatever room was given."""
    text = b"x" * 1048576
    message = with_value(4, text)
    encoder, room = of.encoder(max_text=len(text)), talvrugon.Room(2, 2)
    decoders = [of.decoder(max_text=size, room=room) for size in (len(text), 16)]
    stream = encoder.encode(message)
    assert list(decoders[0].feed(stream)) == [*message[:-1], (talvrugon.MESSAGE_END, 0, len(stream))]
    assert raised(talvrugon.Error, "L1", decoders[1].feed, of.encoder().encode(MESSAGE[:4] + [(talvrugon.BYTES, 3, b"x" * 17), END])).place > 0


def check_sentences(library):
    """Checks that the sentences are those of tools/calls/statuses.txt, and that no other status has one."""
    with open(f"{HERE}/../statuses.txt", encoding="utf-8") as file:
        due = {int(number): words for number, words in (line.rstrip("\n").split(" ", 1) for line in file)}
    assert {number: library.words(number) for number in range(1000) if library.words(number)} == due


def main(path):
    library = talvrugon.Library(path)
    of = library.set(SET)
    due = check_numbers(of)
    check_pieces(of, due)
    check_faults(of, due)
    check_closing(library, due)
    check_room(of)
    check_sentences(library)


if __name__ == "__main__":
    main(*sys.argv[1:])
