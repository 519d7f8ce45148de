"""show.py LIBRARY TEMPLATES STREAM [PIECE]: prints the lines of a stream, as `fastcat show` does. With --again as the first argument, it
prints the bytes of its messages, encoded again."""

import os
import sys

sys.path.insert(0, os.path.join(os.path.dirname(os.path.abspath(__file__)), "../../bindings/python"))
import talvrugon

PLAIN = {
    talvrugon.GROUP_END: "end group",
    talvrugon.ELEMENT_START: "element",
    talvrugon.ELEMENT_END: "end element",
    talvrugon.SEQUENCE_END: "end sequence",
    talvrugon.MESSAGE_END: "end message",
}


def quoted(text):
    """Returns a string in quotes."""
    marked = bytearray()
    for byte in text:
        if byte < 0x20 or byte == 0x7F:
            marked += b"\\x%02x" % byte
        else:
            marked += (b"\\" if byte in b'"\\' else b"") + bytes([byte])
    return '"' + marked.decode("utf-8", "surrogateescape") + '"'


def value_of(kind, value):
    """Returns the letter and the value of a field."""
    if kind == talvrugon.DECIMAL:
        return "d", f"{value[0]}e{value[1]}"
    if kind == talvrugon.BYTES:
        return "b", value.hex()
    if kind in (talvrugon.ASCII, talvrugon.UNICODE):
        return "a" if kind == talvrugon.ASCII else "s", quoted(value)
    return "u" if kind == talvrugon.UNSIGNED else "i", str(value)


def line(names, kind, node, value):
    """Returns the line of an event."""
    if kind in PLAIN:
        return PLAIN[kind]
    if kind == talvrugon.MESSAGE_START:
        return f"message {names.template_name(node)}"
    if kind == talvrugon.GROUP_START:
        return f"group {node} {names.node_name(node)}"
    if kind == talvrugon.SEQUENCE_START:
        return f"sequence {node} {names.node_name(node)} {value}"
    return " ".join(("field", str(node), names.node_name(node), *value_of(kind, value)))


def show(names, stream, piece):
    """Writes the lines of a stream, and returns the status."""
    out = open(sys.stdout.fileno(), "w", encoding="utf-8", errors="surrogateescape", newline="\n", closefd=False)
    with names.decoder() as decoder, out:
        try:
            for at in range(0, len(stream), piece):
                for event in decoder.feed(stream[at : at + piece]):
                    print(line(names, *event), file=out)
        except talvrugon.Error as fault:
            print(f"fault {fault.code} at {fault.place}", file=out)
            return 1
        if not decoder.between:
            print(f"truncated at {decoder.consumed}", file=out)
        return 0 if decoder.between else 1


def again(names, stream):
    """Writes the bytes of a stream's messages."""
    with names.decoder() as decoder, names.encoder() as encoder:
        message = []
        for event in decoder.feed(stream):
            message.append(event)
            if event[0] == talvrugon.MESSAGE_END:
                sys.stdout.buffer.write(encoder.encode(message))
                message = []


def main(words):
    is_again = words[:1] == ["--again"]
    library, templates, stream, *piece = words[1:] if is_again else words
    with open(templates, encoding="utf-8") as text, open(stream, "rb") as bytes_of:
        names, stream = talvrugon.Library(library).set(text.read()), bytes_of.read()
    if is_again:
        return again(names, stream)
    return show(names, stream, int(piece[0]) if piece and int(piece[0]) else max(len(stream), 1))


if __name__ == "__main__":
    sys.exit(main(sys.argv[1:]))
