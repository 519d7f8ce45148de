"""messages.py LIBRARY TEMPLATES STREAM PIECE: writes the messages of a stream as `fastcat show --json` does; PIECE is a number of bytes, or 0 for
all. With --again after LIBRARY, and no PIECE, it writes the bytes of its dictionaries, encoded again."""

import json
import os
import sys
from decimal import Decimal

sys.path.insert(0, os.path.join(os.path.dirname(os.path.abspath(__file__)), "../../../bindings/python"))
import talvrugon

MARKS = {**{it: f"\\u{it:04x}" for it in (*range(0x20), 0x7F)}, ord('"'): '\\"', ord("\\"): "\\\\"}


def string(text):
    return f'"{text.translate(MARKS)}"'


def shown(value):
    """Returns the JSON of a value, and checks that its type is the one that is due and no other."""
    if type(value) is dict:
        return "{%s}" % ",".join(f"{string(key)}:{shown(it)}" for key, it in value.items())
    if type(value) is list:
        return "[%s]" % ",".join(map(shown, value))
    if type(value) is int:
        return str(value)
    assert type(value) in (str, bytes, Decimal), f"{value!r} is no value"
    return string(value if type(value) is str else talvrugon.json_value(value))


def messages_of(decoder, stream, piece):
    """Yields the messages of a stream, with the fault that ends it, if there is one."""
    for at in range(0, len(stream), piece):
        yield from decoder.messages(stream[at : at + piece])


def main(words):
    library, *words = words
    is_again = words[0] == "--again"
    templates, stream, *piece = words[1:] if is_again else words
    with open(templates, encoding="utf-8") as text, open(stream, "rb") as bytes_of:
        names, stream = talvrugon.Library(library).set(text.read()), bytes_of.read()
    with names.decoder() as decoder, names.encoder() as encoder, open(sys.stdout.fileno(), "w", encoding="utf-8", newline="\n") as out:
        for message in messages_of(decoder, stream, int(piece[0]) if piece and int(piece[0]) else max(len(stream), 1)):
            if is_again:
                out.buffer.write(encoder.encode(message))
            else:
                line = shown(message)
                # as the module json has it, but for blanks and other marks
                assert json.loads(line) == json.loads(json.dumps(message, default=talvrugon.json_value)), line
                print(line, file=out)
        return 0 if decoder.between else 1


if __name__ == "__main__":
    sys.exit(main(sys.argv[1:]))
