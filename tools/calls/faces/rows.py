"""rows.py LIBRARY: prints the results of each stream of the rows on standard input, by bindings/python/talvrugon, as rows.cpp does."""

import os
import sys

sys.path.insert(0, os.path.join(os.path.dirname(os.path.abspath(__file__)), "../../../bindings/python"))
import talvrugon

BASIS, PRIME, SPREAD, MASK = 0xCBF29CE484222325, 0x100000001B3, 0x9E3779B97F4A7C15, (1 << 64) - 1


def words_of(kind, node, value):
    """Returns the words of 64 bits that an event adds to the checksum of docs/PERFORMANCE.md."""
    key = (node * 16 + kind) * SPREAD
    if kind == talvrugon.DECIMAL:
        return [key + value[0], value[1]]
    if kind in (talvrugon.ASCII, talvrugon.UNICODE, talvrugon.BYTES):
        return [key + len(value), *(int.from_bytes(value[at : at + 8], "little") for at in range(0, len(value), 8))]
    return [key] if kind == talvrugon.MESSAGE_END else [key + value]


class Sums:
    """The number of events, their checksum, and the offset of the last end of a message."""

    def __init__(self):
        self.events, self.sum, self.end = 0, BASIS, None

    def add(self, events):
        for event in events:
            self.events += 1
            if event[0] == talvrugon.MESSAGE_END:
                self.end = event[2]
            for word in words_of(*event):
                self.sum = (self.sum ^ word & MASK) * PRIME & MASK


def status_of(decoder, piece, to):
    """Feeds a piece, and returns its status: 1 if the error contradicts the decoder."""
    try:
        to.add(decoder.feed(piece))
    except talvrugon.Error as fault:
        to.add(fault.events)
        return fault.status if fault.place == decoder.consumed and fault.words.startswith(f"{fault.code}: ") else 1
    return talvrugon.DONE


def run(decoder, stream, piece):
    to, status = Sums(), talvrugon.DONE
    for at in range(0, len(stream), piece):
        status = status or status_of(decoder, memoryview(stream)[at : at + piece], to)
        # A message ends at its last byte.
        if piece == 1 and to.end not in (None, decoder.consumed):
            status = 1
        to.end = None
    if status and status_of(decoder, b"", to) != status:
        status = 1
    print(status, int(decoder.between), decoder.consumed, to.events, f"{to.sum:016x}", decoder.library.words(status) if status else "-")


def main(library):
    names, room = talvrugon.Library(library), talvrugon.Room(16, 1)
    for row in sys.stdin:
        path, strict, max_text, max_elements, max_total, piece, stream = row.split()
        stream = bytes.fromhex(stream.strip("-"))
        with open(path, encoding="utf-8") as text, names.set(text.read()) as of:
            decoder = of.decoder(
                strict=strict == "1", max_text=int(max_text), max_elements=int(max_elements), max_total=int(max_total), room=room
            )
        run(decoder, stream, int(piece) or len(stream) + 1)
        decoder.reset()
        run(decoder, stream, 3)


if __name__ == "__main__":
    main(*sys.argv[1:])
