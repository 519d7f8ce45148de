"""Preambles: the lengths, sequence numbers and chunk headers that exchanges put before messages."""

from __future__ import annotations

import re
from dataclasses import dataclass, field

# The greatest number of bytes that are kept for one packet.
MOST = 1 << 20
# The greatest number of flows with incomplete chunks.
FLOWS = 1024
# The header of B3's messages has the sequence number, the number of chunks, the number of this one, from 1, and the number of bytes after
# it.
B3_HEAD = 10


@dataclass
class Packet:
    """The bytes of messages, with the gap before them, the sequence number, and what is wrong."""

    time: int | None
    flow: tuple
    data: bytes = b""
    sequence: int | None = None
    gap: int = 0
    wrong: str = ""
    is_stream: bool = False
    ends: bool = False


@dataclass
class Chunks:
    """A message of B3 in chunks: those that have arrived, and their total size."""

    number: int
    many: int
    found: dict = field(default_factory=dict)
    size: int = 0

    def is_whole_with(self, which, data):
        """Keeps a chunk, and returns whether the message is complete with it."""
        if which not in self.found:
            self.found[which], self.size = data, self.size + len(data)
        return len(self.found) == self.many


def number_in(text):
    """Parses the form of a number, such as be4: its byte order and its size."""
    found = re.fullmatch(r"(be|le)([1-8])", text)
    if not found:
        raise ValueError
    return "big" if found[1] == "be" else "little", int(found[2])


@dataclass
class Preamble:
    """The preamble of packets: a length, bytes that begin with a sequence number, or the header of B3."""

    length: tuple | None = None
    skip: int = 0
    sequence: tuple | None = None
    is_b3: bool = False
    kept: dict = field(default_factory=dict)

    def packets(self, piece):
        """Yields the packets that are complete with a piece."""
        if not self.length:
            yield from self.bare(piece)
            return
        if piece.gap:
            yield from self.unfinished(piece)
        kept = self.kept.setdefault(piece.flow, bytearray()) if piece.is_stream else bytearray()
        kept += piece.data
        yield from self.framed(piece, kept)
        if kept and (piece.ends or not piece.is_stream or len(piece.data) < piece.sent):
            yield self.cut(piece, kept)
        if piece.ends:
            self.kept.pop(piece.flow, None)

    def unfinished(self, piece):
        """Drops the incomplete packet before a gap, and yields the gap."""
        kept = self.kept.pop(piece.flow, b"")
        wrong = f"damaged length {self.due(kept)} of {len(kept)}" if kept else ""
        yield Packet(piece.time, piece.flow, gap=piece.gap, wrong=wrong)

    def due(self, kept):
        """Returns the size of a packet with its length field, or that of the length field alone."""
        order, size = self.length
        return size if len(kept) < size else size + int.from_bytes(kept[:size], order)

    def framed(self, piece, kept):
        """Yields the complete packets of the buffered bytes."""
        order, size = self.length
        while len(kept) >= size and self.due(kept) <= min(len(kept), MOST):
            due = self.due(kept)
            yield self.headed(piece, bytes(kept[size:due]))
            del kept[:due]
        if len(kept) >= size and self.due(kept) > MOST:
            yield Packet(piece.time, piece.flow, wrong=f"damaged length {self.due(kept)} of {len(kept)}")
            kept.clear()

    def cut(self, piece, kept):
        wrong = f"damaged length {self.due(kept)} of {len(kept)}"
        kept.clear()
        return Packet(piece.time, piece.flow, wrong=wrong)

    def bare(self, piece):
        """Yields the packet of a piece without a length."""
        is_cut = f"cut {len(piece.data)} of {piece.sent}" if len(piece.data) < piece.sent else ""
        if piece.ends:
            yield Packet(piece.time, piece.flow, ends=True)
            return
        if self.is_b3:
            yield from self.chunks(piece, is_cut)
            return
        it = self.headed(piece, piece.data)
        it.wrong, it.gap, it.is_stream = it.wrong or is_cut, piece.gap, piece.is_stream
        yield it

    def headed(self, piece, data):
        """Returns a packet without its preamble, the first bytes of which may be a sequence number."""
        if len(data) < self.skip:
            return Packet(piece.time, piece.flow, wrong=f"damaged preamble {len(data)} of {self.skip}")
        number = int.from_bytes(data[: self.sequence[1]], self.sequence[0]) if self.sequence else None
        return Packet(piece.time, piece.flow, data[self.skip :], number)

    def chunks(self, piece, is_cut):
        """Yields the message that this chunk completes; reports a message with missing chunks."""
        head, data = piece.data[:B3_HEAD], piece.data[B3_HEAD:]
        if len(head) < B3_HEAD:
            yield Packet(piece.time, piece.flow, wrong=is_cut or f"damaged preamble {len(head)} of {B3_HEAD}")
            return
        number, many, which, length = (int.from_bytes(head[a:b], "big") for a, b in ((0, 4), (4, 6), (6, 8), (8, 10)))
        kept = self.kept.get(piece.flow)
        if kept and (kept.number, kept.many) != (number, many):
            yield self.without_chunks(piece, piece.flow)
        wrong = is_cut or (f"damaged length {length} of {len(data)}" if length != len(data) else "")
        if many > 1 and not 1 <= which <= many:
            wrong = f"damaged chunk {which} of {many}"
        if wrong or many <= 1:
            yield Packet(piece.time, piece.flow, data, number, wrong=wrong)
            return
        if len(self.kept) >= FLOWS and piece.flow not in self.kept:
            yield self.without_chunks(piece, next(iter(self.kept)))
        kept = self.kept.setdefault(piece.flow, Chunks(number, many))
        if kept.is_whole_with(which, data):
            del self.kept[piece.flow]
            yield Packet(piece.time, piece.flow, b"".join(kept.found[it] for it in range(1, many + 1)), number)
        elif kept.size > MOST:
            yield self.without_chunks(piece, piece.flow)

    def without_chunks(self, piece, flow):
        """Returns the report of an incomplete message of a flow."""
        kept = self.kept.pop(flow)
        return Packet(piece and piece.time, flow, sequence=kept.number, wrong=f"damaged chunks {len(kept.found)} of {kept.many}")

    def last(self):
        """Yields the incomplete messages after the last piece."""
        for flow in list(self.kept) if self.is_b3 else ():
            yield self.without_chunks(None, flow)
