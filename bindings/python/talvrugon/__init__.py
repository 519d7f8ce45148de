"""A decoder and an encoder of FAST 1.1 streams, proved in Rattle, over ctypes.

Make the shared library from the static one:

    cc -shared -o libfast_c.so -Wl,--whole-archive libfast_c.a -Wl,--no-whole-archive include/heap.c

    with talvrugon.Library("./libfast_c.so").set(text).decoder() as decoder:
        for message in decoder.messages(piece): ..                # dictionaries: message["message"]["Symbol"]
        for kind, node, value in decoder.feed(piece): ..          # events
        for records, texts in decoder.feed_records(piece): ..     # NumPy structured arrays if NumPy is installed

A call has decoded its whole piece when it returns. Threads may share a set; use a decoder or an encoder from one thread at a time.
The library is proved; this module is tested.
"""

from __future__ import annotations

import ctypes as c
import os
from collections.abc import Iterable, Iterator, Mapping
from ctypes import byref
from typing import Any

from .calls import ASCII as ASCII
from .calls import BYTES as BYTES
from .calls import DECIMAL as DECIMAL
from .calls import ELEMENT_END as ELEMENT_END
from .calls import ELEMENT_START as ELEMENT_START
from .calls import FUNCTIONS, INTERFACE, ROW, Fed, Handle, P, Put, Record, integer, numbers_of
from .calls import GROUP_END as GROUP_END
from .calls import GROUP_START as GROUP_START
from .calls import MESSAGE_END as MESSAGE_END
from .calls import MESSAGE_START as MESSAGE_START
from .calls import SEQUENCE_END as SEQUENCE_END
from .calls import SEQUENCE_START as SEQUENCE_START
from .calls import SIGNED as SIGNED
from .calls import UNICODE as UNICODE
from .calls import UNSIGNED as UNSIGNED
from .events import Event, Events, packed
from .messages import Builder, Forms, Message, Packer
from .messages import json_value as json_value
from .queries import Node as Node
from .queries import Queries, in_hand, name_by
from .queries import Template as Template

# The library in a wheel, next to this module.
BESIDE = os.path.join(os.path.dirname(os.path.abspath(__file__)), "libfast.so.0")

DONE, MORE, CLOSED = 0, 1, 4


class Error(Exception):
    """The error of a call.

    place: for a fault, the number of bytes of the stream that were consumed; for records that are not those of one message, the number of
    the record that may not come next. template: the number of the template whose message has the fault, None between messages. events: the
    events of the piece before the fault. messages: from Decoder.messages and Decoder.packet_messages, the whole messages before it.
    """

    def __init__(self, status: int, place: int, words: str, template: int | None = None, events: Events | None = None):
        super().__init__(f"{words} (at {place})")
        self.status, self.place, self.words, self.template = status, place, words, template
        self.events = events if events is not None else Events([])
        self.messages: list[Message] = []

    @property
    def code(self) -> str | None:
        """The name of the code, such as D9, if there is one."""
        name, colon, _ = self.words.partition(":")
        return name if colon else None


class Library:
    """The shared library at a path, or the one in the wheel of this module."""

    def __init__(self, path: str = BESIDE):
        self.calls = c.CDLL(path)
        if self.calls.fast_interface() != INTERFACE:
            raise ImportError(f"{path} is of another build")
        for name, (result, *parameters) in FUNCTIONS.items():
            function = getattr(self.calls, name)
            function.restype, function.argtypes = result, parameters

    def words(self, status: int) -> str:
        """Returns the sentence of a status; empty if no status has the number."""
        room = c.create_string_buffer(256)
        length = self.calls.fast_status_words(integer("the status", status, 32), room, len(room))
        return room.raw[:length].decode()

    def expect(self, status: int, place: int = 0, *more: Any) -> None:
        """Raises an Error unless the status is 0."""
        if status != DONE:
            raise Error(status, place, self.words(status), *more)

    def set(self, text: str) -> Set:
        """Reads a template set from a TOML string."""
        return Set(self, text)


class Owned:
    """A pointer of the library, which is closed with the last reference to it, before the objects that it borrows."""

    def __init__(self, close: Any, *borrows: Any):
        self.at, self.close, self.borrows = P(), close, borrows

    def __del__(self) -> None:
        if self.at:
            self.close(Handle(self.at))


class Held:
    """An object of the library. It is closed by close(), at the end of a with statement, or with the last reference; closing it twice does
    nothing.

    Any use after that raises an Error of status 4.
    """

    def __init__(self, library: Library, close: Any, *borrows: Any):
        self.library = library
        self._owned: Owned | None = Owned(close, *borrows)

    @property
    def owned(self) -> Owned:
        if self._owned is None:
            raise Error(CLOSED, 0, self.library.words(CLOSED))
        return self._owned

    @property
    def handle(self) -> Handle:
        return Handle(self.owned.at)

    def close(self) -> None:
        self._owned = None

    def __enter__(self) -> Any:
        return self

    def __exit__(self, *_: Any) -> None:
        self.close()


class Set(Queries, Held):
    """A template set. Its decoders and encoders stay usable when it is closed: its memory is freed after the last of them."""

    def __init__(self, library: Library, text: str):
        super().__init__(library, library.calls.fast_set_close)
        self._names: dict[tuple[str, int], str] = {}
        self._forms: Forms | None = None
        raw = text.encode()
        library.expect(library.calls.fast_set_read(raw, len(raw), byref(self.owned.at)))

    def _name(self, call: str, number: int) -> str:
        if (call, number) not in self._names:
            self._names[call, number] = name_by(self.library, self.handle, call, number)
        return self._names[call, number]

    def _message_forms(self, borrower: Owned) -> Forms:
        """Returns the form of its messages, by a decoder or an encoder of it, which can still read the set after it is closed."""
        if self._forms is None:
            self._forms = Forms(self.library, Handle(borrower.borrows[0].at))
        return self._forms

    @property
    def templates(self) -> int:
        """The number of templates. They are numbered from 0."""
        return self.library.calls.fast_set_templates(self.handle)

    @property
    def nodes(self) -> int:
        """The number of fields, groups and sequences. They are numbered from 0."""
        return self.library.calls.fast_set_nodes(self.handle)

    def template_name(self, number: int) -> str:
        return self._name("fast_template_name", number)

    def node_name(self, number: int) -> str:
        return self._name("fast_node_name", number)

    def decoder(self, **limits: Any) -> Decoder:
        return Decoder(self, **limits)

    def encoder(self, **limits: Any) -> Encoder:
        return Encoder(self, **limits)


class Room:
    """Buffers for the records of one call (24 bytes each) and their strings. One room can serve any number of decoders of one thread."""

    def __init__(self, records: int = 4096, texts: int = 65536):
        self.records, self.texts = (Record * max(records, 1))(), c.create_string_buffer(max(texts, 1))

    def hold(self, max_text: int) -> None:
        """Makes room for a string of this many bytes."""
        if len(self.texts) < max_text:
            self.texts = c.create_string_buffer(max_text)


class Decoder(Held):
    """A decoder of a stream that comes in pieces, split anywhere. A piece is bytes or an object with the buffer protocol (bytearray,
    memoryview).

    strict: an encoding that is longer than it needs to be is a fault. max_text: the greatest length of a string in bytes, 16 to 1,048,576.
    max_elements, max_total: the greatest number of elements of one sequence, and of all sequences of one message. room: buffers that it
    shares with other decoders.
    """

    def __init__(
        self, of: Set, strict: bool = False, max_text: int = 1024, max_elements: int = 1000, max_total: int = 1000, room: Room | None = None
    ):
        super().__init__(of.library, of.library.calls.fast_decoder_close, of.owned)
        if not isinstance(strict, bool):
            raise TypeError(f"strict is {strict!r}, and has to be True or False")
        limits = numbers_of(max_text=max_text, max_elements=max_elements, max_total=max_total)
        self.set = of
        self.library.expect(self.library.calls.fast_decoder_open(of.handle, strict, *limits, byref(self.owned.at)))
        self.room = room or Room()
        self.room.hold(max_text)
        self._fed = Fed(between=1)
        self._template: int | None = None
        self._builder = Builder()

    def _decode(self, piece: Any, call: Any, *how: int) -> Events:
        """Feeds a piece by calls of the library until all of it is consumed."""
        raw = piece if isinstance(piece, bytes) else bytes(memoryview(piece))
        start, at, fed, room = c.cast(c.c_char_p(raw), P).value or 0, 0, self._fed, self.room
        parts: list[tuple[bytes, bytes]] = []
        while True:
            buffers = room.records, len(room.records), room.texts, len(room.texts)
            call(self.handle, byref(P()), *how, start + at, len(raw) - at, *buffers, byref(fed))
            if fed.records:
                parts.append((c.string_at(room.records, fed.records * ROW.size), c.string_at(room.texts, fed.texts)))
            at += fed.taken
            how = (0,) * len(how)
            if fed.status != MORE:
                break
        events = Events(parts)
        knows, template = events.template() if not fed.between else (True, None)
        self._template = template if knows else self._template
        self.library.expect(fed.status, fed.consumed, self._template, events)
        return events

    def feed(self, piece: Any) -> Events:
        """Decodes a piece of the stream, and returns its events: an iterable of (kind, node, value).

        At a fault of the stream it raises an Error, whose `events` are those before it; so does each further call, until a reset.
        """
        self._expect_open_by(False)
        return self._decode(piece, self.library.calls.fast_decoder_feed)

    def packet(self, packet: Any, afresh: bool = True) -> Events:
        """Decodes one packet, which must end between two messages, and returns its events. It starts from a new dictionary, or, if `afresh`
        is false, from that of the previous packet.

        If the packet ends inside a message, it raises an Error of status 6; so does each further call, until a reset or a packet that
        starts afresh.
        """
        self._start_packet(False, afresh)
        return self._decode(packet, self.library.calls.fast_decoder_packet, 1 if afresh else 0)

    def messages(self, piece: Any) -> Iterator[Message]:
        """Decodes a piece of the stream, and returns an iterator over the messages that end in it, as dictionaries:

            {"template": "Trade", "id": 7, "message": {"symbol": "AB", "price": Decimal("265.06"), "size": 100}}

        Integers are int, decimals decimal.Decimal with the exponent of the stream, strings str, byte vectors bytes, groups dictionaries, and
        sequences lists of dictionaries. An absent field has no key. Of nodes with one name in a segment, the second has the key NAME#2, the
        third NAME#3 and so on, by their places in the template.

        A message that does not end in the piece comes with the piece in which it ends; `partial` is what there is of it. At a fault of the
        stream the iterator yields the messages before it and then raises an Error, whose `messages` they are too; so does each further call,
        until a reset. It raises a RuntimeError if `feed` or `packet` has returned the start of the message that is open.
        """
        self._expect_open_by(True)
        return self._messages(piece, self.library.calls.fast_decoder_feed)

    def packet_messages(self, packet: Any, afresh: bool = True) -> Iterator[Message]:
        """Decodes one packet as `packet` does, and returns an iterator over its messages as `messages` does."""
        self._start_packet(True, afresh)
        return self._messages(packet, self.library.calls.fast_decoder_packet, 1 if afresh else 0)

    @property
    def partial(self) -> Message | None:
        """The message of `messages` that has begun and not ended, or in which the fault is, as far as it has come; None if there is none."""
        return self._builder.message

    def _expect_open_by(self, messages: bool) -> None:
        """Raises a RuntimeError if the start of the open message was returned in the other form."""
        if self._fed.status == DONE and self._template is not None and (self.partial is not None) != messages:
            raise RuntimeError("the open message has begun in another form: feed and packet return events, messages and packet_messages do not")

    def _start_packet(self, messages: bool, afresh: bool) -> None:
        if afresh:
            self._builder.clear()
        else:
            self._expect_open_by(messages)

    def _messages(self, piece: Any, call: Any, *how: int) -> Iterator[Message]:
        forms = self.set._message_forms(self.owned)
        fault: Error | None = None
        try:
            events = self._decode(piece, call, *how)
        except Error as error:
            events, fault = error.events, error
        whole = self._builder.take(forms, events.parts)
        if fault:
            fault.messages = whole
        return yielded(whole, fault)

    def feed_records(self, piece: Any) -> list[tuple[Any, bytes]]:
        """Decodes a piece as `feed` does, and returns its events in the form of `Events.arrays`."""
        return self.feed(piece).arrays()

    @property
    def between(self) -> bool:
        """True if the stream is between two messages and has no fault."""
        return bool(self._fed.between)

    @property
    def in_hand(self) -> tuple[str, int | None]:
        """The part of the stream that the decoder waits for, or where it has stopped.

        "message", "map" (of a group or an element), or "node" with its number.
        """
        return in_hand(self.library, self.handle)

    @property
    def consumed(self) -> int:
        """The number of bytes consumed since the decoder was made or reset."""
        return self._fed.consumed

    def reset(self) -> None:
        """Resets the decoder: before the first byte, with an empty dictionary."""
        self.library.calls.fast_decoder_reset(self.handle, byref(P()))
        self._fed, self._template = Fed(between=1), None
        self._builder.clear()


def yielded(messages: list[Message], fault: Error | None) -> Iterator[Message]:
    """Yields messages, and then raises the fault, if there is one."""
    yield from messages
    if fault:
        raise fault


class Encoder(Held):
    """An encoder of messages. It copies events and strings for the call."""

    def __init__(self, of: Set, max_text: int = 1024, max_elements: int = 1000, max_total: int = 1000):
        super().__init__(of.library, of.library.calls.fast_encoder_close, of.owned)
        limits = numbers_of(max_text=max_text, max_elements=max_elements, max_total=max_total)
        self.set = of
        self.library.expect(self.library.calls.fast_encoder_open(of.handle, *limits, byref(self.owned.at)))

    def encode(self, message: Mapping[str, Any] | Iterable[Event]) -> bytes:
        """Returns the bytes of one message, from a dictionary as Decoder.messages yields them, or from its events as Decoder.feed returns them.

        In a dictionary each mandatory field has a key, constants too; "id" may be missing, and the keys may be in any order. A key that the
        template does not have, a mandatory field without a key and a value out of range are a ValueError, a value of another type a TypeError;
        the sentence has the path of the field and what is expected, as in "MDEntries[0].MDEntryPx of Book is 5, and has to be a decimal.Decimal".
        For numbers of events it has the number of the event.

        If the message is refused, it raises an Error: status 5 if the events are not those of one message; from 401 the codes E1 to E4 and R9;
        406 if an allocation failed. At every error, nothing changes.
        """
        if isinstance(message, Mapping):
            packer = Packer(self.set._message_forms(self.owned), message)
            records, texts = packer.records, packer.texts
        else:
            texts = bytearray()
            records = [packed(f"event {number}", event, texts) for number, event in enumerate(message)]
        put, calls = Put(), self.library.calls
        calls.fast_encoder_put(self.handle, byref(P()), b"".join(records), len(records), bytes(texts), len(texts), byref(put))
        self.library.expect(put.status, put.record)
        room = c.create_string_buffer(put.waiting)
        return c.string_at(room, calls.fast_encoder_take(self.handle, byref(P()), room, len(room)))

    def reset(self) -> None:
        """Resets the encoder. The reader's decoder must be reset at the same point of the stream."""
        self.library.calls.fast_encoder_reset(self.handle, byref(P()))
