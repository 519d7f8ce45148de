"""Packets as lines, decoded by the library."""

from __future__ import annotations

import datetime
import os
import sys

from captures import Failed
from layers import named

TOP = os.path.dirname(os.path.dirname(os.path.dirname(os.path.realpath(__file__))))
sys.path.insert(0, f"{TOP}/bindings/python")
import talvrugon
from lines import Lines

LIBRARY = f"{TOP}/crates/fast_c/out/libfast_c.so"
SECOND = 10**9
# The greatest number of flows that have a decoder at a time.
DECODERS = 256
# The status of a packet that ends inside a message.
TRUNCATED = 6


def library(path):
    """Returns the shared library at a path; if there is none, or one of another build, the error says how to make it."""
    path = os.path.relpath(path or os.environ.get("FAST_LIBRARY") or LIBRARY)
    tool = os.path.relpath(f"{TOP}/tools/library")
    if not os.path.exists(path):
        raise Failed(3, f"{path} is not there: {tool} fast_c makes {os.path.relpath(LIBRARY)}")
    try:
        return talvrugon.Library(os.path.abspath(path))
    except (OSError, AttributeError, ImportError) as error:
        raise Failed(3, f"{error}: {tool} fast_c makes {os.path.relpath(LIBRARY)}") from error


def template_set(of, path):
    """Reads the template set of a file."""
    try:
        with open(path, "rb") as it:
            text = it.read(16 * 1024 * 1024 + 1)
    except OSError as error:
        raise Failed(3, f"{path}: {error.strerror}") from error
    if text.lstrip(b"\xef\xbb\xbf \t\r\n").startswith(b"<"):
        raise Failed(2, f"{path}: XML, of which tools/from_xml/run makes a template text")
    try:
        return of.set(text.decode())
    except UnicodeDecodeError as error:
        raise Failed(2, f"{path}: byte {error.start} is no UTF-8: give a template text, as tools/from_xml/run makes it") from error
    except talvrugon.Error as error:
        raise Failed(2, f"{path}: {error.words} (fastcat check --explain {path} says where)") from error


def when(time):
    """Returns a time, given in nanoseconds, as text; a dash for a packet without one."""
    if time is None:
        return "-"
    seconds, parts = divmod(time, SECOND)
    try:
        day = datetime.datetime.fromtimestamp(seconds, datetime.timezone.utc).strftime("%Y-%m-%dT%H:%M:%S")
    except (ValueError, OverflowError, OSError):
        day = str(seconds)
    return f"{day}.{parts:09}Z"


class Shown:
    """Shows packets: a line for each, the lines of its messages, and what is wrong with it."""

    def __init__(self, words):
        self.names = template_set(library(words.library), words.files[0])
        self.limits = {"strict": words.strict, "max_text": words.max_text, "max_elements": words.max_elements, "max_total": words.max_total}
        self.is_afresh, self.is_wrong, self.lines, self.decoders = words.reset == "always", False, Lines(self.names), {}
        self.decoder(None)

    def decoder(self, flow):
        """Returns the decoder of a flow, or the one decoder if each packet starts afresh; closes the oldest if there are too many."""
        flow = None if self.is_afresh else flow
        if flow not in self.decoders:
            if len(self.decoders) >= DECODERS:
                self.decoders.pop(next(iter(self.decoders))).close()
            try:
                self.decoders[flow] = self.names.decoder(**self.limits)
            except talvrugon.Error as error:
                raise Failed(2, f"limits: {error.words}") from error
        return self.decoders[flow]

    def wrong(self, words):
        self.is_wrong = True
        return f"{words}\n".encode()

    def texts(self, number, packet):
        """Yields the output of a packet, line by line."""
        sequence = "-" if packet.sequence is None else packet.sequence
        yield f"packet {number} {when(packet.time)} {named(packet.flow)} {sequence}\n".encode()
        decoder = self.decoder(packet.flow)
        if packet.gap:
            yield self.wrong(f"gap {packet.gap}")
            decoder.reset()
        yield from self.messages(decoder, packet)
        if packet.wrong:
            yield self.wrong(packet.wrong)

    def decoded(self, decoder, packet):
        """Returns the events of a packet's messages, and the fault after them, if there is one. A packet of a stream may end anywhere."""
        goes_on = packet.is_stream and not self.is_afresh
        try:
            return decoder.feed(packet.data) if goes_on else decoder.packet(packet.data, afresh=self.is_afresh), None
        except talvrugon.Error as error:
            return error.events, error

    def messages(self, decoder, packet):
        """Yields the lines of a packet's messages, and then that of a fault or a truncation."""
        begun = 0 if packet.is_stream or self.is_afresh else decoder.consumed
        events, fault = self.decoded(decoder, packet)
        for event in events:
            yield self.lines.line(*event)
        if fault:
            if fault.status != TRUNCATED and not fault.code:
                raise Failed(3, fault.words) from fault
            what = "truncated" if fault.status == TRUNCATED else f"fault {fault.code}"
            decoder.reset()
            yield self.wrong(f"{what} at {fault.place - begun}")

    def end(self, packet):
        """Returns the output at the end of a stream: nothing, unless that is inside a message."""
        decoder = None if self.is_afresh else self.decoders.pop(packet.flow, None)
        if not decoder:
            return b""
        said = b"" if decoder.between else self.wrong(f"truncated at {decoder.consumed}")
        decoder.close()
        return said and f"packet - {when(packet.time)} {named(packet.flow)} -\n".encode() + said
