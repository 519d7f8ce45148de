"""The lines of events, as `fastcat show` prints them."""

import talvrugon

PLAIN = {
    talvrugon.GROUP_END: b"end group\n",
    talvrugon.ELEMENT_START: b"element\n",
    talvrugon.ELEMENT_END: b"end element\n",
    talvrugon.SEQUENCE_END: b"end sequence\n",
    talvrugon.MESSAGE_END: b"end message\n",
}
LETTERS = {talvrugon.UNSIGNED: "u", talvrugon.SIGNED: "i", talvrugon.DECIMAL: "d", talvrugon.ASCII: "a", talvrugon.UNICODE: "s", talvrugon.BYTES: "b"}
# How a line writes each byte of a string.
ESCAPES = [b"\\x%02x" % it if it < 0x20 or it == 0x7F else (b"\\" if it in b'"\\' else b"") + bytes([it]) for it in range(256)]


class Lines:
    """Writes lines with the names of a set."""

    def __init__(self, names):
        self.names, self.fronts = names, {}

    def front(self, kind, node):
        """Returns the start of a line, made once for each type and node."""
        if (kind, node) not in self.fronts:
            if kind == talvrugon.MESSAGE_START:
                words = f"message {self.names.template_name(node)}\n"
            elif kind in LETTERS:
                words = f"field {node} {self.names.node_name(node)} {LETTERS[kind]} "
            else:
                words = f"{'group' if kind == talvrugon.GROUP_START else 'sequence'} {node} {self.names.node_name(node)}"
            self.fronts[kind, node] = words.encode()
        return self.fronts[kind, node]

    def line(self, kind, node, value):
        """Returns the line of an event."""
        if kind in PLAIN:
            return PLAIN[kind]
        front = self.front(kind, node)
        if kind in (talvrugon.UNSIGNED, talvrugon.SIGNED):
            return b"%b%d\n" % (front, value)
        if kind == talvrugon.DECIMAL:
            return b"%b%de%d\n" % (front, *value)
        if kind in (talvrugon.ASCII, talvrugon.UNICODE):
            return b'%b"%b"\n' % (front, b"".join([ESCAPES[it] for it in value]))
        if kind == talvrugon.BYTES:
            return b"%b%b\n" % (front, value.hex().encode())
        if kind == talvrugon.SEQUENCE_START:
            return b"%b %d\n" % (front, value)
        return front if kind == talvrugon.MESSAGE_START else front + b"\n"
