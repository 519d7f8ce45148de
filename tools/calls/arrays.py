"""arrays.py LIBRARY TEMPLATES STREAM: prints the number of messages, fields and elements of a stream, counted by NumPy over arrays of
records."""

import os
import sys

sys.path.insert(0, os.path.join(os.path.dirname(os.path.abspath(__file__)), "../../bindings/python"))
import talvrugon
import numpy

library, templates, stream = sys.argv[1:]
with open(templates, encoding="utf-8") as text, open(stream, "rb") as bytes_of:
    names, stream = talvrugon.Library(library).set(text.read()), bytes_of.read()
kinds = numpy.zeros(16, dtype=numpy.int64)
with names.decoder() as decoder:
    for records, texts in decoder.feed_records(stream):
        assert isinstance(records, numpy.ndarray) and records.dtype.names == ("kind", "node", "value", "length", "exponent")
        kinds += numpy.bincount(records["kind"], minlength=16)
        assert int(records["length"].sum()) == len(texts)
print(kinds[talvrugon.MESSAGE_START], kinds[talvrugon.UNSIGNED : talvrugon.BYTES + 1].sum(), kinds[talvrugon.ELEMENT_START])
