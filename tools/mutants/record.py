"""The record in the repository of the controls that held: for each crate a checksum of all that they depend on.

A control is a copy of an unchanged function, tried as its mutants are. It shows nothing about a mutant: only that the way in which mutants
are tried leaves no goal open by itself. So a control that held need not be tried again, on any machine, as long as its inputs are
unchanged. The kit is not one of them: rt ci shows that a kit proves the function, and tools/mutants/selftest that it judges copies
correctly.
"""

import functools
import hashlib
import os

from kept import PARTS, add_files
from sources import PROOF_FILES, without_bodies

HEAD = (
    "# Written by tools/mutants/run --record: of each crate, what the controls of its mutants were judged by when they held; and by\n"
    "# tools/mutants/selftest --record: the tool and the kit by which all of its test held.\n"
)
# The files of this tool that a control depends on; the cache of earlier runs is not one of them.
TOOL = ("record.py", "run", "sources.py")


def place(tool):
    return f"{tool}/controls"


def lines_of(tool):
    """Returns the checksums of the record, by the names of the crates."""
    if not os.path.isfile(place(tool)):
        return {}
    with open(place(tool), encoding="utf-8") as it:
        rows = [line.split() for line in it if not line.startswith("#")]
    return {row[0]: row[1] for row in rows if len(row) == 2}


def write(tool, name, sum):
    """Writes the line of a crate, or removes it if there is no checksum."""
    lines = {it: own for it, own in {**lines_of(tool), name: sum}.items() if own}
    with open(place(tool), "w", encoding="utf-8") as it:
        it.write(HEAD + "".join(f"{name} {lines[name]}\n" for name in sorted(lines)))


def sum_of(crate, rows, tool, tried):
    """Returns a checksum of all that the controls of a crate depend on: this tool, the crate, the parts of its dependencies that others can
    see, and which functions are tried, and how."""
    sum = hashlib.sha256()
    for name in TOOL:
        with open(f"{tool}/{name}", "rb") as it:
            sum.update(hashlib.sha256(it.read()).digest())
    sum.update(repr([(name, rows[name]) for name in [*crate.below, crate.name]]).encode())
    for part in PARTS:
        sum.update(part.encode())
        add_files(sum, f"{crate.folder}/{part}", True)
    for name in crate.below:
        sum.update(seen_of(f"{os.path.dirname(crate.folder)}/{name}").encode())
    sum.update(repr(sorted(tried)).encode())
    return sum.hexdigest()


@functools.cache
def seen_of(folder):
    """Returns a checksum of the parts of a crate that others can see: its specs, its lemmas, and its code without the bodies that only
    their own proofs read. Bodies of constants, of traits and of functions that the compiler evaluates stay."""
    sum, texts = hashlib.sha256(), {}
    for part in PARTS:
        for at, _, files in os.walk(f"{folder}/{part}"):
            for name in files:
                if part != "proofs" or name not in PROOF_FILES:
                    with open(f"{at}/{name}", encoding="utf-8") as it:
                        texts[os.path.relpath(f"{at}/{name}", folder)] = it.read()
    code = {file: text for file, text in texts.items() if file.endswith(".rt")}
    texts |= without_bodies(os.path.basename(folder), code, ())[0]
    for file, text in sorted(texts.items()):
        # (the number of lines of a body does not count)
        bare = text if file not in code else "\n".join(line for line in text.split("\n") if line.strip())
        sum.update(repr((file, bare)).encode())
    return sum.hexdigest()
