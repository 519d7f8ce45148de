"""The file PROVED of a release: what proved it, and the checksums of its sources and of its files. `sha256sum -c` reads it."""

import hashlib
import os
import subprocess

# What is proved and shipped.
SHIPPED = ("fast_c", "fastcat")
PARTS = ("src", "specs", "proofs")


def crates_below(top, names):
    """Returns crates and all their dependencies, in the order of crates.txt."""
    rows, found, waiting = {}, set(), list(names)
    with open(f"{top}/crates.txt", encoding="utf-8") as it:
        for line in it:
            head, colon, uses = line.partition("#")[0].partition(":")
            if colon:
                rows[head.split()[0]] = uses.split()
    while waiting:
        crate = waiting.pop()
        if crate in rows and crate not in found:
            found.add(crate)
            waiting += rows[crate]
    return [it for it in rows if it in found]


def files_in(folder):
    """Returns the files below a folder by their paths from there, sorted by bytes; no links."""
    paths = (os.path.join(at, name) for at, _, names in os.walk(folder) for name in names)
    return sorted((os.path.relpath(it, folder) for it in paths if not os.path.islink(it)), key=os.fsencode)


def sources_of(folder):
    """Returns the sources of a crate by their paths in its folder, sorted by bytes."""
    return [it for it in files_in(folder) if it.split("/")[0] in PARTS]


def newest_source(top, name):
    """Returns the time at which a source of a crate or of its dependencies was last changed."""
    folders = [f"{top}/crates/{it}" for it in crates_below(top, [name])]
    return max(os.path.getmtime(f"{folder}/{it}") for folder in folders for it in sources_of(folder))


def checksum(path):
    with open(path, "rb") as it:
        return hashlib.sha256(it.read()).hexdigest()


def checksums(folder, names):
    """Returns the lines that `sha256sum` writes of files in a folder."""
    return "".join(f"{checksum(f'{folder}/{name}')}  {name}\n" for name in names)


def checksum_of_crate(folder):
    """Returns the SHA-256 of the checksums of a crate's sources."""
    return hashlib.sha256(checksums(folder, sources_of(folder)).encode()).hexdigest()


def text(top, tree, version, gate, given):
    """Returns the file for a tree; `given` names what was not proved and built here."""
    kit = os.environ.get("KIT", "/opt/rattle")
    said = subprocess.run([f"{kit}/bin/rt", "version"], stdout=subprocess.PIPE, text=True, check=True).stdout.split()
    lines = [
        f"# Talvrugon {version} for x86_64-linux, proved and built by",
        f"# kit {said[0]}",
        f"# logic {said[-1]}",
        f"# gate {gate}",
        *(f"# not built here, but given: {it}" for it in given),
        "# from these crates, each with the checksum of its sources, as these commands write it:",
        f"#     cd crates/NAME && find {' '.join(PARTS)} -type f | LC_ALL=C sort | xargs sha256sum | sha256sum",
    ]
    lines += [f"# crate {it} {checksum_of_crate(f'{top}/crates/{it}')}" for it in crates_below(top, SHIPPED)]
    lines.append("# The files, which `sha256sum --quiet --strict -c share/doc/talvrugon/PROVED` compares where share/ lies:")
    return "\n".join(lines) + "\n" + checksums(tree, files_in(tree))
