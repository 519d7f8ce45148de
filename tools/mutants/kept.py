"""Results of earlier runs on this machine, stored in the kit's cache by the checksums of all that they read, as those of rt ci are."""

import contextlib
import hashlib
import os
import tempfile

PARTS = ("src", "specs", "proofs")


def add_files(sum, folder, is_whole):
    """Adds the files of a folder to a checksum: their contents, or only their sizes and times."""
    for at, folders, files in os.walk(folder):
        folders.sort()
        for name in sorted(files):
            sum.update(os.path.relpath(f"{at}/{name}", folder).encode())
            if is_whole:
                with open(f"{at}/{name}", "rb") as it:
                    sum.update(hashlib.sha256(it.read()).digest())
            else:
                found = os.stat(f"{at}/{name}")
                sum.update(f" {found.st_size} {found.st_mtime_ns}\n".encode())


def sum_of(kit, crate, rows, tool):
    """Returns a checksum of all that the results of a crate's mutants depend on: this tool, the kit, the crate, and its dependencies."""
    sum = hashlib.sha256()
    for part in ("bin", "logic_built", "rlibs"):
        add_files(sum, f"{kit}/{part}", False)
    # (not the record of controls, which only says which of them are tried)
    for name in sorted(it for it in os.listdir(tool) if os.path.isfile(f"{tool}/{it}") and it != "controls"):
        with open(f"{tool}/{name}", "rb") as it:
            sum.update(it.read())
    for name in [*crate.below, crate.name]:
        sum.update(repr((name, rows[name])).encode())
        for part in (*PARTS, *(["mutants"] if name == crate.name else [])):
            add_files(sum, f"{os.path.dirname(crate.folder)}/{name}/{part}", True)
    return sum.hexdigest()


def place(kit, sum):
    return f"{os.path.dirname(os.path.realpath(kit))}/rattle-kept/mutants/{sum}"


def refused(kit, sum):
    """Returns whether an earlier run refused all mutants of this sum."""
    return os.path.isfile(place(kit, sum))


def keep(kit, sum, said):
    """Stores that a run refused all mutants of this checksum, if the cache exists."""
    at = os.path.dirname(place(kit, sum))
    with contextlib.suppress(OSError):
        os.makedirs(at, 0o700, exist_ok=True)
        with tempfile.NamedTemporaryFile("w", dir=at, delete=False, encoding="utf-8") as it:
            it.write(said)
        os.replace(it.name, place(kit, sum))
