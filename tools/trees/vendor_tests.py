"""Tests the repository that tools/vendor makes, and the changes of a second run."""

import os
import re
import subprocess

from common import TOP, content, run, write

FOUR = ("fast_value", "fast_template", "fast_decoder", "fast_encoder")


def vendor(folder, *crates):
    return run([f"{TOP}/tools/vendor", folder, *crates], "/")


def rows_of(path):
    return dict(re.findall(r"^(\w+): (.*)$", content(path), re.M))


def below(rows, *names):
    """Returns these crates and their dependencies."""
    found = {it for it in names if it in rows}
    return found.union(*(below(rows, *rows[it].split()) for it in found))


def files_in(folder):
    """Returns each file below a folder but Git's, with its bytes and when it was written."""
    found = {}
    for at, folders, files in os.walk(folder):
        folders[:] = [it for it in folders if it != ".git"]
        for it in files:
            with open(f"{at}/{it}", "rb") as file:
                found[os.path.relpath(f"{at}/{it}", folder)] = (file.read(), os.stat(f"{at}/{it}").st_mtime_ns)
    return found


def test_new_repository(room):
    """The crates, their rows, a starter, and the files for `rt ci`; a second run changes nothing."""
    folder, rows = f"{room}/mine", rows_of(f"{TOP}/crates.txt")
    assert vendor(folder) == (0, "", "")
    crates = below(rows, *FOUR)
    assert {*os.listdir(f"{folder}/crates")} == {*crates, "starter"}
    assert {*os.listdir(folder)} == {".git", ".gitignore", "HANDLES", "crates", "crates.txt", "vendored.LICENSE", "vendored.txt"}
    assert rows_of(f"{folder}/crates.txt") == {**{it: rows[it] for it in crates}, "starter": "fast_value fast_template fast_decoder"}
    assert content(f"{folder}/HANDLES") == "Handles allowed: none.\n"
    for it in crates:
        assert {*os.listdir(f"{folder}/crates/{it}")} <= {"src", "specs", "proofs"}, it
        for part in os.listdir(f"{folder}/crates/{it}"):
            assert subprocess.run(["diff", "-r", f"{TOP}/crates/{it}/{part}", f"{folder}/crates/{it}/{part}"]).returncode == 0
    made = files_in(folder)
    assert vendor(folder) == (0, "", "")
    assert files_in(folder) == made


def test_starter_is_that_of_the_readme(room):
    """The README's function `events` is the starter's."""
    folder = f"{room}/mine"
    assert vendor(folder)[0] == 0
    example = re.search(r"```rust\n([^`]*pub fn events[^`]*)```", content(f"{TOP}/README.md"))[1]
    assert example in content(f"{folder}/crates/starter/src/lib.rt")


def test_only_those_named(room):
    """No starter is made if its dependencies are not among them."""
    folder, rows = f"{room}/mine", rows_of(f"{TOP}/crates.txt")
    assert vendor(folder, "fast_tree") == (0, "", "")
    assert {*os.listdir(f"{folder}/crates")} == below(rows, "fast_tree") == {*rows_of(f"{folder}/crates.txt")}
    status, _, said = vendor(folder, "fast_none")
    assert (status, said) == (1, "vendor: crates.txt has no fast_none\n")


def test_repository_that_is_there(room):
    """Crates and their rows are added and refreshed; the owner's files and out/ stay as they are."""
    folder = f"{room}/mine"
    own = {"crates.txt": "# mine\nmine: fast_wire  # own", "HANDLES": "Handles allowed: Net.\n", ".gitignore": "*~\n", "crates/mine/src/lib.rt": "\n"}
    for name, text in own.items():
        write(f"{folder}/{name}", text)
    assert vendor(folder, "fast_wire") == (0, "", "")
    assert content(f"{folder}/crates.txt") == "# mine\nmine: fast_wire  # own\nfast_wire: arrayvec\n"
    assert not os.path.exists(f"{folder}/.git") and not os.path.exists(f"{folder}/crates/starter")
    write(f"{folder}/crates/fast_wire/out/kept", "kept")
    # as if an older tree had been vendored, whose crate had another file and other uses
    write(f"{folder}/crates/fast_wire/src/older.rt", "\n")
    write(f"{folder}/crates.txt", content(f"{folder}/crates.txt").replace("arrayvec", "hex"))
    write(f"{folder}/vendored.txt", f"fast_wire {sum_in(f'{folder}/crates/fast_wire')}\n")
    assert vendor(folder) == (0, "", "")
    assert not os.path.exists(f"{folder}/crates/fast_wire/src/older.rt")
    assert content(f"{folder}/crates/fast_wire/out/kept") == "kept"
    assert rows_of(f"{folder}/crates.txt")["fast_wire"] == "arrayvec"
    for name, text in own.items():
        assert content(f"{folder}/{name}") == text or name == "crates.txt"


def sum_in(crate):
    script = "import sys; sys.dont_write_bytecode = True; from importlib.machinery import SourceFileLoader as L\n"
    script += f"sys.path.insert(0, {TOP + '/tools'!r}); print(L('vendor', {TOP + '/tools/vendor'!r}).load_module().sum_of({crate!r}), end='')"
    return subprocess.run(["python3", "-W", "ignore", "-c", script], capture_output=True, text=True, check=True).stdout


def refuses(folder, *crates, says):
    made = files_in(folder)
    assert vendor(folder, *crates) == (1, "", f"vendor: {says}\n")
    assert files_in(folder) == made


def test_refusals(room):
    """Another crate of the same name, by its folder or its row, and a crate that was changed: nothing is written."""
    write(f"{room}/a/crates/fast_value/src/lib.rt", "//! Another.\n")
    refuses(f"{room}/a", "fast_value", says=f"{room}/a has another crate fast_value")
    write(f"{room}/b/crates.txt", "fast_wire: hex\n")
    refuses(f"{room}/b", "fast_value", says=f"{room}/b has another crate fast_wire")
    assert vendor(f"{room}/c", "fast_value")[0] == 0
    write(f"{room}/c/crates/fast_wire/src/lib.rt", "//! Changed.\n")
    refuses(f"{room}/c", "fast_value", says=f"{room}/c/crates/fast_wire was changed there: remove that folder, and run this again")
