"""Tests what tools/build and tools/library prove, over the results of `rt ci` and of earlier runs. The kit is a stub that notes its calls."""

import os
import shutil
import subprocess
import time

from common import TOP, age, content, run, write

CRATES = {"low": "", "mid": "low hex", "top": "low mid", "app": "top", "fast_c": "top"}
# Notes the crate and the type of the result, and makes it, unless FAILS names the crate.
RATTLE = """#!/bin/sh
case "$*" in *--help*) exit 0 ;; esac
kind=rlib
while [ $# -gt 1 ]; do
    case $1 in
    --crate-name) name=$2 ;;
    --statements) kind=$kind,statements ;;
    staticlib) kind=static ;;
    --backend) kind=$kind,$2 ;;
    --incremental) kind=$kind,incremental ;;
    -o) made=$2 ;;
    esac
    shift
done
case "$1" in *.rlib | *.a | *.o) made=$1 ;; esac
echo "$name $kind" >>"$NOTES"
[ "$name" != "${FAILS:-}" ] || { echo "no proof of $name::f"; exit 1; }
case $made in *.rlib) mkdir "$made" ;; *) echo made >"$made" ;; esac
"""
RT = """#!/bin/sh
name=$(basename "$PWD")
echo "$name $1" >>"$NOTES"
[ "$name" != "${FAILS:-}" ] || { echo "no proof of $name::f"; exit 1; }
case $1 in
lib) mkdir -p "out/rlib/$name.rlib"; touch out/rlib/stamp ;;
run) mkdir -p out; echo made >"out/$name"; exit 3 ;;
esac
"""
CC = """#!/bin/sh
while [ "$1" != -o ]; do shift; done
echo shared >"$2"
"""
LINK = """#!/bin/sh
while [ "$1" != -o ]; do shift; done
echo linked >"$2"
"""


class Tree:
    """Crates and the tools that prove them; the sources are an hour old."""

    def __init__(self, room):
        self.top, self.kit = f"{room}/tree", f"{room}/kit"
        for name, text in (("bin/rattle", RATTLE), ("bin/rt", RT), ("bin/rattle-link", LINK), ("cc/cc", CC)):
            write(f"{self.kit}/{name}", text, 0o755)
        write(f"{self.top}/crates.txt", "".join(f"{name}: {uses}\n" for name, uses in CRATES.items()))
        write(f"{self.top}/include/heap.c", "")
        for name in CRATES:
            write(f"{self.top}/crates/{name}/src/{'main' if name == 'app' else 'lib'}.rt", "\n")
            write(f"{self.top}/crates/{name}/proofs/a.antt", "\n")
        age(self.top, 60)
        os.makedirs(f"{self.top}/tools")
        for it in ("proving.py", "build", "library"):
            shutil.copy(f"{TOP}/tools/{it}", f"{self.top}/tools/{it}")

    def path(self, name, path):
        return f"{self.top}/crates/{name}/{path}"

    def leave(self, *names, minutes=30, stamp=False):
        """Leaves the libraries of crates as `rt ci` does, or as `rt lib` does, which adds a stamp."""
        for it in names:
            os.makedirs(self.path(it, f"out/rlib/{it}.rlib"))
            if stamp:
                write(self.path(it, "out/rlib/stamp"), "")
            age(self.path(it, "out"), minutes)

    def environment(self, notes):
        return {"KIT": self.kit, "NOTES": notes, "RT_JOBS": "1", "PATH": f"{self.kit}/cc:{os.environ['PATH']}"}

    def run(self, tool, *words, **environment):
        """Returns the status, the calls of the kit, and the lines of standard error without their times."""
        notes = f"{self.top}/notes"
        write(notes, "")
        status, said, lines = run([f"{self.top}/tools/{tool}", *words], "/", **self.environment(notes), **environment)
        assert said == "", said
        return status, content(notes).splitlines(), [it.rpartition(", 0:0")[0] or it for it in lines.splitlines()]


def test_fresh_tree(room):
    """Each crate comes after its dependencies. The status of a program's run does not count: the stub's is 3."""
    tree = Tree(room)
    status, notes, lines = tree.run("build", "app")
    assert (status, notes) == (0, ["low lib", "mid lib", "top lib", "app run"]), (status, notes, lines)
    assert lines == ["low 1 of 4", "mid 2 of 4", "top 3 of 4", "app 4 of 4"], lines


def test_not_proved(room):
    tree = Tree(room)
    status, notes, lines = tree.run("build", "app", FAILS="mid")
    assert (status, notes) == (1, ["low lib", "mid lib"]), (status, notes)
    assert lines == ["low 1 of 4", "mid 2 of 4, not proved", "no proof of mid::f"], lines


def test_program_stays_until_the_next(room):
    for left in ((), ("low", "mid", "top")):
        tree = Tree(f"{room}/{len(left)}")
        tree.leave(*left)
        write(tree.path("app", "out/app"), "old")
        age(tree.path("app", "out/app"), 90)
        assert tree.run("build", "app", FAILS="app")[0] == 1
        assert content(tree.path("app", "out/app")) == "old"
        assert tree.run("build", "app")[0] == 0
        assert content(tree.path("app", "out/app")) in ("made\n", "linked\n")
        assert time.time() - os.path.getmtime(tree.path("app", "out/app")) < 60


def test_missing_one_is_proved_over_the_others(room):
    """A gate that was interrupted leaves an empty folder for a library."""
    for tool, name, last in (("build", "app", "app rlib"), ("library", "fast_c", "fast_c static,llvm")):
        tree = Tree(f"{room}/{tool}")
        tree.leave("low", "top")
        os.makedirs(tree.path("mid", "out/rlib"))
        status, notes, lines = tree.run(tool, name)
        assert (status, notes) == (0, ["mid rlib,statements", last]), (status, notes, lines)
        assert lines[0] == ("mid 2 of 4" if tool == "build" else "mid 2 of 3"), lines
        assert not os.path.exists(tree.path("mid", "out/rlib/stamp"))


def test_nothing_is_missing(room):
    tree = Tree(room)
    tree.leave("low", "mid", "top")
    assert tree.run("library", "fast_c") == (0, ["fast_c static,llvm"], ["libfast_c.a"])
    assert tree.run("library", "fast_c") == (0, [], [])
    assert tree.run("library", "--quick", "fast_c") == (0, ["fast_c static,rattle"], ["libfast_c.a"])
    assert tree.run("library", "--quick", "fast_c") == (0, [], [])


def test_changed_source(room):
    """The crates that depend on a changed one are proved again, over the statements of the unchanged ones."""
    tree = Tree(room)
    tree.leave("low", "mid", "top")
    age(tree.path("mid", "proofs"), 10)
    assert tree.run("build", "top")[1] == ["mid rlib,statements", "top rlib,statements"]
    assert tree.run("build", "top")[1] == []
    age(tree.path("low", "src"), -1)
    assert tree.run("build", "top")[1] == ["low lib", "mid lib", "top lib"]


def test_libraries_of_rt_lib(room):
    """The kind of which there are more decides how the others are proved."""
    tree = Tree(f"{room}/1")
    tree.leave("low", "mid", stamp=True)
    tree.leave("top")
    assert tree.run("library", "fast_c")[1] == ["low lib", "mid lib", "top lib", "fast_c static,llvm,incremental"]
    tree = Tree(f"{room}/2")
    tree.leave("low", stamp=True)
    tree.leave("mid", "top")
    assert tree.run("library", "fast_c")[1] == ["low rlib,statements", "fast_c static,llvm"]


def test_library_is_older(room):
    tree = Tree(room)
    tree.leave("low", "mid", "top")
    for it in ("top/proofs", "fast_c/src", "low/out/rlib"):
        write(tree.path("fast_c", "out/libfast_c.a"), "old")
        age(tree.path("fast_c", "out/libfast_c.a"), 20)
        age(f"{tree.top}/crates/{it}", 10)
        assert tree.run("library", "fast_c")[1][-1:] == ["fast_c static,llvm"], it
        age(f"{tree.top}/crates/{it}", 40)


def test_shared_library(room):
    tree = Tree(room)
    tree.leave("low", "mid", "top")
    assert tree.run("library", "--quick", "fast_c")[0] == 0
    assert not os.path.exists(tree.path("fast_c", "out/quick/libfast_c.so"))
    assert tree.run("library", "fast_c")[0] == 0
    assert content(tree.path("fast_c", "out/libfast_c.so")) == "shared\n"


def test_beside(room):
    """It waits until the dependencies have been proved, and proves nothing else."""
    tree = Tree(room)
    said, notes = f"{room}/said", f"{room}/notes"
    write(said, "rt: low proved\nrt: mid proved\nrt: top: its tests are proved\n")
    environment = {**os.environ, **tree.environment(notes)}
    with subprocess.Popen([f"{tree.top}/tools/library", "--beside", said, "fast_c"], stderr=subprocess.DEVNULL, env=environment) as ran:
        time.sleep(0.3)
        assert content(notes) == ""
        tree.leave("low", "mid", "top")
        write(said, "rt: low proved\nrt: mid proved\nrt: top proved\n")
        assert ran.wait(20) == 0
    assert content(notes) == "fast_c static,llvm\n"


def test_beside_a_gate_that_failed(room):
    tree = Tree(room)
    said = f"{room}/said"
    assert tree.run("library", "--beside", said, "fast_c")[:2] == (1, [])
    write(said, "rt: low proved\n1 passed, 2 failed\n")
    assert tree.run("library", "--beside", said, "fast_c")[:2] == (1, [])
    write(said, "rt: low proved\nrt: mid proved\nrt: top proved\n3 passed, 0 failed\n")
    tree.leave("low", "mid", "top")
    age(tree.path("mid", "src"), 10)
    assert tree.run("library", "--beside", said, "fast_c") == (1, [], ["library: mid has changed since rt ci proved it"])
    age(tree.path("mid", "src"), 60)
    assert tree.run("library", "--beside", said, "fast_c")[:2] == (0, ["fast_c static,llvm"])
