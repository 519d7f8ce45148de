"""Proves and builds crates of crates.txt, each after its dependencies, with a line of progress for each on standard error.

There are two kinds of libraries, and they do not mix. `rt lib` writes whole ones, each with a stamp, and keeps its proofs even if it is
interrupted. `rt ci` writes statements, without a stamp. `rt lib` and `rt check` accept none of these, and prove all dependencies again.
Statements made from the same sources are the same bytes. So a missing one is proved over the others, as `rt ci` does, and fits the crates
that were built over the first.
"""

import functools
import os
import re
import shutil
import subprocess
import sys
import time

TOP = os.path.dirname(os.path.dirname(os.path.realpath(__file__)))
KIT = os.environ.get("KIT", "/opt/rattle")
SO_FAR = re.compile(r"(?:so far: |checked .*, )(\d+) of (\d+)\b")
SAME = "rt: nothing has changed since the last proved build"
LAST_LINES = 20


def rows_of(file):
    """Returns the crates of crates.txt, each with its dependencies."""
    rows = {}
    with open(file, encoding="utf-8") as it:
        for line in it:
            head, colon, deps = line.partition("#")[0].partition(":")
            if colon:
                rows[head.split()[0]] = deps.split()
    return rows


def in_order(name, rows):
    """Returns a crate's libraries and then the crate, each after its dependencies."""
    found = []
    for dep in rows[name]:
        if dep in rows:
            found += [it for it in in_order(dep, rows) if it not in found]
    return [*found, name]


def folder_of(name):
    return f"{TOP}/crates/{name}"


def rlib_of(name):
    return f"{folder_of(name)}/out/rlib/{name}.rlib"


def program_of(name):
    return f"{folder_of(name)}/out/{name}"


def is_program(name):
    return os.path.isfile(f"{folder_of(name)}/src/main.rt")


@functools.cache
def changed(name):
    """Returns when the newest source of a crate was changed."""
    times = [0.0]
    for kind in ("src", "specs", "proofs"):
        for at, _, files in os.walk(f"{folder_of(name)}/{kind}"):
            times += [os.path.getmtime(it) for it in (at, *(f"{at}/{file}" for file in files))]
    return max(times)


def is_current(made, name, rows):
    """Returns whether a file or folder exists and is no older than the sources of a crate and its dependencies."""
    return os.path.exists(made) and os.path.getmtime(made) >= max(changed(it) for it in in_order(name, rows))


def has_stamp(name):
    return os.path.exists(f"{folder_of(name)}/out/rlib/stamp")


def is_from_ci(name, rows):
    """Returns whether a crate is up to date as `rt ci` left it."""
    return not has_stamp(name) and is_current(program_of(name) if is_program(name) else rlib_of(name), name, rows)


def jobs():
    return os.environ.get("RT_JOBS") or str(len(os.sched_getaffinity(0)))


def rattle():
    """Returns the path of the prover. Exits if the kit is missing."""
    if not os.path.exists(f"{KIT}/bin/rattle"):
        sys.exit(f"{KIT}/bin/rattle does not exist: set KIT to the folder of the Rattle kit")
    return f"{KIT}/bin/rattle"


@functools.cache
def tells_progress():
    """Returns whether the kit's builds have a flag for progress; without it they print progress only for large crates."""
    ran = subprocess.run([rattle(), "build", "--help"], stdout=subprocess.PIPE, text=True)
    return "--progress" in ran.stdout


class Line:
    """One line of standard error, overwritten on a terminal, and printed only when complete elsewhere."""

    def __init__(self, head):
        self.head, self.begun, self.said, self.is_terminal = head, time.monotonic(), "", sys.stderr.isatty()

    def say(self, said, ending=""):
        seconds = int(time.monotonic() - self.begun)
        line = f"{self.head}, {said + ', ' if said else ''}{seconds // 60}:{seconds % 60:02}"
        if self.is_terminal:
            print(f"\r\x1b[K{line}", end=ending, file=sys.stderr, flush=True)
        elif ending:
            print(line, end=ending, file=sys.stderr, flush=True)


def run(words, name, head, is_well=lambda status, said: not status):
    """Runs the prover in a crate's folder with a line of progress. If it fails, prints its last lines and exits."""
    line, kept, said, number = Line(head), [], "", ""
    how = {"stdin": subprocess.DEVNULL, "stdout": subprocess.PIPE, "stderr": subprocess.STDOUT, "text": True, "errors": "replace"}
    with subprocess.Popen(words, cwd=folder_of(name), **how) as ran:
        try:
            for text in ran.stdout:
                kept.append(text)
                if it := SO_FAR.search(text):
                    said, number = f"{it[1]} of {it[2]} functions", f"{it[2]} functions"
                line.say(said)
        except KeyboardInterrupt:
            sys.exit(130)
    well = is_well(ran.returncode, kept)
    line.say(number if well else "not proved", "\n")
    if not well:
        sys.exit("".join(kept[-LAST_LINES:]).rstrip("\n"))


def words_of(name, rows):
    """Returns the command by which the prover builds a crate over its dependencies."""
    words = [rattle(), "build", "--crate-name", name, "src/main.rt" if is_program(name) else "src/lib.rt", "--links", f"{name}="]
    words += ["--antt-project", f"{KIT}/rattle/logic/antt-project.json", "--logic-built", f"{KIT}/logic_built"]
    for it in dict.fromkeys(["std", *rows[name]]):
        words += ["--extern", f"{it}={rlib_of(it) if it in rows else f'{KIT}/rlibs/{it}.rlib'}"]
    for it in (f"{KIT}/rlibs", *(os.path.dirname(rlib_of(it)) for it in in_order(name, rows)[:-1])):
        words += ["-L", f"dependency={it}"]
    return words


def link(made, code):
    """Links a program, which replaces the earlier one only when it is complete."""
    words = [f"{KIT}/bin/rattle-link", "--target", "x86_64-unknown-linux-gnu", "--toolchain", f"{KIT}/toolchain", "-o", f"{made}.new", code]
    subprocess.run([*words, f"{KIT}/c/libos_c.a", f"{KIT}/c/liblibc_c.a"], check=True, stderr=subprocess.DEVNULL)
    os.replace(f"{made}.new", made)


def date(made, begun):
    """Sets the time of a result to the start of its run, so that a source changed during the run is newer."""
    os.utime(made, (begun, begun))


def prove_as_ci(name, rows, head):
    """Proves one crate over the statements that `rt ci` left, and writes its own statements, or links the program."""
    begun, words = time.time(), [*words_of(name, rows), "--jobs", jobs()]
    if is_program(name):
        made = program_of(name)
        os.makedirs(os.path.dirname(made), exist_ok=True)
        run([*words, "--toolchain", f"{KIT}/toolchain", "-o", f"{made}.o"], name, head)
        link(made, f"{made}.o")
    else:
        made = rlib_of(name)
        shutil.rmtree(os.path.dirname(made), ignore_errors=True)
        os.makedirs(os.path.dirname(made))
        run([*words, "--statements", "-o", made], name, head)
    date(made, begun)


def prove_as_lib(name, head):
    """Proves one crate by `rt lib`, or a program by `rt run`, which runs it once with no input. Reuses the proofs of earlier runs."""
    if not is_program(name):
        run([f"{KIT}/bin/rt", "lib", "--jobs", jobs(), *(["--progress"] if tells_progress() else [])], name, head)
        return
    made, begun = program_of(name), time.time()
    was = os.path.getmtime(made) if os.path.exists(made) else None

    def is_well(_, said):
        # The status is the program's own.
        return os.path.exists(made) and (os.path.getmtime(made) != was or any(it.startswith(SAME) for it in said))

    run([f"{KIT}/bin/rt", "run", "--jobs", jobs()], name, head, is_well)
    date(made, begun)


def prove_all(crates, rows):
    """Proves and builds crates, given in order with all their dependencies. Reuses what `rt ci` or earlier runs have proved."""
    from_ci = {it for it in crates if is_from_ci(it, rows)}
    as_ci = len(from_ci) > sum(map(has_stamp, crates))
    for number, it in enumerate(crates, 1):
        head = f"{it} {number} of {len(crates)}"
        if not as_ci:
            prove_as_lib(it, head)
        elif it not in from_ci:
            prove_as_ci(it, rows, head)
