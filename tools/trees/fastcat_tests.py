"""Tests which program ./fastcat runs and what it builds: each test plants programs of some age, and checks the output, the status, standard
error and the tools that ran."""

import os
import shutil
import subprocess

from common import TOP, age, content, run, write

PROVED, UNPROVED = "crates/fastcat/out/fastcat", "out/unproved/fastcat"
CRATES = "# lowest first\nlow: hex\nmid: low\nother: mid\nfastcat: mid clap\n"
SOURCES = ("crates/fastcat/src/main.rt", "crates/fastcat/specs/a.antt", "crates/low/src/lib.rt", "crates/low/proofs/b.antt", "crates/mid/src/lib.rt")
OTHERS = ("crates/other/src/lib.rt", "crates/other/proofs/c.antt", "crates/hex/src/lib.rt")
PROGRAM = """#!/bin/sh
# Prints which program ran, its arguments and its input, and ends with the status that STATUS names.
printf '%s' "{0}"
printf ' <%s>' "$@"
cat
exit "${{STATUS:-0}}"
"""
# Notes its call and the programs that exist; then fails, or makes a program in one step, as the tool does.
TOOL = """#!/bin/sh
cd "$(dirname "$0")/{up}"
echo "{name} $* $(ls -d {proved} {unproved} 2>/dev/null | tr '\\n' ' ')" >>built
cat >/dev/null
[ -z "${{FAILS:-}}" ] || exit 1
sleep "${{SECONDS_OF_A_BUILD:-0}}"
mkdir -p "$(dirname {makes})"
cp {name}.program {makes}.new && mv {makes}.new {makes}
"""
LINE = "fastcat: building the program without proofs, in under three minutes; ./fastcat --prove proves it, in 20 to 40\n"


class Tree:
    """A tree with ./fastcat as it is here; its sources are an hour old."""

    def __init__(self, room):
        self.top = f"{room}/tree"
        os.makedirs(self.top)
        shutil.copy(f"{TOP}/fastcat", f"{self.top}/fastcat")
        write(f"{self.top}/crates.txt", CRATES)
        for it in (*SOURCES, *OTHERS):
            write(f"{self.top}/{it}", "\n")
        for it in ("crates.txt", "crates"):
            age(f"{self.top}/{it}", 60)
        for name, tool, makes in (("proving", "tools/build", PROVED), ("building", "tools/unproved/build", UNPROVED)):
            up = os.path.relpath(".", os.path.dirname(tool))
            write(f"{self.top}/{tool}", TOOL.format(up=up, name=name, proved=PROVED, unproved=UNPROVED, makes=makes), 0o755)
            write(f"{self.top}/{name}.program", PROGRAM.format(f"{name}'s"), 0o755)

    def plant(self, program, minutes):
        write(f"{self.top}/{program}", PROGRAM.format("proved" if program == PROVED else "unproved"), 0o755)
        age(f"{self.top}/{program}", minutes)

    def run(self, *words, at=None, program="./fastcat", **environment):
        return run([program, *words], at or self.top, **environment)

    def built(self):
        """Returns the notes of the tools."""
        return content(f"{self.top}/built")


def test_first_run_builds(room):
    tree = Tree(room)
    assert tree.run("show", "a b", "") == (0, "building's <show> <a b> <>", LINE)
    assert tree.run("show") == (0, "building's <show>", "")
    assert tree.built() == "building fastcat \n"


def test_proved_program_is_preferred(room):
    tree = Tree(room)
    tree.plant(PROVED, 30)
    tree.plant(UNPROVED, 10)
    assert tree.run("check", "a b", "") == (0, "proved <check> <a b> <>", "")
    assert tree.built() == ""


def test_each_source_of_a_proof_counts(room):
    tree = Tree(room)
    tree.plant(UNPROVED, 10)
    for it in SOURCES:
        tree.plant(PROVED, 30)
        age(f"{tree.top}/{it}", 20)
        assert tree.run() == (0, "unproved <>", ""), it
        age(f"{tree.top}/{it}", 60)
    tree.plant(PROVED, 30)
    assert tree.run() == (0, "proved <>", "")
    assert tree.built() == ""


def test_other_crates_do_not_count(room):
    tree = Tree(room)
    tree.plant(PROVED, 30)
    for it in OTHERS:
        age(f"{tree.top}/{it}", 20)
    assert tree.run() == (0, "proved <>", "")


def test_program_without_proofs_needs_no_proofs(room):
    tree = Tree(room)
    tree.plant(UNPROVED, 30)
    for it in ("specs", "proofs"):
        age(f"{tree.top}/crates/{'fastcat' if it == 'specs' else 'low'}/{it}", 20)
    assert tree.run() == (0, "unproved <>", "")
    age(f"{tree.top}/crates/low/src/lib.rt", 20)
    assert tree.run() == (0, "building's <>", LINE)


def test_stale_programs_stay(room):
    tree = Tree(room)
    tree.plant(PROVED, 90)
    tree.plant(UNPROVED, 80)
    assert tree.run() == (0, "building's <>", LINE)
    assert tree.built() == f"building fastcat {PROVED} {UNPROVED} \n"
    assert os.path.exists(f"{tree.top}/{PROVED}")


def test_failed_build_runs_nothing(room):
    tree = Tree(room)
    tree.plant(PROVED, 90)
    tree.plant(UNPROVED, 80)
    assert tree.run(FAILS="1") == (70, "", LINE)
    assert os.path.exists(f"{tree.top}/{PROVED}") and os.path.exists(f"{tree.top}/{UNPROVED}")


def test_prove_keeps_what_is_there(room):
    tree = Tree(room)
    tree.plant(PROVED, 90)
    tree.plant(UNPROVED, 10)
    assert tree.run("--prove", FAILS="1") == (1, "", "")
    assert tree.run() == (0, "unproved <>", "")
    assert tree.run("--prove") == (0, "", "")
    assert tree.built() == f"proving fastcat {PROVED} {UNPROVED} \n" * 2
    assert tree.run() == (0, "proving's <>", "")


def test_prove_stands_alone(room):
    tree = Tree(room)
    tree.plant(UNPROVED, 10)
    assert tree.run("show", "--prove") == (0, "unproved <show> <--prove>", "")
    assert tree.run("--prove", "x") == (0, "unproved <--prove> <x>", "")
    assert tree.built() == ""


def test_status_and_input_pass(room):
    tree = Tree(room)
    for program in (UNPROVED, PROVED):
        tree.plant(program, 10)
        assert tree.run(STATUS="3")[0] == 3
    os.remove(f"{tree.top}/{PROVED}")
    os.remove(f"{tree.top}/{UNPROVED}")
    ran = subprocess.run(["./fastcat"], cwd=tree.top, input=b"input", capture_output=True)
    assert ran.stdout == b"building's <>input", ran.stdout


def test_any_folder_and_link(room):
    tree = Tree(room)
    tree.plant(PROVED, 10)
    link = f"{os.path.dirname(tree.top)}/link"
    os.symlink(f"{tree.top}/fastcat", link)
    assert tree.run("a", at="/", program=link) == (0, "proved <a>", "")
    assert tree.run("a", at="/", program=f"{tree.top}/fastcat") == (0, "proved <a>", "")


def test_pipeline_builds_once(room):
    tree = Tree(room)
    runs = [subprocess.Popen(["./fastcat"], cwd=tree.top, stdin=subprocess.DEVNULL, stdout=subprocess.PIPE, stderr=subprocess.PIPE,
                             env={**os.environ, "SECONDS_OF_A_BUILD": "0.3"}) for _ in range(3)]
    said = [it.communicate(timeout=20) for it in runs]
    assert [it[0] for it in said] == [b"building's <>"] * 3, said
    assert sorted(it[1].decode() for it in said) == ["", "", LINE], said
    assert tree.built() == "building fastcat \n"
