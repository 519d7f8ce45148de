"""Parses crates.txt, edits and crates: finds the functions of a crate by the layout of its files, and makes the crate without the bodies of
some of them."""

import os
import re
from dataclasses import dataclass, replace

TYPE = re.compile(r"(?m)^(?:pub(?:\(.*?\))? )?(?:struct|enum) (\w+)")
# The files of a function with its own body in its folder of proofs/, besides files of lemmas.
PROOF_FILES = ("Answers.antt", "Invariants.antt", "Proof.antt")
HOLE = """use Rattle.{crate}.proofs.{folder}.Statement.{{statement}}
use Rattle.{crate}.proofs.Unshown.{{unshown}}

pub {name}_spec : {{M : Type 1}} → statement M
{name}_spec = unshown
"""
# The one hole that replaces all proofs: a check prints the statement of a hole, which takes some 0.3 s for each statement.
UNSHOWN = """pub unshown : {A : Type 2} → A
unshown = ?
"""
NO_OFFER = "nothing-is-offered"
UNOFFERED = """
pub {name} : {name}-goal
{name} = ?
"""
# The start of a declaration in a file of answers.
DECLARED = re.compile(r"(?:pub |abbrev )*(\S+) : ")
# The attempts of a check for a goal without an answer, in order.
TRIED = """
pub {goal} : {goals}.{goal}
{goal} c = first_of (
  search ({ints}.ints, {rules}.rules),
  grind ({ints}.ints, {omega}.arith, {grind}.common_steps) steps 2000000,
  grind ({ints}.ints, {omega}.arith, {grind}.elements) steps 2000000,
  grind ({ints}.ints, {omega}.arith, {grind}.common_steps) steps 4000000,
)
"""
TRIED_BY = {
    "rules": "borrow.Author.Rules",
    "ints": "borrow.Author.Differences",
    "grind": "Rattle.std.proofs.lemmas.Grind",
    "omega": "native.Mathlib.Omega",
}


def rows_of(file):
    """Returns the crates of crates.txt, each with its dependencies."""
    rows = {}
    with open(file, encoding="utf-8") as it:
        for line in it:
            line = line.partition("#")[0].strip()
            if line:
                head, _, deps = line.partition(":")
                rows[head.split()[0]] = deps.split()
    return rows


def pairs_of(text):
    """Yields the file, the old and the new text of each pair of an edit."""
    file = old = None
    for line in text.split("\n"):
        if line.startswith("file: "):
            file = line[len("file: ") :].strip()
        elif line.startswith("old: "):
            old = line[len("old: ") :]
        elif line.startswith("new:") and file and old:
            yield file, old, line[len("new:") :].removeprefix(" ")
            old = None


def goal_of(text):
    """Returns the goal of its function that an edit names as one that it leaves open, or an empty string."""
    return next((line[len("goal: ") :].strip() for line in text.split("\n") if line.startswith("goal: ")), "")


@dataclass(frozen=True)
class Function:
    """A function of a crate: its path, its file, its first and last line, and its cycle of calls."""

    path: str
    file: str
    first: int
    last: int
    cycle: str

    @property
    def module(self):
        """The path of its file's module, below the crate."""
        return self.file.removeprefix("src/").removesuffix(".rt").removesuffix("/mod").replace("/", "::")

    @property
    def owned(self):
        """The end of the path, which a proof's folder shares: for a method it has the module of its type, wherever the method is."""
        parts = self.path.split("::")
        return "::".join(parts[-2:] if len(parts) > 2 else parts[-1:])


def functions_of(crate, file, text):
    """Returns the functions with a body in a file that is formatted by rt fmt, where heads and closing braces have the same indentation. A
    function begins with its attributes, where a check reports its open goals."""
    module = file.removeprefix("src/").removesuffix(".rt")
    module = "" if module in ("lib", "main") else module.removesuffix("/mod").replace("/", "::") + "::"
    found, owner, cycle, head, above = [], "", "", None, 0
    for number, line in enumerate(text.split("\n"), 1):
        indent, bare = len(line) - len(line.lstrip()), line.strip()
        if it := re.match(r"(?:unsafe )?impl(?:<.*?>)?\s+(?:(\w+)(?:<(.*?)>)? for )?&?(\w+)", line):
            # (a trait's argument is part of the impl's name: RunFaultFromStaticFault)
            given = it[2] if it[2] and re.fullmatch(r"\w+", it[2]) else ""
            owner = f"{it[3]}{it[1] or ''}{given}::"
        elif it := re.match(r"(?:pub )?trait (\w+)", line):
            owner = f"{it[1]}::"
        elif line == "}" and head is None:
            owner = ""
        if it := re.match(r"#\[cycle\((\w+)\)\]", bare):
            cycle = it[1]
        if head is None and (it := re.match(r"(?:pub(?:\(.*?\))? )?(?:final )?(?:const )?(?:unsafe )?(?:extern \"C\" )?fn (\w+)", bare)):
            head, is_open = (it[1], above or number, indent, owner if indent else "", number), False
        above = (above or number) if head is None and bare.startswith("#[") else 0
        if head is None:
            continue
        is_open = is_open or indent == head[2] and bare.endswith(("{", "{}"))
        if not is_open and bare.endswith(";"):
            head, cycle = None, ""  # a method of a trait, which has no body there
        elif indent == head[2] and (bare in ("}", "{}") or number == head[4] and bare.endswith("}")):
            found.append(Function(f"{crate}::{module}{head[3]}{head[0]}", file, head[1], number, cycle))
            head, cycle = None, ""
    return found


def module_of(file):
    """Returns the path of a file's module below the crate, which is empty for the root."""
    module = file.removeprefix("src/").removesuffix(".rt")
    return "" if module in ("lib", "main") else module.removesuffix("/mod").replace("/", "::")


def modules_in(texts):
    """Returns the modules that declare types, by the names of the types."""
    found = {}
    for file, text in texts.items():
        for it in TYPE.finditer(text):
            found.setdefault(it[1], []).append(module_of(file))
    return found


def proof_folder(fn, modules_of_types):
    """Returns the folder of a function's proof below proofs/, or None if its path does not determine it: a method of a trait's impl, or of
    a type whose name the crate has twice."""
    names = fn.path.split("::")[1:]
    module = [it for it in module_of(fn.file).split("::") if it]
    own = names[len(module) :]
    if len(own) == 1:
        return "/".join(names)
    modules = modules_of_types.get(own[0], [])
    return "/".join([*filter(None, modules[0].split("::")), *own]) if len(own) == 2 and len(modules) == 1 else None


def without_bodies(crate, texts, kept):
    """Returns the files of a crate in which only the kept functions have bodies, and the folders of the other functions' proofs, with their
    names.

    A function keeps its body if the folder of its proof is not known; so does a cycle of calls with a kept member, or whose members cannot
    all lose theirs.
    """
    modules_of_types = modules_in(texts)
    functions = {file: functions_of(crate, file, text) for file, text in texts.items()}
    every = [fn for found in functions.values() for fn in found]
    stays = lambda fn: fn.path in kept or proof_folder(fn, modules_of_types) is None or head_line(texts[fn.file].split("\n"), fn) is None
    cycles = {(module_of(fn.file), fn.cycle) for fn in every if fn.cycle and stays(fn)}
    cut, folders = {}, {}
    for file, text in texts.items():
        lines = text.split("\n")
        for fn in functions[file]:
            if stays(fn) or (module_of(file), fn.cycle) in cycles:
                continue
            opens = head_line(lines, fn)
            for number in range(fn.first - 1, opens):
                if re.match(r"\s*#\[(cycle|tactic)\(", lines[number]):
                    lines[number] = ""
            # (line for line, so that the position in a message is that of the crate's own file)
            lines[opens + 1 : fn.last - 1] = ["unreachable!()", *[""] * (fn.last - opens - 3)]
            folders[proof_folder(fn, modules_of_types)] = fn.path.split("::")[-1]
        cut[file] = "\n".join(lines)
    return cut, folders


def users_of_constant(crate, texts, logic, file, at):
    """Returns the functions that name the constant which is defined at an offset of a file; none if the offset is in no constant, or if a
    contract, a type, a macro or a file of the logic names it, so that more than bodies may depend on it."""
    line = texts[file][texts[file].rfind("\n", 0, at) + 1 :].partition("\n")[0]
    named = constant_in(line)
    if not named or any(re.search(rf"\b{named}\b", text) for text in logic):
        return set()
    found = set()
    for name, text in texts.items():
        lines = text.split("\n")
        own = functions_of(crate, name, text)
        for number, other in enumerate(lines, 1):
            bare = other.partition("//")[0]
            if not re.search(rf"\b{named}\b", bare) or name == file and other == line or re.match(r"(pub )?use .*;$", bare):
                continue
            fn = next((it for it in own if it.first <= number <= it.last), None)
            opens = body_line(lines, fn) if fn else None
            if opens is None or number <= opens + 1:
                return set()
            found.add(fn.path)
    return found


@dataclass(frozen=True)
class Copy:
    """A copy of a function under a name of its own, unchanged or with the change of a mutant."""

    fn: Function
    suffix: str
    pairs: tuple
    # The constants that it names by other names, since a mutant changes them.
    constants: tuple = ()
    # The only goals that are tried; all, if there are none.
    goals: tuple = ()

    @property
    def path(self):
        return self.fn.path + self.suffix

    @property
    def owned(self):
        return self.fn.owned + self.suffix


def can_be_copied(room, fn, modules_of_types, text):
    """Returns whether a function can be copied in its crate under another name, with its proof: it is no method of a trait and in no cycle
    of calls, and its whole proof is its answers and invariants."""
    folder = None if fn.cycle else proof_folder(fn, modules_of_types)
    if not folder or body_line(text.split("\n"), fn) is None or re.search(rf"(?m)^(pub )?trait {fn.owned.split('::')[0]}\b", text):
        return False
    found = os.listdir(f"{room}/proofs/{folder}") if os.path.isdir(f"{room}/proofs/{folder}") else []
    return all(it in ("Answers.antt", "Invariants.antt") for it in found) and not os.path.exists(f"{room}/proofs/{folder}.antt")


def with_copies(crate, texts, copies):
    """Returns the files of a crate with these copies, each after its function, and mutated constants after theirs."""
    result = {}
    for file, text in texts.items():
        lines, added = text.split("\n"), {}
        places = {fn.path: fn for fn in functions_of(crate, file, text)}
        for it in copies:
            for place, old, new in it.constants:
                if place == file:
                    at = text[: text.index(old)].count("\n") + 1
                    name = constant_in(lines[at - 1])
                    changed = lines[at - 1].replace(old, new).replace(f"const {name}:", f"const {name}{it.suffix.upper()}:")
                    added.setdefault(at, {})[changed] = None
            if it.fn.file != file:
                continue
            fn = places[it.fn.path]
            body = "\n".join(lines[fn.first - 1 : fn.last])
            for old, new in it.pairs:
                body = body.replace(old, new)
            for place, old, _ in it.constants:
                name = constant_in(next(line for line in texts[place].split("\n") if old in line))
                body = re.sub(rf"\b{name}\b", f"{name}{it.suffix.upper()}", body)
            if it.goals:
                own = body.split("\n")
                own.insert(head_of(own, replace(fn, first=1, last=len(own))), "#[tactic(none)]")
                body = "\n".join(own)
            name = fn.path.split("::")[-1]
            added.setdefault(fn.last, {})[re.sub(rf"\bfn {name}\b", f"fn {name}{it.suffix}", body, count=1)] = None
        for at in sorted(added, reverse=True):
            lines[at:at] = list(added[at])
        if added:
            result[file] = "\n".join(lines)
    return result


def copy_proofs(room, crate, copies, modules_of_types):
    """Gives each copy of a function the proof of that function, with the name of the copy; if only some goals are tried, only the answers
    to these."""
    for it in copies:
        folder = proof_folder(it.fn, modules_of_types)
        found = os.listdir(f"{room}/proofs/{folder}") if os.path.isdir(f"{room}/proofs/{folder}") else []
        for name in dict.fromkeys([*found, *(["Answers.antt"] if it.goals else [])]):
            said = ""
            if name in found:
                with open(f"{room}/proofs/{folder}/{name}", encoding="utf-8") as own:
                    said = own.read()
            dotted = folder.replace("/", ".")
            for part in ("proofs", "specs.contracts"):
                said = said.replace(f"Rattle.{crate}.{part}.{dotted}.", f"Rattle.{crate}.{part}.{dotted}{it.suffix}.")
            if it.goals and name == "Answers.antt":
                said = answers_to(said, it.goals, f"Rattle.{crate}.proofs.{dotted}{it.suffix}.Goals")
            os.makedirs(f"{room}/proofs/{folder}{it.suffix}", exist_ok=True)
            with open(f"{room}/proofs/{folder}{it.suffix}/{name}", "w", encoding="utf-8") as copy:
                copy.write(said)


def answers_to(said, goals, module):
    """Returns only the answers to these goals, with the declarations that they name. A goal without an answer has the attempts of a
    check."""
    blocks = blocks_of(said)
    kept = {k for k, (name, _) in enumerate(blocks) if name is None or name in goals}
    while more := {k for k, (name, _) in enumerate(blocks) if k not in kept and is_named(name, (blocks[it][1] for it in kept if blocks[it][0]))}:
        kept |= more
    text = "\n".join(blocks[k][1] for k in sorted(kept))
    wanting = [it for it in goals if not any(it == name for name, _ in blocks)]
    if wanting:
        names = {}
        for short, whole in [("goals", module), *TRIED_BY.items()]:
            own = re.search(rf"(?m)^use {re.escape(whole)} as (\S+)$", text)
            names[short] = own[1] if own else f"the-{short}"
            text = text if own else f"use {whole} as the-{short}\n{text}"
        text += "".join(TRIED.format(goal=it, **names) for it in wanting)
    return text


def is_named(name, texts):
    return any(re.search(rf"(?<![\w-]){re.escape(name)}(?![\w-])", it) for it in texts)


def blocks_of(said):
    """Returns the declarations of a file of answers, each with its name; the lines between them have None."""
    blocks, name = [], None
    for line in said.split("\n"):
        goes_on = not line.strip() or line[0].isspace() or line[0] in ")]}" or (name and line.startswith(f"{name} "))
        if not goes_on:
            declared = DECLARED.match(line)
            name = declared and declared[1]
            blocks.append((name, [line]))
        elif blocks:
            blocks[-1][1].append(line)
    return [(name, "\n".join(lines)) for name, lines in blocks]


def constant_in(line):
    """Returns the name of the constant that a line defines, if it does."""
    named = re.match(r"\s*(?:pub(?:\(.*?\))? )?const (\w+): [^=]* = [^{]*;$", line)
    return named and named[1]


def head_of(lines, fn):
    """Returns the index of the line with a function's name."""
    return next(it for it in range(fn.first - 1, fn.last) if re.match(r"\s*(pub(\(.*?\))? )?((final|const|unsafe|extern \"C\") )*fn ", lines[it]))


def body_line(lines, fn):
    """Returns the index of the line that opens a function's body, or None if the body has no line of its own."""
    head = head_of(lines, fn)
    indent = len(lines[head]) - len(lines[head].lstrip())
    for number in range(head, fn.last - 2):
        line = lines[number]
        if line.endswith("{") and len(line) - len(line.lstrip()) == indent:
            return number
    return None


def head_line(lines, fn):
    """Returns the index of the line that opens a function's body, or None if the body has no line of its own, or is evaluated by the
    compiler or called from C."""
    is_fixed = re.search(r"\b(const|extern) .*\bfn\b", lines[head_of(lines, fn)].partition("fn")[0] + "fn")
    return None if is_fixed else body_line(lines, fn)


def leave_holes(room, crate, folders):
    """Replaces the proof of each function without a body by a hole."""
    for at, inside, _ in os.walk(f"{room}/proofs"):
        for name in [it for it in inside if it.startswith("+")]:
            folder = os.path.dirname(os.path.relpath(f"{at}/{name}/x", f"{room}/proofs"))
            if cycle_is_gone(room, folder):
                remove_proof(f"{at}/{name}")
    if folders:
        os.makedirs(f"{room}/proofs", exist_ok=True)
        with open(f"{room}/proofs/Unshown.antt", "w", encoding="utf-8") as it:
            it.write(UNSHOWN)
        with open(f"{room}/proofs/Lib.antt", "a", encoding="utf-8") as it:
            it.write("\nmod Unshown\n")
    for folder, name in folders.items():
        remove_proof(f"{room}/proofs/{folder}")
        os.makedirs(f"{room}/proofs/{folder}", exist_ok=True)
        with open(f"{room}/proofs/{folder}/Proof.antt", "w", encoding="utf-8") as it:
            it.write(HOLE.format(crate=crate, folder=folder.replace("/", "."), name=name))


def answers_folder(room, fn, modules_of_types, texts):
    """Returns the folder of a function's answers below proofs/, or that of its cycle of calls; None if it is not known."""
    module = [it for it in module_of(fn.file).split("::") if it]
    if fn.cycle:
        found = [it for it, _, _ in os.walk(f"{room}/proofs/{'/'.join(module)}") if os.path.basename(it) == f"+{fn.cycle}"]
        return os.path.relpath(found[0], f"{room}/proofs") if len(found) == 1 else None
    if folder := proof_folder(fn, modules_of_types):
        return folder
    # A method of a trait's impl has the folder of its path, if type and impl are in one module.
    names = fn.path.split("::")[1:]
    own = names[len(module) :]
    beside = [it[1] for it in TYPE.finditer(texts[fn.file])] + re.findall(r"(?m)^(?:pub )?trait (\w+)", texts[fn.file])
    return "/".join(names) if len(own) == 2 and any(own[0].startswith(it) for it in beside) else None


def leave_unoffered(room, crate, texts, paths):
    """Adds a wrong answer to those of each of these functions: for a function with such an answer, a check reports which goals are open,
    and does not search for a file to offer, which takes as long as finding the open goals."""
    modules_of_types, done = modules_in(texts), set()
    for fn in (it for file, text in texts.items() for it in functions_of(crate, file, text)):
        folder = answers_folder(room, fn, modules_of_types, texts) if fn.path in paths else None
        if folder and folder not in done and not os.path.isfile(f"{room}/proofs/{folder}/Proof.antt"):
            done.add(folder)
            os.makedirs(f"{room}/proofs/{folder}", exist_ok=True)
            with open(f"{room}/proofs/{folder}/Answers.antt", "a", encoding="utf-8") as it:
                it.write(UNOFFERED.format(name=NO_OFFER))


def cycle_is_gone(room, folder):
    """Returns whether no function is in the cycle of calls whose proof has this folder."""
    word = f"#[cycle({os.path.basename(folder).removeprefix('+')})]"
    for at, _, files in os.walk(f"{room}/src"):
        for name in files:
            with open(f"{at}/{name}", encoding="utf-8") as it:
                if word in it.read():
                    return False
    return True


def remove_proof(folder):
    for name in PROOF_FILES:
        if os.path.isfile(f"{folder}/{name}"):
            os.remove(f"{folder}/{name}")
