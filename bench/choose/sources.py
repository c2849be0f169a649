"""The sources with the rows of codes: each part is found by the lines around it, and nothing else is touched."""

import re

import functions
import fuse
import heads
import rows
from answers import Answers


class Source:
    """A file and its text; a line that it should have and has not ends the program."""

    def __init__(self, root, name):
        """Reads it."""
        self.path = root / "crates" / name
        if not self.path.exists():
            raise SystemExit(f"{self.path} is not there: --root names the folder of the repository")
        self.before = self.now
        self.lines = self.before.splitlines()

    def fail(self, what, line):
        """Ends the program."""
        raise SystemExit(f"{self.path}: {what} `{line}`, by which rows are found: put it back, or let "
                         "bench/choose/sources.py look for what stands there now")

    def find(self, wanted, start=0, is_whole=True):
        """The first line from a place on that is this one, or begins so."""
        for at in range(start, len(self.lines)):
            if self.lines[at] == wanted or not is_whole and self.lines[at].startswith(wanted):
                return at
        return self.fail("there is no line" if is_whole else "there is no line that begins with", wanted)

    def find_once(self, wanted, is_whole=True):
        """The one line that is this one, or begins so."""
        at = self.find(wanted, 0, is_whole)
        if any(line == wanted or not is_whole and line.startswith(wanted) for line in self.lines[at + 1:]):
            self.fail("there is more than one line", wanted)
        return at

    def find_between(self, wanted, start, last):
        """The first line from a place on that begins so, in front of the next one that is the last."""
        at = self.find(wanted, start, False)
        if at > self.find(last, start):
            self.fail(f"behind line {start} there is no line that begins with", wanted)
        return at

    def replace(self, start, end, lines):
        """Puts lines in the place of those from a place to another."""
        self.lines[start:end] = lines

    def write(self):
        """Writes the lines."""
        self.path.write_text("\n".join(self.lines) + "\n", encoding="utf-8")

    @property
    def now(self):
        """The text of the file as it stands there."""
        return self.path.read_text(encoding="utf-8")


def code_with(root, codes):
    """code.rt: the variants behind those that any step may have."""
    source = Source(root, "bq_code/src/code.rt")
    start = source.find_once("    // one step, with few parts") + 1
    source.replace(start, source.find("}", start), rows.variants(codes))
    return source


def lowered_with(root, codes):
    """Lowered.antt: the lines of `pieces` behind the last handwritten one."""
    source = Source(root, "bq_code/specs/Lowered.antt")
    start = end = source.find_once("pieces (codes.Swap64 ", False) + 1
    while end < len(source.lines) and source.lines[end].startswith("pieces ("):
        end += 1
    source.replace(start, end, rows.lowered(codes))
    return source


def fuse_with(root, codes):
    """fuse.rt: the tables of one step, and all about several steps."""
    source = Source(root, "bq_code/src/fuse.rt")
    for name in rows.TABLES:
        start = source.find_once(f"fn {name}(", False)
        start = source.find_between("    match ", start, "}") + 1
        source.replace(start, source.find_between("        _ => None,", start, "}"), rows.table(codes, name))
    start = source.find_once("// ---- Several steps.") + 1
    source.replace(start, len(source.lines), ["", *fuse.several(codes).splitlines()])
    return source


def advance_with(root, made):
    """advance.rt: the imports of the functions, and the arms behind the last handwritten one."""
    source = Source(root, "bq_run/src/advance.rt")
    start = source.find_once("        Code::Swap64(x) =>", False) + 1
    source.replace(start, source.find("    }", start), ["        " + function.arm for function in made])
    old = r"^use crate::(?:" + "|".join(heads.TITLES) + r")::[^;]*;\n"
    source.lines = re.sub(old, "", "\n".join(source.lines), flags=re.MULTILINE).splitlines()
    at = source.find_once("use bq_code::Code;")
    imports = [f"use crate::{file}::{{{', '.join(sorted(names_of(file, made)))}}};"
               for file in heads.TITLES if names_of(file, made)]
    source.replace(at, at, imports)
    return source


def names_of(file, made):
    """The names of the functions of a file."""
    return [function.name for function in made if function.file == file]


def taken(root):
    """How many of the handwritten arms give each of the answers that have numbers, by the number of steps."""
    source = Source(root, "bq_run/src/advance.rt")
    end = source.find_once("        Code::Swap64(x) =>", False) + 1
    return {1: sum("Next::Single" in line for line in source.lines[:end])}


def file_with(root, file, made):
    """One of the files that hold nothing else than functions of codes."""
    source = Source(root, f"bq_run/src/{file}.rt")
    text = "".join(function.text for function in made if function.file == file)
    source.lines = (heads.head(file, text) + text.rstrip("\n")).splitlines()
    return source


def answers_with(root, codes):
    """Answers.antt of `advance`: of each branch over a step, that as many steps are done as of the code."""
    source = Source(root, "bq_run/proofs/advance/advance/Answers.antt")
    lines = []
    for code in (code for code in codes if code.is_over):
        goal, made = f"returns-in-{code.name}-clause-count", f"c.{code.snake_name}"
        state = "(record { unit = unit; cells = c.args.cells.now; bytes = c.args.block.now })"
        lines += [f"pub {goal} : goal.{goal}",
                  f"{goal} c = λ unit. counted c.args.code.now _ {made}.result _ c.in-{code.name}.is "
                  f"({made}.ensures.count {state} refl)", ""]
    source.replace(source.find("pub returns-in-", 0, False), len(source.lines), lines[:-1])
    return source


def all_with(root, codes):
    """All sources with the rows of these codes."""
    made = functions.functions(codes, Answers(taken(root)))
    return [code_with(root, codes), lowered_with(root, codes), fuse_with(root, codes), advance_with(root, made),
            answers_with(root, codes), *(file_with(root, file, made) for file in heads.TITLES)]
