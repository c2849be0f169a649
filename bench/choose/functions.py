"""The functions of the crate bq_run, one for each code, with their contracts; and the arms that call them."""

from typing import NamedTuple

import forms
from codes import ALONE, THREE, TWO, WHOLE_TWO
from terms import IN_SPECS, TEST_CALLS, VARIABLES, call, parts, pieces, steps_of, taken, which

# The files of the functions, by the sections of codes; those over a step stand by themselves.
FILES = {ALONE: "singles", TWO: "pairs", WHOLE_TWO: "wholes", THREE: "triples"}
OVER_FILE = "chosen"

# Names of codes that are words of the language, or of other functions.
RENAMED = {"set": "set_register", "move": "move_register"}

# What is required of the places of a code's accesses is called so, in their order.
PLACES = ("inside", "inside_behind")

# The variables of the values that the first two steps of a code leave.
VALUES = ("value", "then")


class Function(NamedTuple):
    """A function and where it stands, and the arm that calls it."""

    file: str
    name: str
    text: str
    arm: str


def file_of(code):
    """The file that has the function of a code."""
    return OVER_FILE if code.is_over else FILES[code.section]


def contract(word, clauses):
    """Clauses of a contract, each with its name; a single one has none."""
    return "".join(f"    {word} {name + ' ' if len(clauses) > 1 else ''}{{ {text} }}\n" for name, text in clauses)


def function(code, first, requires, ensures, body):
    """A function of these parts, where `first` are the parameters before those that the code holds.

    It has no mark to be built in always: with such marks `advance` would lose its own (docs/LOOP.md).
    """
    name = RENAMED.get(code.snake_name, code.snake_name)
    variables = VARIABLES[:len(code.forms)]
    held = [f"{variable}: &{of}" for variable, of in zip(variables, code.held)]
    text = f"pub(crate) fn {name}({', '.join(first + held)}) -> Next\n"
    text += contract("requires", requires) + contract("ensures", ensures)
    text += "{\n" + "".join(f"    {line}\n" for line in body) + "}\n\n"
    words = ", ".join([parameter.split(":")[0] for parameter in first] + list(variables))
    return Function(file_of(code), name, text, f"Code::{code.name}({', '.join(variables)}) => {name}({words}),")


def bracketed(text):
    """A term as an argument."""
    return f"({text})" if " " in text else text


def value_term(step, cells, is_given):
    """What a step gives its register over these cells; or these cells once the register has it."""
    form, of = step.form, parts(step)
    if form.kind == forms.LOAD:
        word = "reads" if is_given else "loaded"
        return f"{word} {form.size} (λ n. n) {bracketed(cells)} block.now ({of})"
    word = "gives" if is_given else "computed"
    return f"{word} {form.size} AluOp.{form.operation} {bracketed(cells)} ({of})"


class Writer:
    """Writes the function of a code step by step: what is required, what is ensured, and what is done."""

    def __init__(self, code, answers):
        """Begins with nothing done."""
        self.code, self.answers = code, answers
        self.count = len(code.forms)
        self.steps, self.facts = steps_of(code), steps_of(code, ".now")
        self.keeps_cells = self.count == 1 or code.forms[0].is_branch
        self.cells = "cells.old"  # the cells behind the steps so far, as a term
        self.value = None  # the variable of the value that the step before left
        self.requires, self.ensures, self.body, self.conditions = [], [], [], []
        if any(form.kind in (forms.SET, forms.MOVE, forms.NUMBER, forms.IF_NUMBER) for form in code.forms):
            self.requires.append(("zero", "slice_index cells.old zero_cell ≡ 0"))

    def require_place(self, fact):
        """An access lies inside."""
        clause = PLACES[sum(name in PLACES for name, _ in self.requires)]
        base, offset = f"{fact.variable}.base.number", f"(word_of {fact.variable}.offset)"
        self.requires.append((clause, f"lies {fact.form.size} {bracketed(self.cells)} {base} {offset}"))

    def branch(self, step, fact, is_last):
        """A branch: behind it stands at most another."""
        holds = call(step, self.value)
        distance = f"usize::from({step.variable}.distance)"
        if self.answers.is_jump(self.count):
            jump, told = f"Next::Jump({distance})", f"Next.Jump {fact.variable}.distance"
        else:
            behind = len(self.conditions) + 1 if self.code.forms[0].is_branch else self.count
            jump, told = f"Next::To({distance}, {behind})", f"Next.To {fact.variable}.distance {behind}"
        self.conditions.append((f"compared {fact.form.size} Relation.{fact.form.of} cells.new ({parts(fact)})", told))
        if not is_last:
            self.body.append(f"if {holds} {{\n        return {jump};\n    }}")
            return
        is_going = self.answers.is_going(self.count)
        on = "Next::Go" if is_going else f"Next::GoOn({self.count})"
        self.body.append(f"if {holds} {{\n        {jump}\n    }} else {{\n        {on}\n    }}")
        otherwise = "Next.Go" if is_going else f"Next.GoOn {self.count}"
        for condition, answer in reversed(self.conditions):
            otherwise = f"(if {condition} then {answer} else {otherwise})"
        self.ensures.append(("next", f"result ≡ {otherwise}"))

    def store(self, step, fact):
        """A store, which stands last."""
        self.require_place(fact)
        self.ensures.append(("block", f"block.new ≡ stored {fact.form.size} cells.new block.old ({parts(fact)})"))
        is_going = self.answers.is_going(self.count)
        self.body += [f"{call(step, self.value)};", "Next::Go" if is_going else f"Next::GoOn({self.count})"]
        self.ensures.append(("next", "result ≡ Next.Go" if is_going else f"result ≡ Next.GoOn {self.count}"))

    def exit(self, step, fact):
        """The end of a run, which stands last."""
        answer = f"answer_behind(cells, {taken(step.left)}, {self.value})"
        self.body.append(f"Next::End(*{step.variable}, {answer}, {self.count})")
        self.ensures.append(("next", f"result ≡ Next.End {fact.variable} (slice_index cells.new 0) {self.count}"))

    def leave(self, step, fact, following):
        """An operation or a load."""
        if fact.form.kind == forms.LOAD:
            self.require_place(fact)
        given = call(step, self.value)
        if following is None:
            answer = self.answers.value(self.count)
            self.body.append(f"Next::{answer}({given})")
            self.ensures.append(("next", f"result ≡ Next.{answer} ({value_term(fact, 'cells.new', True)})"))
            return
        if following.is_linked or following.form.kind == forms.EXIT:
            self.value = VALUES[self.steps.index(step)]
            self.body.append(f"let {self.value} = {given}.leave(cells);")
        else:
            self.body.append(f"{given}.put(cells);")
        self.cells = value_term(fact, self.cells, False)

    def write(self):
        """The whole function."""
        for at, (step, fact) in enumerate(zip(self.steps, self.facts)):
            following = self.steps[at + 1] if at + 1 < self.count else None
            if step.form.is_branch:
                self.branch(step, fact, following is None)
            elif step.form.kind == forms.STORE:
                self.store(step, fact)
            elif step.form.kind == forms.EXIT:
                self.exit(step, fact)
            else:
                self.leave(step, fact, following)
        if not self.keeps_cells:
            self.ensures.append(("cells", f"cells.new ≡ {self.cells}"))
        return function(self.code, self.parameters(), self.in_time(self.requires), self.in_time(self.ensures),
                        self.body)

    def parameters(self):
        """The parameters that are no parts of the code."""
        kinds = {form.kind for form in self.code.forms}
        block = "&mut Block" if forms.STORE in kinds else "&Block" if forms.LOAD in kinds else None
        return ["cells: &Cells" if self.keeps_cells else "cells: &mut Cells"] + (["block: " + block] if block else [])

    def in_time(self, clauses):
        """Clauses that speak of `now` where nothing changes, and of `old` where something does."""
        names = [("cells.new", "cells.now"), ("cells.old", "cells.now")] if self.keeps_cells else []
        if any(form.kind == forms.STORE for form in self.code.forms):
            names.append(("block.now", "block.old"))
        for before, after in names:
            clauses = [(name, text.replace(before, after)) for name, text in clauses]
        return clauses


def whole_function(code, answers):
    """The function of two operations, whatever their parts."""
    first, second = steps_of(code)
    fact, following = steps_of(code, ".now")
    answer = answers.value(2)
    ensures = [("next", f"result ≡ Next.{answer} ({value_term(following, 'cells.new', True)})"),
               ("cells", f"cells.new ≡ {value_term(fact, 'cells.old', False)}")]
    body = [f"{call(first, None)}.put(cells);", f"Next::{answer}({call(second, None)})"]
    return function(code, ["cells: &mut Cells"], [], ensures, body)


def over_function(code):
    """The function of a branch over a step, which makes no jump."""
    test, step = steps_of(code)
    done = pieces(code, IN_SPECS, ".now") + " ∷ []"
    state = "(s : State) → s.cells ≡ cells.now →"
    ensures = [("next", f"{state} followed result s ≡ after_all ({done}) s"),
               ("count", f"{state} instructions result ≡ done ({done}) s"),
               ("ends", "(others : List ℕ) (jumps : Bool) → EndsWith result others (Reached jumps ⊥)")]
    body = [f"let jumps = {TEST_CALLS[test.form.kind]}(cells, {which(test.form)}, {test.variable});",
            f"Next::Choose({call(step, None)}.unless(jumps, cells), jumps)"]
    return function(code, ["cells: &Cells"], [("zero", "slice_index cells.now zero_cell ≡ 0")], ensures, body)


def functions(codes, answers):
    """The functions of all codes: first those of steps with few parts, and then those of whole operations."""
    made = []
    for code in sorted(codes, key=lambda code: (ALONE, TWO, THREE, WHOLE_TWO).index(code.section)):
        if code.is_over:
            made.append(over_function(code))
        elif code.section == WHOLE_TWO:
            made.append(whole_function(code, answers))
        else:
            made.append(Writer(code, answers).write())
    return made
