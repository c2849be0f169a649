"""What sources say of one step: its parts, as specs have them, and what the loop does, as functions call it."""

from typing import NamedTuple, Optional

from forms import EXIT, Form, IF_NUMBER, IF_REGISTER, INTO, LOAD, MOVE, NUMBER, REGISTER, SET, STORE, THEN, TO, WHOLE

VARIABLES = ("x", "y", "z")


class Words(NamedTuple):
    """How the names of widths, operations, relations and sizes begin in a file."""

    width: str
    operation: str
    relation: str
    size: str


IN_SPECS = Words("W", "ops.", "relations.", "sizes.B")
IN_CONTRACTS = Words("Width.W", "AluOp.", "Relation.", "Size.B")

# The parts of a step: with all its own, or going on with what a register took just before.
OWN_PARTS = {SET: "set_to", MOVE: "moved", NUMBER: "by_number", REGISTER: "by_register", LOAD: "load_to",
             STORE: "store_from", IF_NUMBER: "with_number", IF_REGISTER: "with_register", WHOLE: "whole"}
TEST_PARTS = {IF_NUMBER: "test_of_number", IF_REGISTER: "test_of_register"}
LINKED_PARTS = {(NUMBER, INTO): "onto_number", (REGISTER, INTO): "onto_cell", (REGISTER, TO): "onto_register",
                (MOVE, INTO): "moved_from", (STORE, INTO): "store_to", (IF_NUMBER, INTO): "limit_of"}

# What holds a register or a cell by itself has its number in a field.
IN_FIELD = {(REGISTER, INTO), (REGISTER, TO), (MOVE, INTO)}

# The functions by which the loop does a step, and those by which it goes on.
OWN_CALLS = {SET: "set", MOVE: "moved", NUMBER: "by_number", REGISTER: "by_register", LOAD: "read",
             STORE: "store_from", IF_NUMBER: "number_holds", IF_REGISTER: "register_holds", WHOLE: "operated"}
TEST_CALLS = {IF_NUMBER: "number_test", IF_REGISTER: "register_test"}
LINKED_CALLS = {(NUMBER, INTO): "number_onto", (REGISTER, INTO): "cell_onto", (REGISTER, TO): "register_onto",
                (MOVE, INTO): "moved_from", (STORE, INTO): "store_to", (IF_NUMBER, INTO): "limit_holds"}


class Step(NamedTuple):
    """A step of a code: what holds its parts, and the register in which the step before left a value, as text."""

    form: Form
    link: str
    variable: str
    left: Optional[str]

    @property
    def is_linked(self):
        """Whether it goes on with what the step before left."""
        return self.link in (INTO, TO)

    @property
    def leaves(self):
        """The register in which it leaves a value, as text; None where it leaves none."""
        if not self.form.leaves_value:
            return None
        if not self.is_linked:
            return self.variable + ".dst"
        if (self.form.kind, self.link) in ((NUMBER, INTO), (REGISTER, INTO)):
            return self.left
        return self.variable


def steps_of(code, ending=""):
    """The steps of a code; `ending` stands behind each variable."""
    steps, left = [], None
    for form, link, variable in zip(code.forms, (THEN,) + code.links, VARIABLES):
        steps.append(Step(form, link, variable + ending, left))
        left = steps[-1].leaves
    return steps


def parts(step):
    """The parts of a step, as a spec has them."""
    if step.form.kind == EXIT:
        return step.variable
    if not step.is_linked:
        return f"{OWN_PARTS[step.form.kind]} {step.variable}"
    key = step.form.kind, step.link
    return f"{LINKED_PARTS[key]} {step.left}.number {step.variable}{'.number' if key in IN_FIELD else ''}"


def piece(form, of, words):
    """The step itself, as a spec has it, with these parts."""
    if form.is_operation:
        return f"steps.Operation {words.width}{form.size} {words.operation}{form.operation} ({of})"
    if form.is_branch:
        return f"steps.If {words.width}{form.size} {words.relation}{form.of} ({of})"
    if form.kind == EXIT:
        return f"steps.Exit {of}"
    return f"steps.{form.kind} {words.size}{form.size} ({of})"


def pieces(code, words, ending=""):
    """The steps of a code, as a spec has them, one after the other."""
    steps = steps_of(code, ending)
    texts = [piece(step.form, parts(step), words) for step in steps]
    if code.is_over:
        texts[0] = piece(steps[0].form, f"{TEST_PARTS[steps[0].form.kind]} {steps[0].variable}", words)
    return " ∷ ".join(texts)


def which(form):
    """What functions are told of a form: its operation, its relation, its width or its size."""
    if form.kind in (SET, MOVE):
        return f"Width::W{form.size}"
    if form.is_operation:
        return f"(Width::W{form.size}, AluOp::{form.of})"
    if form.is_branch:
        return f"(Width::W{form.size}, Relation::{form.of})"
    return f"Size::B{form.size}"


def call(step, value):
    """The call of the loop for a step, where `value` is the variable of the value that the step before left."""
    kind = step.form.kind
    first = "cells, block" if kind in (LOAD, STORE) else "cells"
    if not step.is_linked:
        return f"{OWN_CALLS[kind]}({first}, {which(step.form)}, {step.variable})"
    key = kind, step.link
    last = step.variable if kind in (STORE, IF_NUMBER) else "*" + step.variable
    return f"{LINKED_CALLS[key]}({first}, {which(step.form)}, {taken(step.left)}, {value}, {last})"


def taken(register):
    """A register as a value, where a variable by itself is a reference to it."""
    return "*" + register if register in VARIABLES else register
