"""Programs as the model sees them: their units, how often each is run, and how neighbours are linked."""

import struct
from collections import Counter
from typing import NamedTuple, Optional

import forms
from forms import Form, INTO, THEN, TO

OPERATIONS = {0: "Add", 1: "Sub", 2: "Mul", 4: "Or", 5: "And", 6: "ShiftLeft", 7: "ShiftRight", 10: "Xor",
              12: "ArithmeticShiftRight"}
RELATIONS = {1: "Equal", 2: "Greater", 3: "GreaterOrEqual", 4: "CommonBit", 5: "NotEqual", 6: "SignedGreater",
             7: "SignedGreaterOrEqual", 10: "Less", 11: "LessOrEqual", 12: "SignedLess", 13: "SignedLessOrEqual"}
SIZES = {0x10: 1, 0x08: 2, 0x00: 4, 0x18: 8}

# An instruction of two units.
WIDE = 0x18

# The link of a step that goes on with what the one before left in a way that no code has.
UNNAMED = "unnamed"


class Unit(NamedTuple):
    """An instruction: its form and registers, the unit that it jumps to, and how often it was run and jumped."""

    form: Form
    dst: int
    src: int
    target: Optional[int]
    runs: int
    jumps: int

    @property
    def jump_share(self):
        """How often it jumps each time that it is run, where it is a branch."""
        return self.jumps / self.runs if self.form.is_branch and self.runs else 0


def computing_form(operation, width, by_register, offset):
    """The form of an instruction of the two classes that compute."""
    if operation in OPERATIONS:
        return Form(forms.REGISTER if by_register else forms.NUMBER, width, OPERATIONS[operation])
    if operation == 11 and not offset:
        return Form(forms.MOVE if by_register else forms.SET, width)
    names = {3: "Divide", 8: "Negate", 9: "Remainder", 11: "ExtendSign", 13: "Swap"}
    return Form(forms.OTHER, width, names[operation])


def form_of(opcode, offset):
    """The form of an instruction."""
    group, high, by_register = opcode & 7, opcode >> 4, bool(opcode & 8)
    if group in (4, 7):
        return computing_form(high, 64 if group == 7 else 32, by_register, offset)
    if group in (5, 6) and high in RELATIONS:
        width = 64 if group == 5 else 32
        return Form(forms.IF_REGISTER if by_register else forms.IF_NUMBER, width, RELATIONS[high])
    if group in (5, 6) and high == 0:
        return Form(forms.GOTO)
    if opcode == 0x95:
        return Form(forms.EXIT)
    if group == 1 and opcode & 0xe0 == 0x60:
        return Form(forms.LOAD, SIZES[opcode & 0x18])
    if group == 3:
        return Form(forms.STORE, SIZES[opcode & 0x18])
    names = {0: "Wide", 1: "LoadSigned", 2: "StoreNumber"}
    return Form(forms.OTHER, 64, names[group])


def target_of(unit, form, opcode, offset, number):
    """The unit that an instruction jumps to, if it is a jump."""
    if form.is_branch or form.kind == forms.GOTO:
        return unit + 1 + (number if opcode == 0x06 else offset)
    return None


def link_between(first, second):
    """How the second of two neighbours goes on from the first, by their registers."""
    left, kind = first.dst, second.form.kind
    if not first.form.leaves_value:
        return THEN
    if kind in (forms.NUMBER, forms.IF_NUMBER):
        return INTO if second.dst == left else THEN
    if kind == forms.MOVE:
        return INTO if second.src == left else THEN
    if kind == forms.LOAD:
        return UNNAMED if second.src == left else THEN
    if kind == forms.REGISTER and second.dst == left:
        return THEN if second.src == left else INTO
    if kind == forms.REGISTER:
        return TO if second.src == left else THEN
    if kind == forms.IF_REGISTER:
        return UNNAMED if left in (second.dst, second.src) else THEN
    if kind == forms.STORE:
        return INTO if second.src == left else UNNAMED if second.dst == left else THEN
    return THEN


class Program:
    """A build of a program, with its counts."""

    def __init__(self, path):
        """Reads its counts."""
        self.half, self.name, self.build = path.name.split(".")
        self.units, place = [], {}
        lines = [line.split() for line in path.read_text().splitlines()]
        at = 0
        while at < len(lines):
            digits, runs, jumps = lines[at]
            opcode, registers, offset, number = struct.unpack("<BBhi", bytes.fromhex(digits))
            place[at] = len(self.units)
            form = form_of(opcode, offset)
            target = target_of(at, form, opcode, offset, number)
            self.units.append(Unit(form, registers & 15, registers >> 4, target, int(runs), int(jumps)))
            at += 2 if opcode == WIDE else 1
        self.place_targets(place)
        self.links = [link_between(*pair) for pair in zip(self.units, self.units[1:])]
        self.steps = sum(unit.runs for unit in self.units) / self.units[0].runs

    def place_targets(self, place):
        """Lets each jump lead to the place of an instruction instead of a unit."""
        self.units = [unit if unit.target is None else unit._replace(target=place[unit.target])
                      for unit in self.units]


def read_all(folder, *halves):
    """The counted programs of these halves, in order."""
    programs = [Program(path) for half in halves for path in sorted(folder.glob(half + ".*"))]
    if not programs:
        raise SystemExit(f"{folder} has no counts: run bench/choose/count, which writes them")
    return programs


def whole_forms(program):
    """The form of each operation of a program with all of its parts, and None in the place of another step."""
    return [Form(forms.WHOLE, unit.form.size, unit.form.operation) if unit.form.is_operation else None
            for unit in program.units]


def codes_run(wholes, standing, pairs):
    """How many codes a straight program runs, with these pairs of whole operations where no other code stands."""
    at = count = 0
    while at < len(wholes):
        length = standing[at].length
        if length == 1 and tuple(wholes[at:at + 2]) in pairs:
            length = 2
        at += length
        count += 1
    return count
