"""The forms of one step: what each is called, what it holds, and which of them have a code of their own."""

from typing import NamedTuple

# How a step goes on from the one before. A name of a code has these words too, but for `then`.
THEN = "then"  # it has all parts of its own
INTO = "into"  # it goes on with the value that the step before left in a register
TO = "to"  # that value is its second operand
OVER = "over"  # the step before is a branch that leaves this one out where it jumps
LINKS = (THEN, INTO, OVER, TO)

# The kinds of forms. The last three have no code with few parts.
SET, MOVE, NUMBER, REGISTER = "Set", "Move", "Number", "Register"
LOAD, STORE, IF_NUMBER, IF_REGISTER, EXIT = "Load", "Store", "IfNumber", "IfRegister", "Exit"
WHOLE, GOTO, OTHER = "Whole", "Goto", "Other"
KINDS = (SET, MOVE, NUMBER, REGISTER, LOAD, STORE, IF_NUMBER, IF_REGISTER, EXIT, WHOLE, GOTO, OTHER)

OPERATIONS = ("Add", "Sub", "Mul", "Or", "And", "ShiftLeft", "ShiftRight", "Xor", "ArithmeticShiftRight")
RELATIONS = ("Equal", "Greater", "GreaterOrEqual", "CommonBit", "NotEqual", "SignedGreater", "SignedGreaterOrEqual",
             "Less", "LessOrEqual", "SignedLess", "SignedLessOrEqual")
WIDTHS = (64, 32)
BYTES = (1, 2, 4, 8)


class Form(NamedTuple):
    """What a step is, whatever its parts: `size` are bits of an operation or a branch, and bytes of an access."""

    kind: str
    size: int = 64
    of: str = ""  # the operation or the relation

    @property
    def name(self):
        """Its name, as codes have it."""
        width = "32" if self.size == 32 else ""
        if self.kind in (SET, MOVE):
            return self.kind + width
        if self.kind in (NUMBER, REGISTER):
            return self.of + width + self.kind
        if self.kind in (IF_NUMBER, IF_REGISTER):
            return "If" + self.of + width + self.kind[len("If"):]
        if self.kind == LOAD:
            return f"Load{self.size}"
        if self.kind == STORE:
            return f"Store{self.size}Register"
        if self.kind == WHOLE:
            return self.of + width
        return self.of or self.kind

    @property
    def is_branch(self):
        """Whether it is a conditional jump."""
        return self.kind in (IF_NUMBER, IF_REGISTER)

    @property
    def is_operation(self):
        """Whether it computes: a move adds to 0."""
        return self.kind in (SET, MOVE, NUMBER, REGISTER, WHOLE)

    @property
    def leaves_value(self):
        """Whether a register takes a value by it."""
        return self.is_operation or self.kind == LOAD

    @property
    def operation(self):
        """The operation that a computing form does."""
        return self.of or "Add"


def every_form():
    """All forms that a code may have, whether there is one or not."""
    for width in WIDTHS:
        yield from (Form(kind, width) for kind in (SET, MOVE))
        yield from (Form(kind, width, of) for kind in (NUMBER, REGISTER, WHOLE) for of in OPERATIONS)
        yield from (Form(kind, width, of) for kind in (IF_NUMBER, IF_REGISTER) for of in RELATIONS)
    yield from (Form(kind, size) for kind in (LOAD, STORE) for size in BYTES)
    yield Form(EXIT)


NAMED = {form.name: form for form in every_form()}

# The forms that have a code of their own, in the order of the sources. The first twelve are needed: `fuse.rt` has them
# by name. Another form stands here before a code of several steps can have it; `choose --forms` says how often each is
# run. There is room for as many as `answers.py` has answers.
NEEDED = "Set Set32 Move Move32 Load1 Load2 Load4 Load8 Store1Register Store2Register Store4Register Store8Register"
ONE_STEP = [NAMED[name] for name in """
    Set Set32 Move Move32
    AddNumber MulNumber OrNumber AndNumber ShiftLeftNumber ShiftRightNumber XorNumber ArithmeticShiftRightNumber
    Add32Number Mul32Number Or32Number And32Number ShiftLeft32Number ShiftRight32Number Xor32Number
    ArithmeticShiftRight32Number
    AddRegister SubRegister MulRegister OrRegister AndRegister XorRegister
    Add32Register Sub32Register Mul32Register Or32Register And32Register Xor32Register ShiftLeftRegister
    Load1 Load2 Load4 Load8
    Store1Register Store2Register Store4Register Store8Register
    IfEqualNumber IfGreaterNumber IfNotEqualNumber IfLessNumber
    IfEqual32Number IfNotEqual32Number IfLess32Number IfGreater32Number
    IfGreaterRegister IfLessRegister IfLess32Register IfGreater32Register
    IfSignedGreater32Number IfSignedLessNumber IfSignedGreaterNumber IfSignedLess32Number
    IfEqualRegister IfGreaterOrEqualRegister IfGreaterOrEqual32Register
""".split()]

# The forms that codes of several steps are made of: `Exit` has a code that any step may have.
KNOWN = frozenset(ONE_STEP) | {Form(EXIT)}

# The type of `code.rt` that holds the parts of a form: alone, or behind a step with whose value it goes on. Before a
# step can go on in another way, as a load at an address that was left, `code.rt` and `Parts.antt` need its parts,
# `fuse.rt` what tells them, and `bq_run` what does it; then it stands here, in terms.py and in fuse.py.
HELD = {SET: "ByNumber", NUMBER: "ByNumber", MOVE: "ByRegister", REGISTER: "ByRegister", LOAD: "LoadTo",
        STORE: "StoreFrom", IF_NUMBER: "NumberBranch", IF_REGISTER: "RegisterBranch", EXIT: "usize", WHOLE: "Whole"}
HELD_BEHIND = {(NUMBER, INTO): "u32", (REGISTER, INTO): "Src", (REGISTER, TO): "Dst", (MOVE, INTO): "Dst",
               (STORE, INTO): "Place", (IF_NUMBER, INTO): "Limit"}
HELD_OVER = {IF_NUMBER: "NumberTest", IF_REGISTER: "RegisterTest"}

# How many bytes each of these types has, and to a multiple of what it is placed.
SIZES = {"NumberTest": (8, 4), "RegisterTest": (2, 1), "ByNumber": (8, 4), "ByRegister": (2, 1), "LoadTo": (8, 4),
         "StoreFrom": (8, 4), "NumberBranch": (8, 4), "RegisterBranch": (4, 2), "usize": (8, 8), "u32": (4, 4),
         "Src": (1, 1), "Dst": (1, 1), "Place": (8, 4), "Limit": (8, 4), "Whole": (8, 4)}
