"""The choice: one code after another, each time the one that gains most, as long as there is room for its kind."""

from collections import defaultdict

import forms
from answers import ANY_GOING_ON, ARMS, VALUES
from codes import THREE, parsed
from corpus import TEN
from model import arrivals, cost_at, costs_with
from programs import codes_run, whole_forms

# How many pairs of operations with all their parts there are. They are chosen by the program `arithmetic`, which has
# operations in a row: one after another, each time the pair with which it runs the fewest codes.
WHOLE_PAIRS = 26
WHOLE_PAIRS_OF = "arithmetic"

# Codes that stand in any case. A code of three steps is looked at only once that of its first two is chosen, and these
# pairs gain little by themselves. Without them the model expects a fifth more of the programs `xorshift` and
# `histogram`, which mix a word with itself shifted, and let counts in the frame grow by the range of a low part.
GIVEN = [parsed(line) for line in (
    "Move into ShiftLeftNumber",
    "Move into ShiftLeftNumber into XorRegister",
    "Load8 into AddNumber",
    "Load8 into AddNumber into Store8Register",
    "Load8 into AndNumber",
    "Load8 into AndNumber into IfLessNumber",
)]

# The kinds of codes by what they answer, and how many of each there may be, with those that are given: the room which
# answers have (`answers.py`), less what stands there in any case: pairs of operations with all their parts, stores and
# branches alone, and the branch that any step may have. For the last it is fewer than there is room for.
VALUE_OF_TWO, VALUE_OF_THREE, GO_ON, CHOICE, END = "two", "three", "go on", "choice", "end"
GOING_ON_ALONE = sum(form.is_branch or form.kind == forms.STORE for form in forms.ONE_STEP) + ANY_GOING_ON
ROOM = {
    VALUE_OF_TWO: ARMS * len(VALUES[2]) - WHOLE_PAIRS,
    VALUE_OF_THREE: ARMS * len(VALUES[3]),
    GO_ON: 2 * ARMS - GOING_ON_ALONE,
    CHOICE: ARMS,
    END: 3,
}

# A code is for several programs, or for one of the ten. Of the program that gains most by it, the gain counts up to so
# many times the mean gain of the others, and so much more: what helps one program alone counts next to nothing.
LEAST_PROGRAMS = 2
MOST_OF_ONE = 2.0
MORE_OF_ONE = 0.001

# An instruction to which control comes less often than this is left out.
SELDOM = 1e-9


def kind_of(code):
    """Which answer a code needs."""
    if code.is_over:
        return CHOICE
    last = code.forms[-1]
    if last.is_branch or last.kind == forms.STORE:
        return GO_ON
    if last.kind == forms.EXIT:
        return END
    return VALUE_OF_THREE if code.section == THREE else VALUE_OF_TWO


def gains_of(program, codes):
    """What each code would gain a program that is not chosen yet, at each place of it, as parts of the whole cost."""
    costs, standing = costs_with(program, codes)
    often = arrivals(program, standing)
    gains = []
    for at, candidates in enumerate(program.candidates):
        if often[at] < SELDOM:
            continue
        for candidate in candidates:
            code = candidate.code
            if code in codes or (code.section == THREE and code.first_two not in codes):
                continue
            if candidate.rank <= standing[at].rank:
                continue
            gain = program.weight * often[at] * (costs[at] - cost_at(program, at, candidate, costs)) / costs[0]
            if gain > 0:
                gains.append((code, gain))
    return gains


def counted(gain, shares):
    """What of a gain counts, which programs share."""
    greatest, *others = sorted(shares, reverse=True)
    limit = MOST_OF_ONE * (gain - greatest) / max(1, len(others)) + MORE_OF_ONE
    return sum([min(greatest, limit), *others])


def best_of(gains, room, ten):
    """The code that gains most, with its gain, among those that there is room for; None where there is none."""
    total, shares = defaultdict(float), defaultdict(lambda: defaultdict(float))
    for program, pairs in gains:
        for code, gain in pairs:
            total[code] += gain
            shares[code][program.name] += gain
    best = None
    for code, gain in total.items():
        if room[kind_of(code)] <= 0:
            continue
        if len(shares[code]) < LEAST_PROGRAMS and not ten & shares[code].keys():
            continue
        value = counted(gain, shares[code].values())
        if best is None or value > best[1]:
            best = code, value
    return best


def is_touched(program, code):
    """Whether a code may stand in a program, or one of three steps that begins with it."""
    return any(code in (candidate.code, candidate.code.first_two)
               for candidates in program.candidates for candidate in candidates)


def chosen(programs):
    """The codes that are given, without a gain, and then those that are chosen, each with its gain when it was."""
    room = dict(ROOM)
    for code in GIVEN:
        room[kind_of(code)] -= 1
    ten = {program.name for program in programs if program.half == TEN}
    order, codes = [(code, None) for code in GIVEN], set(GIVEN)
    gains = [gains_of(program, codes) for program in programs]
    while True:
        best = best_of(zip(programs, gains), room, ten)
        if best is None:
            return order
        code = best[0]
        order.append(best)
        codes.add(code)
        room[kind_of(code)] -= 1
        for place, program in enumerate(programs):
            if is_touched(program, code):
                gains[place] = gains_of(program, codes)


def whole_pairs(program, codes):
    """The pairs of operations with all their parts, each with how many codes the program runs from then on."""
    wholes, standing = whole_forms(program), costs_with(program, codes)[1]
    left = sorted({pair for pair in zip(wholes, wholes[1:]) if None not in pair}, key=str)
    order, pairs = [], set()
    while len(order) < WHOLE_PAIRS:
        count, best = min(((codes_run(wholes, standing, pairs | {pair}), pair) for pair in left), key=lambda it: it[0])
        left.remove(best)
        pairs.add(best)
        order.append((best, count))
    return order
