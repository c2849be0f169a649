"""The model of cost: what a record run of a program costs with some codes, in units of one step by itself.

All numbers of the model stand here. They are set by hand: what counts is which of two codes gains more, not how much.
"""

import math
from collections import defaultdict
from functools import lru_cache
from typing import NamedTuple, Optional

import forms
from codes import Code, why_not
from corpus import TEN
from forms import OVER, THEN
from programs import UNNAMED

# What a step costs: the way to its code, which a code of several steps saves for all but the first, and the rest.
WAY = 0.75
WORK = 1 - WAY

# What a branch costs more each time that it goes the way it takes less often. One over a step has no such cost.
WRONG_GUESS = 3.0

# Which part of the way a step saves behind another in one code: if the value is handed on, which saves work too; if the
# step has nothing to do with that value; if it has, but the code does not say so, and the value goes by its register;
# and if a branch is over it.
HANDED_ON = 1.15
UNRELATED = 0.85
BY_REGISTER = 0.5
BEHIND_BRANCH_OVER = 1.0

# How much one of the ten counts; a program of the corpus counts 1.
WEIGHT_OF_TEN = 1.0

# Which part of a program's weight its first build has: the one for version 2 where there is one, else that for version
# 3. It is the build that DPDK's interpreter can run too, so the one by which the loop is compared. The others share the
# rest.
SHARE_OF_FIRST = 0.9


class Candidate(NamedTuple):
    """A code that may stand at a unit: how many steps it does, and which part of the way each but the first saves."""

    code: Optional[Code]
    length: int
    is_over: bool
    saved: float

    @property
    def rank(self):
        """By which the candidates at a unit are compared: the longest stands there."""
        return self.length, self.is_over, self.saved


ALONE = Candidate(None, 1, False, 1.0)


def saved_by(link, natural):
    """Which part of the way a step saves that has this link in a code, and by its registers would have another."""
    if link != THEN:
        return HANDED_ON
    return UNRELATED if natural == THEN else BY_REGISTER


def variants(natural):
    """The links that a code may have for two neighbours: their own, and none."""
    return [THEN] if natural in (THEN, UNNAMED) else [natural, THEN]


def candidates_at(program, at):
    """All codes of several steps that may stand at an instruction, whether they are chosen or not."""
    window = program.units[at:at + 3]
    if len(window) < 2 or not window[0].runs:
        return []
    first, second = window[0].form, window[1].form
    link = program.links[at]
    pairs = [(Code((first, second), (own,)), saved_by(own, link)) for own in variants(link)]
    found = [Candidate(code, 2, False, saved) for code, saved in pairs]
    if window[0].target == at + 2 and first.is_branch:
        found.append(Candidate(Code((first, second), (OVER,)), 2, True, BEHIND_BRANCH_OVER))
    if len(window) == 3:
        third, link = window[2].form, program.links[at + 1]
        for pair, saved in pairs:
            for own in variants(link):
                code = Code(pair.forms + (third,), pair.links + (own,))
                found.append(Candidate(code, 3, False, (saved + saved_by(own, link)) / 2))
    return [candidate for candidate in found if is_possible(candidate.code)]


@lru_cache(maxsize=None)
def is_possible(code):
    """Whether rows can be written for a code; it is asked often, so the answers are kept."""
    return why_not(code) is None


def prepare(programs):
    """Gives each program its candidates and its weight, which its builds share."""
    builds = defaultdict(list)
    for program in programs:
        builds[program.name].append(program.build)
    for program in programs:
        program.candidates = [candidates_at(program, at) for at in range(len(program.units))]
        program.weight = (WEIGHT_OF_TEN if program.half == TEN else 1.0) * share_of(program.build, builds[program.name])


def share_of(build, builds):
    """Which part of a program's weight one of its builds has."""
    if len(builds) == 1:
        return 1.0
    return SHARE_OF_FIRST if build == min(builds) else (1 - SHARE_OF_FIRST) / (len(builds) - 1)


def cost_at(program, at, candidate, costs):
    """What is left of a run from an instruction on, if this candidate stands there; `costs` has it for those behind."""
    total, share = WAY + WORK, 1.0
    for place in range(at, at + candidate.length):
        if place > at:
            total += share * (WORK + (1 - candidate.saved) * WAY)
        unit = program.units[place]
        jumps = unit.jump_share
        if unit.form.is_branch and not candidate.is_over:
            total += share * WRONG_GUESS * min(jumps, 1 - jumps)
            total += share * jumps * costs[unit.target]
            share *= 1 - jumps
        elif unit.form.kind == forms.GOTO:
            total += share * costs[unit.target]
            share = 0
        elif unit.form.kind == forms.EXIT:
            share = 0
        if share == 0:
            break
    if share > 0:
        total += share * costs[at + candidate.length]
    return total


def costs_with(program, codes):
    """What is left of a run from each instruction on, and which candidate stands there."""
    count = len(program.units)
    costs, standing = [0.0] * (count + 1), [ALONE] * count
    for at in range(count - 1, -1, -1):
        for candidate in program.candidates[at]:
            if candidate.code in codes and candidate.rank > standing[at].rank:
                standing[at] = candidate
        costs[at] = cost_at(program, at, standing[at], costs)
    return costs, standing


def arrivals(program, standing):
    """How often control comes to each instruction in a run."""
    count = len(program.units)
    often = [0.0] * (count + 1)
    often[0] = 1
    for at in range(count):
        share = often[at]
        if share == 0:
            continue
        for place in range(at, at + standing[at].length):
            unit = program.units[place]
            if unit.form.is_branch and not standing[at].is_over:
                often[unit.target] += share * unit.jump_share
                share *= 1 - unit.jump_share
            elif unit.form.kind == forms.GOTO:
                often[unit.target] += share
                share = 0
            elif unit.form.kind == forms.EXIT:
                share = 0
        if share > 0:
            often[at + standing[at].length] += share
    return often


def expected(programs, codes):
    """What a step costs in the mean: the geometric one over programs, by their weights."""
    total = weights = 0
    for program in programs:
        costs, _ = costs_with(program, codes)
        total += program.weight * math.log(costs[0] / program.steps)
        weights += program.weight
    return math.exp(total / weights)
