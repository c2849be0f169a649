"""The codes of the loop: each one step or several, with how they are linked; and the file that lists them."""

import re
from typing import NamedTuple

import forms
from forms import LINKS, OVER, THEN

# A code has at most so many bytes, the byte that says which it is among them.
MOST_BYTES = 24

# The sections of the list, in the order of the rows in the sources.
ALONE, TWO, WHOLE_TWO, THREE = range(4)
TITLES = ("one step, with few parts", "two steps", "two operations, whatever their parts", "three steps")

HEAD = """\
# The codes of the loop over checked programs, but for those written by hand: one a line, in the order in which their
# rows stand in the sources. bench/choose/choose writes this file, and bench/choose/write writes the rows from it.
# A line has the form of each step, and between two of them how the second goes on:
#   then   it has all parts of its own
#   into   it goes on with the value that the step before left in a register
#   to     that value is its second operand
#   over   the step before is a branch that leaves it out where it jumps
"""


class Code(NamedTuple):
    """Forms of steps that follow one another, and between two of them a link."""

    forms: tuple
    links: tuple = ()

    @property
    def text(self):
        """Its line in the list."""
        words = [self.forms[0].name]
        for link, form in zip(self.links, self.forms[1:]):
            words += [link, form.name]
        return " ".join(words)

    @property
    def name(self):
        """Its name in the sources."""
        words = [word[0].upper() + word[1:] for word in self.text.split()]
        return "".join(word for word in words if word != "Then")

    @property
    def snake_name(self):
        """Its name in small letters, as functions have it."""
        return re.sub(r"(?<!^)(?=[A-Z])", "_", self.name).lower()

    @property
    def is_over(self):
        """Whether it is a branch over a step."""
        return OVER in self.links

    @property
    def section(self):
        """The section of the list that it stands in."""
        if self.forms[0].kind == forms.WHOLE:
            return WHOLE_TWO
        return {1: ALONE, 2: TWO, 3: THREE}[len(self.forms)]

    @property
    def first_one(self):
        """Its first step alone."""
        return Code(self.forms[:1])

    @property
    def first_two(self):
        """The code of its first two steps."""
        return Code(self.forms[:2], self.links[:1])

    @property
    def held(self):
        """The types of what it holds, one for each step."""
        first, *more = self.forms
        alone = forms.HELD_OVER if self.is_over else forms.HELD
        return [alone[first.kind]] + [
            forms.HELD[form.kind] if link in (THEN, OVER) else forms.HELD_BEHIND[form.kind, link]
            for link, form in zip(self.links, more)]

    @property
    def bytes(self):
        """How many bytes it has."""
        at = 1
        for size, place in map(forms.SIZES.get, self.held):
            at = -(-at // place) * place + size
        return at


def why_not(code):
    """Why no rows can be written for a code; None where they can."""
    first, *more = code.forms
    if code.section == WHOLE_TWO:
        if len(code.forms) != 2 or more[0].kind != forms.WHOLE or code.links != (THEN,):
            return "an operation with all its parts stands in front of one more such operation, with `then` between"
        return None
    unknown = [form.name for form in code.forms if form not in forms.KNOWN]
    if unknown:
        return f"{unknown[0]} has no code of its own: add it to ONE_STEP in forms.py, or drop the line"
    if any(form.kind in (forms.STORE, forms.EXIT) for form in code.forms[:-1]):
        return "a store or an exit is not the last step"
    if any(form.kind == forms.EXIT for form in code.forms) and len(code.forms) == 1:
        return "Exit is a code that any step may have: drop the line"
    if code.is_over:
        fits = len(more) == 1 and first.is_branch and more[0].is_operation
        return None if fits else "`over` stands between a branch and an operation alone"
    if any(form.is_branch for form in code.forms[:-1]) and not (len(more) == 1 and more[0].is_branch):
        return "behind a branch stands no other step, but for one more branch, or one that it is `over`"
    for before, link, form in zip(code.forms, code.links, more):
        if link != THEN and not (before.leaves_value and (form.kind, link) in forms.HELD_BEHIND):
            return f"`{link}` {form.name} cannot go on with what {before.name} leaves: take `then`"
    if code.bytes > MOST_BYTES:
        return f"it has {code.bytes} bytes, and a code at most {MOST_BYTES}"
    return None


def position(code):
    """Where a code of several steps stands among the others."""
    ranks = [(forms.KINDS.index(form.kind), str(form.size), form.of) for form in code.forms] + [()]
    links = [LINKS.index(link) for link in code.links] + [-1]
    return code.section, ranks[0], ranks[1], links[0], ranks[2], links[1]


def alone():
    """The codes of one step."""
    return [Code((form,)) for form in forms.ONE_STEP]


def written(codes):
    """The list as text, of codes in order."""
    text = HEAD
    for section, title in enumerate(TITLES):
        text += f"\n# {title}\n" + "".join(code.text + "\n" for code in codes if code.section == section)
    return text


def parsed(line):
    """The code of a line."""
    words = line.split()
    if len(words) % 2 == 0 or len(words) > 5:
        raise ValueError("it must have one to three forms, with a word for the link between two of them")
    for name in words[0::2]:
        if name not in forms.NAMED:
            raise ValueError(f"there is no form {name}; forms.py says how they are called")
    for link in words[1::2]:
        if link not in LINKS:
            raise ValueError(f"{link} is no link: take one of {', '.join(LINKS)}")
    return Code(tuple(forms.NAMED[name] for name in words[0::2]), tuple(words[1::2]))


def why_not_behind(code, codes):
    """Why a code cannot stand in a list behind these, by their names; None where it can."""
    if code.name in codes:
        return f"a line above has the name {code.name} too: drop one of them"
    if code.section == THREE and code.first_two.name not in codes:
        return f"its first two steps have no code: add the line `{code.first_two.text}` in front of it"
    for form in code.forms:
        if code.section in (TWO, THREE) and form.kind != forms.EXIT and form.name not in codes:
            return f"{form.name} by itself has no code: add the line `{form.name}` in front of it"
    return None


def read(path):
    """The codes of a list. The program ends with a message where a line is none, or no rows can be written for it."""
    if not path.exists():
        raise SystemExit(f"{path} is not there: run bench/choose/choose, which writes it")
    codes = {}
    for number, line in enumerate(path.read_text().splitlines(), 1):
        if not line.strip() or line.startswith("#"):
            continue
        try:
            code = parsed(line)
            wrong = why_not(code) or why_not_behind(code, codes)
            if wrong:
                raise ValueError(wrong)
        except ValueError as error:
            raise SystemExit(f"{path}, line {number}: {line}: {error}") from None
        codes[code.name] = code
    lacking = [name for name in forms.NEEDED.split() if name not in codes]
    if lacking:
        raise SystemExit(f"{path}: add the codes that fuse.rt has by name: {', '.join(lacking)}")
    return list(codes.values())
