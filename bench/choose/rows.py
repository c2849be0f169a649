"""The rows of codes in the crate bq_code: variants, the steps they stand for, and the tables of one step."""

from codes import ALONE, THREE, TITLES, TWO, WHOLE_TWO
from forms import IF_NUMBER, IF_REGISTER, NUMBER, REGISTER
from terms import IN_SPECS, VARIABLES, pieces, which

# The functions of fuse.rt that have a table of forms, and the kind of these.
TABLES = {"short_by_number": NUMBER, "short_by_register": REGISTER, "short_with_number": IF_NUMBER,
          "short_with_register": IF_REGISTER}


def variants(codes):
    """The variants of `Code`, in sections."""
    lines = []
    for section in (ALONE, TWO, WHOLE_TWO, THREE):
        if section != ALONE:
            lines.append(f"    // {TITLES[section]}")
        lines += [f"    {code.name}({', '.join(code.held)})," for code in codes if code.section == section]
    return lines


def lowered(codes):
    """The lines of `pieces`; those of pairs of whole operations stand last."""
    ordered = sorted(codes, key=lambda code: (ALONE, TWO, THREE, WHOLE_TWO).index(code.section))
    return [f"pieces (codes.{code.name} {' '.join(VARIABLES[:len(code.forms)])}) = {pieces(code, IN_SPECS)} ∷ []"
            for code in ordered]


def table(codes, function):
    """The rows of one of the tables of one step."""
    found = [code for code in codes if code.section == ALONE and code.forms[0].kind == TABLES[function]]
    return [f"        {which(code.forms[0])} => Some(Code::{code.name}(x))," for code in found]
