"""What stands in front of the functions in the files of bq_run that are written whole: their titles and imports."""

import re

TITLES = {
    "singles": "One step with few parts.",
    "pairs": "Two steps, one after the other.",
    "wholes": "Two operations, whatever their parts.",
    "chosen": "A branch over a step: no jump is made, and a register takes a value or its own word again.",
    "triples": "Three steps, one after another.",
}

# What contracts may name, by where it is imported from.
IN_CONTRACTS = {
    "Rattle.bq_code.specs.Parts":
        "by_number by_register limit_of load_to moved moved_from onto_cell onto_number onto_register set_to store_from "
        "store_to test_of_number test_of_register whole with_number with_register word_of zero_cell",
    "Rattle.bq_steps.specs.Loop":
        "Reached State after_all compared computed done lies loaded stored",
    "Rattle.bq_steps.specs.Next":
        "EndsWith followed gives instructions reads",
}

# What bodies may call, and what they and parameters may name.
IN_BODIES = {
    "crate::accesses":
        "read store_from store_to",
    "crate::branches":
        "limit_holds number_holds number_test register_holds register_test",
    "crate::operations":
        "by_number by_register cell_onto moved moved_from number_onto operated register_onto set",
    "bq_code":
        "ByNumber ByRegister Dst Limit LoadTo NumberBranch NumberTest Place RegisterBranch RegisterTest Src StoreFrom "
        "Whole",
    "bq_frame": "Block",
    "bq_insn": "Size",
    "bq_steps": "Cells Next answer_behind",
}

# What both may name.
IN_BOTH = {"bq_word": "AluOp Relation Width"}

# The steps of a branch over a step are written out in contracts, so they name the parts of steps.
OF_STEPS = """\
ghost use Rattle.bq_word.specs.declared.Width.TheVariants.{W32, W64};
ghost use Rattle.bq_word.specs.declared.AluOp.TheVariants as ops;
ghost use Rattle.bq_word.specs.declared.Relation.TheVariants as relations;
ghost use Rattle.bq_code.specs.declared.step.Step.TheVariants as steps;
"""


def named(names, text):
    """Those of these names that a text has, as words."""
    words = set(re.findall(r"\w+", text))
    return [name for name in names.split() if name in words]


def uses(template, names, text):
    """Lines that import the names which a text has, from where they are."""
    found = {place: named(all_names, text) for place, all_names in names.items()}
    return "".join(template % (place, ", ".join(found[place])) for place in found if found[place])


def prelude(file, contracts):
    """What contracts name of the prelude."""
    names = ["◌≡◌"]
    if "(if " in contracts:
        names.append("if◌then◌else◌")
    if "slice_index" in contracts:
        names.append("slice_index")
    if file == "chosen":
        names += ["Bool", "ℕ", "List", "[]", "◌∷◌"]
    return f"ghost use Rattle.std.specs.Prelude.{{{', '.join(names)}}};\n"


def head(file, text):
    """The head of a file whose functions are this text."""
    contracts = "\n".join(re.findall(r"^    (?:requires|ensures) .*", text, re.MULTILINE))
    bodies = "\n".join(line for line in text.splitlines() if not line.startswith(("    requires ", "    ensures ")))
    lines = f"//! {TITLES[file]}\n\n" + prelude(file, contracts)
    if file == "chosen":
        lines += OF_STEPS
    lines += uses("ghost use %s.{%s};\n", IN_CONTRACTS, contracts) + "\n"
    return lines + uses("use %s::{%s};\n", IN_BODIES, bodies) + uses("use %s::{%s};\n", IN_BOTH, text) + "\n"
