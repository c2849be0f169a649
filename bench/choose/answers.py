"""The answers of codes, of which `next.rt` in `bq_steps` tells: each has room for so many arms of `advance`."""

# LLVM builds the way to the next code into an arm only where at most so many arms give the same answer.
ARMS = 16

# How many arms go on by `GoOn` in any case: the branch that any step may have.
ANY_GOING_ON = 1

# The answers by which a register takes a value, behind so many steps.
VALUES = {
    1: ("Single1", "Single2", "Single3"),
    2: ("Double1", "Double2", "Double3", "Double4", "Double5", "Double6"),
    3: ("Triple",),
}



class Answers:
    """Hands out answers in the order of the arms, each as often as there is room for."""

    def __init__(self, taken):
        """`taken` says how many arms of each number of steps are there already."""
        self.values = dict(taken)
        self.going = self.jumps = 0
        self.going_on = ANY_GOING_ON

    def value(self, steps):
        """The answer of a code of so many steps that gives a register a value."""
        taken = self.values.get(steps, 0)
        if taken >= ARMS * len(VALUES[steps]):
            raise SystemExit(f"more than {taken} arms give a value behind {steps} steps: drop lines of codes.txt, or "
                             "give crates/bq_steps/src/next.rt another answer, and VALUES in answers.py its name")
        self.values[steps] = taken + 1
        return VALUES[steps][taken // ARMS]

    def is_going(self, steps):
        """Whether a code goes on by `Go`, which is for one step, and not by `GoOn`, that has the number of steps."""
        if steps == 1 and self.going < ARMS:
            self.going += 1
            return True
        if self.going_on >= ARMS:
            raise SystemExit(f"more than {2 * ARMS} arms end with a store or a branch: drop lines of codes.txt")
        self.going_on += 1
        return False

    def is_jump(self, steps):
        """Whether a branch jumps by `Jump`, which is for one alone, and not by `To`, that has the number of steps."""
        if steps == 1 and self.jumps < ARMS:
            self.jumps += 1
            return True
        return False
