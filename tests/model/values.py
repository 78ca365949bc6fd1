"""The values of the model's machine: what objects hold, and the arithmetic of C (docs/MACHINE.md, "Objects", "Control" and "Faults")."""
from collections import namedtuple

INT_MIN, INT_MAX = -2147483648, 2147483647
MOST_FRAMES = 1000
LONGEST_NAME = 64
IDLE, UNSET, DEAD = ("idle",), "unset", "dead"
# A frame: its body, its next instruction, its ordinal in the task, its operands, and where the cells of each slot lie.
Frame = namedtuple("Frame", "body next ordinal operands homes")
Context = namedtuple("Context", "task kind team number size level phase births regions frames_made constructs frames group")
# An open worksharing region: its kind as event record 20 has it, its number, and what is given out.
Work = namedtuple("Work", "kind region count lower step schedule chunk taken current end")
Ready = namedtuple("Ready", "body line homes team phase group")
# A step as it would be made: its footprint, its updates, its line, and its fault if it has one.
Done = namedtuple("Done", "footprint updates line fault")
Entry = namedtuple("Entry", "serial worker choice line plan")
# Where a worker may start a task (docs/MACHINE.md, "Scheduling points"; OpenMP 5.2, 12.9).
SCHEDULING_POINTS = ("DEPART", "LEAVE", "TWE", "YIELD", "FIN", "TGE")


class Stop(Exception):
    """Why a step has no updates."""


class Blocked(Stop):
    def __init__(self, code, by=None):
        super().__init__(code, by)
        self.code, self.by = code, by


class Fault(Stop):
    def __init__(self, code):
        super().__init__(code)
        self.code = code


def name_text(name):
    """The name of a task, a team or a group: its numbers with dots between them (docs/MACHINE.md, "Names")."""
    return ".".join(map(str, name)) or "-"


def int_or_fault(value):
    """C17 6.5p5: a result that is no `int` is F1."""
    if not INT_MIN <= value <= INT_MAX:
        raise Fault(1)
    return value


def operate(operation, left, right):
    """C17 6.5.5 to 6.5.9; a quotient is cut towards 0 (6.5.5p6), and a divisor of 0 is F2 (6.5.5p5)."""
    if operation in ("div", "mod"):
        if right == 0:
            raise Fault(2)
        quotient = int_or_fault(abs(left) // abs(right) * (1 if (left < 0) == (right < 0) else -1))
        return quotient if operation == "div" else left - quotient * right
    if operation in ("add", "sub", "mul"):
        return int_or_fault(left + right if operation == "add" else left - right if operation == "sub" else left * right)
    return int({"lt": left < right, "le": left <= right, "gt": left > right, "ge": left >= right,
                "eq": left == right, "ne": left != right}[operation])


def iterations(comparison, lower, upper, step):
    """How many iterations a canonical loop has (docs/MACHINE.md, "Iterations"; OpenMP 5.2, 4.4.2)."""
    if comparison[0] == ">":
        lower, upper, step = -lower, -upper, -step
    if len(comparison) == 1:
        return 0 if lower >= upper else -(-(upper - lower) // step)
    return 0 if lower > upper else (upper - lower) // step + 1
