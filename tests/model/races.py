"""The races of one history in the model, by happens-before: each pair of its steps is looked at.

docs/HUNTING.md, "The races of one history", says which steps race and what orders them.
"""
from collections import namedtuple
from history import Machine
from schedules import ENDS, LIFE_ENDS, READS, UPDATES, WRITES
from values import Done, Ready, SCHEDULING_POINTS

ORDERING = ("control", "task", "children", "pending", "arrived", "lock", "group")
ATOMIC, REDUCTION, ENDING, PLAIN = "atomic", "reduction", "ending", "plain"
# A step that stands: its entry, how its instruction accesses variables, and the critical regions that its worker is in.
Made = namedtuple("Made", "entry manner regions")
# A race: its two entries, the variable, and of each side the line, the kind and the manner of its access.
Race = namedtuple("Race", "earlier later object sides")


class Session:
    """A machine that is stepped and taken back, and what is known of each step that it made."""

    def __init__(self, program, workers):
        self.machine, self.locks, self.about = Machine(program, workers), program.locks, {}

    def choices(self):
        """Each step that can be made: a worker, and the task that it starts or None."""
        found = []
        for worker in range(self.machine.workers):
            operation = self.operation(worker)
            names = [None] + (self.machine.ready() if operation in SCHEDULING_POINTS else [])
            found += [(worker, name) for name in names if operation and isinstance(self.machine.plan(worker, name), Done)]
        return found

    def operation(self, worker):
        """The operation before which a worker that runs stands; else None."""
        if self.machine.get(("control", worker))[0] != "run":
            return None
        frame = self.machine.top(worker).frames[-1]
        return frame.body.code[frame.next][0]

    def step(self, worker, name):
        manner, regions = self.manner(worker, name), self.regions(worker)
        self.machine.step(worker, name)
        self.about[self.machine.made] = manner, regions

    def manner(self, worker, name):
        operation, frame = self.operation(worker), self.machine.top(worker).frames[-1]
        if name is not None:
            return PLAIN
        if operation == "RED":
            return REDUCTION
        if operation in UPDATES or frame.next in frame.body.atomic:
            return ATOMIC
        return ENDING if operation in LIFE_ENDS else PLAIN

    def regions(self, worker):
        return frozenset(name for name in self.locks if self.machine.get(("lock", name)) == worker)

    def made(self):
        return [Made(entry, *self.about[entry.serial]) for entry in self.machine.entries]


def variables(made):
    return [(object, mode) for object, mode in made.entry.plan.footprint if object[0] in ("global", "cell")]


def ordering(made):
    """The accesses of a step that may order it."""
    footprint = made.entry.plan.footprint
    return [(object, mode) for object, mode in footprint
            if object[0] in ORDERING or made.manner == ATOMIC and object[0] in ("global", "cell")]


def before(history):
    """For each step the places of those that happen before it, its own among them, as bits."""
    behind = []
    for place, made in enumerate(history):
        bits = 1 << place
        for earlier in range(place):
            if Machine.conflict(ordering(history[earlier]), ordering(made)):
                bits |= behind[earlier]
        behind.append(bits)
    return behind


def side(made, mode):
    kind = READS if mode == "R" else ENDS if made.manner == ENDING else WRITES
    return made.entry.line, (READS, WRITES, ENDS).index(kind), made.manner


def pairs(first, second):
    """Where two steps race, if nothing orders them: the variable, and both sides, the lesser first."""
    for object, mode in variables(first):
        for other, other_mode in variables(second):
            if object == other and (mode != other_mode or mode not in "RA") and not are_together(first, mode, second, other_mode):
                yield object, tuple(sorted([side(first, mode), side(second, other_mode)]))


def are_together(first, mode, second, other_mode):
    is_reduced = first.manner == second.manner == REDUCTION and mode == other_mode == "W"
    return first.manner == second.manner == ATOMIC or is_reduced


def races(history):
    """All races of a history."""
    known = before(history)
    return [Race(first, second, object, sides)
            for later, second in enumerate(history) for earlier, first in enumerate(history[:later])
            if first.entry.worker != second.entry.worker and not known[later] >> earlier & 1
            for object, sides in pairs(first, second)]
