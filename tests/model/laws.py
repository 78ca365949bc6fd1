#!/usr/bin/env python3
"""laws.py PROGRAMS [SEED]: the three laws of histories (docs/MACHINE.md, "Steps, history, undo"), tried on the model.

On random programs, after random steps: what a plan looks at stands in its footprint. Two neighbours that do not conflict
change places, and each entry of the replay keeps its plan, and the state is the same. An entry with which no later one
conflicts is taken out, and each object holds what it held before that step, that much less, or what it holds now.
The status is 1 where a law does not hold, or where nothing was tried.
It needs Python 3 with its standard library alone.
"""
import random
import sys
from debugger import program_of, run_deep
from history import DEFAULTS, Machine
from programs import Program
from tokens import Refused
from values import Done


def differing(machine):
    """What the objects hold that hold no default."""
    return {object: value for object, value in machine.state.items() if value != DEFAULTS.get(object[0], 0)}


class Watched(Machine):
    """A machine that checks the first law at each plan."""
    seen = ()

    def get(self, object):
        self.seen = (*self.seen, object)
        return super().get(object)

    def plan(self, worker, choice=None):
        self.seen = ()
        plan = super().plan(worker, choice)
        if isinstance(plan, Done):
            unnamed = set(self.seen) - {object for object, mode in plan.footprint if mode in "RW"}
            assert not unnamed, ("a plan looks at what its footprint lacks", unnamed)
        return plan


def run_at_random(chance, machine, steps):
    for _ in range(steps):
        worker = chance.randrange(machine.workers)
        if machine.ready() and chance.random() < .2:
            machine.step(worker, chance.choice(machine.ready()))
        else:
            for _ in range(chance.randrange(1, 6)):
                machine.step(worker)


def exchanged(machine, place):
    """What is wrong where the entry there and its neighbour change places; None where nothing is."""
    other, order = Machine(machine.program, machine.workers), list(machine.entries)
    order[place], order[place + 1] = order[place + 1], order[place]
    for entry in order:
        plan = other.plan(entry.worker, entry.choice)
        if plan != entry.plan:
            return f"#{entry.serial} has another plan"
        other.apply(plan.updates)
    return None if differing(other) == differing(machine) else "another state"


def try_exchanges(chance, machine):
    """How many pairs were tried, and what is wrong with them."""
    entries = machine.entries
    places = [place for place in range(len(entries) - 1) if entries[place].worker != entries[place + 1].worker
              and not machine.conflict(entries[place].plan.footprint, entries[place + 1].plan.footprint)]
    tried = chance.sample(places, min(25, len(places)))
    reasons = [(f"#{entries[place].serial} and its neighbour", exchanged(machine, place)) for place in tried]
    return len(tried), [f"{pair}: {why}" for pair, why in reasons if why]


def without(machine, place):
    """What all objects hold without the entry there, from the values before it."""
    before, behind = Machine(machine.program, machine.workers), Machine(machine.program, machine.workers)
    for entry in machine.entries[:place]:
        before.apply(entry.plan.updates)
    behind.state = dict(machine.state)
    for object, kind, value in machine.entries[place].plan.updates:
        behind.state[object] = before.get(object) if kind == "put" else machine.get(object) - value
    return differing(behind)


def try_removals(machine):
    """How many entries were taken out, and what is wrong with that."""
    removed, wrong = 0, []
    for worker in range(machine.workers):
        own = [place for place, entry in enumerate(machine.entries) if entry.worker == worker]
        if not own:
            continue
        entry, wanted = machine.entries[own[-1]], without(machine, own[-1])
        if machine.undo(worker)[0] == "undone":
            removed += 1
            if differing(machine) != wanted:
                wrong.append(f"#{entry.serial} taken out: another state")
    return removed, wrong


def main():
    if not 2 <= len(sys.argv) <= 3:
        print(__doc__, file=sys.stderr)
        return 2
    number, seed = int(sys.argv[1]), sys.argv[2] if len(sys.argv) == 3 else "1"
    exchanges = removals = wrong = 0
    for turn in range(number):
        chance = random.Random(f"program {turn} of seed {seed}")
        writer = Program(chance)
        source = (writer.dense_source() if chance.random() < .5 else writer.source()).encode()
        try:
            machine = Watched(program_of(source), chance.choice([2, 3, 4]))
        except Refused:
            continue
        run_at_random(chance, machine, 120)
        pairs, reasons = try_exchanges(chance, machine)
        removed, more = try_removals(machine)
        exchanges, removals, wrong = exchanges + pairs, removals + removed, wrong + len(reasons + more)
        for reason in reasons + more:
            print(f"program {turn} of seed {seed}: {reason}")
    print(f"{number} programs of seed {seed}, {exchanges} exchanges, {removals} entries taken out, {wrong} wrong")
    return 1 if wrong or not exchanges or not removals else 0


if __name__ == "__main__":
    sys.exit(run_deep(main))
