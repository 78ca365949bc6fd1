"""The state and the history of the model: docs/MACHINE.md, "Objects" and "Steps, history, undo" (Danos and Krivine 2004).

A state is a map from objects to values. A step is a footprint and updates. An undo takes an entry out of the list
and replays what remains: it takes no update back.
"""
from threads import Step
from values import Blocked, Context, Done, Entry, Fault, Frame, IDLE, Ready, UNSET, name_text

DEFAULTS = {"control": IDLE, "cell": UNSET, "task": "absent", "lock": None, "output": b"", "events": ()}
BETWEEN_KEPT = 64
ENDED = "ended"


class Machine:
    def __init__(self, program, workers):
        self.program, self.workers, self.made, self.entries, self.kept = program, workers, 0, [], {}
        self.reset()

    def reset(self):
        """The state before the first step."""
        self.state, self.ready_names = {}, set()
        for variable in self.program.resolved.globals:
            if variable.size is None and variable.initial:
                self.state["global", variable, 0] = variable.initial
        main = next(item for item in self.program.resolved.functions if item.name == "main")
        frame = Frame(main.function.body, 0, 0, (), (None,) * len(main.region.slots))
        self.state["control", 0] = ("run", (Context((0,), "initial", (), 0, 1, 0, 0, 0, 0, 1, (), (frame,), None),))
        self.state["events", 0] = ("1 thread_begin 1", "7 implicit_task 1 - 0 1 1 1")
        for worker in range(1, self.workers):
            self.state["events", worker] = ("1 thread_begin 2",)

    def get(self, object):
        return self.state.get(object, DEFAULTS.get(object[0], 0))

    def apply(self, updates):
        for object, kind, value in updates:
            self.state[object] = value if kind == "put" else self.get(object) + value
            if object[0] == "task":
                (self.ready_names.add if isinstance(value, Ready) else self.ready_names.discard)(object[1])

    def plan(self, worker, choice=None):
        """A worker's next instruction, or the start of the task that it chooses: `Done`, `Blocked` or `ENDED`."""
        control = self.get(("control", worker))
        if control[0] == "idle":
            return Blocked(5)
        if control[0] != "run":
            return ENDED
        stack = control[1]
        frame = stack[-1].frames[-1]
        line, own = frame.body.lines[frame.next], ("control", worker)
        step = Step(self, worker, stack)
        try:
            behind = step.start(choice) if choice is not None else step.instruction()
        except Blocked as blocked:
            return blocked
        except Fault as fault:
            footprint = [(own, "W")] + (step.footprint if step.has_read else [])
            return Done(footprint, [(own, "put", ("fault", fault.code, stack))], line, fault.code)
        footprint = [(own, "W")] + step.footprint
        updates = [(own, "put", behind)] + step.updates
        if step.records is not None:
            events = ("events", worker)
            footprint.append((events, "W"))
            updates.append((events, "put", self.get(events) + tuple(step.records)))
        return Done(footprint, updates, line, None)

    def step(self, worker, choice=None):
        plan = self.plan(worker, choice)
        if isinstance(plan, Done):
            self.made += 1
            self.apply(plan.updates)
            self.entries.append(Entry(self.made, worker, choice, plan.line, plan))
            if len(self.entries) % BETWEEN_KEPT == 0:
                self.kept[len(self.entries)] = dict(self.state), set(self.ready_names)
        return plan

    def replay(self, first):
        """Makes the state that the entries give from the start; those before `first` are as they were.

        Each entry has to keep its footprint, its updates, its line and its fault. The states at some of the beginnings
        are kept, so that not all of the list is replayed each time.
        """
        self.kept = {number: kept for number, kept in self.kept.items() if number <= first}
        self.reset()
        number = max(self.kept, default=0)
        if number:
            self.state, self.ready_names = dict(self.kept[number][0]), set(self.kept[number][1])
        for entry in self.entries[number:]:
            plan = self.plan(entry.worker, entry.choice)
            assert plan == entry.plan, "an entry has another plan in the replay"
            self.apply(plan.updates)

    @staticmethod
    def conflict(first, second):
        """The first object of the first footprint at which the two conflict, or None."""
        for object, mode in first:
            if any(other == object and not (mode == other_mode and mode in "RA") for other, other_mode in second):
                return object
        return None

    def undo(self, worker):
        """("undone", entry), ("conflict", later entry, object), or None where the worker has no entry."""
        own = [place for place, entry in enumerate(self.entries) if entry.worker == worker]
        if not own:
            return None
        entry = self.entries[own[-1]]
        for later in self.entries[own[-1] + 1:]:
            object = self.conflict(entry.plan.footprint, later.plan.footprint)
            if object:
                return "conflict", later, object
        del self.entries[own[-1]]
        self.replay(own[-1])
        return "undone", entry

    def roll(self, serial):
        """Takes the causal cone of that entry out; gives its entries, the latest first, or None."""
        start = next((place for place, entry in enumerate(self.entries) if entry.serial == serial), None)
        if start is None:
            return None
        cone = [self.entries[start]]
        for entry in self.entries[start + 1:]:
            if any(self.conflict(member.plan.footprint, entry.plan.footprint) for member in cone):
                cone.append(entry)
        self.entries = [entry for entry in self.entries if not any(entry is member for member in cone)]
        self.replay(start)
        return cone[::-1]

    def ready(self):
        """The names of the tasks that are ready, in their order."""
        return sorted(self.ready_names)

    def top(self, worker):
        """The context that a worker runs, or is at a fault in; else None."""
        control = self.get(("control", worker))
        return control[-1][-1] if control[0] in ("run", "fault") else None

    def line(self, worker):
        context = self.top(worker)
        return context.frames[-1].body.lines[context.frames[-1].next] if context else 0

    @staticmethod
    def text_of(object):
        """An object as a refused undo names it: the last column of the table of "Objects"."""
        kind, *of = object
        if kind == "global":
            return f"global {of[0].name}" + (f"[{of[1]}]" if of[0].size is not None else "")
        if kind == "cell":
            return "cell " + "/".join([name_text(of[0]), *map(str, of[1:])])
        if kind in ("task", "group", "children"):
            return f"{kind} {name_text(of[0])}"
        if kind in ("pending", "arrived", "work"):
            return f"{kind} {name_text(of[0])} {of[1]}"
        return " ".join([kind, *map(str, of)])
