"""The commands of the model's debugger, with their answers: docs/COMMANDS.md."""
import re
from history import ENDED
from values import Blocked, Done, LONGEST_NAME, SCHEDULING_POINTS, name_text

LONGEST_LINE = 1024
MOST_RECORDS = 200000
MOST_REPEATS = 10000
MOST_STEPS = 100000
# How many words each command has behind its own, where it is not one.
NUMBERS_OF_WORDS = {"print": (1, 2), "start": (2,), "history": (0,), "output": (0,), "tasks": (0,)}


class Full(Exception):
    """There is no room for a further record."""


class Bad(Exception):
    """H2."""


class Words:
    """What the words of a line mean."""

    def __init__(self, machine, write):
        self.machine, self.write, self.workers = machine, write, machine.workers
        self.records, self.breaks, self.watches = 0, set(), []

    @staticmethod
    def number(word, least=0, most=None):
        if not re.fullmatch("[0-9]{1,10}", word) or int(word) < least or most is not None and int(word) > most:
            raise Bad
        return int(word)

    def worker(self, word):
        return self.number(word, 0, self.workers - 1)

    @staticmethod
    def variable(word):
        """The name and the index of a variable."""
        found = re.fullmatch(r"([A-Za-z_][A-Za-z_0-9]*)(\[([0-9]{1,10})\])?", word)
        if not found:
            raise Bad
        return found.group(1), None if found.group(2) is None else int(found.group(3))

    @staticmethod
    def object(variable, index, cell):
        """A variable's object and how it is written."""
        if (variable.size is None) != (index is None) or index is not None and index >= variable.size:
            raise Bad
        return cell(index or 0), variable.name + ("" if index is None else f"[{index}]")

    def global_object(self, word):
        name, index = self.variable(word)
        variable = next((known for known in self.machine.program.resolved.globals if known.name == name), None)
        if variable is None:
            raise Bad
        return self.object(variable, index, lambda at: ("global", variable, at))

    def seen_object(self, worker, word):
        """What a worker sees by this name: the innermost variable in scope at its next instruction."""
        name, index = self.variable(word)
        context = self.machine.top(worker)
        if context is None:
            return self.global_object(word)
        frame = context.frames[-1]
        inner = [variable for variable, begin, end in frame.body.variables
                 if variable.name == name and begin <= frame.next < end]
        outer = [variable for variable in frame.body.outer if variable.name == name]
        if not inner and not outer:
            return self.global_object(word)
        variable = (inner or outer)[-1]
        if variable not in frame.body.region.slot_of:
            raise Bad
        slot = frame.body.region.slot_of[variable]
        home = frame.homes[slot] or (context.task, frame.ordinal, slot)
        return self.object(variable, index, lambda at: ("cell", *home, at))


class Steps(Words):
    """Steps, undos and runs."""

    def record(self):
        if self.records >= MOST_RECORDS:
            raise Full
        self.records += 1

    def step(self, worker, choice=None):
        self.record()
        return self.machine.step(worker, choice)

    def undo(self, worker):
        self.record()
        return self.machine.undo(worker)

    def step_answer(self, plan, worker):
        if isinstance(plan, Done):
            fault = f" fault F{plan.fault}" if plan.fault else ""
            return f"#{self.machine.made} worker {worker} line {plan.line}{fault}"
        if plan == ENDED:
            return "ended"
        return f"blocked B{plan.code}" + ("" if plan.by is None else f" by {plan.by}")

    def undo_answer(self, reply):
        if reply is None:
            return "nothing to undo"
        entry = reply[1]
        if reply[0] == "undone":
            return f"undone #{entry.serial} worker {entry.worker} line {entry.line}"
        return f"refused by #{entry.serial} worker {entry.worker} on {self.machine.text_of(reply[2])}"

    def do_step(self, worker):
        worker = self.worker(worker)
        yield self.step_answer(self.step(worker), worker)

    def do_start(self, worker, name):
        worker, parts = self.worker(worker), name.split(".")
        if len(parts) > LONGEST_NAME:
            raise Bad
        name = tuple(self.number(part) for part in parts)
        yield self.step_answer(self.step(worker, name), worker)

    def do_undo(self, worker):
        yield self.undo_answer(self.undo(self.worker(worker)))

    def do_next(self, worker):
        worker = self.worker(worker)
        line = self.machine.line(worker)
        for _ in range(MOST_REPEATS):
            plan = self.step(worker)
            if not isinstance(plan, Done) or self.machine.line(worker) != line:
                break
        yield self.step_answer(plan, worker)

    def do_back(self, worker):
        worker = self.worker(worker)
        line = self.machine.line(worker)
        for _ in range(MOST_REPEATS):
            reply = self.undo(worker)
            if reply is None or reply[0] != "undone" or self.machine.line(worker) != line:
                break
        yield self.undo_answer(reply)

    def do_roll(self, serial):
        serial = self.number(serial)
        self.record()
        cone = self.machine.roll(serial)
        if cone is None:
            yield f"no step #{serial}"
        for entry in cone or ():
            yield self.undo_answer(("undone", entry))

    def move(self, worker):
        """The choice of a worker's move, in a list of one; none where it has no move."""
        if isinstance(self.machine.plan(worker), Done):
            return [None]
        control = self.machine.get(("control", worker))
        if control[0] == "run":
            frame = control[1][-1].frames[-1]
            if frame.body.code[frame.next][0] in SCHEDULING_POINTS:
                for name in self.machine.ready():
                    if isinstance(self.machine.plan(worker, name), Done):
                        return [name]
        return []

    def do_run(self, number):
        number = self.number(number, 1, MOST_STEPS)
        for made in range(number):
            moves = ((worker, choice) for worker in range(self.workers) for choice in self.move(worker))
            worker, choice = next(moves, (None, None))
            if worker is None:
                yield f"ran {made} " + ("ended" if self.machine.get(("control", 0))[0] == "ended" else "stuck")
                return
            why = self.step_of_run(worker, choice)
            if why or made + 1 == number:
                yield f"ran {made + 1} " + (f"{why} worker {worker}" if why else "limit")
                return

    def step_of_run(self, worker, choice):
        """Makes a step, and gives what stops the run behind it, or None."""
        before = self.machine.line(worker)
        values = [self.machine.get(object) for _, object in self.watches]
        plan = self.step(worker, choice)
        if plan.fault:
            return f"fault F{plan.fault}"
        line = self.machine.line(worker)
        if line != before and line in self.breaks:
            return f"break {line}"
        changed = [name for (name, object), value in zip(self.watches, values) if self.machine.get(object) != value]
        return f"watch {changed[0]}" if changed else None

    def do_free(self, number):
        """One order of a free run: the workers in turn. Of one worker it is the only one."""
        number, done = self.number(number), 0
        for _ in range(number):
            for worker in range(self.workers):
                plan = self.step(worker)
                done += isinstance(plan, Done)
                if isinstance(plan, Blocked) and plan.code in (1, 3, 8):
                    self.record()
                    if self.machine.ready():
                        done += isinstance(self.step(worker, self.machine.ready()[0]), Done)
        yield f"freed {done}"


class Shell(Steps):
    """Looks, breaks and watches, and whole lines."""

    def do_print(self, *words):
        object, name = self.global_object(*words) if len(words) == 1 else self.seen_object(self.worker(words[0]), words[1])
        self.record()
        yield f"{name} = {self.machine.get(object)}"

    def do_where(self, worker):
        worker = self.worker(worker)
        self.record()
        control, context, line = self.machine.get(("control", worker)), self.machine.top(worker), self.machine.line(worker)
        if control[0] == "idle":
            yield f"worker {worker} idle"
        elif control[0] == "ended":
            yield f"worker {worker} ended {control[1]}"
        elif control[0] == "fault":
            yield f"worker {worker} fault F{control[1]} line {line}"
        else:
            place = f"task {name_text(context.task)} team {name_text(context.team)}"
            yield f"worker {worker} {place} number {context.number} of {context.size} line {line}"

    def do_history(self):
        self.record()
        for entry in self.machine.entries:
            yield f"#{entry.serial} worker {entry.worker} line {entry.line}"
        if not self.machine.entries:
            yield "no steps"

    def do_events(self, worker):
        worker = self.worker(worker)
        self.record()
        yield from self.machine.get(("events", worker))

    def do_output(self):
        self.record()
        output = self.machine.get(("output",))
        yield b"output %d bytes\n" % len(output) + output + b"\n"

    def do_tasks(self):
        self.record()
        for name in self.machine.ready():
            yield f"ready {name_text(name)} line {self.machine.get(('task', name)).line}"
        if not self.machine.ready():
            yield "no tasks"

    def do_break(self, line):
        line = self.number(line)
        self.breaks.add(line)
        yield f"break {line}"

    def do_delete(self, line):
        line = self.number(line)
        yield f"deleted {line}" if line in self.breaks else f"no break {line}"
        self.breaks.discard(line)

    def do_watch(self, word):
        object, name = self.global_object(word)
        if (name, object) not in self.watches:
            self.watches.append((name, object))
        yield f"watch {name}"

    def do_quit(self, *_):
        raise Bad

    def line(self, line):
        """Answers one line; False at `quit`."""
        if len(line) > LONGEST_LINE:
            self.write(b"H2 bad argument\n")
            return True
        words = [word.decode("latin-1") for word in line.split(b" ") if word]
        if not words:
            return True
        command = getattr(self, "do_" + words[0], None) if re.fullmatch("[a-z]+", words[0]) else None
        if command is None:
            self.write(b"H1 unknown command\n")
            return True
        try:
            if words == ["quit"]:
                return False
            if len(words) - 1 not in NUMBERS_OF_WORDS.get(words[0], (1,)):
                raise Bad
            for answer in command(*words[1:]):
                self.write(answer if isinstance(answer, bytes) else answer.encode() + b"\n")
        except Bad:
            self.write(b"H2 bad argument\n")
        except Full:
            self.write(b"full\n")
        return True
