"""All schedules of a program in the model: each state that can be reached, by trying each step at each state, and what is found there.

docs/HUNTING.md, "All schedules", says what ends, faults and meetings are. Nothing is left out of a state, and no step is spared: a
state is closed once each worker's next instruction and the start of each ready task were tried at it.
"""
from collections import namedtuple
from history import DEFAULTS, Machine
from values import Blocked, Done, Ready, SCHEDULING_POINTS, name_text

READS, WRITES, ENDS = "reads", "writes", "ends"
LIFE_ENDS = ("CLEAR", "RET", "RETN", "LEAVE", "TEND")
UPDATES = ("ATOM", "ATOMX")
AWAITED = {1: " at a barrier", 3: " for tasks that it made", 8: " for tasks of its taskgroup"}
# What names a variable that it loads, stores or updates.
NAMING = ("LOAD", "STORE", "LOADX", "STOREX", *UPDATES, "RED")
# A step that can be made: who makes it, the task that it starts or None, its line, its operation, the local variable that its
# instruction names or None, and what it touches.
Move = namedtuple("Move", "worker choice line operation named is_atomic plan")
# What is found in all schedules. `is_trapped` says that from some state no steps lead to an end, `goes_round` that some steps lead from
# a state back to it; `states` and `steps` are how many there were.
Found = namedtuple("Found", "is_complete ends faults meetings is_trapped goes_round states steps")


class Walker(Machine):
    """A machine that stands at a state, which is a row of numbers: of each object the number of its value, 0 of its default."""

    def __init__(self, program, workers):
        self.objects, self.places, self.values, self.numbers, self.tasks = [], {}, [None], {}, []
        super().__init__(program, workers)
        self.locks = program.locks
        self.row = self.row_behind((), [(object, "put", value) for object, value in self.state.items()])

    def default(self, object):
        return DEFAULTS.get(object[0], 0)

    def get(self, object):
        place = self.places.get(object)
        number = self.row[place] if place is not None and place < len(self.row) else 0
        return self.values[number] if number else self.default(object)

    def number_of(self, object, value):
        if value == self.default(object):
            return 0
        number = self.numbers.get(value)
        if number is None:
            number = self.numbers[value] = len(self.values)
            self.values.append(value)
        return number

    def place_of(self, object):
        if object not in self.places:
            self.places[object] = len(self.objects)
            self.objects.append(object)
            if object[0] == "task":
                self.tasks.append(object)
        return self.places[object]

    def row_behind(self, row, updates):
        """The row that these updates leave, with no zeros at its end."""
        self.row, behind = row, list(row)
        for object, kind, value in updates:
            place = self.place_of(object)
            behind += [0] * (place + 1 - len(behind))
            behind[place] = self.number_of(object, value if kind == "put" else self.get(object) + value)
        while behind and behind[-1] == 0:
            behind.pop()
        return tuple(behind)

    def moves(self):
        """Each step that can be made here."""
        found = []
        for worker in range(self.workers):
            context = self.top(worker)
            if self.get(("control", worker))[0] != "run":
                continue
            frame = context.frames[-1]
            operation = frame.body.code[frame.next][0]
            choices = [None]
            if operation in SCHEDULING_POINTS:
                choices += [object[1] for object in self.tasks if isinstance(self.get(object), Ready)]
            for choice in choices:
                plan = self.plan(worker, choice)
                if isinstance(plan, Done):
                    is_atomic = operation in UPDATES or frame.next in frame.body.atomic
                    named = local_named(frame.body, frame.next) if choice is None else None
                    found.append(Move(worker, choice, plan.line, operation if choice is None else None, named, is_atomic, plan))
        return found

    def run(self):
        """Steps, each by the least worker that has one: its next, else the start of the least task. A fault ends them."""
        while not self.faults():
            moves = self.moves()
            if not moves:
                return
            own = [move for move in moves if move.worker == moves[0].worker]
            move = min(own, key=lambda move: (move.choice is not None, move.choice or ()))
            self.row = self.row_behind(self.row, move.plan.updates)

    def faults(self):
        """(fault, worker, line) of each worker that has met one."""
        controls = [(worker, self.get(("control", worker))) for worker in range(self.workers)]
        return [(control[1], worker, self.line(worker)) for worker, control in controls if control[0] == "fault"]

    def waiting(self, worker):
        plan = self.plan(worker)
        if plan.code == 2:
            why = f" for {region_text(self.lock_before(worker))}, held by worker {plan.by}"
        else:
            why = f" for worker {plan.by}" if plan.code == 4 else AWAITED[plan.code]
        return f"; worker {worker} waits in line {self.line(worker)}{why}"

    def ending(self):
        """What is told of this state, at which no step can be made."""
        faults, control = self.faults(), self.get(("control", 0))
        printed = f', printed "{quoted(self.get(("output",)))}"'
        if faults:
            return ", ".join(map(fault_text, faults)) + printed
        running = [worker for worker in range(self.workers) if self.get(("control", worker))[0] == "run"]
        if control[0] == "ended" and not running:
            return f"ended {control[1]}{printed}"
        # Where `main` has ended and another thread waits, a barrier was not met by all (OpenMP 5.2, 15.3.1).
        return "stuck" + printed + "".join(map(self.waiting, running))


    def regions_of(self, worker):
        """The critical regions that a worker is in, in words. The locks come in the order in which their names stand in the source."""
        locks = [name for name in self.locks if self.get(("lock", name)) == worker]
        return "".join(f" in {region_text(name)}" for name in locks)

    def lock_before(self, worker):
        """The name of the critical region before which a worker stands."""
        frame = self.top(worker).frames[-1]
        return frame.body.code[frame.next][1]


def region_text(name):
    return "critical" if name == "-" else f"critical ({name})"


def fault_text(fault):
    return "fault F{} of worker {} in line {}".format(*fault)


def quoted(output):
    text = output.decode()
    for character, written in (("\\", "\\\\"), ("\n", "\\n"), ("\r", "\\r"), ('"', '\\"')):
        text = text.replace(character, written)
    return text


def are_ordered(first, second):
    """Whether two accesses are no race, since both are atomic (OpenMP 5.2, 1.4.1 and 15.8.4), or both end a reduction (5.5)."""
    return first.is_atomic and second.is_atomic or first.operation == second.operation == "RED"


def local_named(body, place):
    """The local variable that an instruction names. One that combines a copy names the copy."""
    operation, *arguments = body.code[place]
    references = [argument for argument in arguments if isinstance(argument, tuple) and argument[0] == "slot"]
    if operation not in NAMING or not references:
        return None
    slot = arguments[1] if operation == "RED" else references[0][1]
    return body.region.slots[slot][0]


def variable_text(object, first, second):
    """A variable by its name, with the index in an array. A local one that neither step names is told as a cell."""
    if object[0] == "global":
        return Machine.text_of(object).replace("global ", "")
    variable = first.named or second.named
    if variable is None:
        return Machine.text_of(object)
    owner = "" if name_text(object[1]) == "0" else f" of task {name_text(object[1])}"
    return variable.name + ("" if variable.size is None else f"[{object[-1]}]") + owner


def accesses(move):
    """The variable of each access of a step, and what is done to it there."""
    for object, mode in move.plan.footprint:
        if object[0] in ("global", "cell"):
            kind = READS if mode == "R" else ENDS if move.operation in LIFE_ENDS else WRITES
            yield object, kind


def meetings_of(first, second):
    """The pairs of accesses of two steps that meet: two times a line and a kind, the lesser first, and the variable."""
    if first.worker == second.worker or are_ordered(first, second):
        return
    for object, kind in accesses(first):
        for other, other_kind in accesses(second):
            if object == other and (kind, other_kind) != (READS, READS):
                rank = (READS, WRITES, ENDS).index
                one, other_one = (first.line, rank(kind)), (second.line, rank(other_kind))
                steps = (first, second) if one <= other_one else (second, first)
                low, high = sorted([one, other_one])
                names = READS, WRITES, ENDS
                yield low[0], names[low[1]], high[0], names[high[1]], variable_text(object, *steps)


def explore(program, workers, most_states):
    """All that is found, or what was found so far where more states than these are met."""
    walker = Walker(program, workers)
    known, todo, before = {walker.row}, [walker.row], {}
    ends, faults, meetings, last, steps = set(), set(), set(), [], 0
    while todo:
        row = walker.row = todo.pop()
        moves = walker.moves()
        faults.update(walker.faults())
        for place, move in enumerate(moves):
            for other in moves[:place]:
                meetings.update(meetings_of(move, other))
        if not moves:
            ends.add(walker.ending())
            last.append(row)
        for move in moves:
            steps += 1
            behind = walker.row_behind(row, move.plan.updates)
            before.setdefault(behind, []).append(row)
            if behind not in known:
                if len(known) == most_states:
                    return Found(False, ends, faults, meetings, False, False, len(known), steps)
                known.add(behind)
                todo.append(behind)
    is_trapped = len(leading_to(last, before)) < len(known)
    return Found(True, ends, faults, meetings, is_trapped, has_round(known, before), len(known), steps)


def has_round(known, before):
    """Whether steps lead from a state back to it: not all states are gone, if those without a further step are taken away again and again."""
    left = dict.fromkeys(known, 0)
    for rows in before.values():
        for row in rows:
            left[row] += 1
    todo, gone = [row for row in known if not left[row]], 0
    while todo:
        gone += 1
        for row in before.get(todo.pop(), ()):
            left[row] -= 1
            if not left[row]:
                todo.append(row)
    return gone < len(known)


def leading_to(last, before):
    """The states from which some steps lead to one of these."""
    leading, todo = set(last), list(last)
    while todo:
        for row in before.get(todo.pop(), ()):
            if row not in leading:
                leading.add(row)
                todo.append(row)
    return leading


def walked(program, workers, blocks):
    """The machine behind a path: blocks of steps (worker, how many), and starts (worker, task)."""
    walker = Walker(program, workers)
    for worker, what in blocks:
        choices = [None] * what if isinstance(what, int) else [what]
        for choice in choices:
            plan = walker.plan(worker, choice)
            if not isinstance(plan, Done):
                return None
            walker.row = walker.row_behind(walker.row, plan.updates)
    return walker
