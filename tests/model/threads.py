"""One step of a worker of the model, in teams, worksharing, regions and tasks: docs/MACHINE.md, from "Teams and barriers" on."""
from serial import Serial
from values import Blocked, Context, Fault, Frame, IDLE, LONGEST_NAME, Ready, SCHEDULING_POINTS, Work, iterations, name_text

# Numbers of OMPT (docs/MACHINE.md, "Event records"; OpenMP 5.2, 19.4)
BEGIN, END = 1, 2
IMPLICIT, EXPLICIT = 2, 4
COMPLETE, YIELDED, SWITCHED = 1, 2, 7
BARRIER, TASKWAIT, TASKGROUP, END_OF_PARALLEL = 3, 5, 6, 9
LOOP, SECTIONS, SINGLE_RUN, SINGLE_OTHER = 1, 2, 3, 4
CRITICAL = 5


class Teams(Serial):
    """Teams and barriers."""

    def do_fork(self, body, is_sized):
        """OpenMP 5.2, 10.1: a team is made, with member i on worker i."""
        context, machine = self.context, self.machine
        values = self.take(len(body.copied))
        size = machine.workers
        if is_sized:
            asked = self.operands.pop()
            if asked <= 0:
                raise Fault(8)
            size = min(asked, size)
        size = 1 if context.level == 1 else size
        if len(context.task) + 2 > LONGEST_NAME:
            raise Fault(10)
        controls = [("control", worker) for worker in range(1, size)]
        self.footprint += [(control, "W") for control in controls]
        busy = [control[1] for control in controls if machine.get(control) != IDLE]
        if busy:
            raise Blocked(4, busy[0])
        members = self.members(body, values, size)
        for control, member in zip(controls, members[1:]):
            self.put(control, ("run", (member,)))
        self.record(3, "parallel_begin", name_text(context.task), name_text(members[0].team), size)
        run, stack = self.went_on(births=context.births + 1)
        return run, stack + (members[0],)

    def members(self, body, values, size):
        context = self.context
        team, homes, level = context.task + (context.births + 1,), self.homes(body), 1 if size > 1 else context.level
        members = []
        for number in range(size):
            frame = Frame(body, 0, 0, (), homes)
            members.append(Context(team + (number,), "implicit", team, number, size, level, 0, 0, 0, 1, (), (frame,), None))
            for slot, value in zip(body.copied, values):
                self.write(("cell", team + (number,), 0, slot, 0), value)
        return members

    def do_begin(self):
        self.record(7, "implicit_task", BEGIN, *self.team_and_task(), self.context.size, self.context.number, IMPLICIT)

    def do_arrive(self, kind):
        context = self.context
        if kind == BARRIER:
            self.check_placement()
        self.write(("arrived", context.team, context.number), context.phase + 1)
        self.record(23, "sync_region", kind, BEGIN, *self.team_and_task())

    def do_depart(self, kind):
        self.wait_for_team()
        self.record(23, "sync_region", kind, END, *self.team_and_task())
        return {"phase": self.context.phase + 1}

    def do_leave(self):
        """The end of a `parallel` (OpenMP 5.2, 15.3.2): its first thread goes on alone."""
        context = self.context
        self.wait_for_team()
        self.end_cells()
        self.record(23, "sync_region", END_OF_PARALLEL, END, "-", name_text(context.task))
        self.record(7, "implicit_task", END, "-", name_text(context.task), 0, context.number, IMPLICIT)
        if context.number:
            return IDLE
        self.record(4, "parallel_end", name_text(context.team), name_text(self.stack[-2].task))
        return "run", self.stack[:-1]


class Sharing(Teams):
    """Worksharing (OpenMP 5.2, chapter 11), `masked` (10.5) and `critical` (15.2)."""

    def opened(self, work):
        counted = 1 if work.kind > SECTIONS else work.count
        self.record(20, "work", work.kind, BEGIN, *self.team_and_task(), counted)
        return {"constructs": self.context.constructs + (("work", work),), "regions": self.context.regions + 1}

    def work(self):
        return self.context.constructs[-1][1]

    def changed(self, **changes):
        return {"constructs": self.context.constructs[:-1] + (("work", self.work()._replace(**changes)),)}

    def closed(self):
        return {"constructs": self.context.constructs[:-1]}

    def do_loop(self, comparison, step, schedule, chunk):
        self.check_placement()
        lower, upper = self.take(2)
        count = iterations(comparison, lower, upper, step)
        if schedule == "dynamic":
            chunk = chunk or 1
        return self.opened(Work(LOOP, self.context.regions, count, lower, step, schedule, chunk, 0, 0, 0))

    def do_sect(self, number):
        self.check_placement()
        return self.opened(Work(SECTIONS, self.context.regions, number, 0, 1, "dynamic", 1, 0, 0, 0))

    def do_grab(self, place):
        """The next chunk (docs/MACHINE.md, "Chunks"; OpenMP 5.2, 11.5.3)."""
        work, number, size = self.work(), self.context.number, self.context.size
        if work.schedule == "dynamic":
            given = ("work", self.context.team, work.region)
            begin = self.read(given, "W")
            end = min(begin + work.chunk, work.count)
            if begin < work.count:
                self.put(given, end)
        elif work.chunk:
            begin = (work.taken * size + number) * work.chunk
            end = min(begin + work.chunk, work.count)
        else:
            each, more = divmod(work.count, size)
            begin = number * each + min(number, more)
            end = begin + each + (number < more) if work.taken == 0 else begin
        if begin >= end:
            self.next = place
            return {}
        # Which chunk is next is told by what this thread has taken under a static schedule, and by the team's number under a dynamic one.
        return self.changed(taken=work.taken + (work.schedule != "dynamic"), current=begin, end=end)

    def do_iter(self, slot, place):
        work = self.work()
        if work.current >= work.end:
            self.next = place
            return {}
        self.store(self.cell(("slot", slot)), work.lower + work.current * work.step)
        return self.changed(current=work.current + 1)

    def do_pick(self, places):
        self.next = places[self.work().current]

    def do_single(self, place):
        self.check_placement()
        taken = ("work", self.context.team, self.context.regions)
        is_first = self.read(taken, "W") == 0
        if is_first:
            self.put(taken, 1)
        else:
            self.next = place
        kind = SINGLE_RUN if is_first else SINGLE_OTHER
        return self.opened(Work(kind, self.context.regions, 1, 0, 1, None, None, 0, 0, 0))

    def do_endw(self):
        work = self.work()
        self.record(20, "work", work.kind, END, *self.team_and_task(), 1 if work.kind > SECTIONS else work.count)
        return self.closed()

    def do_masked(self, place):
        self.touch_records()
        if self.operands.pop() != self.context.number:
            self.next = place
            return {}
        self.record(21, "masked", BEGIN, *self.team_and_task())
        return {"constructs": self.context.constructs + (("masked",),)}

    def do_endm(self):
        self.record(21, "masked", END, *self.team_and_task())
        return self.closed()

    def do_cracq(self, lock):
        self.record(26, "mutex_acquire", CRITICAL, lock)

    def do_crin(self, lock):
        holder = self.read(("lock", lock), "W")
        if holder is not None:
            raise Blocked(2, holder)
        self.put(("lock", lock), self.worker)
        self.record(27, "mutex_acquired", CRITICAL, lock)
        return {"constructs": self.context.constructs + (("critical",),)}

    def do_crout(self, lock):
        self.write(("lock", lock), None)
        self.record(17, "mutex_released", CRITICAL, lock)
        return self.closed()


class Tasks(Sharing):
    """Tasks (OpenMP 5.2, chapter 12), `taskgroup` and `taskwait` (15.4, 15.5), and the end of `main`."""

    def do_spawn(self, body):
        context = self.context
        if len(context.task) + 1 > LONGEST_NAME:
            raise Fault(10)
        new, group = context.task + (context.births + 1,), self.innermost_group()
        values, line = self.take(len(body.copied)), self.frame.body.lines[self.frame.next]
        self.write(("task", new), Ready(body, line, self.homes(body), context.team, context.phase, group))
        for slot, value in zip(body.copied, values):
            self.write(("cell", new, 0, slot, 0), value)
        self.count(context.task, group, 1)
        self.record(5, "task_create", name_text(context.task), name_text(new), EXPLICIT)
        return {"births": context.births + 1}

    def count(self, parent, group, number):
        """One unfinished task more or less of its parent, of its team's phase, and of its group."""
        self.add(("children", parent), number)
        self.add(("pending", self.context.team, self.context.phase), number)
        if group:
            self.add(("group", group), number)

    def do_tend(self):
        context = self.context
        self.write(("task", context.task), "done")
        self.end_cells()
        self.count(context.task[:-1], context.group, -1)
        self.record(6, "task_schedule", name_text(context.task), COMPLETE, name_text(self.stack[-2].task))
        return "run", self.stack[:-1]

    def do_twb(self):
        self.record(23, "sync_region", TASKWAIT, BEGIN, *self.team_and_task())

    def do_twe(self):
        if self.read(("children", self.context.task)):
            raise Blocked(3)
        self.record(23, "sync_region", TASKWAIT, END, *self.team_and_task())

    def do_yield(self):
        pass

    def do_tgb(self):
        context = self.context
        if len(context.task) + 1 > LONGEST_NAME:
            raise Fault(10)
        self.record(23, "sync_region", TASKGROUP, BEGIN, *self.team_and_task())
        births = context.births + 1
        return {"births": births, "constructs": context.constructs + (("group", context.task + (births,)),)}

    def do_tge(self):
        if self.read(("group", self.context.constructs[-1][1])):
            raise Blocked(8)
        self.record(23, "sync_region", TASKGROUP, END, *self.team_and_task())
        return self.closed()

    def do_fin(self, has_value):
        if self.read(("pending", (), self.context.phase)):
            raise Blocked(3)
        self.record(7, "implicit_task", END, "-", 0, 0, 1, 1)
        return "ended", self.operands[-1] if has_value else 0


def next_operation(context):
    return context.frames[-1].body.code[context.frames[-1].next][0]


class Step(Tasks):
    def instruction(self):
        """The control behind the worker's next instruction."""
        operation, *arguments = self.frame.body.code[self.frame.next]
        result = getattr(self, "do_" + operation.lower())(*arguments)
        return result if isinstance(result, tuple) else self.went_on(**(result or {}))

    def start(self, name):
        """The control behind the start of that task (docs/MACHINE.md, "Scheduling points"; OpenMP 5.2, 12.9)."""
        context = self.context
        if next_operation(context) not in SCHEDULING_POINTS:
            raise Blocked(7)
        for below in self.stack:
            is_descendant = len(name) > len(below.task) and name[:len(below.task)] == below.task
            if next_operation(below) not in ("DEPART", "LEAVE") and not is_descendant:
                raise Blocked(6)
        task = self.read(("task", name), "W")
        if not isinstance(task, Ready) or task.team != context.team:
            raise Blocked(6)
        self.put(("task", name), ("running", self.worker))
        frame = Frame(task.body, 0, 0, (), task.homes)
        new = Context(name, "explicit", task.team, context.number, context.size, context.level, task.phase, 0, 0, 1, (),
                      (frame,), task.group)
        status = YIELDED if next_operation(context) == "YIELD" else SWITCHED
        self.record(6, "task_schedule", name_text(context.task), status, name_text(name))
        return "run", self.stack + (new,)
