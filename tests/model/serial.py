"""One step of a worker of the model, in serial code: docs/MACHINE.md, "Instructions" and "Serial code"."""
import re
from instructions import OPERATIONS
from values import Blocked, DEAD, Fault, Frame, MOST_FRAMES, UNSET, int_or_fault, name_text, operate


class Footing:
    """What all instructions share: the objects that a step touches, its updates and its event records."""

    def __init__(self, machine, worker, stack):
        self.machine, self.worker, self.stack = machine, worker, stack
        self.context = stack[-1]
        self.frame = self.context.frames[-1]
        self.operands, self.next = list(self.frame.operands), self.frame.next + 1
        self.footprint, self.updates, self.records = [], [], None
        self.has_read = False             # whether what is decided from here on looks at the objects named

    def read(self, object, mode="R"):
        self.footprint.append((object, mode))
        self.has_read = True
        return self.machine.get(object)

    def write(self, object, value):
        self.footprint.append((object, "W"))
        self.put(object, value)

    def put(self, object, value):
        """Puts a value in an object that is named already."""
        self.updates.append((object, "put", value))

    def add(self, object, number):
        self.footprint.append((object, "A"))
        self.updates.append((object, "add", number))

    def touch_records(self):
        self.records = self.records or []

    def record(self, *words):
        """An event record (docs/MACHINE.md, "Event records"; OpenMP 5.2, 19.4 and 19.5)."""
        self.touch_records()
        self.records.append(" ".join(map(str, words)))

    def take(self, number):
        """The top operands, the lowest of them first."""
        rest = len(self.operands) - number
        values = self.operands[rest:]
        del self.operands[rest:]
        return values

    def cell(self, reference, index=0):
        kind, of = reference
        if kind == "global":
            return "global", of, index
        home = self.frame.homes[of]
        return ("cell", *home, index) if home else ("cell", self.context.task, self.frame.ordinal, of, index)

    def element(self, reference, index):
        """C17 6.5.6p8: an index outside of its array is F3."""
        kind, of = reference
        size = (of if kind == "global" else self.frame.body.region.slots[of][0]).size
        if not 0 <= index < size:
            raise Fault(3)
        return self.cell(reference, index)

    def load(self, cell, mode="R"):
        """C17 6.2.4p2 and 6.3.2.1p2: a cell whose frame has ended is F5, and one that nothing was put in is F4."""
        value = self.read(cell, mode)
        if value == DEAD:
            raise Fault(5)
        if value == UNSET:
            raise Fault(4)
        return value

    def store(self, cell, value):
        if self.read(cell, "W") == DEAD:
            raise Fault(5)
        self.put(cell, value)

    def end_cells(self):
        """The cells of the frame's own variables are dead (C17 6.2.4p2)."""
        for slot, (variable, _) in enumerate(self.frame.body.region.slots):
            if self.frame.homes[slot] is None:
                for index in range(1 if variable.size is None else variable.size):
                    self.write(("cell", self.context.task, self.frame.ordinal, slot, index), DEAD)

    def homes(self, body):
        """Where the cells of a body's slots lie that begins here: a shared slot has a home outside."""
        homes = []
        for variable, cells in body.region.slots:
            slot = self.frame.body.region.slot_of[variable] if cells == "shared" else None
            home = None if slot is None else self.frame.homes[slot] or (self.context.task, self.frame.ordinal, slot)
            homes.append(home)
        return tuple(homes)

    def went_on(self, **changes):
        """The control behind an instruction, with these changes of its context."""
        frame = self.frame._replace(next=self.next, operands=tuple(self.operands))
        return "run", self.stack[:-1] + (self.context._replace(frames=self.context.frames[:-1] + (frame,), **changes),)

    def team_and_task(self):
        return name_text(self.context.team), name_text(self.context.task)

    def check_placement(self):
        """OpenMP 5.2, 17.1: a barrier or worksharing region that is closely nested in another region is F9."""
        if self.context.kind == "explicit" or any(construct[0] != "group" for construct in self.context.constructs):
            raise Fault(9)

    def innermost_group(self):
        groups = [construct[1] for construct in self.context.constructs if construct[0] == "group"]
        return groups[-1] if groups else self.context.group

    def wait_for_team(self):
        """B1 until all members have arrived, and no task of the phase is pending (OpenMP 5.2, 15.3)."""
        context = self.context
        arrived = [self.read(("arrived", context.team, number)) for number in range(context.size)]
        if min(arrived) < context.phase + 1 or self.read(("pending", context.team, context.phase)):
            raise Blocked(1)


class Serial(Footing):
    """The table of serial code."""

    def do_const(self, value):
        self.operands.append(value)

    def do_dup(self):
        self.operands.append(self.operands[-1])

    def do_pop(self):
        self.operands.pop()

    def do_nop(self):
        pass

    def do_un(self, operation):
        value = self.operands.pop()
        self.operands.append(int(value == 0) if operation == "not" else int_or_fault(-value))

    def do_bin(self, operation):
        left, right = self.take(2)
        self.operands.append(operate(operation, left, right))

    def do_jmp(self, place):
        self.next = place

    def do_jz(self, place):
        if self.operands.pop() == 0:
            self.next = place

    def do_tnum(self):
        self.operands.append(self.context.number)

    def do_tsize(self):
        self.operands.append(self.context.size)

    def do_use(self):
        """C17 6.9.1p12: the value of a function that returned none is F6."""
        if self.operands[-1] is None:
            raise Fault(6)

    def do_load(self, reference):
        self.operands.append(self.load(self.cell(reference)))

    def do_store(self, reference, keep):
        value = self.operands[-1] if keep else self.operands.pop()
        self.store(self.cell(reference), value)

    def do_loadx(self, reference):
        self.operands.append(self.load(self.element(reference, self.operands.pop())))

    def do_storex(self, reference, keep):
        index, value = self.take(2)
        self.store(self.element(reference, index), value)
        if keep:
            self.operands.append(value)

    def do_clear(self, slot):
        size = self.frame.body.region.slots[slot][0].size
        for index in range(1 if size is None else size):
            self.write(self.cell(("slot", slot), index), UNSET)

    def do_call(self, function):
        """C17 6.5.2.2. More than 1,000 frames in a task are F7."""
        context = self.context
        if len(context.frames) >= MOST_FRAMES:
            raise Fault(7)
        for slot, value in enumerate(self.take(function.parameters)):
            self.write(("cell", context.task, context.frames_made, slot, 0), value)
        homes = (None,) * len(function.body.region.slots)
        new = Frame(function.body, 0, context.frames_made, (), homes)
        frame = self.frame._replace(next=self.next, operands=tuple(self.operands))
        frames = context.frames[:-1] + (frame, new)
        return "run", self.stack[:-1] + (context._replace(frames_made=context.frames_made + 1, frames=frames),)

    def do_ret(self):
        return self.end_frame(self.operands.pop())

    def do_retn(self):
        return self.end_frame(None)

    def end_frame(self, value):
        self.end_cells()
        frames = self.context.frames
        back = frames[-2]._replace(operands=frames[-2].operands + (value,))
        return "run", self.stack[:-1] + (self.context._replace(frames=frames[:-2] + (back,)),)

    def do_print(self, text, number):
        """C17 7.21.6.1, with `%d` and `%%`."""
        values = self.take(number)
        printed = re.sub(rb"%[d%]", lambda found: b"%" if found.group() == b"%%" else b"%d" % values.pop(0), text)
        self.put(("output",), self.read(("output",), "W") + printed)

    def do_atom(self, operation, side, reference):
        value = self.operands.pop()
        self.update(operation, side, value, self.cell(reference))

    def do_atomx(self, operation, side, reference):
        index, value = self.take(2)
        self.update(operation, side, value, self.element(reference, index))

    def update(self, operation, side, value, cell):
        """OpenMP 5.2, 15.8.4: the read and the write of an update are one."""
        old = self.load(cell, "W")
        self.put(cell, operate(operation, old, value) if side == "left" else operate(operation, value, old))

    def do_red(self, operator, slot, reference):
        """OpenMP 5.2, 5.5.5: the copy is combined with the original."""
        copy, original = self.cell(("slot", slot)), self.cell(reference)
        own, old = self.read(copy), self.read(original, "W")
        if DEAD in (own, old) or UNSET in (own, old):
            raise Fault(5 if DEAD in (own, old) else 4)
        if operator in ("max", "min"):
            self.put(original, max(old, own) if operator == "max" else min(old, own))
        else:
            self.put(original, operate(OPERATIONS[operator], old, own))
