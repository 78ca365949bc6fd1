"""The code of constructs in the model: docs/LANGUAGE.md, "The code of each form", the table of directives."""
from instructions import Body, OPERATIONS, STARTS, StatementCode, is_too_large
from tokens import Refused

# The kinds of event record 23 (docs/MACHINE.md, "Event records")
BARRIER, END_OF_WORKSHARING, END_OF_PARALLEL = 3, 8, 9


class Lowering(StatementCode):
    """The code of all functions of a resolved tree."""

    def lower(self):
        self.locks = []
        for item in self.resolved.functions:
            self.bodies = []
            item.function.body = self.function(item)
            if any(is_too_large(body) for body in self.bodies):
                raise Refused(11, item.name_place)
        return self

    def function(self, item):
        self.body, self.visible, self.loops = Body(item.region, []), [], []
        self.bodies.append(self.body)
        self.is_main = item.name == "main"
        for variable in item.variables:
            self.begin(variable)
        for part in item.body.items:
            self.statement(part)
        self.at_line = self.line(item.body.end)
        self.emit(*(("FIN", 0) if self.is_main else ("RETN",)))
        self.end(0)
        return self.body

    def inner(self, node, emit_body):
        """The body of a `parallel` or a `task`, behind the LOAD of each `firstprivate` original."""
        body = Body(node.region, self.body.outer + self.visible)
        self.bodies.append(body)
        saved = self.body, self.visible, self.loops
        for _, variable in sorted(node.region.copied, key=lambda pair: pair[0]):
            self.emit("LOAD", self.reference(variable))
        self.body, self.visible, self.loops = body, [], []
        for kind, _, copy, _ in node.copies:
            if kind != "reduction":
                self.begin(copy)
        emit_body()
        self.end(0)
        self.body, self.visible, self.loops = saved
        return body

    def directive(self, node, line):
        name = node.name
        alone = {"barrier": [("ARRIVE", BARRIER), ("DEPART", BARRIER)], "taskwait": [("TWB",), ("TWE",)],
                 "taskyield": [("YIELD",)], "flush": [("NOP",)]}
        if name in alone:
            for instruction in alone[name]:
                self.emit(*instruction)
        elif name == "critical":
            lock = node.argument or "-"
            self.locks += [] if lock in self.locks else [lock]
            self.enclosed(node, line, [("CRACQ", lock), ("CRIN", lock)], ("CROUT", lock))
        elif name == "taskgroup":
            self.enclosed(node, line, [("TGB",)], ("TGE",))
        elif name in ("masked", "master"):
            self.masked(node, line)
        elif name == "atomic":
            self.atomic(node)
        elif name == "task":
            self.task(node, line)
        elif name in ("for", "sections", "single"):
            is_nowait = any(clause.kind == "nowait" for clause in node.clauses)
            self.worksharing(node, name, node.copies, is_nowait, line)
        else:
            self.parallel(node, name, line)

    def enclosed(self, node, line, before, behind):
        for instruction in before:
            self.emit(*instruction)
        self.statement(node.body)
        self.at_line = line
        self.emit(*behind)

    def masked(self, node, line):
        for clause in node.clauses:
            self.value(clause.value)
        if not node.clauses:
            self.emit("CONST", 0)
        jump = self.emit("MASKED", None)
        self.statement(node.body)
        self.at_line = line
        self.emit("ENDM")
        self.patch(jump)

    def atomic(self, node):
        if node.form[0] != "update":
            self.store(node.body.value, 0)
            # The store comes last, and the load of what is read before it.
            self.body.atomic.add(self.here - 1 - (node.form[0] == "read"))
            return
        _, operator, side, target, value = node.form
        if target.kind == "index":
            self.value(target.index)
        if value:
            self.value(value)
        else:
            self.emit("CONST", 1)
        name = "ATOMX" if target.kind == "index" else "ATOM"
        self.emit(name, OPERATIONS[operator], side, self.reference(target.variable))

    def task(self, node, line):
        def body():
            self.statement(node.body)
            self.at_line = line
            self.emit("TEND")
        self.emit("SPAWN", self.inner(node, body))

    def parallel(self, node, name, line):
        sizes = [clause for clause in node.clauses if clause.kind == "num_threads"]
        for clause in sizes:
            self.value(clause.value)

        def body():
            self.emit("BEGIN")
            self.starts(node.copies, ("reduction",))
            if name == "parallel":
                self.statement(node.body)
            else:
                self.worksharing(node, name.split()[1], [], True, line)
            self.at_line = line
            self.reductions(node.copies)
            self.emit("ARRIVE", END_OF_PARALLEL)
            self.emit("LEAVE")
        self.emit("FORK", self.inner(node, body), len(sizes))

    def starts(self, copies, kinds):
        """What the copies of these kinds begin with, in the order of the clauses."""
        for kind, operator, copy, original in copies:
            if kind not in kinds:
                continue
            reference, place = self.reference(copy), self.here
            if kind == "private":
                self.emit("CLEAR", reference[1])
            else:
                if kind == "firstprivate":
                    self.emit("LOAD", self.reference(original))
                else:
                    self.emit("CONST", STARTS[operator])
                self.emit("STORE", reference, 0)
            self.begin(copy, place)

    def reductions(self, copies):
        for kind, operator, copy, original in copies:
            if kind == "reduction":
                self.emit("RED", operator, self.reference(copy)[1], self.reference(original))

    def worksharing(self, node, kind, copies, is_nowait, line):
        number = len(self.visible)
        {"single": self.single, "for": self.loop, "sections": self.sections}[kind](node, copies, line)
        self.reductions(copies)
        self.emit("ENDW")
        if not is_nowait:
            self.emit("ARRIVE", END_OF_WORKSHARING)
            self.emit("DEPART", END_OF_WORKSHARING)
        self.end(number)

    def all_starts(self, copies):
        self.starts(copies, ("private", "firstprivate", "reduction"))

    def single(self, node, copies, line):
        jump = self.emit("SINGLE", None)
        self.all_starts(copies)
        self.statement(node.body)
        self.at_line = line
        self.patch(jump)

    def loop(self, node, copies, line):
        form = node.loop
        self.at_line = self.line(node.body.place)
        self.value(form.lower)
        self.value(form.upper)
        self.at_line = line
        self.all_starts(copies)
        schedule = next((clause for clause in node.clauses if clause.kind == "schedule"), None)
        kind, chunk = (schedule.argument, schedule.chunk) if schedule else ("static", None)
        self.begin(node.loop_variable)
        self.emit("LOOP", form.comparison, form.step, kind, chunk)
        grab = self.emit("GRAB", None)
        iterate = self.emit("ITER", self.body.region.slot_of[node.loop_variable], grab)
        jumps = self.loop_body(node.body.statement, line)
        self.patch_all(jumps["continue"], iterate)
        self.emit("JMP", iterate)
        self.patch(grab)

    def sections(self, node, copies, line):
        self.all_starts(copies)
        self.emit("SECT", len(node.body))
        grab = self.emit("GRAB", None)
        pick = self.emit("PICK", [])
        for part in node.body:
            self.body.code[pick][1].append(self.here)
            for item in part.items:
                self.statement(item)
            self.at_line = line
            self.emit("JMP", grab)
        self.patch(grab)
