"""Random sources for the model and the program: teams, worksharing, tasks, locks, reductions, recursion and faults of the run."""

HEADERS = "#include <stdio.h>\n#include <omp.h>\n"
DENSE_FRONT = (HEADERS + "int g0, g1 = 1, g2;\nint ga[3];\nint f0(int p0) {\n#pragma omp task shared(p0)\np0 = p0 + 1;\nreturn p0; }\n"
               "int main(void)\n{ int m = 3, u;\n#pragma omp parallel ")
# Each slash stands for a line end.
DENSE_PARTS = [part.replace("/", "\n") for part in (
    "g0 = g0 + 1;", 'printf("%d", omp_get_thread_num());', "#pragma omp critical/g0++;", "#pragma omp critical (a)/ga[1]++;",
    "#pragma omp atomic/ga[omp_get_thread_num() % 3] += 2;", "#pragma omp task/g1 = m;", "#pragma omp task firstprivate(m)/{ m++; g2 += m; }",
    "#pragma omp taskgroup/{/#pragma omp task/{ g1++;/#pragma omp task/;/}/}", "#pragma omp single nowait/m = 4;", "#pragma omp single/;",
    "#pragma omp for schedule(dynamic) nowait/for (int i = 0; i < 3; i++) ga[i] += m;",
    "#pragma omp for reduction(+:g1)/for (int i = 3; i > 0; i--) g1 += i;",
    "#pragma omp masked/{/#pragma omp task shared(m)/m--;/#pragma omp taskwait/}", "#pragma omp barrier", "#pragma omp taskyield",
    "#pragma omp taskwait", "g2 = f0(m);", "if (omp_get_thread_num()) u = m; else m = u;",
    "#pragma omp sections/{ g0 = 1;/#pragma omp section/g0 = 2; }",
    "#pragma omp parallel num_threads(3)/{ m += omp_get_num_threads();/#pragma omp task/m = 1;/}", "#pragma omp atomic read/m = g0;",
    "for (int i = 0; i < 2; i++) g1 *= m;")]


class Writer:
    """The text, the names in scope, and what chance picks."""

    def __init__(self, chance):
        self.chance, self.names_made, self.parts = chance, 0, []
        self.scalars, self.arrays, self.functions = ["g0", "g1", "g2"], [("ga", 3), ("gb", 1)], []

    def pick(self, *choices):
        return self.chance.choice(choices)

    def happens(self, probability):
        return self.chance.random() < probability

    def fresh(self):
        self.names_made += 1
        return f"v{self.names_made % 7}" if self.happens(.3) else f"w{self.names_made}"

    def put(self, part):
        self.parts.append(part)

    def pragma(self, words):
        self.put(f"\n#pragma omp {words}\n")

    def scoped(self, write):
        scalars, arrays = list(self.scalars), list(self.arrays)
        write()
        self.scalars, self.arrays = scalars, arrays

    def text(self):
        text = ""
        for part in self.parts:
            if part.startswith("\n#") and text.endswith("\n"):
                part = part[1:]
            text += part + ("" if part.endswith("\n") else self.pick(" ", " ", "\n"))
        return text


class Expressions(Writer):
    def place(self):
        """A variable or an element; one index in fifty may be outside of its array."""
        if self.happens(.25):
            array, size = self.chance.choice(self.arrays)
            index = str(self.chance.randrange(size + self.happens(.02)))
            return f"{array}[{self.pick(index, index, index, f'omp_get_thread_num() % {size}', f'(g1 > 0) * {size - 1}')}]"
        return self.chance.choice(self.scalars[-6:])

    def constant(self):
        return self.pick("0", "1", "2", "3", "7", "0x10", "010", "N", "2147483647" if self.happens(.2) else "5")

    def inner(self, depth, operators):
        return f"{self.expression(depth - 1)} {self.pick(*operators)} {self.expression(depth - 1)}"

    def arithmetic(self):
        division = "/" if self.happens(.3) else "+"
        remainder = "%" if self.happens(.3) else "-"
        return "+", "-", "*", "+", "-", division, remainder

    def expression(self, depth=2):
        kind = self.chance.randrange(16) if depth else self.chance.randrange(5)
        if kind < 2:
            return self.constant()
        if kind < 4:
            return self.place()
        if kind == 4:
            return self.pick("omp_get_thread_num()", "omp_get_num_threads()", self.constant())
        if kind < 9:
            return self.inner(depth, self.arithmetic())
        if kind == 9:
            return f"({self.expression(depth - 1)})"
        if kind == 10:
            return f"({self.inner(depth, ('<', '>', '<=', '>=', '==', '!='))})"
        if kind == 11:
            return f"({self.inner(depth, ('&&', '||'))})"
        if kind == 12:
            return f"({self.expression(depth - 1)} ? {self.inner(depth, (':',))})"
        if kind == 13:
            return self.pick(f"-{self.place()}", f"!{self.place()}", f"+{self.place()}", f"- {self.constant()}")
        if kind == 14:
            changed = f"({self.place()} {self.pick('=', '+=', '-=')} {self.expression(depth - 1)})"
            return self.pick(f"{self.place()}++", f"--{self.place()}", changed)
        return self.call(depth - 1) if self.functions else self.constant()

    def call(self, depth):
        name, number = self.chance.choice(self.functions)
        return f"{name}({', '.join(self.expression(depth) for _ in range(number))})"


class Statements(Expressions):
    """Statements. `around` says what may stand here: worksharing, a task, a loop to leave, a `return`."""

    def block(self, depth, around):
        def inside():
            for _ in range(self.chance.randrange(1, 4)):
                self.item(depth, around)
        self.put("{")
        self.scoped(inside)
        self.put("}")

    def item(self, depth, around):
        kind = self.chance.randrange(12)
        if kind == 0:
            name = self.fresh()
            self.put(f"int {name} = {self.expression(1)};" if self.happens(.98) else f"int {name};")
            self.scalars.append(name)
        elif kind == 1 and self.happens(.4):
            name = self.fresh()
            # The cells of the larger ones are named at once where the array begins and ends.
            self.put(f"int {name}[{self.pick(2, 2, 9, 40)}]; {name}[0] = 1; {name}[1] = 2;")
            self.arrays.append((name, 2))
        elif kind == 2:
            is_nested = around["worksharing"] or around["task"]
            self.pragma(self.pick("taskwait", "taskyield", "flush" if is_nested else "barrier"))
        else:
            self.statement(depth, around)

    def simple(self):
        kind = self.chance.randrange(8)
        if kind < 3:
            self.put(f"{self.place()} {self.pick('=', '=', '+=', '-=', '*=')} {self.expression()};")
        elif kind == 3:
            self.put(f"{self.pick('++', '--', '')}{self.place()};")
        elif kind == 4:
            self.put(f"{self.place()}++;")
        elif kind == 5:
            self.put(f'printf("%d{self.pick(" ", ",", "%%", "")}", {self.expression(1)});')
        elif kind == 6 and self.functions:
            self.put(f"{self.call(1)};")
        else:
            self.put(f"{self.expression(1)};" if self.happens(.5) else ";")

    def statement(self, depth, around):
        kind = self.chance.randrange(22) if depth > 0 else 0
        inside = depth - 1
        if kind < 5:
            self.simple()
        elif kind == 5:
            self.put(f"if ({self.expression(1)})")
            self.block(inside, around)
            if self.happens(.5):
                self.put("else")
                self.statement(inside, around)
        elif kind < 9:
            self.serial_loop(kind, inside, dict(around, loop=True))
        elif kind == 9:
            self.block(inside, around)
        elif kind == 10 and around["loop"]:
            self.put(f"if ({self.expression(1)}) {self.pick('break', 'continue')};")
        elif kind == 11 and around["return"]:
            self.put(f"if ({self.expression(1)}) return {self.expression(1)};")
        else:
            self.construct(inside, {**around, "loop": False, "return": False})

    def serial_loop(self, kind, depth, around):
        if kind == 6:
            name = self.fresh()
            self.put(f"for (int {name} = 0; {name} < {self.pick('2', '3')}; {name}++)")
            self.scoped(lambda: (self.scalars.append(name), self.block(depth, around)))
        elif kind == 7:
            place = self.place()
            self.put(f"{place} = {self.pick('2', '3')}; while ({place} > 0)")
            self.put("{" + f"{place} -= 1;")
            self.statement(depth, around)
            self.put("}")
        else:
            self.put("do")
            self.statement(depth, around)
            self.put(f"while ({self.expression(1)} < {self.pick('0', '1')});")


class Program(Statements):
    """Constructs, functions and whole sources."""

    def clauses(self, kinds):
        used, written = set(), []
        for _ in range(self.chance.randrange(3)):
            kind, name = self.chance.choice(kinds), self.chance.choice(self.scalars)
            if name in used:
                continue
            used.add(name)
            written.append(f"reduction({self.pick('+', '*', 'max', 'min')}:{name})" if kind == "reduction" else f"{kind}({name})")
        return self.pick(" ", ", ").join(written)

    def kind_of_construct(self, around):
        parallel = ("parallel", "parallel", "parallel", "parallel for", "parallel sections")
        shared = ("parallel for", "parallel sections")
        if not around["worksharing"] and not around["task"]:
            shared = ("for", "for", "sections", "single", "single")
        kind = self.pick("parallel", "parallel", "task", "task", "task", "atomic", "critical", "masked", "taskgroup", *shared)
        return kind if any("parallel" in part for part in self.parts) else self.pick(*parallel, kind)

    def words_of(self, kind):
        """The clauses of a construct."""
        copies = ("private", *["firstprivate"] * 12)
        if kind.startswith("parallel"):
            size = self.pick("", "", "num_threads(2) ", "num_threads(g1 + 1) ", "num_threads(3) ")
            data = self.clauses(("shared", "shared", "reduction", "reduction", *copies))
            words = size + data + self.pick("", "", " default(shared)")
        elif kind == "task":
            words = self.clauses((*["shared", "firstprivate"] * 7, "private")) + self.pick("", "", "", " default(shared)")
        elif kind in ("for", "sections"):
            words = self.clauses((*["reduction"] * 6, *copies)) + self.pick("", " nowait")
        elif kind == "single":
            words = self.clauses(copies) + self.pick("", " nowait")
        else:
            words = {"critical": self.pick("", "(a)", "(b)"),
                     "masked": self.pick("", f"filter({self.expression(1)})", "filter(1)")}.get(kind, "")
        if kind.endswith("for"):
            words += self.pick("", " schedule(static)", " schedule(static, 2)", " schedule(dynamic)", " schedule(dynamic, 2)",
                               " schedule(static, 1)")
        return words

    def construct(self, depth, around):
        kind, inside = self.kind_of_construct(around), dict(around)
        if kind == "atomic":
            return self.atomic()
        if kind.startswith("parallel"):
            inside.update(worksharing=kind != "parallel", task=False)
        elif kind == "task":
            inside.update(task=True)
        elif kind != "taskgroup":
            inside.update(worksharing=True)
        self.pragma(f"{kind} {self.words_of(kind)}")
        if kind.endswith("for"):
            return self.loop(depth, inside)
        if kind.endswith("sections"):
            self.put("{")
            for number in range(self.chance.randrange(1, 4)):
                if number or self.happens(.5):
                    self.pragma("section")
                self.statement(depth, inside)
            return self.put("}")
        self.pick(self.block, self.block, self.statement)(depth, inside)

    def bound(self):
        return self.pick("3", "N", "5", "g1", "7", "0", "omp_get_num_threads()")

    def loop(self, depth, around):
        is_declared = self.happens(.6)
        name = self.fresh() if is_declared else self.chance.choice(self.scalars)
        begin, step = ("int " if is_declared else "") + name, self.pick("1", "2", "3")
        up = self.pick(f"{name}++", f"++{name}", f"{name} += {step}", f"{name} = {name} + {step}", f"{name} = {step} + {name}")
        down = self.pick(f"{name}--", f"--{name}", f"{name} -= {step}", f"{name} = {name} - {step}")
        rising = f"for ({begin} = {self.pick('0', '1', '-2')}; {name} {self.pick('<', '<=')} {self.bound()}; {up})"
        falling = f"for ({begin} = {self.bound()}; {name} {self.pick('>', '>=')} {self.pick('0', '-1', 'g2')}; {down})"
        self.put(self.pick(rising, falling))
        self.scoped(lambda: (is_declared and self.scalars.append(name), self.block(depth, around)))
        if self.happens(.15):
            self.parts.insert(-1, "if (g0) continue;")

    def atomic(self):
        place, value = self.place(), self.pick("1", "2", "g1", "ga[1]")
        other, operator = self.chance.choice(self.scalars), self.pick("+", "-", "*", "/")
        words, statement = self.pick(
            ("", f"{place}++"), ("update", f"--{place}"), ("", f"{place} {operator}= {value}"),
            ("", f"{place} = {place} {operator} {value}"), ("update", f"{place} = {value} {operator} {place}"),
            ("read", f"{other} = {place}"), ("write", f"{place} = {value}"), ("write", f"{place} = {self.expression(1)}"))
        self.pragma(f"atomic {words}{self.pick('', ' seq_cst', ' relaxed')}")
        self.put(f"{statement};")

    def function(self, name):
        parameters = [f"p{number}" for number in range(self.chance.randrange(1, 3))]

        def body():
            self.scalars += parameters
            self.put("if (p0 <= 0) return 1;")
            for _ in range(self.chance.randrange(1, 4)):
                self.item(2, {"worksharing": False, "task": False, "loop": False, "return": True})
            if self.happens(.5):
                self.put(f"{self.place()} = {name}({', '.join(['p0 - 2', *parameters[1:]])});")
            if self.happens(.9):
                self.put(f"return {self.expression(1)};")
        self.put(f"int {name}({', '.join('int ' + parameter for parameter in parameters)})\n{{")
        self.scoped(body)
        self.put("}\n")
        self.functions.append((name, len(parameters)))

    def source(self):
        """A source with any of the constructs, in one another."""
        self.put(HEADERS + "#define N 4\nint g0, g1 = 1;\nint g2 = -2;\nint ga[3], gb[1];\n")
        for number in range(self.chance.randrange(3)):
            self.function(f"f{number}")
        self.put("int main(void)\n{")
        if self.happens(.75):
            self.construct(3, {"worksharing": False, "task": True, "loop": False, "return": False})
        for _ in range(self.chance.randrange(2, 6)):
            self.item(3, {"worksharing": False, "task": False, "loop": False, "return": True})
        if self.happens(.5):
            self.put(f"return {self.expression(1)};")
        self.put("}\n")
        return self.text()

    def dense_source(self):
        """A source with a short body, in which the members of a team meet at the same objects."""
        front = DENSE_FRONT + self.pick("", "num_threads(2)", "firstprivate(m)", "reduction(+:g2)") + "\n{"
        parts = ["\n" + self.chance.choice(DENSE_PARTS) for _ in range(self.chance.randrange(2, 6))]
        behind = self.pick("", "#pragma omp parallel\n{ g0++; }\n", "#pragma omp task shared(m)\nm = 2;\n", 'printf("%d", g0);\n')
        return front + "".join(parts) + "\n}\n" + behind + "return m;\n}\n"
