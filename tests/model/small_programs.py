"""Small random programs for `explore`: one `parallel` region of a few statements, whose states are few enough to be counted.

They share three variables and an array, and have each construct that orders accesses or does not: critical regions in one another,
atomic and plain accesses, barriers, loops, sections, `single`, tasks, copies of variables, and faults by an index or a divisor.
"""
from programs import HEADERS

ME = "omp_get_thread_num()"
GLOBALS = ["x", "y", "z"]


class Small:
    def __init__(self, chance):
        self.chance = chance

    def happens(self, probability):
        return self.chance.random() < probability

    def pick(self, *choices):
        return self.chance.choice(choices)

    def element(self):
        """An element, in one of 30 cases perhaps outside of the array."""
        return f"a[{self.pick('0', '1', ME, f'1 - {ME}', 'x' if self.happens(.1) else ME)}]"

    def place(self, own):
        return self.pick(*GLOBALS, *own, *own, self.element())

    def value(self, own):
        place = self.place(own)
        divided = f"6 / {place}" if self.happens(.2) else f"{place} + 2"
        return self.pick(place, f"{place} + 1", f"2 * {place}", ME, "1", "3", divided, f"{place} - {self.pick(*GLOBALS)}")

    def condition(self, own):
        return self.pick(f"{ME} == 0", ME, self.place(own), f"{self.place(own)} > 1", f"!{self.pick(*GLOBALS)}")

    def plain(self, own):
        place = self.place(own)
        return self.pick(f"{place} = {self.value(own)};", f"{place} = {self.value(own)};", f"{place}++;", f"{place} += {self.value(own)};",
                         f'printf("%d", {self.place(own)});', f"x = y && {self.place(own)};")

    def pragma(self, words, statement):
        return f"\n#pragma omp {words}\n{statement}"

    def atomic(self, own):
        place = self.pick(*GLOBALS, self.element())
        kind = self.pick("", " update", " read", " write", " read seq_cst", " write relaxed")
        if "read" in kind:
            return self.pragma("atomic" + kind, f"{self.pick(*own, 'z')} = {place};")
        if "write" in kind:
            return self.pragma("atomic" + kind, f"{place} = {self.value(own)};")
        other = self.pick("1", ME, *own)
        return self.pragma("atomic" + kind, self.pick(f"{place}++;", f"{place} += {other};", f"{place} = {other} - {place};"))

    def block(self, own, depth, around):
        return "{ " + " ".join(self.statement(own, depth - 1, around) for _ in range(self.pick(1, 1, 2))) + " }"

    def critical(self, own, depth, around):
        return self.pragma("critical" + self.pick("", "(p)", "(q)"), self.block(own, depth, around | {"critical"}))

    def task(self, depth, around):
        clause = self.pick("", "", " firstprivate(y)", " private(y)", " shared(x)")
        inside = self.pick(self.pragma("taskwait", ";"), "") if self.happens(.2) else ""
        if clause == " private(y)":
            inside = "y = 2; "
        return self.pragma("task" + clause, "{ " + inside + self.block([], depth, around | {"task"}) + " }\n")

    def loop(self, own, depth, around):
        clauses = self.pick("", "", " schedule(static, 1)", " schedule(dynamic)") + self.pick("", " nowait", " reduction(+: y)", " firstprivate(z)")
        low, high = self.pick(0, 0, 1), self.pick(1, 2, 2)
        head = self.pick(f"for (int i = {low}; i < {high}; i++)", f"for (int i = {high}; i > {low}; i -= 1)")
        return self.pragma("for" + clauses, f"{head} {self.block(own + ['i'] * self.happens(.3), depth, around | {'share'})}")

    def sections(self, own, depth, around):
        parts = [self.block(own, depth, around | {"share"}) for _ in range(2)]
        return self.pragma("sections" + self.pick("", " nowait", " reduction(max: z)"), "{ " + "\n#pragma omp section\n".join(parts) + " }")

    def single(self, own, depth, around):
        words = self.pick("single", "single nowait", "single firstprivate(x)", "master", "masked", "masked filter(1)")
        return self.pragma(words, self.block(own, depth, around | {"share"}))

    def special(self, own):
        """Two locks in two orders, a call whose task may outlive its variable, and a call with a barrier."""
        first, second = (f"\n#pragma omp critical({name})\n{{" for name in ("p", "q"))
        inside = f"{self.plain(own)} }} }}"
        return self.pick(f"if ({ME}) {first}{second}{inside} else {second}{first}{inside}", f"{self.pick('z', *own)} = f({ME});", "b();")

    def spin(self, own):
        """A wait for a flag, or for one that never comes."""
        return self.pick("while (!x) ;", f"if ({ME}) while (x == 0) ; else x = 1;", f"while (z == {ME}) z = 2;")

    def statement(self, own, depth, around):
        free = not around
        forms = [self.plain] * 5 + [self.atomic] * 3
        if self.happens(.1):
            return self.spin(own) if free and self.happens(.3) else self.special(own)
        if depth > 0:
            deep = [self.critical] * 2 + ([self.loop, self.single, self.single, self.sections] if free else [])
            kind = self.chance.randrange(len(forms) + len(deep) + 4)
            if kind >= len(forms) + 4:
                return deep[kind - len(forms) - 4](own, depth, around)
            if kind == len(forms):
                return f"if ({self.condition(own)}) {self.block(own, depth, around)}" + (f" else {self.block(own, depth, around)}" if self.happens(.4) else "")
            if kind == len(forms) + 1 and "task" not in around:
                return self.task(depth, around)
            if kind == len(forms) + 2:
                return self.pragma("taskgroup", "{ " + self.task(1, around) + " }") if self.happens(.3) else self.pragma("taskwait", ";")
            if kind == len(forms) + 3:
                return self.pragma("barrier", ";") if free else self.plain(own)
        return self.chance.choice(forms)(own)

    def text(self):
        clauses = self.pick("", "", " num_threads(2)", " firstprivate(x)", " reduction(+: x)", " private(z)", " num_threads(x + 2)")
        local = self.pick(" int l = 1;", " int l = 1;", " int l;", f" int l = {ME};")
        count = self.pick(1, 1, 2, 2, 3)
        begin = "z = 1; " if "private(z)" in clauses else ""
        body = "{" + local + " " + begin + " ".join(self.statement(["l"], 2, frozenset()) for _ in range(count)) + " }"
        shared = " int m = 4;" if self.happens(.3) else ""
        if shared:
            body = body.replace(" z ", " m ", 1)
        wait = self.pick("", self.pragma("taskwait", ";\n"))
        functions = f"int f(int p)\n{{ int q = 1;{self.pragma('task shared(q)', 'q = 2;')}\n{wait}return p + q; }}\n" if " f(" in body else ""
        functions += f"void b(void)\n{{{self.pragma('barrier', '}')}\n" if "b();" in body else ""
        return (f"{HEADERS}int x, y = 1, z, a[2];\n{functions}int main(void)\n{{{shared}\n#pragma omp parallel{clauses}\n{body}\n"
                "    return x + 10 * y + 100 * z + 1000 * a[0];\n}\n")
