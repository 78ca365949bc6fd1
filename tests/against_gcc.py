#!/usr/bin/env python3
"""against_gcc.py PROGRAM [SOURCES] [SEED]: what PROGRAM prints for random C, against what gcc's build prints.

It makes that many sources at random (200 if not given) of the accepted C: globals, arrays, functions, all operators, branches, loops
and `printf`, with no undefined behaviour. Each is built by gcc and run, and run by PROGRAM with `run`; `output` must be the same bytes.
Then all steps are undone, and `output` must be empty. A difference prints the source and ends the script with status 1.
It needs Python 3 with its standard library, and gcc.
"""
import os, random, subprocess, sys, tempfile


class Source:
    """A random source, built from the outside to the inside."""

    def __init__(self, seed):
        self.random = random.Random(seed)
        self.globals = [f"g{k}" for k in range(self.random.randint(1, 4))]
        self.arrays = {f"a{k}": self.random.randint(1, 6) for k in range(self.random.randint(0, 2))}
        self.functions = [(f"f{k}", self.random.randint(0, 3)) for k in range(self.random.randint(0, 3))]
        self.fresh = 0

    def index(self, array, scope, depth):
        size = self.arrays[array]
        return f"(({self.value(scope, depth)}) % {size} + {size}) % {size}"

    def value(self, scope, depth):
        """An expression without side effects whose value is small."""
        pick = self.random.randint(0, 9)
        if depth <= 0 or pick < 3:
            names = scope + self.globals
            return self.random.choice(names) if names and self.random.random() < 0.7 else str(self.random.randint(0, 20))
        if pick == 3 and self.arrays:
            array = self.random.choice(list(self.arrays))
            return f"{array}[{self.index(array, scope, depth - 1)}]"
        left, right = self.value(scope, depth - 1), self.value(scope, depth - 1)
        if pick == 4:
            return f"(({left}) * ({right})) % {self.random.randint(2, 97)}"
        if pick == 5:
            return f"({left}) {self.random.choice('/%')} {self.random.randint(1, 9)}"
        if pick == 6:
            operator = self.random.choice(["<", "<=", ">", ">=", "==", "!=", "&&", "||"])
            return f"(({left}) {operator} ({right}))"
        if pick == 7:
            return f"(({self.value(scope, depth - 1)}) ? ({left}) : ({right}))"
        if pick == 8:
            return f"({self.random.choice(['-', '!', '+'])}({left}))"
        return f"(({left}) {self.random.choice('+-')} ({right})) % 1000"

    def target(self, scope):
        if self.arrays and self.random.random() < 0.25:
            array = self.random.choice(list(self.arrays))
            return f"{array}[{self.index(array, scope, 1)}]"
        return self.random.choice([n for n in scope if not n.startswith("i")] + self.globals)

    def statement(self, scope, depth, callable, in_loop):
        pick = self.random.randint(0, 11)
        if depth <= 0 or pick < 3:
            return f"{self.target(scope)} = ({self.value(scope, 2)}) % 1000;"
        if pick == 3:
            target = self.target(scope)
            return f"{target} {self.random.choice(['+=', '-='])} {self.value(scope, 1)}; {target} %= 1000;"
        if pick == 4:
            target = self.target(scope)
            step = self.random.choice(["++", "--"])
            return f"{target}{step}; {step}{target}; {self.random.choice(self.globals)} = {target}{step} % 1000; {target} %= 1000;"
        if pick == 5:
            return f'printf("{self.random.choice(["%d", "<%d>", "%d;"])}\\n", {self.value(scope, 2)});'
        if pick == 6:
            other = f" else {self.block(scope, depth - 1, callable, in_loop)}" if self.random.random() < 0.5 else ""
            return f"if ({self.value(scope, 2)}) {self.block(scope, depth - 1, callable, in_loop)}{other}"
        if pick in (7, 8):
            self.fresh += 1
            name = f"i{self.fresh}"
            body = self.block(scope + [name], depth - 1, callable, True)
            count = self.random.randint(0, 5)
            if pick == 7:
                return f"for (int {name} = 0; {name} < {count}; {name}++) {body}"
            if self.random.random() < 0.5:
                return f"{{ int {name} = 0; while ({name}++ < {count}) {body} }}"
            return f"{{ int {name} = 0; do {body} while (++{name} < {count}); }}"
        if pick == 9 and in_loop:
            return f"if ({self.value(scope, 1)}) {self.random.choice(['break', 'continue'])};"
        if pick == 10 and callable:
            name, parameters = self.random.choice(callable)
            values = ", ".join(f"({self.value(scope, 1)}) % 1000" for _ in range(parameters))
            return f"{self.target(scope)} = {name}({values});"
        return self.block(scope, depth - 1, callable, in_loop)

    def block(self, scope, depth, callable, in_loop):
        inner, lines = list(scope), []
        for _ in range(self.random.randint(1, 4)):
            if self.random.random() < 0.3:
                self.fresh += 1
                lines.append(f"int v{self.fresh} = {self.value(inner, 2)};")
                inner.append(f"v{self.fresh}")
            else:
                lines.append(self.statement(inner, depth, callable, in_loop))
        return "{\n" + "\n".join(lines) + "\n}"

    def text(self):
        lines = ["#include <stdio.h>"]
        lines += [f"int {name} = {self.random.randint(0, 9)};" for name in self.globals]
        lines += [f"int {name}[{size}];" for name, size in self.arrays.items()]
        known = []
        for name, count in self.functions:
            parameters = [f"p{k}" for k in range(count)]
            head = ", ".join(f"int {p}" for p in parameters) or "void"
            body = self.block(parameters, 2, known, False)
            lines.append(f"int {name}({head})\n{body[:-1]}return ({self.value(parameters, 2)}) % 1000;\n}}")
            known.append((name, count))
        body = self.block([], 4, known, False)
        shown = "".join(f'printf("{name} %d\\n", {name});\n' for name in self.globals)
        shown += "".join(f'printf("{name} %d\\n", {name}[{k}]);\n' for name, size in self.arrays.items() for k in range(size))
        lines.append(f"int main(void)\n{body[:-1]}{shown}return 0;\n}}")
        return "\n".join(lines) + "\n"


class TeamSource:
    """A random source of parallel regions whose result does not depend on the schedule."""

    BLOCKS = ["reduction", "disjoint", "critical", "atomic", "tasks", "sections", "copies", "single", "group", "masked", "nested"]

    def __init__(self, seed):
        self.random = random.Random(seed)

    def number(self, least, greatest):
        return self.random.randint(least, greatest)

    def schedule(self):
        kind = self.random.choice(["", "static", "dynamic", "static, 1", "static, 2", "static, 3", "dynamic, 2"])
        return f" schedule({kind})" if kind else ""

    def team(self):
        return f" num_threads({self.number(1, 4)})" if self.random.random() < 0.8 else ""

    def loop(self):
        low, high, step = self.number(-3, 3), self.number(0, 12), self.number(1, 3)
        if self.random.random() < 0.3:
            return f"for (int i = {high}; i {self.random.choice(['>', '>='])} {low}; i -= {step})"
        return f"for (int i = {low}; i {self.random.choice(['<', '<='])} {high}; i += {step})"

    def reduction(self):
        operator = self.random.choice(["+", "*", "max", "min"])
        change = {"+": "s += i * i - 3;", "*": "s = s * (i * i % 2 + 1) % 1000;", "max": "if (i * 7 % 5 > s) s = i * 7 % 5;",
                  "min": "if (i * 7 % 5 < s) s = i * 7 % 5;"}[operator]
        if operator == "*":
            change = "s *= i % 2 * i % 2 + 1;"
        return (f"{{ int s = {self.number(1, 9)};\n#pragma omp parallel for reduction({operator}: s){self.schedule()} num_threads(2)\n"
                f"{self.loop()} {{ {change} }}\nprintf(\"r %d\\n\", s); }}")

    def disjoint(self):
        return f"#pragma omp parallel for{self.schedule()}{self.team()}\nfor (int i = 0; i < {self.number(0, 8)}; i++) a[i] = a[i] * 2 + i + g;"

    def critical(self):
        name = self.random.choice(["", "(one)", "(two)"])
        return f"#pragma omp parallel num_threads({self.number(1, 4)})\n{{\n#pragma omp critical{name}\n{{ int old = g; g = old + {self.number(1, 9)}; }}\n}}"

    def atomic(self):
        form = self.random.choice(["g += 3;", "g++;", "g = g + 2;", "g = 4 + g;", "a[1] -= 2;", "a[omp_get_thread_num() % 2] += 1;"])
        return f"#pragma omp parallel num_threads({self.number(1, 4)})\n{{\n#pragma omp atomic\n{form}\n}}"

    def tasks(self):
        count = self.number(0, 5)
        return (f"#pragma omp parallel num_threads({self.number(1, 4)})\n{{\n#pragma omp single\n{{\nfor (int k = 0; k < {count}; k++) {{\n"
                f"#pragma omp task\n{{ a[k] = a[k] + k;\n#pragma omp atomic\ng += k * {self.number(1, 5)};\n}}\n}}\n"
                "#pragma omp taskwait\ng = g * 2 % 1000;\n}\n}")

    def sections(self):
        parts = "".join(f"#pragma omp section\na[{k}] += {self.number(1, 9)};\n" for k in range(self.number(1, 4)))
        return f"#pragma omp parallel sections{self.team()}\n{{\n{parts}}}"

    def copies(self):
        return (f"{{ int x = {self.number(1, 9)}; int y = 2;\n#pragma omp parallel firstprivate(x) private(y) num_threads(3)\n{{\n"
                "y = x + omp_get_thread_num();\nx = y * 2;\n#pragma omp critical\ng += x;\n}\nprintf(\"c %d %d\\n\", x, y); }")

    def single(self):
        return (f"#pragma omp parallel num_threads({self.number(1, 4)})\n{{\n#pragma omp single{self.random.choice(['', ' nowait'])}\n"
                f"g += {self.number(1, 9)};\n#pragma omp barrier\n#pragma omp masked\na[0] = g;\n}}")

    def group(self):
        return ("#pragma omp parallel num_threads(2)\n{\n#pragma omp single\n{\n#pragma omp taskgroup\n{\n#pragma omp task\n{\n#pragma omp task\n"
                f"a[2] = {self.number(1, 9)};\na[3] = 1;\n}}\n}}\na[4] = a[2] + a[3];\n}}\n}}")

    def masked(self):
        return f"#pragma omp parallel num_threads({self.number(1, 3)})\n{{\n#pragma omp master\ng += 5;\n#pragma omp barrier\n#pragma omp for nowait\n{self.loop()} a[(i % 8 + 8) % 8] = 0;\n}}"

    def nested(self):
        return ("#pragma omp parallel num_threads(2)\n{\n#pragma omp parallel num_threads(3)\n{\n#pragma omp critical\n"
                "g += omp_get_num_threads() + 10 * omp_get_thread_num();\n}\n}")

    def fib(self):
        return f"#pragma omp parallel num_threads(2)\n{{\n#pragma omp single\ng = fib({self.number(0, 5)});\n}}"

    def text(self):
        lines = ["#include <stdio.h>", "#include <omp.h>", "int g;", "int a[8];",
                 "int fib(int n)\n{\nif (n < 2) return n;\nint x; int y;\n#pragma omp task shared(x)\nx = fib(n - 1);\n"
                 "#pragma omp task shared(y)\ny = fib(n - 2);\n#pragma omp taskwait\nreturn x + y;\n}", "int main(void)\n{"]
        for _ in range(self.number(1, 4)):
            lines.append(getattr(self, self.random.choice(self.BLOCKS + ["fib"]))())
            lines.append('printf("%d %d %d %d\\n", g, a[0], a[1], a[4]);')
        lines.append('for (int i = 0; i < 8; i++) printf("%d ", a[i]);\nreturn 0;\n}')
        return "\n".join(lines) + "\n"

    def commands(self):
        """Steps and undos of any workers, and then the run to the end."""
        moves = [f"{self.random.choice(['step', 'step', 'step', 'undo', 'next', 'back'])} {self.number(0, 3)}" for _ in range(self.number(0, 300))]
        return "\n".join(moves + ["run 100000", "output"]) + "\n"


def expected(source, folder):
    path = os.path.join(folder, "source.c")
    with open(path, "w") as file:
        file.write(source)
    subprocess.run(["gcc", "-w", "-fwrapv", "-fopenmp", "-O0", "-o", path[:-2], path], check=True)
    environment = dict(os.environ, OMP_NUM_THREADS="4", OMP_DYNAMIC="false", OMP_MAX_ACTIVE_LEVELS="1")
    return subprocess.run([path[:-2]], capture_output=True, timeout=20, env=environment).stdout


def lines_of(program, source, commands):
    return subprocess.run([program, "--threads", "4"], input=f"{source}%%\n{commands}".encode(), capture_output=True, timeout=120).stdout


def output_behind(replies):
    """The reply of `run`, and the bytes that `output` shows behind it."""
    run, _, rest = replies[replies.rfind(b"ran "):].partition(b"\n")
    head, _, body = rest.partition(b"\n")
    return run, body[:int(head.split()[1])] if head.startswith(b"output ") else rest


def checked(program, source, folder, commands):
    """Whether the program ends and prints what gcc's build does; a text that says what differs."""
    wanted = expected(source, folder)
    run, got = output_behind(lines_of(program, source, commands))
    words = run.split()
    if words[2:] == [b"limit"]:
        return None
    if not (len(words) == 3 and words[2] == b"ended" and got == wanted):
        return f"{run!r}\n{source}%%\n{commands}wanted {wanted!r}\ngot {got!r}"
    return None


def undone(program, source):
    """The same of undoing all steps of a serial source."""
    run, _ = output_behind(lines_of(program, source, "run 100000\noutput\n"))
    steps = int(run.split()[1])
    rest = lines_of(program, source, f"run {steps}\n" + "undo 0\n" * steps + "output\nhistory\n")
    return None if rest.endswith(b"output 0 bytes\n\nno steps\n") else f"undone wrongly\n{source}{rest[-200:]!r}"


def main():
    if len(sys.argv) < 2:
        sys.exit(__doc__)
    program, count = sys.argv[1], int(sys.argv[2]) if len(sys.argv) > 2 else 200
    seed = int(sys.argv[3]) if len(sys.argv) > 3 else 1
    wrong = 0
    with tempfile.TemporaryDirectory() as folder:
        for k in range(seed, seed + count):
            serial, team = Source(k).text(), TeamSource(k)
            found = [checked(program, serial, folder, "run 100000\noutput\n"), undone(program, serial),
                     checked(program, team.text(), folder, team.commands())]
            for text in found:
                if text is not None:
                    wrong += 1
                    print(f"source {k}: {text}")
    print(f"{2 * count} sources, {wrong} wrong")
    sys.exit(1 if wrong else 0)


if __name__ == "__main__":
    main()
