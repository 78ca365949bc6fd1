#!/usr/bin/env python3
"""passes.py PASS PROGRAM [BYTES]: how fast PROGRAM reads sources, pass by pass.

PASS is the last pass that a source comes to: `lexing`, `parsing`, `resolving` or `lowering`. The script makes sources of that
many bytes (1,048,576 if not given, the most that a source may have), each of one kind of part repeated. All passes up to that one
read all of it. Then it is refused: for lexing at its first token, for parsing at its end, where a brace lacks, and for resolving at
its end, since it has no `main`. For lowering it is accepted, and no command follows. For each kind the script prints the seconds,
the best of three on one core, and those of a source of half the size. For lexing it adds the least room for data with which
PROGRAM still gives its answer, beyond what it needs for one byte, in bytes for each byte of the source. For resolving it adds the
most memory of a run. Lexing has a last row: a source of twice the size, one half a comment and one half code, which is too long.
Nothing here is a test: it fails at a wrong answer alone.
It needs Python 3 with its standard library alone.
"""
import resource, subprocess, sys
from collections import namedtuple

from timing import compared, filled, peak, seconds, words

MIXED = '''int alpha_7 = 0x1f; /* c */ void f(int a, int b) {
  if (a <= 10 && b != 017) alpha_7 += a * (b - 3); // line
#pragma omp parallel for schedule(static, N) reduction(+: alpha_7)
  for (int i = 0; i < N; i++) printf("%d\\n", i ? a[i] : -1);
#pragma once "x"
}
'''

# By its name, what stands in front of a part that is repeated, the part, and what stands behind. The mark in front is what
# the parser refuses.
LEXED = {
    "mixed tokens": (")\n#include <stdio.h>\n#define N 100\n", MIXED, ""),
    "marks of one byte": (")", ";", ""),
    "names and marks of one byte": (")", "a;", ""),
    "constants of one byte": (")", "1 ", ""),
    "words": (")", "abcdefg ", ""),
    "texts": (")", '"abc\\n"', ""),
    "macros": (")\n#define N 1\n", "N ", ""),
    "comments": (")", "/* c */", ""),
    "directives": (")\n", "#pragma omp\n", ""),
    "ignored pragmas": (")\n", "#pragma once\n", ""),
    "white space": (")", " ", ""),
}

BODY = "int main(void) {\n"

# The same; a brace lacks at the end.
PARSED = {
    "declarations": ("", "int a;\n", "int main(void) {"),
    "declarators": ("int a", ", a", "; int main(void) {"),
    "arrays and initializers": ("int a", ", b[10], c = -7", "; int main(void) {"),
    "prototypes": ("", "void f(int, int b, int c);\n", "int main(void) {"),
    "functions": ("", "int f(int a, int b) { return a; }\n", "int main(void) {"),
    "assignments": (BODY, "a = b;\n", ""),
    "sums": (BODY, "a = " + "b + " * 500 + "1;\n", ""),
    "parentheses": (BODY, "a = " + "(" * 120 + "1" + ")" * 120 + ";\n", ""),
    "empty statements": (BODY, ";", ""),
    "directive lines": (BODY, "#pragma omp barrier\n", ""),
    "data clauses of one line": (BODY + "#pragma omp parallel ", "private(a)", "\n{"),
}

DEPTH = 100


def deep(body):
    """A body in `DEPTH` blocks, each of which declares a variable."""
    return "".join(f"{{ int d{k}; " for k in range(DEPTH)) + body + "}" * DEPTH


NAMES = "int " + ",".join(f"g{k}" for k in range(60000)) + ";\n"
CALLED = "".join(f"int f{k}(int a) {{ int b; b = a + g1; return b; }}\n" for k in range(255))
LAST = "int f(void) {\n"
LISTED = "int " + ",".join(f"v{k}" for k in range(20000)) + ";\n"
CLAUSES = "".join(f"shared(v{k})" for k in range(20000))
SHARING = "#pragma omp task shared(y)\n"


def nested(directives):
    """A use of a global and of a local array in a block below these directives."""
    return "int x;\n" + LAST + "int y[9];\n" + directives + "{\n", "y[1] = x;\n", "}}"


# The same; there is no `main`.
RESOLVED = {
    "one name": ("int x;\n" + LAST, "x = x;\n", "}"),
    "empty statements": (LAST, ";", "}"),
    "empty blocks": (LAST, "{}", "}"),
    "many globals": (NAMES + LAST, "g1 = g59999 + g30000;\n", "}"),
    "functions": ("int g1;\n" + CALLED + LAST, "g1 = f1(f254(g1));\n", "}"),
    "locals": (LAST, "{ int a, b, c; a = b + c; }\n", "}"),
    "deep scopes, their own names": (LAST, deep("d99 = d99; " * 20) + "\n", "}"),
    "deep scopes, names of all of them": (LAST, deep("d0 = d25 + d50 + d75; " * 20) + "\n", "}"),
    "deep scopes, globals": ("int x;\n" + LAST, deep("x = x; " * 40) + "\n", "}"),
    "nested loops": ("int x;\n" + LAST + "for (int i = 0; ; ) " * 1000 + "{\n", "x = i;\n", "}}"),
    "nested tasks": nested(SHARING * 1000),
    "nested tasks, by default none": nested("#pragma omp task default(none) shared(x, y)\n" * 1000),
    "nested parallels": nested("#pragma omp parallel default(none) shared(x, y)\n" * 1000),
    "a parallel in nested tasks": nested(SHARING * 998 + "#pragma omp parallel\n#pragma omp task\n"),
    "parallels and tasks in turn": nested((SHARING + "#pragma omp parallel\n") * 499 + "#pragma omp task\n"),
    "barriers": (LAST, "#pragma omp barrier\n", "}"),
    "data clauses of one line": (LISTED + LAST + "#pragma omp parallel " + CLAUSES + "\n{\n", "v7 = v1;\n", "}}"),
    "directives": ("int x;\n" + LAST + "int y;\n", "#pragma omp parallel default(none) shared(x) private(y)\ny = x;\n", "}"),
    "globals, functions and deep scopes": (NAMES + CALLED + LAST, deep("d0 = d50 + g59999 + f1(d75); " * 20) + "\n", "}"),
}

FUNCTIONS = 200
LOCALS = 200
NESTED = 1000

MAIN = "int main(void) { return 0; }\n"
GLOBALS = "int x, y, a[100];\nint g(int p) { return p; }\n"

# What each of the functions begins with, what is repeated in it, and what it ends with.
LOWERED = {
    "assignments": ("", "x = x + y;\n", ""),
    "long expressions": ("", "x = " + " + ".join(["x * 3 - y"] * 30) + ";\n", ""),
    "elements": ("", "a[x] += a[y + 1];\n", ""),
    "calls": ("", "x = g(g(y));\n", ""),
    "conditions": ("", "if (x < y && y || x) x = y ? 1 : 2; else y++;\n", ""),
    "loops": ("", "for (x = 0; x < 9; x++) { if (y) continue; do y--; while (y); }\n", ""),
    "nested statements": ("", "if (x) " * 100 + "y = 1;\n", ""),
    "output": ("", "printf(\"%d of %d\\n\", x, y);\n", ""),
    "many locals": ("int " + ",".join(f"v{k}" for k in range(LOCALS)) + ";\n", f"v0 = v{LOCALS - 1} + v{LOCALS // 2};\n", ""),
    "directives": ("", "#pragma omp critical\nx = 1;\n#pragma omp atomic\ny++;\n#pragma omp barrier\n#pragma omp flush\n", ""),
    "regions": ("int v;\n", "#pragma omp parallel firstprivate(v) shared(x) reduction(+: y)\nx = v;\n", ""),
    "tasks in a region": ("int v;\n#pragma omp parallel\n{\n", "#pragma omp task shared(v)\nv = x;\n", "}\n"),
    "worksharing": ("int i;\n", "#pragma omp for private(y)\nfor (i = 0; i < 9; i++) x = y;\n#pragma omp sections\n{ x = 1; }\n", ""),
}

# The same, all in one function.
LOWERED_IN_ONE = {
    "regions, all in one function": ("int v;\n", "#pragma omp parallel\nx = 1;\n", ""),
    "regions in a region, all in one function": ("int v;\n#pragma omp parallel\n{\n", "#pragma omp parallel\nv = 1;\n", "}\n"),
    "tasks, all in one function": ("", "#pragma omp task\n;\n", ""),
    "nested regions round one block": ("#pragma omp parallel\n" * NESTED + "{\n", ";", "}\n"),
}


def functions(parts, size, count):
    """A source of that many bytes for lowering: so many functions of one kind, and a `main`."""
    begin, part, end = parts
    room = (size - len(GLOBALS) - len(MAIN)) // count
    bodies = (filled(f"void f{k}(void) {{\n" + begin, part, end + "}\n", room) for k in range(count))
    # (the last line break of the source is that in front of the mark)
    return GLOBALS.encode() + b"".join(bodies) + MAIN.encode() + b"%%\n"


def sources(name):
    """For each kind of source of a pass, how one of so many bytes is made."""
    if name == "lowering":
        many = {kind: lambda size, parts=parts: functions(parts, size, FUNCTIONS) for kind, parts in LOWERED.items()}
        return many | {kind: lambda size, parts=parts: functions(parts, size, 1) for kind, parts in LOWERED_IN_ONE.items()}
    table = {"lexing": LEXED, "parsing": PARSED, "resolving": RESOLVED}[name]
    return {kind: lambda size, parts=parts: filled(*parts, size) for kind, parts in table.items()}


def refused_at_end(code):
    """What is answered of a text that is refused by this code, `S3` for one, behind its last byte."""
    def answer(text):
        line, column = text.count(b"\n") + 1, len(text) - text.rfind(b"\n")
        return f"refused {code} line {line} column {column}\n".encode()

    return answer


AT_FIRST = b"refused S3 line 1 column 1\n"
TOO_LONG = b"refused S1 line 1 column 1048577\n"
ENOUGH = 1 << 30


def has_room(program, text, space):
    """Whether the program gives its answer with that much room for data: stacks, and what is written of its memory."""
    limit = lambda: resource.setrlimit(resource.RLIMIT_DATA, (space, space))
    done = subprocess.run([program], input=text, stdout=subprocess.PIPE, stderr=subprocess.DEVNULL, preexec_fn=limit)
    return done.stdout == AT_FIRST


def least_space(program, text):
    """The least room for data, to 64 KiB, in which the program gives its answer."""
    low, high = 0, ENOUGH
    while high - low > 1 << 16:
        middle = (low + high) // 2
        if has_room(program, text, middle):
            high = middle
        else:
            low = middle
    return high


def room_for(program, text):
    return f"; {(least_space(program, text) - least_space(program, b')')) / len(text):.0f} bytes a byte"


def most_memory(program, text):
    return f"; {peak(program, text) / 1e6:.0f} MB"


# What is answered of a source, and what is told of a run besides its seconds.
Pass = namedtuple("Pass", "answer memory")
PASSES = {
    "lexing": Pass(lambda _: AT_FIRST, room_for),
    "parsing": Pass(refused_at_end("S3"), lambda *_: ""),
    "resolving": Pass(refused_at_end("S15"), most_memory),
    "lowering": Pass(lambda _: b"", lambda *_: ""),
}


def row(program, last, source, size):
    """The seconds of a kind of source, of half as much of it, and what is told of its memory."""
    whole, half = source(size), source(size // 2)
    times = compared(seconds(program, whole, last.answer(whole)), seconds(program, half, last.answer(half)))
    return times + last.memory(program, whole)


def main():
    if sys.argv[1:2] not in [[name] for name in PASSES]:
        sys.exit(__doc__)
    name = sys.argv.pop(1)
    program, size = words(__doc__, 1048576)
    for kind, source in sources(name).items():
        print(f"{kind}: {row(program, PASSES[name], source, size)}", flush=True)
    if name == "lexing" and size == 1048576:
        text = b")/*" + b"x" * (size - 5) + b"*/" + sources(name)["mixed tokens"](size)
        print(f"twice as much, a comment and code: {seconds(program, text, TOO_LONG):.3f} s")


if __name__ == "__main__":
    main()
