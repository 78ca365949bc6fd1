"""Random changes of sources: of bytes, of tokens, and of whole lines, so that each kind of refusal comes."""
import re
from directives import ALLOWED, CLAUSES
from tokens import KEYWORDS

MARKS = "(){};,=+[]\"#\\\n0ab @"
SHORT = ["int ", "#pragma omp barrier\n", "08", "break;", "private(g0)", "v1", "ga", "/*", "//"]
DIRECTIVES = ["parallel", "for", "barrier", "task", "single", "critical (x)", "atomic", "section", "sections", "masked", "taskgroup",
              "taskwait", "flush(g0)", "simd"]
PIECES = ["int", "void", "if (1)", "else", "while (0)", "for (;;)", "return 1;", "break;", "continue;", "{", "}", "(", ")", "[", "]", ";",
          ",", "=", "+=", "++", "--", "?", ":", "&&", "!", "%", "<", "0", "08", "0x1F", "2147483648", "a", "x", "g0", "ga[1]", "f0(1)", "main",
          'printf("%d", 1)', 'printf("%i", 1)', '"t"', "omp_get_thread_num()", "\n#pragma once\n", "\n#define N 3\n", "\n#define g0 1\n",
          "\n#include <math.h>\n", "private(g0)", "shared(x)", "firstprivate(ga)", "reduction(+:g0)", "reduction(-:g0)", "default(none)",
          "default(shared)", "nowait", "num_threads(2)", "schedule(static,0)", "schedule(dynamic)", "filter(0)", "if(1)", "collapse(2)",
          "read", "seq_cst", "/*", "*/", "//", "\\\n", "#", "@", '"', "\t", "\r\n"]
PIECES += [f"\n#pragma omp {directive}\n" for directive in DIRECTIVES]
LINES = ["return 1;", "break;", "continue;", "int g0;", "int zz;", "g0 = zz;", "for (int q = 0; q != 3; q++) ;", "#pragma omp barrier",
         "#pragma omp for", "#pragma omp single", "#pragma omp parallel default(none)", "#pragma omp task", "#pragma omp critical",
         "#pragma omp masked", "int g0, g0;", "int q[0];", "int q[4097];", "g0 = ga;", "ga = 1;", "g0[0] = 1;", "main();", 'printf("%d");',
         "2147483648;", "void zz(void);", "#pragma omp parallel private(ga)\n;", "#pragma omp single private(g0, g0)\n;",
         "#pragma omp parallel default(none)\ng0 = 1;", "#pragma omp parallel\nreturn;", "int q[2];\n#pragma omp task\nq[0] = 1;",
         "#pragma omp for\nfor (int q = 0; q < 3; q--) ;", "#pragma omp for\nfor (int q = 0; q < 3; q++) break;",
         "#pragma omp for\nfor (int q = g0; q <= 3; q += 2) continue;", "#pragma omp single\n{\n#pragma omp barrier\n}",
         "#pragma omp atomic\ng0 = 1;", "#pragma omp atomic write\ng0 = g1 + 1;"]
FIXED_WORDS = KEYWORDS | CLAUSES | set(ALLOWED) | {"pragma", "omp", "define", "include", "h", "stdio"}


def with_changed_bytes(chance, source):
    """Some bytes go, come twice or come in."""
    if not source:
        return source
    at = chance.randrange(len(source))
    end = min(len(source), at + chance.randrange(1, 8))
    return chance.choice([source[:at] + source[end:], source[:end] + source[at:], source[:at] + chance.choice(MARKS) + source[at:],
                          source[:at] + chance.choice(SHORT) + source[at:], source[:at]])


def with_changed_name(chance, source, tokens):
    """A name stands for another, as the rules of names and of constructs refuse it."""
    names = [token for token in tokens if token.group()[0].isalpha() and token.group() not in FIXED_WORDS]
    if not names:
        return source
    token = chance.choice(names)
    return source[:token.start()] + chance.choice([chance.choice(names).group(), "zz", "main", "i"]) + source[token.end():]


def with_changed_line(chance, source):
    """A line comes in, or stands for another; mostly behind the first brace, where a statement may stand."""
    lines = source.split("\n")
    first = next((place for place, line in enumerate(lines) if "{" in line), 0) if chance.random() < .8 else 0
    at = chance.randrange(first, len(lines))
    further = chance.choice([chance.choice(lines), *LINES])
    return "\n".join(lines[:at] + [further] + lines[at + chance.randrange(2):])


def with_changed_token(chance, source):
    tokens = list(re.finditer(r"[A-Za-z0-9_]+|\S", source))
    if not tokens:
        return source
    if chance.random() < .75:
        return with_changed_name(chance, source, tokens) if chance.random() < .5 else with_changed_line(chance, source)
    token, other = chance.choice(tokens), chance.choice(tokens)
    front, back = source[:token.start()], source[token.end():]
    return chance.choice([front + back, front + other.group() + back, front + " " + chance.choice(PIECES) + " " + source[token.start():],
                          front + chance.choice(PIECES) + back, source[:token.end()] + " " + token.group() + back])


def changed(chance, source):
    """A source with one to three changes."""
    for _ in range(chance.choice([1, 1, 1, 2, 3])):
        source = chance.choice([with_changed_bytes, *[with_changed_token] * 6])(chance, source)
    return source
