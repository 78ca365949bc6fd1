#!/usr/bin/env python3
"""depth.py PROGRAM: whether PROGRAM takes the deepest sources.

Each source is at the limits of statements, brackets and tokens, in one kind of nesting or in several together, and is
neither refused for its depth nor for its syntax. PROGRAM gets it as its input, and has to end with status 0 or 1; what it
printed is printed. The status of this script is 1 where one ended otherwise.
It needs Python 3 with its standard library alone.
"""
import os, subprocess, sys

BRACKETS, TOKENS, STATEMENTS = 127, 4096 - 2 * 127, 1022


def nested(count, opening, middle="", closing=""):
    return opening * count + middle + closing * count


# what is nested in an expression, as often as its tokens allow
OPERATORS = {
    "prefix operators": nested(TOKENS - 1, "!", "1"),
    "assignments": nested((TOKENS - 1) // 2, "a=", "1"),
    "conditionals in the middle": nested((TOKENS - 1) // 4, "a?", "1", ":1"),
    "conditionals to the right": nested((TOKENS - 1) // 4, "a?1:", "1"),
    "levels of precedence": nested(BRACKETS, "(a||a&&a==a<a+a*", "1", ")"),
    "indexes": nested(BRACKETS, "a[", "1", "]"),
    "calls": nested(BRACKETS, "f(1,", "1", ")"),
}

# what stands round a statement, as often as statements may nest
STATEMENTS_ROUND = {
    "if": nested(STATEMENTS, "if(1)", ";"),
    "else": nested(STATEMENTS, "if(1);else ", ";"),
    "while": nested(STATEMENTS, "while(1)", ";"),
    "do": nested(STATEMENTS, "do ", ";", "while(1);"),
    "for": nested(STATEMENTS, "for(;;)", ";"),
    "constructs": nested(STATEMENTS, "\n#pragma omp critical\n", ";"),
    "blocks": nested(BRACKETS, "{", ";", "}"),
    "sections": nested(63, "\n#pragma omp sections\n{\n#pragma omp section\n{", ";", "}}"),
}


def cases():
    """The name and the source of each case."""
    for name, text in STATEMENTS_ROUND.items():
        yield name, text
    for name, text in OPERATORS.items():
        yield name, f"{text};"
        inner = text if "(" in text or "[" in text else nested(BRACKETS, "(", text, ")")
        yield f"{name} in if", nested(STATEMENTS, "if(1)", f"{inner};")


def main():
    if len(sys.argv) != 2:
        sys.exit(__doc__)
    program, wrong = os.path.abspath(sys.argv[1]), 0
    for name, body in cases():
        text = ("int a; int main(void){" + body + "}\n").encode()
        done = subprocess.run([program], input=text, capture_output=True)
        wrong += done.returncode not in (0, 1)
        print(f"{name}: {done.stdout.decode().strip() or 'accepted'}", flush=True)
    sys.exit(1 if wrong else 0)


if __name__ == "__main__":
    main()
