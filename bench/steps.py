#!/usr/bin/env python3
"""steps.py PROGRAM [ASSIGNMENTS]: how fast PROGRAM steps and undoes through its command language.

It runs one source of that many assignments (16,000 if not given, 32,000 at most) three times, on one core: with no
command, with every step, and with every step and then every undo. The differences give steps a second and undos a
second; a source of half as many assignments gives the ratio of the whole times. Nothing here is a test: nothing fails.
It needs Python 3 with its standard library alone.
"""
from timing import compared, seconds, words

STEPS_OF_ASSIGNMENT = 2


def source(assignments):
    lines = "".join(f"x = {k};\n" for k in range(assignments))
    return f"int x;\nint main(void) {{\n{lines}}}\n%%\n".encode()


def measured(program, assignments):
    steps = STEPS_OF_ASSIGNMENT * assignments
    front = source(assignments)
    idle = seconds(program, front)
    forwards = seconds(program, front + b"step 0\n" * steps)
    both = seconds(program, front + b"step 0\n" * steps + b"undo 0\n" * steps)
    return steps, idle, forwards, both


def main():
    program, assignments = words(__doc__, 16000)
    steps, idle, forwards, both = measured(program, assignments)
    _, _, _, half = measured(program, assignments // 2)
    print(f"{assignments} assignments, {steps} steps, {steps} undos")
    print(f"reading the program: {idle:.3f} s")
    print(f"steps a second: {steps / max(forwards - idle, 1e-9):,.0f}")
    print(f"undos a second: {steps / max(both - forwards, 1e-9):,.0f}")
    print(f"whole run: {compared(both, half)}")


if __name__ == "__main__":
    main()
