#!/usr/bin/env python3
"""subcommands.py LAB: each subcommand of the program `omplab` over a source, and what it writes; its version, help and faults.

LAB is the program `omplab`. Each row says what is tried; the last line counts the rows, and the status is 1 where one of them
is wrong. What is wanted stands in each row. Which seed finds a bad schedule, only the generator says.
Of `draw` no whole page is compared: the run that is stored in crates/omplab draws a session, and pages.py nine more.
It needs Python 3 with its standard library alone.
"""
import os, subprocess, sys, tempfile

# Two threads add to one variable, and nothing orders them.
RACE = r"""#include <stdio.h>
int x;
int main(void)
{
#pragma omp parallel
    x = x + 1;
    printf("%d\n", x);
}
"""

# Commands by which one of the two additions is lost, and an undo that is refused.
LOST = "step 0\nstep 0\nstep 1\nstep 0\nstep 1\nnext 0\nnext 1\nundo 0\n"

ANSWERS = """#4 worker 0 line 6
blocked B1
break 6
no break 6
ran 9 break 6 worker 0
ran 2 watch x worker 1
refused by #11 worker 1 on global x
output 2 bytes
1

x = 1
#"""

NOTED = """#4 worker 0 line 6 | x = x + 1;
blocked B1 | it waits at a barrier: step the other threads, and begin what `tasks` lists
break 6 | x = x + 1;
no break 6
ran 9 break 6 worker 0 | x = x + 1;
ran 2 watch x worker 1 | the value has changed: the last line of `history` is the step that did it, and `print` has the value
refused by #11 worker 1 on global x | a global variable
output 2 bytes
1

x = 1
#"""

SCRIPT = "step 0\nstep 0\nstep 1\nstep 0\nstep 1\nstep 0\nstep 0\nstep 0\nstep 1\nstep 1\nstep 1\n"

CONE = "#5 worker 1 line 6\n#8 worker 0 line 6\n#9 worker 1 line 6\n#10 worker 1 line 6\n#11 worker 1 line 6\n"

SHORTENED = """shortened to 2 blocks: 1 of worker 0, 2 of worker 1, then `run`
run the script with --threads 2

step 0
step 1
step 1
run 100000
output
"""

FAULT = """run: fault F4 of worker 0 in line 4
shortened to 0 blocks: then `run`
run the script with --threads 2

run 100000
output
"""

LEFT_OUT = """a.c:3:2: error: S3: 'static' is left out of this C
 3 | \tstatic int x;
   | \t^~~~~~
help: leave it out; a variable of a function becomes a global
"""

THREE = "int main(void)\n{\n#pragma omp parallel num_threads(3)\n    ;\n}\n"
STATIC = "int main(void)\n{\n\tstatic int x;\n}\n"
WORSE = STATIC.replace("x;\n", "x;\n\tlong y;\n\tlong z;\n\tint *p;\n")
KINDS = LEFT_OUT + """by the words alone these places are not accepted:
  2 places, in line 4 5: narrow: omplab port does this
  1 place, in line 6: a pointer has no form here
"""
ON_A_LINE = "int f(int y) { return y; } int main(void) { int x; x = 1; }\n"
FAULTY = "int main(void)\n{\n    int x;\n    return x;\n}\n"
ENDLESS = "int main(void){ while (1) ; }"

# The session of a source that stands in the input.
IN_FRONT = "int x;\nint main(void)\n{\n    x = 1;\n}\n%%\nstep 0\nstepp 0\nstep 7\nstep 1\n"
TURNED_DOWN = "line 8: stepp 0: H1 unknown command\nline 9: step 7: H2 bad argument\nline 10: step 1: blocked B5\n"
REFUSED_UNDO = "line 8: undo 0: refused by #11 worker 1 on global x\n"

NO_END = """nothing bad in the schedule of 1 seed
`run` came to no end, and no seed did: no output was compared; give more --steps
These are not all schedules.
"""
HUNT = ["hunt", "--seeds", "20", "--steps", "1000"]

# A program with a race that does no harm, and one without a race.
HARMLESS = RACE.replace("x = x + 1", "x = 1")
MENDED = RACE.replace("    x = x + 1", "#pragma omp atomic\n    x = x + 1")
HARMS_NOT = """nothing bad in the schedules of 20 seeds
These are not all schedules.
`run`: 1 race in this history of 14 steps
1: line 6 writes x, line 6 writes it; worker 0, worker 1
"""

# What is told of the races of one history.
JUDGE = ["races", "--session"]
JUDGED = """2 races in this history of 18 steps; other schedules may have others
1: line 6 reads x, line 6 writes it; worker 1, worker 0
   #3 of worker 1 was made before #8 of worker 0, and nothing orders them
2: line 6 writes x, line 6 writes it; worker 0, worker 1
   #8 of worker 0 was made before #12 of worker 1, and nothing orders them
"""
NO_STEPS = "no race in this history of 0 steps; other schedules may have some\n"

# Sessions of examples/races, and their races: found by hand, from the loads and stores that a model makes.
RACES = os.path.join(os.path.dirname(os.path.abspath(__file__)), "..", "examples", "races")
BOTH_INSIDE = "break 10\nrun 1000\nstep 0\n" + "next 1\n" * 6 + "next 0\nundo 1\n"
BETWEEN = "worker 0 in critical (deposit), worker 1 in critical (withdraw)"
INSIDE = f"""4 races in this history of 41 steps; other schedules may have others
1: line 10 reads balance, line 18 writes it; {BETWEEN}
   #16 of worker 0 was made before #38 of worker 1, and nothing orders them
2: line 10 writes balance, line 17 reads it; {BETWEEN}
   #31 of worker 1 was made before #41 of worker 0, and nothing orders them
3: line 10 writes balance, line 18 reads it; {BETWEEN}
   #35 of worker 1 was made before #41 of worker 0, and nothing orders them
4: line 10 writes balance, line 18 writes it; {BETWEEN}
   #38 of worker 1 was made before #41 of worker 0, and nothing orders them
"""
BEYOND = """2 races in this history of 237 steps; other schedules may have others
1: line 14 writes in[3], line 18 reads it; worker 1, worker 0
   #67 of worker 0 was made before #87 of worker 1, and nothing orders them
2: line 14 writes in[2], line 18 reads it; worker 0, worker 1
   #26 of worker 0 was made before #117 of worker 1, and nothing orders them
"""
LAST_TASK_FIRST = "break 22\nrun 100000\nstep 0\nnext 1\nnext 1\nstart 1 0.1.0.3\nnext 1\nnext 1\n" + "run 100000\n" * 3
TOO_EARLY = """1 race in this history of 47 steps; other schedules may have others
1: line 8 writes cooked, line 9 reads it; worker 0, worker 1
   #14 of worker 1 was made before #29 of worker 0, and nothing orders them
"""


def race(name):
    """The source of one of the nine races."""
    with open(os.path.join(RACES, name + ".c")) as file:
        return file.read()


# A source that has a form, what it becomes, and what is told of its changes.
WIDER = "static int x = 3;\nint main(void)\n{\n\tlong n = 10L;\n\treturn EXIT_SUCCESS;\n}\n"
PORTED = "       int x = 3;\nint main(void)\n{\n\tint  n = 10 ;\n\treturn 0           ;\n}\n"
CHANGES = """a.c:1: changed: storage: static is left out
a.c:4: changed: narrow: long is int
a.c:4: warning: fault: narrow: a result that does not fit is the fault F1
a.c:4: changed: suffix: 10L is 10
a.c:4: warning: fault: suffix: a result that does not fit is the fault F1
a.c:5: changed: constant: EXIT_SUCCESS is 0
4 changes, 2 warnings; the text is accepted
"""
PLAIN = STATIC.replace("\tstatic int x", "\tint const x")
POINTS = "int main(void)\n{\n\tint *p;\n}\n"
NO_POINTER = """a.c:3:6: error: port: a pointer has no form here
 3 | \tint *p;
   | \t    ^
help: pass an index of a global array
a.c:3:6: error: S3: """

FOUR_SEEDS = """nothing bad in the schedules of 4 seeds
These are not all schedules.
`run`: 2 races in this history of 18 steps
1: line 6 reads x, line 6 writes it; worker 1, worker 0
2: line 6 writes x, line 6 writes it; worker 0, worker 1
"""

# Two assignments, of two steps each; and commands with macros.
TWO = "int x;\nint main(void)\n{\n    x = 1;\n    x = 2;\n}\n"
MACROS = "# to line 5\nuntil 0 5\nuntil 0 x\nprint x\nstep 0 x 3\nuntil 1 4\nuntil 7 4\nuntil 0 y\nstep 0 x 0\nuntil 0\n"
PLAIN_COMMANDS = "step 0\n" * 4 + "print x\n" + "step 0\n" * 3
WRONG_MACROS = """line 6: until: a step before it can't be made
line 7: until: H2 bad argument
line 8: until: H2 bad argument
line 9: x: H2 bad argument
line 10: until: H2 bad argument
"""

# What is tried, its words, its source, its input, the status, and the texts that are wanted on standard output and on standard
# error.
ROWS = [
    ("a source is accepted", ["check"], RACE, "", 0, "a.c: accepted\n", ""),
    ("a team is smaller than asked for", ["check"], THREE, "", 0, "a.c: accepted\na.c:3:22: note: with --threads 2 this team has at most 2; give omplab and ompback --threads 3\n", ""),
    ("a source is refused", ["check"], STATIC, "", 1, LEFT_OUT, ""),
    ("all kinds of places are told", ["check"], WORSE, "", 1, KINDS, ""),
    ("an accepted source is ported as it is", ["port", "--strict"], RACE, "", 0, RACE, "0 changes, 0 warnings; the text is accepted\n"),
    ("a source is ported", ["port"], WIDER, "", 0, PORTED, CHANGES),
    ("a text with a warning is held back", ["port", "--strict"], WIDER, "", 1, "", CHANGES),
    ("changes are listed alone", ["port", "--list"], WIDER, "", 0, CHANGES, ""),
    ("a text without a warning is not held back", ["port", "--strict"], PLAIN, "", 0, PLAIN.replace("const", "     "), "a.c:3: changed: storage: const is left out\n1 change, 0 warnings; the text is accepted\n"),
    ("the steps of a session are kept", ["script"], RACE, LOST, 0, SCRIPT, REFUSED_UNDO),
    ("a cone is listed", ["script", "--cone", "5"], RACE, LOST, 0, CONE, REFUSED_UNDO),
    ("words stand after answers", ["notes"], RACE, ANSWERS, 0, NOTED, ""),
    ("no function is named where two stand on a line", ["notes"], ON_A_LINE, "refused by #3 worker 1 on cell 0/0/0/0\n", 0, "refused by #3 worker 1 on cell 0/0/0/0 | x\n", ""),
    ("a lost update is found", [*HUNT, "--expect", "2\\n"], RACE, "", 1, 'seed 5: printed "1\\n", wanted "2\\n"\n' + SHORTENED, ""),
    ("what `run` prints is told", HUNT, RACE, "", 1, 'seed 5: printed "1\\n", where `run` prints "2\\n"\n' + SHORTENED, ""),
    ("a hunt begins with another seed", ["hunt", "--first-seed", "5", "--seeds", "1", "--steps", "1000"], RACE, "", 1, 'seed 5: printed "1\\n", where `run` prints "2\\n"\n' + SHORTENED, ""),
    ("a hunt ends before another seed", ["hunt", "--seeds", "4", "--steps", "1000"], RACE, "", 1, FOUR_SEEDS, ""),
    ("the first seed is told", ["hunt", "--first-seed", "3", "--seeds", "2", "--steps", "1000"], RACE, "", 1, FOUR_SEEDS.replace("4 seeds", "2 seeds, from seed 3 on"), ""),
    ("macros are written as commands", ["script", "--plain"], TWO, MACROS, 0, PLAIN_COMMANDS, WRONG_MACROS),
    ("an `until` has an end", ["script", "--plain", "--steps", "100"], ENDLESS, "until 0 5\n", 0, "", "line 1: until: not reached in 100 steps\n"),
    ("an `until` stops at a fault", ["script", "--plain"], FAULTY, "step 0 x 1\nuntil 0 9\n", 0, "step 0\n", "line 2: until: the worker meets a fault before it\n"),
    ("the line of a fault is told", ["hunt", "--seeds", "1", "--steps", "10"], FAULTY, "", 1, FAULT, ""),
    ("nothing was compared", ["hunt", "--seeds", "1", "--steps", "10"], ENDLESS, "", 0, NO_END, ""),
    ("a race that does no harm is told", HUNT, HARMLESS, "", 1, HARMS_NOT, ""),
    ("no race is told where atomic updates are the only accesses", HUNT, MENDED, "", 0, "nothing bad in the schedules of 20 seeds\nThese are not all schedules.\n", ""),
    ("the races of a session are told", JUDGE, RACE, "step 0\nstep 1\nstep 1\nrun 100\n", 1, JUDGED, ""),
    ("critical regions of two names order nothing", JUDGE, race("two-critical-names"), BOTH_INSIDE, 1, INSIDE, "line 11: undo 1: refused by #41 worker 0 on global balance\n"),
    ("a loop without its barrier orders nothing", JUDGE, race("nowait"), "run 100000\n", 1, BEYOND, ""),
    ("a loop with its barrier orders all", JUDGE, race("nowait.fixed"), "run 100000\n", 4, "no race in this history of 241 steps; other schedules may have some\n", ""),
    ("tasks are ordered with a wait alone", JUDGE, race("task-order"), LAST_TASK_FIRST, 1, TOO_EARLY, "line 5: next 1: blocked B1\n"),
    ("one history is not all", JUDGE, RACE, "", 4, NO_STEPS, ""),
    ("which commands were turned down is told with the races", JUDGE, RACE, "stepp 0\n", 4, NO_STEPS, "line 1: stepp 0: H1 unknown command\n"),
    ("no races of the session of a refused source", JUDGE, STATIC, "", 5, "", LEFT_OUT),
    ("no hunt of a refused source", HUNT, STATIC, "", 5, "", LEFT_OUT),
    ("no schedules of a refused source", ["explore"], STATIC, "", 5, "", LEFT_OUT),
    ("no races of a refused source", ["races"], STATIC, "", 5, "", LEFT_OUT),
    ("no script of a refused source", ["script"], STATIC, "step 0\n", 5, "", LEFT_OUT),
    ("no cone of a refused source", ["script", "--cone", "1"], STATIC, "step 0\n", 5, "", LEFT_OUT),
    ("no page of a refused source", ["draw"], STATIC, "step 0\n", 5, "", LEFT_OUT),
    ("answers to a refused source are passed on", ["notes"], STATIC, "blocked B5\n", 5, "blocked B5 | the worker is idle: it has no task; step worker 0 into a parallel\n", LEFT_OUT),
]

# The same, where no source is named.
ALONE = [
    ("the version is told", ["--version"], "", "", 0, "omplab 0.9.0\n", ""),
    ("what was turned down is told by its line of the input", ["script"], "", IN_FRONT, 0, "step 0\n", TURNED_DOWN),
    ("a source in the input is refused", ["script"], "", STATIC, 5, "", LEFT_OUT.replace("a.c", "<stdin>")),
    ("there is no such file", ["check", "b.c"], "", "", 3, "", "H3 b.c: no such file\n"),
]

# The same, where the beginning of the text is wanted: of standard output, and of standard error.
BEGUN = [
    ("help goes to standard output", ["--help"], "", "", 0, "Finds, explains, keeps and draws the schedules of an OpenMP program in C.", ""),
    ("so does that of a subcommand", ["hunt", "--help"], "", "", 0, "Tries schedules by chance,", ""),
    ("a page tells what was turned down, by its line of the input", ["draw"], "", IN_FRONT, 0, "<!DOCTYPE html>\n", TURNED_DOWN),
    ("what has no form is written as it is", ["port"], POINTS, "", 1, POINTS, NO_POINTER),
    ("all schedules are looked at", ["explore"], RACE, "", 1, "complete: 2 ends, in all schedules of 2 workers\n", ""),
    ("accesses meet", ["races"], RACE, "", 1, "complete: 2 pairs of accesses meet, in all schedules of 2 workers\n", ""),
    ("a team is smaller than asked for, in all schedules", ["explore"], THREE, "", 0, "complete: 1 end, in all schedules of 2 workers\n1: ended 0, printed \"\"\n   `run`\n", "a.c:3:22: note: with --threads 2 this team has at most 2; give omplab and ompback --threads 3\n"),
    ("one worker has one schedule", ["explore", "--threads", "1"], RACE, "", 0, 'complete: 1 end, in all schedules of 1 worker\n1: ended 0, printed "1\\n"\n', ""),
    ("not all is looked at", ["races", "--states", "1"], RACE, "", 4, "not complete: more than 1 state; so far no two accesses meet\n", ""),
    ("steps are limited", ["explore", "--steps", "1"], RACE, "", 4, "stopped: behind 1 step, as --steps asks; so far 0 ends\n", ""),
    ("one history has no number of states", [*JUDGE, "--states", "1"], RACE, "", 2, "", "error: the argument '--session' cannot be used with '--states <M>'"),
    ("words are wrong", ["hunts"], "", "", 2, "", "error: unrecognized subcommand 'hunts'"),
    ("a subcommand is missing", [], "", "", 2, "", "error: "),
]


def written(lab, folder, words, source, text):
    """The status, and what is written to standard output and to standard error; where there is a source, it is named."""
    with open(os.path.join(folder, "a.c"), "w", newline="") as f:
        f.write(source)
    named = ["a.c"] if source else []
    done = subprocess.run([lab, *words, *named], cwd=folder, input=text.encode(), capture_output=True, timeout=60)
    return done.returncode, done.stdout.decode(), done.stderr.decode()


def is_as_wanted(lab, folder, row, is_begun):
    title, words, source, text, status, wanted, errors = row
    got_status, got, got_errors = written(lab, folder, words, source, text)
    if is_begun:
        is_right = got.startswith(wanted) and got_errors.startswith(errors) and (wanted == "") == (got == "") and (errors == "") == (got_errors == "")
    else:
        is_right = got == wanted and got_errors == errors
    is_right = is_right and got_status == status
    print(f"{title}: {'as it is wanted' if is_right else f'WRONG, status {got_status}, {got!r}, {got_errors!r}'}")
    return is_right


def main():
    if len(sys.argv) != 2:
        sys.exit(__doc__)
    lab = os.path.abspath(sys.argv[1])
    with tempfile.TemporaryDirectory() as folder:
        right = [is_as_wanted(lab, folder, row, False) for row in ROWS + ALONE] + [is_as_wanted(lab, folder, row, True) for row in BEGUN]
    print(f"{len(right)} rows, {right.count(False)} wrong")
    sys.exit(0 if all(right) else 1)


if __name__ == "__main__":
    main()
