#!/usr/bin/env python3
"""machine.py PROGRAM [RUNS]: how fast PROGRAM steps and undoes with one worker and with four, and below many frames.

Each program counts for ever. It runs in three ways, on one core: without a step, with every step, and with every step and then
every undo. The differences give steps and undos a second, by the clock and by processor time. Each way counts by the best of that
many runs (3 if not given): on a host that others share, more runs come nearer to an idle core. For the frames it is what a step
costs by the clock once `f` has called itself so often. Nothing here is a test: nothing fails.
It needs Python 3 with its standard library alone.
"""
from timing import both_seconds, seconds, words

MEASURES = ("by the clock", "by processor time")

STEPS = 20000
STEPS_BELOW = 1000
STEPS_OF_CALL = 6

ONE = """int x;
int main(void) { while (1) x = x + 1; }
%%
"""
FOUR = """int a[4];
int main(void) {
#pragma omp parallel num_threads(4)
{ int n; n = 0; while (1) { n = n + 1; a[omp_get_thread_num()] = n; } }
}
%%
step 0
"""
DEEP = """int x;
void f(int n) { if (n) f(n - 1); else while (1) x = x + 1; }
int main(void) { f(%d); }
%%%%
run %d
"""


def rounds(command, workers):
    """A command of each of these workers in turn, as often as there are steps."""
    return "".join(f"{command} {worker}\n" for worker in workers) * (STEPS // len(workers))


def rates(program, text, count, runs):
    """For each measure the steps and the undos a second of so many workers."""
    def taken(commands):
        return both_seconds(program, (text + commands).encode(), times=runs, arguments=["--threads", str(count)])

    forwards = rounds("step", range(count))
    backwards = rounds("undo", range(count - 1, -1, -1))
    ways = zip(taken(""), taken(forwards), taken(forwards + backwards))
    return [(STEPS / max(there - idle, 1e-9), STEPS / max(both - there, 1e-9)) for idle, there, both in ways]


def below(program, frames, runs):
    """The microseconds of a step below so many frames."""
    text = DEEP % (frames - 1, STEPS_OF_CALL * frames)
    idle = seconds(program, text.encode(), times=runs)
    there = seconds(program, (text + "step 0\n" * STEPS_BELOW).encode(), times=runs)
    return (there - idle) / STEPS_BELOW * 1e6


def main():
    program, runs = words(__doc__, 3)
    for name, text, count in (("one worker", ONE, 1), ("four workers", FOUR, 4)):
        for measure, (steps, undos) in zip(MEASURES, rates(program, text, count, runs)):
            print(f"{name}, {measure}: {steps:,.0f} steps a second, {undos:,.0f} undos a second")
    for name, frames in (("one frame", 1), ("900 frames", 900)):
        print(f"below {name}: {below(program, frames, runs):.2f} us a step")


if __name__ == "__main__":
    main()
