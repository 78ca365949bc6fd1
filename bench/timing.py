"""What the benchmarks share: the words of their command lines, the texts that they make, and the best time of some runs.

It needs Python 3 with its standard library alone.
"""
import os, subprocess, sys, time


def words(usage, default):
    """The program and the number that a benchmark is called with, `default` if it is left out; from here on it has one core."""
    if len(sys.argv) not in (2, 3):
        sys.exit(usage)
    if hasattr(os, "sched_setaffinity"):
        os.sched_setaffinity(0, {min(os.sched_getaffinity(0))})
    return os.path.abspath(sys.argv[1]), int(sys.argv[2]) if len(sys.argv) == 3 else default


def filled(front, part, back, size):
    """A text of `size` bytes: between `front` and `back` a part as often as it fits, and spaces at the end."""
    text = front + part * ((size - len(front) - len(back)) // len(part)) + back
    return (text + " " * (size - len(text))).encode()


def seconds(program, text, wanted=None, times=3, arguments=()):
    """The best time of some runs on a text. Each has to answer `wanted`; where none is given, to end with status 0."""
    best = None
    for _ in range(times):
        begin = time.monotonic()
        done = subprocess.run([program, *arguments], input=text, stdout=subprocess.DEVNULL if wanted is None else subprocess.PIPE)
        taken = time.monotonic() - begin
        if wanted is None and done.returncode != 0:
            sys.exit(f"{program} ended with status {done.returncode}")
        if wanted is not None and done.stdout != wanted:
            sys.exit(f"{program} answered {done.stdout!r}, not {wanted!r}")
        best = taken if best is None else min(best, taken)
    return best


def both_seconds(program, text, times=3, arguments=()):
    """The best time of some runs on a text by the clock, and the best processor time of them, the system's included."""
    clocks, used_times = [], []
    for _ in range(times):
        begin = time.monotonic()
        run = subprocess.Popen([program, *arguments], stdin=subprocess.PIPE, stdout=subprocess.DEVNULL)
        run.stdin.write(text)
        run.stdin.close()
        _, status, used = os.wait4(run.pid, 0)
        clocks.append(time.monotonic() - begin)
        used_times.append(used.ru_utime + used.ru_stime)
        run.returncode = os.waitstatus_to_exitcode(status)
        if run.returncode != 0:
            sys.exit(f"{program} ended with status {run.returncode}")
    return min(clocks), min(used_times)


def peak(program, text):
    """The most memory that a run on a text takes, in bytes: with the program itself, and without what it never writes."""
    run = subprocess.Popen([program], stdin=subprocess.PIPE, stdout=subprocess.DEVNULL)
    run.stdin.write(text)
    run.stdin.close()
    _, _, used = os.wait4(run.pid, 0)
    return used.ru_maxrss * 1024


def compared(whole, half):
    """The seconds for a text and for one of half its size, in words."""
    return f"{whole:.3f} s; half of it: {half:.3f} s; ratio {whole / half:.2f}"
