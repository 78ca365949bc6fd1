#!/usr/bin/env python3
"""archer.py [RUNS] [CLANG]: what Archer says of the nine races of examples/races, and of their mended forms.

Archer is the race detector of LLVM for OpenMP programs: a tool of its OpenMP library over ThreadSanitizer. Each program is
built by CLANG (clang-19 if nothing is said, else clang) and runs RUNS times, 10 if nothing is said. A mended form has to end
without a report in each run. Of a race one run at least has to be reported, or Archer does not work here; it has not been seen
to report two-critical-names, so that one may stay silent. Each row says in how many runs a report came; the last line counts
the rows, and the status is 1 where one of them is wrong.
Where clang or Archer is not there, a line says so, and the status is 2. In Debian both come with clang-19 and libomp-19-dev.
It needs Python 3 with its standard library, and clang with Archer.
"""
import os, shutil, subprocess, sys, tempfile

RACES = os.path.join(os.path.dirname(os.path.abspath(__file__)), "..", "examples", "races")
# The race that Archer has not been seen to report.
UNSEEN = {"two-critical-names"}
SECONDS = 60
THREADS = "4"


def not_tried(why):
    print(f"not tried: {why}")
    sys.exit(2)


def clang_of(words):
    """The compiler: the one that is named, else the first of these that there is."""
    for name in words or ("clang-19", "clang"):
        if shutil.which(name):
            return name
    not_tried(f"there is no {' and no '.join(words or ('clang-19', 'clang'))}")


def archer_of(clang):
    """The library of Archer that belongs to a compiler."""
    found = subprocess.run([clang, "-print-file-name=libarcher.so"], capture_output=True, text=True, check=True).stdout.strip()
    if not os.path.isfile(found):
        not_tried(f"{clang} has no libarcher.so")
    return os.path.realpath(found)


def built(clang, archer, source, folder):
    """A program that ThreadSanitizer watches, over the OpenMP library that stands beside Archer."""
    program, libraries = os.path.join(folder, os.path.basename(source)[: -len(".c")]), os.path.dirname(archer)
    words = ["-g", "-O0", "-fopenmp", "-fsanitize=thread", f"-L{libraries}", f"-Wl,-rpath,{libraries}"]
    done = subprocess.run([clang, *words, "-o", program, source], capture_output=True, text=True)
    if done.returncode != 0:
        not_tried(f"{clang} does not build {os.path.basename(source)}: {done.stderr.strip()}")
    return program


def outcome_of(program, archer):
    """What came of a run: `reported`, `silent`, or `endless` where it was silent and had not ended in time."""
    environment = dict(os.environ, OMP_NUM_THREADS=THREADS, OMP_WAIT_POLICY="passive", OMP_TOOL_LIBRARIES=archer)
    # The OpenMP library itself is not watched, and what it does is no report.
    environment["TSAN_OPTIONS"] = "ignore_noninstrumented_modules=1"
    try:
        fault, outcome = subprocess.run([program], env=environment, capture_output=True, timeout=SECONDS).stderr, "silent"
    except subprocess.TimeoutExpired as run:
        fault, outcome = run.stderr or b"", "endless"
    return "reported" if b"WARNING: ThreadSanitizer" in fault else outcome


def is_right(name, outcomes):
    """Whether these runs are what is wanted of a program."""
    if name.endswith(".fixed"):
        return set(outcomes) == {"silent"}
    return "reported" in outcomes or name in UNSEEN


def main():
    if len(sys.argv) > 3 or sys.argv[1:] and not sys.argv[1].isdigit():
        sys.exit(__doc__)
    runs = max(1, int(sys.argv[1])) if sys.argv[1:] else 10
    clang = clang_of(sys.argv[2:])
    archer, wrong = archer_of(clang), 0
    names = sorted(name[: -len(".c")] for name in os.listdir(RACES) if name.endswith(".c"))
    with tempfile.TemporaryDirectory() as folder:
        for name in names:
            program = built(clang, archer, os.path.join(RACES, name + ".c"), folder)
            outcomes = [outcome_of(program, archer) for _ in range(runs)]
            reported, endless, right = outcomes.count("reported"), outcomes.count("endless"), is_right(name, outcomes)
            wrong += not right
            late = f", and not ended in {endless}" if endless else ""
            print(f"{name}: reported in {reported} of {runs} runs{late}" + ("" if right else ", WRONG"), flush=True)
    print(f"{len(names)} rows, {wrong} wrong")
    sys.exit(1 if wrong or not names else 0)


if __name__ == "__main__":
    main()
