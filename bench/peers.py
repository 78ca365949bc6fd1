#!/usr/bin/env python3
"""peers.py [RUNS]: what four race detectors for compiled programs say of the nine races of examples/races, and of their mended forms.

Archer (clang-19 with its libarcher), ThreadSanitizer of gcc, and DRD and helgrind of valgrind over gcc's program. Each program
runs RUNS times with each, 4 if nothing is said, with four threads. Of a race a run counts where one report names both lines of
the bug (DRD names one access, so one line is enough). Of a mended form each run with any report counts. A cell is `counted of
runs`; `-` says that the tool is not there. The last line says which versions ran.
It needs Python 3 with its standard library, gcc, and what of clang-19, libomp-19-dev and valgrind is to be measured.
"""
import importlib.util, os, re, shutil, subprocess, sys, tempfile

HERE = os.path.dirname(os.path.abspath(__file__))
found = importlib.util.spec_from_file_location("archer", os.path.join(HERE, "..", "tests", "archer.py"))
archer = importlib.util.module_from_spec(found)
found.loader.exec_module(archer)

# The lines of the two accesses of each bug: pairs that `omplab races` tells, with three threads for missing-taskwait.
LINES = {
    "lost-update": [(16, 16)],
    "racy-sum": [(14, 14)],
    "missing-barrier": [(23, 28)],
    "nowait": [(14, 18)],
    "task-order": [(7, 8), (8, 9)],
    "missing-taskwait": [(11, 15), (13, 15)],
    "two-critical-names": [(10, 17)],
    "double-checked-start": [(15, 19), (20, 24)],
    "flag-before-data": [(12, 19), (14, 23)],
}
SECONDS = 60
REPORT = re.compile(r"WARNING: ThreadSanitizer|Conflicting (?:load|store)|Possible data race")


def gcc_program(source, folder, words):
    program = os.path.join(folder, os.path.basename(source) + "".join(words))
    subprocess.run(["gcc", "-g", "-O0", "-fopenmp", *words, "-o", program, source], check=True, capture_output=True)
    return program


def text_of(words, **more):
    """What a run writes on both its outputs."""
    environment = dict(os.environ, OMP_NUM_THREADS="4", OMP_WAIT_POLICY="passive", **more)
    try:
        run = subprocess.run(words, env=environment, capture_output=True, timeout=SECONDS)
    except subprocess.TimeoutExpired as run_out:
        return (run_out.stdout or b"").decode(errors="replace") + (run_out.stderr or b"").decode(errors="replace")
    return (run.stdout + run.stderr).decode(errors="replace")


def tools():
    """Each tool by its name: what runs a source in a folder once built, or None where it is not there."""
    made = {"Archer": None, "gcc TSan": None, "DRD": None, "helgrind": None}
    if shutil.which("clang-19"):
        library = archer.archer_of("clang-19")
        more = {"OMP_TOOL_LIBRARIES": library, "TSAN_OPTIONS": "ignore_noninstrumented_modules=1"}
        made["Archer"] = lambda source, folder: ([archer.built("clang-19", library, source, folder)], more)
    if shutil.which("gcc"):
        made["gcc TSan"] = lambda source, folder: ([gcc_program(source, folder, ["-fsanitize=thread"])], {})
    if shutil.which("valgrind") and shutil.which("gcc"):
        for name in ("drd", "helgrind"):
            shown = "DRD" if name == "drd" else name
            made[shown] = lambda source, folder, name=name: (["valgrind", f"--tool={name}", gcc_program(source, folder, [])], {})
    return made


def parts_of(text):
    """The reports of a run, each from where it begins."""
    starts = [it.start() for it in REPORT.finditer(text)] + [len(text)]
    return [text[one:next] for one, next in zip(starts, starts[1:])]


def names_both(report, name, needs_both):
    """Whether one report names the lines of the bug."""
    seen = {int(it) for it in re.findall(rf"{re.escape(name)}\.c:(\d+)", report)}
    return any((one in seen and other in seen) if needs_both else (one in seen or other in seen) for one, other in LINES[name])


def counts(tool, words, more, name, runs):
    """In how many runs the tool says what counts."""
    counted = 0
    for _ in range(runs):
        reports = parts_of(text_of(words, **more))
        counted += bool(reports) if name not in LINES else any(names_both(it, name, tool != "DRD") for it in reports)
    return counted


def main():
    if len(sys.argv) > 2 or sys.argv[1:] and not sys.argv[1].isdigit():
        sys.exit(__doc__)
    runs, made = int(sys.argv[1]) if sys.argv[1:] else 4, tools()
    print("| Program | " + " | ".join(made) + " |", flush=True)
    for name in [*LINES, *(f"{it}.fixed" for it in LINES)]:
        row = []
        with tempfile.TemporaryDirectory() as folder:
            for tool, begin in made.items():
                if begin is None:
                    row.append("-")
                    continue
                words, more = begin(os.path.join(archer.RACES, name + ".c"), folder)
                row.append(f"{counts(tool, words, more, name, runs)} of {runs}")
        print(f"| {name} | " + " | ".join(row) + " |", flush=True)
    for words in (["clang-19", "--version"], ["gcc", "--version"], ["valgrind", "--version"]):
        if shutil.which(words[0]):
            print(subprocess.run(words, capture_output=True, text=True).stdout.splitlines()[0])


if __name__ == "__main__":
    main()
