#!/usr/bin/env python3
"""explore.py LAB [SOURCES] [SEED]: what `explore` and `races` of LAB say of all schedules, against a model and against stored answers.

LAB is the program `omplab`. Each program of tests/explore is explored with two workers. NAME.answers has what is wanted, found by
hand: each end, each fault that is in no end, and each pair of accesses that meet. Then come random programs, 60 where SOURCES says
no other number, of the seeds from SEED on (1), with one to three workers. Those of more than 1,500 states are passed over.
The model tries each step at each state, and shares no code with LAB. Compared are ends, faults, pairs, how many states and steps
there are, and the exit status. Each path has to lead in the model to what is told.
It needs Python 3 with its standard library alone.
"""
import os, random, re, subprocess, sys, tempfile, time

HERE = os.path.dirname(os.path.abspath(__file__))
sys.path.insert(0, os.path.join(HERE, "model"))
from debugger import program_of, run_deep
from schedules import explore, fault_text, meetings_of, walked
from small_programs import Small

FOLDER = os.path.join(HERE, "explore")
MOST_STATES = 1500
MOST_STORED = 100000
# Stands among stored answers, and is compared with the model alone: LAB tells nothing of it.
TRAPPED = "some schedule comes to where no end is left"
ROUND = "some schedules go round for ever (perhaps one in which a worker never gets its turn)"


class Report:
    """What LAB wrote of a source, in parts."""

    def __init__(self, lab, subject, path, workers):
        words = [lab, subject, "--threads", str(workers), path]
        done = subprocess.run(words, capture_output=True, timeout=120)
        self.status, lines = done.returncode, done.stdout.decode().split("\n")
        self.first, self.last = lines[0], lines[-2] if len(lines) > 1 else ""
        self.told, self.paths, self.beside, self.meetings, self.notes = [], [], [], [], []
        for line in lines[1:-2]:
            numbered = re.fullmatch(r"(\d+): (.*)", line)
            if numbered:
                self.told.append(numbered[2])
            elif line.startswith("   "):
                self.paths.append(line.strip())
            elif line.startswith("fault: "):
                self.beside.append("fault " + line[7:].removesuffix(", in no end"))
            elif line.startswith(("race: ", "lifetime: ")):
                self.meetings.append(line)
            else:
                self.notes.append(line)


def blocks_of(parts):
    """The blocks of a path: a worker, and how many steps it makes or which task it starts."""
    blocks = []
    for part in parts:
        steps, start = re.fullmatch(r"(\d+) of worker (\d+)", part), re.fullmatch(r"task ([\d.]+) by worker (\d+)", part)
        blocks.append((int(steps[2]), int(steps[1])) if steps else (int(start[2]), tuple(map(int, start[1].split(".")))))
    return blocks


def meeting_text(meeting):
    return "line {} {} {}, line {} {} it".format(*meeting[:2], meeting[4], *meeting[2:4])


def counted(number, word):
    return f"{number} {word}{'' if number == 1 else 's'}"


def beside(found):
    """The faults that are in no end."""
    texts = [fault_text(fault) for fault in found.faults]
    return {text for text in texts if not any(text in end for end in found.ends)}


def difference(what, got, wanted):
    """What is told twice, what is told and is not there, and what is there and is not told."""
    parts = [f"{what} told twice: {item}" for item in sorted(set(got)) if got.count(item) > 1]
    parts += [f"{what} not wanted: {item}" for item in sorted(set(got) - set(wanted))]
    return parts + [f"{what} missing: {item}" for item in sorted(set(wanted) - set(got))]


def ends_differ(report, found, workers):
    meetings = [("lifetime: " if "ends" in meeting else "race: ") + meeting_text(meeting) for meeting in found.meetings]
    is_good = not found.faults and not found.meetings and len(found.ends) == 1 and min(found.ends).startswith("ended ")
    first = f"complete: {counted(len(found.ends), 'end')}, in all schedules of {counted(workers, 'worker')}"
    told = [text.partition(";")[0] for text in report.meetings]
    wrong = difference("end", report.told, found.ends) + difference("fault", report.beside, beside(found))
    wrong += difference("pair", told, meetings)
    wrong += difference("note", report.notes, [ROUND] * found.goes_round)
    wrong += [f"{got!r}, wanted {wanted!r}" for got, wanted in
              ((report.first, first), (report.status, 0 if is_good else 1), (report.last, sizes(found))) if got != wanted]
    return wrong


def sizes(found):
    return f"{counted(found.states, 'state')}, {counted(found.steps, 'step')}"


def races_differ(report, found, workers):
    number = len(found.meetings)
    count = "no two accesses meet" if number == 0 else "1 pair of accesses meets" if number == 1 else f"{number} pairs of accesses meet"
    status = 1 if number else 4 if found.faults else 0
    notes = [f"workers stop at {counted(len(found.faults), 'fault')}: what lies behind them was not looked at"] if found.faults else []
    notes += [ROUND] * found.goes_round
    wrong = difference("pair", [text.partition(";")[0] for text in report.told], [meeting_text(meeting) for meeting in found.meetings])
    wrong += [f"{got!r}, wanted {wanted!r}" for got, wanted in
              ((report.first, f"complete: {count}, in all schedules of {counted(workers, 'worker')}"), (report.status, status),
               (report.last, sizes(found)), (report.notes, notes)) if got != wanted]
    return wrong


def stands_at(program, workers, path):
    """Where a path leads, with what its last words say: None where it leads nowhere."""
    *parts, last = path.removeprefix("then ").split(", ")
    last = last.removeprefix("then ")
    walker = walked(program, workers, blocks_of(parts))
    if walker is not None and last == "`run`":
        walker.run()
    return walker if last in ("`run`", "no worker can move", "both stand there") else None


def paths_differ(program, workers, ends, races):
    """The paths that do not lead to what is told."""
    wrong = []
    for text, path in zip(ends.told, ends.paths):
        walker = stands_at(program, workers, path)
        if walker is None or walker.moves() or walker.ending() != text:
            wrong.append(f"the path does not lead to the end {text}")
    for text, path in zip(races.told, races.paths):
        walker = stands_at(program, workers, path)
        if walker is None or text not in standing(walker):
            wrong.append(f"the path does not lead to the pair {text}")
    return wrong if len(ends.told) == len(ends.paths) and len(races.told) == len(races.paths) else wrong + ["a path is missing"]


def standing(walker):
    """The pairs that meet where a machine stands, each with who stands there and in which critical regions."""
    texts = set()
    for first in walker.moves():
        for second in walker.moves():
            for meeting in meetings_of(first, second):
                holders = [f"worker {move.worker}{walker.regions_of(move.worker)}" for move in (first, second)]
                texts.update(f"{meeting_text(meeting)}; {one}, {other}" for one, other in (holders, holders[::-1]))
    return texts


def wrong_in(lab, path, source, workers, most_states):
    """How LAB differs from the model, and what the model finds; None and that where the program is too large."""
    program = program_of(source.encode())
    found = explore(program, workers, most_states)
    if not found.is_complete:
        return None, found
    ends, races = Report(lab, "explore", path, workers), Report(lab, "races", path, workers)
    return ends_differ(ends, found, workers) + races_differ(races, found, workers) + paths_differ(program, workers, ends, races), found


def answers_differ(name, found):
    """How the model differs from the stored answers."""
    with open(os.path.join(FOLDER, name + ".answers"), encoding="utf-8") as file:
        wanted = file.read().splitlines()
    got = list(found.ends | beside(found)) + [meeting_text(meeting) for meeting in found.meetings]
    return difference("answer", got + [TRAPPED] * found.is_trapped, wanted)


def stored():
    for name in sorted(os.listdir(FOLDER)):
        if name.endswith(".c"):
            with open(os.path.join(FOLDER, name), encoding="utf-8") as file:
                yield name[:-2], os.path.join(FOLDER, name), file.read()


def tell(title, source, wrong):
    if wrong:
        print(f"{title}:\n" + "".join(f"  {text}\n" for text in wrong) + source, flush=True)
    return bool(wrong)


def try_stored(lab):
    """How many stored programs there are, and how many of them fail."""
    failed = []
    for name, path, source in stored():
        wrong, found = wrong_in(lab, path, source, 2, MOST_STORED)
        failed.append(tell(name, source, wrong + answers_differ(name, found)))
    return len(failed), sum(failed)


def try_random(lab, seeds):
    """How many random programs are too large, how many have accesses that meet, and how many fail."""
    too_large = with_pairs = failed = 0
    with tempfile.TemporaryDirectory() as folder:
        path = os.path.join(folder, "a.c")
        for seed in seeds:
            chance = random.Random(seed)
            source, workers = Small(chance).text(), chance.choice([1, 2, 2, 2, 2, 2, 3])
            with open(path, "w") as file:
                file.write(source)
            wrong, found = wrong_in(lab, path, source, workers, MOST_STATES)
            too_large, with_pairs = too_large + (wrong is None), with_pairs + bool(found.meetings)
            failed += tell(f"source of seed {seed} with {workers} workers", source, wrong)
    return too_large, with_pairs, failed


def main():
    if not 2 <= len(sys.argv) <= 4:
        print(__doc__, file=sys.stderr)
        return 2
    lab, begun = os.path.abspath(sys.argv[1]), time.time()
    number, seed = int(sys.argv[2]) if len(sys.argv) > 2 else 60, int(sys.argv[3]) if len(sys.argv) > 3 else 1
    count, wrong = try_stored(lab)
    too_large, with_pairs, failed = try_random(lab, range(seed, seed + number))
    print(f"{count} stored programs, {wrong} wrong; {number} random ones, {too_large} too large, {with_pairs} with accesses that meet, "
          f"{failed} wrong; {time.time() - begun:.0f} s")
    return 1 if wrong or failed else 0


if __name__ == "__main__":
    sys.exit(run_deep(main))
