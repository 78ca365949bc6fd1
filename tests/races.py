#!/usr/bin/env python3
"""races.py LAB [SESSIONS] [SEED]: the races that `omplab races --session` tells of random sessions, against a model.

LAB is the program `omplab`. A session is of a small random program with one to three workers. It makes steps by chance, and takes
some of them back. There are 200 where SESSIONS says no other number, of the seeds from SEED on (1).
The model looks at each pair of steps, and shares no code with LAB. Compared are the races, how many steps there are, and the exit
status. Of each race that is told, the two steps have to race in the model as it is told, and to be made in these critical regions.
It needs Python 3 with its standard library alone.
"""
import os, random, re, subprocess, sys, tempfile, time
from collections import Counter

HERE = os.path.dirname(os.path.abspath(__file__))
sys.path.insert(0, os.path.join(HERE, "model"))
from debugger import program_of, run_deep
from history import Machine
from races import Session, races
from small_programs import Small
from values import name_text

MOST_STEPS = 150
KINDS = "reads", "writes", "ends"
TOLD = re.compile(r"\d+: line (\d+) (\w+) (\S+(?: \S+)?(?: of task \S+)?), line (\d+) (\w+) it; worker (\d+)(.*), worker (\d+)(.*)")
STEPS = re.compile(r"   #(\d+) of worker (\d+) was made before #(\d+) of worker (\d+), and nothing orders them")


def session_of(chance):
    """A source, how many workers there are, the commands of a session, and the steps that it leaves."""
    source, workers = Small(chance).text(), chance.choice([1, 2, 2, 2, 2, 3])
    session, commands = Session(program_of(source.encode()), workers), []
    for _ in range(chance.randrange(MOST_STEPS)):
        choices = session.choices()
        if not choices:
            break
        worker, name = chance.choice(choices)
        session.step(worker, name)
        commands.append(f"step {worker}" if name is None else f"start {worker} {name_text(name)}")
        if chance.random() < .05:
            worker = chance.randrange(workers)
            session.machine.undo(worker)
            commands.append(f"undo {worker}")
    return source, workers, "".join(command + "\n" for command in commands), session.made()


def variable_text(object):
    """A global variable by its name; a local one has other names where a step names it."""
    return Machine.text_of(object).replace("global ", "") if object[0] == "global" else "local"


def text_of(race):
    (line, kind, _), (other, other_kind, _) = race.sides
    return f"line {line} {KINDS[kind]} {variable_text(race.object)}, line {other} {KINDS[other_kind]} it"


def told_by(lines, found):
    """The races that are told, and what is wrong with them."""
    told, wrong = [], []
    for line, steps in zip(lines[::2], lines[1::2]):
        words, numbers = TOLD.fullmatch(line), STEPS.fullmatch(steps)
        if not words or not numbers:
            wrong.append(f"no race: {line!r}, {steps!r}")
            continue
        own = [race for race in found if (race.earlier.entry.serial, race.later.entry.serial) == (int(numbers[1]), int(numbers[3]))]
        texts = {f"line {words[1]} {words[2]} {name}, line {words[4]} {words[5]} it" for name in (words[3], "local")}
        fitting = [race for race in own if text_of(race) in texts and are_there(race, words, numbers)]
        wrong += [] if fitting else [f"told and not there: {line!r}, {steps!r}"]
        told += [text_of(race) for race in fitting[:1]]
    return told, wrong


def are_there(race, words, numbers):
    """Whether the workers and their critical regions are those of the two steps."""
    made = {made.entry.worker: made.regions for made in (race.earlier, race.later)}
    regions = [(int(words[6]), words[7]), (int(words[8]), words[9])]
    is_order_right = (race.earlier.entry.worker, race.later.entry.worker) == (int(numbers[2]), int(numbers[4]))
    return is_order_right and all(worker in made and regions_in(text) == made[worker] for worker, text in regions)


def regions_in(text):
    return frozenset(part.strip(" ()") or "-" for part in text.split(" in critical")[1:])


def wrong_in(written, status, history):
    """How what LAB wrote differs from the model, and how many races there are."""
    found = races(history)
    wanted = Counter(text_of(race) for race in {(race.object, race.sides): race for race in found}.values())
    first, *lines = written.split("\n")
    told, wrong = told_by(lines, found)
    number, steps = sum(wanted.values()), f"{len(history)} step{'' if len(history) == 1 else 's'}"
    count = "no race" if number == 0 else f"{number} race{'' if number == 1 else 's'}"
    head = f"{count} in this history of {steps}; other schedules may have {'others' if number else 'some'}"
    wrong += [f"{first!r}, wanted {head!r}"] if first != head else []
    wrong += [f"status {status}"] if status != (1 if number else 4) else []
    wrong += [f"missing: {text}" for text in (wanted - Counter(told)).elements()]
    return wrong + [f"told twice: {text}" for text in (Counter(told) - wanted).elements()], number


def main():
    if not 2 <= len(sys.argv) <= 4:
        print(__doc__, file=sys.stderr)
        return 2
    lab, begun = os.path.abspath(sys.argv[1]), time.time()
    number, seed = int(sys.argv[2]) if len(sys.argv) > 2 else 200, int(sys.argv[3]) if len(sys.argv) > 3 else 1
    with_races = failed = 0
    with tempfile.TemporaryDirectory() as folder:
        path = os.path.join(folder, "a.c")
        for seed in range(seed, seed + number):
            source, workers, commands, history = session_of(random.Random(seed))
            with open(path, "w") as file:
                file.write(source)
            done = subprocess.run([lab, "races", "--session", "--threads", str(workers), path], input=commands.encode(), capture_output=True, timeout=60)
            wrong, count = wrong_in(done.stdout.decode(), done.returncode, history)
            with_races, failed = with_races + (count > 0), failed + bool(wrong)
            if wrong:
                print(f"session of seed {seed} with {workers} workers:\n" + "".join(f"  {text}\n" for text in wrong) + source + commands, flush=True)
    print(f"{number} random sessions, {with_races} with races, {failed} wrong; {time.time() - begun:.0f} s")
    return 1 if failed else 0


if __name__ == "__main__":
    sys.exit(run_deep(main))
