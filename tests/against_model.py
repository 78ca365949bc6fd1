#!/usr/bin/env python3
"""against_model.py PROGRAM [SESSIONS] [SEED]: whether PROGRAM answers random sessions and sources as the model in tests/model does.

It makes that many sessions, and as many changed sources (200 of each, of seed 1, if nothing else is said). The sources of
sessions have teams, worksharing, tasks, locks, reductions, recursion and faults of the run; one in eight is changed. Their
commands have steps of the workers in any order, starts of tasks, undos in the middle and at the end, rolls, runs, all looks, and
malformed lines. A changed source is one of examples/ or a random one, with one to three changes; where it is accepted, it is run
for 300 steps. The output and the status have to be the same. Each difference is printed with its number and the seed, the first
line that differs, the command and the source, then the sums. A turn that takes more than a minute is left out, and told. The
status is 1 where one differs, or where nothing was compared.
It needs Python 3 with its standard library alone.
"""
import collections, glob, json, os, random, subprocess, sys, tempfile

HERE = os.path.dirname(os.path.abspath(__file__))
sys.path.insert(0, os.path.join(HERE, "model"))

from changes import changed
from commands import Shell
from debugger import program_of, refusal_text, run_deep
from history import Machine
from programs import Program
from scripts import Script
from tokens import Refused

SECONDS = 60
RUN = ("run 300", "history", "output", "tasks", "where 0", "where 1", "print g0")
Asked = collections.namedtuple("Asked", "title source workers commands answers status")


class Session:
    """A session of the model: its lines, and what each of them is answered."""

    def __init__(self, title, source, workers):
        self.title, self.source, self.workers, self.commands, self.answers, self.status = title, source, workers, [], [], 0
        try:
            self.shell = Shell(Machine(program_of(source), workers), lambda answer: self.answers[-1].append(answer))
        except Refused as refused:
            self.shell, self.status, self.answers = None, 1, [[refusal_text(source, refused)]]

    def ask(self, commands):
        """Lines are asked one after another, since a script looks at the state behind each; up to `quit`."""
        for command in commands if self.shell else ():
            line = command if isinstance(command, bytes) else command.encode()
            self.commands.append(line)
            self.answers.append([])
            if not self.shell.line(line[:-1] if line.endswith(b"\r") else line):
                self.shell = None
                self.commands += [b"step 0"]
                return

    def asked(self):
        return Asked(self.title, self.source, self.workers, self.commands, [b"".join(parts) for parts in self.answers], self.status)


def random_session(seed, turn):
    title = f"session {turn} of seed {seed}"
    chance = random.Random(title)
    writer, meets = Program(chance), chance.random() < .4
    source = writer.dense_source() if meets else writer.source()
    if chance.random() < .125:
        source = changed(chance, source)
    workers = chance.choice([2, 2, 3] if meets else [1, 2, 2, 2, 3, 4, 8])
    names = ["g0", "ga", "p0", "p1"] + [f"v{number}" for number in range(7)] + [f"w{number}" for number in range(writer.names_made + 1)]
    session = Session(title, source.encode("latin-1"), workers)
    if session.shell:
        script = Script(chance, session.shell, names)
        session.ask(script.meeting() if meets else script.mixed())
    return session.asked()


def changed_source(seed, turn, examples):
    title = f"source {turn} of seed {seed}"
    chance = random.Random(title)
    source = chance.choice(examples) if chance.random() < .7 else Program(chance).source()
    session = Session(title, changed(chance, source).encode("latin-1"), 2)
    session.ask(RUN)
    return session.asked()


def first_difference(asked, got, status):
    """In words, what differs first; None where nothing does."""
    if got == b"".join(asked.answers):
        return None if status == asked.status else f"the model ends with status {asked.status}, the program with {status}"
    number, answered = 0, 0
    for place, answer in enumerate(asked.answers):
        theirs = got[answered:answered + len(answer)]
        if theirs != answer:
            break
        answered, number = answered + len(answer), number + answer.count(b"\n")
    else:
        return f"line {number + 1}: the model is at the end, the program says {got[answered:].split(bytes([10]))[0]!r}"
    command = f", the answer to {asked.commands[place]!r}" if asked.commands else ""
    for line, other in zip(answer.split(b"\n"), got[answered:].split(b"\n")):
        number += 1
        if line != other:
            return f"line {number}{command}: the model says {line!r}, the program {other!r}"
    return f"line {number}{command}: the program is at the end"


def compare(program, asked, folder):
    """Runs the program over the same session; half of the sessions have their source in a file."""
    words, commands = ["--threads", str(asked.workers)], b"".join(line + b"\n" for line in asked.commands)
    if random.Random(asked.title).random() < .5 and asked.source.endswith(b"\n") and b"%%" not in asked.source.split(b"\n"):
        commands = asked.source + b"%%\n" + commands
    else:
        words.append(os.path.join(folder, "source.c"))
        with open(words[-1], "wb") as file:
            file.write(asked.source)
    done = subprocess.run([program, *words], input=commands, stdout=subprocess.PIPE, stderr=subprocess.DEVNULL, timeout=SECONDS)
    why = first_difference(asked, done.stdout, done.returncode)
    if why:
        print(f"{asked.title}, {asked.workers} workers: {why}\n{asked.source.decode('latin-1')}", flush=True)
    return why is None


def sources_of_examples():
    files = sorted(glob.glob(os.path.join(HERE, "..", "examples", "**", "*.c"), recursive=True))
    return [open(file, encoding="latin-1").read() for file in files]


def one_turn(program, seed, turn):
    """Compares the session and the source of a turn, and prints what differs, then the sums as a line for `main`."""
    counts, lines = collections.Counter(), 0
    both = random_session(seed, turn), changed_source(seed, turn, sources_of_examples())
    with tempfile.TemporaryDirectory() as folder:
        wrong = sum(not compare(program, asked, folder) for asked in both)
    for asked in both:
        answered = b"".join(asked.answers)
        counts[answered.split()[1].decode() if asked.status else "accepted"] += 1
        lines += answered.count(b"\n")
    print(json.dumps([counts, lines, wrong]))
    return 0


def main():
    words = sys.argv[1:]
    if not 1 <= len(words) <= 3:
        print(__doc__, file=sys.stderr)
        return 2
    program = os.path.abspath(words[0])
    number, seed = (int(word) for word in (words[1:] + ["200", "1"][len(words) - 1:]))
    counts, lines, wrong, slow = collections.Counter(), 0, 0, 0
    for turn in range(number):
        # A turn of its own process, since the model replays at each undo and may take long.
        command = [sys.executable, os.path.abspath(__file__), program, "--turn", str(seed), str(turn)]
        try:
            done = subprocess.run(command, stdout=subprocess.PIPE, timeout=SECONDS, check=True)
        except subprocess.TimeoutExpired:
            slow += 1
            print(f"turn {turn} of seed {seed} took more than {SECONDS} seconds", flush=True)
            continue
        *said, sums = done.stdout.decode("latin-1").splitlines()
        for line in said:
            print(line, flush=True)
        more, compared, differ = json.loads(sums)
        counts, lines, wrong = counts + collections.Counter(more), lines + compared, wrong + differ
    print(", ".join(f"{code} {count}" for code, count in sorted(counts.items())))
    both = f"{number - slow} sessions and as many changed sources of seed {seed}"
    print(f"{both}, {lines} lines compared, {wrong} differ, {slow} turns took too long")
    return 1 if wrong or not lines else 0


if __name__ == "__main__":
    is_turn = sys.argv[2:3] == ["--turn"]
    sys.exit(run_deep(lambda: one_turn(sys.argv[1], int(sys.argv[3]), int(sys.argv[4])) if is_turn else main()))
