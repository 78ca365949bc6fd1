"""Random scripts of commands. They look at the model's state, so that most starts, rolls and prints meet something."""

GLOBALS = ("g0", "g1", "g2", "ga[0]", "ga[1]", "ga[2]", "gb[0]")
# Lines of every command that are wrong, and lines that look so.
MALFORMED = [b"foo", b"step", b"run 0", b"print 0", b"print 0 ga[9]", b"step 0 0", b"quit now", b"step -1", b"step +1", b"step 00000000000",
             b"Step 0", b"step\t0", b"  step   0  ", b"", b" ", b"step 0\r", b"step 0\r\r", b"print ga", b"print g0[0]", b"print ga[-1]",
             b"print ga[03]", b"print 3g", b"print ga[1", b"start 0", b"start 0 .", b"start 0 0..1", b"start 0 0.",
             b"start 0 " + b"0." * 63 + b"0", b"start 0 " + b"0." * 64 + b"0", b"start 0 0.99999999999", b"start 0 9999999999",
             b"run 100001", b"run 9999999999", b"history 1", b"output 0", b"tasks 0", b"where", b"events 99", b"roll", b"roll 0",
             b"roll 9999999999", b"roll x", b"undo 0 1", b"next", b"back 0x1", b"break", b"break 007", b"break x", b"delete 007", b"watch",
             b"watch zz", b"watch ga[02]", b"watch 0 g0", b"free", b"free x", b"free 0", b"free 1 1", b"\xff\xfe", b"step \xb2",
             b"x" * 1024, b"x" * 1025, b" " * 1025, b"step 0" + b" " * 1018, b"step 0" + b" " * 1019, b"%%", b"do_step 0", b"__init__",
             b"line 0"]


class Script:
    """A script for the session of a shell, one line after another; each is answered before the next one is made."""

    def __init__(self, chance, shell, names):
        self.chance, self.shell, self.machine, self.workers, self.names = chance, shell, shell.machine, shell.workers, names

    def pick(self, *choices):
        return self.chance.choice(choices)

    def worker(self):
        return self.chance.randrange(self.workers) if self.chance.random() < .97 else self.workers

    def running(self):
        """A worker that runs, if there is one."""
        runs = [worker for worker in range(self.workers) if self.machine.get(("control", worker))[0] == "run"]
        return self.chance.choice(runs) if runs else self.chance.randrange(self.workers)

    def task(self):
        ready = self.machine.ready()
        return ".".join(map(str, self.chance.choice(ready))) if ready else "0.1.0.1"

    def serial(self):
        entries = self.machine.entries
        return self.chance.choice(entries).serial if entries and self.chance.random() < .8 else self.chance.randrange(99)

    def mixed(self):
        """All commands, in any order of the workers."""
        for _ in range(self.chance.randrange(30, 140)):
            kind = self.chance.randrange(100)
            is_over = all(self.machine.get(("control", worker))[0] != "run" for worker in range(self.workers))
            if is_over and self.chance.random() < .6:
                kind = self.pick(50, 50, 50, 63, 74)
            yield self.forwards_or_back(kind) if kind < 76 else self.look_or_mark(kind)
        yield self.pick("tasks", f"run {self.pick(50, 200, 600)}")
        yield from ("history", "output", "tasks")
        for worker in range(self.workers):
            yield from (f"where {worker}", f"events {worker}", f"undo {worker}")
        yield from (f"print {name}" for name in GLOBALS)
        if self.chance.random() < .1:
            yield from ("quit", "step 0")

    def forwards_or_back(self, kind):
        if kind < 30:
            return f"step {self.worker()}"
        if kind < 41:
            return f"run {self.chance.randrange(1, 30)}"
        if kind == 41 and self.workers == 1:
            return f"free {self.chance.randrange(30)}"
        if kind < 58:
            return f"undo {self.worker()}"
        if kind < 62:
            return f"next {self.worker()}"
        if kind < 65:
            return f"back {self.worker()}"
        if kind < 73:
            return f"start {self.worker()} {self.task()}"
        return f"roll {self.serial()}"

    def look_or_mark(self, kind):
        name = self.chance.choice(self.names) + ("" if self.chance.random() < .8 else f"[{self.chance.randrange(3)}]")
        if kind < 88:
            return f"print {self.worker()} {name}"
        if kind < 90:
            return f"print {name}"
        if kind < 92:
            return f"where {self.worker()}"
        if kind < 93:
            return f"break {self.chance.randrange(1, 60)}"
        if kind < 94:
            return f"watch {self.pick('g0', 'g1', 'ga[1]', 'ga', 'w1')}"
        if kind < 95:
            return f"delete {self.chance.randrange(1, 60)}"
        if kind < 97:
            return self.chance.choice(MALFORMED)
        return self.pick("tasks", "output", "history", f"events {self.worker()}")

    def meeting(self):
        """Bursts of steps and starts, then undos of any workers, over and over."""
        yield "run 4"
        for _ in range(self.chance.randrange(15, 40)):
            for _ in range(self.chance.randrange(1, 7)):
                worker = self.running()
                yield from [f"step {worker}"] * self.chance.randrange(1, 6)
                if self.machine.ready() and self.chance.random() < .6:
                    yield f"start {self.running()} {self.task()}"
            for _ in range(self.chance.randrange(6)):
                yield f"undo {self.running()}"
            if self.machine.entries and self.chance.random() < .15:
                yield f"roll {self.chance.choice(self.machine.entries).serial}"
            seen = f"print {self.running()} {self.pick('u', 'i', 'p0', 'g1')}"
            yield self.pick("tasks", "output", "print g0", f"print {self.running()} m", f"where {self.running()}", seen, "run 3")
        yield from ("history", "run 400", "history", "output", "tasks", "print g0", "print g1", "print g2", "print ga[1]")
        for worker in range(self.workers):
            yield from (f"where {worker}", f"events {worker}")
