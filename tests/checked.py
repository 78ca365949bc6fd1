#!/usr/bin/env python3
"""checked.py PROGRAM LAB [SOURCES] [SEED] [FOLDER..]: whether `LAB check` says of random sources what PROGRAM says.

Each source is one of examples/, or a file `*.c` of a FOLDER, with one to four changes: a token or a byte goes, comes twice,
changes places or is another one, or the rest is cut off. Where PROGRAM accepts it, `LAB check` has to say `accepted` with
status 0, and else the same code, line and column with status 1. Each mismatch is printed, then the numbers of both kinds
and of the codes. The status is 1 where one does not agree. 5,000 sources are tried if nothing else is said.
It needs Python 3 with its standard library alone.
"""
import collections, glob, os, random, re, subprocess, sys, tempfile

SECONDS = 60
TOKEN = re.compile(r'"(?:[^"\\\n]|\\.)*"|[A-Za-z_]\w*|\d+|\n|\s+|[<>=!&|+\-*/%]=|&&|\|\||\+\+|--|.', re.S)
OTHERS = "static const double 08 0x1F 2147483648 ; { } ( ) [ ] , = == & && int void for if else while return x main a #pragma omp parallel task single nowait private reduction".split()
OTHERS += ["'a'", '"%d"', '"', "\n", "/*", "//", "\x01", "\xff", "#define N 2\n", "#include <omp.h>\n", "omp_set_lock", "num_threads(9)", "schedule(dynamic)"]


def changed(text, chance):
    """A source with one change."""
    kind = chance.randrange(7)
    if kind == 0:
        at = chance.randrange(len(text) + 1)
        return text[:at]
    if kind == 1 and text:
        at = chance.randrange(len(text))
        return text[:at] + chr(chance.randrange(256)) + text[at + 1 :]
    tokens = TOKEN.findall(text) or [""]
    at, other = chance.randrange(len(tokens)), chance.randrange(len(tokens))
    if kind == 2:
        del tokens[at]
    elif kind == 3:
        tokens.insert(at, tokens[other])
    elif kind == 4:
        tokens[at], tokens[other] = tokens[other], tokens[at]
    else:
        tokens[at : at + kind - 5] = [" " + chance.choice(OTHERS) + " "]
    return "".join(tokens)


def said_by_program(program, file):
    """What the program says of a source: `accepted`, or the code, the line and the column."""
    done = subprocess.run([program, file], stdin=subprocess.DEVNULL, capture_output=True, timeout=SECONDS)
    refusal = re.fullmatch(rb"refused (S\d+) line (\d+) column (\d+)\n", done.stdout)
    if refusal and done.returncode == 1:
        return tuple(part.decode() for part in refusal.groups())
    return "accepted" if (done.stdout, done.returncode) == (b"", 0) else ("strange", done.stdout[:80], done.returncode)


def said_by_lab(lab, file):
    """What `check` says of the same source, in the same form."""
    done = subprocess.run([lab, "check", file], stdin=subprocess.DEVNULL, capture_output=True, timeout=SECONDS)
    first = done.stdout.split(b"\n")[0]
    place = re.match(re.escape(file.encode()) + rb":(\d+):(\d+): error: (S\d+): ", first)
    if place and done.returncode == 1:
        return place[3].decode(), place[1].decode(), place[2].decode()
    is_accepted = done.returncode == 0 and any(line == file.encode() + b": accepted" for line in done.stdout.split(b"\n"))
    return "accepted" if is_accepted else ("strange", done.stdout[:80], done.returncode)


def main():
    words = sys.argv[1:]
    if len(words) < 2:
        sys.exit(__doc__)
    program, lab = map(os.path.abspath, words[:2])
    number, seed = (int(word) for word in (words[2:4] + ["5000", "1"][len(words[2:4]) :]))
    examples = os.path.join(os.path.dirname(os.path.dirname(os.path.abspath(__file__))), "examples")
    folders = [examples, os.path.join(examples, "races"), *words[4:]]
    sources = [open(file, encoding="latin-1").read() for folder in folders for file in sorted(glob.glob(os.path.join(folder, "*.c")))]
    chance, counts, wrong = random.Random(seed), collections.Counter(), 0
    with tempfile.TemporaryDirectory() as folder:
        file = os.path.join(folder, "source.c")
        for turn in range(number):
            text = chance.choice(sources)
            for _ in range(chance.randint(1, 4)):
                text = changed(text, chance)
            with open(file, "w", encoding="latin-1") as f:
                f.write(text)
            wanted, got = said_by_program(program, file), said_by_lab(lab, file)
            counts[wanted if wanted == "accepted" else wanted[0]] += 1
            if wanted != got or wanted[0] == "strange":
                wrong += 1
                print(f"source {turn}: {wanted} and {got}\n{text[:400]}")
    print(", ".join(f"{code} {count}" for code, count in sorted(counts.items())))
    print(f"{number} sources of seed {seed}, {wrong} wrong")
    return 1 if wrong else 0


if __name__ == "__main__":
    sys.exit(main())
