#!/usr/bin/env python3
"""noted.py PROGRAM LAB FOLDER..: whether `LAB notes` passes every line of a session on.

Each FOLDER has sessions NAME.in, a source, a line `%%` and commands, with the words of the command line in NAME.args, one
a line, where there are any. The source is written to a file and the commands are handed to `PROGRAM FILE`. What that
answers goes through `LAB notes FILE`. Without what stands behind the mark ` | ` each line has to be the one that came.
Each mismatch is printed, then the numbers of sessions, of lines and of lines with words. The status is 1 where one differs.
It needs Python 3 with its standard library alone.
"""
import glob, os, subprocess, sys, tempfile

SECONDS = 120


def answered(words, text):
    return subprocess.run(words, input=text, stdout=subprocess.PIPE, stderr=subprocess.DEVNULL, timeout=SECONDS).stdout


def is_passed_on(came, noted):
    """Whether a line is the one that came, alone or with the mark and words behind it."""
    return noted == came or noted.startswith(came + b" | ") and len(noted) > len(came) + 3


def main():
    if len(sys.argv) < 4:
        sys.exit(__doc__)
    program, lab = map(os.path.abspath, sys.argv[1:3])
    sessions = lines = with_words = wrong = 0
    with tempfile.TemporaryDirectory() as folder:
        file = os.path.join(folder, "source.c")
        for name in sorted(name for given in sys.argv[3:] for name in glob.glob(os.path.join(given, "*.in"))):
            with open(name, "rb") as f:
                source, _, commands = f.read().partition(b"\n%%\n")
            with open(file, "wb") as f:
                f.write(source + b"\n")
            words = []
            if os.path.exists(name[:-3] + ".args"):
                with open(name[:-3] + ".args") as f:
                    words = [word for word in f.read().split("\n") if word]
            came = answered([program, *words, file], commands)
            noted = answered([lab, "notes", *words, file], came)
            before, after = came.split(b"\n"), noted.split(b"\n")
            sessions, lines = sessions + 1, lines + len(before) - 1
            with_words += sum(len(line) > len(old) for old, line in zip(before, after))
            if len(before) != len(after) or not all(map(is_passed_on, before, after)):
                wrong += 1
                print(f"{name}: a line is not the one that came")
    print(f"{sessions} sessions, {lines} lines, {with_words} of them with words, {wrong} sessions wrong")
    return 1 if wrong or not sessions else 0


if __name__ == "__main__":
    sys.exit(main())
