#!/usr/bin/env python3
"""cuts.py PROGRAM FOLDER: what PROGRAM says of each beginning of the sources of a folder.

The sources are the NAME.c of FOLDER, and of each NAME.in what stands before its line `%%`. Each is cut after each of its
bytes, and PROGRAM gets the beginning as its input. It has to print nothing, with status 0, or one line
`refused S.. line .. column ..` with status 1, whose place is a byte of the beginning or its end. Each other answer is
printed, then how many beginnings had which answer. The status is 1 where one was wrong.
It needs Python 3 with its standard library alone.
"""
import collections, os, re, subprocess, sys


def sources(folder):
    """The sources of a folder, each once."""
    found = set()
    for file in sorted(os.listdir(folder)):
        if file.endswith((".c", ".in")):
            with open(os.path.join(folder, file), "rb") as f:
                found.add(f.read().split(b"%%\n")[0])
    return sorted(found)


def is_place(text, line, column):
    """Whether this is the place of a byte of the text, or of its end."""
    lines = text.split(b"\n")
    return 1 <= line <= len(lines) and 1 <= column <= len(lines[line - 1]) + 1


def answer(program, text):
    """`accepted` or the code of what a program says of a beginning, or else all that it says."""
    done = subprocess.run([program], input=text, capture_output=True, timeout=60)
    if done.returncode == 0 and not done.stdout:
        return "accepted"
    refused = re.fullmatch(rb"refused (S\d+) line (\d+) column (\d+)\n", done.stdout)
    if done.returncode == 1 and refused and is_place(text, int(refused[2]), int(refused[3])):
        return refused[1].decode()
    return f"wrong: status {done.returncode}, output {done.stdout[:80]!r}, errors {done.stderr[:80]!r}, of {text!r}"


def main():
    if len(sys.argv) != 3:
        sys.exit(__doc__)
    program, counts = os.path.abspath(sys.argv[1]), collections.Counter()
    beginnings = {source[:end] for source in sources(sys.argv[2]) for end in range(len(source))}
    for text in sorted(beginnings):
        got = answer(program, text)
        if got.startswith("wrong"):
            print(got, flush=True)
        counts[got.split(":")[0]] += 1
    for code, count in sorted(counts.items()):
        print(f"{code}: {count}")
    sys.exit(1 if counts["wrong"] or not counts else 0)


if __name__ == "__main__":
    main()
