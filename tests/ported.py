#!/usr/bin/env python3
"""ported.py PORT FOLDER: how many of gcc's OpenMP programs are accepted as they are, and how many as they are ported.

PORT is the words of a program that reads a source on its standard input, and writes the ported text, a line `====` and
the list of changes: 'crates/gate/out/gate port'. FOLDER is gcc's sources: Debian's package gcc-12-source has an archive of them.
gcc_programs.txt names the programs, each with its set: WIDE have directives of docs/LANGUAGE.md alone, and no floating
point; of these NARROW have no pointers, structs, storage that is asked for, and words of gcc alone; of these STRICT
have no clauses that docs/LANGUAGE.md has not. Whether a text is accepted, the model beside this file says.
With --list each program of NARROW is named that is not accepted as it is ported, with the code and the line.
It needs Python 3 with its standard library alone.
"""
import os
import shlex
import subprocess
import sys

HERE = os.path.dirname(os.path.abspath(__file__))
sys.path.insert(0, os.path.join(HERE, "model"))
from debugger import program_of
from tokens import Refused

sys.setrecursionlimit(20000)

SETS = {"WIDE": ["WIDE"], "NARROW": ["WIDE", "NARROW"], "STRICT": ["WIDE", "NARROW", "STRICT"]}


def refusal(text):
    """Why a text is refused, or nothing."""
    try:
        program_of(text)
    except Refused as refused:
        return f"S{refused.code} line {text.count(10, 0, refused.place) + 1}"
    except RecursionError:
        return "too deep for the model"
    return None


def ported(program, text):
    """The text that a source becomes."""
    return subprocess.run(program, input=text, capture_output=True, timeout=60).stdout.partition(b"====\n")[0]


def programs():
    """The programs, each with the name of its smallest set."""
    with open(os.path.join(HERE, "gcc_programs.txt"), encoding="utf-8") as file:
        return [line.split() for line in file]


def main():
    words = [word for word in sys.argv[1:] if word != "--list"]
    program, *more = shlex.split(words[0])
    program, folder = [os.path.abspath(program), *more], words[1]
    counts = {name: [0, 0, 0] for name in SETS}
    for smallest, path in programs():
        with open(os.path.join(folder, path), "rb") as file:
            text = file.read()
        before = refusal(text)
        after = before and refusal(ported(program, text))
        for name in SETS[smallest]:
            counts[name][0] += 1
            counts[name][1] += before is None
            counts[name][2] += after is None
        if after and smallest != "WIDE" and "--list" in sys.argv:
            print(f"{path}: {after}")
    for name, (all_, accepted, after) in counts.items():
        print(f"{name}: {all_} programs, {accepted} accepted, {after} as they are ported")


if __name__ == "__main__":
    main()
