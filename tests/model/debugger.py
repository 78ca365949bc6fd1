#!/usr/bin/env python3
"""debugger.py [--threads N] [FILE]: a model of ompback, which reads what ompback reads, and prints what it prints.

It says what docs/LANGUAGE.md, docs/MACHINE.md and docs/COMMANDS.md say in the plainest way, and shares no code with the
program. It leaves out free runs of several workers at once (here they step in turn), want of memory, failed reads and
writes, and the texts of help.
It needs Python 3 with its standard library alone.
"""
import sys
import threading
from commands import Shell
from constructs import Lowering
from directives import tree_of
from history import Machine
from names import Resolver
from tokens import Refused, tokens_of

USAGE = "usage: debugger.py [--threads N] [FILE]\n"


def program_of(source):
    """The code of a source; `Refused` where it is not accepted."""
    return Lowering(source, Resolver(*tree_of(tokens_of(source))).resolve()).lower()


def refusal_text(source, refused):
    """docs/LANGUAGE.md: lines and columns count bytes from 1."""
    line = source.count(b"\n", 0, refused.place) + 1
    column = refused.place - source.rfind(b"\n", 0, refused.place)
    return f"refused S{refused.code} line {line} column {column}\n".encode()


def split(data):
    """The source and the commands of an input that has both, with a line `%%` between them."""
    position = 0
    while position < len(data):
        end = data.find(b"\n", position)
        stop = len(data) if end < 0 else end
        line = data[position:stop]
        if line == b"%%" or end >= 0 and line == b"%%\r":
            return data[:position], data[stop + 1:]
        position = stop + 1
    return data, b""


def answer(source, commands, workers, write):
    """Answers a source and commands, which a function gives; the status."""
    try:
        program = program_of(source)
    except Refused as refused:
        write(refusal_text(source, refused))
        return 1
    shell, commands, position = Shell(Machine(program, workers), write), commands(), 0
    while position < len(commands):
        end = commands.find(b"\n", position)
        line = commands[position:] if end < 0 else commands[position:end]
        if end >= 0 and line.endswith(b"\r"):
            line = line[:-1]
        if not shell.line(line):
            break
        position = len(commands) if end < 0 else end + 1
    return 0


def main():
    words, workers, file = sys.argv[1:], 2, None
    while words:
        word = words.pop(0)
        value = word[10:] if word.startswith("--threads=") else words.pop(0) if word == "--threads" and words else None
        is_number = value is not None and value.isdigit() and 1 <= int(value) <= 32
        if word.startswith("-") and not is_number or file and value is None:
            sys.stderr.write(USAGE)
            return 2
        workers, file = (int(value), file) if value is not None else (workers, word)
    if not file:
        source, commands = split(sys.stdin.buffer.read())
        return answer(source, lambda: commands, workers, sys.stdout.buffer.write)
    try:
        with open(file, "rb") as opened:
            source = opened.read()
    except OSError:
        sys.stderr.write("H3\n")
        return 3
    return answer(source, sys.stdin.buffer.read, workers, sys.stdout.buffer.write)


def run_deep(work):
    """Runs `work` with a stack that suffices for the deepest sources; what it gives, or 70 where it broke off."""
    sys.setrecursionlimit(1000000)
    threading.stack_size(512 << 20)
    statuses = []
    thread = threading.Thread(target=lambda: statuses.append(work()))
    thread.start()
    thread.join()
    sys.stdout.flush()
    return statuses[0] if statuses else 70


if __name__ == "__main__":
    sys.exit(run_deep(main))
