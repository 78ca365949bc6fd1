"""Compares programs with what `port` makes of them, both built by gcc.

    python3 tests/port.py PORT [NAME ..]

PORT is the words of a program that reads a source on its standard input, and writes the ported text, a line `====` and
the list of changes: 'crates/gate/out/gate port'. Each file of tests/port has cases: a line `== TITLE`, and a C source.
A title ends with `(refused)` exactly where the text is not accepted, as the model beside this file says. The text is built by gcc as the source is. Where output or status differ, the list has to have a warning of the kind
`wrong value` or `fault` or `differs`; else the case fails. Each case is also ported again: the text has to stay as it is.
"""

import os
import re
import shlex
import subprocess
import sys
import tempfile
import time

from ported import refusal

FOLDER = os.path.join(os.path.dirname(os.path.abspath(__file__)), "port")
FLAGS = ["-std=gnu17", "-w", "-O0", "-fopenmp"]


def cases(names):
    for name in sorted(os.listdir(FOLDER)):
        if not name.endswith(".cases") or (names and name[:-6] not in names):
            continue
        with open(os.path.join(FOLDER, name), encoding="utf-8") as file:
            parts = re.split(r"^== (.*)\n", file.read(), flags=re.M)[1:]
        for title, source in zip(parts[::2], parts[1::2]):
            yield f"{name[:-6]}: {title}", source


def ported(program, source):
    ran = subprocess.run(program, input=source.encode(), capture_output=True, timeout=60)
    text, _, listing = ran.stdout.partition(b"====\n")
    return ran.returncode, text.decode(), listing.decode()


def run(folder, source):
    path = os.path.join(folder, "program")
    built = subprocess.run(["gcc", *FLAGS, "-x", "c", "-", "-o", path], input=source.encode(), capture_output=True)
    if built.returncode != 0:
        return None
    done = subprocess.run([path], capture_output=True, timeout=60, env={**os.environ, "OMP_NUM_THREADS": "2"})
    return done.stdout, ("fault" if done.returncode < 0 else done.returncode)


def fault_of(program, folder, title, source):
    status, text, listing = ported(program, source)
    if status != 0:
        return f"the port ends with {status}"
    if text.count("\n") != source.count("\n"):
        return "the text has other lines"
    if ported(program, text)[1] != text:
        return "the port of the text is another text"
    refused = refusal(text.encode())
    if bool(refused) != title.endswith("(refused)"):
        return f"the text is refused: {refused}" if refused else "the text is accepted"
    wanted = run(folder, source)
    if wanted is None:
        return "gcc refuses the source"
    found = run(folder, text)
    if "error: port:" in listing or title.endswith("(refused)"):
        return None
    warned = re.search(r"warning: (wrong value|fault|differs)", listing)
    if found != wanted and not warned:
        return f"{wanted} becomes {found}"
    return None


def main():
    program, *words = shlex.split(sys.argv[1])
    program, names = [os.path.abspath(program) if os.path.exists(program) else program, *words], sys.argv[2:]
    begun, count, failed = time.time(), 0, 0
    with tempfile.TemporaryDirectory() as folder:
        for title, source in cases(names):
            count += 1
            fault = fault_of(program, folder, title, source)
            if fault:
                failed += 1
                print(f"{title}: {fault}")
    print(f"{count} cases, {failed} failed, {time.time() - begun:.0f} s")
    sys.exit(1 if failed else 0)


if __name__ == "__main__":
    main()
