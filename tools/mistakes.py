#!/usr/bin/env python3
"""mistakes.py [CRATE..]: mistakes that the prover has to refuse, beside those that the gate tries.

The folder tools/mistakes/CRATE holds edits in the form of crates/CRATE/must-fail: each turns the meaning of a function.
The gate does not try them, since each crate that has one would be proved once more. This script lays those of each crate
(of all crates, if none is named) beside the crate's own, has `rt must-fail` try them, and takes them away again. It runs
at the top of the repository, over what `rt all check` kept. The status is 1 where one was not refused.

An edit that begins with a line `crate: NAME` is a mistake in the definitions of crates below, and alike in code. Such a
line stands before the files of each crate that it changes. In a copy of the repository these crates have to be proved
with the mistake, as their own contracts follow the definitions, and then CRATE has to refuse it, by a law.
It needs Python 3 with its standard library, and the command `rt`.
"""
import os, shutil, subprocess, sys, tempfile

MISTAKES = os.path.join(os.path.dirname(os.path.abspath(__file__)), "mistakes")


def read(file):
    with open(file, encoding="utf-8") as it:
        return it.read()


def write(file, text):
    with open(file, "w", encoding="utf-8") as it:
        it.write(text)


def edits_of(crate):
    """The edits of a crate: those in it, and those in crates below it."""
    folder = os.path.join(MISTAKES, crate)
    edits = [os.path.join(folder, it) for it in sorted(os.listdir(folder))]
    below = [it for it in edits if read(it).startswith("crate: ")]
    return [it for it in edits if it not in below], below


def apply(edit, crates):
    """Makes the mistake in this folder of crates, and returns the crates that it changes."""
    changed, file, old = [], None, None
    for line in read(edit).splitlines():
        word, _, rest = line.partition(": ")
        if word == "crate":
            changed.append(rest)
        elif word == "file":
            file = os.path.join(crates, changed[-1], rest)
        elif word == "old":
            old = rest
        elif word == "new":
            text = read(file)
            if text.count(old) != 1:
                sys.exit(f"{edit}: {file} has {text.count(old)} times: {old}")
            write(file, text.replace(old, rest))
        elif line:
            sys.exit(f"{edit}: {line}")
    return changed


def is_refused_below(crate, edit):
    """Whether a crate refuses a mistake with which the changed crates below it are proved."""
    with tempfile.TemporaryDirectory(prefix="mistake-") as room:
        shutil.copytree("crates", f"{room}/crates", ignore=shutil.ignore_patterns("out", "must-fail"))
        for name in ("crates.txt", "HANDLES"):
            shutil.copyfile(name, f"{room}/{name}")
        changed = apply(edit, f"{room}/crates")
        for name in [*changed, crate]:
            ran = subprocess.run(["rt", "check"], cwd=f"{room}/crates/{name}", stdin=subprocess.DEVNULL,
                stdout=subprocess.PIPE, stderr=subprocess.STDOUT, encoding="utf-8", errors="replace")
            said = [it for it in ran.stdout.splitlines() if "error" in it or it.startswith("logic=")]
            print(f"{os.path.basename(edit)}: {name}: {said[0][:160] if said else ran.returncode}", flush=True)
            if name != crate and ran.returncode:
                return False
        return ran.returncode == 1 and any(it.startswith("logic=not-proved") for it in said)


def try_mistakes(crate):
    """Whether the prover refuses each mistake of a crate, and each must-fail edit of it."""
    own, below = edits_of(crate)
    refused = [is_refused_below(crate, it) for it in below]
    if not own:
        return all(refused)
    folder = os.path.join("crates", crate, "must-fail")
    had_folder = os.path.isdir(folder)
    os.makedirs(folder, exist_ok=True)
    laid = []
    try:
        for edit in own:
            to = os.path.join(folder, os.path.basename(edit))
            if os.path.exists(to):
                sys.exit(f"{to} is there already")
            laid.append(to)
            shutil.copyfile(edit, to)
        return subprocess.run(["rt", "must-fail", crate]).returncode == 0 and all(refused)
    finally:
        for to in laid:
            os.remove(to)
        if not had_folder:
            os.rmdir(folder)


def main():
    crates = sys.argv[1:] or sorted(os.listdir(MISTAKES))
    unknown = [it for it in crates if not os.path.isdir(os.path.join(MISTAKES, it))]
    if unknown or not os.path.isfile("crates.txt"):
        sys.exit(__doc__)
    failed = [it for it in crates if not try_mistakes(it)]
    print(f"{len(crates)} crates, {len(failed)} with a mistake that was not refused {' '.join(failed)}".rstrip())
    sys.exit(1 if failed else 0)


if __name__ == "__main__":
    main()
