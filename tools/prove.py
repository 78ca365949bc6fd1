#!/usr/bin/env python3
"""prove.py NAME: proves and builds one program of this repository from nothing, `ompback` or `omplab`.

It is `rt ci` over a copy that has the program, its tests and the crates below it, and neither the other crates nor the
must-fail edits. So it proves crates side by side, and nothing that the program does not need. Where all is proved,
and the stored runs and the tests of the program pass, it leaves the program in crates/NAME/out, and tells how long
it took. The status is that of `rt ci`.
It needs Python 3 with its standard library, and the command `rt`.
"""
import os, resource, shutil, subprocess, sys, tempfile, time

PARTS = ("src", "specs", "proofs", "data", "stdin", "stdout", "args", "status")


def read(file):
    with open(file, encoding="utf-8") as it:
        return it.read()


def crates(root):
    """The lines of crates.txt by the names of their crates, with the names of the libraries that each line lists."""
    found = {}
    for line in read(f"{root}/crates.txt").splitlines():
        head, colon, libraries = line.partition("#")[0].partition(":")
        if colon:
            found[head.split()[0]] = line, libraries.split()
    return found


def needed(found, name):
    """The crate and all below it."""
    names, left = set(), [name]
    while left:
        it = left.pop()
        if it in found and it not in names:
            names.add(it)
            left += found[it][1]
    return names


def copy(root, names, found, to):
    """Writes a repository of these crates alone, without their must-fail edits."""
    shutil.copyfile(f"{root}/HANDLES", f"{to}/HANDLES")
    with open(f"{to}/crates.txt", "w", encoding="utf-8") as it:
        it.writelines(found[name][0] + "\n" for name in found if name in names)
    for name in names:
        for part in PARTS:
            old, new = f"{root}/crates/{name}/{part}", f"{to}/crates/{name}/{part}"
            if os.path.isdir(old):
                shutil.copytree(old, new)
            elif os.path.isfile(old):
                os.makedirs(os.path.dirname(new), exist_ok=True)
                shutil.copyfile(old, new)


def main():
    root = os.path.dirname(os.path.dirname(os.path.abspath(__file__)))
    found = crates(root)
    if len(sys.argv) != 2 or not os.path.isfile(f"{root}/crates/{sys.argv[1]}/src/main.rt"):
        sys.exit(__doc__)
    name = sys.argv[1]
    begun = time.monotonic()
    with tempfile.TemporaryDirectory(prefix="ompback-") as room:
        copy(root, needed(found, name), found, room)
        status = subprocess.run(["rt", "ci"], cwd=room, stdin=subprocess.DEVNULL).returncode
        if status == 0:
            os.makedirs(f"{root}/crates/{name}/out", exist_ok=True)
            shutil.copy(f"{room}/crates/{name}/out/{name}", f"{root}/crates/{name}/out/{name}")
    used = resource.getrusage(resource.RUSAGE_CHILDREN)
    print(f"{(time.monotonic() - begun) / 60:.0f} minutes by the clock, {(used.ru_utime + used.ru_stime) / 60:.0f} of processors")
    if status == 0:
        print(f"proved and built: crates/{name}/out/{name}")
    sys.exit(status)


if __name__ == "__main__":
    main()
