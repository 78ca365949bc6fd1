#!/usr/bin/env python3
"""goals.py CRATE_FOLDER [ROWS] [MODULE]: the goals of a crate that took the prover most steps.

Run it behind `rt check` from nothing in the crate's folder: what the check keeps in out/incremental has for each goal its name and the
steps that were spent on it, and a million steps are some two thirds of a second. Records of goals that are gone stay there. With MODULE it
lists the goals of modules whose name has that word. It changes nothing.
It needs Python 3 with its standard library alone.
"""
import collections, glob, os, re, sys

GOAL = re.compile(rb'"name":"([^"]*)","notes":.{0,4000}?"spent":\[(\d+)', re.S)


def goals_in(path):
    with open(path, "rb") as it:
        kept = it.read()
    for found in GOAL.finditer(kept):
        yield int(found[2]), found[1].decode(errors="replace")


def main():
    if len(sys.argv) not in (2, 3, 4):
        sys.exit(__doc__)
    rows = int(sys.argv[2]) if len(sys.argv) > 2 else 30
    word = sys.argv[3] if len(sys.argv) > 3 else ""
    goals, modules = [], collections.Counter()
    for path in glob.glob(f"{sys.argv[1]}/out/incremental/*/records/*.oantt"):
        module = re.sub(r"^Rattle-|\.oantt$|\.decls$", "", os.path.basename(path).replace(".decls.oantt", ".oantt"))
        if word in module:
            for steps, name in goals_in(path):
                goals.append((steps, module, name))
                modules[module] += steps
    print(f"{sum(modules.values()):,} steps of {len(goals)} goals; by module:")
    for module, steps in modules.most_common(rows // 2):
        print(f"{steps:12,}  {module}")
    print("by goal:")
    for steps, module, name in sorted(goals, reverse=True)[:rows]:
        print(f"{steps:12,}  {module}  {name}")


if __name__ == "__main__":
    main()
