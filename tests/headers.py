"""headers.py [CC]: whether the port knows all names that gcc's headers define.

A condition on a name that the source does not define is decided only where no header may define it. Behind the headers
of HEADERS these are the names of NAMES, both of crates/lab_port_conditions/src/header.rt, and all that begin with `_`.
This script asks gcc, or CC, which macros each of them defines, with `_GNU_SOURCE` and without it, and prints those that
are not there. It needs Python 3 with its standard library alone.
"""
import os
import re
import subprocess
import sys

HERE = os.path.dirname(os.path.abspath(__file__))


def tables():
    """The two tables of the crate: headers, and names."""
    with open(os.path.join(HERE, "../crates/lab_port_conditions/src/header.rt"), encoding="utf-8") as file:
        return [re.findall(r'b"(\w+)"', it) for it in re.findall(r"= \[\n(.*?)\];", file.read(), re.S)]


def defined(compiler, header, *words):
    """The names that a header defines."""
    said = subprocess.run(
        [compiler, "-std=gnu17", "-fopenmp", *words, "-dM", "-E", "-x", "c", "-"],
        input=f"#include <{header}.h>\n", capture_output=True, text=True, check=True,
    ).stdout
    return set(re.findall(r"^#define (\w+)", said, re.M))


def main():
    compiler = sys.argv[1] if len(sys.argv) > 1 else "gcc"
    headers, names = tables()
    lacking = 0
    for header in headers:
        found = defined(compiler, header) | defined(compiler, header, "-D_GNU_SOURCE")
        for name in sorted(it for it in found - set(names) if not it.startswith("_")):
            lacking += 1
            print(f"{header}.h defines {name}")
    print(f"{len(headers)} headers, {len(names)} names, {lacking} lacking")
    sys.exit(1 if lacking else 0)


if __name__ == "__main__":
    main()
