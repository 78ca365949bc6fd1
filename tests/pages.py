#!/usr/bin/env python3
"""pages.py LAB [--draw]: draws the nine sessions of examples/races again, and compares each page with the one that is stored there.

LAB is the program `omplab`. Each row says what came of a session; the last line counts the rows, and the status is 1 where a page
differs in any byte. With --draw the pages are stored anew instead. How many threads a session has stands in the table of
examples/races/README.md.
It needs Python 3 with its standard library alone.
"""
import os, re, subprocess, sys

RACES = os.path.join(os.path.dirname(os.path.abspath(__file__)), "..", "examples", "races")
ROW = re.compile(r"\| \[(?P<name>[a-z-]+)\]\((?P=name)\.c\) \|[^|]*\| (?P<threads>[0-9]+) \|")


def sessions():
    """The name of each session, and how many threads it has."""
    with open(os.path.join(RACES, "README.md")) as f:
        return [(row["name"], row["threads"]) for row in ROW.finditer(f.read())]


def stored(name, ending):
    with open(os.path.join(RACES, name + ending), "rb") as f:
        return f.read()


def drawn(lab, name, threads):
    """The page of a session, or None where it has none."""
    source = os.path.join(RACES, name + ".c")
    done = subprocess.run([lab, "draw", "--threads", threads, source], input=stored(name, ".commands"), stdout=subprocess.PIPE, stderr=subprocess.DEVNULL, timeout=60)
    return done.stdout if done.returncode == 0 else None


def first_difference(page, wanted):
    """The first byte, from 0, at which two pages differ."""
    for at, (one, other) in enumerate(zip(page, wanted)):
        if one != other:
            return at
    return min(len(page), len(wanted))


def is_as_stored(lab, name, threads):
    page, wanted = drawn(lab, name, threads), stored(name, ".html")
    if page == wanted:
        print(f"{name}: as it is stored, {len(wanted)} bytes")
    elif page is None:
        print(f"{name}: WRONG, no page is drawn")
    else:
        print(f"{name}: WRONG, it differs from byte {first_difference(page, wanted)} on")
    return page == wanted


def store(lab, name, threads):
    page = drawn(lab, name, threads)
    if page is None:
        sys.exit(f"{name}: no page is drawn")
    with open(os.path.join(RACES, name + ".html"), "wb") as f:
        f.write(page)
    print(f"{name}: stored, {len(page)} bytes")


def main():
    if len(sys.argv) not in (2, 3) or sys.argv[2:] not in ([], ["--draw"]):
        sys.exit(__doc__)
    lab, all_sessions = os.path.abspath(sys.argv[1]), sessions()
    if sys.argv[2:]:
        for name, threads in all_sessions:
            store(lab, name, threads)
        return
    pages = [name[:-len(".html")] for name in os.listdir(RACES) if name.endswith(".html")]
    without = sorted(set(pages) - {name for name, _ in all_sessions})
    for name in without:
        print(f"{name}: WRONG, the table of README.md has no such session")
    wrong = len(without) + sum(not is_as_stored(lab, name, threads) for name, threads in all_sessions)
    print(f"{len(all_sessions)} pages, {wrong} wrong")
    sys.exit(1 if wrong or not all_sessions else 0)


if __name__ == "__main__":
    main()
