#!/usr/bin/env python3
"""sources.py PROGRAM FOLDER [CODE..]: what PROGRAM says of each source of a folder.

Beside each NAME.c of FOLDER stands NAME.refusal: one line, the refusal that is wanted, as `refused S2 line 1 column 8`,
or the word `accepted`. `PROGRAM NAME.c` is run with no input, and has to print that line with status 1, or nothing with
status 0. Cases go by their code (the line's second word), then by name; with CODEs only theirs are run. Each mismatch is
printed, then a line a code, then the sum. The status is 1 where a case failed.
It needs Python 3 with its standard library alone.
"""
import collections, os, re, shlex, subprocess, sys

SECONDS = 120


def by_number(code):
    """`accepted` first, then the codes by their numbers."""
    return [int(part) if part.isdigit() else part for part in re.split(r"(\d+)", code)] if code != "accepted" else []


def cases(folder):
    """The cases of a folder: code, name, and what is wanted."""
    found = []
    for file in os.listdir(folder):
        if file.endswith(".refusal"):
            name = file[: -len(".refusal")]
            with open(os.path.join(folder, file), encoding="latin-1") as f:
                wanted = f.read().strip()
            words = wanted.split()
            found.append((words[1] if words[:1] == ["refused"] and len(words) > 1 else wanted, name, wanted))
    return sorted(found, key=lambda case: (by_number(case[0]), case[1]))


def answer(program, source):
    """What a program says of a source, in the words of a `.refusal`."""
    try:
        done = subprocess.run(program + [source], stdin=subprocess.DEVNULL, capture_output=True, timeout=SECONDS)
    except subprocess.TimeoutExpired:
        return f"no end within {SECONDS} seconds"
    text = done.stdout.decode("latin-1")
    if text == "" and done.returncode == 0:
        return "accepted"
    if done.returncode == 1 and re.fullmatch(r"refused S\d+ line \d+ column \d+\n", text):
        return text.strip()
    return f"status {done.returncode}, output {text[:80]!r}, errors {done.stderr[:80].decode('latin-1')!r}"


def main():
    if len(sys.argv) < 3:
        sys.exit(__doc__)
    program, folder, codes = shlex.split(sys.argv[1]), sys.argv[2], sys.argv[3:]
    passed, total = collections.Counter(), collections.Counter()
    for code, name, wanted in cases(folder):
        if codes and code not in codes:
            continue
        got = answer(program, os.path.join(folder, name + ".c"))
        total[code] += 1
        passed[code] += got == wanted
        if got != wanted:
            print(f"{name}: wanted {wanted}, got {got}", flush=True)
    for code in sorted(total, key=by_number):
        print(f"{code}: {passed[code]} of {total[code]}")
    failed = sum(total.values()) - sum(passed.values())
    print(f"{sum(passed.values())} passed, {failed} failed")
    sys.exit(1 if failed or not total else 0)


if __name__ == "__main__":
    main()
