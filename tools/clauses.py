#!/usr/bin/env python3
"""clauses.py OTHER [CRATE..]: what the public functions of another checkout promise, and those of this one.

It reads the clauses of each public function, and of each method of a trait, in both checkouts: `requires`, `ensures` and
`ghost`, with their labels, and the head of the function. Layout and comments do not count. For each crate (each one of
crates.txt in OTHER, if none is named) it prints how many functions say the same word for word, and then each one that has
other clauses, another head, or is no more there; a new function is counted alone. Definitions that clauses name are not
compared: read those. It runs at the top of the repository. The status is 1 where a function of OTHER has not stayed as it
was. It needs Python 3 with its standard library.
"""
import os, re, sys

HEAD = re.compile(r"^(?P<indent> *)(?P<pub>pub )?(?:const |unsafe |extern \"C\" )*fn (?P<name>\w+)", re.M)
BLOCK = re.compile(r"^(?:pub )?(?:unsafe )?(?P<head>(?:impl|trait)\b[^{]*)\{", re.M)
CLAUSE = re.compile(r"\b(?:requires|ensures|ghost)\*?(?:\s+[\w-]+:?)?\s*\Z")
# What a brace in it does not open: comments, texts and characters.
SILENT = re.compile(r"//[^\n]*|b?r(#*)\".*?\"\1|b?\"(?:\\.|[^\"\\])*\"|b?'(?:\\[^']+|[^'\\])'", re.S)
PAIRS = {"(": ")", "[": "]", "{": "}"}


def read(file):
    with open(file, encoding="utf-8") as it:
        return it.read()


def silenced(text):
    """The text with blanks in place of its comments, and letters in place of its texts and characters."""
    return SILENT.sub(lambda it: re.sub(r"[^\n]", " " if it[0].startswith("//") else "s", it[0]), text)


def closed(text, at):
    """The place behind the bracket that closes the one at this place."""
    depth = 0
    for here in range(at, len(text)):
        depth += (text[here] in PAIRS) - (text[here] in PAIRS.values())
        if depth == 0:
            return here + 1
    sys.exit(f"a bracket is not closed: {text[at:at + 60]}")


def words(text):
    return " ".join(text.split()).replace("( ", "(").replace(" )", ")").replace(", )", ")").replace(",)", ")")


def function_at(text, quiet, found):
    """The head of a function, and its clauses."""
    parts, begin, at = [], found.start("name"), found.end()
    while at < len(quiet) and quiet[at] != ";":
        if quiet[at] == "{" and not CLAUSE.search(quiet[begin:at]):
            break
        is_clause = quiet[at] == "{"
        at = closed(quiet, at) if quiet[at] in PAIRS else at + 1
        if is_clause:
            split = re.search(r"\b(?:requires|ensures|ghost)\b", quiet[begin:at]).start() + begin
            parts += [words(text[begin:split])] * (split > begin) + [words(text[split:at])]
            begin = at
    return [it for it in [*parts, words(text[begin:at])] if it]


def functions_of(file, module):
    """The public functions of a file, by name."""
    text = read(file)
    quiet = silenced(text)
    blocks = [(it.start(), closed(quiet, it.end() - 1), words(it["head"])) for it in BLOCK.finditer(quiet)]
    functions = {}
    for found in HEAD.finditer(quiet):
        around = [it[2] for it in blocks if it[0] < found.start() < it[1]]
        if found["pub"] or any(" for " in it or it.startswith("trait") for it in around):
            name = "::".join([*module, *[f"<{it}>" for it in around], found["name"]])
            functions[name] = function_at(text, quiet, found)
    return functions


def crate_of(folder):
    """The public functions of a crate; of an absent one, none."""
    functions, source = {}, os.path.join(folder, "src")
    for where, _, files in os.walk(source):
        for it in sorted(files):
            path = os.path.relpath(os.path.join(where, it), source)
            if path.endswith(".rt"):
                functions.update(functions_of(os.path.join(where, it), path[:-3].split(os.sep)))
    return functions


def compared(name, old, new):
    """Prints how a crate has changed, and whether a function has not stayed as it was."""
    same = [it for it in old if new.get(it) == old[it]]
    print(f"{name}: {len(same)} the same, {len([it for it in new if it not in old])} new")
    for it in [it for it in old if it not in same]:
        print(f"  {it}: " + ("is not there" if it not in new else "is another"))
        if it in new:
            lines = [f"    - {part}" for part in old[it] if part not in new[it]]
            lines += [f"    + {part}" for part in new[it] if part not in old[it]]
            print("\n".join(lines) or "    the same parts in another order")
    return len(same) < len(old)


def main():
    if len(sys.argv) < 2:
        sys.exit(__doc__)
    other = sys.argv[1]
    listed = re.findall(r"^(\w+)[^:\n]*:", read(os.path.join(other, "crates.txt")), re.M)
    names = sys.argv[2:] or listed
    pairs = [(it, crate_of(f"{other}/crates/{it}"), crate_of(f"crates/{it}")) for it in names]
    sys.exit(1 if any([compared(*it) for it in pairs]) else 0)


main()
