"""port_conditions.py: the first stage of the model of the port: conditions of `cpp`, and the lines that they leave out.

It answers edits of the pieces of a text, as port_stages.py does. The names that headers define it reads from the crate
lab_port_conditions; tests/headers.py compares these with gcc.
"""
import os
import re
from port import GAPS, HERE
from port_stages import SPACES, Text

with open(os.path.join(HERE, "../../crates/lab_port_conditions/src/header.rt"), "rb") as file:
    HEADERS, OF_HEADERS = (re.findall(rb'b"(\w+)"', it) for it in re.findall(rb"= \[\n(.*?)\];", file.read(), re.S))


class Names(dict):
    """The macros of the program, each with its body; and whether a header was included that may define others."""

    more = False


def undefined(names, name):
    """What a condition on a name says that the program does not define."""
    return None if names.more or not re.match(rb"[A-Za-z]", name) or name in OF_HEADERS else False


def is_known_header(words):
    """Whether the names are known that the header defines whose include has these tokens."""
    return any(words == [b"include", b"<", name, b".", b"h", b">"] for name in HEADERS)


def asked(names, name):
    """Whether a name is defined."""
    return True if name in names or name == b"_OPENMP" else undefined(names, name)


def value(names, text):
    """What a token says as a condition."""
    if not re.match(rb"[0-9]", text):
        if text not in names:
            return undefined(names, text)
        text = names[text]
    return False if text == b"0" else True if re.match(rb"[1-9]", text) else None


def condition(names, words):
    """What `#if` says, of these tokens behind it."""
    if words[:1] == [b"!"]:
        found = condition(names, words[1:]) if words[1:2] != [b"!"] else None
        return None if found is None else not found
    if words[:1] == [b"defined"]:
        words = words[1:]
        if words[:1] == [b"("] and words[2:3] == [b")"]:
            return asked(names, words[1]) if len(words) == 3 else None
        return asked(names, words[0] if words else b"") if len(words) <= 1 else None
    return value(names, words[0] if words else b"") if len(words) <= 1 else None


def kind(names, words):
    """What a line is whose tokens behind its `#` are these: its kind, and whether its condition holds."""
    first = words[0] if words else b""
    if first in (b"ifdef", b"ifndef"):
        found = asked(names, words[1] if len(words) > 1 else b"") if len(words) <= 2 else None
        return "if", found if first == b"ifdef" or found is None else not found
    if first == b"if":
        return "if", condition(names, words[1:])
    if first in (b"else", b"endif", b"elif"):
        return first.decode(), None
    if first == b"define":
        return ("define" if len(names) < 256 else "foreign"), None
    if first == b"include":
        return ("plain" if is_known_header(words[:6]) else "include"), None
    return ("plain" if first == b"pragma" else "foreign"), None


def condition_edits(pieces):
    """The lines that go with conditions."""
    text = Text(pieces)
    names, edits, skipped, opened, at, count = Names(), [], 0, 0, 0, 0
    while at < len(pieces):
        end = next((i for i in range(at, len(pieces)) if pieces[i][0] == "LineEnd"), len(pieces))
        begins = text.before[at].line == "Fresh" and pieces[at][0] == "Mark" and pieces[at][2] == b"#"
        what, holds = None, None
        if begins:
            words = [it for kind_, _, it in pieces[at + 1:end] if kind_ not in SPACES]
            what, holds = kind(names, words)
        drops = skipped > 0 or what in ("else", "endif") or (what == "if" and holds is not None)
        if drops and text.classes[at][0] not in GAPS:
            edits.append((at, end - at - 1, "Macro", b""))
        if what == "if":
            if skipped == 0 and holds is None:
                return []
            if skipped or not holds:
                skipped += 1
            else:
                opened += 1
        elif what in ("else", "endif"):
            if skipped == 0 and opened == 0:
                return []
            if what == "endif":
                skipped, opened = (skipped - 1, opened) if skipped else (0, opened - 1)
            elif skipped < 2:
                skipped, opened = (0, opened + 1) if skipped else (1, opened - 1)
        elif what == "elif" and skipped < 2 or (what == "foreign" and skipped == 0):
            return []
        elif what == "define" and skipped == 0:
            names.setdefault(words[1] if len(words) > 1 else b"", words[2] if len(words) == 3 else b"")
            count += 1
        elif what == "include" and skipped == 0:
            names.more = True
        if drops and text.classes[at][0] not in GAPS:
            at = end
        else:
            at += 1
    return [] if skipped or opened else edits
