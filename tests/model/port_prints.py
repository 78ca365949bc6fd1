"""port_prints.py: a stage of the model of the port: statements that print a text which they choose.

It answers edits of the pieces of a text, as port_stages.py does.
"""
import re
from port import begins, is_code, sign
from port_stages import Text, is_word

FOREIGN = ("OpenBrace", "CloseBrace", "Hash", "Semicolon")


def slot(fmt):
    """The place behind the first `%s` of a format, and how many conversions stand before it."""
    number, at = 0, 0
    while at < len(fmt) - 1:
        if fmt[at] == 37:
            if fmt[at + 1] == 115:
                return at + 2, number
            number += fmt[at + 1] != 37
            at += 1
        at += 1
    return None


def has_number(text):
    """Whether an escape of a number stands in a text."""
    return re.match(rb'(?:[^\\]|\\[^0-9x])*\\[0-9x]', text) is not None


def is_odd(text):
    """Whether a format would print a text otherwise."""
    return has_number(text) or b'%' in text


def arguments(text, at):
    """The tokens of each argument of the list in parentheses behind a name, and the piece of the `;` behind it."""
    tokens = text.tokens(at + 1)
    if not tokens or not sign(tokens[0][1], "Open"):
        return None
    found, depth = [[]], 0
    for n, (i, one, it) in enumerate(tokens[1:], 1):
        what = one[1] if one[0] == "Sign" else None
        if what in FOREIGN:
            return None
        if what == "Close" and depth == 0:
            behind = tokens[n + 1] if n + 1 < len(tokens) else None
            return (found, behind[0]) if behind and sign(behind[1], "Semicolon") else None
        if what == "Comma" and depth == 0:
            found.append([])
            continue
        found[-1].append((one, it, depth))
        depth = max(0, depth + {"Open": 1, "OpenBracket": 1, "Close": -1, "CloseBracket": -1}.get(what, 0))
    return None


def has_effect(argument):
    """Whether an argument has an assignment, a step, or a call."""
    before = None
    for one, _, _ in argument:
        if one[0] == "Sign" and (one[1] in ("Changes", "Steps") or (one[1] == "Open" and before and is_word(before))):
            return True
        before = one
    return False


def chosen(argument):
    """The conditions and texts of an argument that is a text."""
    conditions, texts, condition = [], [], b""
    tokens = list(argument)
    while tokens:
        one, it, depth = tokens.pop(0)
        if one[0] == "Text":
            if condition or tokens or is_odd(it):
                return None
            return conditions, texts + [it]
        while True:
            if one[0] == "Text" or (depth == 0 and (it == b":" or (it == b"?" and not condition))):
                return None
            if depth == 0 and it == b"?":
                break
            condition += b" " + it
            if not tokens:
                return None
            one, it, depth = tokens.pop(0)
        if len(tokens) < 2 or tokens[0][0][0] != "Text" or is_odd(tokens[0][1]) or tokens[1][1:] != (b":", 0):
            return None
        texts.append(tokens[0][1])
        conditions.append(condition)
        condition = b""
        del tokens[:2]
    return None


def print_edit(text, at):
    """What takes the place of the `printf` at a piece."""
    parts = arguments(text, at)
    if not parts or len(parts[0]) < 2 or [one[0] for one, _, _ in parts[0][0]] != ["Text"]:
        return None
    (first, *rest), end = parts
    fmt = first[0][1]
    place = slot(fmt)
    if not place or place[1] >= len(rest) or has_number(fmt):
        return None
    choice = chosen(rest[place[1]])
    if not choice or len(choice[1]) > 4 or (len(rest) > 1 and any(has_effect(one) for one in rest)):
        return None
    others = b"".join(b" ," + b"".join(b" " + it for _, it, _ in one) for i, one in enumerate(rest) if i != place[1])
    new = b"{"
    for i, it in enumerate(choice[1]):
        new_format = fmt[:place[0] - 2] + it[1:-1] + fmt[place[0]:]
        printed = b" printf(" + new_format + others + b");"
        new += b" if (" + choice[0][i] + b")" + printed + b" else" if i < len(choice[0]) else printed
    return at, end - at, "Text", new + b" }"


def print_edits(pieces):
    """Statements that print a text which they choose."""
    text = Text(pieces)
    edits, at = [], 0
    while at < len(pieces):
        context = text.before[at]
        found = None
        if pieces[at][2] == b"printf" and is_code(context.line) and begins(context):
            found = print_edit(text, at)
        if found:
            edits.append(found)
            at += found[1]
        at += 1
    return edits
