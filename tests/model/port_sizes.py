"""port_sizes.py: a stage of the model of the port: numbers of elements of arrays.

It answers edits of the pieces of a text, as port_stages.py does.
"""
from port import is_code, sign
from port_stages import Text

BEFORE = ("Open", "Close", "OpenBracket", "Semicolon", "Comma", "Colon", "Changes", "Less", "Greater")


def length(text, name):
    """The length of an array that is declared in one place alone."""
    found = []
    for at, (_, _, it) in enumerate(text.pieces):
        context = text.before[at]
        if it != name or not is_code(context.line):
            continue
        last = context.last
        attribute = sign(last, "Close") and sign(context.before, "Close")
        comma = sign(last, "Comma") and context.parens == 0
        if last[0] in ("Type", "Storage") or attribute or comma or sign(last, "Star"):
            after = [word for _, _, word in text.tokens(at + 1)[:4]] + [b""] * 4
            is_array = context.parens == 0 and after[0] == b"[" and after[2] == b"]" and after[3] != b"["
            found.append(after[1] if is_array else None)
    return found[0] if len(found) == 1 else None


def asked(words):
    """The name of the array that is asked for behind a `sizeof`, and how many tokens the question has."""
    words = words + [b""] * 12
    if words[1:3] == [b"/", b"sizeof"]:
        name, words, count = words[0], words[3:], 3
    elif words[0] == b"(" and words[2:5] == [b")", b"/", b"sizeof"]:
        name, words, count = words[1], words[5:], 5
    else:
        return None
    element = [name, b"[", b"0", b"]"]
    if words[:4] == element:
        return name, count + 4
    return (name, count + 6) if words[:6] == [b"(", *element, b")"] else None


def size_edits(pieces):
    """Questions for the number of elements of an array."""
    text = Text(pieces)
    if any(context.line == "Other" for context in text.before):
        return []
    edits, count = [], 0
    for at, (_, _, it) in enumerate(pieces):
        context = text.before[at]
        before = context.last == ("Word", "Return") or (context.last[0] == "Sign" and context.last[1] in BEFORE)
        if it != b"sizeof" or not is_code(context.line) or not before or (edits and at <= edits[-1][0] + edits[-1][1]):
            continue
        count += 1
        tokens = text.tokens(at + 1)[:12]
        found = asked([word for _, _, word in tokens])
        size = length(text, found[0]) if found and count <= 32 else None
        if size:
            edits.append((at, tokens[found[1] - 1][0] - at, "UnsignedSuffix", size))
    return edits
