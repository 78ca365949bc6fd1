"""port_calls.py: the first stage of the model of the port: macros with parameters, whose calls are written out.

It answers edits of the pieces of a text, as port_stages.py does.
"""
from port import GAPS, WORDKINDS, cut, cls, is_code, sign
from port_stages import SPACES, Text

FOREIGN = ("Semicolon", "OpenBrace", "CloseBrace", "Hash")


def spaced(pieces):
    """Some pieces, with a space for white space and comments."""
    return b"".join(b" " if cls(piece)[0] in GAPS else piece[2] for piece in pieces)


def arguments(pieces):
    """The list in parentheses that begins there: how many pieces it has, and those of each argument."""
    depth, found = 0, [[]]
    for at, piece in enumerate(pieces):
        one = cls(piece)
        if one[0] == "Sign" and one[1] in FOREIGN:
            return None
        if depth == 0:
            if sign(one, "Open"):
                depth = 1
            elif one[0] not in GAPS:
                return None
            continue
        if sign(one, "Close") and depth == 1:
            return at + 1, found
        if sign(one, "Comma") and depth == 1:
            found.append([])
            continue
        depth += sign(one, "Open") - sign(one, "Close")
        found[-1].append(piece)
    return None


def function(line):
    """The name and the text of the macro with parameters that a line defines behind its `#`."""
    rest = list(line)
    for wanted in (b"define", None):
        while rest and rest[0][0] in SPACES:
            rest.pop(0)
        if not rest or rest[0][0] != "Word" or (wanted and rest[0][2] != wanted):
            return None
        name = rest.pop(0)[2]
    if not rest or rest[0][2] != b"(" or any(it in (b"#", b"##") for _, _, it in rest):
        return None
    for piece in rest[1:]:
        one = cls(piece)
        if sign(one, "Close"):
            return name, spaced(rest)
        if not (sign(one, "Comma") or one[0] in GAPS or one[0] in WORDKINDS):
            return None
    return None


def called(name, pieces):
    """How often a macro with this name is called among pieces."""
    count = 0
    for at, piece in enumerate(pieces):
        if piece[2] == name:
            more = at + 1
            while more < len(pieces) and cls(pieces[more])[0] in GAPS:
                more += 1
            count += more < len(pieces) and pieces[more][2] == b"("
    return count


def body(text, given):
    """The body of a macro whose list of arguments is this."""
    pieces = cut(text)
    size, parameters = arguments(pieces)
    if len(parameters) != len(given):
        return None
    names = [b"".join(it for kind, _, it in parameter if kind == "Word") for parameter in parameters]
    out = b" "
    for piece in pieces[size:]:
        if piece[0] == "Word" and piece[2] in names:
            out += b" " + spaced(given[names.index(piece[2])]) + b" "
        else:
            out += spaced([piece])
    return out + b" "


def once(text, names):
    """A text where each call is the body of its macro."""
    pieces, out, at = cut(text), b"", 0
    while at < len(pieces):
        found = arguments(pieces[at + 1:]) if pieces[at][2] in names else None
        written = body(names[pieces[at][2]], found[1]) if found else None
        out += spaced([pieces[at]]) if written is None else written
        at += 1 if written is None else 1 + found[0]
    return out


def call_edits(pieces):
    """Macros with parameters, and their calls."""
    text = Text(pieces)
    if any(context.line == "Other" for context in text.before):
        return []
    names, edits, at, defined = {}, [], 0, 0
    while at < len(pieces):
        line = text.before[at].line
        end = next((i for i in range(at, len(pieces)) if pieces[i][0] == "LineEnd"), len(pieces))
        found = function(pieces[at + 1:end]) if line == "Fresh" and pieces[at][2] == b"#" else None
        defined += found is not None
        if found and defined <= 64 and len(found[1]) <= 512:
            name = found[0]
            if sum(piece[2] == name for piece in pieces) == 1 + called(name, pieces[end:]):
                names.setdefault(name, found[1])
                edits.append((at, end - at - 1, "Macro", b""))
                at = end
                continue
        if line in ("Fresh", "Code", "Define", "Omp") and pieces[at][2] in names:
            given = arguments(pieces[at + 1:][:1024] if is_code(line) else pieces[at + 1:end][:1024])
            if given:
                made = spaced(pieces[at:at + 1 + given[0]])
                for _ in range(8):
                    more = once(made, names)
                    if len(more) > 1024:
                        break
                    made = more
                edits.append((at, given[0], "Use", made))
                at += given[0]
        at += 1
    return edits
