"""port_stages.py: the first two stages of the model of the port: names that are written out, and lists of values.

Each answers edits of the pieces of a text: the first piece, how many more are taken, the rule, and what is written.
"""
from port import GAPS, WORDKINDS, begins, behind, cls, cut, first, is_code, sign

SPACES = ("Space", "Comment")
WHOLE = ("Int", "Signed", "Long", "Char", "Short", "Unsigned", "Truth")


class Text:
    """The pieces of a text, the class of each, and what stands before it."""

    def __init__(self, pieces):
        self.pieces = pieces
        self.classes = [cls(piece) for piece in pieces]
        self.before, context = [], first()
        for one in self.classes:
            self.before.append(context)
            context = behind(context, one)

    def tokens(self, at):
        """The tokens from a piece on, each with its number, class and bytes."""
        return [(i, self.classes[i], self.pieces[i][2]) for i in range(at, len(self.pieces)) if self.classes[i][0] not in GAPS]


def macro(text, at, names):
    """The macro that the line defines whose `#` this is."""
    if text.before[at].line != "Fresh" or text.pieces[at][0] != "Mark" or text.pieces[at][2] != b"#":
        return None
    line = []
    for piece in text.pieces[at + 1:]:
        if piece[0] == "LineEnd":
            break
        line.append(piece)
    rest = list(line)
    for wanted in (b"define", None):
        while rest and rest[0][0] in SPACES:
            rest.pop(0)
        if not rest or rest[0][0] != "Word" or (wanted and rest[0][2] != wanted):
            return None
        name = rest.pop(0)[2]
    if rest and rest[0][0] == "Mark" and rest[0][2] == b"(":
        return None
    if all(kind in SPACES + ("Number",) for kind, _, _ in rest):
        return None
    if any(kind == "Mark" and it in (b"#", b"##") for kind, _, it in rest):
        return None
    while rest and rest[0][0] in SPACES:
        rest.pop(0)
    body = b"".join(b" " if kind in SPACES else names.get(it, it) if kind == "Word" else it for kind, _, it in rest)
    body = b" " + body + b" "
    if name in names:
        return ("Macro", len(line), []) if names[name] == body else None
    if len(body) > 256:
        return None
    return "Macro", len(line), [(name, body)]


def is_word(one):
    """Whether a class is one of a word."""
    return one[0] in WORDKINDS


def constants(tokens, names):
    """The constants of an enumeration whose `{` stands first, and the tokens behind its `}`."""
    found, base, offset, tokens = [], b"", 0, tokens[1:]
    while tokens and is_word(tokens[0][1]):
        name, tokens = tokens[0][2], tokens[1:]
        if tokens and tokens[0][1] == ("Sign", "Changes"):
            value, tokens = tokens[1:3], tokens[1:]
            if value and value[0][1] == ("Sign", "Minus"):
                if len(value) < 2 or value[1][1][0] != "Number":
                    return None
                base, tokens = b"(-" + value[1][2] + b")", tokens[2:]
            elif value and (is_word(value[0][1]) or value[0][1][0] == "Number"):
                base, tokens = names.get(value[0][2], value[0][2]), tokens[1:]
            else:
                return None
            offset = 0
        text = b"%d" % offset if not base else base if offset == 0 else b"(" + base + b" + %d)" % offset
        found.append((name, text))
        offset += 1
        if tokens and tokens[0][1] == ("Sign", "Comma"):
            tokens = tokens[1:]
        elif not (tokens and sign(tokens[0][1], "CloseBrace")):
            return None
    if not (tokens and sign(tokens[0][1], "CloseBrace")):
        return None
    return found, tokens[1:]


def listed(tokens, names):
    """The same, where a tag may stand before the `{`."""
    if tokens and is_word(tokens[0][1]):
        tokens = tokens[1:]
    return constants(tokens, names) if tokens and sign(tokens[0][1], "OpenBrace") else None


def enumeration(text, at, names):
    """What the word `enum` begins."""
    tokens = text.tokens(at + 1)
    if b"{" not in [it for _, _, it in tokens[:2]]:
        return "EnumerationType", tokens[0][0] - at if tokens else len(text.pieces) - at - 1, []
    context = text.before[at]
    if context.braces or not begins(context):
        return None
    parts = listed(tokens, names)
    if not parts or not parts[1] or not sign(parts[1][0][1], "Semicolon"):
        return None
    return "Enumeration", parts[1][0][0] - at, parts[0]


def typedef(text, at, names):
    """What the word `typedef` begins."""
    tokens = text.tokens(at + 1)
    if tokens and tokens[0][2] == b"enum":
        parts = listed(tokens[1:], names)
        if not parts or len(parts[1]) < 2 or not is_word(parts[1][0][1]) or not sign(parts[1][1][1], "Semicolon"):
            return None
        # The last word that is none of a type gives the name.
        words = [it for i, one, it in tokens if i <= parts[1][0][0] and is_word(one) and not of_type(one)]
        return "EnumerationTypedef", parts[1][1][0] - at, parts[0] + [(words[-1], b" int")]
    if tokens and tokens[0][2] in names:
        if len(tokens) < 3 or not is_word(tokens[0][1]) or any(of_type(one) for _, one, _ in tokens[:2]):
            return None
        if not is_word(tokens[1][1]) or not sign(tokens[2][1], "Semicolon"):
            return None
        return "Typedef", tokens[2][0] - at, [(tokens[1][2], names[tokens[0][2]])]
    count = 0
    while count < len(tokens) and of_type(tokens[count][1]):
        count += 1
    rest = tokens[count:]
    if count == 0 or len(rest) < 2 or not is_word(rest[0][1]) or not sign(rest[1][1], "Semicolon"):
        return None
    return "Typedef", rest[1][0] - at, [(rest[0][2], b"".join(b" " + it for _, _, it in tokens[:count]))]


def of_type(one):
    """Whether a class is one of a word of a type of whole numbers, or of `const`."""
    return (one[0] == "Type" and one[1] in WHOLE) or one == ("Storage", "Plain")


def definition(text, at, names):
    """What is defined at a piece: its rule, how many more pieces it takes, and the names."""
    kind, _, it = text.pieces[at]
    context = text.before[at]
    if kind == "Word" and it == b"enum" and is_code(context.line):
        return enumeration(text, at, names)
    if kind == "Word" and it == b"typedef" and is_code(context.line) and context.braces == 0 and begins(context):
        return typedef(text, at, names)
    return macro(text, at, names)


def name_edits(pieces):
    """Names that are written out."""
    text = Text(pieces)
    if any(context.line == "Other" for context in text.before):
        return []
    names, edits, at = {}, [], 0
    while at < len(pieces):
        found = definition(text, at, names)
        if found:
            rule, size, more = found
            edits.append((at, size, rule, b"int" if rule == "EnumerationType" else b""))
            for name, it in more:
                names.setdefault(name, it)
            at += size
        elif pieces[at][0] == "Word" and text.before[at].line in ("Fresh", "Code", "Omp") and pieces[at][2] in names:
            edits.append((at, 0, "Use", names[pieces[at][2]]))
        at += 1
    # cpp reads a text again where it is used, with names that are defined behind it.
    order = {name: i for i, name in enumerate(names)}
    tangled = any(order.get(it, -1) > order[name] for name in names for _, _, it in cut(names[name]))
    return [] if tangled else edits


def values(text, at):
    """The list behind the name of an array: how many pieces it takes, its length, and its values."""
    tokens = text.tokens(at + 1)
    signs = [one[1] if one[0] == "Sign" else one for _, one, _ in tokens]
    if not signs or signs[0] != "OpenBracket":
        return None
    length, next_ = None, 1
    if len(tokens) > 1 and (tokens[1][1][0] == "Number" or tokens[1][1] == ("Word", "Other")):
        length, next_ = tokens[1][2], 2
    if signs[next_:next_ + 3] != ["CloseBracket", "Changes", "OpenBrace"]:
        return None
    found, depth, fresh, next_ = [], 0, True, next_ + 3
    while next_ < len(tokens):
        _, one, it = tokens[next_]
        what = one[1] if one[0] == "Sign" else None
        if what == "CloseBrace" and depth == 0:
            break
        if what in ("OpenBrace", "CloseBrace", "Semicolon", "Changes", "Hash") or one[0] == "Text":
            return None
        if what in ("Close", "CloseBracket") and depth == 0:
            return None
        depth += {"Open": 1, "OpenBracket": 1, "Close": -1, "CloseBracket": -1}.get(what, 0)
        if what == "Comma" and depth == 0:
            fresh = True
        elif fresh:
            found.append([it])
            fresh = False
        else:
            found[-1].append(it)
        next_ += 1
    if next_ + 1 >= len(tokens) or signs[next_ + 1] != "Semicolon":
        return None
    return tokens[next_ + 1][0] - at - 1, length or b"%d" % len(found), found


def stores(name, found):
    """A store for each value."""
    return b";".join(b" " + name + b"[%d] =" % i + b"".join(b" " + it for it in value) for i, value in enumerate(found))


def is_static(text, at):
    """Whether `static` stands in the declaration before a piece."""
    while at > 0:
        at -= 1
        if text.classes[at] in (("Sign", "Semicolon"), ("Sign", "OpenBrace"), ("Sign", "CloseBrace")):
            return False
        if text.classes[at] == ("Storage", "Static") and is_code(text.before[at].line):
            return True
    return False


def list_edits(pieces):
    """Lists of values."""
    text = Text(pieces)
    free = all(it != b"list__i" for _, _, it in pieces)
    filled = text.classes.count(("Word", "Main")) > 1
    all_stores, edits, at = b"", [], 0
    while at < len(pieces):
        context, one, name = text.before[at], text.classes[at], pieces[at][2]
        declared = is_code(context.line) and one == ("Word", "Other") and context.typed and context.parens == 0
        once = declared and context.braces and is_static(text, at)
        found = values(text, at) if free and declared and not once else None
        begins_main = context.in_main and context.braces == 0 and sign(one, "OpenBrace")
        if found and (context.braces or not filled):
            size, length, parts = found
            new = name + b"[" + length + b"]"
            if context.braces:
                new += b";" + stores(name, parts)
                if length != b"%d" % len(parts):
                    new += b"; for (int list__i = %d; list__i < " % len(parts) + length + b"; list__i++) " + name + b"[list__i] = 0"
            else:
                all_stores += stores(name, parts) + b";"
            edits.append((at, size, "List" if context.braces else "FileList", new))
            at += size
        elif begins_main and not filled and all_stores and not found:
            edits.append((at, 0, "Fill", b"{" + all_stores))
        filled = filled or begins_main
        at += 1
    return edits
