"""port_arrays.py: a stage of the model of the port: lengths of arrays, and arrays of two dimensions.

It answers edits of the pieces of a text, as port_stages.py does.
"""
import re
from port import begins, is_code, sign
from port_stages import SPACES, Text

NAME = ("Word", "Other")


def number(text):
    """The number of a decimal constant."""
    return int(text) if re.fullmatch(rb"[1-9][0-9]*", text) and int(text) < 65536 else None


def macros(text):
    """The numbers that macros stand for; nothing for one that is defined twice, used before or no number."""
    found = {}
    for at, (kind, _, it) in enumerate(text.pieces):
        if kind == "Word" and is_code(text.before[at].line):
            found.setdefault(it, None)
        if it != b"#" or kind != "Mark" or text.before[at].line != "Fresh":
            continue
        words = []
        for piece in text.pieces[at + 1:]:
            if piece[0] == "LineEnd":
                break
            if piece[0] not in SPACES:
                words.append(piece[2])
        if len(words) > 1 and words[0] == b"define":
            found[words[1]] = number(words[2]) if words[1] not in found and len(words) == 3 else None
    return found


class Arrays:
    """What a text says of its arrays."""

    def __init__(self, pieces):
        self.text = Text(pieces)
        self.macros = macros(self.text)
        self.declares = self.declarators()

    def declarators(self):
        """For each piece whether a declaration names there what it declares."""
        out, declares, gives, depth = [], False, False, 0
        for context, one in zip(self.text.before, self.text.classes):
            out.append(declares and not gives and context.parens == 0 and one == NAME)
            if one[0] in ("Gap", "Join", "LineEnd") or not is_code(context.line):
                continue
            if sign(one, "Semicolon"):
                declares, gives, depth = False, False, 0
            elif gives:
                if depth == 0 and sign(one, "Comma"):
                    gives = False
                elif one[0] == "Sign":
                    depth += {"Open": 1, "OpenBracket": 1, "OpenBrace": 1}.get(one[1], 0)
                    depth -= {"Close": 1, "CloseBracket": 1, "CloseBrace": 1}.get(one[1], 0) if depth else 0
            elif begins(context) and one[0] in ("Type", "Storage"):
                declares = True
            elif declares and sign(one, "Changes"):
                gives, depth = True, 0
            elif declares and sign(one, "OpenBrace"):
                declares = False
        return out

    def value(self, token):
        """The number that a token stands for."""
        found = number(token)
        return self.macros.get(token) if found is None else found

    def constant(self, tokens):
        """The number of the tokens between brackets."""
        if len(tokens) > 2 and tokens[0] == b"(" and tokens[-1] == b")":
            tokens = tokens[1:-1]
        if len(tokens) == 1:
            return self.value(tokens[0])
        if len(tokens) != 3 or tokens[1] not in (b"+", b"-", b"*"):
            return None
        a, b = self.value(tokens[0]), self.value(tokens[2])
        if a is None or b is None:
            return None
        found = {b"+": a + b, b"-": a - b, b"*": a * b}[tokens[1]]
        return found if 0 < found < 65536 else None

    def brackets(self, at):
        """The pieces of each of the brackets directly behind a piece: the number of the `[` and of the `]`."""
        found, at = [], at + 1
        classes = self.text.classes
        while True:
            while at < len(classes) and classes[at][0] in ("Gap", "Join", "LineEnd"):
                at += 1
            if at >= len(classes) or not sign(classes[at], "OpenBracket"):
                return found
            begin, depth = at, 0
            while at < len(classes):
                one = classes[at]
                if one[0] == "Sign" and one[1] in ("Semicolon", "OpenBrace", "CloseBrace", "Hash"):
                    return found + [None]
                depth += {"OpenBracket": 1, "CloseBracket": -1}.get(one[1], 0) if one[0] == "Sign" else 0
                at += 1
                if depth == 0:
                    break
            else:
                return found + [None]
            found.append((begin, at - 1))

    def tokens(self, bracket):
        """The tokens between brackets."""
        begin, end = bracket
        return [it for i, _, it in self.text.tokens(begin + 1) if i < end]

    def columns(self, name):
        """The length of the rows of a name that is one of two dimensions everywhere."""
        columns = None
        for at, (_, _, it) in enumerate(self.text.pieces):
            if it != name or not is_code(self.text.before[at].line):
                continue
            found = self.brackets(at)
            if len(found) != 2 or None in found:
                return None
            if self.declares[at]:
                rows, length = (self.constant(self.tokens(one)) for one in found)
                if rows is None or length is None or rows * length > 65535 or columns not in (None, length):
                    return None
                columns = length
        return columns

    def inner(self, bracket):
        """What stands between brackets, white space as a space."""
        begin, end = bracket
        gaps = ("Gap", "Join", "LineEnd")
        parts = zip(self.text.classes[begin + 1:end], self.text.pieces[begin + 1:end])
        return b"".join(b" " if one[0] in gaps else piece[2] for one, piece in parts)


def array_edits(pieces):
    """Lengths of arrays, and arrays of two dimensions."""
    arrays = Arrays(pieces)
    text = arrays.text
    if any(context.line == "Other" for context in text.before):
        return []
    edits, at = [], 0
    while at < len(pieces):
        name, found = pieces[at][2], []
        if text.classes[at] == NAME and is_code(text.before[at].line):
            found = arrays.brackets(at)
        if found and found != [None]:
            columns = arrays.columns(name)
            if columns:
                size = found[1][1] - at
                if arrays.declares[at]:
                    total = arrays.constant(arrays.tokens(found[0])) * columns
                    edits.append((at, size, "FlatArray", name + b"[%d]" % total))
                else:
                    new = name + b"[(" + arrays.inner(found[0]) + b") * %d + (" % columns + arrays.inner(found[1]) + b")]"
                    edits.append((at, size, "FlatIndex", new))
                at += size
            elif arrays.declares[at] and len(found) == 1:
                tokens = arrays.tokens(found[0])
                value = arrays.constant(tokens) if len(tokens) > 1 else None
                if value:
                    edits.append((at, found[0][1] - at, "Length", name + b"[%d]" % value))
                    at += found[0][1] - at
        at += 1
    return edits
