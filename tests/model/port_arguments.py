"""port_arguments.py: a stage of the model of the port: what `main` is given.

It answers edits of the pieces of a text, as port_stages.py does.
"""
from port import facts, is_code
from port_stages import Text

ARGUMENT = ("Word", "Argument")
MAIN = ("Word", "Main")


def in_body(context):
    """Whether it is in the body of `main`."""
    return context.in_main and context.braces > 0 and is_code(context.line)


def argument_edits(pieces):
    """The number of arguments, and the numbers that they stand for."""
    text = Text(pieces)
    edits, heads, uses = [], 0, 0
    for at, (context, one) in enumerate(zip(text.before, text.classes)):
        if one == ARGUMENT:
            uses += context.braces > 0 or not is_code(context.line)
        if one == MAIN and context.braces == 0:
            heads += [it for _, _, it in text.tokens(at + 1)[:3]] == [b"(", b"int", b"argc"]
        if in_body(context) and pieces[at][2] == b"argc":
            edits.append((at, 0, "Main", b"1"))
        if in_body(context) and pieces[at][2] == b"atoi":
            after = text.tokens(at + 1)[:6]
            words = [it for _, _, it in after]
            if words[:3] == [b"(", b"argv", b"["] and words[4:] == [b"]", b")"]:
                edits.append((at, after[5][0] - at, "Main", b"0"))
    if text.classes.count(MAIN) != 1 or heads != 1 or uses != len(edits) or facts(text.classes)[0]:
        return []
    return edits
