"""The directives of the model's parser: docs/LANGUAGE.md, "Directive lines" and the forms of `atomic` (OpenMP 5.2, 3.1, 4.3.1.3 and 15.8.4)."""
from tokens import Refused
from tree import Node, STAND_ALONE, Statements

DATA = ("shared", "private", "firstprivate", "reduction")
# The clauses of each directive: the first table of "Directive lines".
ALLOWED = {
    "parallel": ("num_threads", "default", *DATA),
    "for": ("schedule", "private", "firstprivate", "reduction", "nowait"),
    "sections": ("private", "firstprivate", "reduction", "nowait"),
    "section": (), "single": ("private", "firstprivate", "nowait"),
    "parallel for": ("num_threads", "default", *DATA, "schedule"),
    "parallel sections": ("num_threads", "default", *DATA),
    "masked": ("filter",), "master": (), "critical": (),
    "atomic": ("update", "read", "write", "seq_cst", "relaxed"),
    "task": ("default", "shared", "private", "firstprivate"), "taskgroup": (),
    "barrier": (), "taskwait": (), "taskyield": (), "flush": (),
}
CLAUSES = set(clause for clauses in ALLOWED.values() for clause in clauses)
BARE = ("nowait", "update", "read", "write", "seq_cst", "relaxed")
GROUPS = (("update", "read", "write"), ("seq_cst", "relaxed"))


class Parser(Statements):
    def directive_statement(self, around, is_item):
        directive = self.directive(is_item, False)
        if directive.name in STAND_ALONE:
            return directive
        if directive.name.endswith("sections"):
            directive.body = self.parts(around + 1)
            return directive
        # Where one `atomic` stands in another, S6 is at the outermost.
        is_outermost = directive.name == "atomic" and not self.in_atomic
        if is_outermost:
            self.in_atomic = True
        directive.body = self.statement(around + 1)
        if is_outermost:
            self.in_atomic = False
            directive.form = atomic_form(directive)
            if directive.form is None:
                raise Refused(6, directive.word)
        return directive

    def parts(self, around):
        """The parts of a `sections` (OpenMP 5.2, 11.3); the first one may lack its `section`."""
        self.enter()
        parts = []
        while True:
            if self.token.kind == "directive" and self.tokens[self.position + 1].value == "section":
                if parts and not parts[-1].items:
                    self.position += 1
                    self.fail()
                place = self.token.place
                self.directive(True, True)
                parts.append(Node("part", place, items=[]))
            elif self.is_mark("}") and parts and parts[-1].items:
                self.take()
                self.blocks -= 1
                return parts
            else:
                if not parts:
                    parts.append(Node("part", self.token.place, items=[]))
                if not self.begins_statement():
                    self.fail()
                parts[-1].items.append(self.statement(around + 1, True))

    def directive(self, is_item, is_part):
        place, word = self.take().place, self.token
        if word.kind != "name":
            self.fail()
        name = word.value
        if name not in ALLOWED:
            self.fail(5)
        if name in STAND_ALONE and not is_item or name == "section" and not is_part:
            self.fail()
        self.take()
        if name == "parallel" and self.is_word("for", "sections"):
            name += " " + self.take().value
        directive = Node("directive", place, name=name, word=word.place, clauses=[], argument=None, body=None, form=None)
        if name in ("critical", "flush") and self.is_mark("("):
            self.open("(")
            directive.argument = self.name().value if name == "critical" else self.list_of(self.name)
            self.close(")")
        while self.token.kind != "directive_end":
            if directive.clauses and self.is_mark(","):
                self.take()
            if self.token.kind != "name":
                self.fail()
            directive.clauses.append(self.clause(name, [clause.kind for clause in directive.clauses]))
        self.take()
        return directive

    def clause(self, directive, before):
        """A clause; what is wrong inside it is S6 at its word, but for the expression of `num_threads` and `filter`."""
        word = self.token
        if word.value not in CLAUSES:
            self.fail(5)
        bad = Refused(6, word.place)
        if word.value not in ALLOWED[directive] or word.value in before and word.value not in DATA:
            raise bad
        if any(word.value in group and set(group) & set(before) for group in GROUPS):
            raise bad
        self.take()
        clause = Node(word.value, word.place)
        if word.value in BARE:
            return clause
        if not self.is_mark("("):
            raise bad
        if word.value in ("num_threads", "filter"):
            self.find_close(bad)
            self.open("(")
            clause.value = self.whole()
            self.close(")")
            return clause
        try:
            self.clause_inside(clause, bad)
        except Refused:
            raise bad
        return clause

    def find_close(self, bad):
        """Refuses parentheses that nothing closes on the line, or with nothing between them."""
        level, at = 0, self.position
        while True:
            token = self.tokens[at]
            if token.kind == "directive_end":
                raise bad
            level += (token.kind == "mark" and token.value == "(") - (token.kind == "mark" and token.value == ")")
            if level == 0:
                break
            at += 1
        if at == self.position + 1:
            raise bad

    def clause_inside(self, clause, bad):
        self.open("(")
        if clause.kind == "default":
            if not self.is_word("shared", "none"):
                raise bad
            clause.argument = self.take().value
        elif clause.kind == "schedule":
            if not self.is_word("static", "dynamic"):
                raise bad
            clause.argument, clause.chunk = self.take().value, None
            if self.is_mark(","):
                self.take()
                if self.token.kind != "number" or self.token.value < 1:
                    raise bad
                clause.chunk = self.take().value
        else:
            if clause.kind == "reduction":
                if not (self.is_mark("+", "*") or self.is_word("max", "min")):
                    raise bad
                clause.operator = self.take().value
                self.mark(":")
            clause.names = self.list_of(self.name)
        self.close(")")


def is_same(first, second):
    """Whether two nodes are the same but for their places."""
    if first.kind != second.kind:
        return False
    for key, value in first.__dict__.items():
        other = second.__dict__[key]
        if key == "place":
            continue
        if isinstance(value, Node):
            if not isinstance(other, Node) or not is_same(value, other):
                return False
        elif isinstance(value, list):
            if len(value) != len(other) or not all(is_same(one, two) for one, two in zip(value, other)):
                return False
        elif value != other:
            return False
    return True


def holds(expression, part):
    """Whether the part stands in the expression."""
    if is_same(expression, part):
        return True
    for value in expression.__dict__.values():
        if isinstance(value, Node) and holds(value, part):
            return True
        if isinstance(value, list) and any(holds(one, part) for one in value):
            return True
    return False


def is_place(expression):
    return expression.kind in ("name", "index")


def atomic_form(directive):
    """What an `atomic` does to its variable, or None where its statement is none of the forms (OpenMP 5.2, 15.8.4): ("read",), ("write",)
    or what `update_form` gives."""
    if directive.body.kind != "expression":
        return None
    kind = next((clause.kind for clause in reversed(directive.clauses) if clause.kind in ("read", "write")), "update")
    return update_form(directive.body.value) if kind == "update" else assign_form(directive.body.value, kind)


def assign_form(expression, kind):
    is_form = expression.kind == "assign" and expression.operator == "=" and is_place(expression.target)
    return (kind,) if is_form and (kind == "write" or is_place(expression.value)) else None


def update_form(expression):
    """("update", operator, the variable's side, variable, value): `x++`, `x op= e`, `x = x op e` or `x = e op x`."""
    if expression.kind in ("prefix", "postfix"):
        operand = expression.operand
        return ("update", expression.operator[0], "left", operand, None) if is_place(operand) else None
    if expression.kind != "assign" or not is_place(expression.target):
        return None
    target, value = expression.target, expression.value
    if expression.operator != "=":
        is_form = expression.operator[0] in "+-*/" and not holds(value, target)
        return ("update", expression.operator[0], "left", target, value) if is_form else None
    if value.kind != "binary" or value.operator not in ("+", "-", "*", "/"):
        return None
    if is_same(value.left, target) and not holds(value.right, target):
        return "update", value.operator, "left", target, value.right
    if is_same(value.right, target) and not holds(value.left, target):
        return "update", value.operator, "right", target, value.left
    return None


def tree_of(tokens):
    """The items of a source, and the place of its end."""
    return Parser(tokens).source()
