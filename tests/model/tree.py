"""The parser of the model, but for directives: the tree of a source, by docs/LANGUAGE.md, "Grammar" (C17 6.5 to 6.9)."""
from tokens import KEYWORDS, Refused

MOST_TOKENS = 4096      # of a whole expression
DEEPEST_BRACKETS = 128
DEEPEST_BLOCKS = 128
DEEPEST_STATEMENTS = 1024
STAND_ALONE = ("barrier", "taskwait", "taskyield", "flush")
ASSIGNMENTS = ("=", "+=", "-=", "*=", "/=", "%=")
# C17 6.5.5 to 6.5.14, the operators that bind least first
LEVELS = [("||",), ("&&",), ("==", "!="), ("<", ">", "<=", ">="), ("+", "-"), ("*", "/", "%")]
STATEMENT_WORDS = ("if", "while", "do", "for", "return", "break", "continue")


class Node:
    """A node of the tree: its kind, the place of its first token, and the fields of its kind."""

    def __init__(self, kind, place, **fields):
        self.kind, self.place = kind, place
        self.__dict__.update(fields)


class Reader:
    """The tokens, and how far they are read."""

    def __init__(self, tokens):
        self.tokens, self.position = tokens, 0
        self.depth = self.blocks = 0
        self.start = None      # the position of the first token of the whole expression that is being read
        self.in_atomic = False

    @property
    def token(self):
        return self.tokens[self.position]

    def fail(self, code=3):
        raise Refused(code, self.token.place)

    def is_too_long(self):
        return self.start is not None and self.position - self.start >= MOST_TOKENS

    def take(self):
        if self.is_too_long():
            self.fail(16)
        self.position += 1
        return self.tokens[self.position - 1]

    def is_mark(self, *marks):
        return self.token.kind == "mark" and self.token.value in marks

    def is_word(self, *words):
        return self.token.kind == "name" and self.token.value in words

    def is_name(self):
        return self.token.kind == "name" and self.token.value not in KEYWORDS

    def mark(self, mark):
        if not self.is_mark(mark):
            self.fail()
        return self.take()

    def word(self, word):
        if not self.is_word(word):
            self.fail()
        return self.take()

    def name(self):
        if not self.is_name():
            self.fail()
        return self.take()

    def number(self):
        if self.token.kind != "number":
            self.fail()
        return self.take().value

    def open(self, mark):
        if not self.is_mark(mark):
            self.fail()
        if self.is_too_long() or self.depth >= DEEPEST_BRACKETS:
            self.fail(16)
        self.depth += 1
        return self.take()

    def close(self, mark):
        self.mark(mark)
        self.depth -= 1

    def list_of(self, part):
        """One or more parts, with commas between them."""
        parts = [part()]
        while self.is_mark(","):
            self.take()
            parts.append(part())
        return parts


class Expressions(Reader):
    """Expressions (C17 6.5)."""

    def whole(self):
        self.start = self.position
        whole = self.expression()
        self.start = None
        return whole

    def expression(self):
        target = self.choice()
        if self.is_mark(*ASSIGNMENTS) and target.kind not in ("binary", "logic", "choice"):
            operator = self.take().value
            return Node("assign", target.place, operator=operator, target=target, value=self.expression())
        return target

    def choice(self):
        condition = self.binary(0)
        if not self.is_mark("?"):
            return condition
        self.take()
        chosen = self.expression()
        self.mark(":")
        return Node("choice", condition.place, condition=condition, chosen=chosen, other=self.choice())

    def binary(self, level):
        if level == len(LEVELS):
            return self.unary()
        left = self.binary(level + 1)
        while self.is_mark(*LEVELS[level]):
            operator = self.take().value
            kind = "logic" if level < 2 else "binary"
            left = Node(kind, left.place, operator=operator, left=left, right=self.binary(level + 1))
        return left

    def unary(self):
        operators = []
        while self.is_mark("+", "-", "!", "++", "--"):
            operators.append(self.take())
        operand = self.postfix()
        for token in reversed(operators):
            kind = "prefix" if len(token.value) == 2 else "unary"
            operand = Node(kind, token.place, operator=token.value, operand=operand)
        return operand

    def postfix(self):
        operand = self.operand()
        while self.is_mark("++", "--"):
            operand = Node("postfix", operand.place, operator=self.take().value, operand=operand)
        return operand

    def operand(self):
        first = self.token
        if first.kind == "number":
            self.take()
            return Node("number", first.place, value=first.value)
        if self.is_mark("("):
            self.open("(")
            inner = Node("parentheses", first.place, inner=self.expression())
            self.close(")")
            return inner
        if not self.is_name():
            self.fail()
        self.take()
        if self.is_mark("["):
            self.open("[")
            index = self.expression()
            self.close("]")
            return Node("index", first.place, name=first.value, index=index)
        if self.is_mark("("):
            return self.call(first)
        return Node("name", first.place, name=first.value)

    def call(self, name):
        self.open("(")
        values, text = [], None
        if self.token.kind == "text" and name.value == "printf":
            text = self.take().value
            if self.is_mark(","):
                self.take()
                values = self.list_of(self.expression)
        elif not self.is_mark(")"):
            values = self.list_of(self.expression)
        self.close(")")
        return Node("call", name.place, name=name.value, values=values, text=text)


class Statements(Expressions):
    """Declarations, functions and statements (C17 6.7 to 6.9)."""

    def declaration(self, first, is_global):
        """What stands behind `int`: the declarators, up to the `;`."""
        declarators = self.list_of(lambda: self.declarator(is_global))
        self.mark(";")
        return Node("declaration", first.place, declarators=declarators)

    def declarator(self, is_global):
        token = self.name()
        declarator = Node("declarator", token.place, name=token.value, size=None, initial=None)
        if self.is_mark("["):
            self.open("[")
            declarator.size = self.number()
            self.close("]")
        elif self.is_mark("="):
            self.take()
            if not is_global:
                declarator.initial = self.whole()
            elif self.is_mark("-"):
                self.take()
                declarator.initial = -self.number()
            else:
                declarator.initial = self.number()
        return declarator

    def source(self):
        """The items of a source, and the place of its end."""
        items = []
        while self.token.kind != "end":
            if not self.is_word("int", "void"):
                self.fail()
            first = self.take()
            if self.is_name() and (first.value == "void" or self.tokens[self.position + 1][:2] == ("mark", "(")):
                items.append(self.function(first))
            elif first.value == "void":
                self.fail()
            else:
                items.append(self.declaration(first, True))
        return items, self.token.place

    def parameter(self):
        """The place of a parameter, and its name where it has one."""
        return self.word("int").place, self.take() if self.is_name() else None

    def function(self, first):
        name = self.name()
        self.open("(")
        parameters, is_empty = [], self.is_mark(")")
        if self.is_word("void"):
            self.take()
        elif not is_empty:
            parameters = self.list_of(self.parameter)
        self.close(")")
        function = Node("function", first.place, name=name.value, name_place=name.place, result=first.value,
                        parameters=parameters, body=None)
        if self.is_mark(";"):
            self.take()
        elif self.is_mark("{") and all(parameter for _, parameter in parameters):
            function.body = self.block(0)
        else:
            self.fail()
        return function

    def enter(self):
        if not self.is_mark("{"):
            self.fail()
        if self.blocks >= DEEPEST_BLOCKS:
            self.fail(16)
        self.blocks += 1
        return self.take()

    def block(self, around):
        block = Node("block", self.enter().place, items=[], end=0)
        while not self.is_mark("}"):
            if self.is_word("int"):
                block.items.append(self.declaration(self.take(), False))
            else:
                block.items.append(self.statement(around + 1, True))
        block.end = self.take().place
        self.blocks -= 1
        return block

    def begins_statement(self):
        return self.token.kind in ("number", "directive") or self.is_name() or self.is_word(*STATEMENT_WORDS) \
            or self.is_mark("{", ";", "(", "+", "-", "!", "++", "--")

    def statement(self, around, is_item=False):
        """A statement with that many round it; as an item of a block it may be a directive alone."""
        first = self.token
        if not self.begins_statement():
            self.fail()
        stands_alone = is_item and first.kind == "directive" and self.tokens[self.position + 1].value in STAND_ALONE
        if around > DEEPEST_STATEMENTS and not stands_alone:
            self.fail(16)
        if first.kind == "directive":
            return self.directive_statement(around, is_item)
        if self.is_mark("{"):
            return self.block(around)
        if self.is_mark(";"):
            self.take()
            return Node("empty", first.place)
        if not self.is_word(*STATEMENT_WORDS):
            value = self.whole()
            self.mark(";")
            return Node("expression", first.place, value=value)
        self.take()
        if first.value in ("break", "continue"):
            self.mark(";")
            return Node(first.value, first.place)
        if first.value == "return":
            value = None if self.is_mark(";") else self.whole()
            self.mark(";")
            return Node("return", first.place, value=value)
        return {"do": self.do_loop, "for": self.for_loop}.get(first.value, self.branch)(first, around)

    def do_loop(self, first, around):
        statement = self.statement(around + 1)
        self.word("while")
        self.open("(")
        condition = self.whole()
        self.close(")")
        self.mark(";")
        return Node("do", first.place, condition=condition, statement=statement)

    def for_loop(self, first, around):
        self.open("(")
        begin = condition = step = None
        if self.is_word("int"):
            begin = self.declaration(self.take(), False)
        else:
            if not self.is_mark(";"):
                begin = Node("expression", self.token.place, value=self.whole())
            self.mark(";")
        if not self.is_mark(";"):
            condition = self.whole()
        self.mark(";")
        if not self.is_mark(")"):
            step = Node("expression", self.token.place, value=self.whole())
        self.close(")")
        statement = self.statement(around + 1)
        return Node("for", first.place, begin=begin, condition=condition, step=step, statement=statement)

    def branch(self, first, around):
        """An `if` or a `while`; an `else` belongs to the nearest `if` that has none (C17 6.8.4.1p3)."""
        self.open("(")
        condition = self.whole()
        self.close(")")
        statement = self.statement(around + 1)
        if first.value == "while":
            return Node("while", first.place, condition=condition, statement=statement)
        other = None
        if self.is_word("else"):
            self.take()
            other = self.statement(around + 1)
        return Node("if", first.place, condition=condition, statement=statement, other=other)
