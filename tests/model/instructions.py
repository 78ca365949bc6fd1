"""The code of a tree in the model: docs/LANGUAGE.md, "The code of each form" and "How large code may be"."""
from bisect import bisect_right
from names import without_parentheses
from tokens import INT_MAX

MOST_SLOTS = 256
MOST_CELLS = 4096
MOST_OPERANDS = 256
MOST_INSTRUCTIONS = 65536
OPERATIONS = {"+": "add", "-": "sub", "*": "mul", "/": "div", "%": "mod", "<": "lt", "<=": "le", ">": "gt",
              ">=": "ge", "==": "eq", "!=": "ne"}
# What a reduced copy begins with (OpenMP 5.2, 5.5.3)
STARTS = {"+": 0, "*": 1, "max": -INT_MAX - 1, "min": INT_MAX}
# How many operands more an instruction leaves; the others stand in `height_behind`.
HEIGHTS = {"CONST": 1, "DUP": 1, "POP": -1, "BIN": -1, "JZ": -1, "TNUM": 1, "TSIZE": 1, "LOAD": 1, "LOOP": -2,
           "MASKED": -1, "ATOM": -1, "ATOMX": -2, "RET": -1}


class Body:
    """The code of a region, with the line of each instruction, and where each variable is in scope."""

    def __init__(self, region, outer):
        self.code, self.lines, self.region = [], [], region
        self.atomic = set()         # the places of the loads and stores of `atomic read` and `atomic write`
        self.outer = outer          # the variables in scope round the construct
        self.variables = []         # the variable, the first instruction in its scope, and the one behind its scope
        self.copied = [slot for slot, _ in sorted(region.copied, key=lambda pair: pair[0])]


def height_behind(height, operation, arguments):
    height += HEIGHTS.get(operation, 0)
    if operation == "STORE":
        return height - 1 + arguments[1]
    if operation == "STOREX":
        return height - 2 + arguments[1]
    if operation == "CALL":
        return height + 1 - arguments[0].parameters
    if operation == "PRINT":
        return height - arguments[1]
    if operation == "FORK":
        return height - len(arguments[0].copied) - arguments[1]
    if operation == "SPAWN":
        return height - len(arguments[0].copied)
    return height


def is_too_large(body):
    """Whether a body passes a limit of "How large code may be"."""
    sizes = [variable.size or 1 for variable, cells in body.region.slots if cells == "own"]
    if len(body.region.slots) > MOST_SLOTS or sum(sizes) > MOST_CELLS or len(body.code) > MOST_INSTRUCTIONS:
        return True
    seen, ways = set(), [(0, 0)]
    while ways:
        place, height = ways.pop()
        while place < len(body.code) and place not in seen:
            seen.add(place)
            operation, *arguments = body.code[place]
            height = height_behind(height, operation, arguments)
            if height > MOST_OPERANDS:
                return True
            if operation in ("JMP", "JZ", "GRAB", "SINGLE", "MASKED"):
                ways.append((arguments[0], height))
            elif operation == "ITER":
                ways.append((arguments[1], height))
            elif operation == "PICK":
                ways += [(part, height) for part in arguments[0]]
            if operation in ("JMP", "RET", "RETN", "FIN", "PICK", "LEAVE", "TEND"):
                break
            place += 1
    return False


class Emitter:
    """Writes the body of one function or construct at a time."""

    def __init__(self, source, resolved):
        self.line_ends = [place for place, byte in enumerate(source) if byte == 10]
        self.resolved, self.visible, self.loops = resolved, [], []

    def line(self, place):
        return bisect_right(self.line_ends, place - 1) + 1

    def emit(self, *instruction):
        self.body.code.append(list(instruction))
        self.body.lines.append(self.at_line)
        return len(self.body.code) - 1

    @property
    def here(self):
        return len(self.body.code)

    def patch(self, jump, place=None):
        """The jump goes to that place, or to the instruction that comes next."""
        self.body.code[jump][1] = self.here if place is None else place

    def patch_all(self, jumps, place=None):
        for jump in jumps:
            self.patch(jump, place)

    def begin(self, variable, place=None):
        """The variable is in scope from that place on, or from here."""
        self.visible.append(variable)
        self.body.variables.append([variable, self.here if place is None else place, None])

    def end(self, number):
        """All but that many of the visible variables end here."""
        for variable in self.visible[number:]:
            for entry in self.body.variables:
                if entry[0] is variable:
                    entry[2] = self.here
        del self.visible[number:]

    def reference(self, variable):
        return ("global", variable) if variable.is_global else ("slot", self.body.region.slot_of[variable])


class ExpressionCode(Emitter):
    """The first table of "The code of each form"."""

    def value(self, node):
        kind = node.kind
        if kind == "number":
            self.emit("CONST", node.value)
        elif kind == "name":
            self.emit("LOAD", self.reference(node.variable))
        elif kind == "index":
            self.value(node.index)
            self.emit("LOADX", self.reference(node.variable))
        elif kind == "parentheses":
            self.value(node.inner)
        elif kind == "unary":
            self.value(node.operand)
            if node.operator != "+":
                self.emit("UN", "neg" if node.operator == "-" else "not")
        elif kind == "binary":
            self.value(node.left)
            self.value(node.right)
            self.emit("BIN", OPERATIONS[node.operator])
        elif kind == "call":
            self.call(node)
            if not node.function.is_builtin:
                self.emit("USE")
        elif kind == "choice":
            self.choice(node)
        elif kind == "logic":
            self.logic(node)
        else:
            self.store(node, 1)

    def choice(self, node):
        self.value(node.condition)
        to_other = self.emit("JZ", None)
        self.value(node.chosen)
        to_end = self.emit("JMP", None)
        self.patch(to_other)
        self.value(node.other)
        self.patch(to_end)

    def logic(self, node):
        """`&&` and `||` (C17 6.5.13, 6.5.14): the right operand runs only where the left one leaves it open."""
        self.value(node.left)
        jump = self.emit("JZ", None)
        to_end, to_zero = [], [jump]
        if node.operator == "||":
            self.emit("CONST", 1)
            to_end.append(self.emit("JMP", None))
            self.patch(jump)
            to_zero = []
        self.value(node.right)
        to_zero.append(self.emit("JZ", None))
        self.emit("CONST", 1)
        to_end.append(self.emit("JMP", None))
        self.patch_all(to_zero)
        self.emit("CONST", 0)
        self.patch_all(to_end)

    def call(self, node):
        for value in node.values:
            self.value(value)
        if not node.function.is_builtin:
            self.emit("CALL", node.function)
        elif node.name == "printf":
            self.emit("PRINT", node.text, len(node.values))
        else:
            self.emit("TNUM" if node.name == "omp_get_thread_num" else "TSIZE")

    def store(self, node, keep):
        """An assignment, `++` or `--`; where it keeps the value that is its own, `x++` takes its 1 away again."""
        target = without_parentheses(node.target if node.kind == "assign" else node.operand)
        reference, is_indexed = self.reference(target.variable), target.kind == "index"
        operation = None if node.kind == "assign" and node.operator == "=" else OPERATIONS[node.operator[0]]
        if is_indexed:
            self.value(target.index)
        if operation and is_indexed:
            self.emit("DUP")
            self.emit("LOADX", reference)
        elif operation:
            self.emit("LOAD", reference)
        if node.kind == "assign":
            self.value(node.value)
        else:
            self.emit("CONST", 1)
        if operation:
            self.emit("BIN", operation)
        self.emit("STOREX" if is_indexed else "STORE", reference, keep)
        if keep and node.kind == "postfix":
            self.emit("CONST", 1)
            self.emit("BIN", "sub" if operation == "add" else "add")

    def discard(self, node):
        """An expression whose value is not used."""
        inner = without_parentheses(node)
        if inner.kind in ("assign", "prefix", "postfix"):
            self.store(inner, 0)
        elif inner.kind == "call":
            self.call(inner)
            if inner.name != "printf":
                self.emit("POP")
        else:
            self.value(inner)
            self.emit("POP")


class StatementCode(ExpressionCode):
    """The second table."""

    def statement(self, node):
        kind = node.kind
        self.at_line = line = self.line(node.place)
        if kind == "block":
            number = len(self.visible)
            for item in node.items:
                self.statement(item)
            self.end(number)
        elif kind == "declaration":
            self.declaration(node)
        elif kind == "expression":
            self.discard(node.value)
        elif kind == "return":
            if node.value:
                self.value(node.value)
            if self.is_main:
                self.emit("FIN", int(node.value is not None))
            else:
                self.emit("RET" if node.value else "RETN")
        elif kind in ("break", "continue"):
            self.loops[-1][kind].append(self.emit("JMP", None))
        elif kind == "if":
            self.branch(node, line)
        elif kind in ("while", "do", "for"):
            self.serial_loop(node, line)
        elif kind == "directive":
            self.directive(node, line)

    def branch(self, node, line):
        self.value(node.condition)
        jump = self.emit("JZ", None)
        self.statement(node.statement)
        self.at_line = line
        if node.other:
            to_end = self.emit("JMP", None)
            self.patch(jump)
            self.statement(node.other)
            jump = to_end
        self.patch(jump)

    def declaration(self, node):
        for declarator, variable in zip(node.declarators, node.variables):
            self.begin(variable)
            if declarator.initial is None:
                self.emit("CLEAR", self.body.region.slot_of[variable])
            else:
                self.value(declarator.initial)
                self.emit("STORE", self.reference(variable), 0)

    def loop_body(self, node, line):
        """The statement of a loop; gives the jumps of its `break` and `continue`."""
        self.loops.append({"break": [], "continue": []})
        self.statement(node)
        self.at_line = line
        return self.loops.pop()

    def serial_loop(self, node, line):
        number = len(self.visible)
        if node.kind == "for" and node.begin:
            if node.begin.kind == "declaration":
                self.declaration(node.begin)
            else:
                self.discard(node.begin.value)
        top, exits = self.here, []
        if node.kind != "do" and node.condition:
            self.value(node.condition)
            exits.append(self.emit("JZ", None))
        jumps = self.loop_body(node.statement, line)
        self.patch_all(jumps["continue"], top if node.kind == "while" else None)
        if node.kind == "do":
            self.value(node.condition)
            exits.append(self.emit("JZ", None))
        if node.kind == "for" and node.step:
            self.discard(node.step.value)
        self.emit("JMP", top)
        self.patch_all(exits + jumps["break"])
        self.end(number)
