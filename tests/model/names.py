"""The names of a tree in the model: docs/LANGUAGE.md, "Names and values" to "Canonical loops" (C17 6.2.1; OpenMP 5.2, 4.4.1, 5 and 17.1)."""
from directives import DATA
from tokens import Refused
from tree import STAND_ALONE

MOST_GLOBAL_CELLS = 65536
MOST_FUNCTIONS = 256
MOST_PARAMETERS = 16
MOST_PRINTED = 16
MOST_PARTS = 256


class Variable:
    def __init__(self, name, size, region, is_global=False, initial=0):
        self.name, self.size, self.region, self.is_global, self.initial = name, size, region, is_global, initial


class Function:
    def __init__(self, name, result, parameters, is_builtin=False):
        self.name, self.result, self.parameters = name, result, parameters
        self.is_builtin = self.is_defined = is_builtin
        self.body = None


class Region:
    """What becomes a body of code: a function, or the statement of a `parallel` or a `task`, with its slots."""

    def __init__(self, kind, outer):
        self.kind, self.outer = kind, outer
        self.slots, self.slot_of = [], {}     # a slot: the variable, and whether its cells are "own" or "shared"
        self.copied = []                      # the firstprivate copies: slot, original
        self.listed, self.is_none, self.is_all_shared = set(), False, False

    def add(self, variable, cells="own"):
        self.slot_of[variable] = len(self.slots)
        self.slots.append((variable, cells))
        return self.slot_of[variable]

    def is_inside(self, other):
        region = self
        while region and region is not other:
            region = region.outer
        return region is other


def without_parentheses(expression):
    while expression.kind == "parentheses":
        expression = expression.inner
    return expression


class Scopes:
    """The scopes round a place of the text, and what is refused so far."""

    def __init__(self, items, end):
        self.items, self.end, self.refusals = items, end, []
        self.scopes, self.constructs, self.region, self.function = [{}], [], None, None
        self.globals, self.functions = [], []

    def refuse(self, code, place):
        self.refusals.append((place, code))

    def find(self, name):
        """What a name means here: the innermost declaration before the use (C17 6.2.1p4)."""
        return next((scope[name] for scope in reversed(self.scopes) if name in scope), None)

    def variable(self, name, place, shape=None):
        """The variable of that name, a scalar or an array where one is asked for; None where it is refused."""
        found = self.find(name)
        if found is None or isinstance(found, Function) and found.name not in self.defined:
            return self.refuse(7, place)
        if isinstance(found, Function) or shape == "scalar" and found.size is not None \
                or shape == "array" and found.size is None:
            return self.refuse(9, place)
        return found

    def use(self, region, variable, place):
        """A variable is used in a region: it gets its slots there, and in the regions round it."""
        while region is not variable.region and region.kind != "function":
            if region.is_none and variable not in region.listed:
                self.refuse(13, place)
            if variable in region.slot_of:
                return
            if not variable.is_global:
                if self.is_shared(region, variable):
                    region.add(variable, "shared")
                else:
                    if variable.size is not None:
                        self.refuse(9, place)
                    region.copied.append((region.add(variable), variable))
            region = region.outer

    @staticmethod
    def is_shared(region, variable):
        """Whether a region shares what it takes from outside (OpenMP 5.2, 5.1.1)."""
        if region.kind == "parallel" or variable in region.listed or region.is_all_shared:
            return True
        parallel = region.outer
        while parallel and parallel.kind != "parallel":
            parallel = parallel.outer
        return parallel is not None and not variable.region.is_inside(parallel)


class Uses(Scopes):
    """Expressions."""

    def expression(self, node, has_value=True):
        kind = node.kind
        if kind in ("name", "index"):
            node.variable = self.variable(node.name, node.place, "scalar" if kind == "name" else "array")
            if node.variable:
                self.use(self.region, node.variable, node.place)
            if kind == "index":
                self.expression(node.index)
        elif kind == "call":
            self.call(node, has_value)
        elif kind == "parentheses":
            self.expression(node.inner, has_value)
        elif kind == "unary":
            self.expression(node.operand)
        elif kind in ("binary", "logic"):
            self.expression(node.left)
            self.expression(node.right)
        elif kind == "choice":
            for part in (node.condition, node.chosen, node.other):
                self.expression(part)
        elif kind in ("assign", "prefix", "postfix"):
            target = node.target if kind == "assign" else node.operand
            if without_parentheses(target).kind not in ("name", "index"):
                self.refuse(9, target.place)
            self.expression(target)
            if kind == "assign":
                self.expression(node.value)

    def call(self, node, has_value):
        """A call of a function, or of `printf` (C17 6.5.2.2, 7.21.6.1)."""
        function = node.function = self.find(node.name)
        if function is None or isinstance(function, Function) and function.name not in self.defined:
            self.refuse(7, node.place)
        elif isinstance(function, Variable) or function.name == "main":
            self.refuse(9, node.place)
        elif function.is_builtin and function.name == "printf":
            wanted = None if node.text is None else self.values_of(node.text)
            if has_value or wanted is None or wanted != len(node.values):
                self.refuse(9, node.place)
            if len(node.values) > MOST_PRINTED:
                self.refuse(11, node.values[MOST_PRINTED].place)
        elif len(node.values) != function.parameters or has_value and function.result == "void":
            self.refuse(9, node.place)
        for value in node.values:
            self.expression(value)

    @staticmethod
    def values_of(text):
        """How many values a format takes, or None where it has another conversion than `%d` and `%%`."""
        rest = text.replace(b"%%", b"")
        return None if b"%" in rest.replace(b"%d", b"") else rest.count(b"%d")


class StatementNames(Uses):
    """Statements."""

    def statement(self, node):
        kind = node.kind
        if kind == "block":
            self.scopes.append({})
            for item in node.items:
                self.statement(item)
            self.scopes.pop()
        elif kind == "declaration":
            self.declaration(node)
        elif kind == "expression":
            self.expression(node.value, False)
        elif kind == "if":
            self.expression(node.condition)
            self.statement(node.statement)
            if node.other:
                self.statement(node.other)
        elif kind in ("while", "do", "for"):
            self.serial_loop(node)
        elif kind == "return":
            if any(construct != "loop" for construct in self.constructs):
                self.refuse(14, node.place)
            if node.value:
                if self.function.result == "void":
                    self.refuse(9, node.value.place)
                self.expression(node.value)
        elif kind in ("break", "continue"):
            innermost = self.constructs[-1] if self.constructs else None
            if innermost != "loop" and (kind == "break" or innermost != "associated"):
                self.refuse(14, node.place)
        elif kind == "directive":
            self.directive(node)

    def declaration(self, node):
        node.variables = []
        for declarator in node.declarators:
            variable = Variable(declarator.name, declarator.size, self.region)
            if declarator.name in self.scopes[-1]:
                self.refuse(8, declarator.place)
            if declarator.size == 0:
                self.refuse(9, declarator.place)
            self.scopes[-1][declarator.name] = variable
            self.region.add(variable)
            node.variables.append(variable)
            if declarator.initial is not None:
                self.expression(declarator.initial)

    def serial_loop(self, node):
        self.scopes.append({})
        if node.kind == "for" and node.begin:
            self.statement(node.begin)
        if node.kind != "do" and node.condition:
            self.expression(node.condition)
        if node.kind == "for" and node.step:
            self.statement(node.step)
        self.constructs.append("loop")
        self.statement(node.statement)
        self.constructs.pop()
        self.scopes.pop()
        if node.kind == "do":
            self.expression(node.condition)


class ConstructNames(StatementNames):
    """Directives with their clauses and statements."""

    def directive(self, node):
        name = node.name
        if name in ("for", "sections", "single", "barrier"):
            self.check_nesting(node)
        if name == "flush":
            for token in node.argument or ():
                variable = self.variable(token.value, token.place)
                if variable:
                    self.use(self.region, variable, token.place)
        if name in STAND_ALONE:
            return
        if name.startswith("parallel") or name == "task":
            self.region_of(node)
        elif name in ("for", "sections", "single"):
            self.worksharing(node, name, self.clauses(node, None))
        else:
            if name == "masked":
                for clause in node.clauses:
                    self.expression(clause.value)
            construct = {"masked": "masked", "master": "masked", "critical": "critical"}.get(name, "other")
            self.constructs.append(construct)
            self.statement(node.body)
            self.constructs.pop()

    def check_nesting(self, node):
        """Worksharing and barriers are not closely nested in these (OpenMP 5.2, 17.1)."""
        for construct in reversed(self.constructs):
            if construct == "parallel":
                return
            if construct in ("worksharing", "task", "critical", "masked", "associated"):
                return self.refuse(14, node.word)

    def region_of(self, node):
        """A `parallel`, alone or combined, or a `task`."""
        outer, kind = self.region, "task" if node.name == "task" else "parallel"
        node.region = Region(kind, outer)
        scope = self.clauses(node, node.region)
        self.scopes.append(scope)
        self.region = node.region
        self.constructs.append(kind)
        if node.name in ("parallel", "task"):
            self.statement(node.body)
        else:
            self.worksharing(node, node.name.split()[1], {})
        self.constructs.pop()
        self.scopes.pop()
        self.region = outer

    def clauses(self, node, inner):
        """The copies that the clauses make, as a scope. `inner` is the region that the directive begins, if it does."""
        scope, seen, node.copies = {}, set(), []
        if inner:
            defaults = [clause.argument for clause in node.clauses if clause.kind == "default"]
            inner.is_none, inner.is_all_shared = "none" in defaults, "shared" in defaults
        for clause in node.clauses:
            if clause.kind in ("num_threads", "filter"):
                self.expression(clause.value)
            for token in clause.names if clause.kind in DATA else ():
                variable = self.variable(token.value, token.place, None if clause.kind == "shared" else "scalar")
                if variable in seen:
                    self.refuse(9, token.place)
                elif variable is not None:
                    seen.add(variable)
                    self.listed(node, clause, token, variable, inner, scope)
        return scope

    def listed(self, node, clause, token, variable, inner, scope):
        """One name in the list of a data clause (OpenMP 5.2, 5.4 and 5.5)."""
        home = inner or self.region
        if inner and clause.kind in ("shared", "reduction"):
            inner.listed.add(variable)
        if clause.kind == "firstprivate":
            self.use(self.region, variable, token.place)
        elif clause.kind != "private":
            self.use(home, variable, token.place)
        if clause.kind != "shared":
            copy = scope[token.value] = Variable(token.value, None, home)
            slot = home.add(copy)
            if inner and clause.kind == "firstprivate":
                inner.copied.append((slot, variable))
            node.copies.append((clause.kind, clause.operator if clause.kind == "reduction" else None, copy, variable))

    def worksharing(self, node, kind, scope):
        if kind == "for":
            return self.loop(node, scope)
        self.scopes.append(scope)
        self.constructs.append("worksharing")
        if kind == "single":
            self.statement(node.body)
        else:
            for number, part in enumerate(node.body):
                if number == MOST_PARTS:
                    self.refuse(11, part.place)
                for item in part.items:
                    self.statement(item)
        self.constructs.pop()
        self.scopes.pop()

    def loop(self, node, scope):
        """The loop of a `for`; its variable is a copy of its own, and its bounds see the originals."""
        statement = node.body
        form = canonical(statement) if statement.kind == "for" else None
        if form is None:
            before = len(self.refusals)
            if statement.kind != "for":
                self.statement(statement)
            here = [refusal for refusal in self.refusals[before:] if refusal[0] == statement.place]
            self.refusals[before:] = here + [(statement.place, 12)]
            return
        node.loop, own = form, {}
        node.loop_variable = Variable(form.name, None, self.region)
        if form.is_declared or self.variable(form.name, form.place, "scalar"):
            own[form.name] = node.loop_variable
            self.region.add(node.loop_variable)
        self.scopes.append(own if form.is_declared else {})
        self.expression(form.lower)
        self.expression(form.upper)
        self.scopes[-1:] = [scope, own]
        self.constructs += ["worksharing", "associated"]
        self.statement(statement.statement)
        del self.constructs[-2:]
        del self.scopes[-2:]


class Resolver(ConstructNames):
    """Globals and functions, and the first refusal in the text."""

    def resolve(self):
        top = self.scopes[0]
        for name, parameters in (("printf", -1), ("omp_get_thread_num", 0), ("omp_get_num_threads", 0)):
            top[name] = Function(name, "int", parameters, True)
        self.defined = {item.name for item in self.items if item.kind == "function" and item.body} | set(top)
        self.cells = functions = 0
        for item in self.items:
            if item.kind == "declaration":
                for declarator in item.declarators:
                    self.global_variable(declarator, top)
            else:
                functions += item.body is not None
                if functions > MOST_FUNCTIONS and item.body:
                    self.refuse(11, item.place)
                self.function_item(item, top)
        if "main" not in self.defined:
            self.refuse(15, self.end)
        if self.refusals:
            place, code = min(self.refusals)
            raise Refused(code, place)
        return self

    def global_variable(self, declarator, top):
        variable = Variable(declarator.name, declarator.size, None, True, declarator.initial or 0)
        if declarator.name in top:
            self.refuse(8, declarator.place)
        elif declarator.name == "main":
            self.refuse(9, declarator.place)
        if declarator.size == 0:
            self.refuse(9, declarator.place)
        self.cells += 1 if declarator.size is None else declarator.size
        if self.cells > MOST_GLOBAL_CELLS:
            self.refuse(11, declarator.place)
        top.setdefault(declarator.name, variable)
        self.globals.append(variable)

    def function_item(self, item, top):
        """A prototype or a function (C17 6.7.6.3, 6.9.1)."""
        number = len(item.parameters)
        old, new = top.get(item.name), Function(item.name, item.result, number)
        if old is not None:
            fits = isinstance(old, Function) and old.result == item.result and old.parameters == number
            if not fits or item.body and old.is_defined:
                self.refuse(8, item.name_place)
        if item.name == "main" and (item.result != "int" or item.parameters):
            self.refuse(9, item.name_place)
        function = top.setdefault(item.name, new)
        item.function = function = function if isinstance(function, Function) else new
        self.region = item.region = Region("function", None)
        scope = self.parameters(item)
        if item.body:
            function.is_defined, self.function, self.constructs = True, item, []
            self.functions.append(item)
            self.scopes.append(scope)
            for part in item.body.items:
                self.statement(part)
            self.scopes.pop()

    def parameters(self, item):
        """The scope of a function's parameters, which is that of its block too."""
        scope, item.variables = {}, []
        for number, (place, token) in enumerate(item.parameters):
            if number == MOST_PARAMETERS:
                self.refuse(11, place)
            if token and token.value in scope:
                self.refuse(8, token.place)
            if token:
                variable = scope[token.value] = Variable(token.value, None, self.region)
                self.region.add(variable)
                item.variables.append(variable)
        return scope


class Loop:
    """A canonical loop (OpenMP 5.2, 4.4.1): its variable, its bounds, its comparison and its step."""

    def __init__(self, name, place, is_declared, lower):
        self.name, self.place, self.is_declared, self.lower = name, place, is_declared, lower
        self.comparison = self.upper = self.step = None

    def is_variable(self, expression):
        return expression.kind == "name" and expression.name == self.name


def canonical(statement):
    """The canonical loop that a `for` is, or None."""
    begin, condition, step = statement.begin, statement.condition, statement.step
    if not begin or not condition or not step:
        return None
    if begin.kind == "declaration":
        first = begin.declarators[0]
        if len(begin.declarators) != 1 or first.initial is None:
            return None
        loop = Loop(first.name, first.place, True, first.initial)
    else:
        first = begin.value
        if first.kind != "assign" or first.operator != "=" or first.target.kind != "name":
            return None
        loop = Loop(first.target.name, first.place, False, first.value)
    if condition.kind != "binary" or condition.operator not in ("<", "<=", ">", ">="):
        return None
    if not loop.is_variable(condition.left):
        return None
    loop.comparison, loop.upper = condition.operator, condition.right
    sign, size = step_of(loop, step.value)
    if not size or (sign == "+") != (condition.operator[0] == "<"):
        return None
    loop.step = size if sign == "+" else -size
    return loop


def step_of(loop, expression):
    """The sign and the size of a loop's step; None for the size where it is none of the forms."""
    if expression.kind in ("prefix", "postfix") and loop.is_variable(expression.operand):
        return expression.operator[0], 1
    if expression.kind != "assign" or not loop.is_variable(expression.target):
        return None, None
    value = expression.value
    if expression.operator in ("+=", "-=") and value.kind == "number":
        return expression.operator[0], value.value
    if expression.operator == "=" and value.kind == "binary" and value.operator in "+-":
        if loop.is_variable(value.left) and value.right.kind == "number":
            return value.operator, value.right.value
        if value.operator == "+" and loop.is_variable(value.right) and value.left.kind == "number":
            return value.operator, value.left.value
    return None, None
