"""What a goroutine does by itself: it walks its statements, and yields TICK or a request each time that it ticks or asks."""
from dataclasses import dataclass

from tree import (Assign, Block, Break, Call, Channel, Close, Continue, Define, Empty, Field, For, Go, If, Integer, Literal,
                  Make, Measure, Name, Operate, Print, Range, Receive, Return, Select, Send, Text, Unary, Variables)
from values import Panic, compared, of_ints, shown, with_field, wrapped

TICK = "tick"
WORDS = {"true": True, "false": False, "nil": None}
# The most calls that one goroutine may stand in, its first function counted.
MOST_DEEP = 1000


@dataclass
class Request:
    """What is asked of the world: `what` names it, as a trace does."""
    what: str
    channel: object = None
    item: object = None
    # of make
    size: int = 0
    # of go
    function: str = ""
    arguments: tuple = ()
    # of select
    cases: tuple = ()
    has_default: bool = False
    # of print
    text: bytes = b""
    # of panic
    cause: int = 0


@dataclass
class Called:
    """A call, which is no request: the function's own steps come next."""
    function: str
    arguments: list


@dataclass
class Returned:
    """A return was met, so all statements round it are left."""
    value: object


class Scope:
    """A block's variables, and the block round it."""

    def __init__(self, outer=None):
        self.outer, self.variables = outer, {}

    def block_of(self, name):
        return self if name in self.variables else self.outer.block_of(name)

    def read(self, name):
        return self.block_of(name).variables[name]

    def declare(self, name, value):
        """A new variable, or one of this very block that a `:=` assigns to."""
        if name != "_":
            self.variables[name] = value

    def write(self, place, value):
        name, *fields = place
        if name != "_":
            variables = self.block_of(name).variables
            variables[name] = with_field(variables[name], fields, value)


class Steps:
    """The steps of a program's functions."""

    def __init__(self, program):
        self.program = program
        self.ways = {Empty: self.nothing, Print: self.print, Close: self.close, Receive: self.receive_alone, Call: self.call_alone,
                     Send: self.send, Define: self.define, Variables: self.declare, Assign: self.assign, Operate: self.operate,
                     Go: self.go, Return: self.give_back, Break: self.leave, Continue: self.leave, Block: self.block,
                     If: self.if_statement, For: self.loop, Range: self.range, Select: self.select}

    # ---- types and values

    def zero(self, kind):
        if isinstance(kind, Channel):
            return None
        if kind in ("int", "bool"):
            return 0 if kind == "int" else False
        return {name: self.zero(it) for name, it in self.program.structs[kind]}

    def value(self, it, scope):
        """What an expression is worth; operands from left to right, each request and call at its place."""
        if isinstance(it, Integer):
            return it.value
        if isinstance(it, Name):
            return WORDS[it.name] if it.name in WORDS else scope.read(it.name)
        if isinstance(it, Field):
            return (yield from self.value(it.operand, scope))[it.name]
        if isinstance(it, Unary):
            return self.negated(it.sign, (yield from self.value(it.operand, scope)))
        if isinstance(it, Literal):
            names = [name for name, _ in self.program.structs[it.type]]
            return dict(zip(names, (yield from self.values(it.values, scope)))) if it.values else self.zero(it.type)
        if isinstance(it, Call):
            return (yield (yield from self.call(it, scope)))
        if isinstance(it, Receive):
            return (yield from self.received(it, scope))[0]
        if isinstance(it, Make):
            size = (yield from self.value(it.size, scope)) if it.size else 0
            return (yield Request("make", size=size, item=self.zero(it.type.element)))
        if isinstance(it, Measure):
            return (yield Request(it.what, (yield from self.value(it.channel, scope))))
        left = yield from self.value(it.left, scope)
        if it.sign in ("&&", "||"):
            return left if left == (it.sign == "||") else (yield from self.value(it.right, scope))
        right = yield from self.value(it.right, scope)
        if it.sign in ("==", "!=", "<", "<=", ">", ">="):
            return compared(it.sign, left, right)
        return of_ints(it.sign, left, right)

    def received(self, it, scope):
        """The item that a receive gives, and whether it was sent."""
        return (yield Request("receive", (yield from self.value(it.channel, scope))))

    def negated(self, sign, operand):
        if sign == "!":
            return not operand
        return wrapped({"+": operand, "-": -operand, "^": ~operand}[sign])

    def values(self, expressions, scope):
        made = []
        for it in expressions:
            made.append((yield from self.value(it, scope)))
        return made

    def right(self, right, count, scope):
        """The values of a right side, as many as there are names or lvalues."""
        if count == 2 and len(right) == 1:
            return list((yield from self.received(right[0], scope)))
        return (yield from self.values(right, scope))

    def call(self, it, scope):
        return Called(it.name, (yield from self.values(it.arguments, scope)))

    # ---- functions and blocks

    def function(self, name, arguments):
        """The steps of a function up to its return; what they come to is its result."""
        function, scope = self.program.functions[name], Scope()
        for parameter, value in zip(function.parameters, arguments):
            scope.declare(parameter, value)
        left = yield from self.statements(function.body.statements, scope)
        return left.value if isinstance(left, Returned) else None

    def statements(self, statements, scope):
        """Statement by statement. What it comes to is None at their end, else the Break, Continue or Returned that was met."""
        for it in statements:
            left = yield from self.ways[type(it)](it, scope)
            if left is not None:
                return left

    def block(self, it, scope):
        return (yield from self.statements(it.statements, Scope(scope)))

    # ---- simple statements

    def nothing(self, _it, _scope):
        return
        yield

    def print(self, it, scope):
        parts = []
        for part in it.parts:
            parts.append(part.content if isinstance(part, Text) else shown((yield from self.value(part, scope))))
        yield Request("print", text=b" ".join(parts) + b"\n" if it.is_line else b"".join(parts))

    def close(self, it, scope):
        yield Request("close", (yield from self.value(it.channel, scope)))

    def receive_alone(self, it, scope):
        yield from self.received(it, scope)

    def call_alone(self, it, scope):
        yield (yield from self.call(it, scope))

    def send(self, it, scope):
        channel = yield from self.value(it.channel, scope)
        yield Request("send", channel, (yield from self.value(it.value, scope)))

    def define(self, it, scope):
        values = yield from self.right(it.right, len(it.names), scope)
        yield TICK
        for name, value in zip(it.names, values):
            scope.declare(name, value)

    def declare(self, it, scope):
        if it.right is None:
            values = [self.zero(it.type) for _ in it.names]
        else:
            values = yield from self.right(it.right, len(it.names), scope)
        yield TICK
        for name, value in zip(it.names, values):
            scope.declare(name, value)

    def assign(self, it, scope):
        values = yield from self.right(it.right, len(it.places), scope)
        yield TICK
        for place, value in zip(it.places, values):
            scope.write(place, value)

    def operate(self, it, scope):
        old = scope.read(it.place[0])
        for name in it.place[1:]:
            old = old[name]
        value = of_ints(it.sign, old, (yield from self.value(it.value, scope)))
        yield TICK
        scope.write(it.place, value)

    def go(self, it, scope):
        yield Request("go", function=it.call.name, arguments=(yield from self.values(it.call.arguments, scope)))

    def give_back(self, it, scope):
        if it.right is None:
            return Returned(None)
        values = yield from self.right(it.right, 1, scope)
        return Returned(values[0])

    def leave(self, it, _scope):
        return it
        yield

    # ---- statements that hold others

    def if_statement(self, it, scope):
        scope = Scope(scope)
        if it.before:
            yield from self.ways[type(it.before)](it.before, scope)
        if (yield from self.value(it.condition, scope)):
            return (yield from self.block(it.then, scope))
        if it.otherwise:
            return (yield from self.ways[type(it.otherwise)](it.otherwise, scope))

    def loop(self, it, scope):
        scope = Scope(scope)
        if it.before:
            yield from self.ways[type(it.before)](it.before, scope)
        while it.condition is None or (yield from self.value(it.condition, scope)):
            left = yield from self.block(it.body, scope)
            if isinstance(left, Returned):
                return left
            if isinstance(left, Break):
                return None
            if it.after:
                yield from self.ways[type(it.after)](it.after, scope)
            yield TICK

    def range(self, it, scope):
        channel = yield from self.value(it.channel, scope)
        scope = Scope(scope)
        while True:
            item, is_there = yield Request("receive", channel)
            if not is_there:
                return None
            if it.name or it.place:
                yield TICK
                if it.name:
                    scope.declare(it.name, item)
                else:
                    scope.write(it.place, item)
            left = yield from self.block(it.body, scope)
            if isinstance(left, Returned):
                return left
            if isinstance(left, Break):
                return None
            yield TICK

    def select(self, it, scope):
        cases = []
        for clause in it.clauses:
            asked = clause.communication
            if isinstance(asked, Send):
                channel = yield from self.value(asked.channel, scope)
                cases.append(Request("send", channel, (yield from self.value(asked.value, scope))))
            elif asked:
                cases.append(Request("receive", (yield from self.value(asked.channel, scope))))
        clauses = [clause for clause in it.clauses if clause.communication]
        defaults = [clause for clause in it.clauses if not clause.communication]
        number, told = yield Request("select", cases=cases, has_default=bool(defaults))
        clause = clauses[number - 1] if number else defaults[0]
        scope = Scope(scope)
        if clause.names or clause.places:
            yield TICK
            for name, value in zip(clause.names or [], told):
                scope.declare(name, value)
            for place, value in zip(clause.places or [], told):
                scope.write(place, value)
        left = yield from self.statements(clause.statements, scope)
        return None if isinstance(left, Break) else left


class Goroutine:
    """A goroutine with its clock, the functions that it stands in, and what it was told last."""

    def __init__(self, steps, number, clock, function, arguments):
        self.steps, self.number, self.clock = steps, number, clock
        self.functions = [steps.function(function, arguments)]
        self.told, self.doomed = None, 0

    def key(self):
        return self.clock, self.number

    def proceed(self):
        """Goes on to where it ticks or asks: TICK or the request."""
        while True:
            try:
                if self.doomed:
                    raise Panic(self.doomed)
                told, self.told = self.told, None
                asked = self.functions[-1].send(told)
                if isinstance(asked, Called):
                    self.enter(asked)
                    return TICK
                return asked
            except StopIteration as left:
                self.functions.pop()
                if not self.functions:
                    return Request("end")
                self.told = left.value
            except Panic as panic:
                return Request("panic", cause=panic.args[0])

    def enter(self, call):
        if len(self.functions) == MOST_DEEP:
            raise Panic(7)
        self.functions.append(self.steps.function(call.function, call.arguments))
