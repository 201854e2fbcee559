"""From a text that is a program of docs/LANGUAGE.md to its tree. Not all that is no program is told apart from one."""
import scan
from tree import (Assign, Binary, Block, Break, Call, Channel, Clause, Close, Continue, Define, Empty, Field, For, Function, Go, If,
                  Integer, Literal, Make, Measure, Name, Operate, Print, Program, Range, Receive, Return, Select, Send, Text,
                  Unary, Variables)
from values import of_constants

STRENGTHS = [["||"], ["&&"], ["==", "!=", "<", "<=", ">", ">="], ["+", "-", "|", "^"], ["*", "/", "%", "<<", ">>", "&", "&^"]]
OPERATING = {sign + "=": sign for sign in [*STRENGTHS[3], *STRENGTHS[4]]}


def program(text):
    return Parser(scan.tokens(text)).program()


def unary(sign, operand):
    if isinstance(operand, Integer):
        number = operand.value
        return Integer({"+": number, "-": -number, "^": ~number}[sign])
    return Unary(sign, operand)


def binary(sign, left, right):
    if isinstance(left, Integer) and isinstance(right, Integer):
        number = of_constants(sign, left.value, right.value)
        if number is not None:
            return Integer(number)
    return Binary(sign, left, right)


class Parser:
    def __init__(self, tokens):
        self.tokens, self.at = tokens, 0
        # whether a `{` after a name begins a literal: not in the header of an `if` or a `for`
        self.literals = True

    # ---- tokens

    def kind(self):
        return self.tokens[self.at].kind

    def take(self, kind):
        """The text of the next token, which has to be of this kind."""
        token = self.tokens[self.at]
        if token.kind != kind:
            raise ValueError(f"token {self.at} is {token.text or token.kind!r} and not {kind!r}")
        self.at += 1
        return token.text

    def taken(self, kind):
        """Takes the next token if it is of this kind, and says whether it was."""
        found = self.kind() == kind
        self.at += found
        return found

    def listed(self, part, end):
        """Parts with commas between them, and perhaps one after the last, up to the token that ends them."""
        parts = []
        while self.kind() != end:
            parts.append(part())
            if self.kind() != end:
                self.take(",")
        self.take(end)
        return parts

    def row(self, part):
        """One part or more, with commas between them."""
        parts = [part()]
        while self.taken(","):
            parts.append(part())
        return parts

    def name(self):
        return self.take("name")

    # ---- declarations

    def program(self):
        self.take("package"), self.name(), self.take(";")
        made = Program({}, {})
        while not self.taken("end"):
            if self.taken("type"):
                name = self.name()
                self.take("struct")
                made.structs[name] = self.fields()
            else:
                function = self.function()
                made.functions[function.name] = function
            self.take(";")
        return made

    def fields(self):
        self.take("{")
        fields = []
        while not self.taken("}"):
            fields += self.typed()
            if self.kind() != "}":
                self.take(";")
        return fields

    def typed(self):
        """Names with their type."""
        names = self.row(self.name)
        kind = self.type()
        return [(name, kind) for name in names]

    def function(self):
        self.take("func")
        name = self.name()
        self.take("(")
        groups = self.listed(self.typed, ")")
        if self.kind() != "{":
            self.type()
        return Function(name, [name for group in groups for name, _ in group], self.block())

    def type(self):
        if self.taken("("):
            kind = self.type()
            self.take(")")
            return kind
        if self.taken("<-"):
            self.take("chan")
            return Channel(self.type())
        if self.taken("chan"):
            self.taken("<-")
            return Channel(self.type())
        return self.name()

    # ---- statements

    def block(self):
        literals, self.literals = self.literals, True
        self.take("{")
        statements = self.statements("}")
        self.take("}")
        self.literals = literals
        return Block(statements)

    def statements(self, *ends):
        """Statements up to one of these tokens, which is not taken."""
        made = [self.statement()]
        while self.kind() not in ends:
            self.take(";")
            made.append(self.statement())
        return made

    def statement(self):
        if self.kind() in (";", "}", "case", "default"):
            return Empty()
        if self.kind() == "{":
            return self.block()
        ways = {"var": self.variables, "if": self.if_statement, "for": self.for_statement, "select": self.select, "go": self.go,
                "return": self.returned, "break": Break, "continue": Continue}
        kind = self.kind()
        if kind in ways:
            self.take(kind)
            return ways[kind]()
        return self.simple()

    def variables(self):
        names = self.row(self.name)
        kind = None if self.kind() == "=" else self.type()
        return Variables(names, kind, self.right() if self.taken("=") else None)

    def go(self):
        return Go(self.expression())

    def returned(self):
        return Return(None if self.kind() in (";", "}", "case", "default") else self.right())

    def if_statement(self):
        literals, self.literals = self.literals, False
        before = None if self.kind() == ";" else self.simple()
        condition = before
        if self.taken(";"):
            condition = self.expression()
        else:
            before = None
        self.literals = literals
        then, otherwise = self.block(), None
        if self.taken("else"):
            otherwise = self.if_statement() if self.taken("if") else self.block()
        return If(before, condition, then, otherwise)

    def for_statement(self):
        literals, self.literals = self.literals, False
        made = self.loop()
        self.literals = literals
        return made

    def loop(self):
        if self.kind() == "{":
            return For(None, None, None, self.block())
        if self.kind() == "range":
            return self.range([], None)
        before = None if self.kind() == ";" else self.simple()
        if isinstance(before, Range):
            return before
        if self.kind() == "{":
            return For(None, before, None, self.block())
        self.take(";")
        condition = None if self.kind() == ";" else self.expression()
        self.take(";")
        after = None if self.kind() == "{" else self.simple()
        return For(before, condition, after, self.block())

    def range(self, left, sign):
        self.take("range")
        channel = self.expression()
        name = left[0].name if sign == ":=" else None
        place = path(left[0]) if sign == "=" else None
        return Range(name, place, channel, self.block())

    def select(self):
        self.take("{")
        clauses = []
        while not self.taken("}"):
            if self.taken("default"):
                made = Clause(None, None, None, None)
            else:
                self.take("case")
                made = self.communication()
            self.take(":")
            made.statements = self.statements("case", "default", "}")
            clauses.append(made)
        return Select(clauses)

    def communication(self):
        left = self.row(self.expression)
        if self.taken("<-"):
            return Clause(Send(left[0], self.expression()), None, None, None)
        if self.taken(":="):
            return Clause(self.expression(), [it.name for it in left], None, None)
        if self.taken("="):
            return Clause(self.expression(), None, [path(it) for it in left], None)
        return Clause(left[0], None, None, None)

    # ---- simple statements

    def simple(self):
        """A simple statement, or an expression where one stands in a header; a range where one follows."""
        if self.kind() == "name" and self.tokens[self.at].text in ("close", "print", "println"):
            return self.built_in()
        left = self.row(self.expression)
        kind = self.kind()
        if kind in OPERATING:
            self.take(kind)
            return Operate(path(left[0]), OPERATING[kind], self.expression())
        if kind in ("++", "--"):
            self.take(kind)
            return Operate(path(left[0]), kind[0], Integer(1))
        if self.taken("<-"):
            return Send(left[0], self.expression())
        if kind not in (":=", "="):
            return left[0]
        self.take(kind)
        if self.kind() == "range":
            return self.range(left, kind)
        if kind == ":=":
            return Define([it.name for it in left], self.right())
        return Assign([path(it) for it in left], self.right())

    def built_in(self):
        name = self.name()
        self.take("(")
        if name == "close":
            made = Close(self.expression())
            self.take(")")
            return made
        return Print(self.listed(self.part, ")"), name == "println")

    def part(self):
        if self.kind() == "string":
            return Text(scan.content(self.take("string")))
        return self.expression()

    def right(self):
        return self.row(self.expression)

    # ---- expressions

    def expression(self, level=0):
        if level == len(STRENGTHS):
            return self.unary()
        left = self.expression(level + 1)
        while self.kind() in STRENGTHS[level]:
            sign = self.take(self.kind())
            left = binary(sign, left, self.expression(level + 1))
        return left

    def unary(self):
        if self.kind() in ("+", "-", "!", "^"):
            return unary(self.take(self.kind()), self.unary())
        if self.taken("<-"):
            return Receive(self.unary())
        return self.primary()

    def primary(self):
        made = self.operand()
        while self.taken("."):
            made = Field(made, self.name())
        return made

    def operand(self):
        if self.taken("("):
            made = self.expression()
            self.take(")")
            return made
        if self.kind() == "integer":
            return Integer(int(self.take("integer"), 0))
        name = self.name()
        if self.kind() == "(":
            return self.called(name)
        if self.literals and self.taken("{"):
            return Literal(name, self.listed(self.expression, "}"))
        return Name(name)

    def called(self, name):
        self.take("(")
        if name == "make":
            kind = self.type()
            size = self.expression() if self.taken(",") else None
            self.take(")")
            return Make(kind, size)
        arguments = self.listed(self.expression, ")")
        return Measure(name, arguments[0]) if name in ("len", "cap") else Call(name, arguments)


def path(place):
    """The names of a place."""
    return [place.name] if isinstance(place, Name) else [*path(place.operand), place.name]
