"""Random expressions that keep the typing rules: each is a text, and how strongly it binds, 6 where it needs no parentheses."""
from values import LEAST, MOST, of_constants
from writer import BOOL, INT, Writer, assignable, is_channel, spelt

SIGNS = [["*", "/", "%", "<<", ">>", "&", "&^"], ["+", "-", "|", "^"], ["==", "!=", "<", "<=", ">", ">="], ["&&"], ["||"]]
LEVEL = {sign: 5 - at for at, signs in enumerate(SIGNS) for sign in signs}
OF_INTS = SIGNS[0] + SIGNS[1]
ORDERS = SIGNS[2]
MOST_CONSTANT = 1 << 100


class Expressions(Writer):
    def __init__(self, seed):
        super().__init__(seed)
        # how likely an operand is that may panic, and one that makes a request or a call
        self.risk, self.inner = 0, 0
        # of int and bool the function that gives a channel with one such item
        self.givers = {}

    def within(self, made, least):
        text, level = made
        return f"({text})" if level < least or self.chance(0.03) else text

    def binary(self, sign, left, right):
        level = LEVEL[sign]
        return f"{self.within(left, level)} {sign} {self.within(right, level + 1)}", level

    def unary(self, sign, operand):
        text = f"({operand[0]})" if operand[1] < 6 or operand[0][0] in "+-&" and sign != "<-" else operand[0]
        return sign + text, 6

    # ---- constants, with their values

    def constant(self, depth):
        if depth == 0 or self.chance(0.3):
            value = self.pick([0, 1, 2, 3, 7, 63, 64, MOST, MOST + 1, 1 << 64, MOST_CONSTANT, self.upto(999), self.upto(99)])
            return (hex(value) if self.chance(0.2) else str(value), 6), value
        if self.chance(0.2):
            operand, value = self.constant(depth - 1)
            sign = self.pick("+-^")
            value = {"+": value, "-": -value, "^": ~value}[sign]
            if abs(value) <= MOST_CONSTANT:
                return self.unary(sign, operand), value
        for _ in range(9):
            sign, (left, one), (right, other) = self.pick(OF_INTS), self.constant(depth - 1), self.constant(depth - 1)
            if sign in ("/", "%") and other == 0 or sign in ("<<", ">>") and not 0 <= other <= 100:
                continue
            value = of_constants(sign, one, other)
            if abs(value) <= MOST_CONSTANT:
                return self.binary(sign, left, right), value
        return ("1", 6), 1

    def fitting(self, least=LEAST, most=MOST):
        """A constant between these, which may be larger within."""
        if self.chance(0.15):
            for _ in range(9):
                made, value = self.constant(3)
                if least <= value <= most:
                    return made, value
        few = [it for it in (LEAST, -1000, -2, -1, 0, 1, 2, 3, 5, 10, 64, 1000, MOST) if least <= it <= most]
        value = self.pick(few) if few and self.chance(0.6) else max(least, min(most, self.upto(20)))
        return ((str(value), 6) if value >= 0 else (f"-{-value}", 6)), value

    # ---- ints

    def number(self, depth=2):
        """An int: a constant that is one, or what has a variable in it, and so is no constant."""
        if made := self.asked(INT, depth):
            return made
        if not self.paths(lambda it: it == INT) or self.chance(0.15):
            return self.fitting()[0]
        return self.no_constant(depth)

    def no_constant(self, depth):
        if made := self.asked(INT, depth):
            return made
        path = self.path(lambda it: it == INT)[0]
        if depth <= 0 or self.chance(0.35):
            return self.selected() or (path, 6)
        if self.chance(0.12):
            return self.unary(self.pick("+-^"), self.no_constant(depth - 1))
        sign = self.pick(OF_INTS)
        left, right = self.no_constant(depth - 1), self.right_of(sign, depth - 1)
        if sign in ("<<", ">>") and self.chance(0.1):
            # a constant that is shifted by a variable is an int
            return self.binary(sign, self.fitting()[0], (f"({path} & {self.pick([1, 7, 63])})", 6))
        if sign not in ("/", "%", "<<", ">>") and self.chance(0.4):
            left, right = right, left
        return self.binary(sign, left, right)

    def right_of(self, sign, depth):
        """The right operand of an operator: none that panics, but for the risk."""
        if sign not in ("/", "%", "<<", ">>"):
            return self.number(depth)
        path = self.path(lambda it: it == INT)
        if path and self.chance(self.risk):
            return path[0], 6
        if sign in ("/", "%"):
            return self.binary("|", (path[0], 6), ("1", 6)) if path and self.chance(0.2) else self.divisor()
        if path and self.chance(0.3):
            return self.binary("&", (path[0], 6), (str(self.pick([1, 3, 7, 63, 127])), 6))
        return self.fitting(0, self.pick([3, 3, 10, 100, MOST]))[0]

    def divisor(self):
        made, value = self.fitting()
        return made if value else (str(self.upto(9, 1)), 6)

    def selected(self):
        """A field of a literal, rarely."""
        if self.header or not self.chance(0.05):
            return None
        fits = [(struct, name) for struct in self.visible_structs() for name, kind in self.structs[struct] if kind == INT]
        if not fits:
            return None
        struct, name = self.pick(fits)
        return f"{self.literal(struct, 0)}.{name}", 6

    # ---- bools

    def truth(self, depth=2):
        if made := self.asked(BOOL, depth):
            return made
        how = self.upto(9)
        if depth <= 0 or how < 2:
            path = self.path(lambda it: it == BOOL)
            return (path[0], 6) if path and self.chance(0.8) else (self.pick(["true", "false"]), 6)
        if how == 2:
            return self.unary("!", self.truth(depth - 1))
        if how in (3, 4):
            return self.binary(self.pick(["&&", "||"]), self.truth(depth - 1), self.truth(depth - 1))
        if how == 5 and self.chance(0.5):
            return self.binary(self.pick(["==", "!="]), self.truth(depth - 1), self.truth(depth - 1))
        if how == 6 and (made := self.channels_compared()):
            return made
        if how == 7 and self.chance(0.2):
            return self.binary(self.pick(ORDERS), self.constant(2)[0], self.constant(2)[0])
        return self.binary(self.pick(ORDERS), self.number(depth - 1), self.number(depth - 1))

    def channels_compared(self):
        found = self.path(is_channel)
        if not found:
            return None
        path, kind = found
        others = self.paths(lambda it: assignable(it, kind) or assignable(kind, it))
        sides = [(path, 6), (self.pick(others)[0] if self.chance(0.7) else "nil", 6)]
        self.random.shuffle(sides)
        return self.binary(self.pick(["==", "!="]), *sides)

    # ---- requests and calls within expressions

    def asked(self, kind, depth):
        """A value of exactly this type by a request or a call that neither waits nor panics; None where there is none."""
        if depth < 0 or not self.chance(self.inner):
            return None
        return self.pick([self.by_call, self.by_call, self.by_receive, self.by_length, self.by_make])(kind, depth - 1)

    def by_call(self, kind, depth):
        found = self.calls(lambda it: it == kind)
        return (self.called(found, depth)[0], 6) if found else None

    def by_receive(self, kind, depth):
        """From a channel that a function gives, with one item in it."""
        if kind not in self.givers or not self.is_visible(self.givers[kind]):
            return None
        channel = f"{self.givers[kind]}({self.given(kind, depth)})"
        return self.unary("<-", (channel, 6)) if self.chance(0.8) else self.unary("<-", (f"({channel})", 6))

    def by_length(self, kind, _depth):
        found = self.path(is_channel)
        if kind != INT or not found:
            return None
        return f"{self.pick(['len', 'cap'])}({found[0]})", 6

    def by_make(self, kind, depth):
        size = f", {self.size_of(depth)}" if self.chance(0.6) else ""
        if kind == INT:
            return f"{self.pick(['len', 'cap'])}(make(chan {self.pick([INT, BOOL])}{size}))", 6
        if kind == BOOL:
            return self.binary(self.pick(["==", "!="]), (f"make(chan int{size})", 6), ("nil", 6))
        if is_channel(kind) and kind[0] == "" and self.can_spell(kind):
            return f"make({spelt(kind)}{size})", 6
        return None

    def size_of(self, depth):
        """A capacity: small, and not below 0."""
        if depth < 0 or self.chance(0.5):
            return str(self.upto(5))
        return self.binary("&", (f"({self.number(depth)[0]})", 6), ("7", 6))[0]

    # ---- values of any type

    def literal(self, struct, depth):
        if depth < -1 or self.chance(0.1) or not all(self.can_give(kind) for _, kind in self.structs[struct]):
            return struct + "{}"
        values = [self.given(kind, depth - 1) for _, kind in self.structs[struct]]
        return f"{struct}{{{', '.join(values)}}}"

    def given(self, kind, depth=2):
        """A value for a place, parameter or field of this type; of a struct None where there is none."""
        if kind in (INT, BOOL):
            return (self.number if kind == INT else self.truth)(depth)[0]
        if is_channel(kind):
            if made := self.asked(kind, depth):
                return made[0]
            found = self.paths(lambda it: assignable(it, kind))
            return self.pick(found)[0] if found and self.chance(0.95) else "nil"
        return self.structured(kind, depth)

    def structured(self, kind, depth):
        found = self.paths(lambda it: it == kind)
        if made := self.asked(kind, depth):
            return made[0]
        if self.header or not self.is_visible(kind) or found and self.chance(0.5):
            return self.pick(found)[0] if found else None
        return self.literal(kind, depth)

    def told(self, kind, depth=2):
        """A value of exactly this type, as a declaration without a type wants it; None where there is none."""
        if is_channel(kind):
            found = self.paths(lambda it: it == kind)
            return self.pick(found)[0] if found else None
        return self.structured(kind, depth) if kind in self.structs else self.given(kind, depth)

    def can_give(self, kind):
        """Whether there is a value of this type here: of a struct whose name is hidden there may be none."""
        return kind not in self.structs or bool(self.paths(lambda it: it == kind)) or not self.header and self.is_visible(kind)
