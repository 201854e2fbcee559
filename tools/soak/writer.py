"""A program that is being written: its lines, its names, and what is visible at the place where it is written on."""
import contextlib, random

INT, BOOL = "int", "bool"


def is_channel(kind):
    """A channel's type is a pair: "", "<-" or "->" for both directions, receiving or sending alone, and the items' type."""
    return isinstance(kind, tuple)


def assignable(kind, to):
    return kind == to or is_channel(kind) and is_channel(to) and kind[0] == "" and kind[1] == to[1]


def spelt(kind):
    if not is_channel(kind):
        return kind
    item = spelt(kind[1])
    if kind[0] == "" and item.startswith("<-"):
        item = f"({item})"
    return {"": "chan ", "<-": "<-chan ", "->": "chan<- "}[kind[0]] + item


class Variable:
    """A variable. One that is fixed is assigned to by none of the random statements: loops and messages count on it."""

    def __init__(self, kind, is_fixed):
        self.kind, self.is_fixed = kind, is_fixed


class Function:
    """A function, about how many steps one call takes at most, and whether random statements may call it."""

    def __init__(self, parameters, result, is_called):
        self.parameters, self.result, self.is_called, self.cost = parameters, result, is_called, 0


class Writer:
    def __init__(self, seed):
        self.random = random.Random(seed)
        self.names = 0
        # of each struct type the fields, as pairs of a name and a type
        self.structs, self.functions = {}, {}
        self.written = []
        self.begin([])

    def begin(self, lines):
        """Begins with the lines of a function."""
        self.lines, self.level, self.frames = lines, 0, [{}]
        # the steps that were written so far, and how often the next statement is done at most
        self.cost, self.times = 0, 1
        # whether a break or a continue may stand here, and whether a random statement may hide any name
        self.loop, self.breaks, self.hides = False, False, False
        # whether this is a header, in which no literal may stand; and what a random return gives back: a value of this type,
        # nothing where it is None, and where it is False there is none
        self.header, self.returns = False, False

    # ---- chance

    def chance(self, part):
        return self.random.random() < part

    def pick(self, items):
        return self.random.choice(list(items))

    def upto(self, most, least=0):
        return self.random.randint(least, most)

    def fresh(self, stem="v"):
        self.names += 1
        return f"{stem}{self.names}"

    # ---- lines

    def line(self, text):
        self.lines.append("\t" * self.level + text)
        self.cost += self.times

    @contextlib.contextmanager
    def block(self, head="", times=1, foot="}"):
        """A block after a header, within which its declarations are visible; it is done at most a number of times."""
        self.line(f"{head} {{".lstrip())
        with self.inside(times):
            yield
        self.line(foot)

    @contextlib.contextmanager
    def inside(self, times=1):
        self.frames.append({})
        self.level += 1
        before, self.times = self.times, self.times * max(times, 1)
        yield
        self.times = before
        self.level -= 1
        self.frames.pop()

    @contextlib.contextmanager
    def free(self, loop=None, breaks=None, hides=None):
        """What may stand in the statements within, where it changes."""
        before = self.loop, self.breaks, self.hides
        new = loop, breaks, hides
        self.loop, self.breaks, self.hides = [old if it is None else it for old, it in zip(before, new)]
        yield
        self.loop, self.breaks, self.hides = before

    @contextlib.contextmanager
    def function(self, stem, parameters, result=None, is_called=False):
        """A function, of which the lines are written within; the result is its name. A parameter is a name and a type."""
        name = stem if stem == "main" else self.fresh(stem)
        keys = "lines", "level", "frames", "cost", "times", "loop", "breaks", "hides", "header", "returns"
        before = [getattr(self, key) for key in keys]
        made = Function([kind for _, kind in parameters], result, is_called)
        self.begin([])
        self.level = 1
        for parameter, kind in parameters:
            self.declare(parameter, kind, not is_called)
        self.returns = result if is_called else False
        yield name
        head = f"func {name}({self.listed(parameters)})" + (f" {spelt(result)}" if result else "")
        self.written.append("\n".join([head + " {", *self.lines, "}", ""]))
        made.cost = self.cost
        for key, value in zip(keys, before):
            setattr(self, key, value)
        self.functions[name] = made

    def listed(self, parameters):
        parts = []
        for at, (name, kind) in enumerate(parameters):
            same = at + 1 < len(parameters) and parameters[at + 1][1] == kind
            parts.append(name if same and self.chance(0.6) else f"{name} {spelt(kind)}")
        return ", ".join(parts)

    # ---- names

    def declare(self, name, kind, is_fixed=False):
        if name != "_":
            self.frames[-1][name] = Variable(kind, is_fixed)

    def new_name(self):
        """A new name, or one that it hides."""
        if self.hides and self.chance(0.15):
            outer = {name for frame in self.frames[:-1] for name in frame}
            hidden = sorted((outer | {*self.functions, *self.structs}) - set(self.frames[-1]) - {"main"})
            if hidden:
                return self.pick(hidden)
        return self.fresh()

    def is_visible(self, name):
        """Whether no variable hides the function or type of this name."""
        return not any(name in frame for frame in self.frames)

    def visible_structs(self):
        return [name for name in self.structs if self.is_visible(name)]

    def can_spell(self, kind):
        if is_channel(kind):
            return self.can_spell(kind[1])
        return kind in (INT, BOOL) or kind in self.structs and self.is_visible(kind)

    def variables(self):
        seen = {}
        for frame in reversed(self.frames):
            for name, variable in frame.items():
                seen.setdefault(name, variable)
        return seen

    def paths(self, fits, assigned=False):
        """The visible variables and their fields whose type fits, as texts, with the types."""
        found = []
        todo = [(name, it.kind) for name, it in self.variables().items() if not (assigned and it.is_fixed)]
        while todo:
            path, kind = todo.pop()
            if fits(kind):
                found.append((path, kind))
            if kind in self.structs and path.count(".") < 3:
                todo += [(f"{path}.{name}", it) for name, it in self.structs[kind]]
        return found

    def path(self, fits, assigned=False):
        """One of them, or None."""
        found = self.paths(fits, assigned)
        return self.pick(found) if found else None

    # ---- types

    def struct(self, name, fields):
        """A struct type."""
        self.structs[name] = fields
        lines = [f"\t{field} {spelt(kind)}" for field, kind in fields]
        self.written.append("\n".join([f"type {name} struct {{", *lines, "}", ""]))

    def width(self, kind):
        return sum(self.width(it) for _, it in self.structs[kind]) if kind in self.structs else 1

    def some_kind(self, depth=0):
        """A type for a variable, which can be spelt here."""
        if depth < 3 and self.chance(0.12):
            return self.pick(["", "", "<-", "->"]), self.some_kind(depth + 1)
        if self.chance(0.3) and (structs := self.visible_structs()):
            return self.pick(structs)
        return INT if self.chance(0.7) else BOOL

    def parts(self, path, kind):
        """What can be printed of a value: its ints and bools, and which of its channels are nil."""
        if kind in self.structs:
            return [part for name, it in self.structs[kind] for part in self.parts(f"{path}.{name}", it)]
        return [f"{path} == nil" if is_channel(kind) else path]
