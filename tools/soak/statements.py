"""Random statements that neither wait nor panic, but for the risk: they send and receive on channels of their own alone."""
import contextlib

from expressions import OF_INTS, Expressions
from writer import BOOL, INT, assignable, is_channel, spelt

# The most steps of one function, about.
MOST_STEPS = 4000


class Statements(Expressions):
    def __init__(self, seed):
        super().__init__(seed)
        # how likely a statement is one that may wait or panic
        self.mischief = 0

    def hole(self, most=2):
        """A few random statements, among statements that count on what is fixed."""
        for _ in range(self.upto(most)):
            self.statement()

    def nested(self, most=3, loop=None, breaks=None):
        """A few random statements in a block that has nothing else."""
        with self.free(loop, breaks, True):
            for _ in range(self.upto(most)):
                self.statement()

    def statement(self):
        if self.mischief and self.chance(self.mischief):
            return self.misdeed()
        ways = [self.define] * 4 + [self.variables_declared] * 3 + [self.assign] * 5 + [self.operate] * 4 + [self.printed] * 4
        ways += [self.call] * 4 + [self.measure, self.start, self.jump, self.early_return, self.empty]
        if self.level < 6 and self.times * 4 < MOST_STEPS and self.cost < MOST_STEPS:
            ways += [self.plain_block] + [self.branch] * 3 + [self.loop_statement] * 3 + [self.own_channel] * 2 + [self.poll] * 2
        return self.pick(ways)() or self.printed()

    # ---- simple statements: each writes its line and says so, or has nothing to write

    def put(self, text):
        self.line(text)
        return True

    def empty(self):
        return self.put(self.pick([";", "{}", "// nothing", "/* nothing */"]))

    def printed(self):
        parts = []
        for _ in range(self.upto(4)):
            how = self.upto(5)
            parts.append(self.text() if how == 0 else self.truth()[0] if how == 1 else self.number()[0])
        comma = "," if parts and self.chance(0.05) else ""
        return self.put(f"{self.pick(['print', 'println', 'println'])}({', '.join(parts)}{comma})")

    def text(self):
        return self.pick(['"a"', '""', '"-> "', '"tab\\t"', '"line\\n"', '"\\"quoted\\""', '"back\\\\slash"', '"ü€😀"'])

    def shown(self, path, kind):
        """Prints a value."""
        self.line(f"println({', '.join(self.parts(path, kind)[:20])})")

    def targets(self, count):
        """Names for a `:=` or a `var`, at least one of them new, and their types, None for one that is new or `_`."""
        names, kinds = [], []
        own = [(name, it.kind) for name, it in self.frames[-1].items() if not it.is_fixed]
        for _ in range(count - 1):
            name, kind = self.pick(own) if own and self.chance(0.4) else (self.pick([self.fresh(), "_"]), None)
            name, kind = (self.fresh(), None) if name in names and name != "_" else (name, kind)
            names.append(name)
            kinds.append(kind)
        at = self.upto(len(names))
        new = self.new_name()
        names.insert(at, self.fresh() if new in names else new)
        kinds.insert(at, None)
        return names, kinds

    def define(self):
        names, kinds = self.targets(self.pick([1, 1, 1, 2, 3]))
        values, new = [], []
        for name, kind in zip(names, kinds):
            made = kind or self.some_kind()
            value = self.given(made) if kind else self.told(made)
            if value is None:
                made, value = (kind, None) if kind else (INT, self.number()[0])
            if value is None:
                return False
            values.append(value)
            new += [] if kind else [(name, made)]
        self.line(f"{', '.join(names)} := {', '.join(values)}")
        for name, kind in new:
            self.declare(name, kind)
        return True

    def variables_declared(self):
        kind = self.some_kind()
        names = [self.new_name()] + [self.pick(["_", self.fresh()]) for _ in range(self.pick([0, 0, 0, 1, 2]))]
        self.random.shuffle(names)
        if not self.can_spell(kind) or not self.can_give(kind):
            return False
        how = self.upto(3)
        values = ", ".join(self.given(kind) if how != 2 else self.told(kind) or "" for _ in names)
        if how == 2 and (is_channel(kind) or not values):
            return False
        self.line(f"var {', '.join(names)}" + {0: f" {spelt(kind)}", 2: f" = {values}"}.get(how, f" {spelt(kind)} = {values}"))
        for name in names:
            self.declare(name, kind)
        return True

    def assign(self):
        """One place or several, also the same one or parts of one another."""
        found = self.paths(lambda it: True, True)
        if not found:
            return False
        if self.chance(0.2) and (made := self.swap(found)):
            return made
        places, values = [], []
        for _ in range(self.pick([1, 1, 1, 2, 3])):
            path, kind = self.pick(found)
            if places and self.chance(0.3):
                path, kind = self.pick([it for it in found if it[0].split(".")[0] == places[0].split(".")[0]] or found)
            if self.chance(0.06):
                path, kind = "_", self.pick([INT, BOOL])
            if not self.can_give(kind):
                return False
            places.append(path)
            values.append(self.given(kind))
        return self.put(f"{', '.join(places)} = {', '.join(values)}")

    def swap(self, found):
        path, kind = self.pick(found)
        others = [it for it, other in found if other == kind and it != path]
        if not others:
            return False
        other = self.pick(others)
        return self.put(f"{path}, {other} = {other}, {path}")

    def operate(self):
        found = self.path(lambda it: it == INT, True)
        if not found:
            return False
        if self.chance(0.3):
            return self.put(found[0] + self.pick(["++", "--"]))
        sign = self.pick(OF_INTS)
        right = self.right_of(sign, 1)[0]
        return self.put(f"{found[0]} {sign}= {right}")

    def calls(self, fits):
        """The functions whose result fits, which are not too long to be called here."""
        room = MOST_STEPS - self.cost
        return [(name, it) for name, it in self.functions.items()
                if it.is_called and self.is_visible(name) and fits(it.result) and it.cost * self.times < room
                and all(self.can_give(kind) for kind in it.parameters)]

    def called(self, found, depth=2):
        name, function = self.pick(found)
        self.cost += function.cost * self.times
        return f"{name}({', '.join(self.given(kind, depth) for kind in function.parameters)})", function.result

    def call(self):
        found = self.calls(lambda it: True)
        if not found:
            return False
        text, result = self.called(found)
        if result is None or self.chance(0.1):
            return self.put(text)
        places = self.paths(lambda it: assignable(result, it), True)
        if places and self.chance(0.5):
            return self.put(f"{self.pick(places)[0]} = {text}")
        name = self.new_name()
        self.line(self.pick([f"{name} := {text}", f"var {name} = {text}"]))
        self.declare(name, result)
        return True

    def start(self):
        found = self.calls(lambda it: True)
        return self.put(f"go {self.called(found)[0]}") if found and self.times < 8 else False

    def jump(self):
        ways = ["break"] * self.breaks + ["continue"] * self.loop
        if not ways:
            return False
        with self.block(f"if {self.condition()}"):
            self.nested(1)
            self.line(self.pick(ways))
        return True

    def early_return(self):
        if self.returns is False:
            return False
        with self.block(f"if {self.condition()}"):
            self.nested(1)
            if self.returns is None:
                self.line("return")
            elif self.can_give(self.returns):
                self.line(f"return {self.given(self.returns)}")
        return True

    # ---- statements that hold others

    @contextlib.contextmanager
    def headed(self):
        """The header of an `if` or a `for`, in which no literal stands."""
        self.header = True
        yield
        self.header = False

    def condition(self):
        with self.headed():
            return self.truth()[0]

    def plain_block(self):
        with self.block():
            self.nested()
        return True

    def branch(self):
        """An `if`, with what may stand before its condition, and what else."""
        self.frames.append({})
        self.block_of(f"if {self.before()}{self.condition()}")
        while self.chance(0.2):
            self.block_of(f"}} else if {self.condition()}")
        if self.chance(0.4):
            self.block_of("} else")
        self.line("}")
        self.frames.pop()
        return True

    def before(self):
        """What stands before a condition."""
        with self.headed():
            if self.chance(0.7):
                return ""
            found = self.calls(lambda it: True)
            if found and self.chance(0.4):
                text, kind = self.called(found)
            elif self.chance(0.4):
                return self.pick(["; ", "print(); ", f"_ = {self.number(0)[0]}; "])
            else:
                text, kind = self.number()[0], INT
        if kind is None:
            return f"{text}; "
        name = self.fresh()
        self.declare(name, kind)
        return f"{name} := {text}; "

    def block_of(self, head):
        self.line(head + " {")
        with self.inside():
            self.nested()

    def loop_statement(self):
        most = max(1, min(5, MOST_STEPS // (self.times * 12)))
        return self.pick([self.counted, self.counted, self.down, self.endless, self.odd_post])(self.upto(most))

    def counted(self, count):
        name, step = self.fresh("i"), self.pick([1, 1, 1, 2, 3])
        first = self.pick([0, 0, 1, -2])
        post = f"{name}++" if step == 1 else f"{name} += {step}"
        head = f"{name} := {first}; {name} < {first + count * step}; {post}"
        if self.chance(0.2):
            self.line(f"var {name} int")
            self.declare(name, INT, True)
            head = f"{name} = {head.split(':= ')[1]}"
        self.frames.append({})
        self.declare(name, INT, True)
        with self.block(f"for {head}", count):
            self.nested(3, True, True)
        self.frames.pop()
        return True

    def down(self, count):
        name = self.fresh("n")
        self.line(f"{name} := {count}")
        self.declare(name, INT, True)
        with self.block(f"for {name} > 0", count):
            self.line(f"{name}--")
            self.nested(3, True, True)
        return True

    def endless(self, count):
        name = self.fresh("n")
        self.line(f"{name} := 0")
        self.declare(name, INT, True)
        with self.block(self.pick(["for", "for ;;", "for true", "for ; ; print()"]), count + 1):
            self.line(f"{name}++")
            with self.block(f"if {name} > {count}"):
                self.line("break")
            self.nested(3, True, True)
        return True

    def odd_post(self, count):
        """The post statement is no step of a counter."""
        name = self.fresh("n")
        self.line(f"var {name} int = {count}")
        self.declare(name, INT, True)
        with self.headed():
            post = self.pick([f"println({self.number()[0]})", f"_ = {self.number()[0]}", f"_, _ = {self.number()[0]}, true"])
            found = self.calls(lambda it: it in (INT, BOOL, None))
            if found and self.chance(0.4):
                text, _ = self.called(found)
                self.cost += self.functions[text.split("(")[0]].cost * self.times * count
                post = text
        with self.block(f"for ; {name} > 0; {post}", count):
            self.line(f"{name}--")
            self.nested(2, True, True)
        return True

    # ---- channels of its own

    def own_channel(self):
        """A channel with room for what is sent to it, and what is done with it in this block alone."""
        kind = self.some_kind()
        if not self.can_spell(kind) or not self.can_give(kind):
            return False
        with self.block():
            name, size, count = self.fresh("q"), self.upto(4), 0
            self.line(f"{name} := make({spelt(('', kind))}{f', {size}' if size or self.chance(0.2) else ''})")
            self.declare(name, ("", kind), True)
            for _ in range(size):
                self.line(f"{name} <- {self.given(kind)}")
                count += 1
                if self.chance(0.3):
                    self.measured(name)
            is_closed = self.chance(0.5)
            if is_closed:
                self.line(f"close({name})")
            while self.inner and kind in (INT, BOOL) and count > 1 and self.chance(0.5):
                self.line(self.pick([f"println(<-{name}, len({name}), <-{name})", f"println(<-{name} == <-{name})",
                                     f"if <-{name} != <-{name} {{ println(cap({name})) }}"]))
                count -= 2
            while count and self.chance(0.4) or is_closed and self.chance(0.2):
                self.received(name, kind)
                count = max(0, count - 1)
            if is_closed and self.chance(0.25):
                self.by_clauses(name, kind, count)
            elif is_closed or count:
                self.ranged(name, kind, count, is_closed)
        return True

    def by_clauses(self, channel, kind, count):
        """What is left is received by the clauses of a `for`, and then by the header of an `if`."""
        name, ok = self.fresh(), self.fresh("ok")
        self.frames.append({})
        self.declare(name, kind)
        self.declare(ok, BOOL, True)
        with self.block(f"for {name}, {ok} := <-{channel}; {ok}; {name}, {ok} = <-{channel}", count):
            self.shown(name, kind)
            self.nested(1, True, True)
        with self.block(f"if {name}, {ok} := <-{channel}; !{ok}"):
            self.shown(name, kind)
        self.frames.pop()

    def measure(self):
        found = self.path(is_channel)
        if not found:
            return False
        self.measured(found[0])
        return True

    def measured(self, channel):
        name = self.fresh("n")
        self.line(f"{name} := {self.pick(['len', 'cap'])}({channel})")
        self.declare(name, INT)
        self.line(f"println({name})")

    def received(self, channel, kind):
        """A receive that does not wait, in one of its forms."""
        name, ok = self.fresh(), self.fresh("ok")
        places = self.paths(lambda it: assignable(kind, it), True)
        form = self.pick([f"{name} := <-", f"{name}, {ok} := <-", f"_, {ok} := <-", f"var {name} = <-", f"var {name}, {ok} = <-",
                          "<-", "_ = <-", *[f"{path} = <-" for path, _ in places[:2]]])
        self.line(form + self.pick([channel, channel, f"({channel})"]))
        if ok in form:
            self.declare(ok, BOOL)
        if name in form:
            self.declare(name, kind)
            if self.chance(0.6):
                self.shown(name, kind)

    def ranged(self, channel, kind, count, is_closed):
        """A range over what is left."""
        name = self.fresh()
        places = self.paths(lambda it: assignable(kind, it), True)
        of = self.pick([f"{name} := ", f"{name} := ", "", "_ = ", *[f"{path} = " for path, _ in places[:2]]])
        self.frames.append({})
        if ":=" in of:
            self.declare(name, kind)
        with self.block(f"for {of}range {channel}", count):
            if ":=" in of and self.chance(0.5):
                self.shown(name, kind)
            if is_closed:
                self.nested(2, True, True)
            else:
                with self.free(False, False):
                    self.hole(1)
                self.line("break")
        self.frames.pop()

    def poll(self):
        """A select with a default, over channels of its own and nil ones."""
        kinds = [kind for kind in (self.some_kind(), self.some_kind()) if self.can_spell(kind) and self.can_give(kind)]
        if not kinds:
            return False
        with self.block():
            channels = []
            for kind in kinds:
                name, size = self.fresh("q"), self.upto(2)
                self.line(self.pick([f"{name} := make({spelt(('', kind))}, {size})", f"var {name} {spelt(('', kind))}"]))
                self.declare(name, ("", kind), True)
                channels.append((name, kind))
                if "make" in self.lines[-1] and size and self.chance(0.6):
                    self.line(f"{name} <- {self.given(kind)}")
            self.selected_among(channels, True)
        return True

    def selected_among(self, channels, has_default, most=4):
        """A select with random clauses on these channels, whose items it gives nobody to count on."""
        clauses = [None] * has_default + [self.pick(channels) for _ in range(self.upto(most, 1))]
        self.random.shuffle(clauses)
        self.line("select {")
        for clause in clauses:
            self.frames.append({})
            if clause is None:
                self.line("default:")
            else:
                self.clause(*clause)
            self.level += 1
            with self.free(None, True, True):
                self.nested(2)
                if self.chance(0.1):
                    self.line("break")
            self.level -= 1
            self.frames.pop()
        self.line("}")

    def clause(self, channel, kind):
        if self.can_give(kind) and self.chance(0.45):
            return self.line(f"case {channel} <- {self.given(kind)}:")
        name, ok = self.fresh(), self.fresh("ok")
        places = self.paths(lambda it: assignable(kind, it), True)
        form = self.pick([f"{name} := ", f"{name}, {ok} := ", f"_, {ok} := ", "", "_ = ",
                          *[f"{path} = " for path, _ in places[:2]]])
        self.line(f"case {form}<-{channel}:")
        if ":=" in form:
            if ok in form:
                self.declare(ok, BOOL)
            if name in form:
                self.declare(name, kind)

    # ---- what may wait or panic

    def misdeed(self):
        """An operation on a channel that others may count on."""
        found = self.path(is_channel)
        if not found:
            return self.printed()
        path, (way, kind) = found
        ways = []
        if way != "->":
            ways += [f"<-{path}", f"_, _ = <-{path}"]
        if way != "<-" and self.can_give(kind):
            ways += [f"{path} <- {self.given(kind)}", f"close({path})"]
        both = [(path, kind)] if way == "" else []
        if both and self.chance(0.5):
            self.selected_among(both, self.chance(0.7))
            return True
        return self.put(self.pick(ways)) if ways else self.printed()
