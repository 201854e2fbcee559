"""A random program of the whole language, well typed by the way it is made."""
from hazards import Hazards
from writer import BOOL, INT, is_channel, spelt


class Program(Hazards):
    """The same seed and size make the same program. The greater the size, the more statements and patterns it has."""

    def __init__(self, seed, size=20):
        super().__init__(seed)
        self.size = size
        self.risk = self.pick([0, 0, 0, 0.02])
        self.mischief = self.pick([0, 0, 0, 0, 0.03])
        self.inner = self.pick([0, 0.02, 0.1, 0.25])
        for _ in range(self.upto(3)):
            self.some_struct()
        for kind in [INT, BOOL] * bool(self.inner):
            self.giver(kind)
        for _ in range(self.upto(2 + size // 10)):
            self.helper()
        if self.chance(0.3):
            self.recursive()
        for _ in range(self.pick([0, 0, 1])):
            self.scene()
        self.main()
        self.random.shuffle(self.written)
        self.text = "\n".join(["package main\n", *self.written])

    def some_struct(self):
        name, fields, room = self.fresh("T"), [], 9
        for _ in range(self.upto(4, 1)):
            kind = self.some_kind()
            if self.chance(0.1):
                kind = self.pick(["", "<-", "->"]), name
            if self.width(kind) <= room:
                fields.append((self.fresh("f") if self.chance(0.8) else self.fresh("T"), kind))
                room -= self.width(kind)
        self.struct(name, fields)

    def giver(self, kind):
        """A function that gives a channel with one item, for receives within expressions."""
        with self.function("give", [("item", kind)], ("", kind)) as name:
            self.line(f"made := make(chan {kind}, 1)")
            self.line("made <- item")
            if self.chance(0.3):
                self.line("close(made)")
            self.line("return made")
        self.givers[kind] = name

    def body(self, count):
        for _ in range(count):
            self.statement()

    def helper(self):
        """A function that random statements may call."""
        parameters = [(self.pick([self.fresh("p"), self.fresh("p"), "_"]), self.some_kind()) for _ in range(self.upto(3))]
        result = self.pick([None, INT, INT, BOOL, self.some_kind()])
        with self.function("f", parameters, result, True):
            self.body(self.upto(self.size // 3))
            if result:
                self.end_with(result)

    def end_with(self, result, level=0):
        """A terminating statement."""
        how = self.upto(9)
        if level < 2 and how == 0:
            with self.block(f"if {self.condition()}", foot="} else {"):
                self.end_with(result, level + 1)
            with self.inside():
                self.end_with(result, level + 1)
            self.line("}")
        elif how == 1:
            with self.block("for"):
                self.hole(1)
                self.end_with(result, level + 1)
        elif how == 2:
            self.line("select {")
            self.line("default:")
            with self.inside():
                self.end_with(result, level + 1)
            self.line("}")
        elif how == 3 and level < 2:
            with self.block():
                self.end_with(result, level + 1)
            self.line(";")
        elif how in (4, 5) and (found := self.calls(lambda it: it == result)):
            self.line(f"return {self.called(found)[0]}")
        elif how in (6, 7) and (is_channel(result) and result[0] == "" or how == 7):
            self.end_with_operation(result)
        else:
            self.line(f"return {self.given(result)}")

    def end_with_operation(self, result):
        if is_channel(result) and result[0] == "":
            return self.line(f"return make({spelt(result)}, {self.upto(2)})")
        name = self.fresh("q")
        self.line(f"{name} := make({spelt(('', result))}, {self.upto(3, 1)})")
        self.line(f"{name} <- {self.given(result)}")
        self.line(f"return {self.pick([f'<-{name}', f'len({name})', f'cap({name})'])}" if result == INT else f"return <-{name}")

    def recursive(self):
        """A function that calls itself with one less each time."""
        result = self.pick([INT, INT, BOOL, *self.structs])
        with self.function("r", [("level", INT), (self.fresh("p"), self.some_kind())], result, True) as name:
            self.frames[-1]["level"].is_fixed = True
            with self.block("if level <= 0 || level > 6"):
                self.line(f"return {self.given(result)}")
            self.body(self.upto(3))
            made, second = self.fresh(), self.frames[-1]
            kind = list(second.values())[1].kind
            self.line(f"{made} := {name}(level-1, {self.given(kind)})")
            self.declare(made, result)
            if self.chance(0.3) and self.cost < 60:
                self.line(f"{made} = {name}(level-{self.pick([2, 3])}, {self.given(kind)})")
                self.cost *= 3
            elif self.inner and self.cost < 60 and result == INT and self.chance(0.5):
                calls = [f"{name}(level-{self.upto(3, 1)}, {self.given(kind)})" for _ in range(2)]
                self.line(f"{made} = {calls[0]} {self.pick(['+', '-', '*'])} {calls[1]}")
                self.cost *= 4
            self.line(f"return {self.given(result)}")
            self.cost *= 6

    def patterns(self):
        return self.pick([self.producer, self.pipeline, self.ping_pong, self.fan_in, self.many_producers, self.workers, self.server,
                          self.registry, self.ring, self.exchange, self.broadcast, self.semaphore, self.tree, self.ticker,
                          self.spin, self.crowd, self.chaos, self.chaos])

    def scene(self):
        """A function within which a pattern is played."""
        result = self.pick([None, INT])
        with self.function("scene", [(self.fresh("p"), INT)], result, True):
            self.returns = False
            for _ in self.patterns()():
                self.hole(1)
            if result:
                self.line(f"return {self.number()[0]}")

    def main(self):
        with self.function("main", []):
            self.body(self.upto(self.size // 4))
            playing = [self.patterns()() for _ in range(self.upto(1 + self.size // 10, 1))]
            bad = self.upto(3) if self.chance(0.35) else None
            while playing:
                one = self.pick(playing)
                if next(one, self) is self:
                    playing.remove(one)
                self.body(self.upto(max(1, self.size // 10)))
                if bad == 0:
                    self.bad_end()
                bad = bad - 1 if bad is not None else None
            self.report()

    def report(self):
        """Prints what is visible at the end."""
        for name, variable in list(self.variables().items()):
            if not is_channel(variable.kind):
                self.shown(name, variable.kind)
