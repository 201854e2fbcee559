"""Random small programs that can be run in many orders, and of which all orders can be searched.

The same seed makes the same program. It obeys all typing rules by the way it is made. It has two to six goroutines, and some exchanges: of
each, one goroutine sends and another one receives. Around these come prints, closes, selects and the rest; some operations are left out.
"""
from writer import BOOL, INT, Writer, is_channel, spelt

CHANNEL = ("", INT)
# The most operations of all goroutines, about.
MOST = 10


class OrderProgram(Writer):
    def __init__(self, seed):
        super().__init__(seed)
        self.mischief = self.pick([0, 0.05, 0.15])
        # how likely an operation is a clause of a select, and how likely this has a default
        self.selects, self.defaults = self.pick([0, 0.2, 0.5]), self.pick([0, 0.3, 0.7])
        self.talk = self.pick([0.1, 0.3, 0.6])
        self.channels = self.some_channels()
        # whether each worker says at its end on the first channel that it is done
        self.counts = self.channels[0][1] == INT and self.chance(0.3)
        # by goroutine its operations on channels, main's first; the channel that main doesn't keep
        self.plans, self.private = [[] for _ in range(self.pick([2, 3, 3, 3, 4, 4, 5]))], None
        self.planned()
        # the functions that take an item from a channel, and one that calls itself as often as it is told
        self.getters, self.deep = [], None
        for kind in dict.fromkeys([INT, *(kind for _, kind in self.channels)]):
            if not is_channel(kind) and self.chance(0.4):
                self.getter(kind)
        # the functions that are not started yet, with the channels that they get
        self.workers = []
        for plan in self.plans[1:]:
            self.worker(plan)
        self.main()
        self.text = "\n".join(["package main\n", *self.written])

    # ---- what is done by whom

    def some_channels(self):
        if self.chance(0.25):
            self.struct("T", [("a", INT), ("b", self.pick([INT, BOOL, CHANNEL, CHANNEL]))])
        kinds = [self.pick([INT] * 6 + [BOOL, CHANNEL, CHANNEL, *list(self.structs) * 3]) for _ in range(self.pick([1, 2, 2, 3]))]
        return [(self.fresh("c"), kind) for kind in kinds + [INT] * (CHANNEL in kinds and INT not in kinds)]

    def planned(self):
        count = len(self.plans)
        if count > 2 and len(self.channels) > 1 and self.chance(0.4):
            self.private = self.pick(self.channels[1:])
        for _ in range(self.upto(4, 1) + (count < 4)):
            channel = self.pick(self.channels)
            sender, receiver = self.random.sample(range(channel == self.private, count), 2)
            self.plan(sender, self.send, channel)
            self.plan(receiver, self.receive, channel)
        for operation in [self.send, self.receive] * self.upto(1) + [self.close_it] * self.pick([0, 0, 1, 1, 2]):
            channel = self.pick(self.channels)
            self.plan(self.upto(count - 1, channel == self.private), operation, channel)
        for _ in range(self.upto(3)):
            self.plan(self.upto(count - 1), self.pick([self.show, self.measure, self.rarity, self.rarity, self.again]))
        if self.chance(0.2):
            channel = self.pick(self.channels)
            sender, receiver = self.random.sample(range(channel == self.private, count), 2)
            self.plans[sender] += [(self.send, channel), (self.close_it, channel)]
            self.plans[receiver].append((self.range_over, channel))

    def plan(self, number, *operation):
        """Adds an operation, which may have a channel."""
        plan = self.plans[number]
        if len(plan) < 4 and sum(map(len, self.plans)) < MOST:
            plan.insert(self.upto(len(plan)), operation)

    def play(self, plan):
        for operation, *channel in plan:
            if self.level < 3 and self.chance(self.mischief):
                with self.block(f"if {self.condition()}"):
                    operation(*channel)
            else:
                operation(*channel)
            if self.chance(self.talk / 3):
                self.show()

    # ---- functions

    def getter(self, kind):
        with self.function("get", [("c", ("", kind))], kind) as name:
            if self.chance(0.3):
                self.line("return <-c")
            else:
                self.line("x := <-c")
                if self.chance(self.talk) and kind == INT:
                    self.line('println("get", x)')
                self.line("return x")
        self.getters.append((name, kind))

    def worker(self, plan):
        inner = self.workers.pop(self.upto(len(self.workers) - 1)) if self.workers and self.chance(0.25) else ("", [])
        needed = [*(channel for _, *given in plan for channel in given), *inner[1], *self.channels[:self.counts]]
        held = [it for it in self.channels if it in needed or it != self.private and self.chance(0.3)] or self.channels[:1]
        with self.function("f", [*((name, ("", kind)) for name, kind in held), ("n", INT)]) as name:
            self.visible = held
            if inner[0]:
                self.start(*inner, "n + 1")
            self.play(plan)
            if self.counts:
                self.line(f"{self.channels[0][0]} <- {self.value(INT)}")
        self.workers.append((name, held))

    def start(self, worker, held, number):
        self.line(f"go {worker}({', '.join([*(name for name, _ in held), number])})")

    def main(self):
        plan = self.plans[0]
        if self.workers and len(self.plans) < 5 and self.chance(0.15):
            self.workers.append(self.pick(self.workers))
        inside = [it for it in self.workers if self.private in it[1]]
        with self.function("main", []):
            self.visible = [it for it in self.channels if it != self.private]
            for channel in self.visible:
                self.make(*channel)
            if self.private:
                with self.block():
                    self.make(*self.private)
                    self.start_all(inside, [])
            self.start_all([it for it in self.workers if it not in inside], plan)
            self.play(plan)
            if self.counts and self.chance(0.85):
                with self.block(f"for i := 0; i < {len(self.plans) - 1 + self.pick([0, 0, 0, 0, 1, -1])}; i++"):
                    self.line(f"<-{self.channels[0][0]}")
            if self.chance(0.6):
                self.show()

    def start_all(self, workers, plan):
        for number, worker in enumerate(workers):
            self.start(*worker, str(number))
            if plan and self.chance(0.15):
                self.play([plan.pop(0)])

    def make(self, name, kind):
        if self.chance(self.mischief / 4):
            self.line(f"var {name} {spelt(('', kind))}")
        else:
            size = self.pick(["", "", "", ", 1", ", 1", ", 2"])
            self.line(f"{name} := make({spelt(('', kind))}{size})")
        self.declare(name, ("", kind))

    # ---- values

    def value(self, kind):
        if kind == INT:
            return self.number()
        if kind == BOOL:
            return self.pick(["true", "false", self.condition()])
        if is_channel(kind):
            return self.pick([self.some_channel(INT), "make(chan int, 1)"])
        return f"{kind}{{{', '.join(self.value(it) for _, it in self.structs[kind])}}}"

    def number(self):
        how, known = self.upto(19), self.known()
        if how < 8 or not known:
            return str(self.upto(3))
        one = self.pick(known)
        if how < 10:
            return f"{one} {self.pick(['+', '-', '*'])} {self.upto(2, 1)}"
        if how == 10:
            return f"{self.pick(['len', 'cap'])}({self.some_channel()})"
        if how == 11 and self.mischief:
            return f"{self.upto(6, 1)} {self.pick(['/', '%'])} {one}"
        if how == 12:
            return f"{one} - <-{self.some_channel(INT)}"
        getters = [name for name, kind in self.getters if kind == INT]
        if how == 13 and getters:
            return f"{self.pick(getters)}({self.some_channel(INT)}) + {one}"
        return one

    def known(self):
        return [path for path, _ in self.paths(lambda it: it == INT)]

    def condition(self):
        found = self.paths(lambda it: it in (INT, BOOL))
        if not found:
            return "true"
        path, kind = self.pick(found)
        return f"{path} {self.pick(['>', '==', '<'])} {self.upto(2)}" if kind == INT else self.pick([path, f"!{path}"])

    def some_channel(self, item=None):
        """A visible channel of such items, or of any, or a new one."""
        found = self.paths(lambda it: is_channel(it) and item in (None, it[1]))
        return self.pick(found)[0] if found else "make(chan int, 1)"

    # ---- operations

    def send(self, channel):
        name, kind = channel
        if self.chance(self.selects):
            self.select((name, kind, True))
        else:
            self.line(f"{name} <- {self.value(kind)}")

    def receive(self, channel):
        name, kind = channel
        if self.chance(self.selects):
            return self.select((name, kind, False))
        item, ok, how = self.fresh("x"), self.fresh("ok"), self.upto(9)
        getters = [getter for getter, it in self.getters if it == kind]
        if how < 2:
            return self.line(f"<-{name}")
        if how < 5 and getters:
            self.line(f"{item} := {self.pick(getters)}({name})")
        elif how == 5:
            self.line(f"{item}, {ok} := <-{name}")
            self.line(f"println({ok})")
        else:
            self.line(f"{item} := <-{name}")
        self.declare(item, kind)
        return self.use(item, kind)

    def use(self, item, kind):
        """What is done with an item that was received."""
        if is_channel(kind):
            self.line(self.pick([f"{item} <- {self.value(INT)}", f"println(<-{item})", f"close({item})", f"println(len({item}))"]))
        elif self.chance(self.talk + 0.2):
            self.line(f"{self.pick(['print', 'println', 'println', 'println'])}({', '.join(self.parts(item, kind))})")
        if kind in self.structs and self.structs[kind][1][1] == CHANNEL and self.chance(0.6):
            self.line(f"{item}.b <- {self.value(INT)}")

    def select(self, *clauses):
        clauses = [*clauses, *((*self.pick(self.visible), self.chance(0.5)) for _ in range(self.pick([0, 1, 1, 2])))]
        self.random.shuffle(clauses)
        self.line("select {")
        for clause in clauses:
            self.clause(*clause)
        if self.chance(self.defaults):
            self.line("default:")
            self.line(f"\t{self.remark() if self.chance(0.5) else ';'}")
        self.line("}")

    def clause(self, name, kind, sends):
        self.frames.append({})
        item, ok = self.fresh("x"), self.fresh("ok")
        how = "send" if sends else self.pick(["drop", "item", "item", "item", "both"])
        left = {"send": "", "drop": "", "item": f"{item} := ", "both": f"{item}, {ok} := "}[how]
        self.line(f"case {name} <- {self.value(kind)}:" if sends else f"case {left}<-{name}:")
        self.level += 1
        if left:
            self.declare(item, kind)
            self.use(item, kind)
        elif self.chance(self.talk):
            self.line(self.remark())
        if self.chance(0.06):
            self.line("return")
        self.level -= 1
        self.frames.pop()

    def remark(self):
        known = [path for path, _ in self.paths(lambda it: it in (INT, BOOL))]
        shown = self.pick([f'"{self.pick("abc")}"', *([self.pick(known)] if known else [])])
        return f"{self.pick(['println', 'println', 'print'])}({shown})"

    def show(self):
        self.line(self.remark())

    def measure(self):
        name = self.some_channel()
        self.line(self.pick([f"println(len({name}), cap({name}))", f"println(len({name}))"]))

    def close_it(self, channel):
        self.line(f"close({channel[0]})")

    def range_over(self, channel):
        name, kind = channel
        item = self.fresh("x")
        with self.block(f"for {item} := range {name}"):
            self.declare(item, kind)
            self.line(f"println({', '.join(self.parts(item, kind))})")
            if self.chance(0.2):
                self.line("break")

    def again(self):
        """An operation, more than once."""
        with self.block(f"for i := 0; i < {self.pick([2, 2, 3])}; i++"):
            self.declare("i", INT)
            self.pick([self.send, self.receive])(self.pick(self.visible))

    def rarity(self):
        name, known, least = self.some_channel(), self.known(), self.upto(2)
        ways = [f"for len({name}) > 0 {{ <-{name} }}", f"if len({name}) == {least} {{ println(cap({name})) }}",
                "var none chan int; select { case <-none: default: println(len(none)) }",
                f"for waits := true; waits; {{ select {{ case <-{name}: waits = false; default: }} }}"]
        if known:
            number = self.pick(known)
            ways += [f"made := make(chan int, {number} - 1); println(cap(made))", f"made := make(chan int, {number} - {least}); made <- 1",
                     f"println({self.upto(6, 1)} / {number})", f"println(1 << ({number} - 1))"]
        if self.chance(self.mischief):
            ways = ["var none chan int; close(none)", "select { }", "var none chan int; none <- 1", f"for len({name}) == 0 {{ }}"]
        elif known and self.chance(self.mischief):
            ways = self.limits(self.pick(known))
        with self.block():
            self.line(self.pick(ways))

    def limits(self, number):
        """Statements that reach a limit of kendo's own, if a number is great enough."""
        if not self.deep:
            with self.function("deep", [("n", INT)], INT) as self.deep:
                self.line(f"if n > 0 {{ return {self.deep}(n - 1) + 1 }}")
                self.line("return n")
        ways = [f"println({self.deep}({number} * 600))", f"made := make(chan int, {number} * 65537); println(cap(made))"]
        return [*ways * 3, f"for i := 0; i < {number} * 1000000; i++ {{ }}"]
