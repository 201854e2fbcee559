"""Goroutines that talk to one another. Each pattern writes functions and, in steps, what the function that uses it does: after
each `yield` other statements may come. Unless something is mischievous, all of it comes to its end."""
import contextlib

from statements import Statements
from writer import BOOL, INT, spelt


class Patterns(Statements):
    # ---- pieces

    def message(self):
        """The type of what is sent."""
        if self.chance(0.12):
            return self.pick([("", INT), ("", BOOL), ("->", INT), ("<-", INT), ("", ("", INT))])
        structs = list(self.structs)
        return self.pick(structs) if structs and self.chance(0.4) else INT if self.chance(0.8) else BOOL

    def sending(self, kind):
        return self.pick(["", "->", "->"]), kind

    def receiving(self, kind):
        return self.pick(["", "<-", "<-"]), kind

    def make(self, kind, size=None, stem="c"):
        """A new channel of such items; where no size is told it is any."""
        name, of = self.fresh(stem), spelt(("", kind))
        size = self.pick([0, 0, 0, 1, 2, 3]) if size is None else size
        made = f"make({of}{f', {size}' if size or self.chance(0.1) else ''})"
        self.line(self.pick([f"{name} := {made}", f"var {name} = {made}", f"var {name} {of} = {made}",
                             f"var {name} {of}\n{self.indent()}{name} = {made}"]))
        self.declare(name, ("", kind), True)
        return name

    def indent(self):
        return "\t" * self.level

    def go(self, function, *arguments):
        self.line(f"go {function}({', '.join(map(str, arguments))})")
        self.cost += self.functions[function].cost * self.times if function in self.functions else 0

    def send(self, channel, kind):
        self.line(f"{channel} <- {self.given(kind)}")

    def take(self, channel, kind):
        """A receive of an item that comes, mostly with a new name; it is shown, or summed up."""
        how = self.upto(5)
        if how == 0:
            self.line(f"<-{channel}")
            return
        name = self.fresh("x")
        if how == 1:
            ok = self.fresh("ok")
            self.line(f"{name}, {ok} := <-{channel}")
            self.declare(ok, BOOL)
        elif how == 2:
            self.line(f"var {name} {spelt(kind)}\n{self.indent()}{name} = <-{channel}")
        else:
            self.line(self.pick([f"{name} := <-{channel}", f"var {name} = <-{channel}", f"var {name} {spelt(kind)} = <-{channel}"]))
        self.declare(name, kind)
        if self.chance(0.7):
            self.shown(name, kind)

    @contextlib.contextmanager
    def turns(self, count):
        """A loop with this number of turns, a number or a name; it returns the name of its counter."""
        name = self.fresh("i")
        self.frames.append({})
        self.declare(name, INT, True)
        with self.block(f"for {name} := 0; {name} < {count}; {name}++", count if isinstance(count, int) else 6):
            yield name
        self.frames.pop()

    def sum(self):
        name = self.fresh("sum")
        self.line(self.pick([f"{name} := 0", f"var {name} int"]))
        self.declare(name, INT)
        return name

    def add(self, name, item, kind):
        """Adds what can be added of an item."""
        ints = [path for path, it in self.paths(lambda it: it == INT) if path.split(".")[0] == item]
        self.line(f"{name} {self.pick(['+=', '+=', '^=', '-='])} {self.pick(ints)}" if ints else f"{name}++")

    # ---- one to one

    def producer(self):
        """One that produces and perhaps closes, and one that consumes."""
        kind, closes = self.message(), self.chance(0.6)
        with self.function("produce", [("out", self.sending(kind)), ("count", INT)]) as produce:
            self.hole(1)
            with self.turns("count"):
                self.hole(2)
                self.send("out", kind)
            self.hole(1)
            if closes:
                self.line("close(out)")
        count, channel = self.upto(5), self.make(kind)
        yield
        self.go(produce, channel, count)
        yield
        if closes:
            self.consume(channel, kind, count)
        else:
            with self.turns(count):
                self.take(channel, kind)
                self.hole(1)

    def consume(self, channel, kind, count):
        """Takes all items of a channel that is closed after a number of them."""
        how, name, ok = self.upto(3), self.fresh("x"), self.fresh("ok")
        if how < 2:
            self.frames.append({})
            self.declare(name, kind)
            with self.block(f"for {name} := range {channel}", count):
                self.shown(name, kind)
                self.hole(1)
                if self.chance(0.2):
                    self.nested(1, True, True)
            self.frames.pop()
        elif how == 2:
            with self.block("for", count + 1):
                self.line(f"{name}, {ok} := <-{channel}")
                self.declare(name, kind)
                self.declare(ok, BOOL, True)
                with self.block(f"if !{ok}"):
                    self.line("break")
                self.shown(name, kind)
                self.hole(1)
        else:
            with self.turns(count + 1):
                self.line(f"{name}, {ok} := <-{channel}")
                self.declare(name, kind)
                self.line(f"println({', '.join([*self.parts(name, kind)[:9], ok])})")

    def pipeline(self):
        """Stages, each of which passes on what it makes of the items, and ends with them."""
        kind = self.message()
        stages = []
        for _ in range(self.upto(3, 1)):
            with self.function("stage", [("in", self.receiving(kind)), ("out", self.sending(kind))]) as stage:
                self.frames.append({})
                self.declare("it", kind)
                with self.block("for it := range in", 6):
                    self.hole(2)
                    if self.chance(0.2):
                        with self.block(f"if {self.condition()}"):
                            self.line("continue")
                    self.line(f"out <- {'it' if self.chance(0.5) else self.given(kind)}")
                self.frames.pop()
                self.line("close(out)")
            stages.append(stage)
        first = last = self.make(kind)
        for _ in range(self.upto(4, 1)):
            after = self.make(kind)
            self.go(self.pick(stages), last, after)
            last = after
        yield
        count = self.upto(5)
        with self.function("feed", [("out", self.sending(kind))]) as feed:
            for _ in range(count):
                self.send("out", kind)
                self.hole(1)
            self.line("close(out)")
        self.go(feed, first)
        yield
        self.consume(last, kind, count)

    def ping_pong(self):
        """Two that pass one item to and fro."""
        kind, rounds = self.message(), self.upto(5, 1)
        with self.function("player", [("in", self.receiving(kind)), ("out", self.sending(kind)), ("rounds", INT)]) as player:
            with self.turns("rounds"):
                self.line("ball := <-in")
                self.declare("ball", kind)
                self.hole(2)
                self.line("out <- ball")
        there, back = self.make(kind), self.make(kind)
        self.go(player, there, back, rounds)
        yield
        if self.chance(0.5):
            self.line(f"go {player}({back}, {there}, {rounds - 1})")
            self.send(there, kind)
            if rounds == 1:
                self.take(back, kind)
            return
        with self.turns(rounds):
            self.send(there, kind)
            self.hole(1)
            self.take(back, kind)

    # ---- many to one

    def fan_in(self):
        """Sources that one select listens to, up to the end of all."""
        kinds = [self.message() for _ in range(self.upto(3, 1))]
        channels = []
        for kind in kinds:
            with self.function("source", [("out", self.sending(kind))]) as source:
                for _ in range(self.upto(4)):
                    self.hole(1)
                    self.send("out", kind)
                self.line("close(out)")
            channels.append((self.make(kind), kind))
            self.go(source, channels[-1][0])
        yield
        total, open_ones = self.sum(), self.fresh("open")
        self.line(f"{open_ones} := {len(channels)}")
        self.declare(open_ones, INT, True)
        with self.block(f"for {open_ones} > 0", 5 * len(channels)):
            self.line("select {")
            self.random.shuffle(channels)
            for channel, kind in channels:
                self.source_clause(channel, kind, total, open_ones)
            if self.chance(0.25):
                # it waits by turning round
                self.line("default:")
                self.line(f"\t{total}++")
            self.line("}")
        self.line(f"println({total})")

    def source_clause(self, channel, kind, total, open_ones):
        name, ok = self.fresh("x"), self.fresh("ok")
        self.frames.append({})
        self.declare(name, kind)
        self.declare(ok, BOOL, True)
        self.line(f"case {name}, {ok} := <-{channel}:")
        self.level += 1
        with self.block(f"if !{ok}"):
            self.line(f"{channel} = nil")
            self.line(f"{open_ones}--")
            self.line(self.pick(["break", "continue"]))
        self.add(total, name, kind)
        self.hole(1)
        self.level -= 1
        self.frames.pop()

    def many_producers(self):
        """Several that send on one channel, and one that closes it after the last."""
        kind, count, each = self.message(), self.upto(4, 1), self.upto(3)
        done = ("", BOOL)
        with self.function("produce", [("out", self.sending(kind)), ("done", self.sending(BOOL)), ("number", INT)]) as produce:
            for _ in range(each):
                self.hole(1)
                self.send("out", kind)
            self.line(f"done <- {self.given(BOOL)}")
        with self.function("closer", [("done", self.receiving(BOOL)), ("out", self.sending(kind))]) as closer:
            with self.turns(count):
                self.line("<-done")
            self.line("close(out)")
        channel, ended = self.make(kind), self.make(done[1], stem="done")
        with self.turns(count) as number:
            self.go(produce, channel, ended, number)
        self.go(closer, ended, channel)
        yield
        self.consume(channel, kind, count * each)

    # ---- services

    def workers(self):
        """Workers that share jobs, and answer each on the channel that the job brings."""
        job, result = self.fresh("Job"), self.pick([INT, INT, BOOL, self.message()])
        reply = self.pick(["", "->"]), result
        self.struct(job, [("number", INT), *([("more", self.message())] if self.chance(0.4) else []), ("reply", reply)])
        with self.function("work", [("jobs", self.receiving(job)), ("number", INT)]) as work:
            self.frames.append({})
            self.declare("it", job, True)
            with self.block("for it := range jobs", 6):
                self.hole(2)
                self.send("it.reply", result)
            self.frames.pop()
        jobs = self.make(job)
        with self.turns(self.upto(3, 1)) as number:
            self.go(work, jobs, number)
        yield
        with self.turns(self.upto(4)) as number:
            reply = self.make(result, stem="reply")
            more = [self.given(kind) for _, kind in self.structs[job][1:-1]]
            self.line(f"{jobs} <- {job}{{{', '.join([number, *more, reply])}}}")
            self.hole(1)
            self.take(reply, result)
        yield
        if self.chance(0.6):
            self.line(f"close({jobs})")

    def server(self):
        """A goroutine that keeps a state, asked by a select of several channels, up to a quit."""
        kind, replies = self.message(), self.pick([0, 1])
        parameters = [("ask", self.receiving(("", kind))), ("put", self.receiving(kind)), ("quit", ("<-", BOOL))]
        with self.function("serve", parameters) as serve:
            self.line(f"var state {spelt(kind)}")
            self.declare("state", kind)
            with self.block("for", 8):
                self.line("select {")
                self.line("case state = <-put:")
                with self.inside():
                    self.hole(1)
                self.line("case reply := <-ask:")
                with self.inside():
                    self.declare("reply", ("", kind), True)
                    self.line("reply <- state")
                self.line("case <-quit:")
                self.line("\treturn")
                self.line("}")
        ask, put, quit_it = self.make(("", kind), 0), self.make(kind, 0), self.make(BOOL, 0)
        self.go(serve, ask, put, quit_it)
        yield
        for _ in range(self.upto(4)):
            if self.chance(0.5):
                self.send(put, kind)
            else:
                reply = self.make(kind, replies, "reply")
                self.line(f"{ask} <- {reply}")
                self.take(reply, kind)
            self.hole(1)
        yield
        self.line(self.pick([f"close({quit_it})", f"{quit_it} <- true"]))

    def registry(self):
        """A goroutine that makes channels and hands them out over a channel of channels."""
        kind, count = self.message(), self.upto(3, 1)
        item = self.pick([("", kind), ("<-", kind)])
        with self.function("offer", [("out", self.sending(item)), ("count", INT)]) as offer:
            with self.turns("count"):
                self.line(f"c := make({spelt(('', kind))}, 2)")
                self.declare("c", ("", kind), True)
                self.send("c", kind)
                self.line("out <- c")
                self.hole(1)
                self.send("c", kind)
                if self.chance(0.5):
                    self.line("close(c)")
        channel = self.make(item)
        self.go(offer, channel, count)
        yield
        with self.turns(count):
            name = self.fresh("c")
            self.line(f"{name} := <-{channel}")
            self.declare(name, item, True)
            self.take(name, kind)
            self.take(name, kind)

    # ---- many to many

    def ring(self):
        """A chain of goroutines that is made in a loop, through which items go."""
        kind, length, count = self.message(), self.upto(6), self.upto(3, 1)
        with self.function("pass", [("in", self.receiving(kind)), ("out", self.sending(kind)), ("count", INT)]) as pass_on:
            with self.turns("count"):
                self.line("it := <-in")
                self.declare("it", kind)
                self.hole(2)
                self.line("out <- it")
        first = self.make(kind)
        last = self.fresh("last")
        self.line(f"{last} := {first}")
        self.declare(last, ("", kind), True)
        with self.turns(length):
            after = self.make(kind)
            self.go(pass_on, last, after, count)
            self.line(f"{last} = {after}")
        yield
        with self.function("start", [("out", self.sending(kind))]) as start:
            for _ in range(count):
                self.send("out", kind)
        self.go(start, first)
        yield
        with self.turns(count):
            self.take(last, kind)
            self.hole(1)

    def exchange(self):
        """Two that offer to each other both to send and to receive, some times each."""
        kind, rounds = self.message(), self.upto(5, 1)
        with self.function("trade", [("a", ("", kind)), ("b", ("", kind)), ("done", self.sending(BOOL))]) as trade:
            with self.turns(rounds):
                self.line("select {")
                self.trade_clauses([("a", True), ("b", False)], kind)
                self.line("}")
                self.hole(1)
            self.line("done <- true")
        a, b, done = self.make(kind), self.make(kind), self.make(BOOL, stem="done")
        self.go(trade, a, b, done)
        self.go(trade, b, a, done)
        yield
        self.line(f"<-{done}")
        if self.chance(0.7):
            self.line(f"<-{done}")

    def trade_clauses(self, sides, kind):
        self.random.shuffle(sides)
        for channel, sends in sides:
            self.frames.append({})
            if sends:
                self.line(f"case {channel} <- {self.given(kind)}:")
            else:
                name = self.fresh("x")
                self.line(f"case {name} := <-{channel}:")
                self.declare(name, kind)
                self.level += 1
                self.shown(name, kind)
                self.level -= 1
            self.level += 1
            self.hole(1)
            self.level -= 1
            self.frames.pop()
