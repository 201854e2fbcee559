"""Patterns of which some don't come to an end, or come to a bad one."""
from patterns import Patterns
from writer import BOOL, INT, spelt


class Hazards(Patterns):
    # ---- many that wait

    def broadcast(self):
        """Some that wait for one close, each in a way of its own."""
        kind = self.message()
        waiting = []
        for _ in range(self.upto(2, 1)):
            with self.function("wait", [("gate", self.receiving(kind)), ("other", ("", INT)), ("done", self.sending(INT))]) as wait:
                self.waits(kind)
                self.line(f"done <- {self.number()[0]}")
            waiting.append(wait)
        gate, other, done, count = self.make(kind, 0, "gate"), self.make(INT, 0), self.make(INT, stem="done"), self.upto(4, 1)
        with self.turns(count):
            self.go(self.pick(waiting), gate, other, done)
        self.hole(2)
        yield
        if self.chance(0.3):
            self.send(gate, kind)
        self.line(f"close({gate})")
        yield
        with self.turns(count):
            self.take(done, INT)

    def waits(self, kind):
        how = self.upto(3)
        if how == 0:
            self.line("<-gate")
        elif how == 1:
            with self.block("for it := range gate", 2):
                self.declare("it", kind)
                self.shown("it", kind)
        else:
            self.line("select {")
            clauses = ["case other <- 1:", "case it, ok := <-gate:", "case <-gate:", "case it := <-other:"]
            for text in self.random.sample(clauses, 3) + ["case <-gate:"]:
                self.line(text)
                with self.inside():
                    if " it := <-other" in text:
                        self.declare("it", INT)
                    elif " it, ok" in text:
                        self.declare("it", kind)
                        self.declare("ok", BOOL)
                    self.hole(1)
            self.line("}")

    def semaphore(self):
        """A channel with space for a number of items."""
        room, count = self.upto(2, 1), self.upto(4, 1)
        with self.function("guarded", [("room", ("", BOOL)), ("number", INT), ("done", self.sending(INT))]) as guarded:
            with self.turns(self.upto(2)):
                self.line("room <- true")
                self.hole(2)
                self.line("println(number)")
                self.line("<-room")
            self.line("done <- number")
        guard, done = self.make(BOOL, room, "room"), self.make(INT, stem="done")
        with self.turns(count) as number:
            self.go(guarded, guard, number, done)
        yield
        with self.turns(count):
            self.take(done, INT)
        name = self.fresh("n")
        self.line(f"{name} := {self.pick(['len', 'cap'])}({guard})")
        self.declare(name, INT)
        self.line(f"println({name})")

    def crowd(self):
        """Many that do the same at the same time, so that queues form."""
        count, selects = self.upto(30, 4), self.chance(0.5)
        with self.function("member", [("c", ("", INT)), ("d", ("", INT)), ("number", INT)]) as member:
            if self.chance(0.5):
                # they come in another order than they were started in
                with self.block("for i := 0; i < number*7%5; i++", 4):
                    self.line(";")
            self.line("select { case c <- number: case d <- -number: }" if selects else "c <- number")
            self.hole(1)
            self.line(self.pick(["x := <-d", "x, _ := <-d"]))
            self.line("println(number, x)")
        c, d = self.make(INT), self.make(INT)
        with self.turns(count) as number:
            self.go(member, c, d, number)
        yield
        with self.turns(count) as number:
            if selects:
                self.line(f"select {{ case x := <-{c}: println(x); case x := <-{d}: println(x) }}")
            else:
                self.take(c, INT)
        with self.turns(count) as number:
            self.line(f"{d} <- {number} * {number}")
        if self.chance(0.5):
            self.line(f"close({d})")

    def tree(self):
        """Goroutines that start two more each, and add up their results."""
        kind = self.sending(INT)
        name = self.fresh("tree")
        self.written.append("\n".join([
            f"func {name}(level int, out {spelt(kind)}) {{", "\tif level <= 0 {", f"\t\tout <- {self.upto(9)}", "\t\treturn", "\t}",
            f"\tc := make(chan int{self.pick(['', ', 1', ', 2'])})", f"\tgo {name}(level-1, c)",
            f"\tgo {name}(level-{self.pick([1, 2])}, c)", "\tx := <-c", "\ty := <-c", "\tout <- x + y + level", "}", ""]))
        channel = self.make(INT)
        self.line(f"go {name}({self.upto(4)}, {channel})")
        self.cost += 300
        yield
        self.take(channel, INT)

    def ticker(self):
        """A clock, which is polled."""
        with self.function("tick", [("out", self.sending(INT)), ("quit", ("<-", BOOL))]) as tick:
            with self.block("for i := 0; ; i++", 10):
                self.declare("i", INT, True)
                with self.turns(self.upto(3)):
                    self.line(";")
                self.line("select {")
                self.line("case out <- i:")
                self.line("case <-quit:")
                self.line("\treturn")
                self.line("}")
        ticks, quit_it = self.make(INT), self.make(BOOL, 0)
        self.go(tick, ticks, quit_it)
        yield
        with self.turns(self.upto(8)):
            self.line("select {")
            self.line(f"case t := <-{ticks}:")
            self.line('\tprintln("tick", t)')
            if self.chance(0.7):
                self.line("default:")
                with self.inside():
                    self.hole(2)
            self.line("}")
        yield
        if self.chance(0.5):
            self.line(f"close({quit_it})")

    def spin(self):
        """One that turns round until others have filled a channel, or for so long."""
        size, name, turns = self.upto(3, 1), self.fresh("n"), self.fresh("turns")
        with self.function("fill", [("out", self.sending(INT))]) as fill:
            for _ in range(self.upto(4)):
                self.hole(2)
                self.send("out", INT)
        channel = self.make(INT, size)
        self.go(fill, channel)
        yield
        self.line(f"{name} := len({channel})")
        self.line(f"{turns} := 0")
        self.declare(name, INT, True)
        self.declare(turns, INT, True)
        with self.block(f"for {name} < {size} && {turns} < 40", 40):
            self.line(f"{name} = len({channel})")
            self.line(f"{turns}++")
        self.line(f"println({name}, {turns})")

    # ---- anything goes

    def chaos(self):
        """Some that do whatever they like with the same channels, for some turns; nobody waits for them."""
        kinds = [self.message() for _ in range(self.upto(3, 1))]
        channels = [self.make(kind) for kind in kinds]
        parameters = [(self.fresh("c"), ("", kind)) for kind in kinds]
        waits = self.pick([0, 0.2, 0.5])
        for _ in range(self.upto(3, 1)):
            with self.function("chaos", parameters) as chaos:
                with self.turns(self.upto(4)):
                    for _ in range(self.upto(3)):
                        self.selected_among([(name, kind) for name, (_, kind) in parameters], not self.chance(waits))
                        self.hole(1)
            self.go(chaos, *channels)
        yield
        with self.turns(self.upto(4)):
            self.selected_among(list(zip(channels, kinds)), not self.chance(waits))
        if self.chance(0.2):
            self.line(f"close({self.pick(channels)})")

    # ---- bad ends

    def bad_end(self):
        """What ends the run: a panic, or waiting for good."""
        ways = [self.division, self.shift, self.closed_send, self.closed_close, self.nil_close, self.bad_size, self.too_deep,
                self.waits_for_good, self.waits_for_good, self.runaway, self.woken_sender, self.woken_sender, self.main_again]
        if self.chance(0.08):
            ways = [self.too_many_goroutines, self.too_many_channels]
        self.pick(ways)()

    def somewhere(self, *lines):
        """Lines that are done here, or by a goroutine, or by a function that is called."""
        how = self.upto(3)
        if how < 2:
            with self.block("if true" if how == 0 else ""):
                for line in lines:
                    self.line(line)
            return
        name = self.fresh("bad")
        self.written.append("\n".join([f"func {name}() {{", *("\t" + line for line in lines), "}", ""]))
        self.line(f"{'go ' if how == 3 else ''}{name}()")

    def division(self):
        self.somewhere("zero := 0", self.pick(["x := 1 / zero", "x := 5 % zero", "x := 7; x /= zero", "println(1, 2 % zero)",
                                               "if zero != 0 || 1/zero > 2 { println() }", "x, y := 1, 2/zero; println(x, y)"]))

    def shift(self):
        ways = ["x := 1 << less", "x := less >> less", "x := 7; x <<= less", "println(1 / (1 << less))"]
        self.somewhere("less := -1", self.pick(ways))

    def closed_send(self):
        ways = ["c <- 1", "select { case c <- 1: }", "select { case c <- 1: default: }"]
        self.somewhere("c := make(chan int, 1)", "close(c)", self.pick(ways))

    def closed_close(self):
        self.somewhere("c := make(chan bool)", "close(c)", "close(c)")

    def nil_close(self):
        self.somewhere("var c chan bool", "close(c)")

    def bad_size(self):
        self.somewhere(self.pick(["n := -1", "n := 65537", "n := -9223372036854775808"]), "c := make(chan int, n)", "c <- 1")

    def woken_sender(self):
        """One that sleeps in a send on a channel that is closed."""
        name = self.fresh("late")
        sends = self.pick(["c <- 1", "select { case c <- 1: case d <- 2: }", "select { case <-d: case c <- 1: case c <- 2: }",
                           "select { case x, ok := <-c: println(x, ok); case c <- 1: }"])
        self.written.append(f"func {name}(c, d chan int) {{\n\t{sends}\n\tprintln(1)\n}}\n")
        self.somewhere("c := make(chan int)", "d := make(chan int)", f"go {name}(c, d)",
                       f"for i := 0; i < {self.upto(4)}; i++ {{ }}", "close(c)", self.pick(["println(2)", "<-d", "select { }"]))

    def main_again(self):
        self.somewhere("go main()")

    def too_deep(self):
        name = self.fresh("deep")
        again = f"x := {name}(n + 1); return x + 1"
        body = self.pick([f"return {name}(n + 1)", again, f"if n < {self.pick([900, 990, 1100])} {{ {again} }}; return n"])
        self.written.append(f"func {name}(n int) int {{\n\t{body}\n}}\n")
        self.somewhere(f"x := {name}(0)", "println(x)")

    def waits_for_good(self):
        self.somewhere(self.pick(["select { }", "var c chan int; <-c", "c := make(chan int); c <- 1", "var c chan bool; c <- true",
                                  "c := make(chan int); for range c { }", "var c chan bool; select { case c <- true: case <-c: }"]))

    def runaway(self):
        self.somewhere(self.pick(["for { }", "for { print() }", "for i := 0; ; i++ { if i % 100 == 0 { println(i) } }",
                                  "c := make(chan int, 1); for { c <- 1; <-c }"]))

    def too_many_goroutines(self):
        name = self.fresh("sleep")
        self.written.append(f"func {name}(c chan int) {{\n\t<-c\n}}\n")
        self.somewhere("c := make(chan int)", f"for i := 0; i < 1100; i++ {{ go {name}(c) }}")

    def too_many_channels(self):
        self.somewhere("for i := 0; i < 65600; i++ { c := make(chan int); if i == 0 { println(c == nil) } }")
