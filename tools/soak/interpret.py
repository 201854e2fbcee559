#!/usr/bin/env python3
"""Runs programs by the rules of docs/LANGUAGE.md, one goroutine at a time and slowly: what it says does not come from the product.

    tools/soak/interpret.py FILE [--limit L] [--trace]

It takes FILE for a program, and looks for no fault in it. It prints and ends as `kendo run` does; with --trace it prints the
events in place of the output.
"""
import argparse, heapq, pathlib, sys, threading

import parse
from steps import TICK, Goroutine, Request, Steps

LIMIT = 1099511627776
MOST_ALIVE, MOST_CHANNELS, MOST_SIZE = 16384, 65536, 65536
PANICS = ["divide by zero", "send on closed channel", "close of closed channel", "close of nil channel", "negative shift",
          "channel size", "call depth", "too many goroutines", "too many channels"]
FINISHED, DEADLOCK, EXHAUSTED = "finished", "deadlock", "exhausted"


class Channel:
    def __init__(self, number, capacity, zero):
        self.number, self.capacity, self.zero = number, capacity, zero
        self.items, self.is_closed = [], False
        # those that wait to send and to receive, in the order in which they fell asleep: by the goroutine's number its first
        # such offer, as the sleeper, the offer's number and the offer
        self.waiting = {"send": {}, "receive": {}}


class Sleeper:
    """A goroutine that waits, with the sends and receives that it offers, and whether they are the clauses of a select."""

    def __init__(self, goroutine, offers, is_select, order):
        self.goroutine, self.offers, self.is_select, self.order = goroutine, offers, is_select, order


class World:
    """All goroutines, and what they share."""

    def __init__(self, program, limit):
        self.steps, self.limit = Steps(program), limit
        self.awake, self.sleeps = [], 0
        self.channels, self.started, self.alive = 0, 0, 0
        self.output, self.events, self.end, self.moves = [], [], None, 0
        self.start("main", [], 0)

    def start(self, function, arguments, clock):
        self.started += 1
        self.alive += 1
        self.wake(Goroutine(self.steps, self.started, clock, function, arguments))
        return self.started

    def wake(self, goroutine):
        heapq.heappush(self.awake, (goroutine.key(), goroutine))

    # ---- moves

    def run(self, most_moves=None):
        """Moves up to the end. If it takes more moves than are allowed, the end stays None."""
        while self.end is None and (most_moves is None or self.moves < most_moves):
            if not self.awake:
                self.end = DEADLOCK
                break
            _, goroutine = heapq.heappop(self.awake)
            self.turn(goroutine)
        return self

    def turn(self, goroutine):
        """The goroutine of least key moves as long as it has it, up to a request, which is performed."""
        while not self.awake or goroutine.key() < self.awake[0][0]:
            self.moves += 1
            asked = goroutine.proceed()
            if goroutine.clock == self.limit:
                asked = Request("exhausted")
            if asked is not TICK:
                return self.perform(goroutine, asked)
            goroutine.clock += 1
        self.wake(goroutine)

    def perform(self, goroutine, asked):
        """One event."""
        said = getattr(self, "do_" + asked.what)(goroutine, asked)
        self.events.append(f"{goroutine.clock} {goroutine.number} {said}")
        if not said.endswith("sleeps") and asked.what != "end":
            goroutine.clock += 1
            self.wake(goroutine)

    def panics(self, cause):
        self.end = cause
        return f"panic P{cause}"

    # ---- requests of one goroutine alone

    def do_make(self, goroutine, asked):
        if not 0 <= asked.size <= MOST_SIZE:
            return "make " + self.panics(6)
        if self.channels == MOST_CHANNELS:
            return "make " + self.panics(9)
        self.channels += 1
        goroutine.told = Channel(self.channels, asked.size, asked.item)
        return f"make {self.channels}"

    def do_go(self, goroutine, asked):
        if self.alive == MOST_ALIVE:
            return "go " + self.panics(8)
        return f"go {self.start(asked.function, asked.arguments, goroutine.clock + 1)}"

    def do_len(self, goroutine, asked):
        goroutine.told = len(asked.channel.items) if asked.channel else 0
        return f"len {named(asked.channel)} {goroutine.told}"

    def do_cap(self, goroutine, asked):
        goroutine.told = asked.channel.capacity if asked.channel else 0
        return f"cap {named(asked.channel)} {goroutine.told}"

    def do_print(self, _goroutine, asked):
        self.output.append(asked.text)
        return f"print {len(asked.text)}"

    def do_end(self, goroutine, _asked):
        if goroutine.number == 1:
            self.end = FINISHED
            return "exit"
        self.alive -= 1
        return "end"

    def do_panic(self, _goroutine, asked):
        return self.panics(asked.cause)

    def do_exhausted(self, _goroutine, _asked):
        self.end = EXHAUSTED
        return "exhausted"

    # ---- channels

    def partner(self, channel, what):
        """The first sleeper with such an offer on a channel, and its first one, with its number; or None."""
        return next(iter(channel.waiting[what].values()), None)

    def serve(self, actor, found, told):
        """A sleeper's offer is done: it withdraws the others, and goes on one tick after the actor's clock."""
        sleeper, number, _ = found
        for offer in sleeper.offers:
            if offer.channel:
                offer.channel.waiting[offer.what].pop(sleeper.goroutine.number, None)
        sleeper.goroutine.told = (number, told) if sleeper.is_select else told
        sleeper.goroutine.clock = actor.clock + 1
        self.wake(sleeper.goroutine)
        return sleeper.goroutine.number

    def is_ready(self, asked):
        channel = asked.channel
        if channel is None:
            return False
        if asked.what == "send":
            return channel.is_closed or len(channel.items) < channel.capacity or self.partner(channel, "receive") is not None
        return channel.items or channel.is_closed or self.partner(channel, "send") is not None

    def sleep(self, goroutine, offers, is_select):
        self.sleeps += 1
        sleeper = Sleeper(goroutine, offers, is_select, self.sleeps)
        for number, offer in enumerate(offers, 1):
            if offer.channel:
                offer.channel.waiting[offer.what].setdefault(goroutine.number, (sleeper, number, offer))

    def do_send(self, goroutine, asked):
        channel, head = asked.channel, f"send {named(asked.channel)} "
        if not self.is_ready(asked):
            self.sleep(goroutine, [asked], False)
            return head + "sleeps"
        if channel.is_closed:
            return head + self.panics(2)
        found = self.partner(channel, "receive")
        if found:
            return head + f"to {self.serve(goroutine, found, (asked.item, True))}"
        channel.items.append(asked.item)
        return head + "done"

    def do_receive(self, goroutine, asked):
        channel, head = asked.channel, f"receive {named(asked.channel)} "
        if not self.is_ready(asked):
            self.sleep(goroutine, [asked], False)
            return head + "sleeps"
        found = self.partner(channel, "send")
        if found:
            channel.items.append(found[2].item)
        if not channel.items:
            goroutine.told = channel.zero, False
            return head + "closed"
        goroutine.told = channel.items.pop(0), True
        return head + (f"from {self.serve(goroutine, found, None)}" if found else "done")

    def do_close(self, goroutine, asked):
        channel, head = asked.channel, f"close {named(asked.channel)}"
        if channel is None:
            return f"{head} {self.panics(4)}"
        if channel.is_closed:
            return f"{head} {self.panics(3)}"
        channel.is_closed = True
        found = [*channel.waiting["send"].values(), *channel.waiting["receive"].values()]
        sleepers = {sleeper.order: sleeper for sleeper, _, _ in found}
        woken = [self.told_of_close(goroutine, sleepers[order], channel) for order in sorted(sleepers)]
        return " ".join([head, *["wakes"] * bool(woken), *woken])

    def told_of_close(self, actor, sleeper, channel):
        """Wakes a sleeper by its first offer on the channel that was closed, and says its number."""
        number, offer = next(it for it in enumerate(sleeper.offers, 1) if it[1].channel is channel)
        if offer.what == "send":
            sleeper.goroutine.doomed = 2
        return str(self.serve(actor, (sleeper, number, offer), (channel.zero, False)))

    def do_select(self, goroutine, asked):
        ready = [(number, case) for number, case in enumerate(asked.cases, 1) if self.is_ready(case)]
        if ready:
            number, case = ready[goroutine.clock % len(ready)]
            said = (self.do_send if case.what == "send" else self.do_receive)(goroutine, case)
            goroutine.told = number, goroutine.told
            return f"select case {number} {said}"
        if asked.has_default:
            goroutine.told = 0, None
            return "select default"
        self.sleep(goroutine, asked.cases, True)
        return "select sleeps"


def named(channel):
    return channel.number if channel else "nil"


def run(text, limit=LIMIT, most_moves=None):
    """The run of a program: its `output`, `events` and `end`."""
    return World(parse.program(text), limit).run(most_moves)


def ended(end):
    """The line on standard error, and the exit status."""
    if end == FINISHED:
        return "", 0
    if end == DEADLOCK:
        return "kendo: deadlock\n", 3
    if end == EXHAUSTED:
        return "kendo: logical time exhausted\n", 4
    return f"kendo: panic P{end} {PANICS[end - 1]}\n", 2


def with_room(work):
    """Does some work where a tree of the greatest height can be walked."""
    sys.setrecursionlimit(100000)
    threading.stack_size(256 << 20)
    done = []
    worker = threading.Thread(target=lambda: done.append(work()))
    worker.start()
    worker.join()
    return done[0] if done else 1


def main():
    parser = argparse.ArgumentParser(description=__doc__, formatter_class=argparse.RawDescriptionHelpFormatter)
    parser.add_argument("file", type=pathlib.Path)
    parser.add_argument("--limit", type=int, default=LIMIT)
    parser.add_argument("--trace", action="store_true")
    given = parser.parse_args()
    world = run(given.file.read_text(encoding="utf-8"), given.limit)
    if given.trace:
        print("\n".join(world.events))
    else:
        sys.stdout.buffer.write(b"".join(world.output))
    line, status = ended(world.end)
    sys.stderr.write(line)
    return status


if __name__ == "__main__":
    sys.exit(with_room(main))
