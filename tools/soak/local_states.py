"""The states in which one goroutine stands at a request, and the state that each reply leads to.

A generator can't be copied. A goroutine that goes on in several ways is run again from its start, with the replies that it got so
far; each step from a state by a reply is made once. Two goroutines are in the same state if they make the same request, and their
generators stand at the same places with the same variables: `shape` reads that from the generators' frames.
"""
import dataclasses

from steps import TICK, Goroutine, Request, Scope, Steps

# The most steps that a goroutine makes without a request.
MOST_STEPS = 1 << 20
# Of each generator of steps.py, the variables that it doesn't read any more after it has made a request.
DEAD = {"function": {"name", "arguments", "parameter", "value", "left"}, "statements": {"left"}, "loop": {"left"},
        "range": {"item", "is_there", "left"}}


class Channel:
    """A channel; `zero` is what a receive gives if it is closed and empty."""

    def __init__(self, name, capacity, zero):
        self.name, self.capacity, self.zero = name, capacity, zero


class Struct(tuple):
    """A struct as pairs of a field and its value, which can be hashed."""


def frozen(value):
    return Struct((name, frozen(it)) for name, it in value.items()) if isinstance(value, dict) else value


def thawed(value):
    """The value, or the reply with values, as steps.py has it."""
    if isinstance(value, Struct):
        return {name: thawed(it) for name, it in value}
    return tuple(map(thawed, value)) if isinstance(value, tuple) else value


class Shape:
    """What the future of one goroutine depends on, as a value that can be hashed."""

    def __init__(self):
        self.scopes = {}

    def of(self, value):
        if value is None or isinstance(value, (int, str, bytes, Channel)):
            return value
        if isinstance(value, Scope):
            return self.of_scope(value)
        if isinstance(value, dict):
            return frozen(value)
        if isinstance(value, (list, tuple)):
            return tuple(map(self.of, value))
        if isinstance(value, Request):
            return tuple(self.of(getattr(value, field.name)) for field in dataclasses.fields(value))
        # a node of the program's tree
        return id(value)

    def of_scope(self, scope):
        """A scope that was met before is told by its number."""
        if scope in self.scopes:
            return "scope", self.scopes[scope]
        self.scopes[scope] = len(self.scopes)
        return tuple((name, self.of(it)) for name, it in scope.variables.items()), self.of(scope.outer)

    def of_generator(self, generator):
        """A generator, and those that it waits for."""
        shapes = []
        while generator is not None:
            frame, name = generator.gi_frame, generator.gi_code.co_name
            variables = frame.f_locals
            if name == "select" and "clauses" in variables:
                # all clauses are evaluated
                variables = {"scope": variables["scope"], "it": variables["it"]}
            live = variables.keys() - DEAD.get(name, set()) - {"self"}
            shapes.append((name, frame.f_lasti, *[(it, self.of(variables[it])) for it in sorted(live)]))
            generator = generator.gi_yieldfrom
        return tuple(shapes)


class LocalState:
    """A goroutine at a request, whose values are frozen."""

    def __init__(self, request, start, replies, goroutine):
        self.request = request
        # one way to come here, and the goroutine that stands here, unless it has gone on
        self.start, self.replies, self.goroutine = start, replies, goroutine
        self.after = {}


class LocalStates:
    def __init__(self, program):
        self.steps = Steps(program)
        self.starts, self.states, self.channels = {}, {}, {}

    def channel(self, name, capacity, zero):
        """The channel of this name. In other orders it may have another size or type, and is then another one."""
        key = name, capacity, repr(zero)
        return self.channels.setdefault(key, Channel(*key[:2], zero))

    def start(self, function, arguments):
        """The state of a goroutine at its first request."""
        start = function, arguments
        if start not in self.starts:
            self.starts[start] = self.proceed(self.goroutine(start), start, ())
        return self.starts[start]

    def follow(self, state, reply):
        """The state at the request after this one."""
        after = state.after.get(reply)
        if after is None:
            goroutine, state.goroutine = state.goroutine, None
            if goroutine is None:
                goroutine = self.again(state)
            goroutine.told = thawed(reply)
            after = state.after[reply] = self.proceed(goroutine, state.start, (*state.replies, reply))
        return after

    def goroutine(self, start):
        function, arguments = start
        return Goroutine(self.steps, 0, 0, function, [thawed(it) for it in arguments])

    def again(self, state):
        """A goroutine that has come to a state."""
        goroutine = self.goroutine(state.start)
        for reply in state.replies:
            self.asked(goroutine)
            goroutine.told = thawed(reply)
        self.asked(goroutine)
        return goroutine

    def asked(self, goroutine):
        """Goes on to the next request; `endless` stands for one that does not come."""
        for _ in range(MOST_STEPS):
            asked = goroutine.proceed()
            if asked is not TICK:
                return asked
        return Request("endless")

    def proceed(self, goroutine, start, replies):
        asked = self.asked(goroutine)
        shape = Shape()
        is_last = asked.what in ("end", "panic", "endless")
        stands = () if is_last else tuple(map(shape.of_generator, goroutine.functions))
        key = stands, shape.of(asked)
        if key not in self.states:
            self.states[key] = LocalState(frozen_request(asked), start, replies, None if is_last else goroutine)
        return self.states[key]


def frozen_request(asked):
    return dataclasses.replace(asked, item=frozen(asked.item), arguments=tuple(map(frozen, asked.arguments)),
                               cases=tuple(map(frozen_request, asked.cases)))
