"""Runs one program in every way that is asked for, and says what differs."""
import collections, functools, itertools, random, shlex, subprocess

import interpret
import parse

# A run that takes longer than this is given up, and counts as one that differs.
SECONDS = 120
# Up to this clock, and for this number of moves, the interpreter looks whether a program ends by itself.
CLOCK, MOVES = 300000, 1000000

# What came of a run.
Ran = collections.namedtuple("Ran", "output line status trace", defaults=[b""])


class Product:
    """The program under test, as the words of its command."""

    def __init__(self, command):
        self.command = shlex.split(str(command))

    def ran(self, *words):
        try:
            done = subprocess.run([*self.command, *map(str, words)], stdin=subprocess.DEVNULL, capture_output=True, timeout=SECONDS)
        except subprocess.TimeoutExpired as late:
            return Ran(late.stdout or b"", b"it does not end", None)
        return Ran(done.stdout, done.stderr, done.returncode)


def interpreted(text, limit):
    """What the interpreter says of a run."""
    world = interpret.run(text, limit)
    line, status = interpret.ended(world.end)
    return Ran(b"".join(world.output), line.encode(), status, "".join(f"{event}\n" for event in world.events).encode())


def ends_by_itself(text):
    """Whether the program ends without a limit, and soon; None where its run is too long to be tried at greater limits at all."""
    end = interpret.World(parse.program(text), CLOCK).run(MOVES).end
    return None if end is None else end != interpret.EXHAUSTED


def limits_of(text, given, chance):
    """The limits at which a program is run: those given, two by chance, and the default one, which None stands for."""
    ends = ends_by_itself(text)
    limits = [*given, chance.randint(1, 60), chance.randint(1, 400)]
    return limits if ends is None else [*limits, None if ends else CLOCK]


def difference(one, other):
    """In what two runs differ, in a few words, or None."""
    for name in Ran._fields:
        left, right = getattr(one, name), getattr(other, name)
        if left != right:
            if name not in ("output", "trace"):
                return f"{name}: {left!r} and {right!r}"
            at = next((at for at, pair in enumerate(zip(left, right)) if pair[0] != pair[1]), min(len(left), len(right)))
            return f"{name} at byte {at}: {left[at:at + 40]!r} and {right[at:at + 40]!r}"
    return None


class Trial:
    """What is tried of each program."""

    def __init__(self, product, given):
        self.product, self.given = product, given

    def checked(self, file):
        """What is wrong with the check of a program, or None."""
        came = self.product.ran("check", file)
        return difference(came, Ran(b"", b"", 0))

    def run(self, file, limit, workers):
        words = ["run", file, *(["--limit", limit] if limit else []), "--workers", workers]
        if not self.given.trace:
            return self.product.ran(*words)
        trace = file.with_suffix(".trace")
        came = self.product.ran(*words, "--trace", trace)
        return came._replace(trace=trace.read_bytes() if trace.exists() else b"")

    def reference(self, file, limit):
        return self.product.ran("reference", file, *(["--limit", limit] if limit else []))

    def differ(self, file, text, limit, workers):
        """What differs at one limit, as lines."""
        first, found = ("reference", {}) if self.given.no_run else ("run", {})
        came = self.reference(file, limit) if self.given.no_run else self.run(file, limit, workers)
        if not self.given.no_reference and not self.given.no_run:
            found["run and reference"] = difference(came, self.reference(file, limit)._replace(trace=came.trace))
        if self.given.oracle or self.given.no_run:
            wanted = interpreted(text, limit or interpret.LIMIT)
            found[f"{first} and interpreter"] = difference(came, wanted if self.given.trace else wanted._replace(trace=b""))
        for time, other in itertools.product(range(self.given.times), self.given.workers):
            found[f"run and run {time + 1} with --workers {other}"] = difference(came, self.run(file, limit, other))
        how = f"{f'--limit {limit}' if limit else 'no limit'}, --workers {workers}"
        return [f"{what} with {how}: {it}" for what, it in found.items() if it]

    def of(self, file, text, seed):
        """What differs, as lines; how many runs there were; and a test that sees the first of it in another text."""
        wrong = self.checked(file)
        if wrong or self.given.check_only:
            rule = self.product.ran("check", file).line.split(b" at ")[0] if wrong else b""
            return [f"check: {wrong}"] if wrong else [], 1, functools.partial(self.refused_again, rule)
        chance, lines, again = random.Random(f"{seed}/limits"), [], None
        limits = limits_of(text, self.given.limits, chance)
        for limit in limits:
            workers = chance.choice(self.given.workers)
            found = self.differ(file, text, limit, workers)
            if found and not again:
                again = functools.partial(self.differs_again, limit, workers)
            lines += found
        return lines, len(limits), again

    def refused_again(self, rule, file, _text):
        return self.product.ran("check", file).line.split(b" at ")[0] == rule

    def differs_again(self, limit, workers, file, text):
        """Whether something differs in a smaller text, if it is still a program that ends there."""
        if self.checked(file):
            return False
        return (limit is not None or ends_by_itself(text)) and bool(self.differ(file, text, limit, workers))
