"""Makes a text smaller, as long as what is wrong with it stays wrong: it leaves out lines, blocks, and what stands round them."""


def depth(line):
    return len(line) - len(line.lstrip("\t"))


def after(lines, first):
    """Where the block that begins with this line ends, or the line itself."""
    last = first + 1
    if lines[first].endswith("{"):
        while last < len(lines) and (not lines[last] or depth(lines[last]) > depth(lines[first])):
            last += 1
        last += 1
    return min(last, len(lines))


def smaller(lines, first):
    """Texts without what begins with this line."""
    last = after(lines, first)
    yield lines[:first] + lines[last:]
    if last > first + 2:
        yield lines[:first] + lines[first + 1:last - 1] + lines[last:]


def shrunk(text, is_wrong):
    """The smallest text that was found; `is_wrong` says whether a text is still one that is looked for."""
    lines, before = text.split("\n"), 0
    while len(lines) != before:
        before, first = len(lines), 0
        while first < len(lines):
            less = next((it for it in smaller(lines, first) if is_wrong("\n".join(it))), None)
            if less is None:
                first += 1
            else:
                lines = less
    return "\n".join(lines)
