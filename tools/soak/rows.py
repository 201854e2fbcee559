#!/usr/bin/env python3
"""Compares the interpreter with the rows of crates/rows/data that tell what a program prints, how it ends, and its events.

    tools/soak/rows.py [--data FOLDER]

It prints what differs, and at last `N rows, M differ`. Texts that are to be refused are not looked at: the interpreter takes
whatever it is given for a program. What is told to be `typed` or `read` has to be parsed.
"""
import argparse, pathlib, re, sys

import interpret, parse

TOP = pathlib.Path(__file__).resolve().parent.parent.parent
ESCAPE = re.compile(rb"\\(?:(n)|(t)|(\\)|x([0-9a-fA-F]{2})|(\d+)<([^>]*)>)", re.S)


def written(text):
    """The bytes that a line of a table or a `.gen` stands for."""
    def piece(it):
        if it[4]:
            return bytes([int(it[4], 16)])
        return it[6] * int(it[5]) if it[5] else b"\n" if it[1] else b"\t" if it[2] else b"\\"
    return ESCAPE.sub(piece, text)


class Differences:
    def __init__(self):
        self.rows, self.differ = 0, 0

    def compare(self, name, what, wanted, came):
        if wanted != came:
            print(f"{name}: {what}: wanted {wanted!r}, came {came!r}")
        return wanted != came

    def count(self, *differ):
        self.rows += 1
        self.differ += any(differ)

    # ---- rows of files

    def folder(self, folder):
        stems = {it.with_suffix("") for it in folder.iterdir() if it.suffix in (".row", ".out", ".trace")}
        for stem in sorted(stems):
            text = text_of(stem)
            row = told(stem)
            if row["status"] in (0, 2, 3, 4) and text is not None:
                self.row(stem, text, row)
        for table in sorted(folder.glob("*.texts")):
            self.table(table)

    def row(self, stem, text, row):
        world = interpret.run(text, row["limit"])
        line, status = interpret.ended(world.end)
        differ = [self.compare(stem, "status", row["status"], status), self.compare(stem, "line", row["error"], line.strip()),
                  self.compare(stem, "output", read(stem, ".out"), b"".join(world.output))]
        if pathlib.Path(f"{stem}.trace").is_file():
            events = read(stem, ".trace").decode().splitlines()
            came = world.events[-len(events[1:]):] if events[:1] == [".."] else world.events
            differ.append(self.compare(stem, "events", events[1:] if events[:1] == [".."] else events, came))
        self.count(*differ)

    # ---- tables

    def table(self, file):
        round_it = {b"before": b"", b"after": b""}
        for number, line in enumerate(file.read_bytes().split(b"\n"), 1):
            word, _, rest = line.partition(b" ")
            if word in round_it:
                round_it[word] = written(rest)
            elif b"\t" in line and not line.startswith(b"#"):
                what, _, text = line.partition(b"\t")
                self.line(f"{file}:{number}", what, round_it[b"before"] + written(text) + round_it[b"after"])

    def line(self, name, what, text):
        if what.startswith(b"prints ") or what == b"prints":
            world = interpret.run(text.decode())
            differ = self.compare(name, "output", written(what[7:]), b"".join(world.output))
            self.count(differ, self.compare(name, "end", interpret.FINISHED, world.end))
        elif what in (b"typed", b"read"):
            try:
                parse.program(text.decode())
            except ValueError as error:
                # what is read may divide a constant by zero, and the like
                self.count(self.compare(name, "parsed", "a program", str(error)))
            else:
                self.count()


def read(stem, suffix):
    file = pathlib.Path(f"{stem}{suffix}")
    return file.read_bytes() if file.is_file() else b""


def text_of(stem):
    """The text that a row belongs to; None where its bytes are no UTF-8."""
    base = stem.with_name(stem.name.split(".")[0])
    text = read(base, ".go") or b"".join(written(it) for it in read(base, ".gen").split(b"\n"))
    try:
        return text.decode()
    except UnicodeDecodeError:
        return None


def told(stem):
    row = {"limit": interpret.LIMIT, "status": 0, "error": ""}
    for line in read(stem, ".row").decode().splitlines():
        word, _, value = line.partition(" ")
        if word in row:
            row[word] = value if word == "error" else int(value)
    return row


def main():
    parser = argparse.ArgumentParser(description=__doc__, formatter_class=argparse.RawDescriptionHelpFormatter)
    parser.add_argument("--data", type=pathlib.Path, default=TOP / "crates/rows/data")
    given = parser.parse_args()
    found = Differences()
    for folder in sorted(it for it in given.data.iterdir() if it.is_dir()):
        found.folder(folder)
    print(f"{found.rows} rows, {found.differ} differ")
    return 1 if found.differ else 0


if __name__ == "__main__":
    sys.exit(interpret.with_room(main))
