"""The tree of a program, as the interpreter walks it: parentheses are gone, and constants are folded to one integer."""
from dataclasses import dataclass


@dataclass
class Channel:
    """The type of a channel. Its direction does not matter to a run; other types are their names."""
    element: object


# ---- expressions

@dataclass
class Integer:
    value: int


@dataclass
class Name:
    name: str


@dataclass
class Unary:
    sign: str
    operand: object


@dataclass
class Binary:
    sign: str
    left: object
    right: object


@dataclass
class Field:
    operand: object
    name: str


@dataclass
class Literal:
    type: str
    values: list


@dataclass
class Text:
    """A string, which stands among what is printed alone."""
    content: bytes


# ---- expressions that make a request, or a call

@dataclass
class Call:
    name: str
    arguments: list


@dataclass
class Receive:
    channel: object


@dataclass
class Make:
    type: object
    size: object


@dataclass
class Measure:
    """`len` or `cap` of a channel."""
    what: str
    channel: object


# ---- statements; a place is the list of its names, a right side a list of expressions

@dataclass
class Empty:
    pass


@dataclass
class Print:
    parts: list
    is_line: bool


@dataclass
class Close:
    channel: object


@dataclass
class Send:
    channel: object
    value: object


@dataclass
class Define:
    names: list
    right: object


@dataclass
class Variables:
    names: list
    type: object
    right: object


@dataclass
class Assign:
    places: list
    right: object


@dataclass
class Operate:
    """`op=`, `++` and `--`."""
    place: list
    sign: str
    value: object


@dataclass
class Go:
    call: Call


@dataclass
class Return:
    right: object


@dataclass
class Break:
    pass


@dataclass
class Continue:
    pass


@dataclass
class Block:
    statements: list


@dataclass
class If:
    before: object
    condition: object
    then: Block
    otherwise: object


@dataclass
class For:
    before: object
    condition: object
    after: object
    body: Block


@dataclass
class Range:
    """A range over a channel, whose item goes to a new name, to a place, or nowhere."""
    name: object
    place: object
    channel: object
    body: Block


@dataclass
class Clause:
    """A clause of a select: a `default`, a send, or a receive whose item goes to new names, to places, or nowhere."""
    communication: object
    names: list
    places: list
    statements: list


@dataclass
class Select:
    clauses: list


# ---- declarations

@dataclass
class Function:
    name: str
    parameters: list
    body: Block


@dataclass
class Program:
    """The fields of each struct type, as pairs of a name and a type, and the functions, by name."""
    structs: dict
    functions: dict
