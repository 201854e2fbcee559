"""The tokens of a text that is a program: nothing is refused here but what is no token at all."""
import collections, re

KEYWORDS = set("break case chan const continue default defer else fallthrough for func go goto if import interface map "
               "package range return select struct switch type var".split())
MARKS = ("<<= >>= &^= ... << >> &^ += -= *= /= %= &= |= ^= && || <- ++ -- == != <= >= := + - * / % & | ^ < > = ! ~ ( ) [ ] { } "
         ", ; . :").split()
PIECES = re.compile(r"""
    (?P<space>[ \t\r]+)
  | (?P<line>\n)
  | (?P<comment>//[^\n]*)
  | (?P<general>/\*.*?\*/)
  | (?P<name>(?:[A-Za-z_]|[^\x00-\x7f])(?:[A-Za-z0-9_]|[^\x00-\x7f])*)
  | (?P<integer>0[xX][0-9a-fA-F]+|[0-9]+)
  | (?P<string>"(?:[^"\\\n]|\\.)*")
  | (?P<mark>""" + "|".join(map(re.escape, MARKS)) + ")", re.X | re.S)
ENDS = {"break", "continue", "fallthrough", "return", "++", "--", ")", "]", "}"}
ESCAPES = {"n": "\n", "t": "\t", "\\": "\\", '"': '"'}

# The kind is `name`, `integer`, `string`, or the keyword or mark itself; `end` after the last token.
Token = collections.namedtuple("Token", "kind text")


def tokens(text):
    """The tokens, with the semicolons that are inserted at the ends of lines."""
    made, at = [], 0
    while at < len(text):
        found = PIECES.match(text, at)
        if not found:
            raise ValueError(f"no token begins at {at}: {text[at:at + 20]!r}")
        at = found.end()
        if found.lastgroup == "line" or found.lastgroup == "general" and "\n" in found[0]:
            end_line(made)
        elif found.lastgroup not in ("space", "comment", "general"):
            made.append(token(found.lastgroup, found[0]))
    end_line(made)
    return [*made, Token("end", "")]


def token(group, text):
    if group == "mark" or group == "name" and text in KEYWORDS:
        return Token(text, text)
    return Token(group, text)


def end_line(made):
    if made and (made[-1].kind in ("name", "integer", "string") or made[-1].kind in ENDS):
        made.append(Token(";", ""))


def content(string):
    """The bytes that a string stands for."""
    return re.sub(r"\\(.)", lambda it: ESCAPES[it[1]], string[1:-1]).encode()
