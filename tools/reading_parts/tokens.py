"""Cuts a source into tokens, as docs/LANGUAGE.md defines them."""
import re

RESERVED = frozenset(
    "abstract action activity bind bit body bool buffer component constraint default do else enum exec false foreach function if "
    "import in input int join_branch join_first join_none join_select lock match output parallel pool rand repeat resource schedule "
    "select sequence share state stream target true unique void with".split()
)
MARKS = "<< >> <= >= == != && || -> :: .. { } ( ) [ ] ; , . : = < > + - * / % & | ^ ! ~".split()
BLANK = r"[ \t\r\n]+|//[^\n]*|/\*(?:[^*]|\*(?!/))*\*/"
NUMBER = r"0x[0-9A-Fa-f]+|[1-9][0-9]*|0"
PART = re.compile(
    rf"(?P<blank>{BLANK})|(?P<word>[A-Za-z_][A-Za-z_0-9]*)|(?P<number>(?:{NUMBER})(?![A-Za-z_0-9]))"
    rf"|(?P<mark>(?!/\*)(?:{'|'.join(map(re.escape, MARKS))}))"
)
LARGEST = 2**63 - 1


class Fault(Exception):
    """A text that is no source: what the program would print of it, and the place."""

    def __init__(self, what, place):
        super().__init__(f"{what} {place}")
        self.what, self.place = what, place


class Place:
    """A place in a file: line and column, counted from 1, columns in bytes."""

    __slots__ = ("file", "line", "column")

    def __init__(self, file, line, column):
        self.file, self.line, self.column = file, line, column

    def __str__(self):
        return f"{self.file}:{self.line}:{self.column}"


class Token:
    """A token: its kind (a reserved word or a mark is its own kind; else `name`, `number` or `end`), text and place."""

    __slots__ = ("kind", "text", "place", "stop")

    def __init__(self, kind, text, place, stop):
        self.kind, self.text, self.place, self.stop = kind, text, place, stop


def tokens_of(text, file):
    """The tokens of a source, in bytes, with one of the kind `end` behind them."""
    text = text.decode("latin-1")
    found, at, line, begun = [], 0, 1, 0
    while at < len(text):
        part = PART.match(text, at)
        place = Place(file, line, at - begun + 1)
        if not part:
            raise Fault("lexical bad", place)
        said, stop = part[0], part.end()
        if part.lastgroup == "blank":
            line += said.count("\n")
            begun = at + said.rfind("\n") + 1 if "\n" in said else begun
        else:
            kind = part.lastgroup
            if kind == "number" and int(said, 0) > LARGEST:
                raise Fault("lexical wide", place)
            kind = said if kind == "mark" or said in RESERVED else {"word": "name"}.get(kind, kind)
            found.append(Token(kind, said, place, Place(file, line, stop - begun + 1)))
        at = stop
    place = Place(file, line, at - begun + 1)
    return found + [Token("end", "", place, place)]
