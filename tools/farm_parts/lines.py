"""Lines of the program, and the parts into which they are cut for workers."""
import re
import shlex

MOST_SEEDS = 4096
SEEDS = 2**64
NUMBER = re.compile(r"0|[1-9][0-9]*")
ROOT = re.compile(r"[A-Za-z_][A-Za-z_0-9]*::[A-Za-z_][A-Za-z_0-9]*")
LIMITS = {"first": (0, SEEDS - 1), "count": (1, SEEDS), "infer": (0, 8), "budget": (1, 10**9)}
MOST_FILES = 16


class Part:
    """A call of the program: its words, and the seeds where it is a part of a sweep. What came of it is its text and its status, what
    it said on standard error, and why it is to be tried again."""

    def __init__(self, words, first=0, count=0):
        self.words, self.first, self.count = words, first, count
        self.text, self.status, self.said, self.why = b"", None, b"", ""

    def name(self):
        """How it is told of."""
        if not self.count:
            return shlex.join(self.words)
        last = self.first + self.count - 1
        return f"seed {self.first}" if self.count == 1 else f"seeds {self.first} to {last}"


class Line:
    """A line of the program with its parts: several of a sweep, one of anything else. `number` is that of its line in a list."""

    def __init__(self, words, parts, number=0):
        self.words, self.number = words, number
        self.seeds = seeds_of(words)
        self.parts = [Part(words)]
        if self.seeds:
            self.parts = [Part(swept(words, first, count), first, count) for first, count in cut(*self.seeds, parts)]

    def files(self):
        return [word for word in self.words[1:] if "=" not in word]


def is_right(key, value):
    """Whether a key of a sweep may have a value."""
    if key == "root":
        return ROOT.fullmatch(value) is not None
    if key not in LIMITS or not NUMBER.fullmatch(value):
        return False
    return LIMITS[key][0] <= int(value) <= LIMITS[key][1]


def seeds_of(words):
    """The first seed and the number of seeds of a sweep; nothing where the words are no such line. Those are one part, for the
    program to answer as they stand. More seeds than one call takes are right here."""
    if words[:1] != ["sweep"]:
        return None
    pairs = [word.split("=", 1) for word in words[1:] if "=" in word]
    keys, files = dict(pairs), len(words) - 1 - len(pairs)
    if len(keys) < len(pairs) or not {"root", "count"} <= set(keys) or not 1 <= files <= MOST_FILES or "" in words:
        return None
    if not all(is_right(*pair) for pair in pairs):
        return None
    first, count = int(keys.get("first", "1")), int(keys["count"])
    return (first, count) if first + count <= SEEDS else None


def cut(first, count, parts):
    """The seeds in as many parts, but in none more than one call takes: the first seed and the number of each."""
    parts = max(min(parts, count), -(-count // MOST_SEEDS))
    ends = [count * part // parts for part in range(parts + 1)]
    return [(first + start, end - start) for start, end in zip(ends, ends[1:])]


def swept(words, first, count):
    """The words of a sweep with other seeds."""
    given = {"first": f"first={first}", "count": f"count={count}"}
    made = [given.pop(word.partition("=")[0], word) if "=" in word else word for word in words]
    return [*made, *given.values()]


def lines_of(text, parts):
    """The lines of a list; empty ones and those that begin with # are passed over."""
    split = [(number, shlex.split(line, comments=True)) for number, line in enumerate(text.split("\n"), 1)]
    return [Line(words, parts, number) for number, words in split if words]


def command_of(program, words, folder, limit):
    """The line of a shell that runs the program and leaves its text with its status behind it. It fails where the program didn't
    come to an answer."""
    timed = ["timeout", "-k", "10", str(limit)] if limit else []
    called = shlex.join([*timed, program, *words])
    return f"cd {shlex.quote(folder)} || exit 125; {called} </dev/null; s=$?; printf '\\nstatus %d\\n' $s; [ $s -lt 10 ]"
