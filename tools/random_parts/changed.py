"""Sources that are changed: cut, with other tokens or bytes, with names exchanged for others of equal length."""
import re

KEYWORDS = """abstract action activity bind bit body bool buffer component constraint default do else enum exec false foreach function
if import in input int join_branch join_first join_none join_select lock match output parallel pool rand repeat resource schedule
select sequence share state stream target true unique void with""".split()
MARKS = "{ } ( ) [ ] ; , . .. : :: = == != < <= > >= << >> + - * / % & && | || ^ ! ~ ->".split()
TOKEN = re.compile(rb"//[^\n]*|/\*.*?\*/|\w+|::|\.\.|->|<<|>>|[<>=!]=|&&|\|\||[^\s\w]", re.S)
WORD = re.compile(rb"[A-Za-z_0-9]+")
# Words that have a meaning, or that the program prints beside names.
FIXED = {
    *KEYWORDS, *"""pss_top initial prev instance_id mem_size mem_align pss file_0 file_1 file_2 root pst scenario compound join leaf
inferred start end done solved fault trap narrow noscenario budget lexical bad wide syntax deep rule usage place placed lane run signal
await static sweep seed found use check whole prefix illegal badtrace noroom""".split(),
}


def other_tokens(text, choices):
    """The text with a few tokens left out, doubled, exchanged or replaced."""
    spans = [found.span() for found in TOKEN.finditer(text)]
    for _ in range(choices.choice([1, 1, 1, 2, 3])):
        if len(spans) < 3:
            break
        at = choices.randrange(len(spans) - 1)
        (begin, end), (after, last) = spans[at], spans[at + 1]
        way, token = choices.randrange(6), text[begin:end]
        if way == 0:
            text = text[:begin] + text[end:]
        elif way == 1:
            text = text[:end] + b" " + token + text[end:]
        elif way == 2:
            text = text[:begin] + text[after:last] + b" " + token + text[last:]
        elif way == 3:
            text = text[:begin] + b" " + choices.choice(KEYWORDS + MARKS).encode() + b" " + text[end:]
        else:
            text = text[:begin] + similar(text, spans, token, choices) + text[end:]
        spans = [found.span() for found in TOKEN.finditer(text)]
    return text


def similar(text, spans, token, choices):
    """Another token of the text of the same kind: a name for a name, a number for a number, a word or mark for one."""

    def kind(it):
        return 0 if it[:1].isdigit() else 1 if WORD.fullmatch(it) and it.decode() not in KEYWORDS else 2

    others = [text[begin:end] for begin, end in spans if kind(text[begin:end]) == kind(token)]
    return choices.choice(others)


def other_bytes(text, choices):
    """The text with one to four bytes changed, added or left out."""
    made = bytearray(text)
    for _ in range(choices.choice([1, 1, 2, 4])):
        at = choices.randrange(len(made) + 1)
        byte = choices.choice([choices.randrange(256), *b" \n\t\r/*0x9{};.=<>-_@\\\"", 0, 128, 255])
        way = choices.randrange(3)
        if way == 0:
            made.insert(at, byte)
        elif at < len(made):
            made[at : at + 1] = bytes([byte] if way == 1 else [])
    return bytes(made)


def other_blanks(text, choices):
    """The text with other blanks and comments between its tokens, at the same or other places."""
    made = []
    last = 0
    for found in TOKEN.finditer(text):
        if text[last : found.start()]:
            made.append(choices.choice([b" ", b"\n", b"\t ", b"\r\n", b" /* */ ", b" // x\n", b"/**/"]))
        made.append(found[0])
        if found[0].startswith(b"//"):
            made.append(b"\n")
        last = found.end()
    return b"".join(made)


def exchange(texts, choices):
    """A table by which each name of the texts is exchanged for another of equal length."""
    names = sorted({word.decode() for text in texts for word in WORD.findall(text)} - FIXED)
    names = [name for name in names if not name[0].isdigit()]
    table = {}
    for length in {len(name) for name in names}:
        olds = [name for name in names if len(name) == length]
        news = olds + [name.swapcase() for name in olds if name.swapcase() not in olds and name.swapcase() not in FIXED]
        table.update(zip(olds, choices.sample(news, len(olds))))
    return table


def exchanged(text, table):
    """A text with its names exchanged by a table."""
    return WORD.sub(lambda found: table.get(found[0].decode(), found[0].decode()).encode(), text)
