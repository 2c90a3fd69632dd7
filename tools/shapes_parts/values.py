"""Shapes of expressions, sets, constraints and declarations of values."""
from .measure import Shape
from .sources import activity, bound, items, lines, top

SET = 52000


def loops(depth, inner):
    """Nested loops over one array."""

    def make(size):
        heads = " ".join(f"foreach (a[i{at}])" for at in range(depth))
        return top(f"action entry {{ rand bit[4] a[{size}]; constraint {heads} {inner} }}")

    return make


def chain_of_sets(size):
    """Items of enums of 256 each, where each item is the next one and one more."""
    parts = []
    for first in range(0, size, 256):
        own = range(first, min(first + 256, size))
        parts.append(f"enum e{first} {{ " + ", ".join(f"k{at} = {f'k{at + 1} + 1' if at + 1 < size else '0'}" for at in own) + " }")
    return top("action entry { }", before="\n".join(parts))


def loop_of_items(size):
    return chain_of_sets(size).replace(f"k{size - 1} = 0", f"k{size - 1} = k0 + 1")


SHAPES = [
    # Large sets.
    Shape("`f in [..]` of 52,000 items", SET, lambda n: bound(f"f in [{items(n)}];"), 0.5),
    Shape("`!(f in [..])`", SET, lambda n: bound(f"!(f in [{items(n)}]);"), 0.5),
    Shape("`f in [..]` under `->`", SET, lambda n: bound(f"b -> f in [{items(n)}];", "rand bit b;"), 0.5),
    Shape("`f in [..]` under `if`", SET, lambda n: bound(f"if (b) f in [{items(n)}]; else f > 3;", "rand bit b;"), 0.5),
    Shape("`f in [..]` inline", SET, lambda n: top("action a { rand bit[32] f; }", activity(f"do a with f in [{items(n)}];")), 0.5),
    Shape("`f in [..]` in an object", SET, lambda n: top("pool b p; bind p *; action entry { output b o; }", before=f"buffer b {{ rand bit[32] f; constraint f in [{items(n)}]; }}"), 0.5),
    Shape("`a[f in [..]]`", SET, lambda n: bound(f"a[f in [{items(n)}]] == 3;", "rand bit[4] a[2];"), 0.5),
    Shape("`f in [..]` of 52,000 items on 200 actions", 52000, lambda n: top(f"action a {{ rand bit[32] f; constraint f in [{items(n)}]; }}", activity("repeat (200) do a;")), 2, 200),
    # Loops.
    Shape("`foreach` 4 deep over 64, an empty set", 64, loops(4, "{ }"), 0.1),
    Shape("`foreach` 5 deep over 64, an empty set", 64, loops(5, "{ }"), 0.1),
    Shape("`foreach` 59 deep over 64, an empty set", 64, loops(59, "{ }"), 0.1),
    Shape("`foreach` 3 deep over 40, a constraint", 40, loops(3, "a[i0] + a[i1] >= a[i2] - 20;"), 1, 100, 3.3),
    Shape("`foreach` 4 deep over 16, a constraint", 16, loops(4, "a[i0] + a[i1] >= a[i2] - a[i3] - 20;"), 1, 100, 4.3),
    # Constraints.
    Shape("constraints in 60 brackets", 2090, lambda n: bound(lines(n, "constraint " + "(" * 59 + "f" + ")" * 59 + ";").removeprefix("constraint ")), 1, stack=2048),
    Shape("constraints of 60 `~`", 4000, lambda n: bound(lines(n, "constraint " + "~" * 57 + "f != 0;").removeprefix("constraint ")), 2),
    Shape("constraints of 255 `in` in one another", 167, lambda n: bound(lines(n, "constraint " + "b in [1, " * 255 + "b" + "]" * 255 + ";").removeprefix("constraint "), "rand bit b;"), 1, stack=8192),
    Shape("constraints", 52000, lambda n: bound(lines(n, "constraint f == f;").removeprefix("constraint ")), 1.5, 150),
    Shape("implications", 20000, lambda n: bound(lines(n, "constraint f == @ -> b == 1;").removeprefix("constraint "), "rand bit b;"), 1.5, 150),
    Shape("constraints in one set", 43000, lambda n: bound("{ " + lines(n, "f >= 0;") + " }"), 1.5, 150),
    Shape("ranges of a domain", 43000, lambda n: top("action entry { rand bit[32] in [" + lines(n, "@00..@01,").rstrip(",") + "] f; }"), 1),
    # Enums.
    Shape("enums of two items", 14000, lambda n: top("action entry { }", before=lines(n, "enum e@ { a@, b@ = 7 }")), 2, 150),
    Shape("enums of one item", 20000, lambda n: top("action entry { }", before=lines(n, "enum e@ { a@ }")), 2, 150),
    Shape("enums of 256 items", 200, lambda n: top("action entry { }", before=lines(n, "enum e@ { " + ", ".join(f"k@_{at}" for at in range(256)) + " }")), 2, 150),
    Shape("a chain of items of enums", 23000, chain_of_sets, 2, 150),
    Shape("a loop of items of enums", 23000, loop_of_items, 2, 150, answer="rule 11"),
    # Texts.
    Shape("a name of 500,000 bytes", 500000, lambda n: top(f"action {'a' * n} {{ }} action entry {{ }}"), 0.3),
    Shape("line feeds", 1040000, lambda n: top("action entry { }", before="\n" * n), 0.3),
    Shape("a comment", 1040000, lambda n: top("action entry { }", before="/*" + "*" * n + "*/"), 0.3),
    Shape("`;`", 262100, lambda n: top("action entry { }", before=";" * n), 0.4),
]
