"""Shapes of activities, flow, claims and inferred actions, and of runs and their traces."""
from .measure import Shape
from .sources import activity, lines, top

ALL = 16384
# The plan of n actions is a square of n times n bits, so growth is up to 2.
SQUARE = 2.1
PLAIN = "action a { }"
FIELD = "action a { rand bit[4] x; }"
LOCK = "pool [{}] r p; bind p *; action a {{ {} r l; }}"
FLOW = "pool b p; bind p *; action put { output b o; } action get { input b i; }"
BODY = "exec body { repeat (180) { f(1); } }"


def plain(text, action=PLAIN):
    """Makes a source with an action `a` and an activity, in which N stands for the size."""
    return lambda size: top(action, activity(text.replace("N", str(size))))


def repeated(text, action=PLAIN):
    """The same, with a text that comes once for each number."""
    return lambda size: top(action, activity(lines(size, text)))


def within(word, text="do a;", action=PLAIN):
    """The same in one block."""
    return lambda size: top(action, activity(f"{word} {{ {lines(size, text)} }}"))


def blocks(head, width, action=PLAIN):
    """Blocks of this many branches, one after another."""
    return lambda size: top(action, activity(f"repeat ({max(1, size // width)}) {{ {head} {{ {' '.join(f'l{at}: do a;' for at in range(width))} }} }}"))


def claimed(word, instances, text):
    """Actions that claim one instance of a pool."""
    return lambda size: top(LOCK.format(instances, word), activity(text.replace("N", str(size))), before="resource r { }")


def in_one_another(word, width, leaf, depth):
    """Makes blocks in one another, with leaves at this depth."""
    text = leaf
    for _ in range(depth):
        text = f"{word} {{ {' '.join([text] * width)} }}"
    return text


def deep(word, width):
    """A tree of blocks with as many leaves as the size says, which is a power of the width."""

    def make(size):
        depth, leaves = 0, 1
        while leaves * width <= size:
            depth, leaves = depth + 1, leaves * width
        return top(PLAIN, activity(in_one_another(word, width, "do a;", depth)))

    return make


def compounds(size):
    """A tree of compound actions with as many leaves as the size says."""
    parts, level = [PLAIN, "action c0 { activity { do a; } }"], 0
    while 2 ** (level + 1) <= size:
        level += 1
        parts.append(f"action c{level} {{ activity {{ do c{level - 1}; do c{level - 1}; }} }}")
    return top(*parts, activity(f"do c{level};"))


def pairs(size):
    """Pairs of handles, one writes a buffer and the other reads it."""
    shown = activity(lines(size, "p@; g@; bind p@.o g@.i;"), lines(size, "put p@; get g@;"))
    return top(FLOW, shown, before="buffer b { }")


def candidates(size, outputs=1):
    """Action types that write a buffer that nothing in the activity writes."""
    shown = " ".join(f"output b o{at};" for at in range(outputs))
    return top("pool b p; bind p *; action get { input b i; }", lines(size, f"action a@ {{ {shown} }}"), activity("do get;"), before="buffer b { }")


def candidates_in_instances(size):
    inner = "pool b p; bind p *; action get { input b i; }\n" + lines(size, "action a@ { output b o; }")
    return top(f"c {', '.join(f'i{at}' for at in range(255))};", activity("do c::get;"), before=f"buffer b {{ }}\ncomponent c {{ {inner} }}")


def fields(size):
    return top("action a { " + " ".join(f"rand bit[4] f{at};" for at in range(64)) + " }", activity(f"repeat ({size}) do a;"))


def statements(size):
    return top("action entry { exec body { int x = 0; " + lines(size, "x = 1;") + " } }")


def conditions(size):
    return top("action entry { exec body { int x = 0; " + "if (x == 0) { " * size + "x = 1; " + "} " * size + "} }")


def bodies(size):
    return top("action a { " + BODY + " }", activity(f"repeat ({size}) do a;"), before="import target function void f(int v);")


RECURSIVE = "action r { activity { select { do a; do r; } } }"
IDS = "pool [1024] r p; bind p *; action a { lock r l; }"

SHAPES = [
    # Many actions.
    Shape("actions in sequence, `repeat`", ALL, plain("repeat (N) do a;"), 0.8, 130, SQUARE),
    Shape("actions in sequence, `repeat`", ALL, plain("repeat (N) do a;"), 1, 130, SQUARE, "done", "run"),
    Shape("actions in sequence, `repeat`", ALL, plain("repeat (N) do a;"), 1, 130, SQUARE, "check whole", "check"),
    Shape("actions in sequence, as a text", ALL, repeated("do a;"), 1, 130, SQUARE),
    Shape("actions of one `parallel`", ALL, within("parallel"), 1, 130, SQUARE),
    Shape("actions of one `schedule`", ALL, within("schedule"), 1, 130, SQUARE),
    Shape("a `schedule` of sequences of 4", 4096, within("schedule", "{ do a; do a; do a; do a; }"), 1, 130, SQUARE),
    Shape("`parallel` in one another", ALL, deep("parallel", 2), 1, 130, SQUARE),
    Shape("`select`", ALL, repeated("select { do a; do a; }"), 1.2, 150, SQUARE),
    Shape("`if` of an activity", ALL, repeated("if (1) do a;"), 1.2, 150, SQUARE),
    Shape("a tree of compound actions", ALL, compounds, 1, 130, SQUARE),
    Shape("an inline constraint on each, `repeat`", ALL, plain("repeat (N) do a with x > 3;", FIELD), 1, 150, SQUARE),
    Shape("an inline constraint on each, as a text", ALL, repeated("do a with x > 3;", FIELD), 1, 150, SQUARE),
    Shape("handles", ALL, lambda n: top(PLAIN, activity(lines(n, "h@;"), lines(n, "a h@;"))), 3, 150, SQUARE),
    Shape("a field each", ALL, plain("repeat (N) do a;", FIELD), 2, 150, SQUARE),
    Shape("64 fields each", ALL, fields, 2, 250, SQUARE, answer="budget 0|solved"),
    # Statements of activities.
    Shape("blocks of 59 sequences in one another", 2000, repeated("{ " * 59 + "do a;" + " }" * 59), 1.5, 280, answer="noscenario|solved"),
    Shape("40 `if` in one another", 750, repeated("if (1) " * 40 + "do a;"), 1, 100),
    Shape("branches of a `select`", 80000, within("select"), 1, 120),
    Shape("weights", 25000, within("select", "[5]: do a;"), 0.7, 120),
    Shape("a long `repeat` of nothing", 10**12, plain("repeat (N) { }"), 0.3, 120, answer="noscenario"),
    Shape("55 such `repeat` in one another", 10**12, plain("repeat (N) " * 55 + "{ }"), 0.5, 120, answer="noscenario"),
    Shape("`join_none` of 64", ALL, blocks("parallel join_none", 64), 1, 150, SQUARE),
    Shape("`join_branch` of 64", ALL, blocks("parallel join_branch (l7)", 64), 1.2, 150, SQUARE),
    Shape("`join_select (32)` of 64", ALL, blocks("parallel join_select (32)", 64), 2.4, 150, SQUARE),
    Shape("an action that may do itself", 64, lambda n: top(PLAIN, RECURSIVE, activity(f"repeat ({n}) do r;")), 0.3),
    # Claims.
    Shape("locks in sequence", ALL, claimed("lock", 1, "repeat (N) do a;"), 2, 150, SQUARE),
    Shape("locks of a `schedule`, 1 instance", ALL, lambda n: top(LOCK.format(1, "lock"), activity("schedule { " + "do a; " * n + "}"), before="resource r { }"), 2, 150, SQUARE),
    Shape("locks of a `schedule`, 1,024 instances", ALL, lambda n: top(LOCK.format(1024, "lock"), activity("schedule { " + "do a; " * n + "}"), before="resource r { }"), 2, 150, SQUARE),
    Shape("shares of a `parallel`", ALL, lambda n: top(LOCK.format(1, "share"), activity("parallel { " + "do a; " * n + "}"), before="resource r { }"), 2, 150, SQUARE),
    Shape("`parallel` of 4 locks", 4000, claimed("lock", 4, "repeat (N) { parallel { do a; do a; do a; do a; } }"), 2.8, 190, SQUARE),
    Shape("`f == instance_id`", 4096, lambda n: top(IDS, activity(f"repeat ({n}) do a;"), before="resource r { rand bit[10] f; constraint f == instance_id; }"), 0.5, 100, SQUARE),
    # Flow and inferred actions.
    Shape("pairs of handles with binds", 8192, pairs, 0.5, 130, SQUARE),
    Shape("candidates to infer", 12000, candidates, 1, 130, words="infer=1"),
    Shape("candidates to infer", 15000, candidates, 1.9, 130, words="infer=1"),
    Shape("candidates with 16 outputs", 250, lambda n: candidates(n, 16), 0.2, 60, words="infer=1"),
    Shape("candidates in 255 instances", 4000, candidates_in_instances, 2.8, 170, words="infer=1"),
    # Generated models, and bodies.
    Shape("a generated model", 4096, None, 2.2, 40, SQUARE, "done", "gen"),
    Shape("statements of a body", 50000, statements, 1, 100),
    Shape("`if` of a body in one another", 28, conditions, 0.1),
    Shape("bodies of 180 turns and calls", 16000, bodies, 10, 260, SQUARE, "done", "run"),
]
