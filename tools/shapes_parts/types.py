"""Shapes of declarations: actions and their bases, components and their instances, pools and their binds."""
from .measure import Shape
from .sources import lines, top

BOTTOM = "action a0 { rand bit[4] f; }\n"
STATES = "state s@ { }"
STATE_PARTS = "pool s@ p@; bind p@ *; action r@ { input s@ i; }"


def many(count, inner):
    """A component `c` with these parts, and this many instances of it."""
    return top(f"c {', '.join(f'i{at}' for at in range(count))};\naction entry {{ }}", before=f"component c {{\n{inner}\n}}\n")


def nested(size):
    """Components, each with an instance of the one before."""
    return "component c0 { }\n" + lines(size, "component c@ { cPREVIOUS i; }", 1) + "\n"


def derived(size, shape, first=BOTTOM):
    """Actions in a chain of bases, from which `entry` is derived."""
    return top(first + lines(size, shape, 1), f"action entry : a{size - 1} {{ }}")


SHAPES = [
    Shape("actions", 43000, lambda n: top(lines(n, "action a@ { }"), "action entry { }"), 2, 150),
    Shape("a chain of bases", 43000, lambda n: derived(n, "action a@ : aPREVIOUS { }", "action a0 { }\n"), 1, 150),
    Shape("a chain of bases, an empty constraint each", 21000, lambda n: derived(n, "action a@ : aPREVIOUS { constraint { } }"), 0.5, 200),
    Shape("a chain of bases, a constraint each", 3500, lambda n: derived(n, "action a@ : aPREVIOUS { constraint f < 9; }"), 0.5, 200),
    Shape("actions of one base", 40000, lambda n: top("action a0 { }", lines(n, "action a@ : a0 { }", 1), "action entry { }"), 1, 150),
    Shape("components in a chain", 34000, lambda n: nested(n) + top("action entry { }"), 2.5, 150),
    Shape("instances in a chain", 255, lambda n: nested(n) + top(f"c{n - 1} i; action entry {{ }}"), 0.1),
    Shape("255 instances of a component with pools", 20000, lambda n: many(255, lines(n, "pool b p@;") + "\nbuffer b { }"), 1, 200),
    Shape("255 instances of a component with pools", 65000, lambda n: many(255, lines(n, "pool b p@;") + "\nbuffer b { }"), 3, 600),
    Shape("255 instances of a component with actions", 10000, lambda n: many(255, lines(n, "action a@ { }")), 2.5, 180),
    Shape("pools", 30000, lambda n: top(lines(n, "pool b p@;"), "action entry { }", before="buffer b { }"), 1.5, 150),
    Shape("buffers with pool and bind", 14000, lambda n: top(lines(n, "pool b@ p@; bind p@ *;"), "action entry { }", before=lines(n, "buffer b@ { }")), 1.5, 150),
    Shape("binds of one pool", 60000, lambda n: top("pool b p;", lines(n, "bind p *;"), "action entry { }", before="buffer b { }"), 1, 150),
    Shape("targets of one bind", 40000, lambda n: top("pool b p; action a { input b i; }", "bind p {" + lines(n, "a.i,").rstrip(",") + "};", "action entry { }", before="buffer b { }"), 1, 150),
    Shape("state pools with readers", 6500, lambda n: top(lines(n, STATE_PARTS), "action entry { activity { " + lines(n, "do r@;") + " } }", before=lines(n, STATES)), 3.5, 150, 1.8),
]
