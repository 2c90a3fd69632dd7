"""Texts of sources: what the shapes are made of."""


def top(*parts, before=""):
    """A component `pss_top` with these parts."""
    return f"{before}\ncomponent pss_top {{\n" + "\n".join(parts) + "\n}\n"


def lines(count, shape, first=0):
    """A text for each number, where `@` stands for the number, `<` for the one before and `>` for the next."""
    return "\n".join(shape.replace("@", str(at)).replace("PREVIOUS", str(at - 1)).replace("NEXT", str(at + 1)) for at in range(first, count))


def activity(text, *parts):
    """An action `entry` with an activity."""
    return f"action entry {{ {' '.join(parts)} activity {{ {text} }} }}"


def items(count):
    """Numbers for a set, of which no two are neighbours."""
    return ", ".join(str(2 * at) for at in range(count))


def bound(constraint, more=""):
    """An action `entry` with a field `f` of 32 bits and a constraint."""
    return top(f"action entry {{ rand bit[32] f; {more} constraint {constraint} }}")
