"""What the program prints of sources that it refuses, with a sentence for each (docs/LANGUAGE.md, "Rules")."""
import re

RULES = {
    1: "this name is declared at an earlier place of the same scope",
    2: "this names no such type, or a base that is no action of the same component",
    3: "this name stands for nothing or for another sort of thing, or an index lacks or is too many here",
    4: "this item stands in two enums of one level; name it with its enum",
    5: "bases of actions, or instances of components, lead back to where they began",
    6: "there is no such name behind the dot, or it may not stand there",
    7: "an action declares a name of its base, or an object declares prev, initial or instance_id",
    8: "there is no component pss_top",
    9: "a width is outside 1 to 63 for bit or 2 to 63 for int, or its second part isn't 0",
    10: "this range is reversed, no value of this type is left, or an in stands within the left part of another",
    11: "this must be constant: it names something else than enum items, or has no value",
    12: "this value is outside its limit, is that of an earlier item, or there are too many of these",
    13: "two ranges of the match have a value in common, or there are two defaults",
    14: "only a pool of resources has a size",
    15: "a reference is of a buffer, stream or state, and a claim is of a resource",
    16: "an action has one activity or one body, and a compound one has no references or claims",
    17: "an abstract action can't be traversed",
    18: "this handle isn't traversed exactly once outside of select, repeat, if and match",
    19: "a condition, count or guard may name fields of its action, indices and enum items alone",
    20: "this bind doesn't fit: it goes from an output to an input of one object type, and each is bound once",
    21: "a call has the wrong number of arguments, a void function gives no value, and only locals are assigned to",
    22: "no pool serves this reference or claim in an instance of the component",
    23: "two pools serve this reference or claim in an instance of the component",
    24: "root= names no action that isn't abstract, of a component with an instance",
}
OTHER = {
    "lexical-bad": "nothing begins here that may stand in a source",
    "lexical-wide": "this number is above 2^63-1",
    "syntax": "no source goes on like this",
    "syntax-deep": "this is nested too deeply, or has more than 256 operators",
}
LINE = re.compile(r"(lexical bad|lexical wide|syntax deep|syntax|rule ([0-9]+)) (.+):([0-9]+):([0-9]+)")


class Message:
    """A refusal of sources: the name of the rule, the text that was printed, a sentence, and the place."""

    def __init__(self, rule, printed, file, line, column, said=None):
        self.rule, self.printed, self.file, self.line, self.column, self.said = rule, printed, file, line, column, said

    def sentence(self):
        return self.said or OTHER.get(self.rule) or RULES.get(int(self.rule.partition("-")[2] or 0), self.printed)


def message_of(line):
    """The message that a line is, or nothing."""
    found = LINE.fullmatch(line.strip())
    if not found:
        return None
    rule = f"rule-{found[2]}" if found[2] else found[1].replace(" ", "-")
    return Message(rule, line.strip(), found[3], int(found[4]), int(found[5]))
