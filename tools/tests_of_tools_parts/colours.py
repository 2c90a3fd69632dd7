"""Tries the grammar of editors/ on sources: a small engine for the part of TextMate grammars that it uses, and the tokens that its
scopes must agree with."""
import json
import re

from reading_parts.tokens import RESERVED, tokens_of

from .shared import TOP

GRAMMAR = TOP / "editors" / "pss.tmLanguage.json"
PREFIXES = {
    "word": ("keyword.", "storage.", "support.type.", "constant.language."),
    "name": ("variable.", "entity.name.", "invalid.unimplemented."),
    "number": ("constant.numeric.",),
    "mark": ("keyword.operator.", "punctuation."),
}


class Engine:
    """Gives each character of a text the innermost scope that the grammar has for it."""

    def __init__(self, grammar):
        self.repository = grammar["repository"]
        self.rules = self.flat(grammar["patterns"])

    def flat(self, patterns):
        """Patterns with what they include in their place."""
        found = []
        for it in patterns:
            it = self.repository[it["include"][1:]] if "include" in it else it
            found += self.flat(it["patterns"]) if "patterns" in it and "match" not in it and "begin" not in it else [it]
        return found

    def scopes(self, text):
        found, open_rule = [], None
        for line in text.split("\n"):
            here = [""] * len(line)
            open_rule = self.line(line, here, self.rules, open_rule)
            found += [*here, ""]
        return found

    def line(self, line, here, rules, open_rule, at=0, stop=None):
        """Fills the scopes of a line from a place on; the rule that is open behind it."""
        stop = len(line) if stop is None else stop
        while at < stop:
            if open_rule:
                end = re.compile(open_rule["end"]).search(line, at, stop)
                fill(here, at, end.end() if end else stop, open_rule["name"])
                at, open_rule = (end.end(), None) if end else (stop, open_rule)
                continue
            matches = [(it, re.compile(it.get("match") or it["begin"]).search(line, at, stop)) for it in rules]
            rule, match = min(((it, found) for it, found in matches if found), key=lambda it: it[1].start(), default=(None, None))
            if rule is None:
                break
            fill(here, match.start(), match.end(), rule.get("name", ""))
            self.captures(line, here, rule, match)
            open_rule = rule if "begin" in rule else None
            at = max(match.end(), at + (match.end() == match.start()))
        return open_rule

    def captures(self, line, here, rule, match):
        for number, capture in rule.get("captures", {}).items():
            start, stop = match.span(int(number))
            if "name" in capture:
                fill(here, start, stop, capture["name"])
            elif start < stop:
                self.line(line, here, self.flat(capture["patterns"]), None, start, stop)


def fill(here, start, stop, name):
    here[start:stop] = [name] * (stop - start)


def places(text):
    """Where each line begins."""
    starts = [0]
    for line in text.split("\n"):
        starts.append(starts[-1] + len(line) + 1)
    return starts


def kind_of(token):
    if token.kind in ("name", "number"):
        return token.kind
    return "word" if token.text in RESERVED else "mark"


def wrong_scope(engine, text):
    """The first token of a text that has another scope than its kind asks for, or the first character beside tokens."""
    found, starts = engine.scopes(text), places(text)
    for token in tokens_of(text.encode("latin-1"), "text")[:-1]:
        at = starts[token.place.line - 1] + token.place.column - 1
        scopes = set(found[at : at + len(token.text)])
        prefixes = PREFIXES[kind_of(token)] if token.text != "join_first" else ("invalid.unimplemented.",)
        if len(scopes) != 1 or not next(iter(scopes)).startswith(prefixes):
            return f"{token.text} at {token.place.line}:{token.place.column} has {scopes}"
        found[at : at + len(token.text)] = ["taken"] * len(token.text)
    left = [(at, scope) for at, scope in enumerate(found) if scope not in ("", "taken") and not scope.startswith("comment.")]
    return f"{text[left[0][0]]!r} has {left[0][1]}" if left else None


def engine():
    return Engine(json.loads(GRAMMAR.read_text()))
