"""Sources by the grammar of docs/DEFINITIONS.md alone: any tree, with names from a small choice, so that some stand for something."""
RULES = {
    "unit": ["item item item top"],
    "item": ["acomponent", "object", "anenum", "afunction", ";"],
    "top": ["component pss_top { part part part part action ROOT { apart apart } }"],
    "acomponent": ["component NAME { part part }", "component NAME { part }"],
    "part": ["anaction", "anaction", "object", "anenum", "afunction", "pool [ expr ] tname NAME ;", "pool tname NAME ;", "bind NAME * ;", "bind NAME atarget ;", "bind NAME { atarget , atarget } ;", "members", ";"],
    "anaction": ["action NAME { apart apart }", "action NAME : tname { apart }", "abstract action NAME { apart }"],
    "apart": ["field", "ref", "claim", "members", "aconstraint", "activity { stmt stmt }", "exec body { bstmt bstmt }", ";"],
    "object": ["sort NAME { field aconstraint }", "sort NAME { field }", "sort NAME { }"],
    "sort": ["buffer", "stream", "state", "resource"],
    "anenum": ["enum NAME { eitem }", "enum NAME { eitem , eitem }"],
    "eitem": ["NAME", "NAME = expr"],
    "afunction": ["import function void NAME ( ) ;", "import target function plain NAME ( param , param ) ;", "import function void NAME ( param ) ;"],
    "param": ["plain NAME", "input plain NAME"],
    "plain": ["int", "bit", "bool", "bit [ expr ]", "int [ NUMBER ]", "bit [ NUMBER : 0 ]"],
    "type": ["plain", "plain", "plain in [ ranges ]", "tname", "tname in [ ranges ]"],
    "tname": ["NAME", "NAME", "NAME :: NAME", "pss_top :: NAME"],
    "ranges": ["range", "range , range"],
    "range": ["expr", "NUMBER .. NUMBER", "expr .. expr"],
    "atarget": ["NAME . NAME", "NAME . NAME . NAME"],
    "members": ["tname NAME ;", "tname NAME , NAME ;"],
    "field": ["rand type NAME ;", "rand type NAME , NAME ;", "rand type NAME [ NUMBER ] ;", "rand type NAME [ expr ] , NAME ;"],
    "ref": ["input tname NAME ;", "output tname NAME ;"],
    "claim": ["lock tname NAME ;", "share tname NAME , NAME ;"],
    "aconstraint": ["constraint NAME { citem citem }", "constraint set", "constraint set"],
    "set": ["citem", "{ citem citem }", "{ }"],
    "citem": [";", "expr ;", "expr ;", "expr -> set", "if ( expr ) set", "if ( expr ) { citem } else set", "unique { expr , expr } ;", "foreach ( NAME [ NAME ] ) set", "foreach ( NAME . NAME [ NAME ] ) set"],
    "stmt": [";", "core", "core", "core", "NAME : core"],
    "core": ["do tname awith", "do tname awith", "NAME awith", "{ stmt }", "sequence { stmt stmt }", "parallel join { stmt stmt }", "schedule join { stmt stmt }", "select { branch branch }", "repeat ( index expr ) stmt", "if ( expr ) stmt", "if ( expr ) { stmt } else stmt", "match ( expr ) { arm arm }", "bind end end ;", "bind end { end , end } ;"],
    "index": ["", "NAME :"],
    "join": ["", "", "", "join_branch ( NAME )", "join_none", "join_select ( NUMBER )"],
    "end": ["NAME . NAME"],
    "awith": [";", ";", "with set"],
    "branch": ["stmt", "( expr ) : stmt", "( expr ) [ NUMBER ] : stmt", "[ expr ] : stmt"],
    "arm": ["[ ranges ] : stmt", "default : stmt"],
    "bstmt": [";", "plain NAME ;", "plain NAME = source ;", "NAME = source ;", "call ;", "{ bstmt }", "if ( expr ) bstmt", "if ( expr ) { bstmt } else bstmt", "repeat ( index expr ) bstmt"],
    "source": ["call", "expr", "expr"],
    "call": ["NAME ( )", "NAME ( expr )", "NAME ( expr , expr )"],
    "expr": ["primary", "primary", "unary", "unary OPERATOR unary", "unary OPERATOR unary OPERATOR unary", "primary in [ ranges ]"],
    "unary": ["primary", "primary", "- unary", "! unary", "~ unary"],
    "primary": ["NUMBER", "NUMBER", "true", "false", "path", "path", "path", "( expr )"],
    "path": ["NAME", "NAME", "NAME [ expr ]", "NAME . NAME", "NAME . NAME . NAME", "NAME :: NAME", "initial", "prev . NAME", "NAME . instance_id"],
}
OPERATORS = "* / % + - << >> < <= > >= == != & ^ | && ||".split()
SHORT = 9


class Grammar:
    """Makes one source."""

    def __init__(self, choices):
        self.choices = choices
        self.names = [f"{letter}{number}" for letter in "abcdgh" for number in range(choices.choice([1, 2, 4]))]
        self.words = {"NAME": self.name, "NUMBER": self.number, "OPERATOR": lambda: choices.choice(OPERATORS), "ROOT": lambda: "r0"}

    def name(self):
        return self.choices.choice(self.names)

    def number(self):
        return str(self.choices.choice([0, 1, 1, 2, 2, 3, 4, 5, 8, 63, 64, 1024, 2**63 - 1]))

    def made(self, rule, depth, found):
        """Adds the tokens of a rule; deep down the first, shortest way is taken."""
        ways = RULES[rule]
        way = ways[0] if depth > SHORT else self.choices.choice(ways)
        for word in way.split():
            if word in self.words:
                found.append(self.words[word]())
            elif word in RULES:
                self.made(word, depth + 1, found)
            else:
                found.append(word)

    def model(self):
        found = []
        self.made("unit", 0, found)
        return [" ".join(found)], "root=pss_top::r0"
