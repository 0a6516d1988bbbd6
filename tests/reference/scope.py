"""The five rules about names (docs/LANGUAGE.md, Refusals and limits)."""
from .lexer import Refused

RULES = {1: "unknown name", 2: "name declared again", 3: "assignment to outer variable", 4: "print in a loop",
         5: "order in an equality script"}


class Scope:
    """Walks over a script and notes each broken rule as a pair of a place and the rule's number.

    `known` has for each name in scope in how many `for`s a `let` made it, or None where it isn't a variable: a
    parameter, or the name of a `for`, a comprehension or a quantifier.
    """

    def __init__(self, script):
        self.order, self.broken, known = script.order, [], {}
        for pos, name in script.parameters:
            known = self.declare(known, pos, name, None)
        self.block(script.body, known, 0)

    def rule(self, number, kept, pos):
        """A rule that is kept, or broken at this place."""
        if not kept:
            self.broken.append((pos, number))
        return kept

    def declare(self, known, pos, name, depth):
        """What is known behind a declaration."""
        self.rule(2, name not in known, pos)
        return {**known, name: depth}

    def block(self, body, known, depth):
        """A block that stands in so many `for`s."""
        for s in body:
            known = self.statement(s, known, depth)

    def statement(self, s, known, depth):
        """A statement; what is known behind it."""
        inside = self.forms(s, known)
        self.block(s.body, inside, depth + (s.kind == "for"))
        self.block(s.other, inside, depth)
        if s.kind == "let":
            return self.declare(known, s.pos, s.name, depth)
        if s.kind == "print":
            self.rule(1, s.name in known, s.name_pos)
            self.rule(4, depth == 0, s.pos)
        elif s.kind in ("add", "assign") and self.rule(1, s.name in known, s.pos):
            self.rule(3, known[s.name] is not None if s.kind == "add" else known[s.name] == depth, s.pos)
        return known

    def forms(self, node, known):
        """The expressions and conditions of a form; what is known behind its binders, which the sets before them don't
        know."""
        if node.kind == "var":
            self.rule(1, node.name in known, node.pos)
        self.rule(5, node.kind != "<" or self.order, node.pos)
        for binder in node.binders:
            self.forms(binder.value, known)
            known = self.declare(known, binder.pos, binder.name, None)
        for inner in (node.value, node.cond, *node.parts):
            if inner:
                self.forms(inner, known)
        return known


def check_scope(script):
    """Refuses a script that isn't well scoped at the first place that breaks a rule; of several rules the least."""
    broken = Scope(script).broken
    if broken:
        pos, rule = min(broken)
        raise Refused(pos, RULES[rule])
