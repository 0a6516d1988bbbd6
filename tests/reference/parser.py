"""The tree of a script, its grammar and its printed form (docs/LANGUAGE.md, Grammar).

The grammar is LL(1): the next token always decides the form, and a form that ends is followed by whatever its caller
expects. So the first token that no branch takes is the first one with which no script goes on.
"""
from dataclasses import dataclass
from functools import lru_cache
from typing import NamedTuple

from .lexer import Refused, check_length, tokens

OPERANDS = {"union": 2, "inter": 2, "minus": 2, "product": 2, "flatten": 1, "reach": 1, "complement": 1, "minimise": 1}


@dataclass(eq=False)
class Node:
    """A form of the tree. `pos` is the offset of its first token where no other is named.

    Expressions: atoms; var, tag (name); tuple, listed (parts); each (parts: the item; binders; cond); part (parts:
    one; number); union, inter, minus, product, flatten, reach, complement, minimise (parts: the operands).
    Conditions: true, false; =, !=, <, in, subset (parts: two expressions; the place is the relation's); empty (parts:
    one); not, all, any (parts: conditions); exists, forall (binders: one; parts: one condition).
    Statements: let, assign (name, value; the name's place); add (value, name; the name's place); for (binders: one;
    cond, body); if (cond, body, other); while (cond, number, body); assert (cond); print (name; its place is
    `name_pos`).
    A binder (name, value) is a name in a set, of a comprehension, a quantifier or a `for`; the place is the name's.
    """
    kind: str
    pos: int
    name: str = ""
    parts: tuple = ()
    binders: tuple = ()
    cond: object = None
    value: object = None
    number: int = 0
    body: tuple = ()
    other: tuple = ()
    name_pos: int = 0

    def inner(self):
        """The forms that this one is made of."""
        return [n for n in (self.value, self.cond, *self.parts, *self.binders, *self.body, *self.other) if n]


class Script(NamedTuple):
    """Whether atoms are ordered, the parameters as pairs of a place and a name, the statements, and the printed
    form."""
    order: bool
    parameters: tuple
    body: tuple
    printed: str


@lru_cache(maxsize=None)
def names_in(node):
    """All names that occur somewhere in a form."""
    own = {node.name} if node.name and node.kind != "tag" else set()
    return frozenset(own.union(*map(names_in, node.inner())))


class Parser:
    """Reads tokens from the left, one by one. `dropped` are those that the printed form leaves out, `ends` those
    before the end of a line in it; `brackets` has for a condition in brackets the tokens of one pair of them."""

    def __init__(self, source):
        self.tokens, self.at, self.open = tokens(source), 0, 0
        self.dropped, self.ends, self.brackets = set(), set(), {}

    @property
    def next(self):
        """The next token."""
        return self.tokens[self.at]

    def has(self, *texts):
        """Whether the next token is one of these words and symbols."""
        return self.next.kind in ("word", "symbol") and self.next.text in texts

    def refuse(self, why="not a script"):
        """Refuses the next token."""
        raise Refused(self.next.start, why)

    def advance(self):
        """Takes the next token; at most 64 brackets are open at once."""
        token = self.next
        if token.kind == "symbol" and token.text in "([{":
            if self.open == 64:
                self.refuse("nesting over 64")
            self.open += 1
        elif token.kind == "symbol" and token.text in ")]}":
            self.open -= 1
        self.at += 1
        return token

    def take(self, *texts):
        """Takes one of these words and symbols."""
        return self.advance() if self.has(*texts) else self.refuse()

    def take_kind(self, kind):
        """Takes a token of this kind."""
        return self.advance() if self.next.kind == kind else self.refuse()

    def several(self, item, separator=","):
        """One or more items with separators between them."""
        items = [item()]
        while self.has(separator):
            self.advance()
            items.append(item())
        return tuple(items)

    def enclosed(self, *items):
        """Items with commas between them, in round brackets."""
        self.take("(")
        found = [items[0]()]
        for item in items[1:]:
            self.take(",")
            found.append(item())
        self.take(")")
        return found

    def script(self):
        """script = "atoms" structure ";" [parameters] {statement}"""
        self.take("atoms")
        order = self.take("equality", "order").text == "order"
        self.end()
        parameters = ()
        if self.has("parameter"):
            self.advance()
            parameters = self.several(lambda: self.take_kind("name"))
            self.end()
        body = []
        while self.next.kind != "end":
            body.append(self.statement())
        return Script(order, tuple((p.start, p.text) for p in parameters), tuple(body), self.printed())

    def printed(self):
        """The printed form: the tokens, LF behind `;` and the braces of blocks, a space behind every other one."""
        return "".join(token.text + ("\n" if i in self.ends else " ")
                       for i, token in enumerate(self.tokens[:-1]) if i not in self.dropped)

    def end(self, text=";"):
        """A token before the end of a line."""
        self.ends.add(self.at)
        self.take(text)

    def block(self):
        """block = "{" {statement} "}" """
        self.end("{")
        body = []
        while not self.has("}"):
            body.append(self.statement())
        self.end("}")
        return tuple(body)

    def statement(self):
        """One statement of any form."""
        if self.next.kind == "name":
            name = self.advance()
            self.take(":=")
            made = Node("assign", name.start, name.text, value=self.expr())
        else:
            first = self.take("let", "add", "for", "if", "while", "assert", "print")
            if first.text in ("for", "if", "while"):
                return self.compound(first)
            made = self.simple(first)
        self.end()
        return made

    def simple(self, first):
        """A statement behind its first word, without the semicolon."""
        if first.text == "assert":
            return Node("assert", first.start, cond=self.cond())
        if first.text == "add":
            value = self.expr()
            self.take("to")
            name = self.take_kind("name")
            return Node("add", name.start, name.text, value=value)
        name = self.take_kind("name")
        if first.text == "print":
            return Node("print", first.start, name.text, name_pos=name.start)
        self.take("=")
        return Node("let", name.start, name.text, value=self.expr())

    def compound(self, first):
        """A statement with blocks, behind its first word."""
        if first.text == "for":
            return Node("for", first.start, binders=(self.binder(),), cond=self.where(), body=self.block())
        cond, number, other = self.cond(), 0, ()
        if first.text == "while":
            self.take("turns")
            if self.next.kind == "number" and int(self.next.text) > 1_000_000:
                self.refuse("turns over 1000000")
            number = self.number()
        body, start = self.block(), self.at
        if first.text == "if" and self.has("else"):
            self.advance()
            other = self.block()
            self.drop(start, not other)
        return Node(first.text, first.start, cond=cond, number=number, body=body, other=other)

    def drop(self, start, needless):
        """Leaves the tokens from `start` on out of the printed form if they are needless."""
        self.dropped |= set(range(start, self.at)) if needless else set()

    def binder(self):
        """name "in" expr"""
        name = self.take_kind("name")
        self.take("in")
        return Node("binder", name.start, name.text, value=self.expr())

    def where(self):
        """["where" condition]; without one the condition is `true`."""
        start = self.at
        if not self.has("where"):
            return Node("true", self.next.start)
        self.advance()
        cond = self.cond()
        self.drop(start, cond.kind == "true")
        return cond

    def number(self):
        """A number."""
        return int(self.take_kind("number").text)

    def expr(self):
        """One expression of any form."""
        start = self.next.start
        if self.next.kind in ("name", "tag"):
            token = self.advance()
            return Node("var" if token.kind == "name" else "tag", start, token.text.lstrip("'"))
        word = self.take("atoms", "(", "{", "part", *OPERANDS).text
        if word == "atoms":
            return Node("atoms", start)
        if word == "(":
            return self.tuple(start)
        if word == "{":
            return self.braces(start)
        if word == "part":
            whole, number = self.enclosed(self.expr, self.number)
            return Node("part", start, parts=(whole,), number=number)
        return Node(word, start, parts=tuple(self.enclosed(*[self.expr] * OPERANDS[word])))

    def tuple(self, start):
        """expr "," expr {"," expr} ")", at most eight of them"""
        parts = [self.expr()]
        while len(parts) == 1 or self.has(","):
            if len(parts) == 8:
                self.refuse("tuple over 8")
            self.take(",")
            parts.append(self.expr())
        self.take(")")
        return Node("tuple", start, parts=tuple(parts))

    def braces(self, start):
        """What stands behind the brace of a listed set or of a comprehension."""
        parts = [] if self.has("}") else [self.expr()]
        if parts and self.has("for"):
            self.advance()
            made = Node("each", start, parts=tuple(parts), binders=self.several(self.binder), cond=self.where())
        else:
            while parts and self.has(","):
                self.advance()
                parts.append(self.expr())
            made = Node("listed", start, parts=tuple(parts))
        self.take("}")
        return made

    def cond(self):
        """condition = all {"or" all}; one alone is itself"""
        return self.joined("any", self.several(lambda: self.joined("all", self.several(self.unit, "and")), "or"))

    def joined(self, kind, parts):
        """Two or more conditions as one. In it the printed form has brackets around `any`, and in an `all` around
        `all`."""
        if len(parts) == 1:
            return parts[0]
        for part in parts:
            self.keep_brackets(part, ("any",) if kind == "any" else ("any", "all"))
        return Node(kind, parts[0].pos, parts=parts)

    def keep_brackets(self, cond, kinds):
        """Leaves a pair of brackets around a condition of one of these kinds; where they are read all are dropped."""
        if cond.kind in kinds:
            self.dropped -= set(self.brackets[cond])

    def unit(self):
        """unit = base | "not" base | ("exists" | "forall") name "in" expr ":" base"""
        start, binders = self.next.start, ()
        if not self.has("not", "exists", "forall"):
            return self.base()
        kind = self.advance().text
        if kind != "not":
            binders = (self.binder(),)
            self.take(":")
        inside = self.base()
        self.keep_brackets(inside, ("not", "all", "any", "exists", "forall"))
        return Node(kind, start, parts=(inside,), binders=binders)

    def base(self):
        """base = "true" | "false" | "empty" "(" expr ")" | "[" condition "]" | expr relation expr"""
        start, first = self.next.start, self.at
        if self.has("true", "false"):
            return Node(self.advance().text, start)
        if self.has("["):
            self.advance()
            inside = self.cond()
            self.take("]")
            self.brackets[inside] = (first, self.at - 1)
            self.dropped |= {first, self.at - 1}
            return inside
        if self.has("empty"):
            self.advance()
            return Node("empty", start, parts=tuple(self.enclosed(self.expr)))
        left = self.expr()
        relation = self.take("=", "!=", "<", "in", "subset")
        return Node(relation.text, relation.start, parts=(left, self.expr()))


def parse(source):
    """The script that a text of at most 1,048,576 bytes spells, or Refused."""
    check_length(source)
    return Parser(source).script()
