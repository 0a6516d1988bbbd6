"""The texts of results and traces, and their terms at a choice of atoms (docs/LANGUAGE.md, Answers)."""
import re
from dataclasses import dataclass
from typing import NamedTuple

from .lexer import WORDS, Refused, check_length
from .meaning import STATUS

CAUSES = tuple(sorted(STATUS))
WORD = re.compile(r"[A-Za-z][A-Za-z0-9_]*")
NUMBER = re.compile(r"0|[1-9][0-9]*")


class Comp(NamedTuple):
    """A piece of a set: as many binders, a guard, an item. A guard is a tuple of cubes: one of them has to hold; a
    cube is a tuple of literals, which all have to; a literal has two levels and = (0), != (1) or < (2) between: (left,
    right, op)."""
    binders: int
    guard: tuple
    item: tuple


ALWAYS = ((),)


class Case(NamedTuple):
    """What is printed where the guard holds: pairs of a name and a term. A term is ("level", i), ("tag", name),
    ("tuple", terms) or ("set", comps)."""
    when: tuple
    lines: tuple


@dataclass
class Answer:
    """Results, which have cases, or a trace, which has all below them."""
    order: bool
    parameters: list
    cases: list = None
    place: tuple = None
    cause: str = None
    choice: tuple = ()
    elements: tuple = ()


class Reader:
    """Reads an answer byte by byte. What isn't of its shape is refused at the first byte with which no text of the
    shape goes on. The rules beside the shape note the places that break them; the first of these is named when the
    shape is known."""

    def __init__(self, text):
        self.text, self.at, self.open, self.broken = text, 0, 0, []
        self.order, self.parameters = True, []

    def refuse(self):
        """No text of the shape goes on with the next byte."""
        raise Refused(self.at, "not results")

    def rule(self, ok, at):
        """A side rule, with the place that breaks it."""
        if not ok:
            self.broken.append(at)

    def sees(self, text):
        """Whether this stands next."""
        return self.text.startswith(text, self.at)

    def take(self, *texts):
        """Takes one of these, none of which begins another; else stops behind the longest common beginning."""
        for text in texts:
            if self.sees(text):
                self.at += len(text)
                return text
        self.at += max(sum(self.text.startswith(t[:n + 1], self.at) for n in range(len(t))) for t in texts)
        self.refuse()

    def match(self, form):
        """Takes the longest text of a form, and gives its offset and itself."""
        found, start = form.match(self.text, self.at), self.at
        if not found:
            self.refuse()
        self.at = found.end()
        return start, found.group()

    def name(self, start, word):
        """A word that stands for a parameter, a line or an element."""
        self.rule(len(word) <= 64 and word not in WORDS, start)
        return word

    def answer(self, versions=("1", "2")):
        """The results or the trace that the whole text is."""
        self.take("lois results ")
        version = self.take(*(v + "\n" for v in versions))[0]
        self.take("atoms ")
        self.order = self.take("equality\n", "order\n") == "order\n"
        self.take("parameters")
        while not self.sees("\n"):
            self.take(" ", "\n")
            start, word = self.match(WORD)
            self.rule(word not in self.parameters, start)
            self.parameters.append(self.name(start, word))
        self.take("\n")
        answer = Answer(self.order, self.parameters)
        if version == "1":
            answer.cases = self.cases()
        else:
            self.trace(answer)
        if self.at < len(self.text):
            self.refuse()
        if self.broken:
            raise Refused(min(self.broken), "not results")
        return answer

    def cases(self):
        """{"case when " constraint nl {name " = " term nl}} "end" nl. A line may be named `case` or `end` by its
        shape."""
        cases = []
        while True:
            start, word = self.at, None
            if cases:
                start, word = self.match(WORD)
            else:
                word = self.take("case when ", "end\n").split()[0]
                self.at = start + len(word)
            if word == "end" and self.sees("\n"):
                self.take("\n")
                return cases
            if word == "case" and self.sees(" w"):
                self.take(" when ")
                cases.append(Case(self.guard(self.constraint("\n"), len(self.parameters)), []))
            else:
                self.take(*((" when ", " = ") if word == "case" else ("\n", " = ") if word == "end" else (" = ",)))
                cases[-1].lines.append((self.name(start, word), self.resolved(self.term(), len(self.parameters))))
            self.take("\n")

    def trace(self, answer):
        """A trace behind its parameters."""
        self.take("failed at ")
        line = self.limited(1, 1_048_577)
        self.take(":")
        answer.place = (line, self.limited(1, 1_048_577))
        self.take(": ")
        answer.cause = self.take(*(c + "\n" for c in CAUSES))[:-1]
        self.take("choice")
        while not self.sees("\n"):
            self.take(" ", "\n")
            answer.choice += (self.limited(0, 2 ** 64 - 1),)
        self.rule(len(answer.choice) >= len(self.parameters), self.at)
        self.take("\n")
        while self.take("for ", "end\n") == "for ":
            name = self.name(*self.match(WORD))
            self.take(" = ")
            answer.elements += ((name, self.resolved(self.term(), len(answer.choice))),)
            self.take("\n")

    def limited(self, least, most):
        """A number between these."""
        start, digits = self.match(NUMBER)
        number = int(digits[:30]) if len(digits) < 30 else 10 ** 30
        self.rule(least <= number <= most, start)
        return number

    def word_or_level(self):
        """The offset and the text of a word or of a level."""
        if not self.sees("$"):
            return self.match(WORD)
        start = self.at
        self.at += 1
        return start, "$" + self.match(NUMBER)[1]

    def constraint(self, *ends):
        """constraint = "false" | cube {" or " cube}; one of the ends stands behind it. Levels aren't resolved."""
        cubes = []
        while True:
            word = self.word_or_level()
            if word[1] in ("true", "false") and self.text[self.at:self.at + 1] not in ("=", "!", "<"):
                if word[1] == "false":
                    return () if not cubes else self.take("=", "!=", "<")
                cubes.append(())
                further = (" or ",)
            else:
                cubes.append(self.cube(word))
                further = (" or ", " and ")
            if any(self.sees(end) for end in ends):
                return tuple(cubes)
            self.take(*further, *ends)

    def cube(self, word):
        """literal {" and " literal}, behind the first word"""
        literals = []
        while True:
            at = self.at
            op = self.take("=", "!=", "<")
            self.rule(op != "<" or self.order, at)
            literals.append((word, self.word_or_level(), ("=", "!=", "<").index(op)))
            if not self.sees(" and "):
                return tuple(literals)
            self.take(" and ")
            word = self.word_or_level()

    def term(self):
        """A term; its levels aren't resolved, since the binders of a piece stand behind its item."""
        start = self.at
        if self.sees("'"):
            self.at += 1
            word = self.match(WORD)[1]
            self.rule(len(word) <= 64, start)
            return "tag", word
        if not self.sees("(") and not self.sees("{"):
            return "level", self.word_or_level()
        if self.open == 64:
            self.refuse()
        self.open += 1
        made = self.tuple() if self.sees("(") else self.set()
        self.open -= 1
        return made

    def tuple(self):
        """ "(" term ", " term {", " term} ")" """
        start = self.at
        self.take("(")
        parts = [self.term()]
        while len(parts) < 2 or not self.sees(")"):
            self.take(*((", ",) if len(parts) < 2 else (", ", ")")))
            parts.append(self.term())
        self.take(")")
        self.rule(len(parts) <= 8, start)
        return "tuple", tuple(parts)

    def set(self):
        """ "{}" | "{" piece {", " piece} "}" """
        self.take("{")
        if self.sees("}"):
            self.take("}")
            return "set", ()
        comps = [self.piece()]
        while self.take(", ", "}") == ", ":
            comps.append(self.piece())
        return "set", tuple(comps)

    def piece(self):
        """term [" for" {" $" number}] [" if " constraint]"""
        item, binders, guard = self.term(), [], ALWAYS
        if self.sees(" f"):
            self.take(" for")
            while not binders or self.sees(" $"):
                self.take(" ")
                binders.append(self.word_or_level() if self.sees("$") else self.refuse())
        if self.sees(" i"):
            self.take(" if ")
            at = self.at
            guard = self.constraint(", ", "}")
            self.rule(guard != ALWAYS, at)
        elif not self.sees(", ") and not self.sees("}"):
            self.take(*((", ", "}", " if ", " $") if binders else (", ", "}", " for", " if ")))
        return Comp(binders, guard, item)

    def level(self, word, levels):
        """A parameter by its name, or a further level by its number, inside of so many levels."""
        start, text = word
        if text[0] != "$":
            self.name(start, text)
            self.rule(text in self.parameters, start)
            return self.parameters.index(text) if text in self.parameters else 0
        number = int(text[1:31])
        self.rule(len(self.parameters) <= number < levels, start)
        return number

    def guard(self, guard, levels):
        """A constraint with its levels."""
        return tuple(tuple((self.level(l, levels), self.level(r, levels), op) for l, r, op in cube) for cube in guard)

    def resolved(self, term, levels):
        """A term with its levels, inside of so many."""
        kind, what = term
        if kind == "level":
            return kind, self.level(what, levels)
        if kind == "tag":
            return term
        if kind == "tuple":
            return kind, tuple(self.resolved(t, levels) for t in what)
        comps = []
        for binders, guard, item in what:
            for i, (start, word) in enumerate(binders):
                self.rule(word == f"${levels + i}", start)
            inside = levels + len(binders)
            comps.append(Comp(len(binders), self.guard(guard, inside), self.resolved(item, inside)))
        return kind, tuple(comps)


def read_answer(source, versions=("1", "2")):
    """The results or the trace that a text of at most 1,048,576 bytes is, or Refused."""
    check_length(source)
    return Reader(source.decode("latin-1")).answer(versions)


def read_term(text, order, parameters, levels):
    """The term that a text is, by the rules of an answer; or Refused."""
    reader = Reader(text)
    reader.order, reader.parameters = order, list(parameters)
    term = reader.resolved(reader.term(), levels)
    if reader.at < len(text) or reader.broken:
        raise Refused(min(reader.broken, default=reader.at), "not results")
    return term
