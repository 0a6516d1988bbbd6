"""Answers of `registers`: a register automaton as an automaton over atoms (docs/LANGUAGE.md, Register automata)."""
import re
from typing import NamedTuple

from .judge import demand, expect, read_output
from .choices import value_at
from .lexer import Refused, check_length, refusal_text
from .values import all_atoms, atom, closure, listed, members, merged, pack, tag

NAME = r"[A-Za-z][A-Za-z0-9_]{0,63}"
TEST = re.compile(r"(x|r[1-4])(=|!=|<)(x|r[1-4])")
STEP = re.compile(rf"step ({NAME}) ({NAME}) when (true|\S+(?: and \S+)*) store (none|[1-4](?: [1-4])*)")


class Step(NamedTuple):
    """From a state to a state, where all tests (two registers, 0 being the letter, and a relation) hold; what is
    stored."""
    source: str
    goal: str
    tests: tuple
    stored: tuple


class Registers(NamedTuple):
    """A register automaton."""
    order: bool
    count: int
    states: list
    initial: str
    finals: list
    steps: list


class Lines:
    """The lines of a text, each of which ends with LF; the first at fault is refused."""

    def __init__(self, source):
        self.text, self.at = source.decode("latin-1"), 0

    @property
    def line(self):
        """The next line, without its end; None where there is no whole one."""
        end = self.text.find("\n", self.at)
        return None if end < 0 else self.text[self.at:end]

    def take(self, made):
        """What is made of the next line, unless that is None."""
        if made is None:
            raise Refused(self.at, "not a register automaton")
        self.at += len(self.line) + 1
        return made

    def among(self, **forms):
        """The meaning of a line that is one of these."""
        return self.take({text.replace("_", " "): meaning for text, meaning in forms.items()}.get(self.line))

    def names(self, word, least, most, allowed=None):
        """Different names behind a word, so many of them, each one that is allowed."""
        words = (self.line or "").split(" ")
        names = words[1:]
        good = words[0] == word and least <= len(names) <= most and len(set(names)) == len(names) and all(
            re.fullmatch(NAME, n) and (allowed is None or n in allowed) for n in names)
        return self.take(names if good and self.line is not None else None)


def read_registers(source):
    """The register automaton that a text is, or Refused."""
    check_length(source)
    lines = Lines(source)
    lines.among(lois_registers_1=1)
    order = lines.among(atoms_equality=False, atoms_order=True)
    count = lines.among(registers_1=1, registers_2=2, registers_3=3, registers_4=4)
    states = lines.names("states", 1, 64)
    initial = lines.names("initial", 1, 1, states)[0]
    finals = lines.names("final", 0, 64, states)
    steps = []
    while lines.line != "end" or lines.at + 4 < len(lines.text):
        step = read_step(lines.line or "", order, count, states)
        steps.append(lines.take(step if len(steps) < 256 else None))
    return Registers(order, count, states, initial, finals, steps)


def read_step(line, order, count, states):
    """The step that a line is, or None."""
    form = STEP.fullmatch(line)
    tests = [] if not form or form[3] == "true" else [TEST.fullmatch(t) for t in form[3].split(" and ")]
    if not form or form[1] not in states or form[2] not in states or None in tests or len(tests) > 16:
        return None
    tests = [(int(t[1][1:] or 0), t[2], int(t[3][1:] or 0)) for t in tests]
    stored = () if form[4] == "none" else tuple(map(int, form[4].split(" ")))
    good = all(max(l, r) <= count and (op != "<" or order) for l, op, r in tests)
    good = good and list(stored) == sorted(set(stored)) and all(i <= count for i in stored)
    return Step(form[1], form[2], tuple(tests), stored) if good else None


def contents(count):
    """The contents of so many registers, up to automorphisms: each is empty (None) or an atom."""
    found = [()]
    for _ in range(count):
        found = [(*c, a) for c in found for a in (None, *letters(c))]
    return found


def letters(content):
    """Atoms, one of each orbit by the automorphisms that fix the contents."""
    return [m.atoms[0] for m in members(all_atoms(), merged(tuple(a for a in content if a is not None)))]


def passes(step, content, x):
    """Whether all tests of a step hold; one with an empty register never does."""
    holds = {"=": lambda l, r: l == r, "!=": lambda l, r: l != r, "<": lambda l, r: l < r}
    held = (x, *content)
    return all(held[l] is not None and held[r] is not None and holds[op](held[l], held[r]) for l, op, r in step.tests)


def configuration(state, content):
    """A state and what each register holds, as a value."""
    return pack(tag(state), *(tag("none") if a is None else atom(a) for a in content))


def automaton_of(r):
    """The automaton of the configurations, with their steps."""
    def configurations(states):
        return closure([configuration(s, c) for s in states for c in contents(r.count)], ())

    steps = []
    for step in r.steps:
        for content in contents(r.count):
            for x in letters(content):
                if passes(step, content, x):
                    after = tuple(x if i in step.stored else a for i, a in enumerate(content, 1))
                    steps.append(pack(configuration(step.source, content), atom(x), configuration(step.goal, after)))
    first = configuration(r.initial, (None,) * r.count)
    return pack(configurations(r.states), all_atoms(), closure(steps, ()), listed([first]), configurations(r.finals))


def judge_registers(source, output, status):
    """An answer of `registers`."""
    try:
        r = read_registers(source)
    except Refused as refused:
        return expect(output, status, refusal_text(source, refused), 5)
    demand(status == 0, f"status {status}, expected 0")
    results = read_output(output, "1")
    demand(results.order == r.order and not results.parameters, "another structure, or parameters")
    demand(len(results.cases) == 1 and results.cases[0].when == ((),), "one case, `when true`, is expected")
    demand([name for name, _ in results.cases[0].lines] == ["automaton"], "one line, `automaton`, is expected")
    demand(value_at(results.cases[0].lines[0][1], ()) == automaton_of(r), "the line is another automaton")
