"""Answers of `word A` and `within A B`: a shortest word that a line accepts, and one that a line accepts and another
doesn't (docs/DEFINITIONS.md, Questions about answers)."""
import re
from functools import partial

from . import automata
from .choices import value_at
from .equal import DETERMINISTIC, judge_search, last_named, machine_at, told_word
from .judge import demand
from .values import Shape, Value, closure, contains, members, merged, orbit, pack, unpack


def automaton_at(case, name, choice):
    """The automaton that a line holds at a choice, or None."""
    return automata.automaton_of(value_at(last_named(case, name), choice))


def steps_by_source(m):
    """The orbits of steps over the support, by the orbit of their source."""
    table = {}
    for step in members(m.steps, m.points):
        table.setdefault(orbit(unpack(step)[0], m.points), set()).add(orbit(step, m.points))
    return table


def steps_from(m, table, state, points):
    """Steps from a state: of those that an automorphism which fixes the points and the state takes to one another,
    one."""
    same = frozenset(table.get(orbit(state, m.points), ()))
    some = Value(Shape.of("set", len(m.points), same), m.points)
    return [step for step in members(some, merged(points, m.points, state.atoms)) if unpack(step)[0] == state]


def shortest_word(m, n=None):
    """The length of a shortest word that the automaton m accepts and the deterministic automaton n, where there is
    one, doesn't; None where there is none. A search in rounds through the pairs of states, of which one of each orbit
    over both supports is looked at."""
    points = merged(m.points, n.points) if n else m.points
    table, targets = steps_by_source(m), automata.moves(n) if n else None
    start = automata.only_member(n.initial) if n else automata.DEAD
    seen, new, length = set(), [(p, start) for p in members(m.initial, points)], 0
    while new:
        further = []
        for p, q in new:
            if contains(m.final, p) and (q == automata.DEAD or not contains(n.final, q)):
                return length
            for step in steps_from(m, table, p, merged(points, q.atoms)):
                _, letter, goal = unpack(step)
                other = automata.target(n, targets, q, letter) if n else automata.DEAD
                key = orbit(pack(goal, other), points)
                if key not in seen:
                    seen.add(key)
                    further.append((goal, other))
        new, length = further, length + 1
    return None


def accepts(m, word):
    """Whether an automaton, which may have several paths, accepts a list of values: the set of the states that it may
    be in is a union of orbits over the support and the atoms of the letters so far."""
    points, current = m.points, m.initial
    for letter in word:
        points = merged(points, letter.atoms)
        steps = [unpack(step) for step in members(m.steps, points)]
        current = closure([goal for p, l, goal in steps if l == letter and contains(current, p)], points)
    return any(contains(m.final, p) for p in members(current, points))


def judge_question(first, second, source, output, status):
    """An answer of `word first`, or where there is a second name of `within first second`."""
    parts, otherwise = [(first, automaton_at, "automaton")], ("none\n", 10)
    if second is not None:
        parts, otherwise = [*parts, (second, machine_at, DETERMINISTIC)], ("within\n", 0)

    def length_at(case, choice):
        return shortest_word(automaton_at(case, first, choice), second and machine_at(case, second, choice))

    judge_search(source, parts, length_at, partial(judge_word, first, second), otherwise, output, status)


def judge_word(first, second, results, number, shortest, output, status):
    """A word that is said to be accepted in the case of this number, by the first name alone where there are two."""
    demand(status == (0 if second is None else 10), f"status {status}: there is a word of length {shortest}")
    head, tail = ("accepted", "") if second is None else ("differ", f"accepted by {first}\n")
    form = re.fullmatch(head + r" in case (\d+)\nchoice((?: (?:0|[1-9]\d*))*)\n((?:letter [^\n]*\n)*)" + tail,
                        output.decode("latin-1"))
    demand(form, "the output is no word")
    demand(form[1] == str(number), f"the first case that has such a word is {number}")
    case = results.cases[number - 1]
    choice, word, used = told_word(results, case, form[2], form[3])
    demand(used, "a number is for no level of a letter")
    m = automaton_at(case, first, choice)
    demand(all(contains(m.letters, letter) for letter in word), "a letter isn't in the alphabet")
    demand(accepts(m, word), f"{first} doesn't accept the word")
    demand(second is None or not automata.accepts(machine_at(case, second, choice), word), f"{second} accepts it too")
    demand(len(word) == shortest, f"a word of length {shortest} is there")
