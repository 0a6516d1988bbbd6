"""Automata whose five sets are unions of orbits (docs/LANGUAGE.md, Automata).

All five are left as they are by the automorphisms that fix the automaton's support. So what holds of one state, pair
of states or step holds of its whole orbit over the support, and graphs of states become finite graphs of orbits: a
path lifts, since an automorphism that takes a step's source to another state of its orbit takes the step along.
"""
from functools import lru_cache
from typing import NamedTuple

from .values import (Shape, Value, closure, combined, contains, included, members, merged, orbit, orbits_over, pack,
                     united, unpack)

DEAD = Value(Shape.of("dead"), ())  # where a word has no path; no value of the language


class Automaton(NamedTuple):
    """Five sets, and the support of all of them."""
    states: Value
    letters: Value
    steps: Value
    initial: Value
    final: Value
    points: tuple


def automaton_of(value):
    """The automaton that a value is, or None."""
    if value.kind != "tuple" or len(value.shape.form[1]) != 5 or any(p.kind != "set" for p in unpack(value)):
        return None
    m = Automaton(*unpack(value), value.atoms)
    for step in members(m.steps, m.points):
        if step.kind != "tuple" or len(unpack(step)) != 3:
            return None
        source, letter, target = unpack(step)
        if not (contains(m.states, source) and contains(m.letters, letter) and contains(m.states, target)):
            return None
    return m if included(m.initial, m.states) and included(m.final, m.states) else None


def reachable(m):
    """The states to which a path leads from an initial one: a search in the graph of orbits over the support."""
    edges = [(orbit(unpack(s)[0], m.points), orbit(unpack(s)[2], m.points)) for s in members(m.steps, m.points)]
    found, new = set(), set(orbits_over(m.initial, m.points))
    while new:
        found |= new
        new = {target for source, target in edges if source in found} - found
    return united(found, m.points)


def is_empty(m):
    """Whether no word is accepted."""
    return not combined(reachable(m), m.final, frozenset.intersection).orbits


def moves(m):
    """For each orbit of pairs of a state and a letter that have a step: such pairs, each with the target."""
    table = {}
    for step in members(m.steps, m.points):
        source, letter, target = unpack(step)
        pair = pack(source, letter)
        table.setdefault(orbit(pair, m.points), []).append((pair, target))
    return table


def only_member(value):
    """The member of a set that has exactly one, or None. An orbit has one member where its atoms are among the
    points."""
    orbits = list(value.orbits)
    if len(orbits) != 1 or any(place % 2 == 0 for place in orbits[0][1]):
        return None
    return members(value, value.atoms)[0]


def is_deterministic(m):
    """One initial state, and at most one target for each state and letter. By rigidity an automorphism that fixes a
    pair fixes its atoms: so a pair has one target where its orbit has one step's orbit, and the target no atoms but
    the pair's."""
    return only_member(m.initial) is not None and all(
        len(found) == 1 and set(found[0][1].atoms) <= set(found[0][0].atoms + m.points) for found in moves(m).values())


def is_complete(m):
    """At least one target for each state and letter."""
    table = moves(m)
    return all(orbit(pack(p, l), m.points) in table
               for p in members(m.states, m.points) for l in members(m.letters, merged(m.points, p.atoms)))


def target(m, table, state, letter):
    """The target of a step of a deterministic automaton, DEAD where there is none: the automorphism that takes the
    pair in the table to this one takes the target along, and moves its atoms as it moves the pair's."""
    pair = pack(state, letter)
    found = table.get(orbit(pair, m.points))
    if not found:
        return DEAD
    (known, goal), = found
    moved = dict(zip(merged(m.points, known.atoms), merged(m.points, pair.atoms)))
    return Value(goal.shape, tuple(moved[a] for a in goal.atoms))


def product(m, n):
    """The automaton of the pairs of states, over the common letters."""
    points = merged(m.points, n.points)

    def pairs(first, second):
        return closure([pack(p, q) for p in members(first, points)
                        for q in members(second, merged(points, p.atoms))], points)

    by_letter = {}
    for step in members(n.steps, n.points):
        by_letter.setdefault(orbit(unpack(step)[1], n.points), []).append(orbit(step, n.points))
    steps = []
    for step in members(m.steps, points):
        p, l, r = unpack(step)
        inside = merged(points, step.atoms)
        same = by_letter.get(orbit(l, n.points), ())
        for other in members(Value(Shape.of("set", len(n.points), frozenset(same)), n.points), inside):
            q, k, s = unpack(other)
            if k == l:
                steps.append(pack(pack(p, q), l, pack(r, s)))
    return pack(pairs(m.states, n.states), combined(m.letters, n.letters, frozenset.intersection),
                closure(steps, points), pairs(m.initial, n.initial), pairs(m.final, n.final))


def complement(m):
    """The same automaton with the other states final."""
    return pack(m.states, m.letters, m.steps, m.initial, combined(m.states, m.final, frozenset.difference))


def pairs_apart(m, states):
    """The orbits of pairs of states from which different words are accepted, of a deterministic and complete
    automaton: those that differ in being final, and then those from which a letter leads to such a pair."""
    table, leads, apart = moves(m), {}, set()
    for p in members(states, m.points):
        for q in members(states, merged(m.points, p.atoms)):
            key = orbit(pack(p, q), m.points)
            if contains(m.final, p) != contains(m.final, q):
                apart.add(key)
            letters = members(m.letters, merged(m.points, p.atoms, q.atoms))
            leads[key] = {orbit(pack(target(m, table, p, l), target(m, table, q, l)), m.points) for l in letters}
    grown = -1
    while grown != len(apart):
        grown = len(apart)
        apart |= {key for key, goals in leads.items() if goals & apart}
    return apart


def minimal(m):
    """The automaton of the classes of reachable states: of those from which the same words are accepted."""
    states, table = reachable(m), moves(m)
    apart = pairs_apart(m, states)

    @lru_cache(maxsize=None)
    def class_of(q):
        inside = merged(m.points, q.atoms)
        return closure([p for p in members(states, inside) if orbit(pack(p, q), m.points) not in apart], inside)

    def classes(some):
        return closure([class_of(q) for q in members(some, m.points)], m.points)

    steps = [pack(class_of(p), l, class_of(target(m, table, p, l)))
             for p in members(states, m.points) for l in members(m.letters, merged(m.points, p.atoms))]
    return pack(classes(states), m.letters, closure(steps, m.points), classes(m.initial),
                classes(combined(m.final, states, frozenset.intersection)))


def accepts(m, word):
    """Whether a deterministic automaton accepts a list of values."""
    state, table = only_member(m.initial), moves(m)
    for letter in word:
        state = target(m, table, state, letter)
        if state == DEAD:
            return False
    return contains(m.final, state)


def shortest_difference(m, n):
    """The length of a shortest list of values that exactly one of two deterministic automata accepts, and whether all of
    that length are accepted by the second one; or None. A search in rounds through the pairs of states, of which one of
    each orbit over both supports is looked at."""
    points, tables = merged(m.points, n.points), (moves(m), moves(n))
    letters = combined(m.letters, n.letters, frozenset.union)
    seen, new, length = set(), [(only_member(m.initial), only_member(n.initial))], 0
    while new:
        accepting = [(contains(m.final, p), contains(n.final, q)) for p, q in new]
        apart = [first for first, second in accepting if first != second]
        if apart:
            return length, not any(apart)
        further = []
        for p, q in new:
            for l in members(letters, merged(points, p.atoms, q.atoms)):
                pair = target(m, tables[0], p, l), target(n, tables[1], q, l)
                key = orbit(pack(*pair), points)
                if key not in seen:
                    seen.add(key)
                    further.append(pair)
        new, length = further, length + 1
    return None
