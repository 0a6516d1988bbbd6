"""Choices of atoms, and the terms of answers at them."""
import operator

from .values import SPREAD, Budget, all_atoms, atom, closure, members, merged, pack, tag

RELATIONS = (operator.eq, operator.ne, operator.lt)


def scaled(numbers):
    """The atoms of the whole numbers of an answer; all that matters of them is their order."""
    return tuple(n * SPREAD for n in numbers)


def unscaled(choice):
    """Small whole numbers in the order of some atoms."""
    return [sorted(set(choice)).index(a) for a in choice]


def ranks(numbers, order):
    """Of each number how many different smaller ones there are, or, where atoms aren't ordered, how many different ones
    come before its first place."""
    different = sorted(set(numbers)) if order else list(dict.fromkeys(numbers))
    return [different.index(n) for n in numbers]


def meets(guard, choice):
    """Whether a guard holds at a choice, or may hold at a longer one where the choice is too short for some level."""
    known = len(choice)
    return any(all(l >= known or r >= known or RELATIONS[op](choice[l], choice[r]) for l, r, op in cube)
               for cube in guard)


def longer(choice, count, guards, points, order=True):
    """The choices with so many further atoms at which the guards hold: one of each orbit by the automorphisms that fix
    the points, which are those of the choice that matter. An atom lies at one of the points and those before it, or in
    a gap between them. Where only equality matters there is but one gap, since all bijections are automorphisms
    then."""
    Budget.check()
    if not all(meets(g, choice) for g in guards):
        return
    if not count:
        yield choice
        return
    if order:
        atoms = [m.atoms[0] for m in members(all_atoms(), points)]
    else:
        atoms = [points[-1] + SPREAD if points else 0, *points]
    for a in sorted(atoms, key=lambda a: a in points):
        yield from longer((*choice, a), count - 1, guards, merged(points, (a,)), order)


def levels_of(term):
    """All levels that a term uses, with its binders."""
    if term[0] == "level":
        return {term[1]}
    if term[0] == "tag":
        return set()
    if term[0] == "tuple":
        return set().union(*map(levels_of, term[1]))
    return set().union(*(levels_of(c.item) | guard_levels(c.guard) for c in term[1]))


def guard_levels(guard):
    """All levels that a guard uses."""
    return {i for cube in guard for left, right, _ in cube for i in (left, right)}


def value_at(term, choice):
    """The value of a term at a choice of atoms. A set is kept by the automorphisms that fix the atoms at the levels
    that it uses, so one choice of its binders from each orbit will do."""
    Budget.check()
    if term[0] == "level":
        return atom(choice[term[1]])
    if term[0] == "tag":
        return tag(term[1])
    if term[0] == "tuple":
        return pack(*(value_at(t, choice) for t in term[1]))
    points = tuple(sorted({choice[i] for i in levels_of(term) if i < len(choice)}))
    return closure([value_at(c.item, inner) for c in term[1]
                    for inner in longer(choice, c.binders, (c.guard,), points)], points)
