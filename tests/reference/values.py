"""Values over concrete atoms: a set is a finite union of orbits.

The atoms are the fractions with their order. An automorphism is a bijection of the atoms that keeps the order; what it
does with atoms it does with values. Some points are fixed by those that leave each of them in place. Three facts are
used.

- *Homogeneity.* Two increasing lists of atoms are taken to each other by an automorphism that fixes the points exactly
  where they lie in the same way: at the same points, and as many in each gap between them. So a list is known, up to
  such automorphisms, by its places: 2i + 1 at point i, and 2i in the gap below point i (Bojanczyk, Slightly Infinite
  Sets).
- *Least supports.* Of each definable value there is a least finite set of atoms, its support, such that all
  automorphisms that fix these leave the value as it is; it is the intersection of all sets that do so.
- *Rigidity.* An automorphism that maps a finite set of atoms onto itself leaves each of them in place. So the support,
  in increasing order, together with what the value is like when its atoms are only numbered, determines the value.

A value is therefore a pair: its support, and its shape, which has the atoms' numbers in the place of atoms. A set's
shape has for each orbit of members (by the automorphisms that fix the support) the members' shape and the places of
their atoms. Equal shapes are one object, so values are the same exactly where their pairs are equal.
"""
import time
from bisect import bisect_left
from fractions import Fraction
from functools import lru_cache
from typing import NamedTuple

SPREAD = 2 ** 96  # whole numbers of a choice are spread so far that whole numbers lie between them


class Undecided(Exception):
    """The question is too costly; why."""


class Budget:
    """Until when a question may be looked at."""
    until = float("inf")

    @classmethod
    def start(cls, seconds):
        """From now on so many seconds may be used."""
        cls.until = time.monotonic() + seconds

    @classmethod
    def check(cls):
        """Ends what takes longer."""
        if time.monotonic() > cls.until:
            raise Undecided("over its budget of seconds")


class Shape:
    """What a value is like, with numbered atoms. `form` is ("atom",), ("tag", name), ("tuple", pairs of a part's shape
    and the numbers of its atoms), or ("set", count of atoms, frozenset of pairs of a member's shape and its atoms'
    places)."""
    known = {}

    def __init__(self, form):
        inner = form[1] if form[0] == "tuple" else form[2] if form[0] == "set" else ()
        self.form = form
        self.depth = (form[0] in ("tuple", "set")) + max((shape.depth for shape, _ in inner), default=0)

    @classmethod
    def of(cls, *form):
        """The one shape of this form."""
        if form not in cls.known:
            cls.known[form] = cls(form)
        return cls.known[form]


class Value(NamedTuple):
    """A shape, and the support in increasing order."""
    shape: Shape
    atoms: tuple

    @property
    def kind(self):
        """atom, tag, tuple or set"""
        return self.shape.form[0]

    @property
    def orbits(self):
        """The orbits of a set's members by the automorphisms that fix its support."""
        return self.shape.form[2]


# ---- lists of atoms and their places
@lru_cache(maxsize=100_000)
def merged(*lists):
    """All atoms of some lists, in increasing order."""
    return tuple(sorted(set().union(*lists)))


def places(points, atoms):
    """How increasing atoms lie to the points."""
    found = []
    for atom in atoms:
        i = bisect_left(points, atom)
        found.append(2 * i + (i < len(points) and points[i] == atom))
    return tuple(found)


def between(low, high, count):
    """So many atoms between two (None: no end on this side), whole numbers if possible."""
    if low is None and high is None:
        return [i * SPREAD for i in range(count)]
    if high is None:
        return [low + (i + 1) * SPREAD for i in range(count)]
    if low is None:
        return [high - (count - i) * SPREAD for i in range(count)]
    parts = [low + Fraction((high - low) * (i + 1), count + 1) for i in range(count)]
    return [int(p) if p.denominator == 1 else p for p in parts]


@lru_cache(maxsize=100_000)
def atoms_at(points, at):
    """Some increasing atoms that lie so to the points."""
    found = []
    for place in sorted(set(at)):
        i = place // 2
        if place % 2:
            found.append(points[i])
        else:
            found += between(points[i - 1] if i else None, points[i] if i < len(points) else None, at.count(place))
    return tuple(found)


@lru_cache(maxsize=100_000)
def finer(at, positions, count):
    """All places to `count` points of increasing atoms whose places to those with the given positions among them are
    `at`."""
    if not at:
        return ((),)
    i, found = at[0] // 2, []
    if at[0] % 2:
        choices = (2 * positions[i] + 1,)
    else:
        end = positions[i] if i < len(positions) else count
        choices = range(2 * positions[i - 1] + 2 if i else 0, 2 * end + 1)
    for rest in finer(at[1:], positions, count):
        Budget.check()
        found += [(c, *rest) for c in choices if not rest or c < rest[0] or (c == rest[0] and c % 2 == 0)]
    return tuple(found)


# ---- values
def atom(a):
    """An atom."""
    return Value(Shape.of("atom"), (a,))


def tag(name):
    """A tag."""
    return Value(Shape.of("tag", name), ())


def pack(*parts):
    """A tuple."""
    atoms = merged(*(p.atoms for p in parts))
    number = {a: i for i, a in enumerate(atoms)}
    return Value(Shape.of("tuple", tuple((p.shape, tuple(number[a] for a in p.atoms)) for p in parts)), atoms)


def unpack(value):
    """The parts of a tuple."""
    return tuple(Value(shape, tuple(value.atoms[i] for i in numbers)) for shape, numbers in value.shape.form[1])


def orbits_over(value, points):
    """The orbits of a set's members by the automorphisms that fix the points, which contain its support."""
    positions = tuple(bisect_left(points, a) for a in value.atoms)
    return orbits_of_shape(value.shape, positions, len(points))


@lru_cache(maxsize=20_000)
def orbits_of_shape(shape, positions, count):
    """The same for a set of this shape whose atoms have these positions among so many points."""
    found = frozenset((s, c) for s, at in shape.form[2] for c in finer(at, positions, count))
    Budget.check()
    return found


def members(value, points):
    """One member of each orbit by the automorphisms that fix the points, which contain the set's support."""
    orbits = orbits_over(value, points)
    Budget.check()
    return [Value(shape, atoms_at(points, at)) for shape, at in orbits]


def orbit(value, points):
    """The orbit of a value by the automorphisms that fix the points."""
    return value.shape, places(points, value.atoms)


def closure(values, points):
    """The set of everything that automorphisms that fix the points make of the values."""
    return united({orbit(v, points) for v in values}, points)


def united(orbits, points):
    """The set of these orbits over the points. Its support is found by dropping points one by one: those that can't be
    dropped are in each support, since supports are closed under intersection."""
    for i in reversed(range(len(points))):
        merged_orbits = without(orbits, i)
        if merged_orbits is not None:
            orbits, points = merged_orbits, points[:i] + points[i + 1:]
    return Value(Shape.of("set", len(points), frozenset(orbits)), points)


def without(orbits, i):
    """The same set's orbits without point i; None where automorphisms that move this point alone change the set.
    Of m atoms in the gap that opens, one may be at the point or none: 2 m + 1 orbits become one."""
    found = {}
    for shape, at in orbits:
        wider = (shape, tuple(c if c < 2 * i else max(2 * i, c - 2) for c in at))
        found[wider] = found.get(wider, 0) + 1
    return found.keys() if all(n == 2 * at.count(2 * i) + 1 for (_, at), n in found.items()) else None


def listed(values):
    """The finite set of these values."""
    return closure(values, merged(*(v.atoms for v in values)))


def all_atoms():
    """The set of all atoms."""
    return closure([atom(0)], ())


def contains(value, member):
    """Whether a set has a member."""
    return orbit(member, value.atoms) in value.orbits


def combined(first, second, operation):
    """What a set operation makes of two sets, orbit by orbit."""
    points = merged(first.atoms, second.atoms)
    return united(operation(orbits_over(first, points), orbits_over(second, points)), points)


def included(first, second):
    """Whether each member of the first set is in the second."""
    points = merged(first.atoms, second.atoms)
    return orbits_over(first, points) <= orbits_over(second, points)


def spelled(value, names, level):
    """A value as a term, for people; `names` has the atoms' names, and further levels count on from `level`."""
    if value.kind == "atom":
        return names[value.atoms[0]]
    if value.kind == "tag":
        return "'" + value.shape.form[1]
    if value.kind == "tuple":
        return "(" + ", ".join(spelled(p, names, level) for p in unpack(value)) + ")"
    pieces = []
    for member in members(value, value.atoms):
        fresh = [a for a in member.atoms if a not in value.atoms]
        inner = {**names, **{a: f"${level + i}" for i, a in enumerate(fresh)}}
        line = merged(member.atoms, value.atoms)
        guard = " and ".join(f"{inner[a]}<{inner[b]}" for a, b in zip(line, line[1:]) if a in fresh or b in fresh)
        binders = " for " + " ".join(inner[a] for a in fresh) if fresh else ""
        pieces.append(spelled(member, inner, level + len(fresh)) + binders + (" if " + guard if guard else ""))
    return "{" + ", ".join(sorted(pieces)) + "}"
