"""Answers of `census A`: one member of each orbit of a set (docs/DEFINITIONS.md, AreOrbitsOf)."""
import re
from itertools import permutations

from .answers import read_answer, read_term
from .choices import levels_of, meets, ranks, scaled, value_at
from .equal import last_named
from .judge import Wrong, demand, expect
from .lexer import Refused, refusal_text
from .values import Budget


def orbit_shapes(term, sample, order):
    """The shapes in the orbit of a term at a sample. A shape is what automorphisms that keep the order make of a
    value. Where only equality matters the sample's atoms may be moved in any way: up to those automorphisms, to each
    other."""
    atoms = sorted({sample[i] for i in levels_of(term) if i < len(sample)})
    shapes = set()
    for moved in [atoms] if order else permutations(atoms):
        Budget.check()
        to = dict(zip(atoms, moved))
        shapes.add(value_at(term, tuple(to.get(a, a) for a in sample)).shape)
    return shapes


def results_without_parameters(question, source, output, status):
    """The results of a text, for a question that wants none with parameters; of others the refusal is judged, and None
    is returned."""
    try:
        results = read_answer(source, ("1",))
    except Refused as r:
        return expect(output, status, refusal_text(source, r), 5)
    if results.parameters:
        return expect(output, status, f"refused: {question} of results with parameters\n", 5)
    return results


def judge_census(name, source, output, status):
    """An answer of `census`."""
    results = results_without_parameters("census", source, output, status)
    if results is None:
        return None
    terms = [last_named(case, name) for case in results.cases]
    if None in terms:
        return expect(output, status, f"refused: no line {name} in case {terms.index(None) + 1}\n", 5)
    for number, term in enumerate(terms, 1):
        if term[0] != "set":
            return expect(output, status, f"refused: {name} in case {number} is no set\n", 5)
    demand(status == 0, f"status {status}, expected 0")
    rest = output.decode("latin-1")
    for number, (case, term) in enumerate(zip(results.cases, terms), 1):
        if meets(case.when, ()):
            rest = judge_orbits(number, term, results.order, rest)
    demand(rest == "", "more than is expected: " + rest)


def taken_from(comps, item, sample):
    """How many of the comprehensions stand before the first that has this item, as it is written, where its guard
    holds; all where none has it."""
    for before, comp in enumerate(comps):
        if comp.item == item and comp.binders == len(sample) and meets(comp.guard, sample):
            return before
    return len(comps)


def judge_orbits(number, term, order, text):
    """The orbits of the case of this number, which a text begins with, are exactly those of the set, each once and at
    ranks, and are taken from its comprehensions in their order; what is left."""
    head = re.match(rf"case {number}\norbits (0|[1-9]\d*)\n", text)
    demand(head, f"case {number} is expected")
    shapes = {shape for shape, _ in value_at(term, ()).orbits}
    text, left, comps = text[head.end():], set(shapes), term[1]
    for _ in range(int(head[1])):
        form = re.match(r"orbit ([^\n]*)\nchoice((?: (?:0|[1-9]\d*))*)\n", text)
        demand(form, f"case {number}: another orbit is expected")
        text, numbers = text[form.end():], list(map(int, form[2].split()))
        demand(numbers == ranks(numbers, order), f"case {number}: the numbers of {form[1]} are no ranks")
        sample = scaled(numbers)
        try:
            item = read_term(form[1], order, (), len(sample))
        except Refused:
            raise Wrong(f"case {number}: {form[1]} is no term") from None
        found = orbit_shapes(item, sample, order)
        demand(found <= shapes, f"case {number}: {form[1]} is no member")
        demand(found <= left, f"case {number}: the orbit of {form[1]} stands twice")
        left -= found
        comps = comps[taken_from(comps, item, sample):]
        demand(comps, f"case {number}: {form[1]} isn't the item of the next comprehensions where its guard holds")
    demand(not left, f"case {number}: {len(left)} orbits of the order are missing")
    return text
