"""Answers of `picture A`: the graph of an automaton or of a set of pairs, orbit by orbit (docs/DEFINITIONS.md,
IsPicture, IsGraphOf)."""
import re

from .answers import read_term
from .automata import automaton_of
from .census import orbit_shapes, results_without_parameters
from .choices import meets, scaled, value_at
from .equal import last_named
from .judge import Wrong, demand, expect
from .lexer import Refused
from .values import members, unpack

NUMBER = r"(0|[1-9]\d*)"
NAME = re.compile(rf"(?<!['\w])x{NUMBER}(?!\w)")
NODE = re.compile(r'  n(\d+) \[label="([^"\\\n]*)"(, style=bold)?(, peripheries=2)?\]\n')
EDGE = re.compile(r'  n(\d+) -> n(\d+) \[label="([^"\\\n]*)"\]\n')


def shapes_of(value):
    """The shapes of a set without points: its orbits of the order."""
    return {shape for shape, _ in value.orbits}


def named_shapes(text, order):
    """The shapes in the orbit of a term that has a name for each number of its sample. Its binders count on from the
    sample's length, so where there are any the first one tells it."""
    numbers = sorted({int(n) for n in NAME.findall(text)})
    count = min((int(n) for n in re.findall(r" for \$(\d+)", text)), default=len(numbers))
    demand(count >= len(numbers), f"{text}: too few levels")
    names = [f"x{n}" for n in numbers] + [f"y{i}" for i in range(count - len(numbers))]
    sample = scaled(numbers + [0] * (count - len(numbers)))
    try:
        return orbit_shapes(read_term(text, order, names, count), sample, order)
    except Refused:
        raise Wrong(f"{text} is no term") from None


def is_relation(value):
    """Whether a value without atoms is a set of pairs."""
    return value.kind == "set" and all(v.kind == "tuple" and len(unpack(v)) == 2 for v in members(value, ()))


def sets_of(value):
    """The shapes of the nodes, the moves, the initial and the final ones, and whether moves have letters; or None."""
    m = automaton_of(value)
    if m:
        return *map(shapes_of, (m.states, m.steps, m.initial, m.final)), True
    if not is_relation(value):
        return None
    moves = members(value, ())
    return {end.shape for pair in moves for end in unpack(pair)}, {pair.shape for pair in moves}, set(), set(), False


def refused_case(results, output, status):
    """The case that holds alone, with its number; None where the answer is a refusal since there is none."""
    found = [(i, case) for i, case in enumerate(results.cases, 1) if meets(case.when, ())]
    if len(found) == 1:
        return found[0]
    if not found:
        return expect(output, status, "refused: no case at choice\n", 5)
    form = re.fullmatch(r"refused: cases (\d+) and (\d+) at choice\n", output.decode("latin-1"))
    demand(status == 5 and form, "several cases hold")
    numbers = [i for i, _ in found]
    demand(int(form[1]) < int(form[2]) and {int(form[1]), int(form[2])} <= set(numbers), f"the cases are {numbers}")
    return None


def judge_picture(name, source, output, status):
    """An answer of `picture`."""
    results = results_without_parameters("picture", source, output, status)
    if results is None:
        return None
    found = refused_case(results, output, status)
    if found is None:
        return None
    number, case = found
    term = last_named(case, name)
    if term is None:
        return expect(output, status, f"refused: no line {name} in case {number}\n", 5)
    sets = sets_of(value_at(term, ()))
    if sets is None:
        why = f"refused: {name} in case {number} is no automaton and no set of pairs\n"
        return expect(output, status, why, 5)
    demand(status == 0, f"status {status}, expected 0")
    return judge_graph(results.order, *sets, output.decode("latin-1"))


def judge_graph(order, states, steps, initial, final, lettered, text):
    """The graph's nodes are the orbits of the states, with their marks, and its edges those of the steps, each between
    the nodes of their ends."""
    demand(text.startswith("digraph {\n"), "the first line")
    at, nodes, left, open_steps = len("digraph {\n"), [], set(states), set(steps)
    while form := NODE.match(text, at):
        at = form.end()
        shapes = named_shapes(form[2], order)
        demand(form[1] == str(len(nodes) + 1), f"node {len(nodes) + 1} is expected")
        demand(shapes <= left, f"{form[2]} is no state, or its orbit stands twice")
        demand(bool(form[3]) == bool(shapes & initial), f"{form[2]}: initial or not")
        demand(bool(form[4]) == bool(shapes & final), f"{form[2]}: accepting or not")
        left -= shapes
        nodes.append((form[2], shapes))
    demand(not left, f"{len(left)} orbits of states are missing")
    while form := EDGE.match(text, at):
        at = form.end()
        demand(all(1 <= int(n) <= len(nodes) for n in form.groups()[:2]), "there is no such node")
        open_steps -= judge_edge(order, lettered, *(nodes[int(n) - 1] for n in form.groups()[:2]), form[3], open_steps)
    demand(not open_steps, f"{len(open_steps)} orbits of steps are missing")
    demand(text[at:] == "}\n", "more than is expected: " + text[at:])


def judge_edge(order, lettered, leaves, enters, label, open_steps):
    """The shapes of an edge between two nodes, which have labels and shapes. The label has the step's letter, and an
    end where its node's label isn't spelled as it is."""
    form = re.fullmatch(r"(.*?)(?:(?:^| )from (.*?))?(?:(?:^| )to (.*))?", label)
    demand(bool(form[1]) == lettered, f"{label}: a letter or none")
    for told, (node, _) in ((form[2], leaves), (form[3], enters)):
        demand(told != node, f"{label}: the node says {told}")
    ends = form[2] or leaves[0], form[3] or enters[0]
    move = ", ".join((ends[0], form[1], ends[1]) if lettered else ends)
    shapes = named_shapes(f"({move})", order)
    demand(shapes <= open_steps, f"({move}) is no step, or its orbit stands twice")
    for end, (node, inside) in zip(ends, (leaves, enters)):
        demand(named_shapes(end, order) <= inside, f"({move}): {end} isn't in the node of {node}")
    return shapes
