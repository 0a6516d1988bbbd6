"""Whether an answer to a script is right (docs/DEFINITIONS.md: AreResultsOf, NamesFailure, Why a text is refused)."""
from collections import Counter

from .answers import read_answer
from .choices import guard_levels, levels_of, longer, meets, ranks, scaled, unscaled, value_at
from .lexer import Refused, place_of, refusal_text
from .meaning import STATUS, Failing, list_ends, opening, script_ends, script_fails
from .parser import parse
from .scope import check_scope
from .values import SPREAD, merged, orbits_over, spelled


class Wrong(Exception):
    """The answer is wrong: why."""


def demand(ok, why):
    """Something that a right answer has."""
    if not ok:
        raise Wrong(why)


def expect(output, status, text, code):
    """An answer of which each byte is known."""
    demand(status == code, f"status {status}, expected {code}: {text}")
    demand(output == text.encode(), f"expected this text: {text}")


def read_output(output, *versions):
    """What the output is, read again."""
    try:
        return read_answer(output, versions)
    except Refused as r:
        raise Wrong("the output is no answer at " + refusal_text(output, r)) from None


def well_scoped(source):
    """The script that a text spells, or Refused."""
    script = parse(source)
    check_scope(script)
    return script


def judge_check(source, output, status):
    """An answer of `check`."""
    try:
        expect(output, status, well_scoped(source).printed, 0)
    except Refused as r:
        expect(output, status, refusal_text(source, r), 5)


def judge_reread(source, output, status):
    """An answer of `reread`."""
    try:
        read_answer(source)
    except Refused as r:
        expect(output, status, refusal_text(source, r), 5)
    else:
        expect(output, status, source.decode(), 0)


def judge_run(source, output, status, normal=False):
    """An answer of `run`; where this is asked for its cases have to be normal ones."""
    try:
        script = well_scoped(source)
    except Refused as r:
        return expect(output, status, refusal_text(source, r), 5)
    demand(status in range(5), f"status {status} isn't one of a script that runs")
    answer = read_output(output, "1" if status == 0 else "2")
    demand(answer.order == script.order, "the structure is another one")
    names = [name for _, name in script.parameters]
    demand(answer.parameters == names, f"the parameters are {names}")
    if status:
        return judge_trace(script, source, answer, status)
    for choice in longer((), len(names), (), (), script.order):
        judge_choice(script, source, answer, choice)
    for i, case in enumerate(answer.cases):
        somewhere = any(True for _ in longer((), len(names), (case.when,), (), script.order))
        demand(somewhere, f"case {i + 1} holds nowhere")
    if normal:
        judge_normal(answer)


def said(source, names, choice, failing):
    """A failure, for people."""
    atoms = dict(zip(choice, names))
    for _, value in failing.path:
        atoms.update({a: f"atom({a / SPREAD:g})" for a in value.atoms if a not in atoms})
    where = "failed at %d:%d: " % place_of(source, failing.pos) + failing.cause
    path = "".join(f"\nfor {name} = {spelled(value, atoms, len(names))}" for name, value in failing.path)
    return f"{where}\nchoice {dict(zip(names, unscaled(choice)))}{path}"


def judge_choice(script, source, answer, choice):
    """Exactly one case holds at a choice, and its lines are, name by name and value by value, those that the script
    prints."""
    names = answer.parameters
    where = dict(zip(names, unscaled(choice)))
    try:
        lines = script_ends(script, choice)
    except Failing as f:
        raise Wrong("the script fails: " + said(source, names, choice, f)) from None
    cases = [case for case in answer.cases if meets(case.when, choice)]
    demand(len(cases) == 1, f"{len(cases)} cases hold at {where}")
    found = cases[0].lines
    demand([n for n, _ in found] == [n for n, _ in lines], f"the lines at {where} are {[n for n, _ in lines]}")
    atoms = dict(zip(choice, names))
    for (name, value), (_, term) in zip(lines, found):
        if value_at(term, choice) != value:
            raise Wrong(f"at {where} the line is {name} = {spelled(value, atoms, len(names))}")


def judge_trace(script, source, answer, status):
    """The script fails at the trace's place, for its cause, at the choice of its first numbers, with its elements, in
    which the levels of the other numbers stand. The numbers are ranks."""
    demand(status == STATUS[answer.cause], f"the status of '{answer.cause}' is {STATUS[answer.cause]}")
    line, column = answer.place
    rows = source.split(b"\n")
    pos = sum(len(row) + 1 for row in rows[:line - 1]) + column - 1
    demand(line <= len(rows) and column <= len(rows[line - 1]) + 1, "there is no such place")
    sample = scaled(answer.choice)
    choice = sample[:len(answer.parameters)]
    levels = set().union(*(levels_of(term) for _, term in answer.elements))
    demand(set(range(len(choice), len(sample))) <= levels, "a number is for no level of an element")
    demand(list(answer.choice) == ranks(answer.choice, script.order), "the numbers are no ranks")
    path = tuple((name, value_at(term, sample)) for name, term in answer.elements)
    if not script_fails(script, choice, (pos, answer.cause, path)):
        raise Wrong("it doesn't fail so; " + some_failure(script, source, answer, choice))
    demand_first(script, source, answer, pos)


def demand_first(script, source, answer, pos):
    """The statements before the one that holds the place end at every choice."""
    one = next(i for i, s in enumerate(script.body) if pos in places_in(s))
    for choice in longer((), len(answer.parameters), (), (), script.order):
        try:
            list_ends(script.body[:one], opening(script, choice), [])
        except Failing as f:
            raise Wrong("a statement before fails: " + said(source, answer.parameters, choice, f)) from None


def places_in(node):
    """The places of a form and of all forms in it."""
    return {node.pos}.union(*map(places_in, node.inner()))


def some_failure(script, source, answer, choice):
    """A failure at this choice, else at another one, else none; for people."""
    for c in (choice, *longer((), len(choice), (), (), script.order)):
        try:
            script_ends(script, c)
        except Failing as f:
            return "this is a failure: " + said(source, answer.parameters, c, f)
    return "it fails nowhere"


# ---- normal cases (docs/DEFINITIONS.md, IsNormalCase)
def judge_normal(answer):
    """No two cases have equal lines; constraints and guards are normalised; the terms are normal where their case
    holds."""
    lines = [tuple(case.lines) for case in answer.cases]
    demand(len(set(lines)) == len(lines), "two cases have equal lines")
    for number, case in enumerate(answer.cases, 1):
        try:
            demand_normalised(case.when)
            for name, term in case.lines:
                demand_normal(term, (case.when,), len(answer.parameters), answer.order)
        except Wrong as w:
            raise Wrong(f"case {number} isn't normal: {w}") from None


def demand_normalised(guard):
    """No literal joins a level to itself; `=` and `!=` have the lower level on the left; literals and cubes strictly
    increase; no cube's literals contain all of another's."""
    for cube in guard:
        demand(all(l != r and (op == 2 or l < r) for l, r, op in cube), f"literals of {guard}")
        demand(list(cube) == sorted(set(cube)), f"order of literals in {guard}")
    demand(list(guard) == sorted(set(guard)), f"order of cubes in {guard}")
    demand(not any(set(c) < set(d) for c in guard for d in guard), f"a needless cube in {guard}")


def choices_of(levels, used, guards, order):
    """Choices of so many atoms at which the guards hold, as far as the levels in use matter: the others are 0."""
    chosen = sorted(i for i in used if i < levels)
    rank = {level: i for i, level in enumerate(chosen)}
    moved = [tuple(tuple((rank[l], rank[r], op) for l, r, op in cube) for cube in guard) for guard in guards]
    for choice in longer((), len(chosen), moved, (), order):
        yield tuple(choice[rank[i]] if i in rank else 0 for i in range(levels))


def needed(term, choice):
    """The numbers of the pieces of a set that have a member at a choice which no other piece has."""
    values = [value_at(("set", (comp,)), choice) for comp in term[1]]
    points = merged(*(v.atoms for v in values))
    orbits = [orbits_over(v, points) for v in values]
    count = Counter(o for some in orbits for o in some)
    return {i for i, some in enumerate(orbits) if any(count[o] == 1 for o in some)}


def demand_normal(term, under, levels, order):
    """Inside of so many levels, where the guards `under` hold: each piece of a set is met somewhere, each binder
    occurs in its item and differs somewhere from each earlier level, and somewhere the piece has a member that the
    others lack."""
    if term[0] == "tuple":
        for part in term[1]:
            demand_normal(part, under, levels, order)
    if term[0] != "set":
        return
    needless = set(range(len(term[1])))
    used = levels_of(term).union(*map(guard_levels, under))
    for choice in choices_of(levels, used, under, order) if needless else ():
        needless -= needed(term, choice)
        if not needless:
            break
    demand(not needless, f"needless pieces: {sorted(needless)} of {term}")
    for number, comp in enumerate(term[1], 1):
        demand_normalised(comp.guard)
        inside, guards = levels + comp.binders, (*under, comp.guard)
        binders, used = range(levels, inside), set().union(*map(guard_levels, guards))
        demand(set(binders) <= levels_of(comp.item), f"a binder of piece {number} isn't in its item")
        met, fixed = False, {(i, b) for b in binders for i in range(b) if i in used and b in used}
        for choice in choices_of(inside, used, guards, order):
            met, fixed = True, {(i, b) for i, b in fixed if choice[i] == choice[b]}
            if not fixed:
                break
        demand(met, f"piece {number} is empty")
        demand(not fixed, f"a binder of piece {number} is fixed")
        demand_normal(comp.item, guards, inside, order)
