"""What scripts mean, one store at a time (docs/LANGUAGE.md; docs/DEFINITIONS.md, What a script means).

A loop, a comprehension or a quantifier runs over one member of each orbit by the automorphisms that fix the atoms of
all names that it mentions. Whatever else it meets is the image of one of these runs by such an automorphism, since no
form of the language tells a run from its image; so truths are the same there, and values are the images, which
`closure` adds.

Failures are triples of a place, a cause and the path of the loops' elements, the outermost first. Operands come from
left to right: one fails where those to its left have values, and is of the wrong kind where those to its left aren't.
"""
from . import automata
from .parser import names_in
from .values import (Budget, all_atoms, atom, closure, combined, contains, included, listed, members, merged, orbit,
                     orbits_over, pack, tag, united, unpack)

DEEPEST = 64
STATUS = {"assertion failed": 1, "not a set": 2, "not atoms": 2, "not a tuple": 2, "no such part": 2,
          "not an automaton": 2, "not deterministic": 2, "not complete": 2, "turn limit": 3, "depth limit": 4}
SETS = {"union": frozenset.union, "inter": frozenset.intersection, "minus": frozenset.difference}


class Failing(Exception):
    """A statement fails: at this place, for this cause, with this path."""

    def __init__(self, pos, cause, path=()):
        super().__init__(pos, cause)
        self.pos, self.cause, self.path = pos, cause, tuple(path)


def points_of(node, store):
    """The atoms of all names that a form mentions."""
    return merged(*(store[name].atoms for name in sorted(names_in(node)) if name in store))


# ---- expressions and conditions: their value or truth, or None; each way in which they fail is added to `faults`
def need(ok, e, cause, faults):
    """Notes a fault at an operand unless something holds."""
    if not ok:
        faults.add((e.pos, cause))
    return ok


def in_turn(found):
    """The values that come one after another, from left to right; None where one is None, and then no later ones come."""
    values = []
    for value in found:
        if value is None:
            return None
        values.append(value)
    return values


def set_of(e, store, faults):
    """The value of an expression that has to be a set."""
    value = evaluate(e, store, faults)
    return value if value is not None and need(value.kind == "set", e, "not a set", faults) else None


def machine(e, value, faults, complete=False):
    """The automaton that an operand's value is; where this is asked for, a deterministic and complete one."""
    m = automata.automaton_of(value)
    if not need(m, e, "not an automaton", faults):
        return None
    if complete and not (need(automata.is_deterministic(m), e, "not deterministic", faults)
                         and need(automata.is_complete(m), e, "not complete", faults)):
        return None
    return m


def runs(binders, store, points, faults):
    """The stores that the binders lead to, up to automorphisms that fix the points."""
    if not binders:
        return [store]
    over = set_of(binders[0].value, store, faults)
    found = []
    for member in members(over, points) if over else ():
        found += runs(binders[1:], {**store, binders[0].name: member}, merged(points, member.atoms), faults)
    return found


def evaluate(e, store, faults):
    """The value of an expression, which is at most 64 deep; None where some part fails."""
    Budget.check()
    own = set()
    value = worth(e, store, own)
    if not own:
        need(value.shape.depth <= DEEPEST, e, "depth limit", own)
    faults |= own
    return None if own else value


def worth(e, store, faults):
    """The same without a look at the depth; any value where `faults`, which is empty before, tells that some part
    fails."""
    if e.kind == "atoms":
        return all_atoms()
    if e.kind == "var":
        return store[e.name]
    if e.kind == "tag":
        return tag(e.name)
    if e.kind == "each":
        return comprehension(e, store, faults)
    if e.kind in ("tuple", "listed"):
        parts = in_turn(evaluate(p, store, faults) for p in e.parts)
        return None if parts is None else pack(*parts) if e.kind == "tuple" else listed(parts)
    if e.kind == "part":
        whole = evaluate(e.parts[0], store, faults)
        if whole is None or not need(whole.kind == "tuple", e.parts[0], "not a tuple", faults):
            return None
        parts = unpack(whole)
        return parts[e.number - 1] if need(1 <= e.number <= len(parts), e.parts[0], "no such part", faults) else None
    if e.kind == "flatten":
        return flattened(e.parts[0], store, faults)
    values = in_turn(evaluate(p, store, faults) for p in e.parts)
    if values is None:
        return None
    if e.kind in SETS:
        fit = all(need(v.kind == "set", p, "not a set", faults) for p, v in zip(e.parts, values))
        return combined(*values, SETS[e.kind]) if fit else None
    complete = e.kind in ("complement", "minimise")
    machines = in_turn(machine(p, v, faults, complete) for p, v in zip(e.parts, values))
    if machines is None:
        return None
    return {"reach": automata.reachable, "product": automata.product, "complement": automata.complement,
            "minimise": automata.minimal}[e.kind](*machines)


def comprehension(e, store, faults):
    """The set of the values of the item where the condition is true."""
    points, items = points_of(e, store), []
    for inner in runs(e.binders, store, points, faults):
        if holds(e.cond, inner, faults):
            items.append(evaluate(e.parts[0], inner, faults))
    return None if faults else closure(items, points)


def flattened(e, store, faults):
    """The set of the members of the members."""
    value = set_of(e, store, faults)
    if value is None:
        return None
    inner = members(value, value.atoms)
    if not need(all(m.kind == "set" for m in inner), e, "not a set", faults):
        return None
    return closure([n for m in inner for n in members(m, merged(value.atoms, m.atoms))], value.atoms)


def holds(c, store, faults):
    """The truth of a condition; None where some part fails. Parts are looked at up to the first that fails."""
    Budget.check()
    own = set()
    truth = truth_of(c, store, own)
    faults |= own
    return None if own else truth


def truth_of(c, store, faults):
    """The same, and any answer where `faults`, which is empty before, tells that some part fails."""
    if c.kind in ("true", "false"):
        return c.kind == "true"
    if c.kind in ("not", "all", "any"):
        truths = in_turn(holds(p, store, faults) for p in c.parts)
        return truths is not None and {"not": not truths[0], "all": all(truths), "any": any(truths)}[c.kind]
    if c.kind in ("exists", "forall"):
        truths = [holds(c.parts[0], inner, faults) for inner in runs(c.binders, store, points_of(c, store), faults)]
        return any(truths) if c.kind == "exists" else all(truths)
    if c.kind == "empty":
        value = evaluate(c.parts[0], store, faults)
        m = value and machine(c.parts[0], value, faults)
        return m and automata.is_empty(m)
    wanted = {"<": ("atom", "atom"), "in": (None, "set"), "subset": ("set", "set")}.get(c.kind, (None, None))
    values = in_turn(evaluate(e, store, faults) for e in c.parts)
    if values is None or not all(
            kind in (None, value.kind) or need(False, e, "not atoms" if kind == "atom" else "not a set", faults)
            for e, value, kind in zip(c.parts, values, wanted)):
        return None
    left, right = values
    return {"=": lambda: left == right, "!=": lambda: left != right, "<": lambda: left.atoms < right.atoms,
            "in": lambda: contains(right, left), "subset": lambda: included(left, right)}[c.kind]()


# ---- statements: how they end
def added_names(body):
    """The names that statements add to, in whatever depth."""
    inner = (added_names(s.body) | added_names(s.other) | ({s.name} if s.kind == "add" else set()) for s in body)
    return frozenset().union(*inner)


def sure(value, faults, path=()):
    """A value, or the failure that there is instead of it."""
    if faults:
        pos, cause = min(faults)
        raise Failing(pos, cause, path)
    return value


def list_ends(body, store, lines):
    """The store with which statements end, one after the other."""
    for s in body:
        store = ends(s, store, lines)
    return store


def block_ends(body, store, lines):
    """The same of a block: the names that are made in it are removed."""
    after = list_ends(body, store, lines)
    return {name: after[name] for name in store}


def ends(s, store, lines):
    """The store with which a statement ends, and its lines are added to the others; or Failing."""
    faults = set()
    if s.kind in ("let", "assign"):
        value = evaluate(s.value, store, faults)
        return {**store, s.name: sure(value, faults)}
    if s.kind == "add":
        return {**store, s.name: sure(grown(s, store, faults), faults)}
    if s.kind == "if":
        truth = holds(s.cond, store, faults)
        return block_ends(s.body if sure(truth, faults) else s.other, store, lines)
    if s.kind == "for":
        return loop_ends(s, store)
    if s.kind == "while":
        for _, before in turns(s, store, lines):
            store = before
        return store
    if s.kind == "print":
        lines.append((s.name, store[s.name]))
    elif not sure(holds(s.cond, store, faults), faults):
        raise Failing(s.pos, "assertion failed")
    return store


def grown(s, store, faults):
    """The set of an `add` with its new member."""
    value = evaluate(s.value, store, faults)
    old = store[s.name]
    if value is None or not need(old.kind == "set", s, "not a set", faults):
        return None
    new = combined(old, listed([value]), frozenset.union)
    return new if need(new.shape.depth <= DEEPEST, s, "depth limit", faults) else None


def turns(s, store, lines):
    """For each look at the condition of a `while`: how many turns are done, and the store. A store that comes back
    does so for ever: then the turns go on to their end at once."""
    seen = set()
    for done in range(s.number + 1):
        yield done, store
        faults = set()
        truth = holds(s.cond, store, faults)
        if not sure(truth, faults):
            return
        state = frozenset(store.items())
        if done == s.number or state in seen:
            raise Failing(s.pos, "turn limit")
        seen.add(state)
        store = block_ends(s.body, store, lines)


def elements(s, store):
    """The atoms that a `for` mentions, and up to automorphisms that fix them its elements, each with the store of its
    run."""
    faults, found = set(), []
    value = set_of(s.binders[0].value, store, faults)
    points = points_of(s, store)
    for member in members(sure(value, faults), points):
        inner, path = {**store, s.binders[0].name: member}, ((s.binders[0].name, member),)
        truth = holds(s.cond, inner, faults)
        if sure(truth, faults, path):
            found.append((member, inner))
    return points, found


def loop_ends(s, store):
    """Each set has its old members and those that it has at the end of the run for some member."""
    points, found = elements(s, store)
    outer = [n for n in added_names(s.body) if n in store and store[n].kind == "set"]
    gathered = {n: set(orbits_over(store[n], points)) for n in outer}
    for member, inner in found:
        try:
            after = block_ends(s.body, inner, None)
        except Failing as f:
            raise Failing(f.pos, f.cause, ((s.binders[0].name, member), *f.path)) from None
        for name, orbits in gathered.items():
            new = members(after[name], merged(points, member.atoms))
            orbits |= {orbit(v, points) for v in new}
    return {**store, **{name: united(orbits, points) for name, orbits in gathered.items()}}


# ---- statements: whether they fail in one way
def list_fails(body, store, goal):
    """Whether the first statement fails so, or a later one after all before it have ended."""
    for s in body:
        if fails(s, store, goal):
            return True
        try:
            store = ends(s, store, [])
        except Failing:
            return False
    return False


def fails(s, store, goal):
    """Whether a statement fails at this place, for this cause, with this path of elements. They are concrete values,
    so the run is that of these elements and of no others of their orbits."""
    pos, cause, path = goal
    faults = set()
    if s.kind in ("let", "assign"):
        evaluate(s.value, store, faults)
    elif s.kind == "add":
        grown(s, store, faults)
    elif s.kind == "assert":
        if holds(s.cond, store, faults) is False:
            faults.add((s.pos, "assertion failed"))
    elif s.kind == "if":
        truth = holds(s.cond, store, faults)
        if truth is not None and not faults:
            return list_fails(s.body if truth else s.other, store, goal)
    elif s.kind == "while":
        return while_fails(s, store, goal)
    elif s.kind == "for":
        value = set_of(s.binders[0].value, store, faults)
        if path:
            name, element = path[0]
            if faults or name != s.binders[0].name or not contains(value, element):
                return False
            inner = {**store, name: element}
            if holds(s.cond, inner, faults) and not faults:
                return list_fails(s.body, inner, (pos, cause, path[1:]))
            path = path[1:]
    return not path and (pos, cause) in faults


def while_fails(s, store, goal):
    """Whether a `while` fails so: in its condition, in its block, or since it isn't done after its turns."""
    pos, cause, path = goal
    try:
        for done, store in turns(s, store, []):
            faults = set()
            truth = holds(s.cond, store, faults)
            if faults:
                return not path and (pos, cause) in faults
            if truth and done < s.number and list_fails(s.body, store, goal):
                return True
    except Failing as f:
        return not path and (f.pos, f.cause) == (pos, cause) == (s.pos, "turn limit")
    return False


# ---- scripts
def opening(script, choice):
    """The store from which a script runs: each parameter holds its atom."""
    return {name: atom(a) for (_, name), a in zip(script.parameters, choice)}


def script_ends(script, choice):
    """The lines that the script prints at a choice: pairs of a name and a value; or Failing."""
    lines = []
    list_ends(script.body, opening(script, choice), lines)
    return lines


def script_fails(script, choice, goal):
    """Whether the script fails so at a choice."""
    return list_fails(script.body, opening(script, choice), goal)
