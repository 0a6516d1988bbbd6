"""Made cases: scripts, results, register automata, and changed texts of these. Each is made of a seed and nothing
else."""
import random
import re

from .lexer import WORDS

TAGS = ("p", "q", "red", "x1", "end", "none")
ATOM, TAG, PAIR, ANY = "atom", "tag", "pair", "any"


def set_type(of):
    """The type of sets of members of a type."""
    return ("set", of)


class Scripts:
    """Makes a script: statements over typed names, so that most of them end or fail only where something was
    planted."""

    def __init__(self, rng, size):
        self.rng, self.left, self.order, self.count = rng, size, rng.random() < 0.5, 0
        self.scope, self.binding = [], 0  # (name, type, depth of the innermost `for`, or None)

    def pick(self, *options):
        """One of some options."""
        return self.rng.choice(options)

    def chance(self, p):
        """True with this probability."""
        return self.rng.random() < p

    def fresh(self):
        """A name that isn't in scope."""
        while True:
            self.count += 1
            number = self.rng.randint(0, 9) if self.chance(0.5) else self.count
            name = self.pick("s", "x", "y", "set_", "Long", "v") + str(number)
            if all(name != n for n, _, _ in self.scope):
                return name

    def known(self, of):
        """The names of a type."""
        return [n for n, t, _ in self.scope if t == of]

    # ---- expressions
    def type(self):
        """A type of members."""
        return self.rng.choices((ATOM, PAIR, TAG, ANY, set_type(ATOM)), (6, 3, 1, 2, 2))[0]

    def expr(self, of, depth=2):
        """An expression of a type; seldom one of another type."""
        if self.chance(0.008):
            of = self.type()
        names = self.known(of)
        if names and (self.chance(0.55) or depth <= 0):
            return self.rng.choice(names)
        if isinstance(of, tuple):
            return self.set(of[1], depth)
        if of == ATOM:
            return self.atom(depth)
        if of == TAG:
            return "'" + self.pick(*TAGS)
        if of == PAIR:
            return self.tuple(depth, 2)
        return self.expr(self.pick(ATOM, ATOM, TAG, TAG, PAIR, set_type(ATOM), set_type(TAG)), depth - 1)

    def atom(self, depth):
        """An atom, as far as there is a way to one."""
        names, pairs = self.known(ATOM), self.known(PAIR)
        if pairs and self.chance(0.3):
            return f"part({self.rng.choice(pairs)}, {self.pick(1, 2, 2, 1, 1, 2, self.rng.randint(0, 3))})"
        if names and depth > 0 and self.chance(0.1):
            n = self.rng.randint(2, 4)
            return f"part({self.tuple(depth - 1, n)}, {self.rng.randint(1, n)})"
        return self.rng.choice(names) if names else "'" + self.pick(*TAGS)

    def tuple(self, depth, width):
        """A tuple, of atoms where it is a pair."""
        parts = [self.expr(ATOM if width == 2 else self.pick(ATOM, ATOM, TAG, ANY), depth - 1) for _ in range(width)]
        return "(" + ", ".join(parts) + ")"

    def set(self, of, depth):
        """A set of members of a type."""
        if depth <= 0:
            return self.pick("{}", "atoms") if of == ATOM else "{" + self.expr(of, 0) + "}"
        if of == ANY and self.chance(0.08):
            return self.pick("reach({})", "reach({})", "part(minimise({}), 1)",
                             "part(product({}, ({{'s0}}, atoms, {{}}, {{'s0}}, {{}})), 1)",
                             "part(complement({}), 5)").format(self.machine())
        form = self.rng.choices(("listed", "atoms", "each", "operation", "flatten"), (4, 4, 6, 4, 1))[0]
        if form == "atoms" and of == ATOM:
            return "atoms"
        if form == "each" and self.binding < 3:
            return self.each(of, depth)
        if form == "operation":
            word = self.pick("union", "union", "minus", "inter")
            return f"{word}({self.expr(set_type(of), depth - 1)}, {self.expr(set_type(of), depth - 1)})"
        if form == "flatten":
            return f"flatten({self.expr(set_type(set_type(of)), depth - 1)})"
        return "{" + ", ".join(self.expr(of, depth - 1) for _ in range(self.pick(0, 1, 1, 2, 2, 3))) + "}"

    def machine(self):
        """A small automaton."""
        names = self.known(ATOM)
        return Machine(self.rng, self.order, self.rng.sample(names, min(len(names), 1)), 1).script()

    def bound(self, depth):
        """A name in a set, which is in scope from here on."""
        of = self.pick(ATOM, ATOM, ATOM, ATOM, PAIR, ANY, set_type(ATOM))
        over = "atoms" if of == ATOM and self.chance(0.6) else self.expr(set_type(of), min(depth, 1))
        name = self.fresh()
        self.scope.append((name, of, None))
        self.binding += 1
        return f"{name} in {over}"

    def unbind(self, count):
        """The last names leave the scope."""
        del self.scope[len(self.scope) - count:]
        self.binding -= count

    def each(self, of, depth):
        """A comprehension."""
        count = self.pick(1, 1, 1, 2) if self.binding < 2 else 1
        binders = ", ".join([self.bound(depth - 1) for _ in range(count)])
        item = self.expr(of, depth - 1)
        where = " where " + self.cond(1) if self.chance(0.5) else ""
        self.unbind(count)
        return "{" + f"{item} for {binders}{where}" + "}"

    # ---- conditions
    def cond(self, depth):
        """A condition."""
        if depth > 0 and self.chance(0.3):
            word = self.pick(" and ", " or ")
            return word.join([self.unit(depth - 1) for _ in range(self.pick(2, 2, 3))])
        return self.unit(depth)

    def unit(self, depth):
        """A condition without `and` and `or` outside of brackets."""
        if self.chance(0.12):
            return "not " + self.base(depth)
        if depth > 0 and self.binding < 3 and self.chance(0.2):
            word, binder = self.pick("exists", "forall"), self.bound(1)
            inside = self.base(depth - 1)
            self.unbind(1)
            return f"{word} {binder}: {inside}"
        return self.base(depth)

    def relation(self):
        """A condition on two atoms that may hold or not, where there are such."""
        atoms = [n for n, t, made in self.scope if t == ATOM and made is None]
        if len(atoms) < 2:
            return self.base(1)
        first, second = self.rng.sample(atoms, 2)
        return f"{first} {self.pick('=', '!=', '<') if self.order else self.pick('=', '!=')} {second}"

    def base(self, depth):
        """A condition where the grammar asks for a base."""
        roll = self.rng.random()
        if roll < 0.05:
            return self.pick("true", "false", "true")
        if roll < 0.06:
            return f"empty({self.machine()})"
        if depth > 0 and roll < 0.2:
            return "[" + self.cond(depth - 1) + "]"
        if 0.2 < roll < 0.4 and len(self.known(ATOM)) > 1:
            return self.relation()
        if self.order and self.known(ATOM) and roll < 0.45:
            return f"{self.expr(ATOM, 1)} < {self.expr(ATOM, 1)}"
        if roll < 0.65:
            of = self.pick(ATOM, ATOM, PAIR, ANY)
            return f"{self.expr(of, 1)} in {self.expr(set_type(of), 1)}"
        if roll < 0.72:
            of = set_type(self.pick(ATOM, ATOM, PAIR))
            return f"{self.expr(of, 1)} subset {self.expr(of, 1)}"
        of = self.rng.choices((ATOM, PAIR, ANY, set_type(ATOM)), (6, 2, 1, 2))[0]
        return f"{self.expr(of, 1)} {self.pick('=', '!=')} {self.expr(of, 1)}"

    # ---- statements
    def block(self, depth, loops):
        """A block of a few statements, whose names leave the scope."""
        known = len(self.scope)
        body = [self.statement(depth, loops) for _ in range(self.pick(0, 1, 1, 2, 2, 3))]
        del self.scope[known:]
        return "{ " + " ".join(body) + " }"

    def statement(self, depth, loops):
        """A statement."""
        self.left -= 1
        form = self.rng.choices(("let", "assign", "add", "for", "if", "while", "assert", "print", "count", "fault",
                                 "split"),
                                (5, 2, 8, 6, 5, 1, 3, 2, 0.7, 2 if self.binding else 0.5, 2))[0]
        if form in ("for", "if", "while", "count") and (depth <= 0 or self.left < 0):
            form = "add"
        return getattr(self, "make_" + form)(depth, loops)

    def make_let(self, depth, loops):
        """A new name, mostly of a set."""
        of = self.pick(set_type(self.type()), set_type(self.type()), self.type())
        value, name = self.expr(of, 2), self.fresh()
        self.scope.append((name, of, loops))
        return f"let {name} = {value};"

    def make_assign(self, depth, loops):
        """Another value of a name."""
        names = [(n, t) for n, t, made in self.scope if made == loops]
        if not names:
            return self.make_let(depth, loops)
        name, of = self.rng.choice(names)
        return f"{name} := {self.expr(of, 2)};"

    def make_add(self, depth, loops):
        """A further member of a set."""
        names = [(n, t) for n, t, made in self.scope
                 if made is not None and (isinstance(t, tuple) or self.chance(0.01))]
        if not names:
            return self.make_let(depth, loops)
        name, of = self.rng.choice(names)
        return f"add {self.expr(of[1] if isinstance(of, tuple) else ANY, 1)} to {name};"

    def make_for(self, depth, loops):
        """A loop."""
        if self.binding >= 3:
            return self.make_add(depth, loops)
        binder = self.bound(1)
        where = " where " + self.cond(1) if self.chance(0.3) else ""
        body = self.block(depth - 1, loops + 1)
        self.unbind(1)
        return f"for {binder}{where} {body}"

    def make_if(self, depth, loops):
        """Two blocks."""
        cond = self.relation() if self.chance(0.4) else self.cond(1)
        text = f"if {cond} {self.block(depth - 1, loops)}"
        return text + (" else " + self.block(depth - 1, loops) if self.chance(0.5) else "")

    def make_while(self, depth, loops):
        """A repeated block: seldom any one; else one that goes on until nothing is new."""
        sets = [(n, t) for n, t, made in self.scope if made == loops and isinstance(t, tuple)]
        if not sets or self.chance(0.07):
            return f"while {self.cond(1)} turns {self.pick(0, 1, 2, 3, 9)} {self.block(depth - 1, loops)}"
        name, of = self.rng.choice(sets)
        return self.repeated(f"{name}", of, name, self.pick(3, 4, 5, 6), depth, loops)

    def make_count(self, depth, loops):
        """A block that is repeated a few times, or values that become too deep."""
        if self.chance(0.15):
            name = self.fresh()
            self.scope.append((name, set_type(ANY), loops))
            return f"let {name} = {{}}; while true turns {self.pick(61, 62, 63, 64, 70)} {{ {name} := {{{name}}}; }}"
        return self.repeated("{{{}}}", ANY, None, self.pick(2, 2, 2, 2, 3, 3, 1000000, 1), depth, loops)

    def repeated(self, goal, of, value, turns, depth, loops):
        """A new name that takes a value in each turn (None: the set of itself), until it is the goal. The block
        doesn't change it, since it isn't known there."""
        name = self.fresh()
        self.scope.append((name, "hidden", None))
        body = self.block(depth - 1, loops)[1:]
        self.scope[[n for n, _, _ in self.scope].index(name)] = (name, of, loops)
        start = f"{{{value}}}" if value else "{}"
        value = value or f"{{{name}}}"
        return f"let {name} = {start}; while {name} != {goal} turns {turns} {{ {name} := {value}; {body}"

    def make_assert(self, depth, loops):
        """An assertion, mostly one that says little."""
        c = self.cond(1)
        return f"assert {c};" if self.chance(0.3) else f"assert {self.base(0)} or not [{c}] or [{c}];"

    def make_split(self, depth, loops):
        """Runs that go different ways at different choices."""
        names = [(n, t[1]) for n, t, made in self.scope if made == loops and isinstance(t, tuple)]
        if not names:
            return self.make_let(depth, loops)
        (name, of), other = self.rng.choice(names), self.rng.choice(names)
        ways = [f"add {self.expr(of, 1)} to {name};", f"{name} := {self.expr(set_type(of), 2)};",
                f"add 'way to {other[0]};"]
        first, second = self.rng.sample(ways, 2)
        return f"if {self.relation()} {{ {first} }}" + self.pick("", f" else {{ {second} }}")

    def make_fault(self, depth, loops):
        """What fails, if a condition on the names in scope holds."""
        name, atom, other, deep = self.fresh(), self.atom(1), self.atom(1), self.pick(24, 25)
        bad = self.pick(f"assert {self.base(1)};", f"let {name} = part({atom}, 1);",
                        f"let {name} = part(('p, {atom}), {self.pick(0, 3)});",
                        f"for {name} in {atom} {{ }}", f"let {name} = flatten({{{atom}, {{}}}});",
                        f"assert {other} in {atom};",
                        f"let {name} = reach(({atom}, {{}}, {{}}, {{}}, {{}}));",
                        f"while {atom} = {atom} turns 2 {{ }}",
                        f"let {name} = complement(({{{atom}, {other}}}, {{}}, {{}}, {{{atom}, {other}}}, {{}}));",
                        f"let {name} = minimise(({{{atom}}}, {{{other}}}, {{}}, {{{atom}}}, {{}}));",
                        f"assert {'{} <' if self.order else '{} subset'} {atom};",
                        f"let {name} = {'{' * 40}{atom}{'}' * 40}; let {name}d = {'{' * deep}{name}{'}' * deep};",
                        f"let {name} = {{part({name}x, 2) for {name}x in {{({atom}, {other}), {self.expr(ANY)}}}}};")
        return f"if {self.cond(1)} {{ {bad} }}"

    def make_print(self, depth, loops):
        """A line."""
        names = [n for n, _, made in self.scope if made is not None]
        return f"print {self.rng.choice(names)};" if names and not loops else self.make_add(depth, loops)

    def automata(self):
        """Statements about an automaton."""
        m = Machine(self.rng, self.order, self.known(ATOM))
        lines = [f"let m = {m.script()};"]
        for _ in range(self.pick(1, 1, 2)):
            word = self.pick("reach(m)", "empty(m)", "complement(m)", "minimise(m)", "product(m, m)", "product(m, n)")
            if word == "empty(m)":
                name = f"e{len(lines)}"
                lines.append(f"let {name} = {{}}; if {word} {{ add 'empty to {name}; }} print {name};")
                continue
            if word == "product(m, n)":
                word = f"product(m, {m.changed().script()})"
            lines.append(f"let e{len(lines)} = {word}; print e{len(lines)};")
            if word == "reach(m)":
                self.scope.append((f"e{len(lines) - 1}", set_type(ANY), 0))
        return lines

    def script(self):
        """A whole script."""
        names = self.rng.sample(("a", "b", "c"), self.pick(0, 1, 2, 2, 2, 3) if self.left < 12 else self.pick(0, 1, 2))
        self.scope = [(n, ATOM, None) for n in names]
        lines = ["atoms " + ("order" if self.order else "equality") + ";"]
        lines += ["parameter " + ", ".join(names) + ";"] if names else []
        if self.chance(0.15):
            self.scope = self.scope[:1]
            lines[1:] = ["parameter " + names[0] + ";"] if names else []
            lines += self.automata()
        while self.left > 0:
            lines.append(self.statement(self.pick(1, 2, 3), 0))
        lines += [f"print {n};" for n, _, made in self.scope if made is not None and self.chance(0.7)]
        return laid_out(self.rng, lines)


def laid_out(rng, lines):
    """The lines with some blanks and comments between them."""
    return "".join(line + rng.choice(("\n", "\n", " ", " # a note\n", "\t\r\n")) for line in lines).encode()


class Machine:
    """An automaton by rules: from states of a kind with atoms r0, r1, by letters of a kind with atoms l0, under a
    test. The same rules are a script's expression or a term of results."""

    def __init__(self, rng, order, parameters, widest=2):
        self.rng, self.order, self.parameters = rng, order, list(parameters)
        widths = ((0, 1, 1, widest), (0, 1))
        self.states = [("s0", 0)] + [(f"s{i + 1}", rng.choice(widths[i])) for i in range(rng.randint(1, 2))]
        self.letters = rng.choice(([(None, 1)], [(None, 1)], [("put", 1), ("get", 0)], [("l", 0)]))
        self.initial = ["s0"]
        self.final = [s for s, _ in self.states if rng.random() < 0.5]
        self.rules = [r for s in self.states for l in self.letters for r in self.rules_for(s, l)]

    def rules_for(self, state, letter):
        """Rules for all pairs of a state and a letter, mostly one for each pair."""
        xs, ys = [f"r{i}" for i in range(state[1])], [f"l{i}" for i in range(letter[1])]
        tests = [()]
        others = xs + self.parameters
        if ys and others and self.rng.random() < 0.8:
            v = self.rng.choice(others)
            tests = [((ys[0], "=", v),), ((ys[0], "!=", v),)]
            if self.order and self.rng.random() < 0.5:
                tests = [((ys[0], "<", v),), ((ys[0], "=", v),), ((v, "<", ys[0]),)]
        rules = []
        for test in tests:
            if self.rng.random() < 0.92:
                rules.append((state, letter, test, self.goal(xs + ys)))
            if self.rng.random() < 0.02:
                rules.append((state, letter, (), self.goal(xs + ys)))
        return rules

    def goal(self, atoms):
        """A target with some of these atoms."""
        name, width = self.rng.choice([s for s in self.states if atoms or not s[1]])
        return name, tuple(self.rng.choice(atoms) for _ in range(width))

    def changed(self):
        """An automaton that is often like this one: with another final state, a rule less or a rule turned; or split
        states."""
        m = Machine(self.rng, self.order, self.parameters)
        m.states, m.letters = list(self.states), list(self.letters)
        m.final, m.rules = list(self.final), list(self.rules)
        for _ in range(self.rng.choice((0, 1, 1, 2))):
            i = self.rng.randrange(len(m.rules)) if m.rules else 0
            change = self.rng.choice(("final", "less", "turn", "turn", "letters"))
            if change == "final":
                m.final = [s for s, _ in m.states if self.rng.random() < 0.6]
            elif m.rules and change == "less":
                del m.rules[i]
            elif m.rules and change == "turn":
                state, letter, test, _ = m.rules[i]
                atoms = [f"r{k}" for k in range(state[1])] + [f"l{k}" for k in range(letter[1])]
                m.rules[i] = state, letter, test, m.goal(atoms)
            elif change == "letters":
                m.letters = m.letters + [("more", 0)]
        if self.rng.random() < 0.5:
            again = {s: s + "b" for s, _ in m.states if s != "s0"}
            m.rules = [((again.get(s, s), w), l, t, (again.get(g, g), v)) for (s, w), l, t, (g, v) in m.rules]
            m.states, m.final = [(again.get(s, s), w) for s, w in m.states], [again.get(s, s) for s in m.final]
        return m

    def guess(self):
        """Further targets of some rules, and sometimes further initial states: with several paths for a word."""
        more = [(s, l, test, self.goal([f"r{i}" for i in range(s[1])] + [f"l{i}" for i in range(l[1])]))
                for s, l, test, _ in self.rules if self.rng.random() < 0.4]
        self.rules = self.rules + more
        self.initial = self.initial + [s for s, _ in self.states[1:] if self.rng.random() < 0.2]

    def pieces(self):
        """The five sets, each as a list of triples of an item, its atoms and its test."""
        def item(name, atoms):
            return (name, tuple(atoms))

        def kinds(some, x):
            return [(item(n, [f"{x}{i}" for i in range(w)]), [f"{x}{i}" for i in range(w)], ()) for n, w in some]

        steps = []
        for (s, w), (l, v), test, (g, atoms) in self.rules:
            xs, ys = [f"r{i}" for i in range(w)], [f"l{i}" for i in range(v)]
            steps.append(((item(s, xs), item(l, ys), item(g, atoms)), xs + ys, test))
        return (kinds(self.states, "r"), kinds(self.letters, "l"), steps,
                *(kinds([s for s in self.states if s[0] in some], "r") for some in (self.initial, self.final)))

    def script(self):
        """The automaton as an expression of a script."""
        def text(item):
            if isinstance(item[0], tuple):
                return "(" + ", ".join(map(text, item)) + ")"
            name, atoms = item
            return atoms[0] if name is None else "(" + ", ".join(["'" + name, *atoms]) + ")" if atoms else "'" + name

        def one(item, atoms, test):
            where = " where " + " and ".join(f"{l} {op} {r}" for l, op, r in test) if test else ""
            binders = ", ".join(a + " in atoms" for a in atoms)
            return "{" + text(item) + (f" for {binders}{where}" if atoms else "") + "}"

        def union(pieces):
            if len(pieces) < 2:
                return one(*pieces[0]) if pieces else "{}"
            return f"union({one(*pieces[0])}, {union(pieces[1:])})"
        return "(" + ", ".join(map(union, self.pieces())) + ")"

    def term(self):
        """The automaton as a term of results."""
        first = len(self.parameters)

        def one(item, atoms, test):
            name = {a: f"${first + i}" for i, a in enumerate(atoms)}

            def text(item):
                if isinstance(item[0], tuple):
                    return "(" + ", ".join(map(text, item)) + ")"
                word, own = item
                own = [name[a] for a in own]
                return own[0] if word is None else "(" + ", ".join(["'" + word, *own]) + ")" if own else "'" + word
            binders = " for " + " ".join(name.values()) if atoms else ""
            guard = " if " + " and ".join(f"{name.get(l, l)}{op}{name.get(r, r)}" for l, op, r in test) if test else ""
            return text(item) + binders + guard
        return "(" + ", ".join("{" + ", ".join(one(*p) for p in pieces) + "}" for pieces in self.pieces()) + ")"


class Terms:
    """Makes terms of results, sound ones."""

    def __init__(self, rng, order, parameters):
        self.rng, self.order, self.parameters = rng, order, list(parameters)

    def level(self, i):
        """A level by its name."""
        return self.parameters[i] if i < len(self.parameters) else f"${i}"

    def guard(self, levels):
        """A constraint that isn't `true`."""
        if not levels or self.rng.random() < 0.05:
            return "false"
        ops = ("=", "!=", "<") if self.order else ("=", "!=")

        def literal():
            left, right = self.rng.randrange(levels), self.rng.randrange(levels)
            return self.level(left) + self.rng.choice(ops) + self.level(right)
        counts = [self.rng.choice((1, 1, 2)) for _ in range(self.rng.choice((1, 1, 1, 2)))]
        return " or ".join(" and ".join(literal() for _ in range(count)) for count in counts)

    def term(self, levels, depth):
        """A term inside of so many levels."""
        roll = self.rng.random()
        if levels and roll < (0.4 if depth > 0 else 0.8):
            return self.level(self.rng.randrange(levels) if self.rng.random() < 0.5 else levels - 1)
        if depth <= 0 or roll < 0.5:
            return "'" + self.rng.choice(TAGS)
        if roll < 0.75:
            return "(" + ", ".join(self.term(levels, depth - 1) for _ in range(self.rng.choice((2, 2, 2, 3)))) + ")"
        return self.set(levels, depth)

    def set(self, levels, depth):
        """A set inside of so many levels."""
        pieces = []
        for _ in range(self.rng.choice((0, 1, 1, 2, 3))):
            inside = levels + self.rng.choice((0, 1, 1, 2) if levels < 4 else (0, 0, 1))
            binders = " for" + "".join(f" ${i}" for i in range(levels, inside)) if inside > levels else ""
            guard = " if " + self.guard(inside) if self.rng.random() < 0.4 else ""
            pieces.append(self.term(inside, depth - 1) + binders + guard)
        return "{" + ", ".join(pieces) + "}"

    def pairs(self):
        """A set of pairs inside of no levels."""
        pieces = []
        for _ in range(self.rng.choice((0, 1, 1, 1, 2, 2, 3))):
            count = self.rng.choice((0, 1, 2, 2, 2, 3))
            binders = " for" + "".join(f" ${i}" for i in range(count)) if count else ""
            guard = " if " + self.guard(count) if count and self.rng.random() < 0.5 else ""
            pieces.append(f"({self.term(count, 1)}, {self.term(count, 1)})" + binders + guard)
        return "{" + ", ".join(pieces) + "}"


def header(version, order, parameters):
    """The first three lines of an answer."""
    structure = "atoms " + ("order" if order else "equality")
    return [f"lois results {version}", structure, " ".join(["parameters", *parameters])]


def make_script(rng):
    """A script."""
    return Scripts(rng, rng.choice((3, 5, 7, 9, 12, 16, 20))).script()


def make_answer(rng):
    """Results or a trace, sound ones."""
    order, parameters = rng.random() < 0.5, rng.sample(("a", "b", "other"), rng.randint(0, 2))
    terms = Terms(rng, order, parameters)
    if rng.random() < 0.3:
        count = len(parameters) + rng.randint(0, 3)
        cause = rng.choice(("assertion failed", "not a set", "not atoms", "not a tuple", "no such part",
                            "not an automaton",
                            "not deterministic", "not complete", "turn limit", "depth limit"))
        lines = header(2, order, parameters) + [f"failed at {rng.randint(1, 20)}:{rng.randint(1, 90)}: {cause}"]
        lines.append(" ".join(["choice", *(str(rng.randint(0, 12)) for _ in range(count))]))
        lines += [f"for {rng.choice(('x', 'y1', 'name'))} = {terms.term(count, 3)}" for _ in range(rng.randint(0, 3))]
    else:
        lines = header(1, order, parameters)
        for _ in range(rng.randint(0, 3)):
            lines.append("case when " + (terms.guard(len(parameters)) if rng.random() < 0.5 else "true"))
            for _ in range(rng.randint(0, 3)):
                lines.append(f"{rng.choice(('x', 'y1', 'ends', 'cases'))} = {terms.term(len(parameters), 4)}")
    return "\n".join(lines + ["end", ""]).encode()


def make_equal(rng, guesses=False):
    """Two names, and results with automata of these names; those of the first may have several paths for a word."""
    order, parameters = rng.random() < 0.4, rng.choice(([], [], ["a"], ["a", "b"]))
    lines = header(1, order, parameters)
    cases = ["a=b", "a!=b"] if len(parameters) == 2 else ["true"]
    for case in cases:
        m = Machine(rng, order, parameters[:1])
        m.parameters = parameters
        n = m.changed() if rng.random() < 0.85 else Machine(rng, order, parameters)
        if guesses and rng.random() < 0.6:
            m.guess()
        lines.append("case when " + case)
        if rng.random() < 0.05:
            lines.append("m = 'early")
        lines += [f"m = {m.term()}", f"n = {n.term()}"][:2 if rng.random() < 0.96 else 1]
        if rng.random() < 0.03:
            lines.append("n = " + Terms(rng, order, parameters).set(len(parameters), 2))
    names = ("m", "n") if guesses or rng.random() < 0.7 else ("n", "m")
    return names, "\n".join(lines + ["end", ""]).encode()


PARTITIONS = {(0, False): (["true"], ["true", "false"]), (1, False): (["true"], ["a=a", "a!=a"]),
              (2, False): (["true"], ["a=b", "a!=b"], ["a!=b", "a=b"]), (0, True): (["true"],),
              (1, True): (["true"], ["true", "a<a"]),
              (2, True): (["true"], ["a<b", "a=b", "b<a"], ["a=b", "a<b or b<a"], ["a<b or a=b", "b<a"])}


def make_same(rng):
    """Two results, one behind the other, which often have the same lines."""
    order, parameters = rng.random() < 0.5, ["a", "b"][:rng.choice((0, 1, 2, 2, 2))]
    terms = Terms(rng, order, parameters)
    names = [rng.choice(("s", "s", "t")) for _ in range(rng.choice((0, 1, 1, 2)))]
    lines = [(name, rng.choice((terms.set, terms.set, terms.term))(len(parameters), 2)) for name in names]
    partitions = PARTITIONS[len(parameters), order]
    texts = []
    for _ in range(2):
        cases = list(rng.choice(partitions))
        if rng.random() < 0.06:
            cases = cases + [rng.choice(cases)] if rng.random() < 0.5 else cases[1:]
        own = parameters[::-1] if rng.random() < 0.03 else parameters
        text = header(1, order if rng.random() < 0.97 else not order, own)
        for case in cases:
            text.append("case when " + case)
            text += [f"{name} = {likely_same(rng, terms, term)}" for name, term in lines]
            text += ["t = 'more"] if rng.random() < 0.04 else []
        texts.append("\n".join(text + ["end", ""]))
    return "".join(texts).encode()


def likely_same(rng, terms, term):
    """A term that mostly has the same value where the parameters a and b are equal or don't occur."""
    roll = rng.random()
    if roll < 0.06:
        return terms.term(len(terms.parameters), 2)
    if roll < 0.14 and term.startswith("{") and term != "{}":
        return "{'more, " + term[1:]
    if roll < 0.24 and len(terms.parameters) == 2:
        return re.sub(r"(?<![\w'])b\b", "a", term)
    return term


def make_census(rng):
    """A name, and results with sets of this name."""
    order, parameters = rng.random() < 0.5, ["a"] if rng.random() < 0.02 else []
    terms, lines = Terms(rng, order, parameters), header(1, order, parameters)
    for _ in range(rng.choice((1, 1, 1, 2))):
        lines.append("case when " + rng.choice(("true", "true", "true", "false")))
        lines += ["other = " + terms.term(len(parameters), 2)] if rng.random() < 0.2 else []
        made = terms.set if rng.random() < 0.97 else terms.term
        lines += ["s = " + made(len(parameters), 3)] if rng.random() < 0.97 else []
    return ("s",), "\n".join(lines + ["end", ""]).encode()


def make_picture(rng):
    """A name, and results with an automaton, a set of pairs or another value of this name."""
    order, parameters = rng.random() < 0.5, ["a"] if rng.random() < 0.02 else []
    terms, lines = Terms(rng, order, parameters), header(1, order, parameters)
    for case in rng.choice([["true"]] * 12 + [["false", "true"], ["true", "false"], ["true", "true"], ["false"]]):
        lines.append("case when " + case)
        lines += ["m = 'early"] if rng.random() < 0.05 else []
        roll, m = rng.random(), Machine(rng, order, parameters)
        if rng.random() < 0.5:
            m.guess()
        made = m.term() if roll < 0.55 else terms.pairs() if roll < 0.9 else terms.term(len(parameters), 2)
        lines += ["m = " + made] if rng.random() < 0.98 else []
    return ("m",), "\n".join(lines + ["end", ""]).encode()


def make_registers(rng):
    """A register automaton."""
    order, count = rng.random() < 0.5, rng.choice((1, 1, 2, 2, 3, 4))
    states = rng.sample(("p", "q", "let", "end", "s_1"), rng.randint(1, 3 if count < 3 else 2))
    lines = ["lois registers 1", "atoms " + ("order" if order else "equality"), f"registers {count}",
             " ".join(["states", *states]),
             "initial " + rng.choice(states), " ".join(["final", *rng.sample(states, rng.randint(0, len(states)))])]
    operands = ["x"] + [f"r{i + 1}" for i in range(count)]
    for _ in range(rng.randint(0, 5)):
        tests = [rng.choice(operands) + rng.choice(("=", "!=", "<") if order else ("=", "!=")) + rng.choice(operands)
                 for _ in range(rng.choice((0, 1, 1, 2)))]
        stored = sorted(rng.sample(range(1, count + 1), rng.randint(0, count)))
        lines.append(f"step {rng.choice(states)} {rng.choice(states)} when {' and '.join(tests) or 'true'} "
                     f"store {' '.join(map(str, stored)) or 'none'}")
    return "\n".join(lines + ["end", ""]).encode()


# ---- changed texts
PIECES = sorted(WORDS) + [";", ",", "(", ")", "[", "]", "{", "}", ":=", ":", "=", "!=", "<", "a", "x", "zz", "'t",
                          "'", "!", "0", "1",
                          "10", "007", "123456789", "1234567890", "1000000", "1000001", "$0", "$1", "$2", "$00",
                          "$17", "#", "\t",
                          "\r", "\n", " ", "  ", "\x00", "\x7f", "\xff", "n" * 64, "n" * 65, "'" + "t" * 64,
                          "'" + "t" * 65,
                          "{" * 61, "[" * 64, "(" * 65, "{'a, " * 5, "('a, 'b, 'c, 'd, 'e, 'f, 'g, 'h)",
                          "('a, 'b, 'c, 'd, 'e, 'f, 'g, 'h, 'i)", "case when ", " for ", " if true", "parameters",
                          "store", "step"]


def cut_points(text):
    """The offsets at which words and other bytes begin."""
    return [i for i in range(len(text)) if i == 0 or not (text[i].isalnum() and text[i - 1].isalnum())] + [len(text)]


def changed(rng, source):
    """A text with one or a few changes: bytes, pieces and lines that are left out, doubled, moved, put in or turned;
    or cut."""
    text = source.decode("latin-1")
    for _ in range(rng.choice((1, 1, 1, 2, 3))):
        points = cut_points(text)
        i = rng.randrange(len(points))
        low, high = points[i], points[min(i + 1, len(points) - 1)]
        at = rng.randint(0, len(text))
        lines = text.splitlines(keepends=True) or [""]
        k = rng.randrange(len(lines))
        change = rng.randrange(13)
        if change == 0:
            text = text[:at] + text[at + 1:]
        elif change == 1:
            text = text[:at] + chr(rng.randrange(256)) + text[at + (rng.random() < 0.5):]
        elif change == 2:
            text = text[:low] + text[high:]
        elif change == 3:
            text = text[:high] + text[low:high] + text[high:]
        elif change in (4, 5):
            text = text[:low] + rng.choice(PIECES) + text[high if change == 4 else low:]
        elif change == 6:
            j = points[rng.randrange(len(points))]
            text = text[:j] + text[low:high] + text[j:]
        elif change == 7:
            text = "".join(lines[:k] + lines[k + 1:])
        elif change == 8:
            text = "".join(lines[:k + 1] + lines[k:])
        elif change == 9:
            j = rng.randrange(len(lines))
            lines[k], lines[j] = lines[j], lines[k]
            text = "".join(lines)
        elif change in (10, 11):
            names = re.findall(r"\b[a-zA-Z]\w*", text) or ["a"]
            ends = [i + 1 for i, c in enumerate(text) if c in ";{}"] or [0]
            put = rng.choice(("print N;", "N := N;", "add N to N;", "let N = {};", "if N < N { }",
                              "for N in N { N := {}; print N; }"))
            j = rng.choice(ends)
            text = text[:j] + re.sub("N", lambda _: rng.choice(names), put) + text[j:]
        else:
            text = text[:at] if rng.random() < 0.8 else text + text
    return text.encode("latin-1")


def case(kind, seed, number):
    """The case of a kind and number: the words of the command and the text. Kinds are scripts, texts, equal, registers,
    census, word, within, same and picture."""
    rng = random.Random(f"{kind} {seed} {number}")
    if kind == "scripts":
        return ("run",), make_script(rng)
    if kind == "texts":
        word = rng.choice(("run", "check", "check", "reread", "reread", "reread"))
        source = make_answer(rng) if word == "reread" else make_script(rng)
        return (word,), source if rng.random() < 0.1 else changed(rng, source)
    if kind == "registers":
        words, source = ("registers",), make_registers(rng)
    elif kind == "same":
        words, source = ("same",), make_same(rng)
    else:
        made = {"census": make_census, "picture": make_picture}.get(kind)
        names, source = made(rng) if made else make_equal(rng, kind != "equal")
        names = names[:1] if kind == "word" else names
        words = (kind, *names)
    return words, changed(rng, source) if rng.random() < 0.15 else source
