"""Measures the pairs of docs/IDIOMS.md, What it costs: a slow and a fast spelling of the same matter. By hand.

    costs.py PROGRAM      writes for each script the seconds of a processor, the least of three runs, and the bytes and
                          cases of its answer; ends with 1 where a run fails
"""
import itertools
import os
import subprocess
import sys


def listed(items):
    """Expressions, with a comma between each two."""
    return ", ".join(items)


def cases(slow):
    """Which two of six parameters are in order: by `if`, or by a condition of a comprehension."""
    names = "abcdef"
    text = f"atoms order; parameter {listed(names)};\n"
    if not slow:
        return text + f"let all = {{{listed(names)}}}; let s = {{(x, y) for x in all, y in all where x < y}}; print s;"
    adds = [f"if {x} < {y} {{ add ({x}, {y}) to s; }}" for x, y in itertools.permutations(names, 2) if x < y]
    return text + "let s = {};\n" + "\n".join(adds) + "\nprint s;"


def names_of_states(count, slow):
    """A product of a ring of states with itself, whose names are parameters or tags."""
    names = [f"p{i}" for i in range(count)]
    of = names if slow else ["'" + name for name in names]
    steps = [f"{{(({s}, x), y, ({t}, y)) for x in atoms, y in atoms where x != y}}" for s, t in zip(of, of[1:] + of[:1])]
    return (f"atoms equality; {f'parameter {listed(names)};' if slow else ''}\n"
            f"let states = {{(s, x) for s in {{{listed(of)}}}, x in atoms}};\n"
            f"let m = (states, atoms, flatten({{{listed(steps)}}}), {{({of[0]}, x) for x in atoms}}, {{}});\n"
            "let r = reach(product(m, m)); print r;")


def queue(last):
    """A queue with room for six atoms, and what is asked of it."""
    names = [f"x{i}" for i in range(7)]

    def state(held):
        return f"('q{len(held)}, {listed(held)})" if held else "'q0"

    def pieces(item, counts):
        for i in counts:
            loops = listed(f"{x} in atoms" for x in names[:i])
            yield f"{{{item(i)} for {loops}}}" if i else f"{{{item(i)}}}"

    states = pieces(lambda i: state(names[:i]), range(7))
    puts = pieces(lambda i: f"({state(names[:i - 1])}, ('put, {names[i - 1]}), {state(names[:i])})", range(1, 7))
    gets = pieces(lambda i: f"({state(names[:i])}, ('get, x0), {state(names[1:i])})", range(1, 7))
    return (f"atoms equality;\nlet states = flatten({{{listed(states)}}});\n"
            "let letters = {(a, x) for a in {'put, 'get}, x in atoms};\n"
            f"let steps = flatten({{{listed([*puts, *gets])}}});\n"
            f"let m = (states, letters, steps, {{'q0}}, states);\n{last} print r;")


COMMON = ("let r = {(s, t) for s in states, t in states where exists u in steps: [part(u, 1) = s and "
          "exists v in steps: [part(v, 1) = t and part(v, 2) = part(u, 2)]]};",
          "let r = {(part(u, 1), part(v, 1)) for u in steps, v in steps where part(u, 2) = part(v, 2)};")
HOISTED = ("let r = {s for s in states where s in {part(p, 1) for p in reach(product(m, m))}};",
           "let k = {part(p, 1) for p in reach(product(m, m))}; let r = {s for s in states where s in k};")
PAIRS = [("if, or a condition of a comprehension", cases(True), cases(False))]
PAIRS += [(f"{n} states, named by parameters or tags", names_of_states(n, True), names_of_states(n, False)) for n in (4, 5, 6)]
PAIRS += [("common letters, by quantifiers or over steps", queue(COMMON[0]), queue(COMMON[1])),
          ("reach in a condition, or before", queue(HOISTED[0]), queue(HOISTED[1]))]


def measure(program, script):
    """The least seconds of three runs, and the answer."""
    best = None
    for _ in range(3):
        before = os.times()
        ran = subprocess.run([program, "run"], input=script.encode(), capture_output=True, check=True)
        after = os.times()
        seconds = after.children_user + after.children_system - before.children_user - before.children_system
        best = seconds if best is None else min(best, seconds)
    return max(best, 0), ran.stdout.decode()


def main():
    """Writes a line for each pair."""
    for name, slow, fast in PAIRS:
        found = [measure(sys.argv[1], script) for script in (slow, fast)]
        said = [f"{seconds:.2f} s, {len(text)} bytes, {text.count('case when')} cases" for seconds, text in found]
        print(f"{name}: {said[0]}; {said[1]}", flush=True)
    return 0


if __name__ == "__main__":
    sys.exit(main())
