"""Pairs of ten equal lines, names aside, in src/, in specs/ and in *.md.

    twice.py [CHECKOUT]          lists them, a line for each pair of places, and ends with 1 where there are any
    twice.py --selftest          plants a copy of a function, its names changed, and ends with 0 where it is found

Two runs of lines are equal where one renaming of names turns the one into the other: each name of the first has one partner
in the second, and the other way round. Blank lines, comments, imports, clauses, attributes and lines of punctuation alone don't count. In
Markdown lines are compared as they are.
"""
import os
import re
import sys

import finding

LINES = 10
NAME = re.compile(r"[A-Za-z_][\w'-]*")
PASSED = re.compile(r"^(?:pub )?(?:ghost )?(?:use|mod) |^(?:ensures|requires)\b|^#\[|^(?://|--)|^[\s{}()\[\];,]*$|^}.*[{(]$|^\|[-| ]*$")
# words of Rust, of contracts and of antt, which are no names
KEPT_WORDS = set("""fn pub let mut if else match for in while return Ok Err Some None self Self true false impl struct enum trait
ensures requires ghost abbrev unfoldable record data where elim inl inr subst refl sym ap tt absurd""".split())
# Runs that stay, as docs/DECISIONS.md says under "What stands twice": both places are of one group.
GROUPS = {
    "list types have the same methods": """lois_base/src/values lois_base/src/logic lois_base/src/words lois_base/src/guards lois_base/src/numbers
        lois_answers/src/results lois_census/src/counting lois_census/src/orbits lois_context/src/slots lois_picture/src/graphs
        lois_registers/src/automata lois_rounds/src/families lois_script/src/script lois_script/src/syntax""",
    "levels are moved in each crate's own trees": """lois_constraint/src/levels lois_simplify/src/moving lois_terms/src/shifting
        lois_shortest_word/src/lowering""",
    "deciders implement one trait": """lois_deciders/src/graph lois_deciders/src/plain lois_vectors_atoms/src/base lois_vectors_rows/src/asking""",
    "readers stop with the same errors": "lois_reader/src/parse_error lois_registers/src/parse_error",
    "a comprehension is made for each step": """lois_automata/src/conditions lois_automata/src/frontier lois_automata/src/pairing
        lois_shortest_word/src/layers lois_shortest_word/src/steps lois_shortest_word/src/symbolic_states
        lois_shortest_word/src/joint_steps lois_shortest_word/src/meeting lois_equal/src/sink_steps lois_minimise/src/moving
        lois_minimise/src/telling""",
    "two automata are handed in": "lois_equal/src/difference lois_shortest_word/src/common",
    "a tuple of five is made": "lois_automata/src/parts lois_registers/src/translating",
    "lines of results are asked case by case": "lois_equal/src/comparing lois_languages/src/inclusions",
    "results are asked over their structure": "lois_run/src/lines lois_questions/src/answers lois_vectors_questions/src/languages",
    "two programs hand in words": "lois/src/main lois_ask/src/main",
    "names among the words of two command lines": "lois_questions/src/command_line lois_run/src/words",
    "two top calls": "lois_questions/src/top lois_run/src/top",
    "tables of words": "lois_descent/src/lexemes lois_reader/src/answers",
    "each part of a term is asked the same": "lois_answers/src/sound lois_terms/src/reading",
    "a fault of depth, asked of an oracle and of a decider": "lois_eval/src/checks lois_interp/src/checks",
    "two facts of one tree": "lois_interp/specs/WithinLimits lois_script/specs/Limits",
    "terms are made anew for a reader, guard by guard": "lois_readable/src/splitting lois_readable/src/strengthening",
    "two facts of a term's guards": "lois_base/specs/Validity lois_simplify/specs/Irredundant",
    "tests make the same small values": """lois_vectors/src/tests lois_vectors_rows/src/calling lois_vectors_rows/src/spelling
        lois_vectors_contexts/src/making lois_vectors_expressions/src/making lois_vectors_sets/src/making lois_vectors_statements/src/making
        lois_vectors_atoms/src/constraint""",
}
# Two forms of one kind mirror one another in these files: a tuple and a set, intersection and difference, input and output.
MIRRORS = """lois_algebra/src/depth lois_eval/src/evaluating lois_eval/src/machines lois_eval/src/relations lois_outside/src/standard
    lois_parser/src/conditions lois_printer/src/terms lois_readable/src/strengthening lois_reader/src/terms lois_relate/src/building
    lois_relate/src/relating""".split()


def has_reason(one, other):
    """Whether two files belong to one group, or are one file of mirrors."""
    names = {re.sub(r"^crates/|\.\w+$", "", path) for path in (one, other)}
    return any(names <= set(group.split()) for group in GROUPS.values()) or len(names) == 1 and names <= set(MIRRORS)


def counted_lines(path, text):
    """The lines that count, each with its number."""
    for number, line in enumerate(text.split("\n"), 1):
        line = " ".join(line.split())
        if line and not PASSED.match(line):
            yield number, line


def shape(lines):
    """The lines with names replaced by the numbers of their first places, so that a renaming changes nothing."""
    numbers = {}

    def numbered(word):
        if word.group(0) in KEPT_WORDS:
            return word.group(0)
        return f"${numbers.setdefault(word.group(0), len(numbers))}"

    return "\n".join(NAME.sub(numbered, line) for line in lines)


def places(top):
    """Each file with the lines that count, by its kind: src, specs or md."""
    for folder, folders, files in os.walk(top):
        folders[:] = sorted(name for name in folders if name not in ("out", ".git", "unfinished"))
        for name in sorted(files):
            path = os.path.relpath(os.path.join(folder, name), top)
            kind = "md" if name.endswith(".md") else "src" if "/src/" in path and name.endswith(".rt") \
                else "specs" if "/specs/" in path and name.endswith(".antt") else None
            if kind:
                with open(os.path.join(top, path), encoding="utf-8") as file:
                    yield kind, path, list(counted_lines(path, file.read()))


def has_enough(window, kind):
    """Whether the lines say more than punctuation and single words, so that being equal tells something."""
    return kind == "md" or sum(len(line) for line in window) >= 200


def pairs(top):
    seen = {}
    for kind, path, lines in places(top):
        for first in range(len(lines) - LINES + 1):
            window = [line for _, line in lines[first:first + LINES]]
            if has_enough(window, kind):
                form = (kind, "\n".join(window) if kind == "md" else shape(window))
                seen.setdefault(form, []).append((path, lines[first][0], first))
    found = set()
    for runs in seen.values():
        for index, (path, line, first) in enumerate(runs):
            for other, partner, start in runs[:index]:
                if other != path or abs(first - start) >= LINES:
                    found.add((other, path, partner, line))
    listed = {}
    for other, path, partner, line in sorted(found):
        listed.setdefault((other, path), []).append((partner, line))
    for (other, path), lines in sorted(listed.items()):
        if not has_reason(other, path):
            yield f"{other}:{lines[0][0]} ~ {path}:{lines[0][1]} ({len(lines) + LINES - 1} lines or more)"


def plant(work):
    with open(os.path.join(work, finding.CRATE, "src/rule.rt"), encoding="utf-8") as file:
        copy = file.read().replace("cube", "block").replace("size", "number")
    os.makedirs(os.path.join(work, "crates/planted/src"))
    with open(os.path.join(work, "crates/planted/src/lib.rt"), "w", encoding="utf-8") as file:
        file.write(copy)
    return "planted"


if __name__ == "__main__":
    sys.exit(finding.main(pairs, "pairs", plant))
