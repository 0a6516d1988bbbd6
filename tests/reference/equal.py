"""Answers of `equal A B`: whether two lines accept the same words (docs/DEFINITIONS.md, IsComparison,
IsDistinguishingWord)."""
import re
from functools import partial

from . import automata
from .answers import read_answer, read_term
from .choices import levels_of, longer, meets, ranks, scaled, value_at
from .judge import Wrong, demand, expect
from .lexer import Refused, refusal_text
from .values import contains

DETERMINISTIC = "deterministic automaton"


def last_named(case, name):
    """The term of the last line of this name, or None."""
    return dict(case.lines).get(name)


def machine_at(case, name, choice):
    """The deterministic automaton that a line holds at a choice, or None."""
    m = automata.automaton_of(value_at(last_named(case, name), choice))
    return m if m and automata.is_deterministic(m) else None


def admitted(results, case):
    """The choices that a case admits."""
    return longer((), len(results.parameters), (case.when,), (), results.order)


def fault(results, parts):
    """Why a question can't be answered, or None, by its parts: names, for each the function that gives its machine at
    a choice and what such a machine is called. The cases in order, in each the missing lines before all else."""
    for number, case in enumerate(results.cases, 1):
        for name, _, _ in parts:
            if last_named(case, name) is None:
                return f"refused: no line {name} in case {number}\n"
        for name, machine, what in parts:
            if any(machine(case, name, choice) is None for choice in admitted(results, case)):
                return f"refused: {name} in case {number} is no {what}\n"
    return None


def judge_search(source, parts, length_at, judge_found, otherwise, output, status):
    """An answer to a question of these parts (see fault) that looks for a shortest word, in one case after the other.
    length_at gives the least length for a case and a choice, which may have a second part, or None; judge_found judges an
    answer by the results, the number of the case and the least length; otherwise are output and status where no case has a word."""
    try:
        results = read_answer(source, ("1",))
    except Refused as r:
        return expect(output, status, refusal_text(source, r), 5)
    why = fault(results, parts)
    if why:
        return expect(output, status, why, 5)
    for number, case in enumerate(results.cases, 1):
        lengths = [length_at(case, choice) for choice in admitted(results, case)]
        found = [length for length in lengths if length is not None]
        if found:
            return judge_found(results, number, min(found), output, status)
    return expect(output, status, *otherwise)


def judge_equal(first, second, source, output, status):
    """An answer of `equal`."""
    def length_at(case, choice):
        return automata.shortest_difference(machine_at(case, first, choice), machine_at(case, second, choice))

    parts = [(name, machine_at, DETERMINISTIC) for name in (first, second)]
    judge_search(source, parts, length_at, partial(judge_difference, first, second), ("equal\n", 0), output, status)


def told_word(results, case, numbers, letters):
    """The choice, the word and whether each further number is for a level of a letter, of an answer that gives these
    numbers, which have to be ranks, and lines of letters for a case that has to admit the choice."""
    numbers = [int(number) for number in numbers.split()]
    demand(numbers == ranks(numbers, results.order), "the numbers are no ranks")
    sample, count = scaled(numbers), len(results.parameters)
    demand(len(sample) >= count and meets(case.when, sample[:count]), "the case doesn't admit the choice")
    try:
        terms = [read_term(line[7:], results.order, results.parameters, len(sample)) for line in letters.splitlines()]
    except Refused:
        raise Wrong("a letter is no term") from None
    used = set(range(count, len(sample))) <= set().union(*map(levels_of, terms))
    return sample[:count], [value_at(term, sample) for term in terms], used


def judge_difference(first, second, results, number, shortest, output, status):
    """A word that is said to tell the lines of the case of this number apart: the shortest ones have a length, and one of
    them is accepted by the first line or all by the second."""
    shortest, of_second = shortest
    demand(status == 10, f"status {status}: a word of length {shortest} tells the lines apart in case {number}")
    text, case = output.decode("latin-1"), results.cases[number - 1]
    form = re.fullmatch(r"differ in case (\d+)\nchoice((?: (?:0|[1-9]\d*))*)\n((?:letter [^\n]*\n)*)"
                        r"accepted by (\w+)\n", text)
    demand(form, "the output is no difference")
    demand(form[1] == str(number), f"the first case that differs is {number}")
    choice, word, used = told_word(results, case, form[2], form[3])
    demand(used, "a number is for no level of a letter")
    a, b = (machine_at(case, name, choice) for name in (first, second))
    demand(all(contains(a.letters, l) or contains(b.letters, l) for l in word), "a letter is in neither alphabet")
    taken = automata.accepts(a, word), automata.accepts(b, word)
    demand(taken[0] != taken[1], "the word tells nothing apart")
    demand(form[4] == (first if taken[0] else second), "the other one accepts the word")
    demand(len(word) == shortest, f"a word of length {shortest} tells the lines apart")
    demand(taken[0] or of_second, f"{first} accepts such a word too")
