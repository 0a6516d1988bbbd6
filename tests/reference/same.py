"""Answers of `same`: whether two results have the same lines at each choice (docs/DEFINITIONS.md, AreSameResults,
IsContrast)."""
import re

from .answers import read_answer, read_term
from .choices import longer, meets, scaled, unscaled, value_at
from .judge import Wrong, demand, expect
from .lexer import Refused, place_of, refusal_text
from .values import contains

END = b"\nend\n"
NUMBERS = r"((?: (?:0|[1-9]\d*))*)"


def cut(source):
    """The two texts: the first ends behind its first line `end`."""
    at = source.find(END)
    length = at + len(END) if at >= 0 else len(source)
    return source[:length], source[length:]


def choices(results):
    """The choices of the parameters, one up to automorphisms."""
    return longer((), len(results.parameters), (), (), results.order)


def holding(results, choice):
    """The numbers of the cases that hold at a choice."""
    return [number for number, case in enumerate(results.cases, 1) if meets(case.when, choice)]


def judge_same(source, output, status):
    """An answer of `same`."""
    first, second = cut(source)
    try:
        results = read_answer(first, ("1",))
    except Refused as r:
        return expect(output, status, refusal_text(first, r), 5)
    try:
        others = read_answer(second, ("1",))
    except Refused as r:
        line, column = place_of(second, r.offset)
        return expect(output, status, f"refused at {line}:{column} of the second: {r.why}\n", 5)
    text = output.decode("latin-1")
    for side, answer in (("first", results), ("second", others)):
        counts = [len(holding(answer, choice)) for choice in choices(answer)]
        if any(count > 1 for count in counts):
            return judge_overlap(side, answer, text, status)
        if 0 in counts:
            return judge_gap(side, answer, text, status)
    if results.order != others.order:
        return expect(output, status, "differ in structure\n", 10)
    if results.parameters != others.parameters:
        return expect(output, status, "differ in parameters\n", 10)
    for choice in choices(results):
        if lines_at(results, choice) != lines_at(others, choice):
            return judge_contrast(results, others, choice, text, status)
    return expect(output, status, "same\n", 0)


def told_choice(answer, numbers):
    """The choice of these numbers, one for each parameter."""
    choice = scaled(map(int, numbers.split()))
    demand(len(choice) == len(answer.parameters), "the choice has another number of atoms")
    return choice


def judge_overlap(side, answer, text, status):
    """Two cases that are said to hold at one choice."""
    form = re.fullmatch(rf"refused: cases (\d+) and (\d+) at choice{NUMBERS} of the {side}\n", text)
    demand(form and status == 5, f"two cases of the {side} hold at one choice")
    one, other, choice = int(form[1]), int(form[2]), told_choice(answer, form[3])
    demand(one < other and {one, other} <= set(holding(answer, choice)), f"cases {one} and {other} don't hold there")


def judge_gap(side, answer, text, status):
    """A choice at which no case is said to hold."""
    form = re.fullmatch(rf"refused: no case at choice{NUMBERS} of the {side}\n", text)
    demand(form and status == 5, f"at some choice no case of the {side} holds")
    demand(not holding(answer, told_choice(answer, form[1])), "a case holds there")


def lines_at(answer, choice):
    """The names and values of the one case that holds at a choice."""
    case = answer.cases[holding(answer, choice)[0] - 1]
    return [(name, value_at(term, choice)) for name, term in case.lines]


def judge_contrast(results, others, somewhere, text, status):
    """A difference that is told; there is one at the choice `somewhere`."""
    where = dict(zip(results.parameters, unscaled(somewhere)))
    form = re.fullmatch(rf"differ in cases (\d+) and (\d+)\nchoice{NUMBERS}\n(line.*)", text, re.DOTALL)
    demand(form and status == 10, f"the lines differ at {where}")
    sample, count = scaled(map(int, form[3].split())), len(results.parameters)
    demand(len(sample) >= count, "the choice has too few atoms")
    choice = sample[:count]
    demand(holding(results, choice) == [int(form[1])], f"case {form[1]} of the first doesn't hold there")
    demand(holding(others, choice) == [int(form[2])], f"case {form[2]} of the second doesn't hold there")
    judge_detail(results, lines_at(results, choice), lines_at(others, choice), sample, form[4])


def judge_detail(results, lines, partners, sample, text):
    """What is told of two lists of names and values at the sample's choice."""
    form = re.fullmatch(r"lines (\d+) and (\d+)\n", text)
    if form:
        counts = int(form[1]), int(form[2])
        demand(counts == (len(lines), len(partners)) and counts[0] != counts[1], "the lines are as many")
        return
    form = re.fullmatch(r"line (\d+): (\w+)(?: and (\w+))?\n(?:member ([^\n]*)\nof the (first|second)\n)?", text)
    demand(form, "the output is no difference")
    number = int(form[1])
    demand(1 <= number <= min(len(lines), len(partners)), f"there is no line {number}")
    (name, value), (other, partner) = lines[number - 1], partners[number - 1]
    if form[3]:
        demand((name, other) == (form[2], form[3]) and name != other and not form[4], "the names don't differ so")
        return
    demand(name == other == form[2], "a line has another name")
    both_sets = value.kind == partner.kind == "set"
    if not form[4]:
        demand(value != partner and not both_sets, "no member is told, or the values are the same")
        return
    try:
        member = value_at(read_term(form[4], results.order, results.parameters, len(sample)), sample)
    except Refused:
        raise Wrong("the member is no term") from None
    demand(both_sets, "a line is no set")
    owner, lacking = (value, partner) if form[5] == "first" else (partner, value)
    demand(contains(owner, member) and not contains(lacking, member), f"it isn't a member of the {form[5]} alone")
