"""Wrong answers, planted in right ones: each has to be found."""
from .judge import Wrong
from .suite import judge_answer

PAIRS = (b"atoms equality; parameter a; let s = {(x, a) for x in atoms where x != a}; if a in {a} { add 'p to s; }"
         b" print s; print a;")
CASES = b"atoms equality; parameter a, b; let s = {}; if a = b { add 'eq to s; } else { add a to s; } print s;"
FAILS = (b"atoms order; parameter a, b;\nfor x in {a, b} { for y in atoms where b < y {\n assert not b < x; } }\n"
         b"let t = flatten({a}); let u = union('p, a);")
HEAD = "lois results 1\natoms equality\nparameters\ncase when true\n"
EQUAL = (HEAD + "a = ({'p}, {$0 for $0}, {('p, $0, 'p) for $0}, {'p}, {'p})\n"
         "b = ({'p, 'q}, {$0 for $0}, {('p, $0, 'q) for $0}, {'p}, {'p, 'q})\nend\n").encode()
TWO = ("lois results 1\natoms equality\nparameters a b\ncase when true\n"
       "m = ({'s, 't}, {$2 for $2}, {('s, $2, 't) for $2 if $2=a}, {'s}, {'t})\n"
       "n = ({'s, 't}, {$2 for $2}, {('s, $2, 't) for $2 if $2=b}, {'s}, {'t})\nend\n").encode()
LATE = (HEAD + "a = ({'p}, {$0 for $0}, {('p, $0, 'p) for $0}, {'p}, {'p})\n"
        "b = ({'p, 'q}, {$0 for $0}, {('p, $0, 'q) for $0}, {'p}, {'q})\nd = ({'p}, {}, {}, {}, {'p})\n"
        "g = ({'p, 'q}, {$0 for $0}, {('p, $0, 'q) for $0}, {'p, 'q}, {'q})\ns = {'p}\nend\n").encode()
CENSUS = b"lois results 1\natoms order\nparameters\ncase when true\ns = {($0, $1) for $0 $1, 'p}\nend\n"
UNORDERED = b"lois results 1\natoms equality\nparameters\ncase when true\ns = {($0, {$1}) for $0 $1}\nend\n"
GRAPHS = (HEAD.replace("true", "false") + "q = {}\ncase when true\n"
          "m = ({'start, 'same, ('one, $0) for $0}, {$0 for $0}, {('start, $0, ('one, $0)) for $0, "
          "(('one, $0), $0, 'same) for $0}, {'start}, {'same})\n"
          "r = {($0, $1) for $0 $1 if $0!=$1}\nt = {($0, $1, $2) for $0 $1 $2}\nend\n").encode()
STATE_GRAPH = ("digraph {\n  n1 [label=\"'start\", style=bold]\n  n2 [label=\"('one, x0)\"]\n"
               "  n3 [label=\"'same\", peripheries=2]\n  n1 -> n2 [label=\"x2 to ('one, x2)\"]\n"
               "  n2 -> n3 [label=\"x1 from ('one, x1)\"]\n}\n")
REGISTERS = (b"lois registers 1\natoms order\nregisters 1\nstates p q\ninitial p\nfinal q\n"
             b"step p q when true store 1\nstep q p when r1<x store none\nend\n")
STATES = "{('p, 'none), ('p, $0) for $0, ('q, 'none), ('q, $0) for $0}"
MACHINE = ("lois results 1\natoms order\nparameters\ncase when true\nautomaton = (" + STATES + ", {$0 for $0}, "
           "{(('p, 'none), $0, ('q, $0)) for $0, (('p, $0), $1, ('q, $1)) for $0 $1, "
           "(('q, $0), $1, ('p, $0)) for $0 $1 if $0<$1}, {('p, 'none)}, {('q, 'none), ('q, $0) for $0})\nend\n")

ONE = "lois results 1\natoms equality\nparameters a b\n"
SPLIT = ONE + "case when a=b\ns = {a}\ncase when a!=b\ns = {a, b}\nend\n"
JOINED = ONE + "case when true\ns = {b, a}\nend\n"
ATOM = ONE + "case when true\ns = a\nend\n"
TWICE = ONE + "case when true\ns = a\ncase when true\ns = a\nend\n"
PART = ONE + "case when a=b\ns = a\nend\n"
EACH = HEAD + "s = {($0, $1) for $0 $1}\nend\n"
APART = HEAD + "s = {($0, $1) for $0 $1 if $0!=$1}\nend\n"

# the command, the text, the right answer and its status, and for each planted error its name, a piece of the answer,
# what takes its place, and another status if there is one
PLANTED = [
    (("run",), PAIRS, "lois results 1\natoms equality\nparameters a\ncase when true\n"
     "s = {($1, a) for $1 if a!=$1, 'p}\na = a\nend\n", 0, [
         ("a member too many", "'p}", "'p, 'q}"), ("an orbit of members too many", " if a!=$1", ""),
         ("a member missing", ", 'p}", "}"), ("another member", "($1, a)", "(a, $1)"),
         ("a line too few", "a = a\n", ""),
         ("a line of another name", "a = a", "b = a"), ("lines turned", "s = {($1, a) for $1 if a!=$1, 'p}\na = a",
                                                         "a = a\ns = {($1, a) for $1 if a!=$1, 'p}"),
         ("another atom", "a = a", "a = 'a"), ("another structure", "equality", "order"),
         ("no parameter", "rs a", "rs b"),
         ("a needless piece", "'p}", "'p, (a, a) if a!=a}"), ("a guard that isn't normal", "a!=$1", "$1!=a"),
         ("another status", "", "", 1), ("a text that isn't one", "end\n", "end")]),
    (("run",), CASES, "lois results 1\natoms equality\nparameters a b\ncase when a=b\ns = {'eq}\n"
     "case when a!=b\ns = {a}\nend\n", 0, [
        ("a case twice", "case when a!=b", "case when a=b\ns = {'eq}\ncase when a!=b"),
        ("a case missing", "case when a!=b\ns = {a}\n", ""),
        ("a case too wide", "a=b", "true"), ("a case that holds nowhere", "end", "case when false\nend"),
        ("values turned", "s = {a}", "s = {b}"), ("two cases of equal lines", "s = {a}", "s = {'eq}")]),
    (("run",), FAILS, "lois results 2\natoms order\nparameters a b\nfailed at 3:2: assertion failed\nchoice 1 0 2\n"
     "for x = a\nfor y = $2\nend\n", 1, [
         ("a wrong line", "3:2", "2:2"), ("a wrong column", "3:2", "3:9"),
         ("a wrong cause", "assertion failed", "turn limit", 3),
         ("a wrong choice", "choice 1 0 2", "choice 0 1 2"), ("a wrong element", "x = a", "x = b"),
         ("a number too many", "choice 1 0 2", "choice 1 0 2 3"), ("a gap in the numbers", "1 0 2", "1 0 3"),
         ("an element that isn't in the set", "x = a", "x = $2"),
         ("an element that the condition keeps away", "y = $2", "y = b"),
         ("an element missing", "for y = $2\n", ""),
         ("elements turned", "for x = a\nfor y = $2", "for y = $2\nfor x = a"),
         ("another name", "for x", "for z"), ("another status", "", "", 2),
         ("what isn't reached", "3:2: assertion failed",
                                                                              "4:17: not a set", 2)]),
    (("run",), b"atoms equality;\nparameter a, b;\nassert a = b;\nassert a != b;",
     "lois results 2\natoms equality\nparameters a b\nfailed at 3:1: assertion failed\nchoice 0 1\nend\n", 1,
     [("a statement before fails elsewhere", "3:1: assertion failed\nchoice 0 1", "4:1: assertion failed\nchoice 0 0")]),
    (("run",), b"atoms equality;\nparameter a;\nlet s = (flatten({a}),\n flatten({'b}));",
     "lois results 2\natoms equality\nparameters a\nfailed at 3:18: not a set\nchoice 0\nend\n", 2,
     [("an operand behind one that fails", "3:18", "4:10")]),
    (("run",), b"atoms equality;\nparameter a;\nassert a = {a} and union(a,\n 'b) = {};",
     "lois results 2\natoms equality\nparameters a\nfailed at 3:26: not a set\nchoice 0\nend\n", 2,
     [("an operand of the wrong kind behind another", "3:26", "4:2")]),
    (("run",), b"atoms equality;\nparameter a, b, c;\nassert a = b or a = c or b = c;",
     "lois results 2\natoms equality\nparameters a b c\nfailed at 3:1: assertion failed\nchoice 0 1 2\nend\n", 1,
     [("numbers by an order that the atoms lack", "choice 0 1 2", "choice 2 1 0")]),
    (("run",), b"atoms order; let s = {}; print x;", "refused at 1:32: unknown name\n", 5, [
        ("another place of a refusal", "1:32", "1:26"), ("another refusal", "unknown name", "not a script"),
        ("a status", "", "", 0)]),
    (("check",), b"atoms order;assert[1 < 2];", "refused at 1:20: not a script\n", 5, [("another place", "20", "22")]),
    (("check",), b"atoms order;if true{}else{}", "atoms order ;\nif true {\n}\n", 0,
     [("another form", "}\n", "}\nelse {\n}\n")]),
    (("reread",), CENSUS, CENSUS.decode(), 0, [("another text", "'p", "'q"),
                                               ("a refusal", CENSUS.decode(), "refused", 5)]),
    (("reread",), CENSUS[:50], "refused at 4:13: not results\n", 5, [("another place", "4:13", "4:11")]),
    (("equal", "a", "b"), EQUAL, "differ in case 1\nchoice 0 1\nletter $0\nletter $1\naccepted by a\n", 10, [
        ("a longer word", "letter $1", "letter $1\nletter $1"), ("a word that tells nothing", "letter $1\n", ""),
        ("the wrong side", "by a", "by b"), ("no difference", "", "equal\n", 0),
        ("a letter that is none", "$0\n", "'p\n"),
        ("a number for nothing", "choice 0 1", "choice 0 1 2"), ("another case", "case 1", "case 2"),
        ("a gap in the numbers", "choice 0 1", "choice 0 2")]),
    (("equal", "a", "a"), EQUAL, "equal\n", 0, [("a difference", "equal\n",
                                                 "differ in case 1\nchoice\naccepted by a\n", 10)]),
    (("equal", "a", "c"), EQUAL, "refused: no line c in case 1\n", 5, [("another reason", "no line c", "no line a")]),
    (("equal", "m", "n"), TWO, "differ in case 1\nchoice 0 1\nletter a\naccepted by m\n", 10, [
        ("a choice without a difference", "choice 0 1", "choice 0 0"), ("the other letter", "letter a", "letter b"),
        ("the second line's word", "letter a\naccepted by m", "letter b\naccepted by n")]),
    (("word", "b"), LATE, "accepted in case 1\nchoice 0\nletter $0\n", 0, [
        ("a longer word", "letter $0", "letter $0\nletter $0"), ("a word that isn't accepted", "letter $0\n", ""),
        ("no word", "", "none\n", 10), ("a number for nothing", "choice 0", "choice 0 1"),
        ("a gap in the numbers", "choice 0", "choice 1"),
        ("a letter that is none", "$0\n", "'p\n"), ("another case", "case 1", "case 2")]),
    (("word", "d"), LATE, "none\n", 10, [("a word", "none\n", "accepted in case 1\nchoice\n", 0)]),
    (("word", "s"), LATE, "refused: s in case 1 is no automaton\n", 5,
     [("another reason", "s in case 1 is no automaton", "no line s in case 1")]),
    (("within", "b", "a"), LATE, "within\n", 0,
     [("a word", "within\n", "differ in case 1\nchoice 0\nletter $0\naccepted by b\n", 10)]),
    (("within", "a", "b"), LATE, "differ in case 1\nchoice\naccepted by a\n", 10, [
        ("a word of both", "choice\n", "choice 0\nletter $0\n"), ("no word", "", "within\n", 0),
        ("a longer word", "choice\n", "choice 0\nletter $0\nletter $0\n"), ("the other one", "by a", "by b")]),
    (("within", "b", "g"), LATE, "refused: g in case 1 is no deterministic automaton\n", 5,
     [("another reason", "no deterministic automaton", "no automaton")]),
    (("same",), (SPLIT + JOINED).encode(), "same\n", 0, [
        ("a difference", "same\n", "differ in cases 1 and 1\nchoice 0 0\nline 1: s\nmember a\nof the first\n", 10)]),
    (("same",), (EACH + APART).encode(), "differ in cases 1 and 1\nchoice 0 0\nline 1: s\nmember ($0, $1)\n"
     "of the first\n", 10, [
         ("the other one", "first", "second"), ("a member of both", "choice 0 0", "choice 0 1"),
         ("no member", "($0, $1)", "$0"), ("no difference", "", "same\n", 0), ("another line", "line 1", "line 2"),
         ("the member left out", "member ($0, $1)\nof the first\n", ""), ("another case", "and 1", "and 2")]),
    (("same",), (ATOM + ATOM.replace("= a", "= b")).encode(), "differ in cases 1 and 1\nchoice 0 1\nline 1: s\n", 10,
     [("a choice without a difference", "choice 0 1", "choice 1 1"), ("another name", ": s", ": t"),
      ("counts", "line 1: s", "lines 1 and 1")]),
    (("same",), (ATOM + ATOM.replace("s = a", "t = a")).encode(), "differ in cases 1 and 1\nchoice 0 0\n"
     "line 1: s and t\n", 10, [("names turned", "s and t", "t and s"), ("one name", "s and t", "s")]),
    (("same",), (ATOM.replace("end", "t = a\nend") + ATOM).encode(), "differ in cases 1 and 1\nchoice 0 0\n"
     "lines 2 and 1\n", 10, [("counts turned", "2 and 1", "1 and 2")]),
    (("same",), (ATOM + ATOM.replace("equality", "order")).encode(), "differ in structure\n", 10,
     [("parameters", "structure", "parameters"), ("none", "", "same\n", 0)]),
    (("same",), (ATOM + ATOM.replace("a b", "b a")).encode(), "differ in parameters\n", 10,
     [("structure", "parameters", "structure")]),
    (("same",), (PART + PART).encode(), "refused: no case at choice 0 1 of the first\n", 5,
     [("a choice with a case", "0 1", "0 0"), ("the other one", "first", "second"), ("the same", "", "same\n", 0)]),
    (("same",), (ATOM + TWICE).encode(), "refused: cases 1 and 2 at choice 0 0 of the second\n", 5,
     [("one case twice", "1 and 2", "1 and 1"), ("the other one", "second", "first"),
      ("another choice", "choice 0 0", "choice 0")]),
    (("same",), ATOM.encode(), "refused at 1:1 of the second: not results\n", 5,
     [("of the first", " of the second", ""), ("another place", "1:1", "6:1")]),
    (("census", "s"), CENSUS, "case 1\norbits 4\norbit ($0, $1)\nchoice 0 1\n"
     "orbit ($0, $1)\nchoice 1 0\norbit ($0, $1)\nchoice 0 0\norbit 'p\nchoice\n", 0, [
         ("an orbit twice", "choice 1 0", "choice 0 1"), ("another case", "case 1", "case 2"),
         ("a gap in the numbers", "choice 1 0", "choice 2 0"),
         ("an orbit missing", "orbits 4\norbit ($0, $1)\nchoice 0 1\n", "orbits 3\n"),
         ("an orbit too many", "'p\nchoice\n", "'p\nchoice\norbit 'p\nchoice\n"), ("no member", "'p", "'q"),
         ("another order", "orbits 4\n", "orbits 4\norbit 'p\nchoice\n"),
         ("another spelling", "($0, $1)\nchoice 0 0", "($0, $0)\nchoice 0"),
         ("a number too many", "'p\nchoice", "'p\nchoice 0")]),
    (("census", "s"), UNORDERED, "case 1\norbits 2\norbit ($0, {$1})\nchoice 0 1\norbit ($0, {$1})\nchoice 0 0\n", 0, [
        ("numbers of the order", "choice 0 1", "choice 1 0"),
        ("an orbit twice", "choice 0 0", "choice 0 1"),
        ("an orbit missing", "orbits 2\norbit ($0, {$1})\nchoice 0 1\n", "orbits 1\n")]),
    (("picture", "m"), GRAPHS, STATE_GRAPH, 0, [
        ("an edge turned", "n2 -> n3", "n3 -> n2"), ("another node", "n1 -> n2", "n1 -> n3"),
        ("a mark too many", "'same\", peri", "'same\", style=bold, peri"), ("a mark missing", ", style=bold", ""),
        ("another mark", "style=bold", "peripheries=2"),
        ("a node missing", "  n3 [label=\"'same\", peripheries=2]\n", ""),
        ("a node twice", "  n3 ", "  n3 [label=\"('one, x4)\"]\n  n4 "), ("another state", "'same", "'start"),
        ("an edge missing", "  n2 -> n3 [label=\"x1 from ('one, x1)\"]\n", ""),
        ("an edge twice", "  n2 -> n3 ", "  n2 -> n3 [label=\"x0\"]\n  n2 -> n3 "),
        ("no step", "x1 from", "x2 from"),
        ("an end that its node tells", "to ('one, x2)", "from 'start to ('one, x2)"),
        ("an end left out", " from ('one, x1)", ""), ("no letter", "x2 to", "to"), ("another status", "", "", 10)]),
    (("picture", "r"), GRAPHS, "digraph {\n  n1 [label=\"x0\"]\n  n1 -> n1 [label=\"to x7\"]\n}\n", 0, [
        ("an edge more", "}\n", "  n1 -> n1 [label=\"\"]\n}\n"), ("a letter", "to x7", "x7 to x7"),
        ("no end", "to x7", ""), ("the end of the text", "}\n", "")]),
    (("picture", "t"), GRAPHS, "refused: t in case 2 is no automaton and no set of pairs\n", 5,
     [("a graph", "refused: t in case 2 is no automaton and no set of pairs\n", "digraph {\n}\n", 0)]),
    (("picture", "q"), GRAPHS, "refused: no line q in case 2\n", 5, [("another case", "case 2", "case 1")]),
    (("picture", "s"), CENSUS[:-4] + b"case when true\nend\n", "refused: cases 1 and 2 at choice\n", 5,
     [("one case", "1 and 2", "1 and 3")]),
    (("picture", "s"), (HEAD.replace("true", "false") + "end\n").encode(), "refused: no case at choice\n", 5,
     [("a graph", "refused: no case at choice\n", "digraph {\n}\n", 0)]),
    (("registers",), REGISTERS, MACHINE, 0, [
        ("a step turned", "(('q, $0), $1, ('p, $0))", "(('p, $0), $1, ('q, $0))"),
        ("a guard turned", "$0<$1", "$1<$0"),
        ("a step missing", "(('p, 'none), $0, ('q, $0)) for $0, ", ""),
        ("a final state missing", "{('q, 'none), ('q", "{('q"),
        ("another first state", "{('p, 'none)}", "{('q, 'none)}")]),
    (("registers",), REGISTERS[:-4], "refused at 9:1: not a register automaton\n", 5,
     [("another place", "9:1", "8:1")]),
]


def is_right(words, source, output, status):
    """Whether the answer is judged right."""
    try:
        judge_answer(words, source, output.encode(), status)
    except Wrong:
        return False
    return True


def run_selftest(_):
    """Plants errors in right answers, and says whether each is found: right answers have to be right, others wrong."""
    passed, failed = 0, 0
    for words, source, output, status, errors in PLANTED:
        tries = [("the right answer", output, status, True)]
        for name, piece, other, *code in errors:
            text = output.replace(piece, other, 1) if piece else other or output
            tries.append((name, text, code[0] if code else status, False))
        for name, text, code, right in tries:
            if is_right(words, source, text, code) == right and (right or (text, code) != (output, status)):
                passed += 1
            else:
                failed += 1
                print(f"{' '.join(words)}: {name} is judged {'wrong' if right else 'right'}:\n{text}")
    print(f"{passed} passed, {failed} failed")
    return 1 if failed else 0
