#!/usr/bin/env bash
# Writes a program of bench/speed.sh that is made by its size: a family's name and a number.
#   bench/programs/large.sh adds1000
# adds, loops, tags: so many additions of a tag, in no loop, in a loop each, and in a loop each with its atom. one,
# ops, mem, listed: sets of so many tags, alone, compared with themselves in another order, and looped over. tup: so
# many pairs. par, comp: so many parameters. twoflat: the minimal automaton of a queue of so many atoms, which is kept
# as two lists.
set -u
if ! [[ ${1:-} =~ ^(adds|loops|tags|one|ops|mem|listed|tup|par|comp|twoflat)([1-9][0-9]*)$ ]]; then
  echo "usage: large.sh adds|loops|tags|one|ops|mem|listed|tup|par|comp|twoflat with a number behind it" >&2
  exit 64
fi
awk -v family="${BASH_REMATCH[1]}" -v size="${BASH_REMATCH[2]}" '
  # words from first to last, up or down, each with what stands around its number
  function listed(first, last, before, after,    text, step, number) {
    step = first > last ? -1 : 1
    for (number = first; number != last + step; number += step)
      text = text (text == "" ? "" : ", ") before number after
    return text
  }
  function tags(letter) { return "{" listed(0, size - 1, "\047" letter) "}" }
  function turned(letter) { return "{" listed(size - 1, 0, "\047" letter) "}" }
  function two_sets() { return "let a = " tags("t") ";\nlet b = " turned("t") ";\n" }
  function parameters() { return "parameter " listed(0, size - 1, "p") ";\n" }
  function repeated(before, after,    text, number) {
    for (number = 0; number < size; number++) text = text before number after
    return text
  }
  function pairs(    text, number) {
    for (number = 0; number < size; number++)
      text = text (number ? ", " : "") "(\047t" number ", " (number % 2 ? "p" : "q") ")"
    return text
  }

  # Queues: a state of the automaton has the atoms x0.. of the front list and y0.. of the back list.
  function atoms(xs, ys, from,    text) {
    if (from < xs) text = listed(from, xs - 1, "x")
    if (ys > 0) text = text (text == "" ? "" : ", ") listed(0, ys - 1, "y")
    return text
  }
  # (a tuple has eight parts at most, so eight atoms and more are in tuples of seven)
  function tuple(xs, ys, inside,    parts, count, number, text) {
    if (inside == "") return "\047q" xs "_" ys
    count = split(inside, parts, ", ")
    if (count <= 7) return "(\047q" xs "_" ys ", " inside ")"
    for (number = 1; number <= count; number++)
      text = text (number % 7 == 1 ? (number > 1 ? ")" : "") ", (\047g" : "") ", " parts[number]
    return "(\047q" xs "_" ys text "))"
  }
  function binders(xs, ys, z,    text) {
    if (xs > 0) text = listed(0, xs - 1, "x", " in atoms")
    if (ys > 0) text = text (text == "" ? "" : ", ") listed(0, ys - 1, "y", " in atoms")
    if (z) text = text (text == "" ? "" : ", ") "z in atoms"
    return text
  }
  function with(text, xs, ys, z) { return "{" text (binders(xs, ys, z) == "" ? "" : " for " binders(xs, ys, z)) }
  function joined(one, other) { return one == "" || other == "" ? one other : one ", " other }
  function fuller(xs, ys,    back) {
    if (xs + ys == size) return "\047err"
    back = joined("z", ys ? listed(0, ys - 1, "y") : "")
    return tuple(xs, ys + 1, joined(xs ? listed(0, xs - 1, "x") : "", back))
  }
  function step(xs, ys,    here, text, first, rest) {
    here = tuple(xs, ys, atoms(xs, ys, 0))
    text = with("(" here ", (\047put, z), " fuller(xs, ys) ")", xs, ys, 1) "},\n"
    if (xs + ys == 0) return text "  {(" here ", (\047get, z), \047err) for z in atoms}"
    first = xs ? "x0" : "y" ys - 1
    rest = xs ? tuple(xs - 1, ys, atoms(xs, ys, 1)) : tuple(ys - 1, 0, ys > 1 ? listed(ys - 2, 0, "y") : "")
    text = text "  " with("(" here ", (\047get, " first "), " rest ")", xs, ys, 0) "},\n"
    return text "  " with("(" here ", (\047get, z), \047err)", xs, ys, 1) " where z != " first "}"
  }
  function queue(    text, xs, ys, states, steps) {
    for (xs = 0; xs <= size; xs++)
      for (ys = 0; ys <= size - xs; ys++) {
        states = states (states == "" ? "" : ",\n") "  " with(tuple(xs, ys, atoms(xs, ys, 0)), xs, ys, 0) "}"
        steps = steps ",\n  " step(xs, ys)
      }
    return "let good = flatten({\n" states "});\nlet states = union({\047err}, good);\n" \
      "let letters = {(act, x) for act in {\047put, \047get}, x in atoms};\nlet steps = flatten({\n" \
      "  {(\047err, (\047put, z), \047err) for z in atoms},\n" \
      "  {(\047err, (\047get, z), \047err) for z in atoms}" steps \
      "});\nlet classes = part(minimise((states, letters, steps, {\047q0_0}, good)), 1);\nprint classes;\n"
  }

  BEGIN {
    if (family == "adds") text = "atoms equality;\nlet s = {};\n" repeated("add \047t", " to s;\n") "print s;\n"
    if (family == "loops") text = "atoms equality;\nlet s = {};\n" \
      repeated("for x in atoms { add \047t", " to s; }\n") "print s;\n"
    if (family == "tags") text = "atoms equality; let s = {};\n" \
      repeated("for x in atoms { add (\047k", ", x) to s; }\n") "print s;\n"
    if (family == "one") text = "atoms equality;\nlet a = " tags("t") ";\n"
    if (family == "ops") text = "atoms equality;\n" two_sets() "assert a = b; assert a subset b; " \
      "assert minus(a, b) = {}; assert inter(a, b) = b; assert \047t7 in b;\n" \
      "let c = union(a, b); assert c = a;\n"
    if (family == "mem") text = "atoms equality;\n" two_sets() "let c = {}; let d = {x for x in a where x in b};\n" \
      "for x in a where x in b { add x to c; }\nassert c = a; assert d = c;\n"
    if (family == "listed") text = "atoms equality; let s = " tags("k") ";\nlet t = " turned("k") "; let r = {}; " \
      "if s = t { add \047same to r; } for x in s { if x in t { add x to r; } } print r;\n"
    if (family == "tup") text = "atoms order; parameter p, q;\nlet a = {" pairs() "};\nlet b = {};\n" \
      "for x in a { for y in atoms where y < p { add (x, y) to b; } }\nassert a subset {part(z, 1) for z in b};\n"
    if (family == "par") text = "atoms equality; " parameters() "let s = {" listed(0, size - 1, "p") "};\nprint s;\n"
    if (family == "comp") text = "atoms order; " parameters() "let s = {};\n" comps() "print s;\n"
    if (family == "twoflat") text = "atoms equality;\n" queue()
    printf "%s", text
  }
  function comps(    text, number) {
    for (number = 0; number < size; number++)
      text = text "for x in atoms where x < p" number \
        " { for y in atoms where x < y { add (x, y, p" number ") to s; } }\n"
    return text
  }'
