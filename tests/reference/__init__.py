"""An interpreter of LOIS to judge the answers of another one. `python3 -m reference --help` says how it is run.

It is written to be believed by reading: one run for each choice of the parameters, with values over concrete atoms
(values.py says how an infinite set is one), and no constraint is ever simplified, solved or eliminated.

One remark carries the whole: scripts of `atoms equality` are run over the ordered fractions, too. Their atoms are the
fractions in both structures, no form of such a script looks at the order, and sets are compared by their members
alone. So they compute the same sets, which are only cut into smaller orbits here. The structure matters in three
places: `<` is refused, which choices of atoms have to be tried (choices.py), and which members are in one orbit
(census.py).

lexer, parser, scope   a text, its tokens, its tree, the rules about names
values, automata       sets, and what is done with them
meaning                expressions, conditions and statements: how they end and how they fail
answers, choices       the texts of answers, and their terms at a choice
judge                  whether an answer is right; equal, registers, census: the further commands
generate, suite        made scripts and texts, and whole runs of a program
selftest               errors that are planted in right answers
"""
