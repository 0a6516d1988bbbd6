"""The command line of the reference."""
import argparse
import sys

from . import judge
from .choices import longer, unscaled
from .lexer import Refused, refusal_text
from .meaning import STATUS, Failing, script_ends
from .selftest import run_selftest
from .suite import judge_answer, run_suite
from .values import Undecided, spelled

sys.setrecursionlimit(100_000)


def read(path):
    """The bytes of a file; `-` is standard input."""
    if path == "-":
        return sys.stdin.buffer.read()
    with open(path, "rb") as file:
        return file.read()


def run(args):
    """Writes what a script prints at each choice of its parameters, or that it is refused or where it fails. Each
    choice is one up to automorphisms, and has a case of its own; the sets are written by their orbits of the order."""
    source = read(args.script)
    try:
        script = judge.well_scoped(source)
    except Refused as r:
        print(refusal_text(source, r), end="")
        return 5
    names = [name for _, name in script.parameters]
    text = ["lois results 1", "atoms " + ("order" if script.order else "equality"), " ".join(["parameters", *names])]
    for choice in longer((), len(names), (), (), script.order):
        try:
            lines = script_ends(script, choice)
        except Failing as f:
            print(judge.said(source, names, choice, f))
            return STATUS[f.cause]
        ranks = unscaled(choice)
        pairs = [f"{a}{'=' if i == j else '!=' if not script.order else '<'}{b}" for a, i in zip(names, ranks)
                 for b, j in zip(names, ranks) if (a < b and (i == j or not script.order)) or (script.order and i < j)]
        text.append("case when " + (" and ".join(pairs) or "true"))
        text += [f"{name} = {spelled(value, dict(zip(choice, names)), len(names))}" for name, value in lines]
    print("\n".join(text + ["end"]))
    return 0


def judged(args):
    """Judges an answer, and says whether it is right."""
    words = [args.command] + [getattr(args, name) for name in ("a", "b") if hasattr(args, name)]
    try:
        judge_answer(words, read(args.source), read(args.output), args.status, args.seconds,
                     getattr(args, "normal", False))
    except judge.Wrong as w:
        print(w)
        return 1
    except (Undecided, RecursionError) as u:
        print(f"undecided: {u}")
        return 2
    print("right")
    return 0


def main():
    """Reads the words of the command line."""
    parser = argparse.ArgumentParser(prog="python3 -m reference",
                                     description="An interpreter of LOIS that judges answers.")
    commands = parser.add_subparsers(dest="command", required=True)
    command = commands.add_parser("run", help="writes what a script prints or how it fails", description=run.__doc__)
    command.add_argument("script")
    for name, words, about in (("judge", ["source"], "an answer of `run` to a script"),
                               ("equal", ["a", "b", "source"], "an answer of `equal A B` to results"),
                               ("registers", ["source"], "an answer of `registers` to a text"),
                               ("census", ["a", "source"], "an answer of `census A` to results"),
                               ("word", ["a", "source"], "an answer of `lois_ask word A` to results"),
                               ("within", ["a", "b", "source"], "an answer of `lois_ask within A B` to results"),
                               ("picture", ["a", "source"], "an answer of `lois_ask picture A` to results"),
                               ("same", ["source"], "an answer of `lois_ask same` to two results"),
                               ("reread", ["source"], "an answer of `reread` to a text"),
                               ("check", ["source"], "an answer of `check` to a script")):
        command = commands.add_parser(name, help="judges " + about, description=f"Judges {about}. Exits with 0 and "
                                      "`right`, with 1 and what is wrong, or with 2 and `undecided: why`.")
        for word in words:
            command.add_argument(word)
        command.add_argument("output")
        command.add_argument("status", type=int)
        command.add_argument("--seconds", type=float, default=20, help="how long it may take (20)")
        if name == "judge":
            command.add_argument("--normal", action="store_true", help="cases have to be normal")
    command = commands.add_parser("suite", help="judges a program on made cases", description=run_suite.__doc__)
    command.add_argument("--program", required=True, help="the program's path")
    command.add_argument("--ask", help="the path of lois_ask, where its questions are asked too")
    for name, count, about in (("scripts", 150, "random scripts"), ("texts", 300, "changed texts"),
                               ("further", 60, "cases of each further command"),
                               ("seed", 1, "what is made"), ("jobs", 1, "processes side by side")):
        command.add_argument("--" + name, type=int, default=count, help=f"{about} ({count})")
    commands.add_parser("selftest", help="tries whether planted errors are found", description=run_selftest.__doc__)
    args = parser.parse_args()
    return {"run": run, "suite": run_suite, "selftest": run_selftest}.get(args.command, judged)(args)


if __name__ == "__main__":
    sys.exit(main())
