#!/usr/bin/env python3
"""Prints how long the answers of programs are to read: bytes, binders and literals, of each program and in all.

    bench/sizes.py [--limit SECONDS] [--changed] NAME=COMMAND.. [-- SCRIPT..]

COMMAND reads a script and writes its results, as `lois run` does. A SCRIPT is a file; without one all of examples/ and
bench/programs/ are taken. A program that isn't done after SECONDS (20) counts as none, and so does one that writes no results.
With --changed only the rows are printed in which the programs differ.
"""
import re
import subprocess
import sys
from pathlib import Path

TOP = Path(__file__).resolve().parent.parent
BINDERS = re.compile(r" for ((?:\$\d+ )*\$\d+)")
LITERAL = re.compile(r"(?<=[\w$])(?:!=|=|<)(?=[\w$])")


def sizes(command, script, limit):
    """Bytes, binders and literals of what the command answers, or None where it has no results."""
    try:
        with open(script, "rb") as file:
            done = subprocess.run(command, stdin=file, capture_output=True, timeout=limit, check=False)
    except subprocess.TimeoutExpired:
        return None
    text = done.stdout.decode()
    if done.returncode != 0 or not text.startswith("lois results"):
        return None
    binders = sum(len(found.split()) for found in BINDERS.findall(text))
    return len(text), binders, len(LITERAL.findall(text))


def row(name, cells):
    shown = (" - |" if cell is None else f" {cell[0]} B, {cell[1]}, {cell[2]} |" for cell in cells)
    return f"| {name} |" + "".join(shown)


def main(words):
    limit, changed, scripts, commands = 20, False, None, {}
    words = iter(words)
    for word in words:
        if word == "--limit":
            limit = float(next(words))
        elif word == "--changed":
            changed = True
        elif word == "--":
            scripts = [Path(rest) for rest in words]
        elif "=" in word:
            name, command = word.split("=", 1)
            commands[name] = command.split()
        else:
            sys.exit(__doc__)
    if not commands:
        sys.exit(__doc__)
    if scripts is None:
        scripts = sorted(TOP.glob("examples/*.lois")) + sorted(TOP.glob("bench/programs/*.lois"))
    print("| bytes, binders, literals |" + "".join(f" {name} |" for name in commands))
    print("|---|" + "---|" * len(commands))
    totals = [(0, 0, 0) for _ in commands]
    for script in scripts:
        cells = [sizes(command, script, limit) for command in commands.values()]
        if None not in cells:
            totals = [tuple(map(sum, zip(total, cell))) for total, cell in zip(totals, cells)]
        if not changed or len(set(cells)) > 1:
            print(row(f"{script.parent.name}/{script.stem}", cells))
    print(row("all that each answers", totals))


if __name__ == "__main__":
    main(sys.argv[1:])
