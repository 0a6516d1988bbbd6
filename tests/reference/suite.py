"""Whole runs: a program is run on made cases, and what it writes is judged."""
import multiprocessing
import os
import subprocess
import sys
from collections import Counter

from . import census, equal, generate, judge, languages, picture, registers, same
from .values import Budget, Undecided

SECONDS = 10  # for the program and for the judge, each
QUESTIONS = ("word", "within", "same", "picture")  # which the program lois_ask answers


def judge_answer(words, source, output, status, seconds=SECONDS, normal=True):
    """Judges an answer to a command's words (`judge` stands for `run`), or raises Wrong or Undecided."""
    Budget.start(seconds)
    judges = {"run": lambda: judge.judge_run(source, output, status, normal),
              "check": lambda: judge.judge_check(source, output, status),
              "reread": lambda: judge.judge_reread(source, output, status),
              "equal": lambda: equal.judge_equal(*words[1:], source, output, status),
              "census": lambda: census.judge_census(*words[1:], source, output, status),
              "word": lambda: languages.judge_question(words[1], None, source, output, status),
              "within": lambda: languages.judge_question(*words[1:], source, output, status),
              "same": lambda: same.judge_same(source, output, status),
              "picture": lambda: picture.judge_picture(*words[1:], source, output, status),
              "registers": lambda: registers.judge_registers(source, output, status)}
    judges["run" if words[0] == "judge" else words[0]]()


def run_case(what):
    """Runs the program on one case: what the case is, whether it passed, failed or is undecided, and what to print of
    it."""
    programs, kind, seed, number = what
    program = programs[kind in QUESTIONS]
    sys.setrecursionlimit(100_000)
    words, source = generate.case(kind, seed, number)
    try:
        ran = subprocess.run([program, *words], input=source, capture_output=True, timeout=SECONDS)
    except subprocess.TimeoutExpired:
        return kind, "undecided", f"the program took over {SECONDS} s"
    try:
        judge_answer(words, source, ran.stdout, ran.returncode)
    except (Undecided, RecursionError) as u:
        return kind, "undecided", str(u)
    except judge.Wrong as w:
        return kind, "failed", (f"---- {kind} {number} of seed {seed}: {' '.join(words)}\n{source.decode('latin-1')}\n"
                                f"---- status {ran.returncode}, output\n{ran.stdout.decode('latin-1')}\n"
                                f"---- but\n{w}\n")
    return kind, "passed", ran.returncode


def run_suite(args):
    """Runs a program on made scripts, changed texts and cases of the further commands, and judges what it writes."""
    for program in filter(None, (args.program, args.ask)):
        if not os.access(program, os.X_OK):
            print(f"there is no program {program}")
            return 2
    counts = [("scripts", args.scripts), ("texts", args.texts)]
    counts += [(kind, args.further) for kind in ("equal", "registers", "census", *(QUESTIONS if args.ask else ()))]
    cases = [((args.program, args.ask), kind, args.seed, number) for kind, count in counts for number in range(count)]
    found, statuses = Counter(), Counter()
    with multiprocessing.Pool(args.jobs, maxtasksperchild=200) as pool:
        for kind, result, text in pool.imap_unordered(run_case, cases, chunksize=4):
            found[result] += 1
            if result == "failed":
                print(text, flush=True)
            elif result == "undecided":
                statuses[kind, text] += 1
            else:
                statuses[kind, f"status {text}"] += 1
    for (kind, text), count in sorted(statuses.items()):
        print(f"{kind}: {count} with {text}")
    if found["undecided"] * 20 > len(cases):
        print("too many cases are undecided")
        found["failed"] += 1
    print(f"{found['undecided']} undecided")
    print(f"{found['passed']} passed, {found['failed']} failed")
    return 1 if found["failed"] else 0
