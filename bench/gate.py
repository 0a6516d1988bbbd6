#!/usr/bin/env python3
"""Runs the gate and tells where its processor time goes: a table by crate of code, tests and edits, in processor minutes.

    bench/gate.py [--times FILE] [NAME..]     runs `rt ci NAME..`, and adds what it took to FILE
    bench/gate.py --table FILE..              prints the table of what the files have; of a crate's stage that stands in several,
                                              the last one counts

A run without names is the whole gate. What the machine has kept of earlier runs takes no time again, so a table of a gate from
nothing is that of all runs that added to one file. Each half second the processes below `rt` are asked for their times.
"""
import os
import signal
import subprocess
import sys
import time

STAGES = ["code", "tests", "edits"]
TICKS = os.sysconf("SC_CLK_TCK")


def processes():
    """Each process: its parent, its own ticks, those of children that have ended."""
    found = {}
    for pid in filter(str.isdigit, os.listdir("/proc")):
        try:
            with open(f"/proc/{pid}/stat") as file:
                fields = file.read().rsplit(")", 1)[1].split()
            found[int(pid)] = (int(fields[1]), int(fields[11]) + int(fields[12]), int(fields[13]) + int(fields[14]))
        except (OSError, IndexError):
            continue
    return found


def job_of(pid):
    """The crate and the stage of a checking process, or None."""
    try:
        with open(f"/proc/{pid}/cmdline") as file:
            words = file.read().split("\0")
        folder = os.readlink(f"/proc/{pid}/cwd")
    except OSError:
        return None
    if "--crate-name" not in words:
        return None
    crate = words[words.index("--crate-name") + 1]
    if "rt-edit" in folder:
        return crate, "edits"
    return crate, "tests" if "--test" in words else "code"


def below(root, found):
    """The processes below the root, each with the nearest checking process above it."""
    children = {}
    for pid, (parent, _, _) in found.items():
        children.setdefault(parent, []).append(pid)
    todo = [(root, None)]
    while todo:
        pid, top = todo.pop()
        for child in children.get(pid, []):
            job = top or ((child, job_of(child)) if job_of(child) else None)
            if job:
                yield child, job
            todo.append((child, job))


def sample(root, spent):
    found = processes()
    now = {}
    for pid, (top, job) in below(root, found):
        _, own, ended = found[pid]
        key = (top, job)
        now[key] = now.get(key, 0) + own + ended
    for key, ticks in now.items():
        spent[key] = max(spent.get(key, 0), ticks)


def measured(names, spent):
    run = subprocess.Popen(["rt", "ci", *names])
    while run.poll() is None:
        sample(run.pid, spent)
        time.sleep(0.5)
    return run.returncode


def ended(signal_number, frame):
    sys.exit(128 + signal_number)


def read_times(path):
    times = {}
    if os.path.exists(path):
        with open(path) as file:
            for line in file:
                crate, stage, seconds = line.split()
                times[crate, stage] = times.get((crate, stage), 0) + float(seconds)
    return times


def print_table(times):
    print("| Crate | " + " | ".join(STAGES) + " | all |")
    print("|---|" + "---|" * (len(STAGES) + 1))
    crates = sorted({crate for crate, _ in times if crate.startswith("lois")})
    rows = [(crate, [times.get((crate, stage), 0) / 60 for stage in STAGES]) for crate in crates]
    rows.append(("all", [sum(minutes[i] for _, minutes in rows) for i in range(len(STAGES))]))
    for crate, minutes in rows:
        print(f"| {crate} | " + " | ".join(f"{m:.1f}" for m in [*minutes, sum(minutes)]) + " |")


def main(words):
    if words[:1] == ["--table"]:
        times = {}
        for path in words[1:]:
            times.update(read_times(path))
        print_table(times)
        return 0
    path = "/tmp/gate-times"
    if words[:1] == ["--times"]:
        path, words = words[1], words[2:]
    begun = time.time()
    spent = {}
    signal.signal(signal.SIGTERM, ended)
    try:
        status = measured(words, spent)
    finally:
        # also of a run that was cut off
        with open(path, "a") as file:
            for (_, (crate, stage)), ticks in spent.items():
                file.write(f"{crate} {stage} {ticks / TICKS:.2f}\n")
    print(f"{(time.time() - begun) / 60:.1f} minutes; rt ci ended with {status}")
    return status


sys.exit(main(sys.argv[1:]))
