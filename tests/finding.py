"""What a script that lists findings in a checkout does: it lists them, or finds a case that it planted itself."""
import os
import shutil
import sys
import tempfile

TOP = os.path.dirname(os.path.dirname(os.path.abspath(__file__)))
CRATE = "crates/lois_order"


def selftest(find, plant):
    """Copies one crate, plants a case in the copy, and returns 0 where a finding names it. `plant` returns its name."""
    with tempfile.TemporaryDirectory() as work:
        shutil.copytree(os.path.join(TOP, CRATE), os.path.join(work, CRATE), ignore=shutil.ignore_patterns("out"))
        name = plant(work)
        found = any(name in line for line in find(work))
    print(f"the case {name} is " + ("found" if found else "not found"))
    return 0 if found else 1


def main(find, noun, plant):
    """Returns 1 where the checkout, or the folder in the arguments, has findings."""
    if sys.argv[1:] == ["--selftest"]:
        return selftest(find, plant)
    found = list(find(sys.argv[1] if sys.argv[1:] else TOP))
    print("\n".join(found + [f"{len(found)} {noun}"]))
    return 1 if found else 0
