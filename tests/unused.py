"""Definitions in proofs/ that nothing cites, and files of proofs/ and specs/ that no Lib names.

    unused.py [CHECKOUT]          lists them, a line each, and ends with 1 where there are any
    unused.py --selftest          plants an unused lemma in a copy of a crate, and ends with 0 where it is found

A definition counts as cited where its name stands outside its own text: in its file, or in a file that imports it. What
answers a goal of the prover is used by the prover itself, and isn't looked at.
"""
import os
import re
import sys

import finding

START = re.compile(r"^( *)((?:pub |abbrev |unfoldable )*)(?:record |data )?([^\s(){}\[\],;:.]+) :(?: |$)")
CONTINUES = re.compile(r"^\s*(?:[|\])}(◌]|where|unfolding)")
IMPORT = re.compile(r"(?m)^(?:pub )?use (?P<path>[^\s{]+?)(?:\.\{(?P<items>[^}]*)\})?[ \t]*$")
COMMENT = re.compile(r"(?m)(?:^|(?<=\s))--(?=\s|-|$).*$")
ANSWERS = ("Answers.antt", "Invariants.antt", "Proof.antt")
# why a lemma that no text cites stays: `FILE NAME: reason`
KEPT = {}


def sources(top):
    """Each file of the crates with its text, by its path below the checkout."""
    found = {}
    for folder, folders, files in os.walk(os.path.join(top, "crates")):
        folders[:] = [name for name in folders if name != "out"]
        for name in files:
            if name.endswith((".antt", ".rt")):
                path = os.path.join(folder, name)
                with open(path, encoding="utf-8") as file:
                    found[os.path.relpath(path, top)] = COMMENT.sub("", file.read())
    return found


def definitions(text):
    """The definitions at the top of a file and in its sections: name, first line and the line behind the last."""
    lines = text.split("\n")
    in_section = False
    for first, line in enumerate(lines):
        if line and not line[0].isspace():
            in_section = line.startswith("module ") and line.rstrip().endswith("where")
        start = START.match(line)
        if not start or len(start.group(1)) not in ((0, 2) if in_section else (0,)):
            continue
        indent, name = len(start.group(1)), start.group(3)
        end = first + 1
        while end < len(lines):
            depth = len(lines[end]) - len(lines[end].lstrip())
            own = re.match(r"^\s*" + re.escape(name) + r"(?:\s|$)", lines[end])
            if lines[end].strip() and (depth < indent or depth == indent and not own and not CONTINUES.match(lines[end])):
                break
            end += 1
        yield name, first, end


def count(name, text):
    return len(re.findall(r"(?<![\w'◌-])" + re.escape(name) + r"(?![\w'◌-])", text))


def is_goal(path, name):
    return path.endswith(ANSWERS) and ("-" in name or name in ("returns", "requires"))


def importers(texts):
    """For each file of specs/ or proofs/, the names that other files import from it."""
    cited = {}
    for path, text in texts.items():
        for crate, module, name in re.findall(r"\b(\w+)::proofs::((?:\w+::)*\w+)::([\w'-]+)", text):
            home = path.split("/")[1] if crate == "crate" else crate
            cited.setdefault(f"Rattle.{home}.proofs." + module.replace("::", "."), set()).add(name)
        for use in re.finditer(r"\buse (?P<path>Rattle\.[^\s{;]+?)(?:\.\{(?P<items>[^}]*)\})?(?: as (?P<alias>\w+))?(?=[\s;]|$)", text):
            names = cited.setdefault(use.group("path"), set())
            names.update(item.split(" as ")[0].strip() for item in (use.group("items") or "").split(","))
            alias = use.group("alias") or use.group("path").rsplit(".", 1)[1]
            if not use.group("items"):
                names.update(re.findall(r"\b" + re.escape(alias) + r"\.([\w'-]+)", text))
    return cited


def unused(top):
    texts = sources(top)
    cited = importers(texts)
    for path, text in sorted(texts.items()):
        if "/proofs/" not in path or not path.endswith(".antt"):
            continue
        module = "Rattle." + path[len("crates/"):-len(".antt")].replace("/", ".")
        body = IMPORT.sub("", text)
        lines = text.split("\n")
        for name, first, end in definitions(text):
            own = count(name, "\n".join(lines[first:end]))
            if name in cited.get(module, ()) or count(name, body) > own or is_goal(path, name):
                continue
            if f"{path} {name}" not in KEPT and name not in ("record", "field"):
                yield f"{path}:{first + 1}: {name} ({end - first} lines)"


def plant(work):
    with open(os.path.join(work, finding.CRATE, "proofs/Each.antt"), "a", encoding="utf-8") as file:
        file.write("\npub planted_lemma : 0 ≡ 0\nplanted_lemma = refl\n")
    return "planted_lemma"


if __name__ == "__main__":
    sys.exit(finding.main(unused, "unused", plant))
