"""What the documents name exists: links, files, functions and definitions; lines and documents are short.

    documents.py                  checks README.md, docs/*.md, examples/README.md, the crates' READMEs and the manual pages, and ends with 1 where something is wrong
    documents.py --selftest       plants a dead link, a file and a name that don't exist, and words that the manual page lacks, and ends with 0 where each is found
"""
import os
import re
import sys

LONGEST_LINE = 120
PAGES = {"docs/lois.1": "Commands and statuses", "docs/lois_ask.1": "Questions about answers"}
MOST_BYTES = 160 * 1024
BLOCK = re.compile(r"^(?:```|    )")
LINK = re.compile(r"\]\(([^)\s]+)\)")
SPAN = re.compile(r"`([^`]+)`")
PATH = re.compile(r"^[\w./+-]+\.(?:sh|py|md|rt|antt|lois|out|edit|txt|svg|1)$|^(?:\.ci|tests|docs|bench|crates|examples|scripts|playground|editors)/[\w./+-]*$|^src/[\w./]+$|^specs/[\w./]+$|^proofs/[\w./+]+$")
NAME = re.compile(r"^(?:\w+::)*([A-Za-z][A-Za-z0-9]*(?:_[A-Za-z0-9]+)+|[A-Z][a-z]+(?:[A-Z][a-z]+)+)(?:\(\))?$")


def documents(top):
    found = ["README.md", "examples/README.md"]
    found += sorted("docs/" + name for name in os.listdir(os.path.join(top, "docs")) if name.endswith(".md"))
    found += sorted(f"crates/{name}/README.md" for name in os.listdir(os.path.join(top, "crates")))
    return [path for path in found if os.path.exists(os.path.join(top, path))]


def words_of_sources(top):
    """Every word of the sources, the scripts and the tests."""
    words = set()
    for part in ("crates", "tests", "scripts", "bench", ".ci", "examples"):
        for folder, folders, files in os.walk(os.path.join(top, part)):
            folders[:] = [name for name in folders if name not in ("out", "__pycache__", "rows")]
            words.update(folders)
            for name in files:
                words.add(name.rsplit(".", 1)[0])
                if name.endswith((".rt", ".antt", ".sh", ".py", ".lois", ".txt")) or "." not in name:
                    with open(os.path.join(folder, name), encoding="utf-8", errors="replace") as file:
                        words.update(re.findall(r"\w+", file.read()))
    for name in ("crates.txt", "lois", "unproved", "install"):
        with open(os.path.join(top, name), encoding="utf-8") as file:
            words.update(re.findall(r"\w+", file.read()))
    return words


def anchors(text):
    """The anchors of the headings of a document, as GitHub makes them."""
    for heading in re.findall(r"(?m)^#+ (.+)$", text):
        yield re.sub(r"[^\w\- ]", "", heading.lower()).replace(" ", "-")


def exists(top, folder, path):
    places = (folder, "") if not path.startswith(("src/", "specs/", "proofs/")) else (folder,)
    if any(os.path.exists(os.path.join(top, place, path + ending)) for place in places for ending in ("", ".antt")):
        return True
    # a file of a crate that the sentence names
    crates = os.path.join(top, "crates")
    return os.path.exists(os.path.join(crates, path)) or any(
        os.path.exists(os.path.join(crates, crate, path + ending)) for crate in os.listdir(crates) for ending in ("", ".antt")
    )


def complaints_of(top, path, text, words):
    folder = os.path.dirname(path)
    in_block = False
    for number, line in enumerate(text.split("\n"), 1):
        where = f"{path}:{number}"
        if line.startswith("```"):
            in_block = not in_block
        if in_block or BLOCK.match(line):
            continue
        if len(line) > LONGEST_LINE:
            yield f"{where}: {len(line)} characters"
        for target in LINK.findall(line):
            file, _, anchor = target.partition("#")
            if re.match(r"https?:", target):
                continue
            linked = os.path.normpath(os.path.join(folder, file)) if file else path
            if not os.path.exists(os.path.join(top, linked)):
                yield f"{where}: no {target}"
            elif anchor and linked.endswith(".md"):
                with open(os.path.join(top, linked), encoding="utf-8") as opened:
                    if anchor not in anchors(opened.read()):
                        yield f"{where}: no {target}"
        for span in SPAN.findall(line):
            word = span.split()[0] if span.split() else ""
            bare = word.removeprefix("./").rstrip(",.;:")
            if PATH.match(bare) and "*" not in bare and bare == bare.strip("<>"):
                if not exists(top, folder, bare) and not re.search(r"\bout/", bare) and not re.search(r"[A-Z]{3}", bare):
                    yield f"{where}: no file {bare}"
            elif NAME.match(word) and NAME.match(word).group(1) not in words:
                yield f"{where}: nothing is called {word}"


def commands_and_statuses(readme, heading):
    """What README.md lists of them below the heading, and the names of deciders."""
    section = readme.split(f"## {heading}\n")[1].split("\n## ")[0]
    above = [str(n) for low, high in re.findall(r"(\d+) to (\d+) are as above", section) for n in range(int(low), int(high) + 1)]
    return [*re.findall(r"(?m)^- `(\w+)", section), *re.findall(r"(?:^- |\. |  )(\d+): ", section, re.M), *above,
            *re.findall(r"`(?:--decider )?(plain|graph|memo)`", section)]


def complaints_of_page(name, wanted, page):
    """The manual page has each command, status and decider of its part of README.md, and no other command or status."""
    items = re.findall(r"(?m)^\.It (?:Cm )?(\w+)", page)
    for word in dict.fromkeys(wanted):
        if word not in items and not re.search(rf"(?m)^\.Cm {word}\b", page):
            yield f"{name}: no {word}"
    for word in items:
        if word not in wanted and word != "Fl":
            yield f"{name}: README.md has no {word}"


def complaints(top):
    words = words_of_sources(top)
    size = 0
    for path in documents(top):
        with open(os.path.join(top, path), encoding="utf-8") as file:
            text = file.read()
        size += len(text.encode()) if path != "examples/README.md" else 0
        yield from complaints_of(top, path, text, words)
        if path == "README.md":
            for page, heading in PAGES.items():
                with open(os.path.join(top, page), encoding="ascii") as file:
                    yield from complaints_of_page(page, commands_and_statuses(text, heading), file.read())
    if size > MOST_BYTES:
        yield f"the documents have {size} bytes, more than {MOST_BYTES}"


def selftest(top):
    text = "See [it](docs/NOWHERE.md), `tests/no_such_file.sh` and `no_such_function`.\n" + "x" * 121 + "\n"
    found = list(complaints_of(top, "README.md", text, words_of_sources(top) - {"no_such_function"}))
    readme = "## Commands and statuses\n\n- `run` runs.\n- `go` goes.\n\nBy `graph`.\n\n- 0: so. 1: not so.\n"
    wanted = commands_and_statuses(readme, "Commands and statuses")
    found += complaints_of_page("docs/lois.1", wanted, ".It Cm run\n.It 0\n.It 2\n")
    print(f"documents: {len(found)} of 8 planted faults are found")
    return 0 if len(found) == 8 else 1


def main():
    top = os.path.dirname(os.path.dirname(os.path.abspath(__file__)))
    if sys.argv[1:] == ["--selftest"]:
        return selftest(top)
    found = list(complaints(top))
    print("\n".join(found + [f"{len(found)} complaints"]))
    return 1 if found else 0


if __name__ == "__main__":
    sys.exit(main())
