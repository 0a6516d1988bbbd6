"""What a reader has to believe: the definitions that a statement rests on, and how many lines they take.

    trusted.py                    prints for `Headline` and for `IsOutcomeOf`, file by file, the definitions that are reached and their
                                  lines, and then those that are over 300 characters or 30 lines
    trusted.py --names            prints the names of the reached definitions alone, by file
    trusted.py --beside           lists the definitions that stand in a file with reached ones and aren't reached themselves, and ends with 1
                                  where there are any but those that BESIDE names, or where one that it names is none
    trusted.py --documents        lists the entries of docs/DEFINITIONS.md whose definition isn't where they say, and ends with 1 where
                                  there are any
    trusted.py --selftest         plants a definition that the headline rests on, one beside it, and an entry of a wrong file, in a copy, and
                                  ends with 0 where all three are found

Lines are those of the definitions themselves: comments, imports and empty lines aren't counted. Types of the code that a definition
names are listed without lines: their declarations are read by the compiler too.
"""
import os
import re
import shutil
import sys
import tempfile

import finding

ROOTS = [("lois_run", "Headline", "Headline"), ("lois_run", "Causes", "IsOutcomeOf")]
LONGEST, TALLEST = 300, 30
# What stands beside reached definitions though it isn't reached, and why.
BESIDE = {
    ("lois_base", "Values", "IsProper"): "the text above PointValue says by it what a value is",
    ("lois_outside", "Faults", "next_count"): "the count that stands still at greatest_count, above it",
}
COMMENT = re.compile(r"(?:^|(?<=\s))--(?=\s|-|$).*$")
IMPORT = re.compile(r"^(?:pub )?use (?P<path>\S+?)(?:\.\{(?P<items>[^}]*)\}| as (?P<alias>\S+))?$")
HEAD = re.compile(r"^(?P<indent> *)(?:(?:pub|abbrev|unfoldable|mutual|private) )*(?P<kind>record |data )?(?P<name>[^\s(){}\[\],;:]+)(?= [:({]|$)(?=.*:)")
ENTRY = re.compile(r"^(?:- )?(?P<names>(?:`[^`]+`(?:, )?)+|\*\*[^*]+\*\*)(?: \((?P<said>[^)]*)\))?")
WORD = re.compile(r"[^\s(){}\[\],;.]+")


class Definition:
    """One definition of a file of specs/: its name, its lines without comments, and the names of its constructors."""

    def __init__(self, file, name, kind, lines):
        self.file, self.name, self.kind, self.lines = file, name, kind, lines

    @property
    def size(self):
        return len(self.lines), max([sum(len(line.strip()) for line in self.lines)])

    def constructors(self):
        """The constructors of a data type, each on a line of its own."""
        if self.kind != "data":
            return []
        heads = [re.match(r"^\s+(?:pub )?([^\s:]+) :", line) for line in self.lines[1:]]
        return [head.group(1) for head in heads if head]

    def words(self):
        return set(WORD.findall("\n".join(self.lines)))


def read_file(path):
    """The imports of a file, as (path, name) by the name that they have here, with no name where it is a module; and its definitions."""
    with open(path, encoding="utf-8") as file:
        lines = [COMMENT.sub("", line).rstrip() for line in file.read().split("\n")]
    imports, definitions = {}, []
    inner = False
    for line in filter(None, lines):
        use = IMPORT.match(line)
        if use and not line[0].isspace():
            if use.group("alias"):
                imports[use.group("alias")] = (use.group("path"), None)
            for item in filter(None, re.split(r",\s*", use.group("items") or "")):
                name, _, alias = item.partition(" as ")
                imports[alias or name] = (use.group("path"), name)
            continue
        if not line[0].isspace():
            inner = re.match(r"^(?:abbrev |unfoldable )*mutual$|^module ", line) is not None
            if inner:
                continue
        if line.startswith("infix"):
            continue
        head = HEAD.match(line)
        depth = len(line) - len(line.lstrip())
        own = 2 if inner else 0
        if head and depth == own and not (definitions and definitions[-1].name == head.group("name")):
            definitions.append(Definition(path, head.group("name"), (head.group("kind") or "").strip(), [line]))
        elif definitions:
            definitions[-1].lines.append(line)
    return imports, definitions


def read_crates(top):
    """For each file of specs/, by its module's path: its imports, and its definitions by name."""
    found = {}
    for crate in sorted(os.listdir(os.path.join(top, "crates"))):
        folder = os.path.join(top, "crates", crate, "specs")
        for name in sorted(os.listdir(folder) if os.path.isdir(folder) else []):
            if name.endswith(".antt") and name != "Lib.antt":
                imports, definitions = read_file(os.path.join(folder, name))
                by_name = {}
                for definition in definitions:
                    for word in [definition.name, *definition.constructors()]:
                        by_name.setdefault(word, definition)
                found[f"Rattle.{crate}.specs.{name[:-5]}"] = imports, by_name
    return found


def spelled(name):
    """The words that stand where an operator or a name is used: of `◌∷◌` it is `∷`."""
    return [part for part in name.strip("«»").split("◌") if part] if "◌" in name else [name]


def found_at(modules, path, name):
    """The module and the definition of the name that the module at the path has or hands on."""
    while path in modules:
        imports, own = modules[path]
        if name in own:
            return path, own[name]
        path, name = imports.get(name, (None, None))
    return None


def reached(modules, root):
    """The definitions that the root rests on, itself among them, and the types of the code that they name."""
    module, name = root
    todo, done, types = [(module, modules[module][1][name])], {}, set()
    while todo:
        module, definition = todo.pop()
        if definition in done:
            continue
        done[definition] = module
        imports, own = modules[module]
        words = definition.words()
        text = "\n".join(definition.lines)
        for name, other in own.items():
            if other is not definition and any(word in words for word in spelled(name)):
                todo.append((module, other))
        for name, (path, original) in imports.items():
            if not any(word in words for word in spelled(name)):
                continue
            if ".specs.declared." in path:
                types.add(path)
                continue
            originals = [original] if original else re.findall(rf"(?<![\w.]){re.escape(name)}\.([^\s(){{}}\[\],;.]+)", text)
            todo += filter(None, (found_at(modules, path, it) for it in originals))
    return done, types


def by_file(done):
    files = {}
    for definition, module in done.items():
        files.setdefault(module, []).append(definition)
    return sorted(files.items())


def beside(top):
    """The definitions that stand in a file with reached ones and aren't reached from any root, as (crate, file, definition)."""
    modules = read_crates(top)
    done = {}
    for crate, file, name in ROOTS:
        done.update(reached(modules, (f"Rattle.{crate}.specs.{file}", name))[0])
    for module, _ in by_file(done):
        _, crate, _, file = module.split(".")
        for definition in dict.fromkeys(modules[module][1].values()):
            if definition not in done:
                yield crate, file, definition


def places_of(said, crates):
    """The crates with the files that an entry's parenthesis names, as "`lois_base`: Normal; Scope"; a file alone is of the crates before."""
    files = {}
    for part in re.split(r"[;,]\s*", said):
        named = re.match(r"`(\w+)`(?:: )?(.*)", part)
        if named:
            crates, part = [named.group(1)], named.group(2)
        for crate in crates:
            files.setdefault(crate, set()).update(filter(None, [part]))
    return files


def misplaced(top):
    """The entries of docs/DEFINITIONS.md that name a definition which isn't in the files that they, or else the entry before, give."""
    modules = read_crates(top)
    with open(os.path.join(top, "docs/DEFINITIONS.md"), encoding="utf-8") as file:
        text = re.sub(r"\n  +", " ", file.read())
    crates, places = [], {}
    for line in text.split("\n"):
        if line.startswith("## "):
            crates, places = re.findall(r"`(\w+)`", line) or crates, places_of(line[line.find("(") + 1 : line.rfind(")")], [])
            continue
        entry = ENTRY.match(line)
        if not entry:
            continue
        if entry.group("said") and re.match(r"(`lois_\w+`|[A-Z]\w*)[:;,]?", entry.group("said")):
            places = places_of(entry.group("said"), crates)
            crates = list(places)
        for name in re.findall(r"`([A-Z]\w+)[^`]*`", entry.group("names")):
            homes = [f"Rattle.{crate}.specs.{file}" for crate, files in places.items() for file in files]
            homes = homes or [it for it in modules if it.split(".")[1] in (places or crates)]
            if not any(name in modules[it][1] for it in homes if it in modules):
                yield f"docs/DEFINITIONS.md: {name} isn't defined in {' '.join(homes) or 'any crate that is named'}"


def report(top, names_alone=False):
    modules = read_crates(top)
    for crate, file, name in ROOTS:
        done, types = reached(modules, (f"Rattle.{crate}.specs.{file}", name))
        lines = sum(len(definition.lines) for definition in done)
        print(f"{name}: {len(done)} definitions, {lines} lines, in {len(by_file(done))} files; {len(types)} types of the code")
        for module, definitions in by_file(done):
            _, crate, _, file = module.split(".")
            if names_alone:
                print(f"  {crate} {file}: {' '.join(sorted(it.name for it in definitions))}")
            else:
                print(f"  {sum(len(it.lines) for it in definitions):4} {crate} {file} ({len(definitions)})")
    long = [it for it, _ in done.items() if it.size[0] > TALLEST or it.size[1] > LONGEST]
    print(f"over {LONGEST} characters or {TALLEST} lines: {len(long)}")
    for definition in sorted(long, key=lambda it: it.file):
        print(f"  {os.path.relpath(definition.file, top)}: {definition.name}, {definition.size[0]} lines, {definition.size[1]} characters")


def selftest(top):
    """Whether what is planted in a copy is found: a definition that the headline cites, one beside it, and an entry of a wrong file."""
    with tempfile.TemporaryDirectory() as work:
        for crate in os.listdir(os.path.join(top, "crates")):
            folder = os.path.join("crates", crate, "specs")
            if os.path.isdir(os.path.join(top, folder)):
                shutil.copytree(os.path.join(top, folder), os.path.join(work, folder))
        shutil.copytree(os.path.join(top, "docs"), os.path.join(work, "docs"))
        path = os.path.join(work, "crates/lois_run/specs/Headline.antt")
        with open(path, encoding="utf-8") as file:
            text = file.read()
        with open(path, "w", encoding="utf-8") as file:
            file.write(text.replace("pub runs : ", "pub planted : IsPlanted s\n  pub runs : ") + "\nabbrev pub IsPlanted : ScriptD → Type 0\nIsPlanted s = ⊥\n"
                + "\nabbrev pub IsPlantedBeside : ScriptD → Type 0\nIsPlantedBeside s = ⊥\n")
        with open(os.path.join(work, "docs/DEFINITIONS.md"), "a", encoding="utf-8") as file:
            file.write("\n- `IsPlanted` (`lois_base`: Values): nothing; P\n")
        done, _ = reached(read_crates(work), ("Rattle.lois_run.specs.Headline", "Headline"))
        found = {
            "definition": any(it.name == "IsPlanted" for it in done),
            "one beside it": any(it.name == "IsPlantedBeside" for _, _, it in beside(work)),
            "entry": any("IsPlanted" in line for line in misplaced(work)),
        }
    print("; ".join(f"planted {name}: {'' if it else 'not '}found" for name, it in found.items()))
    return 0 if all(found.values()) else 1


def main():
    if sys.argv[1:] == ["--selftest"]:
        return selftest(finding.TOP)
    if sys.argv[1:] == ["--documents"]:
        found = list(misplaced(finding.TOP))
        print("\n".join(found + [f"{len(found)} misplaced"]))
        return 1 if found else 0
    if sys.argv[1:] == ["--beside"]:
        found = {(crate, file, it.name): len(it.lines) for crate, file, it in beside(finding.TOP)}
        for (crate, file, name), lines in sorted(found.items()):
            print(f"crates/{crate}/specs/{file}.antt: {name}, {lines} lines; {BESIDE.get((crate, file, name), 'it belongs in another file')}")
        wrong = sorted(set(found) ^ set(BESIDE))
        stale = [it for it in wrong if it not in found]
        print("\n".join([f"BESIDE names {' '.join(it)}, which isn't there" for it in stale] + [f"{len(wrong)} wrong"]))
        return 1 if wrong else 0
    report(finding.TOP, sys.argv[1:] == ["--names"])
    return 0


if __name__ == "__main__":
    sys.exit(main())
