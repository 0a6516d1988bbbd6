"""Whether the editors' grammars see the tokens that the lexer sees: the class of each byte of a script.

    editors.py        compares editors/vim/ and editors/vscode/ with tests/reference/lexer.py on examples/*.lois and on
                      texts of its own, and grammars with planted faults; where vim is there it is asked, too. The last
                      line is `N passed, M failed`.
"""
import glob
import json
import os
import re
import shutil
import subprocess
import sys
import tempfile

from reference import lexer

TOP = os.path.dirname(os.path.dirname(os.path.abspath(__file__)))
VIM = os.path.join(TOP, "editors/vim/syntax/lois.vim")
TEXTMATE = os.path.join(TOP, "editors/vscode/syntaxes/lois.tmLanguage.json")
BLANK, COMMENT, UNKNOWN = "blank", "comment", "unknown"


# ---- the lexer
def classes_of_lexer(text):
    """The class of each character: blank, comment or the kind of its token."""
    found = [BLANK] * len(text)
    for token in lexer.tokens(text.encode()):
        found[token.start:token.start + len(token.text)] = [token.kind] * len(token.text)
    at = 0
    while at < len(text):
        if text[at] == "#" and found[at] == BLANK:
            end = lexer.COMMENT.match(text, at).end()
            found[at:end] = [COMMENT] * (end - at)
            at = end
        at += 1
    return found


# ---- TextMate: at each place the leftmost match, of several the one of the first pattern
SCOPES = (("comment", COMMENT), ("constant.numeric", "number"), ("constant.other.symbol", "tag"), ("variable", "name"),
          ("keyword.operator.symbol", "symbol"), ("punctuation", "symbol"), ("keyword", "word"), ("storage", "word"),
          ("support.function", "word"), ("constant.language", "word"), ("invalid.illegal.reserved", "word"))


def class_of_scope(scope):
    """The class that a scope stands for."""
    return next((kind for prefix, kind in SCOPES if (scope + ".").startswith(prefix + ".")), UNKNOWN)


def classes_of_textmate(source, text):
    """The class of each character by a TextMate grammar that has nothing but `match`."""
    patterns = [(re.compile(p["match"]), class_of_scope(p["name"])) for p in json.loads(source)["patterns"]]
    found = []
    for line in text.split("\n"):
        kinds, at = [BLANK if c.isspace() else UNKNOWN for c in line], 0
        while True:
            matches = [(m.start(), i, m.end()) for i, (p, _) in enumerate(patterns) if (m := p.search(line, at))]
            if not matches:
                break
            start, i, end = min(matches)
            kinds[start:end] = [patterns[i][1]] * (end - start)
            at = max(end, at + 1)
        found += kinds + [BLANK]
    return found[:-1]


# ---- Vim: at each place a keyword before a match, of several matches the last one
GROUPS = {"loisName": "name", "loisTag": "tag", "loisNumber": "number", "loisOperator": "symbol",
          "loisDelimiter": "symbol", "loisColon": "symbol", "loisComment": COMMENT, "": UNKNOWN}
ATOMS = {r"\a": "[A-Za-z]", r"\w": "[0-9A-Za-z_]", r"\d": "[0-9]", r"\+": "+", r"\|": "|"}


def class_of_group(group):
    """The class that a group of the syntax file stands for; its other groups are of words."""
    return GROUPS.get(group, "word")


def from_vim(pattern):
    """A pattern of Vim in the form of Python, where it has nothing but what these have."""
    pattern = re.sub(r"([^\\])\\@!", r"(?!\1)", pattern).replace("[]", r"[\]").replace("][(", r"]\[(")
    return re.compile(re.sub(r"\\[a-zA-Z+|]", lambda m: ATOMS[m.group()], pattern))


def classes_of_vim(source, text):
    """The class of each character by a syntax file that has nothing but `keyword` and `match`."""
    keywords, matches = {}, []
    for line in source.split("\n"):
        words = line.split()
        if words[:2] == ["syntax", "keyword"]:
            keywords.update(dict.fromkeys(words[3:], class_of_group(words[2])))
        elif words[:2] == ["syntax", "match"]:
            matches.append((from_vim(line.split("/", 1)[1].rstrip()[:-1]), class_of_group(words[2])))
    found = []
    for line in text.split("\n"):
        kinds, at = [BLANK if c.isspace() else UNKNOWN for c in line], 0
        while at < len(line):
            word = re.compile(r"\w+").match(line, at)
            begins = word and not re.match(r"\w", line[at - 1:at])
            end, kind = at + 1, None
            if begins and word.group() in keywords:
                end, kind = word.end(), keywords[word.group()]
            else:
                for pattern, group in matches:
                    if m := pattern.match(line, at):
                        end, kind = m.end(), group
            if kind:
                kinds[at:end] = [kind] * (end - at)
            at = end
        found += kinds + [BLANK]
    return found[:-1]


def asked_of_vim(paths):
    """The classes of the characters of some files, as the editor itself tells them."""
    with tempfile.TemporaryDirectory() as folder:
        script, answer = os.path.join(folder, "ask.vim"), os.path.join(folder, "answer")
        with open(script, "w", encoding="ascii") as file:
            file.write("set nomore\nsyntax on\nlet found = []\n")
            for path in paths:
                file.write(f"edit {path}\nsource {VIM}\n"
                           "for l in range(1, line('$'))\n  call add(found, join(map(range(1, col([l, '$']) - 1), "
                           "'synIDattr(synID(l, v:val, 0), \"name\")'), ','))\nendfor\n"
                           "call add(found, '-')\nunlet! b:current_syntax\nsyntax clear\n")
            file.write(f"call writefile(found, '{answer}')\nqall!\n")
        subprocess.run(["vim", "-u", "NONE", "-i", "NONE", "-n", "-es", "-S", script], check=True, timeout=120,
                       stdin=subprocess.DEVNULL, stdout=subprocess.DEVNULL)
        with open(answer, encoding="ascii") as file:
            texts = file.read().split("\n-\n")
    for path, text in zip(paths, texts):
        with open(path, encoding="ascii") as file:
            lines = file.read().split("\n")
        found = []
        for line, groups in zip(lines, text.split("\n") + [""]):
            kinds = [class_of_group(g) for g in groups.split(",")] if line else []
            found += [BLANK if k == UNKNOWN and c.isspace() else k for k, c in zip(kinds, line)] + [BLANK]
        yield found[:-1]


# ---- the comparison
def first_difference(text, found):
    """What a grammar sees otherwise than the lexer, or None."""
    wanted = classes_of_lexer(text)
    if len(found) != len(wanted):
        return f"{len(found)} characters, not {len(wanted)}"
    for at, (want, got) in enumerate(zip(wanted, found)):
        if want != got:
            line, column = lexer.place_of(text.encode(), at)
            return f"{line}:{column}: {got}, not {want}: {text[at:at + 20]!r}"
    return None


def own_texts():
    """Each word, as a word, a tag and a part of names; all symbols with and without blanks; comments."""
    for word in sorted(lexer.WORDS):
        yield f"{word} '{word} {word}s x{word} {word}_1 x_{word} {word}1;{word},{word}"
    yield "a:=b;a!=b a=b{a<b}(a,b)[a]:b;'p='q x_1 1 10 999999999 : = := != exists x in s:x=y"
    yield "# for 'x in 12 \"\\ # let\nlet x = atoms;# end\n\t#\n#:=\nx#x"


FAULTS = (  # what a planted fault changes
    ("vim", " subset\n", "\n"), ("vim", "/'\\a\\w*/", "/'\\a\\+/"), ("vim", "/#.*/", "/#\\w*/"),
    ("vim", "loisNumber /\\d\\+/", "loisNumber /\\w\\+/"),
    ("textmate", "|subset", ""), ("textmate", "'[A-Za-z][A-Za-z0-9_]*", "'[A-Za-z]+"), ("textmate", "#.*$", "#\\\\w*"),
    ("textmate", "\\\\b(?:case|end)\\\\b", "(?:case|end)"))


def main():
    """Compares all, and says what is wrong."""
    paths = sorted(glob.glob(os.path.join(TOP, "examples/*.lois")))
    sources, texts = {}, []
    for name, path in (("vim", VIM), ("textmate", TEXTMATE)):
        with open(path, encoding="ascii") as file:
            sources[name] = file.read()
    for path in paths:
        with open(path, encoding="ascii") as file:
            texts.append((os.path.relpath(path, TOP), file.read()))
    texts += [(f"text {i}", text) for i, text in enumerate(own_texts(), 1)]
    readers = {"vim": classes_of_vim, "textmate": classes_of_textmate}
    passed = failed = 0

    def count(fault):
        nonlocal passed, failed
        if fault:
            print("FAILED " + fault)
            failed += 1
        else:
            passed += 1

    for name, read in readers.items():
        for where, text in texts:
            difference = first_difference(text, read(sources[name], text))
            count(difference and f"{name}, {where}:{difference}")
    for name, old, new in FAULTS:
        if sources[name].count(old) != 1:
            count(f"{name}: {old!r} doesn't stand there once, so no fault can be planted")
            continue
        source = sources[name].replace(old, new)
        seen = any(first_difference(text, readers[name](source, text)) for _, text in texts)
        count(None if seen else f"{name}: {new!r} for {old!r} isn't found")
    if shutil.which("vim"):
        with tempfile.TemporaryDirectory() as folder:
            files = []
            for number, (_, text) in enumerate(texts):
                files.append(os.path.join(folder, f"{number}.txt"))
                with open(files[-1], "w", encoding="ascii") as file:
                    file.write(text)
            for (where, text), found in zip(texts, asked_of_vim(files), strict=True):
                difference = first_difference(text, found)
                count(difference and f"vim itself, {where}:{difference}")
    else:
        print("editors: the editor itself: skipped, since vim isn't there")
    print(f"{passed} passed, {failed} failed")
    return 1 if failed else 0


if __name__ == "__main__":
    sys.exit(main())
