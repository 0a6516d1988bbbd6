"""Makes the texts of tests/hostile.sh and what the language says of them: hostile_shapes.py FOLDER.

Each shape is NAME.in with NAME.run, NAME.check and NAME.reread, the answers of the three commands. Texts that are cut stand in
the folders `a script cut` and `results cut`, by the number of bytes that are left. The answers come from docs/LANGUAGE.md and the
README: none is what a program has written.
"""

import os
import re
import sys

LIMIT = 1 << 20
ROW = b"atoms equality; let a = atoms; print a;"
ROW_ANSWER = b"lois results 1\natoms equality\nparameters\ncase when true\na = {$0 for $0}\nend\n"
EQUALITY = b"atoms equality;\n"
NOT_RESULTS = b"refused at 1:1: not results\n"
NOT_A_SCRIPT = b"refused at 1:1: not a script\n"
TOO_LONG = b"refused: input over 1048576 bytes\n"

# words in whose place a name can't stand
INSIDE_WORDS = "equality order in to where and or turns subset".split()
WORDS = INSIDE_WORDS + (
    "atoms parameter let add for if else while assert print true false not exists forall empty union inter minus flatten "
    "part reach product complement minimise case end"
).split()
TOKEN = re.compile(rb"'?[A-Za-z][A-Za-z0-9_]*|[0-9]+|:=|!=|@?[{}]|[;,()\[\]:=<]")


def refused(text, offset, cause):
    """The line is one more than the line feeds before the place, the column one more than the bytes since the last of them."""
    before = text[:offset]
    return b"refused at %d:%d: %s\n" % (before.count(b"\n") + 1, offset - before.rfind(b"\n"), cause)


def results(lines=b"", parameters=b"", structure=b"equality"):
    return b"lois results 1\natoms %s\nparameters%s\ncase when true\n%send\n" % (structure, parameters, lines)


def times(start, piece):
    """How often the piece fits behind the start."""
    return (LIMIT - len(start)) // len(piece)


def padded(text, byte=b" "):
    return text + byte * (LIMIT - len(text))


def no_scripts():
    """Texts of one hard thing, or of little else: name, text, what run and check answer, what reread answers."""
    yield "spaces", b" " * LIMIT, b"refused at 1:1048577: not a script\n", NOT_RESULTS
    yield "a space too many", b" " * (LIMIT + 1), TOO_LONG, TOO_LONG
    yield "one comment", b"#" + b"x" * (LIMIT - 1), b"refused at 1:1048577: not a script\n", NOT_RESULTS
    yield "empty comments", b"#\n" * (LIMIT // 2), b"refused at 524289:1: not a script\n", NOT_RESULTS
    yield "open braces", b"{" * LIMIT, NOT_A_SCRIPT, NOT_RESULTS
    for name, start, bracket in [("set", b"let a = ", b"{"), ("tuple", b"let a = ", b"("), ("condition", b"assert ", b"[")]:
        start = EQUALITY + start
        text = padded(start, bracket)
        yield f"open brackets, {name}", text, refused(text, len(start) + 64, b"nesting over 64"), NOT_RESULTS
    text = EQUALITY + b"if true {" * times(EQUALITY, b"if true {")
    yield "open blocks", text, refused(text, len(EQUALITY) + 65 * 9 - 1, b"nesting over 64"), NOT_RESULTS
    yield "one name", b"a" * 1048000, b"refused at 1:1: long name\n", NOT_RESULTS
    yield "let one name", b"atoms equality; let " + b"a" * 1048000, b"refused at 1:21: long name\n", NOT_RESULTS
    yield "one tag", b"atoms equality; let a = '" + b"a" * 1048000, b"refused at 1:25: long name\n", NOT_RESULTS
    yield "one number", b"atoms equality; while true turns " + b"1" * 1048000, b"refused at 1:34: bad number\n", NOT_RESULTS
    yield "nul bytes", b"\0" * LIMIT, b"refused at 1:1: bad byte\n", NOT_RESULTS
    yield "nul byte behind a script", padded(ROW)[:-1] + b"\0", b"refused at 1:1048576: bad byte\n", NOT_RESULTS
    yield "nul byte in a comment", padded(ROW + b"#")[:-1] + b"\0", b"refused at 1:1048576: bad byte\n", NOT_RESULTS
    yield "crlf", b"\r\n" * (LIMIT // 2), b"refused at 524289:1: not a script\n", NOT_RESULTS
    yield "bytes over 127", b"\xff" * LIMIT, b"refused at 1:1: bad byte\n", NOT_RESULTS
    text = ROW + b"# caf" + b"\xc3\xa9" * times(ROW + b"# caf", b"\xc3\xa9")
    yield "bytes over 127 in a comment", text, refused(text, len(ROW) + 5, b"bad byte"), NOT_RESULTS


def repeated(piece, printed, start=EQUALITY, printed_start=b"atoms equality ;\n"):
    """A script of a start and as many equal pieces as fit, and its printed form."""
    count = times(start, piece)
    return start + piece * count, printed_start + printed * count


def nested(opened, innermost, closed, depth=64):
    return opened * depth + innermost + closed * depth


def scripts():
    """Scripts that complete: name, text, what run answers, what check answers."""
    comments = b"# a comment\n" * ((LIMIT - len(ROW)) // 12)
    checked = b"atoms equality ;\nlet a = atoms ;\nprint a ;\n"
    yield "a script behind comments", comments + ROW, ROW_ANSWER, checked
    yield "a script behind crlf", b"\r\n" * ((LIMIT - len(ROW)) // 2) + ROW, ROW_ANSWER, checked
    text, printed = repeated(b"assert " + nested(b"[", b"true", b"]") + b";\r\n", b"assert true ;\n")
    yield "64 deep, conditions", text, results(), printed
    text, printed = repeated(
        b"assert " + nested(b"('a,", b"'b", b")") + b"!='a;\n", b"assert " + nested(b"( 'a , ", b"'b ", b") ") + b"!= 'a ;\n"
    )
    yield "64 deep, tuples", text, results(), printed
    text, printed = repeated(
        b"assert " + nested(b"{", b"", b"}") + b"!='a;\n", b"assert " + nested(b"{ ", b"", b"} ") + b"!= 'a ;\n"
    )
    yield "64 deep, sets compared", text, results(), printed
    text, printed = repeated(
        b"a:=" + nested(b"{", b"", b"}") + b";",
        b"a := " + nested(b"{ ", b"", b"} ") + b";\n",
        EQUALITY + b"let a='a;",
        b"atoms equality ;\nlet a = 'a ;\n",
    )
    yield "64 deep, sets assigned", text, results(), printed
    text, printed = repeated(nested(b"if true{", b"", b"}"), nested(b"if true {\n", b"", b"}\n"))
    yield "64 deep, blocks", text, results(), printed
    names = [b"p%d" % number for number in range(100000)]
    for structure in b"equality", b"order":
        start = b"atoms " + structure
        yield (
            "100,000 parameters, " + structure.decode(),
            start + b"; parameter " + b",".join(names) + b";",
            results(parameters=b" " + b" ".join(names), structure=structure),
            start + b" ;\nparameter " + b" , ".join(names) + b" ;\n",
        )
    yield (
        "100,000 prints",
        EQUALITY + b"let a = {};" + b"print a;" * 100000,
        results(b"a = {}\n" * 100000),
        b"atoms equality ;\nlet a = { } ;\n" + b"print a ;\n" * 100000,
    )
    text, printed = repeated(b"assert true;", b"assert true ;\n", b"atoms equality; ")
    yield "one line, statements", padded(text), results(), printed
    members = [b"'t%d" % number for number in range(100000)]
    yield (
        "one line, members",
        b"atoms equality; let a = {" + b", ".join(members) + b"};",
        results(),
        b"atoms equality ;\nlet a = { " + b" , ".join(members) + b" } ;\n",
    )


def answers():
    """Results and what is nearly that: name, text, what run and check answer, what reread answers."""
    head = results()[:-4]
    names = b"".join(b" p%d" % number for number in range(100000))
    for name, text in [
        ("100,000 lines in results", results(b"a = {}\n" * 100000)),
        ("100,000 parameters in results", results(parameters=names)),
        ("one line in results, members", results(b"a = {" + b", ".join(b"'t%d" % number for number in range(100000)) + b"}\n")),
        ("64 deep, lines in results", results((b"a = " + nested(b"{", b"", b"}") + b"\n") * 7800)),
        ("cases in results", b"lois results 1\natoms order\nparameters\n" + b"case when false\n" * 65000 + b"end\n"),
    ]:
        yield name, text, NOT_A_SCRIPT, text
    text = padded(head + b"a = ", b"{")
    yield "open braces in results", text, NOT_A_SCRIPT, refused(text, len(head) + 4 + 64, b"not results")
    text = head + b"a" * 1048000 + b" = {}\nend\n"
    yield "one name in results", text, refused(text, len(head), b"long name"), refused(text, len(head), b"not results")
    text = padded(results(), b"\0")
    yield "nul bytes behind results", text, refused(text, len(results()), b"bad byte"), refused(text, len(results()), b"not results")
    text = results(b"a = {}\n" * 100000).replace(b"\n", b"\r\n")
    yield "crlf in results", text, NOT_A_SCRIPT, b"refused at 1:15: not results\n"
    text = padded(head + b"a = '", b"\xe9")
    yield "bytes over 127 in results", text, refused(text, len(head) + 4, b"bad byte"), refused(text, len(head) + 5, b"not results")
    text = padded(b"lois results 1\natoms order\nparameters")
    yield "spaces in results", text, NOT_A_SCRIPT, b"refused at 3:12: not results\n"


# The script that is cut, in parts behind which it is whole. `@` marks the braces of blocks and isn't written.
CUT_START = ["atoms order;", " parameter a, b;"]
CUT_PARTS = [
    "\nlet pairs{} = {(x, y) for x in atoms, y in minus(atoms, {x}) where x < y or x = a};",
    " # what a comment says\n",
    "assert exists x in atoms: [not x = a and (x, x) != ('red, b)];",
    "\nlet some{} = union({'red, ('blue, {})}, inter(atoms, minus(atoms, {a})));",
    "\r\nadd flatten({atoms}) to some{};",
    "\nwhile some{} != {} turns 12 @{ some{} := {}; @}",
    "\nprint some{};",
    "\nif a in atoms @{ let first = part((a, 'second), 1); assert forall y in {first}: y = a; @}",
    " else @{ assert false; @}",
    "\n\tfor x in atoms where x != a @{ for y in {'u, x} @{ add y to some{}; @} @}",
    "\nassert true and {} subset some{} or false;",
    "\nlet machine{} = ({'p}, {'l}, {('p, 'l, 'p)}, {'p}, {});",
    "\nassert empty(machine{}) and reach(machine{}) = {'p};",
    "\nassert empty(product(minimise(machine{}), complement(machine{}))) or true;",
]
CUTS = 2000


def ends(token, place, cut, before):
    """Where a text is refused that ends within a token, and why; for a part of a token that may stand there, at its end."""
    part = token[: cut - place]
    if part in (b"'", b"!"):
        return place, b"bad byte"
    if token == b":=" or part.decode() in WORDS:
        return place, b"not a script"
    is_inside = token.decode() in INSIDE_WORDS or (token == b"for" and before not in (b";", b"@{", b"@}"))
    return (place if before is None or is_inside else cut), b"not a script"


def cut_scripts():
    """What run and check answer to the first 0 to 1,999 bytes of a script: the text, both answers."""
    parts = [part.encode() for part in CUT_START]
    for number in range(4):
        parts += [re.sub(r"(?<=[a-z]){}", str(number), part).encode() for part in CUT_PARTS]
    text, tokens, whole = b"", [], set()
    for part in parts:
        position = 0
        while position < len(part):
            token = TOKEN.match(part, position)
            if token is None:
                skipped = re.compile(rb"#[^\n]*|\s").match(part, position)
                text, position = text + skipped.group(), skipped.end()
            else:
                tokens.append((token.group(), len(text)))
                text, position = text + token.group().lstrip(b"@"), token.end()
        whole.add(len(tokens))
    assert len(text) >= CUTS
    for cut in range(CUTS):
        left = [(token, place) for token, place in tokens if place < cut]
        if left and cut < left[-1][1] + len(left[-1][0].lstrip(b"@")):
            token, place = left[-1]
            answer = refused(text, *ends(token, place, cut, left[-2][0] if len(left) > 1 else None))
            yield cut, text[:cut], answer, answer
        elif len(left) in whole:
            yield cut, text[:cut], completed(left), printed(left)
        else:
            answer = refused(text, cut, b"not a script")
            yield cut, text[:cut], answer, answer


def completed(tokens):
    names = [token for token, _ in tokens]
    lines = [names[at + 1] + b" = {}\n" for at, token in enumerate(names) if token == b"print"]
    return results(b"".join(lines), b" a b" if b"parameter" in names else b"", b"order")


def printed(tokens):
    return b"".join(token.lstrip(b"@") + (b"\n" if token in (b";", b"@{", b"@}") else b" ") for token, _ in tokens)


def cut_results():
    """What reread answers to the first 0 to 1,999 bytes of results: the place at which they end."""
    lines = b"".join(
        b"set%d = {a, ('red, $2) for $2 if a<$2 and b!=$2 or $2=b, {{}, {{$3 for $3 if $2<$3}} for $2}}\n" % number
        for number in range(40)
    )
    text = b"lois results 1\natoms order\nparameters a b\ncase when a<b or a=b\n" + lines + b"case when b<a\nend\n"
    assert len(text) > CUTS
    for cut in range(CUTS):
        yield cut, text[:cut], refused(text, cut, b"not results")


def write(folder, name, text, answers):
    os.makedirs(folder, exist_ok=True)
    for kind, content in [("in", text), *answers.items()]:
        with open(os.path.join(folder, f"{name}.{kind}"), "wb") as file:
            file.write(content)


def main(folder):
    for name, text, script, reread in no_scripts():
        write(folder, name, text, {"run": script, "check": script, "reread": reread})
    for name, text, run, check in scripts():
        write(folder, name, text, {"run": run, "check": check, "reread": NOT_RESULTS})
    for name, text, script, reread in answers():
        write(folder, name, text, {"run": script, "check": script, "reread": reread})
    for cut, text, run, check in cut_scripts():
        write(os.path.join(folder, "a script cut"), cut, text, {"run": run, "check": check, "reread": NOT_RESULTS})
    for cut, text, reread in cut_results():
        write(os.path.join(folder, "results cut"), cut, text, {"reread": reread})


if __name__ == "__main__":
    main(sys.argv[1])
