"""The tokens of a script (docs/LANGUAGE.md, Tokens)."""
import re
from typing import NamedTuple

WORDS = frozenset("""atoms equality order parameter let add to for in where if else while turns assert print true false
not and or exists forall subset empty union inter minus flatten part reach product complement minimise case
end""".split())
LIMIT = 1_048_576
TOKEN = re.compile(r"'?[A-Za-z][A-Za-z0-9_]*|[0-9]+|:=|!=|[;,()\[\]{}:=<]")
COMMENT = re.compile(r"#[\t\r -~]*")


class Refused(Exception):
    """The text is refused at an offset (None: it has no place), with the words of the refusal."""

    def __init__(self, offset, why):
        super().__init__(offset, why)
        self.offset, self.why = offset, why


class Token(NamedTuple):
    """A token: its kind (word, name, tag, number, symbol or end), its text, and the offset of its first byte."""
    kind: str
    text: str
    start: int


def place_of(text, offset):
    """Line and column of an offset, counted from 1."""
    before = text[:offset]
    return before.count(b"\n") + 1, offset - (before.rfind(b"\n") + 1) + 1


def refusal_text(text, refused):
    """What is written of a refused text."""
    if refused.offset is None:
        return f"refused: {refused.why}\n"
    return "refused at %d:%d: %s\n" % (*place_of(text, refused.offset), refused.why)


def check_length(text):
    """Refuses a text that is over the limit of bytes."""
    if len(text) > LIMIT:
        raise Refused(None, f"input over {LIMIT} bytes")


def token_at(text, at):
    """The longest token at an offset."""
    found = TOKEN.match(text, at)
    if not found:
        raise Refused(at, "bad byte")
    token = found.group()
    if token[0].isdigit():
        if len(token) > 9 or (token[0] == "0" and token != "0"):
            raise Refused(at, "bad number")
        return Token("number", token, at)
    if not token[-1].isalnum() and token[-1] != "_":
        return Token("symbol", token, at)
    if len(token.lstrip("'")) > 64:
        raise Refused(at, "long name")
    return Token("tag" if token[0] == "'" else "word" if token in WORDS else "name", token, at)


def tokens(source):
    """All tokens of a text, and one of the kind `end` behind them."""
    text, at, found = source.decode("latin-1"), 0, []
    while at < len(text):
        if text[at] in " \t\n\r":
            at += 1
        elif text[at] == "#":
            at = COMMENT.match(text, at).end()
            if text[at:at + 1] not in ("", "\n"):
                raise Refused(at, "bad byte")
        else:
            found.append(token_at(text, at))
            at += len(found[-1].text)
    return found + [Token("end", "", len(text))]
