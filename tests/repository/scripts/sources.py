"""The sources of the program as texts, for the tests that read them."""

import re
from pathlib import Path

TEXTS = {str(path): path.read_text() for path in sorted(Path(__file__).resolve().parents[3].glob("crates/*/src/**/*.rt"))}


def nested(opening, closing, other, depth):
    """A text in brackets, with such brackets in it."""
    inner = f"{opening}{other}*{closing}"
    return inner if depth == 0 else f"{opening}(?:{other}|{nested(opening, closing, other, depth - 1)})*{closing}"


ANY_BLOCK = nested("{", "}", "[^{}]", 5)


def bare(text, word=lambda it: it):
    """A source in one line, without comments, contracts and what is ghost, with `word` of each text in quotes."""
    text = re.sub(r"""//[^\n]*|b?r(#*)".*?"\1|"(?:\\.|[^"\\])*\"""", lambda it: "" if it[0][0] == "/" else word(it[0]), text, flags=re.S)
    text = re.sub(rf"(?m)^ *(?:requires|ensures) \w* *{ANY_BLOCK}|^ *ghost [^;{{}}]*(?:{ANY_BLOCK})?[^;{{}}]*;", "", text)
    return " ".join(text.split())


def tell(name, wrong):
    print(f"FAILED {name}: {wrong}" if wrong else f"ok {name}")
