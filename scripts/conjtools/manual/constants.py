"""The constants of text in a source file of Rattle or Rust."""

from __future__ import annotations

import re
from collections.abc import Iterator

# What of a source can hold a quotation mark or a name; anything else is one character. A lifetime is no character literal.
TOKEN = re.compile(
    r"""(?P<comment>//[^\n]*|/\*.*?\*/)
    |b?r(?P<hashes>\#*)"(?P<raw>.*?)"(?P=hashes)
    |b?"(?P<text>(?:[^"\\]|\\.)*)"
    |b?'(?:[^'\\\n]|\\[^\n]+?)'
    |(?P<name>[A-Za-z_]\w*)
    |(?P<sign>\S)""",
    re.DOTALL | re.VERBOSE,
)
ESCAPE = re.compile(r"\\(?:(?P<break>\n\s*)|x(?P<byte>[0-9a-fA-F]{2})|u\{(?P<point>[0-9a-fA-F_]+)\}|(?P<sign>.))", re.DOTALL)
SIGNS = {"n": "\n", "t": "\t", "r": "\r", "0": "\0", "\\": "\\", '"': '"', "'": "'"}
OPENING, CLOSING = "([{", ")]}"


def text_constants(source: str) -> dict[str, str]:
    """Each constant that is made of texts, by its name, in their order: one text, several that are put together, or a list of them. Other
    constants that it names are put in their places."""
    made: dict[str, str] = {}
    for name, tokens in constants(source):
        parts = [part for part in map(lambda token: text_of(token, made), tokens) if part is not None]
        if parts:
            made[name] = "".join(parts)
    return made


def constants(source: str) -> Iterator[tuple[str, list[re.Match[str]]]]:
    """Each constant with the tokens of its value."""
    tokens = [token for token in TOKEN.finditer(source) if token["comment"] is None]
    for at, token in enumerate(tokens[:-2]):
        if token["name"] in ("const", "static") and tokens[at + 1]["name"] and tokens[at + 2]["sign"] == ":":
            yield tokens[at + 1]["name"], value(tokens[at + 3 :])


def value(tokens: list[re.Match[str]]) -> list[re.Match[str]]:
    """Of the tokens behind a constant's name those of its value: from the equals sign to the semicolon, none of them in brackets."""
    depth, found = 0, None
    for at, token in enumerate(tokens):
        depth += (token["sign"] or "-") in OPENING
        depth -= (token["sign"] or "-") in CLOSING
        if depth == 0 and token["sign"] == "=" and found is None:
            found = at + 1
        elif depth == 0 and token["sign"] == ";":
            return tokens[found:at] if found is not None else []
    return []


def text_of(token: re.Match[str], made: dict[str, str]) -> str | None:
    """The text that a token stands for, if it does."""
    if token["text"] is not None:
        return ESCAPE.sub(unescaped, token["text"])
    if token["raw"] is not None:
        return token["raw"]
    return made.get(token["name"])


def unescaped(found: re.Match[str]) -> str:
    """What an escape in a text stands for."""
    if found["break"] is not None:
        return ""
    if code := found["byte"] or found["point"]:
        return chr(int(code.replace("_", ""), 16))
    return SIGNS.get(found["sign"], found["sign"])
