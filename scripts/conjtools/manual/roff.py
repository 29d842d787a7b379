"""Text as the language of manual pages, man(7)."""

from __future__ import annotations

import re
import textwrap

WIDTH = 78
# A word of the command line, a file or a number; in any other a hyphen joins words.
TYPED = re.compile(r"-|.*[/_.\d=]")
# A word that stands for another, as DIR.
STANDING = re.compile(r"[A-Z][A-Z_0-9]*")
SENTENCE = re.compile(r"(?<=\w\.|\)\.) ")
CODE = re.compile(r"`([^`]+)`")
LINK = re.compile(r"\[([^]]+)\]\([^)]+\)")


def escaped(text: str) -> str:
    """A text as it is to be shown."""
    return " ".join(typed(word) if TYPED.match(word) else word.replace("\\", "\\e") for word in text.split(" "))


def typed(text: str) -> str:
    """What is typed, as it is to be shown: a hyphen of it is a minus sign, which can be copied."""
    return text.replace("\\", "\\e").replace("-", "\\-")


def filled(text: str) -> list[str]:
    """The lines of a paragraph, each sentence on lines of its own."""
    lines = []
    for sentence in SENTENCE.split(text):
        lines += textwrap.wrap(sentence, WIDTH, break_long_words=False, break_on_hyphens=False)
    return [guarded(line) for line in lines]


def guarded(line: str) -> str:
    """A line that is no request, whatever it begins with."""
    return f"\\&{line}" if line[:1] in (".", "'") else line


def paragraph(text: str) -> list[str]:
    """The lines of a text."""
    return filled(escaped(text))


def bold(text: str) -> str:
    """What is typed, in bold."""
    return f"\\fB{typed(text)}\\fR"


def usage(text: str) -> str:
    """Words of a command line: what is typed in bold, what stands for something in italics."""
    return re.sub(r"[^\s\[\]|]+", lambda word: f"\\fI{word[0]}\\fR" if STANDING.fullmatch(word[0]) else bold(word[0]), text)


def marked(text: str) -> list[str]:
    """The lines of a text in Markdown: code in bold, links by their text."""
    parts = CODE.split(LINK.sub(r"\1", text))
    return filled("".join(bold(part) if at % 2 else escaped(part) for at, part in enumerate(parts)))
