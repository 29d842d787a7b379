"""The text of `--help` as blocks: paragraphs, and headings with their items or their lines.

A heading is what ends with a colon in front of indented lines. An item is a line that is indented by two, a term and behind two blanks or more what
it means, which lines that are indented further go on with. Lines without a meaning, as those of the usage, are lines.
"""

from __future__ import annotations

import re
from collections.abc import Iterator
from dataclasses import dataclass, field

ITEM = re.compile(r"  (?P<term>\S+(?: \S+)*)(?: {2,}(?P<meaning>\S.*))?")


@dataclass(frozen=True)
class Item:
    """A term and what it means; nothing for a line that has no meaning beside it."""

    term: str
    meaning: str


@dataclass(frozen=True)
class Block:
    """A paragraph, or a heading without its colon and its items."""

    text: str
    items: tuple[Item, ...] = ()


@dataclass
class Reading:
    """A block that is being read."""

    words: list[str] = field(default_factory=list)
    items: list[Item] = field(default_factory=list)

    def block(self) -> Block:
        """The block."""
        text = " ".join(self.words)
        return Block(text.removesuffix(":") if self.items else text, tuple(self.items))


def blocks(text: str) -> Iterator[Block]:
    """The blocks of a text."""
    now = Reading()
    for line in text.splitlines():
        is_indented = line.startswith(" ")
        if not line.strip() or (now.items and not is_indented):
            if now.words or now.items:
                yield now.block()
            now = Reading()
        if line.startswith("   ") and now.items:
            last = now.items[-1]
            now.items[-1] = Item(last.term, f"{last.meaning} {line.strip()}".strip())
        elif is_indented and (item := ITEM.fullmatch(line.rstrip())):
            now.items.append(Item(item["term"], item["meaning"] or ""))
        elif line.strip():
            now.words.append(line.strip())
    if now.words or now.items:
        yield now.block()
