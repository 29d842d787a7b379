"""The manual page `conj.1`: the text of `--help`, whole, and tables of docs/FORMATS.md."""

from __future__ import annotations

import re
from collections.abc import Iterable, Mapping
from pathlib import Path

from conjtools.faults import RunFault
from conjtools.manual import roff
from conjtools.manual.constants import text_constants
from conjtools.manual.help import Block, blocks
from conjtools.manual.tables import paragraphs, rows, section

NOTICE = Path("crates", "cj_host", "src", "notice.rt")
FORMATS = Path("docs", "FORMATS.md")
PAGE = Path("docs", "conj.1")
HELP, VERSION, TOLD_FORMATS = "HELP", "VERSION", "FORMATS"
# The day of the page's form and examples, which stand here; what it tells is of the version that it names.
DAY = "2026-11-30"
TITLE = re.compile(r"conj(?: (?P<version>\d\S*))? - (?P<what>.*)")
NUMBER = re.compile(r"(?:conj )?(\d+\.\d+\.\d+)\s*")
USAGE, STATUSES, OPTIONS = "Usage", "Exit status", "Options"
EXAMPLES = (
    ("Screens the ephemerides in catalogue, and puts report, certificate and messages into a new directory:",
     "conj screen catalogue --out results"),
    ("Decides certificate and report anew from the ephemerides:",
     "conj check catalogue --cert-dir results --report screen.report"),
    ("Screens with a threshold of one kilometre, by four threads:",
     "conj screen catalogue --threshold 1000 --workers 4 --out near"),
    ("Makes up a catalogue of 200 objects, and screens it:",
     "mkdir made-up && conj generate made-up --objects 200 && conj screen made-up"),
)  # fmt: skip


def page(root: Path) -> str:
    """The page of a checkout."""
    texts = text_constants(read(root / NOTICE))
    if HELP not in texts:
        raise RunFault(f"{root / NOTICE}: no constant {HELP} that is made of texts")
    formats = root / FORMATS
    statuses = section(formats, "Exit statuses and fault lines")
    told = list(blocks(texts[HELP]))
    lines = [
        *head(texts, told),
        *synopsis(told),
        *description(told),
        *commands(texts),
        *exit_status(told, paragraphs(statuses)[-1]),
        *diagnostics(statuses),
        *table("FILES", section(formats, "Files")),
        *table("ENVIRONMENT", section(formats, "Environment")),
        *examples(),
        *version(texts),
    ]
    return "".join(f"{line}\n" for line in lines)


def read(path: Path) -> str:
    """The text of a file."""
    try:
        return path.read_text("utf-8")
    except OSError as error:
        raise RunFault(f"{path}: {error.strerror}") from None


def head(texts: Mapping[str, str], told: list[Block]) -> list[str]:
    """The head of the page and its name, by the first line of `--help`."""
    title = TITLE.fullmatch(told[0].text) if told else None
    if title is None:
        raise RunFault(f"{HELP} does not begin with a line as: conj 1.2.3 - what it is")
    number = title["version"] or next((found[1] for text in texts.values() if (found := NUMBER.match(text))), "")
    return [
        f".\\\" Made by scripts/manual of {NOTICE} and {FORMATS}: change those.",
        f'.TH CONJ 1 {DAY} "conj {number}" "User Commands"',
        # No word is cut, since it may be one that is typed.
        ".nh",
        ".ad l",
        ".SH NAME",
        f"conj \\- {roff.escaped(title['what'])}",
    ]


def synopsis(told: list[Block]) -> list[str]:
    """The lines of the usage, each with what is said of it."""
    items = [item for block in told if block.text == USAGE for item in block.items]
    lines = [f"{roff.usage(item.term)}   {roff.escaped(item.meaning)}".rstrip() for item in items]
    return [".SH SYNOPSIS", ".nf", *lines, ".fi"]


def description(told: list[Block]) -> list[str]:
    """The paragraphs and the options."""
    lines, has_options = [".SH DESCRIPTION"], False
    for block in told[1:]:
        if block.text in (USAGE, STATUSES):
            continue
        if block.items and not has_options and block.text.startswith(OPTIONS):
            lines.append(".SH OPTIONS")
            has_options = True
        lines += of_block(block)
    return separated(lines)


def of_block(block: Block) -> list[str]:
    """A paragraph, or a heading with its items."""
    if not block.items:
        return [".PP", *roff.paragraph(block.text)]
    lines = [f".SS {roff.escaped(block.text)}"] if block.text else []
    for item in block.items:
        lines += [".TP", roff.usage(item.term), *roff.paragraph(item.meaning)] if item.meaning else [".PP", roff.usage(item.term)]
    return lines


def separated(lines: list[str]) -> list[str]:
    """The lines without the breaks that a heading makes needless."""
    return [line for before, line in zip(["", *lines], lines) if not (line == ".PP" and before.startswith((".SH", ".SS")))]


def commands(texts: Mapping[str, str]) -> list[str]:
    """Each other text of several lines, as what `--help` says of one command alone. What `--help` holds is not told twice."""
    others = {name: text for name, text in texts.items() if name not in (VERSION, TOLD_FORMATS) and text not in texts[HELP] and "\n" in text.strip("\n")}
    lines = [".SH COMMANDS"] if others else []
    for name, text in others.items():
        told = list(blocks(text))
        usages = [item.term for block in told if block.text == USAGE for item in block.items]
        lines.append(f".SS {roff.escaped(', '.join(usages) or name.lower().replace('_', ' '))}")
        for block in told:
            if block.text != USAGE:
                lines += of_block(block)
    return separated(lines)


def exit_status(told: list[Block], launcher: str) -> list[str]:
    """The statuses, and those of the launcher."""
    lines = [".SH EXIT STATUS"]
    for block in told:
        if block.text == STATUSES:
            for item in block.items:
                lines += [".TP", roff.bold(item.term), *roff.paragraph(item.meaning)]
    return [*lines, ".PP", *roff.marked(launcher)]


def diagnostics(statuses: str) -> list[str]:
    """The lines that tell why a run failed."""
    lines = [".SH DIAGNOSTICS", *roff.marked(paragraphs(statuses)[0])]
    for status, _, told in rows(statuses):
        if told:
            lines += [".TP", roff.bold(status), *roff.marked(told)]
    return lines


def table(title: str, text: str) -> list[str]:
    """A section of a document: its table, and its paragraphs behind it."""
    lines = [f".SH {title}"]
    for term, meaning in rows(text):
        lines += [".TP", *roff.marked(term), *roff.marked(meaning)]
    for one in paragraphs(text):
        lines += [".PP", *roff.marked(one)]
    return lines


def examples() -> Iterable[str]:
    """The examples."""
    yield ".SH EXAMPLES"
    for at, (what, command) in enumerate(EXAMPLES):
        if at:
            yield ".PP"
        yield from roff.paragraph(what)
        yield from (".PP", ".in +4n", ".nf", roff.bold(command), ".fi", ".in")


def told_version(texts: Mapping[str, str]) -> str:
    """What `--version` prints: the program and its version, and behind it the formats."""
    told = texts.get(VERSION, "")
    return (f"conj {told}\n" if told[:1].isdigit() else told) + texts.get(TOLD_FORMATS, "")


def version(texts: Mapping[str, str]) -> list[str]:
    """What `--version` prints, where it is more than a line."""
    lines = told_version(texts).strip("\n").splitlines()
    return [".SH VERSION", ".nf", *(roff.guarded(roff.escaped(line)) for line in lines), ".fi"] if len(lines) > 1 else []
