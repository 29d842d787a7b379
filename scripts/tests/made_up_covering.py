#!/usr/bin/python3
"""Stands in for `conj` where it is tested how runs are held that tell what objects cover, or that ask for all of it: it finds no encounter, and reads
the files for itself. `COVERING_FAULT` names how it errs; without it it does not."""

from __future__ import annotations

import os
import re
import sys
from pathlib import Path

sys.path.insert(0, str(Path(__file__).resolve().parents[1]))

from conjtools.epochs import epoch_text, read_epoch  # noqa: E402

FAULT = os.environ.get("COVERING_FAULT", "")
FLAGS = ("--coverage", "--must-cover", "--changed")
COUNTS = ("TOUCHING", "ROOTS", "SPLITS", "LEAVES", "FAR", "NEAR", "UNDECIDED", "ENCOUNTERS", "MESSAGES")
Spans = list[tuple[int, int]]


def options_of(words: list[str]) -> dict[str, str]:
    """Options, each with the word behind it where it has a value."""
    told: dict[str, str] = {}
    while words:
        word, *words = words
        told[word] = "" if word in FLAGS else words.pop(0)
    return told


def files_of(folder: Path, with_updates: bool) -> dict[str, str]:
    """The texts of the ephemerides that stand, in order of their names."""
    texts = {path.name: path.read_text("ascii") for path in folder.iterdir() if path.suffix in (".oem", ".new")}
    standing = {name: text for name, text in texts.items() if name.endswith(".oem")}
    if with_updates and FAULT != "the base":
        standing |= {name.removesuffix(".new"): text for name, text in texts.items() if name.endswith(".new")}
    return {name: standing[name] for name in sorted(standing) if standing[name]}


def useable(text: str) -> Spans:
    """The useable spans of an ephemeris."""
    spans: Spans = []
    for block in re.findall("META_START\n(.*?)META_STOP\n", text, re.DOTALL):
        told = dict(line.split(" = ") for line in block.splitlines())
        ends = [told.get(f"USEABLE_{end}_TIME", told[f"{end}_TIME"]) for end in ("START", "STOP")]
        spans.append((read_epoch(ends[0]), read_epoch(ends[1])))
    return spans


def covered(spans: Spans, first: int, last: int) -> Spans:
    """The covered spans from a first to a last tick."""
    told: Spans = []
    for start, stop in spans:
        start, stop = (start, stop) if FAULT == "beyond the window" else (max(start, first), min(stop, last))
        if FAULT == "without the last tick" and start < stop:
            stop -= 1
        if told and start - told[-1][1] <= (2 if FAULT == "over a gap" else 1):
            told[-1] = (told[-1][0], stop)
        elif start <= stop:
            told.append((start, stop))
    return told


def left_out(spans: Spans, first: int, last: int) -> list[int]:
    """The first tick of each stretch without a state."""
    starts = [first, *(stop + 1 for _, stop in spans)]
    stops = [*(start - 1 for start, _ in spans), last]
    return [start for start, stop in zip(starts, stops) if start <= stop]


class Run:
    """What a run reads."""

    def __init__(self, command: str, folder: Path, options: dict[str, str]) -> None:
        self.options = options
        self.texts = files_of(folder, command == "rescreen" or "--update" in options)
        spans = {name: useable(text) for name, text in self.texts.items()}
        ends = [tick for one in spans.values() for span in one for tick in span] or [63_072_000_000_000]
        self.first = read_epoch(options["--from"]) if "--from" in options else min(ends)
        self.last = read_epoch(options["--to"]) if "--to" in options else max(ends)
        self.covered = {name: covered(one, self.first, self.last) for name, one in spans.items()}
        self.sizes = dict(line.split() for line in (folder / options["--sizes"]).read_text("ascii").splitlines()) if "--sizes" in options else None

    def refusal(self) -> str:
        """The fault line of an object that does not cover the window, or nothing."""
        lines = []
        for name, spans in self.covered.items():
            ticks = left_out(spans, self.first, self.last)
            if ticks:
                lines.append(f"conj: {name}: line 0: Uncovered {epoch_text(ticks[0] + (FAULT == 'a tick later'))}\n")
        return (lines[-1] if FAULT == "another file" else lines[0]) if lines else ""

    def report(self) -> str:
        """The report."""
        title = "CONJ-CHANGED" if "--changed" in self.options else "CONJ-REPORT"
        text = f"{title} 1\nWINDOW {epoch_text(self.first)} {epoch_text(self.last)}\nTHRESHOLD 5000000000000\n"
        for number, (name, told) in enumerate(self.texts.items(), 1):
            names = dict(re.findall("^(OBJECT_ID|OBJECT_NAME) = (.*)$", told, re.MULTILINE))
            text += f"OBJECT {number}\nFILE {name}\nID {names['OBJECT_ID']}\nNAME {names['OBJECT_NAME']}\n"
            text += "" if self.sizes is None else f"SIZE {int(self.sizes.get(names['OBJECT_ID'], 0)) * 10**9}\n"
            text += self.lines(self.covered[name]) if "--coverage" in self.options else ""
        return text + "END\n"

    def lines(self, spans: Spans) -> str:
        """What an object covers."""
        if not spans:
            return "" if FAULT == "nothing of none" else "COVERED NONE\n"
        return "".join(f"COVERED {epoch_text(start)} {epoch_text(stop)}\n" for start, stop in spans)

    def summary(self, command: str) -> str:
        """The summary."""
        count = len(self.texts)
        pairs = count * (count - 1) // 2
        text = f"OBJECTS {count}\nPAIRS {pairs}\nPARTED {pairs}\n" + "".join(f"{word} 0\n" for word in COUNTS)
        if "--changed" in self.options:
            text = f"OBJECTS {count}\nENCOUNTERS 0\n"
        text += "KEPT 0\n" if command == "rescreen" else ""
        if "--coverage" in self.options:
            lacking = [spans for spans in self.covered.values() if left_out(spans, self.first, self.last)]
            text += f"UNCOVERED {sum(not spans for spans in lacking) if FAULT == 'counts those of none' else len(lacking)}\n"
        return text


def end(status: int, error: str) -> None:
    """Ends with a fault line."""
    sys.stderr.write(error)
    sys.exit(status)


def check(run: Run, folder: Path) -> None:
    """Whether a report is the one that is due."""
    mine, wanted = (folder / "screen.report").read_text("ascii").split("\n"), run.report().split("\n")
    for number, (one, other) in enumerate(zip(mine, wanted), 1):
        if one != other:
            end(1, f"conj: not accepted: line {number}: Report\n")
    print("ACCEPTED")


def screen(command: str, run: Run, folder: Path) -> None:
    """Screens, or screens again."""
    beyond = "--cells" in run.options and len(run.texts) > 1
    refusal = run.refusal() if "--must-cover" in run.options else ""
    if beyond and FAULT == "behind the search":
        end(6, f"conj: limit: Cells {run.options['--cells']}\n")
    if refusal and FAULT != "written all the same":
        end(3, refusal)
    if beyond:
        end(6, f"conj: limit: Cells {run.options['--cells']}\n")
    if "--changed" in run.options:
        (folder / "changed.report").write_text(run.report(), "ascii")
    else:
        (folder / "screen.report").write_text(run.report(), "ascii")
        (folder / "screen.cert").write_text("CONJ-CERT 1\nEND\n", "ascii")
    if refusal:
        end(3, refusal)
    print(run.summary(command), end="")


def main(words: list[str]) -> None:
    """Screens, screens again or checks."""
    command, folder, *rest = words
    run = Run(command, Path(folder), options_of(rest))
    if command == "check":
        check(run, Path(folder))
    else:
        screen(command, run, Path(folder))


if __name__ == "__main__":
    main(sys.argv[1:])
