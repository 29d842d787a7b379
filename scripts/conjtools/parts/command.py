"""`scripts/parts`: what the workflow does with the parts of a window."""

from __future__ import annotations

import argparse
import json
import sys
import time
from collections.abc import Sequence
from pathlib import Path

from conjtools.command import Parser, run
from conjtools.faults import RunFault, UsageFault
from conjtools.parts.doing import check, confirm, screen
from conjtools.parts.plan import read_plan, read_stamps
from conjtools.parts.program import node_name
from conjtools.parts.publish import publish
from conjtools.parts.settings import read_settings
from conjtools.parts.survey import survey

NAME = "parts"
DESCRIPTION = """The steps of the workflow in workflow/Snakefile, each of which can be run by hand. docs/SCALE.md says what they do."""
PROGRAM = str(Path(__file__).resolve().parents[3] / "conj")


def threads_from(text: str) -> int:
    """A number of threads from 1 to 16."""
    if not text.isdecimal() or not text.isascii() or not 1 <= int(text[:9]) <= 16:
        raise argparse.ArgumentTypeError(f"not a number from 1 to 16: {text}")
    return int(text)


def parser() -> Parser:
    """The words that the script takes."""
    words = Parser(prog="scripts/parts", description=DESCRIPTION, allow_abbrev=False)
    steps = words.add_subparsers(dest="step", required=True, metavar="STEP")
    first = steps.add_parser("survey", allow_abbrev=False, help="plan the parts: which ephemerides touch which")
    first.add_argument("--settings", metavar="JSON", required=True, help="the configuration of the workflow, as JSON")
    first.add_argument("--threads", metavar="N", type=threads_from, default=1, help="read the files by so many processes; left out: 1")
    for name, told in (("screen", "screen a part"), ("check", "check a part that was screened")):
        step = steps.add_parser(name, allow_abbrev=False, help=told)
        step.add_argument("--plan", metavar="FILE", type=Path, required=True, help="the plan of the survey")
        step.add_argument("--part", metavar="NAME", required=True, help="the part, by its name in the plan")
        if name == "screen":
            step.add_argument("--threads", metavar="N", type=threads_from, default=1, help="screen by so many threads; left out: 1")
    for name, told in (
        ("confirm", "see that all parts are checked and as they were"), ("publish", "give the joined results their name, and take away older ones"),
    ):  # fmt: skip
        steps.add_parser(name, allow_abbrev=False, help=told).add_argument("--plan", metavar="FILE", type=Path, required=True, help="the plan of the survey")
    return words


def run_survey(words: argparse.Namespace) -> None:
    """Reads the configuration and surveys."""
    try:
        told = json.loads(words.settings)
    except ValueError:
        raise UsageFault("--settings: not JSON") from None
    if not isinstance(told, dict):
        raise UsageFault("--settings: names with values are wanted")
    settings = read_settings(told, PROGRAM)
    survey(settings, {**told, "program": settings.program}, words.threads)


def run_part(words: argparse.Namespace) -> None:
    """Screens or checks a part; a fault tells which part it is."""
    stamps = read_stamps(words.plan)
    plan = read_plan(words.plan)
    part = plan.part(words.part)
    try:
        if words.step == "screen":
            if not screen(plan, stamps, part, words.threads):
                tell(f"the result of another attempt stands, and stays: {part.name}")
        else:
            check(plan, stamps, part)
    except RunFault as fault:
        raise RunFault(f"{plan.place(part)} ({part.name}): {words.step}: {fault}") from None


def run_step(words: argparse.Namespace) -> None:
    """Does the step that is asked."""
    if words.step == "survey":
        run_survey(words)
    elif words.step == "confirm":
        confirm(read_plan(words.plan), read_stamps(words.plan))
    elif words.step == "publish":
        publish(read_plan(words.plan))
    else:
        run_part(words)


def tell(what: str) -> None:
    """A line for the log, with the time and the node."""
    print(f"{time.strftime('%Y-%m-%dT%H:%M:%SZ', time.gmtime())} {node_name()}: {what}", file=sys.stderr, flush=True)


def main(arguments: Sequence[str]) -> int:
    """Runs the script with these words, and gives its exit status."""

    def action() -> None:
        words = parser().parse_args(arguments)
        what = f"{words.step} {words.part}" if words.step in ("screen", "check") else words.step
        tell(f"{what} begins")
        begun = time.monotonic()
        run_step(words)
        tell(f"{what} is done after {time.monotonic() - begun:.1f} s")

    return run(NAME, action)
