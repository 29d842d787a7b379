"""What a run puts that looks at the pairs with a primary alone, by what the same run puts that looks at all of them with a certificate in brief
(docs/FORMATS.md, "Primaries file"). What is said of a pair does not hang on the others: so the report, the messages and the certificate are the parts of
these pairs, and the counts are those of all pairs less those of the pairs of two secondaries, as a run over these alone has them."""

from __future__ import annotations

import random
import re
from collections.abc import Collection, Mapping, Sequence
from dataclasses import dataclass, replace
from itertools import takewhile

from conjtools.covering.due import BEFORE_THE_FILES_ARE_READ, DONE, FILE_REFUSED, Outcome, differences_of_outcomes
from conjtools.in_brief import CERTIFICATE
from conjtools.kvn import MARKS, KvnFault, LineKind, checked_lines, kind_of, split_pair
from conjtools.report import Report, read_report
from conjtools.terminal import Ended
from conjtools.updates import REPORT, counts

PRIMARIES, FLEET = "--primaries", "fleet.txt"
# The lines of a certificate in front of those of sizes: its title, window, threshold and number of objects.
LINES_OF_A_HEAD = 4
MESSAGE_NAME = re.compile(r"\d{6,}\.cdm")
MESSAGE_ID = re.compile(rb"^(MESSAGE_ID = .*_)\d{6,}$", re.MULTILINE)
# Of the words of a summary those that count objects, and not something of pairs.
OF_OBJECTS = ("OBJECTS", "UNCOVERED")


@dataclass(frozen=True)
class Refusal:
    """The first fault of a file of primaries: its line, and its cause as a fault line tells it."""

    line: int
    cause: str


def read_primaries(content: bytes, known: Collection[str]) -> frozenset[str] | Refusal:
    """The designators that a file of primaries names, where objects have these designators."""
    try:
        lines = checked_lines(content)
    except KvnFault as fault:
        return Refusal(fault.line, f"Primaries {fault.cause}")
    named: set[str] = set()
    for number, line in enumerate(lines, 1):
        if not line:
            continue
        if kind_of(line) is not LineKind.ROW or len(line.split()) != 1:
            return Refusal(number, "Primaries Form")
        designator = line.decode("ascii")
        if designator in named:
            return Refusal(number, "Primaries Twice")
        if designator not in known:
            return Refusal(number, "Primaries Unknown")
        named.add(designator)
    return frozenset(named) or Refusal(0, "NoPrimaries")


def refusal_line(name: str, refusal: Refusal) -> bytes:
    """The fault line of a file of primaries of this name."""
    return f"conj: {name}: line {refusal.line}: {refusal.cause}\n".encode("ascii")


def designators_of(report: Report) -> list[str]:
    """The designators of the objects of a report, in their order."""
    return [told.designator for told in report.objects]


def primary_numbers(report: Report, named: Collection[str]) -> list[int]:
    """The numbers of those objects of a report that are named."""
    return [number for number, told in enumerate(report.objects, 1) if told.designator in named]


def secondary_files(report: Report, named: Collection[str]) -> list[str]:
    """The files of those objects of a report that are not named."""
    return [told.file for told in report.objects if told.designator not in named]


def told_numbers(report: Report, named: Collection[str]) -> list[int]:
    """The numbers of those encounters of a report that have a primary."""
    numbers = set(primary_numbers(report, named))
    return [place for place, told in enumerate(report.encounters, 1) if {told.a, told.b} & numbers]


def report_of_primaries(report: Report, named: Collection[str]) -> Report:
    """The part of a report that is of pairs with a primary."""
    objects = tuple(replace(told, primary=told.designator in named) for told in report.objects)
    return replace(report, objects=objects, encounters=tuple(report.encounters[number - 1] for number in told_numbers(report, named)))


def message_name(number: int) -> str:
    """The name of the message of an encounter."""
    return f"{number:06}.cdm"


def with_number(message: bytes, number: int) -> bytes:
    """A message as it is where its encounter has this number."""
    return MESSAGE_ID.sub(lambda found: found[1] + b"%06d" % number, message)


def certificate_of_primaries(certificate: bytes, primaries: Collection[int]) -> bytes:
    """The part of a certificate in brief that is of pairs with a primary, and the lines that say which are primaries behind those of sizes."""
    put: list[bytes] = []
    told = False
    for line in certificate.splitlines(keepends=True):
        word, *fields = line.split()
        if word in (b"SHELL", b"END", b"CELL") and not told:
            put += [b"PRIMARY %d\n" % number for number in sorted(primaries)]
            told = True
        if word != b"CELL" or int(fields[0]) in primaries or int(fields[1]) in primaries:
            put.append(line)
    return b"".join(put)


def first_line_of_other_primaries(objects: int, told: Sequence[int], due: Sequence[int]) -> int:
    """The line of a certificate that tells these primaries of so many objects at which a check finds that others are due."""
    same = sum(1 for _ in takewhile(lambda both: both[0] == both[1], zip(told, due)))
    return LINES_OF_A_HEAD + objects + same + 1


def pieces_of_primaries(pieces: Mapping[str, bytes], named: Collection[str]) -> dict[str, bytes]:
    """The pieces of a run that looks at pairs with a primary, by those of one that looks at all, none of which stood there before."""
    report = read_report(REPORT, pieces[REPORT])
    put = {
        REPORT: report_of_primaries(report, named).text().encode("ascii"),
        CERTIFICATE: certificate_of_primaries(pieces[CERTIFICATE], primary_numbers(report, named)),
    }
    for number, place in enumerate(told_numbers(report, named), 1):
        if report.encounters[place - 1].has_message:
            put[message_name(number)] = with_number(pieces[message_name(place)], number)
    return put


def summary_of_primaries(summary: bytes, secondaries: bytes) -> bytes:
    """The summary of a run that looks at pairs with a primary, by that of one that looks at all, and that of one over the secondaries alone."""
    others = counts(secondaries)
    lines = (f"{word} {count if word in OF_OBJECTS else count - others[word]}\n" for word, count in counts(summary).items())
    return "".join(lines).encode("ascii")


@dataclass(frozen=True)
class Fleet:
    """A file of primaries: its name and what stands in it."""

    name: str
    content: bytes


def named_in(plain: Outcome, fleet: Fleet) -> frozenset[str] | Refusal:
    """What a file of primaries names of the objects of a run that looked at all pairs."""
    return read_primaries(fleet.content, designators_of(read_report(REPORT, plain.pieces[REPORT])))


def differences_of_primaries(told: Outcome, plain: Outcome, fleet: Fleet, secondaries: bytes | None) -> list[str]:
    """In what a run that is told primaries is not what is due, by how the same run ends that looks at all pairs, with a certificate in brief, and by the
    summary of a run over the secondaries alone where there was one. No piece stood there before either run. Behind the file of primaries a run may
    want more of the one than of the other: then nothing is due."""
    if plain.ended.status in BEFORE_THE_FILES_ARE_READ:
        found = differences_of_outcomes(told, plain)
    elif plain.ended.status != DONE:
        found = []
    else:
        named = named_in(plain, fleet)
        if isinstance(named, Refusal):
            due = Outcome(Ended(FILE_REFUSED, b"", refusal_line(fleet.name, named)), {})
        else:
            summary = told.ended.output if secondaries is None else summary_of_primaries(plain.ended.output, secondaries)
            due = Outcome(Ended(DONE, summary, b""), pieces_of_primaries(plain.pieces, named))
        found = differences_of_outcomes(told, due)
    return [f"with {PRIMARIES} {fleet.name}: {what}" for what in found]


# What may stand about the name of a primary in its line, and lines that name nobody.
MARGINS = (b"", b"", b"", b" ", b"\t")
LINE_ENDS = (b"\n", b"\n", b"\n", b"\r\n")
SILENT_LINES = (b"\n", b"COMMENT our satellites\n", b" \t\n", b"COMMENT\n")
STRANGE_LINES = (b"NOBODY\n", b"TWO NAMES\n", b"NAME = 1\n", b"name = 1\n", b"META_START\n", b"\x07\n", b"= 1\n")
# One of so many files has a line that is a fault, and one names everybody.
STRANGE_SHARE, WHOLE_SHARE = 5, 7


def drawn_fleet(draw: random.Random, designators: Sequence[str]) -> bytes:
    """A file that names some of these as primaries, in any order; now and then nobody, everybody, or with a fault."""
    known = list(dict.fromkeys(designators))
    count = len(known) if draw.randrange(WHOLE_SHARE) == 0 else draw.randint(0, len(known))
    lines = [draw.choice(MARGINS) + name.encode("ascii") + draw.choice(MARGINS) + draw.choice(LINE_ENDS) for name in draw.sample(known, count)]
    lines += [draw.choice(SILENT_LINES) for _ in range(draw.randint(0, 2))]
    if draw.randrange(STRANGE_SHARE) == 0:
        lines.append(draw.choice((*STRANGE_LINES, lines[0] if lines else b"NOBODY\n")))
    draw.shuffle(lines)
    return b"".join(lines).removesuffix(b"\n" if draw.randrange(3) == 0 else b"")


def designators_in(files: Mapping[str, bytes]) -> list[str]:
    """The designators that ephemerides tell, in the order of these; none of one whose lines are none."""
    return [found for content in files.values() for found in first_designator(content)]


def first_designator(content: bytes) -> list[str]:
    """The designator that an ephemeris tells first, if there is one."""
    try:
        lines = checked_lines(content)
    except KvnFault:
        return []
    pairs = (split_pair(line) for line in lines if b"=" in line)
    return [value.decode("ascii") for key, value in pairs if key == b"OBJECT_ID"][:1]


def can_be_named(designator: str) -> bool:
    """Whether a row of a file of primaries can name a designator."""
    return len(designator.split()) == 1 and "=" not in designator and designator != "COMMENT" and designator.encode("ascii") not in MARKS


def without_unknown(content: bytes, known: Collection[str]) -> bytes:
    """A file of primaries that is taken without the lines that name no object with one of these designators."""
    return b"".join(line for line in content.splitlines(keepends=True) if not line.strip() or line.split()[0].decode("ascii") in known)
