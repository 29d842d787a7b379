"""The encounters of the whole window: those of the parts, and those that meet at a border of parts as one."""

from __future__ import annotations

from collections.abc import Callable, Iterator, Sequence
from dataclasses import dataclass, replace

from conjtools.join.exact import ceil_root
from conjtools.join.parts import Part
from conjtools.report import Encounter, Kind, Span

# The bound on the squared distance in nm² of two objects, by their numbers from 1, at a tick; nothing where not both have a state.
SquareBound = Callable[[int, int, int], int | None]


@dataclass(frozen=True)
class Source:
    """An encounter of a part, by its number there."""

    part: Part
    number: int

    @property
    def encounter(self) -> Encounter:
        """What the part's report says of it."""
        return self.part.report.encounters[self.number - 1]


@dataclass(frozen=True)
class Joined:
    """An encounter of the whole window, and the encounter of a part whose closest approach it has."""

    encounter: Encounter
    source: Source


def joined_encounters(parts: Sequence[Part], square_bound: SquareBound) -> list[Joined]:
    """The encounters of the whole window, of which these are the parts in order."""
    return [joined(meeting, square_bound) for meeting in meetings(parts)]


def meetings(parts: Sequence[Part]) -> Iterator[list[Source]]:
    """The encounters of all parts in order of pair and time, those together that follow one another without a gap."""
    sources = [Source(part, number) for part in parts for number in range(1, len(part.report.encounters) + 1)]
    # The parts are in order of time and the sorting keeps the order of equals, so that a pair's encounters are in order of time.
    sources.sort(key=lambda source: (source.encounter.a, source.encounter.b))
    meeting: list[Source] = []
    for source in sources:
        if meeting and not follows(meeting[-1].encounter, source.encounter):
            yield meeting
            meeting = []
        meeting.append(source)
    if meeting:
        yield meeting


def follows(before: Encounter, behind: Encounter) -> bool:
    """Whether an encounter is of the same pair and begins at the tick after the last of the other."""
    return (before.a, before.b) == (behind.a, behind.b) and before.last + 1 == behind.first


def joined(meeting: Sequence[Source], square_bound: SquareBound) -> Joined:
    """The one encounter that some of successive parts are."""
    if len(meeting) == 1:
        return Joined(meeting[0].encounter, meeting[0])
    source = nearest(meeting, square_bound)
    spans = joined_spans([span for one in meeting for span in one.encounter.spans])
    mark = Kind.NEAR if any(span.kind is Kind.NEAR for span in spans) else Kind.UNDECIDED
    return Joined(replace(source.encounter, mark=mark, spans=spans), source)


def joined_spans(spans: Sequence[Span]) -> tuple[Span, ...]:
    """Spans without gaps, neighbours of one kind as one."""
    whole: list[Span] = []
    for span in spans:
        if whole and whole[-1].kind is span.kind:
            whole[-1] = Span(span.kind, whole[-1].first, span.last)
        else:
            whole.append(span)
    return tuple(whole)


def nearest(meeting: Sequence[Source], square_bound: SquareBound) -> Source:
    """That with the least miss distance. Where several print the same, that with the least bound on the squared distance at its closest
    approach, of equals the earliest, as docs/MODEL.md defines the closest approach."""
    least = min(source.encounter.miss for source in meeting)
    tied = [source for source in meeting if source.encounter.miss == least]
    if len(tied) == 1:
        return tied[0]
    return min(tied, key=lambda source: (bound_of(source, square_bound), source.encounter.closest))


def bound_of(source: Source, square_bound: SquareBound) -> int:
    """The bound at the closest approach of a part's encounter. It has to give the miss distance that the part's report prints."""
    told = source.encounter
    bound = square_bound(told.a, told.b, told.closest)
    if bound is None:
        raise source.part.refuse(told.line, f"encounter {source.number}: not both objects have a state at its closest approach")
    if ceil_root(bound) != told.miss:
        by_files = f"by the ephemerides the miss distance is {ceil_root(bound)} nm"
        raise source.part.refuse(told.line, f"encounter {source.number}: {by_files}, and the report says {told.miss}")
    return bound
