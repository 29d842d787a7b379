"""What the loads share: epochs, numbers, the parts of an ephemeris (CCSDS 502.0-B-2) and of a certificate, as texts.

Times are whole microseconds behind midnight of the first of January 2025, places in nm and rates in nm/s.
"""

from __future__ import annotations

import random
from collections.abc import Iterable, Sequence
from datetime import datetime, timedelta
from pathlib import Path

START = datetime(2025, 1, 1)
SECOND = 1_000_000
MINUTE = 60 * SECOND
HOUR = 60 * MINUTE
KM = 10**12
MM = 10**6
FIRST_TICK = (START - datetime(1970, 1, 1)) // timedelta(microseconds=1)
THRESHOLD = 5 * KM

# The limits of docs/LIMITS.md that a load reaches.
LARGEST_FILE = 67_108_864
OBJECTS_TIMES_SLOTS = 4_000_000
MOST_SLOTS = 14 * 24 * 60

Place = Sequence[int]
HEADER = "CCSDS_OEM_VERS = 2.0\nCREATION_DATE = 2025-01-01T00:00:00\nORIGINATOR = HOSTILE\n"
RESTING = "0 0 0"


def epoch(time: int) -> str:
    """A time as `YYYY-MM-DDThh:mm:ss`, with six decimals where they are not zero."""
    return (START + timedelta(microseconds=time)).isoformat()


def kilometres(length: int) -> str:
    """A length in nm as kilometres, or a rate in nm/s as kilometres a second, without zeros at the end."""
    whole, part = divmod(abs(length), KM)
    decimals = f".{part:012}".rstrip("0").rstrip(".")
    return f"{'-' * (length < 0)}{whole}{decimals}"


def triple(values: Place) -> str:
    return " ".join(map(kilometres, values))


def node(time: int, place: Place, rate: Place | None = None) -> str:
    return f"{epoch(time)} {triple(place)} {RESTING if rate is None else triple(rate)}\n"


def metadata(name: str, first: int, last: int, designator: str | None = None) -> str:
    """The metadata of a segment with this useable span."""
    return (
        f"META_START\nOBJECT_NAME = {name}\nOBJECT_ID = {designator or name}\nCENTER_NAME = EARTH\nREF_FRAME = EME2000\nTIME_SYSTEM = UTC\n"
        f"START_TIME = {epoch(first)}\nSTOP_TIME = {epoch(last)}\nINTERPOLATION = HERMITE\nINTERPOLATION_DEGREE = 3\nMETA_STOP\n"
    )


def times(last: int, step: int = HOUR) -> list[int]:
    """Times from 0 on, each a step behind the one before, up to the last."""
    return [*range(0, last, step), last]


def resting(name: str, place: Place, last: int, designator: str | None = None) -> str:
    """An object at rest from 0 to the last time, with a state each hour."""
    at = f" {triple(place)} {RESTING}\n"
    return HEADER + metadata(name, 0, last, designator) + "".join(f"{epoch(time)}{at}" for time in times(last))


def matrix(draw: random.Random, time: int) -> str:
    """One of the shortest matrices that are kept, with an epoch of whole seconds."""
    first = draw.randrange(10)
    rows = "".join(f"{first}{' 0' * (row - 1)}\n" for row in range(1, 7))
    return f"EPOCH={epoch(time)}\nCOV_REF_FRAME=RTN\n{rows}"


def covariances(matrices: Iterable[str]) -> str:
    return "COVARIANCE_START\n" + "".join(matrices) + "COVARIANCE_STOP\n"


def put(folder: Path, name: str, text: str) -> None:
    (folder / name).write_text(text, encoding="ascii", newline="\n")


def slots_for(objects: int) -> int:
    """The most slots for which so many objects are taken."""
    return min(OBJECTS_TIMES_SLOTS // objects, MOST_SLOTS)


def certificate_head(version: int, objects: int, last: int) -> str:
    """The first four lines of a certificate for a window from 0 to the last time."""
    return f"CONJ-CERT {version}\nWINDOW {FIRST_TICK} {FIRST_TICK + last}\nTHRESHOLD {THRESHOLD}\nOBJECTS {objects}\n"


def near_cell(first_object: int, second_object: int, first: int, last: int) -> str:
    return f"CELL {first_object} {second_object} {FIRST_TICK + first} {FIRST_TICK + last} N\n"
