"""Lines and numbers of key-value notation (CCSDS 502.0-B-2, in the profile of docs/FORMATS.md)."""

from __future__ import annotations

import re
from dataclasses import dataclass
from enum import Enum

PRINTABLE = bytes(range(32, 127)) + b"\t"
KEY = re.compile(rb"[A-Z0-9_]+")
NUMBER = re.compile(rb"([+-]?)(\d*)(?:\.(\d*))?(?:[Ee]([+-]?\d{1,4}))?")
LARGEST_SCALED = 10**36
LARGEST_DECIMAL_DIGITS = 100
SIGNIFICANT_DIGITS = 18
KEPT_DIGITS = 4000
LONGEST_NAME = 200


class LineKind(Enum):
    """What a line is that is neither blank nor a comment."""

    MARK = "mark"
    PAIR = "pair"
    ROW = "row"


MARKS = frozenset((b"META_START", b"META_STOP", b"COVARIANCE_START", b"COVARIANCE_STOP"))


@dataclass(frozen=True)
class KvnFault(ValueError):
    """The first line, counted from 1, that is none of the lines that may stand in a file."""

    line: int
    cause: str


def is_file_name(name: str) -> bool:
    """One to 200 printable bytes of ASCII."""
    return 1 <= len(name) <= LONGEST_NAME and all(" " <= letter <= "~" for letter in name)


def split_lines(content: bytes) -> list[bytes]:
    """The lines of a file. A CR belongs to the end of a line only before LF."""
    lines = content.split(b"\n")
    last = lines.pop()
    ended = [line[:-1] if line.endswith(b"\r") else line for line in lines]
    return ended + [last] if last else ended


def is_comment(line: bytes) -> bool:
    """The word COMMENT after any blanks, and then a blank or the end of the line."""
    text = line.lstrip(b" \t")
    return text.startswith(b"COMMENT") and text[7:8] in (b"", b" ", b"\t")


def split_pair(line: bytes) -> tuple[bytes, bytes]:
    """The key and the value of a line with `=`, each without outer blanks."""
    key, _, value = line.partition(b"=")
    return key.strip(b" \t"), value.strip(b" \t")


def checked_lines(content: bytes) -> list[bytes]:
    """The lines of a file, each without outer blanks and a comment as an empty one, or the first fault of a line as such."""
    lines = split_lines(content)
    clean = not content.replace(b"\r\n", b"\n").translate(None, PRINTABLE + b"\n")
    told: list[bytes] = []
    for number, line in enumerate(lines, 1):
        text = line.strip(b" \t")
        if text.startswith(b"COMMENT") and is_comment(text):
            told.append(b"")
            continue
        if not clean and line.translate(None, PRINTABLE):
            raise KvnFault(number, "Kvn NotPrintable")
        if b"=" in text and not KEY.fullmatch(split_pair(text)[0]):
            raise KvnFault(number, "Kvn NoLineForm")
        told.append(text)
    return told


def kind_of(line: bytes) -> LineKind:
    """What a line is, by its text without outer blanks, which is not empty."""
    if line in MARKS:
        return LineKind.MARK
    return LineKind.PAIR if b"=" in line else LineKind.ROW


def whole_number(digits: bytes) -> tuple[int, int]:
    """The number that digits write, as a whole number and a power of ten. Of more than 4,000 significant digits those behind stand for
    one digit, 1 where one of them is not 0: this changes no rounding of a number that is in any range, and keeps long texts cheap."""
    significant = digits.lstrip(b"0")
    if len(significant) <= KEPT_DIGITS:
        return int(significant or b"0"), 0
    rest = significant[KEPT_DIGITS:]
    return int(significant[:KEPT_DIGITS] + (b"1" if rest.strip(b"0") else b"0")), len(rest) - 1


def number_parts(text: bytes) -> tuple[bool, int, int] | None:
    """A number as its sign (true: negative), its digits as a whole number and the power of ten that these count, or nothing."""
    match = NUMBER.fullmatch(text)
    if not match:
        return None
    sign, whole, fraction, exponent = match.groups()
    fraction = fraction or b""
    if not whole and not fraction:
        return None
    size, power = whole_number(whole + fraction)
    return sign == b"-", size, power + int(exponent or b"0") - len(fraction)


def read_scaled(text: bytes, places: int) -> int | None:
    """A number times 10^places as the nearest whole number, halves away from zero.

    Nothing where the text is no number; a number beyond 10^36 in size is OverflowError.
    """
    parts = number_parts(text)
    if parts is None:
        return None
    negative, digits, power = parts
    power += places
    if digits and len(str(digits)) + power > 38:
        raise OverflowError
    if power >= 0:
        size = digits * int(10**power) if digits else 0
    elif -power > len(str(digits)) + 1:
        size = 0
    else:
        divisor = int(10**-power)
        size = (2 * digits + divisor) // (2 * divisor)
    if size > LARGEST_SCALED:
        raise OverflowError
    return -size if negative else size


def is_decimal(text: bytes) -> bool:
    """Whether a text is a number that is below 10^100 in size when it is rounded to 18 significant digits."""
    parts = number_parts(text)
    if parts is None:
        return False
    _, digits, power = parts
    written = str(digits)
    dropped = len(written) - SIGNIFICANT_DIGITS
    if dropped > 0:
        digits = (2 * digits + 10**dropped) // (2 * 10**dropped)
        power += dropped
    return digits == 0 or len(str(digits)) + power <= LARGEST_DECIMAL_DIGITS
