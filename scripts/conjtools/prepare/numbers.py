"""Decimal numbers as whole units and the fraction of a unit that is left."""
from __future__ import annotations

import re
from decimal import ROUND_HALF_UP, Context, Decimal

NUMBER = re.compile(r"[+-]?(?:[0-9]+\.?[0-9]*|\.[0-9]+)(?:[eE][+-]?[0-9]{1,4})?")
EXACT = Context(prec=400)
KILOMETRE_DIGITS = 12
"""A kilometre is 10^12 nm."""


class BadNumber(ValueError):
    """A text that says no number that is taken; the message says why."""


def whole_and_part(text: str) -> tuple[int, float]:
    """Kilometres as nm: the nearest whole number, halves away from zero, and what is left, as the nearest double."""
    if NUMBER.fullmatch(text) is None:
        raise BadNumber(f"{text!r} is no number")
    number = Decimal(text)
    if number and not -60 < number.adjusted() < 6:
        if number.adjusted() >= 6:
            raise BadNumber(f"{text} km is beyond a million kilometres")
        return 0, 0.0
    scaled = number.scaleb(KILOMETRE_DIGITS, EXACT)
    whole = scaled.to_integral_value(ROUND_HALF_UP)
    return int(whole), float(EXACT.subtract(scaled, whole))


def matrix_value(text: str) -> float:
    """A number of a covariance."""
    if NUMBER.fullmatch(text) is None:
        raise BadNumber(f"{text!r} is no number")
    value = float(text)
    if not abs(value) < 1e100:
        raise BadNumber(f"{text} is 10^100 or more in size")
    return value
