"""Decimals of exact fractions: each is rounded once, half to even."""
from __future__ import annotations

from decimal import ROUND_HALF_EVEN, Decimal, localcontext
from fractions import Fraction

from replay_output import Ratio


def exact(ratio: Ratio) -> Fraction:
    """The value of a fraction."""
    return Fraction(ratio.numerator, ratio.denominator)


def rounded(number: Fraction | Ratio, places: int) -> str:
    """A number as a decimal with `places` places."""
    units = round(Fraction(number.numerator, number.denominator) * 10**places)
    with localcontext() as context:
        context.prec, context.rounding = 100, ROUND_HALF_EVEN
        return format(Decimal(units).scaleb(-places), "f") if units else f"{0:.{places}f}"
