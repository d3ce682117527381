"""Factors, and the sources of them. A source is a function from a code to a Factor, or to
a Lack that names a code. Here too is the one rounding, which halved factors need first.
"""

from typing import NamedTuple

import tables

TONNE, CUBIC_METRE, KWH, KILOGRAM, TONNE_KILOMETRE, PIECE, SQUARE_METRE = range(1, 8)


def nearest(numerator, denominator):
    """The whole number nearest to a fraction, a half going up, also below zero."""
    return (2 * numerator + denominator) // (2 * denominator)


class Factor(NamedTuple):
    amount: int  # tenths of a gram for one unit
    unit: int


class Lack(NamedTuple):
    code: int


def project_list(rows):
    """The first row with the code answers, so later ones are not filed."""
    filed = {}
    for code, factor in rows:
        filed.setdefault(code, factor)
    return lambda code: filed.get(code, Lack(code))


def built_in(code):
    if code == tables.GRID_CODE:
        return Factor(tables.GRID_AMOUNT, KWH)
    if code in tables.REFRIGERANT_AMOUNTS:
        return Factor(tables.REFRIGERANT_AMOUNTS[code], KILOGRAM)
    return Lack(code)


def defaults(below):
    """What the source below has; else the built-in factor; else the lack below."""

    def source(code):
        found = below(code)
        if isinstance(found, Factor):
            return found
        standard = built_in(code)
        return standard if isinstance(standard, Factor) else found

    return source


def recycled(below):
    """Codes of the seventh digit one stand for the reused form of the code
    without it, at half its amount, provided that is told by the tonne."""

    def source(code):
        if not 1_000_001 <= code <= 1_999_999:
            return below(code)
        found = below(code - 1_000_000)
        if isinstance(found, Lack):
            return found
        if found.unit != TONNE:
            return Lack(code)
        return Factor(nearest(found.amount, 2), TONNE)

    return source
