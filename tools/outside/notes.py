"""The bytes of notes, and a feed in the making."""

from fractions import Fraction

import reference
from reference import Building, Factor, Line

LARGEST_U16, LARGEST_U32, LARGEST_U64 = 2**16 - 1, 2**32 - 1, 2**64 - 1

# Writing notes --------------------------------------------------------------


def le(value, size):
    return value.to_bytes(size, "little")


def framed(kind, body):
    return le(4 + len(body), 2) + le(kind, 2) + body


def building_note(b):
    fields = le(b.life, 2) + le(b.region, 2) + le(b.sun, 2) + le(b.type, 2) + le(b.reference, 2)
    return framed(1, le(b.area, 4) + fields)


def factor_note(code, factor):
    return framed(2, le(code, 4) + le(factor.amount, 4) + le(factor.unit, 2))


def entry_body(number, revision, line, last_eight):
    place = le(number, 4) + le(revision, 4) + le(line.row, 2) + le(line.span, 2)
    return place + le(line.code, 4) + le(last_eight, 8)


def entry_note(number, revision, line):
    return framed(3, entry_body(number, revision, line, line.thousandths))


def measured_note(number, revision, line, bits):
    """As an entry, but with the bits of a binary64 number; the line's own quantity
    is not written."""
    return framed(4, entry_body(number, revision, line, bits))


def withdrawal_note(number, revision):
    return framed(5, le(number, 4) + le(revision, 4))


# Binary64 numbers, built from their bits ------------------------------------

NEGATIVE = 1 << 63
INFINITY = 0x7FF << 52


def nearest_binary64(value):
    """Bits of the number nearest to a positive fraction, a tie going to the even."""
    exponent = 0
    while value >= Fraction(2) ** (exponent + 1):
        exponent += 1
    while exponent > -1022 and value < Fraction(2) ** exponent:
        exponent -= 1
    scaled = value * Fraction(2) ** (52 - exponent)
    whole, rest = divmod(scaled.numerator, scaled.denominator)
    if 2 * rest > scaled.denominator or (2 * rest == scaled.denominator and whole % 2):
        whole += 1
    # Adding, not joining, lets a rounded-up fraction carry into the exponent.
    return ((exponent + 1022) << 52) + whole


def as_measured(thousandths):
    """Bits that book as these thousandths."""
    return nearest_binary64(Fraction(thousandths, 1000)) if thousandths else 0


MILLION = nearest_binary64(Fraction(1_000_000))

# A feed in the making -------------------------------------------------------

# A thousandth under this code is one gram, in rows without a multiplier.
GRAM = (900_000_007, Factor(10_000, reference.TONNE))
HOUSE = Building(10_000, 50, 2, 2, 1, 0)


class Plan:
    """A building, its factor rows and the bytes of the notes after them."""

    def __init__(self, building=HOUSE, rows=(GRAM,)):
        self.building = building
        self.rows = list(rows)
        self.notes = []

    def parts(self):
        head = [building_note(self.building)] + [factor_note(*row) for row in self.rows]
        return head + self.notes

    def feed(self):
        return b"".join(self.parts())

    def source(self):
        return reference.recycled(reference.defaults(reference.project_list(self.rows)))

    def enter(self, number, revision, row, span, code, thousandths):
        self.notes.append(entry_note(number, revision, Line(row, span, code, thousandths)))

    def measure(self, number, revision, row, span, code, bits):
        self.notes.append(measured_note(number, revision, Line(row, span, code, 0), bits))

    def withdraw(self, number, revision):
        self.notes.append(withdrawal_note(number, revision))

    def grams(self, number, row, grams):
        self.enter(number, 0, row, 0, GRAM[0], grams)
