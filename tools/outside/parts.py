"""Parts that random feeds are put together from.

Values are drawn with a liking for edges: an even draw from a wide range would
hardly ever meet one.
"""

from fractions import Fraction

import reference
import tables
from notes import (
    GRAM,
    INFINITY,
    LARGEST_U16,
    LARGEST_U32,
    LARGEST_U64,
    MILLION,
    NEGATIVE,
    Plan,
    as_measured,
    building_note,
    entry_note,
    factor_note,
    framed,
    measured_note,
    nearest_binary64,
)
from reference import Building, Factor, Line

# Drawing --------------------------------------------------------------------


def pick(rng, choices):
    return choices[rng.randrange(len(choices))]


def one_in(rng, times):
    return rng.randrange(times) == 0


def up_to(rng, most):
    """From 0 to `most`, each length of number about as likely as another."""
    return rng.randrange(min(most, 10 ** rng.randrange(len(str(most)) + 1)) + 1)


# Sound parts ----------------------------------------------------------------

# Codes that mean something: built-in, absent, reused, and the neighbours of each.
CODES = (
    0, 1, 2, 7, 8, 9, 100, 101, 102, 106, 115, 116, 999_998, 999_999, 1_000_000, 1_000_001,
    1_000_002, 1_000_007, 1_000_101, 1_000_102, 1_000_115, 1_999_998, 1_999_999, 2_000_000,
    2_000_001, 2_000_007, 3_000_007, 263, 2**16 + 7, 2**24 + 7, 2**24 + 1, 2**31 + 7, LARGEST_U32,
)  # fmt: skip

# Entry numbers; some differ in one byte only, whichever it is, as do some codes.
NUMBERS = (0, 1, 2, 3, 256, 2**16, 2**24, 2**31, LARGEST_U32 - 1, LARGEST_U32)


def random_building(rng):
    return Building(
        pick(rng, (1, 100_000_000, 10_000, 1 + up_to(rng, 99_999_999))),
        pick(rng, (1, 2, 50, 100, rng.randrange(1, 101))),
        rng.randrange(1, 6),
        rng.randrange(1, 5),
        rng.randrange(1, 9),
        pick(rng, (0, 1, 10_000, up_to(rng, 10_000))),
    )


def random_factor(rng):
    amount = pick(rng, (0, 1, 5, 4_999, 5_000, 5_001, 10**9 - 1, 10**9, up_to(rng, 10**9)))
    return Factor(amount, rng.randrange(1, 8))


def random_rows(rng, count):
    return [(pick(rng, CODES), random_factor(rng)) for _ in range(count)]


def fitting_span(rng, row):
    if row in reference.HAULAGE_ROWS:
        return pick(rng, (0, 1, 500, 10_000, rng.randrange(10_001)))
    if row in (reference.RENEWAL_ROW, reference.REFRIGERANT_ROW):
        return pick(rng, (1, 2, 15, 100, rng.randrange(1, 101)))
    return 0


def fitting_codes(plan):
    """By row, the codes that lead to a factor whose unit is fit there."""
    source = plan.source()
    asked = {code for code, _ in plan.rows} | {1} | set(tables.REFRIGERANT_AMOUNTS)
    asked |= {code + 1_000_000 for code in asked if code < 1_000_000}
    found = {code: source(code) for code in sorted(asked)}
    factors = {code: factor for code, factor in found.items() if isinstance(factor, Factor)}
    return {
        row: [code for code, factor in factors.items() if reference.unit_fits(row, factor.unit)]
        for row in range(1, 23)
    }


def random_thousandths(rng):
    return pick(rng, (0, 1, 10**9 - 1, 10**9, up_to(rng, 10**9), up_to(rng, 10**9)))


def fitting_line(rng, codes_by_row):
    row = pick(rng, [row for row, codes in codes_by_row.items() if codes])
    code = pick(rng, codes_by_row[row])
    return Line(row, fitting_span(rng, row), code, random_thousandths(rng))


def written(rng, number, revision, line):
    """The line as a counted entry or as a measured one that books the same."""
    if one_in(rng, 2):
        return entry_note(number, revision, line)
    return measured_note(number, revision, line, as_measured(line.thousandths))


# Binary64 numbers -----------------------------------------------------------

SPECIAL_BITS = (
    0,
    NEGATIVE,
    1,
    NEGATIVE | 1,
    (1 << 52) - 1,  # the largest subnormal
    1 << 52,  # the smallest normal
    NEGATIVE | 1 << 52,
    INFINITY,
    NEGATIVE | INFINITY,
    INFINITY | 1,  # not a number, signalling
    INFINITY | 1 << 51,  # not a number, quiet
    NEGATIVE | INFINITY | 1 << 51,
    LARGEST_U64,
    INFINITY - 1,  # the largest finite
    MILLION,
    MILLION - 1,
    MILLION + 1,
    NEGATIVE | MILLION,
    nearest_binary64(Fraction(1_000_000) - Fraction(1, 2000)),
    nearest_binary64(Fraction(1, 16)),
    nearest_binary64(Fraction(1, 16)) - 1,
    nearest_binary64(Fraction(1, 16)) + 1,
    nearest_binary64(Fraction(624, 10_000)),
    nearest_binary64(Fraction(5, 10_000)),
    nearest_binary64(Fraction(5, 10_000)) - 1,
    nearest_binary64(Fraction(15, 10_000)),
    nearest_binary64(Fraction(1)),
    NEGATIVE | nearest_binary64(Fraction(1)),
    nearest_binary64(Fraction(1, 10)),
    nearest_binary64(Fraction(2**20)),
)


def random_bits(rng):
    """A binary64 number: special, an exact or a nearly exact half of a thousandth
    and its neighbours, of a likely size, or any at all."""
    way = rng.randrange(6)
    if way == 0:
        return pick(rng, SPECIAL_BITS)
    if way == 1:  # odd sixteenths are the exact halves of a thousandth
        return nearest_binary64(Fraction(2 * up_to(rng, 7_999_999) + 1, 16)) + rng.randrange(-1, 2)
    if way == 2:
        return nearest_binary64(Fraction(2 * up_to(rng, 10**9) + 1, 2000)) + rng.randrange(-1, 2)
    if way == 3:
        return (rng.randrange(1023 - 14, 1023 + 21) << 52) | rng.getrandbits(52)
    if way == 4:  # few bits set, so that ties and exact thousandths come up
        return (rng.randrange(1023 - 14, 1023 + 20) << 52) | rng.getrandbits(6) << 46
    return rng.getrandbits(64)


# Parts that are not sound ---------------------------------------------------

ROW_EDGES = (*range(24), 255, 256, 257, 0x8001, LARGEST_U16)
SPAN_EDGES = (0, 1, 2, 50, 99, 100, 101, 9_999, 10_000, 10_001, 256, 0x8000, LARGEST_U16)
COUNT_EDGES = (
    0, 1, 10**9 - 1, 10**9, 10**9 + 1, 2**31, LARGEST_U32, 2**32, 2**32 + 5, 2**63, LARGEST_U64,
)  # fmt: skip


def spoiled_entry(rng, number, revision, line, faults):
    """A sound line with some of its fields put to an edge or past it."""
    row, span, code = line.row, line.span, line.code
    counted, bits, measured = line.thousandths, as_measured(line.thousandths), one_in(rng, 2)
    for _ in range(faults):
        what = rng.randrange(4)
        if what == 0:
            row = pick(rng, ROW_EDGES)
        elif what == 1:
            span = pick(rng, SPAN_EDGES)
        elif what == 2:
            code = pick(rng, CODES)
        else:
            counted, bits = pick(rng, COUNT_EDGES), random_bits(rng)
    spoiled = Line(row, span, code, counted)
    if measured:
        return measured_note(number, revision, spoiled, bits)
    return entry_note(number, revision, spoiled)


def stray_note(rng):
    """A note that sending does not take, or one of a wrong length."""
    way = rng.randrange(4)
    if way == 0:
        return building_note(random_building(rng))
    if way == 1:
        return factor_note(pick(rng, CODES), random_factor(rng))
    kind = pick(rng, (0, 1, 2, 3, 4, 5, 6, 7, 255, 256, 259, 0x8003, LARGEST_U16))
    usual = reference.LENGTHS.get(kind, 28)
    length = pick(rng, (4, 5, 11, 12, 13, 14, 18, 27, 28, 29, usual - 1, usual + 1, 100))
    return framed(kind, rng.randbytes(length - 4))


# Whole projects -------------------------------------------------------------


def random_plan(rng, rows=6, notes=20, numbers=1_000):
    """A sound project: fitting lines under mostly fresh numbers, some withdrawn."""
    plan = Plan(random_building(rng), [GRAM] + random_rows(rng, rng.randrange(rows + 1)))
    if one_in(rng, 2):
        rng.shuffle(plan.rows)
    codes_by_row = fitting_codes(plan)
    for _ in range(rng.randrange(notes + 1)):
        number, revision = rng.randrange(numbers), rng.randrange(3)
        if one_in(rng, 8):
            plan.withdraw(number, revision)
        else:
            plan.notes.append(written(rng, number, revision, fitting_line(rng, codes_by_row)))
    return plan
