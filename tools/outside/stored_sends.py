"""Stored runs told by what is denied of their sends, and what is let in."""

from fractions import Fraction

from known import BARE, page
from notes import (
    HOUSE,
    INFINITY,
    MILLION,
    NEGATIVE,
    Plan,
    building_note,
    entry_note,
    factor_note,
    framed,
    measured_note,
    nearest_binary64,
    withdrawal_note,
)
from reference import Factor, Line

# Codes of factor rows, and one that has none. A thousandth of a tonne of cement is
# a kilogram; the fuel's factor is the largest there may be.
CEMENT, ROAD, FUEL, LACKING = 7, 5, 3, 9
ROWS = [
    (CEMENT, Factor(10_000_000, 1)),
    (ROAD, Factor(10, 5)),
    (FUEL, Factor(1_000_000_000, 3)),
]
NOT_A_NUMBER = INFINITY | 1


def unsound(row, span, code, quantity):
    """An entry for the first place. Its revision is higher than any that is let in,
    so that it would show if one of them took the place."""
    return entry_note(1, 9, Line(row, span, code, quantity))


def unsound_measured(bits):
    return measured_note(1, 9, Line(1, 0, CEMENT, 0), bits)


# Each send with the line that answers it; what is let in has none.
EVERY_REFUSAL = (
    # 2: kinds that sending does not take.
    (building_note(HOUSE), "denied 1 2"),
    (factor_note(*ROWS[0]), "denied 2 2"),
    (framed(6, bytes(24)), "denied 3 2"),
    # 3: an entry a byte short, and others a byte too long.
    (framed(3, bytes(23)), "denied 4 3"),
    (framed(4, bytes(25)), "denied 5 3"),
    (framed(5, bytes(9)), "denied 6 3"),
    # 5: rows go from 1 to 22.
    (unsound(0, 0, CEMENT, 1), "denied 7 5"),
    (unsound(23, 0, CEMENT, 1), "denied 8 5"),
    # 6: no span, one for haulage, for renewal and for refrigerant.
    (unsound(1, 1, CEMENT, 1), "denied 9 6"),
    (unsound(2, 10_001, ROAD, 1), "denied 10 6"),
    (unsound(17, 0, CEMENT, 1), "denied 11 6"),
    (unsound(21, 101, 102, 1), "denied 12 6"),
    # 7: counted too large; measured, and no number, or out of range by the least.
    (unsound(1, 0, CEMENT, 1_000_000_001), "denied 13 7"),
    (unsound_measured(NOT_A_NUMBER), "denied 14 7"),
    (unsound_measured(INFINITY), "denied 15 7"),
    (unsound_measured(NEGATIVE | 1), "denied 16 7"),
    (unsound_measured(MILLION + 1), "denied 17 7"),
    # 8: no factor for the code.
    (unsound(1, 0, LACKING, 1), "denied 18 8"),
    # 9: haulage by the tonne, production by the tonne-kilometre, refrigerant by the tonne.
    (unsound(2, 0, CEMENT, 1), "denied 19 9"),
    (unsound(1, 0, ROAD, 1), "denied 20 9"),
    (unsound(21, 15, CEMENT, 1), "denied 21 9"),
    # 10: the largest quantity at the largest factor, every year of fifty.
    (unsound(11, 0, FUEL, 1_000_000_000), "denied 22 10"),
    # Two kilograms are let in, as none of the above has taken the number.
    (entry_note(1, 5, Line(1, 0, CEMENT, 2)), ""),
    # 21: a lower revision; the same and an equal line, counted and measured.
    (entry_note(1, 4, Line(1, 0, CEMENT, 3)), "denied 24 21"),
    (entry_note(1, 5, Line(1, 0, CEMENT, 2)), "denied 25 21"),
    (
        measured_note(1, 5, Line(1, 0, CEMENT, 0), nearest_binary64(Fraction(2, 1000))),
        "denied 26 21",
    ),
    # 22: the same revision and another line; a withdrawal is another line too.
    (entry_note(1, 5, Line(1, 0, CEMENT, 3)), "denied 27 22"),
    (withdrawal_note(1, 5), "denied 28 22"),
    (withdrawal_note(2, 1), ""),
    (entry_note(2, 1, Line(1, 0, CEMENT, 4)), "denied 30 22"),
    # 1: too few bytes for a note, and the end of sending.
    (b"\x1c\0\3", "denied 31 1"),
)


def every_refusal():
    # All that a send can be denied for, save want of a place, each fault alone.
    plan = Plan(rows=ROWS)
    plan.notes += [note for note, _ in EVERY_REFUSAL]
    yield "every_refusal", plan.feed(), page(
        *(line for _, line in EVERY_REFUSAL if line),
        "1 2 1",
        "2 0 0",
        "3 0 0",
        "4 0 0",
        "total 2 1",
        "grade 2",
    )


def kilograms_under(numbers):
    """A kilogram of cement under each number from 1."""
    plan = Plan(rows=ROWS)
    for number in range(1, numbers + 1):
        plan.enter(number, 0, 1, 0, CEMENT, 1)
    return plan


def places():
    # Every place of the book is taken.
    yield "numbers_512", kilograms_under(512).feed(), page(
        "1 512 512", "2 0 0", "3 0 0", "4 0 0", "total 512 512", "grade 2"
    )
    # One number more finds no place. The first number is amended to ten kilograms
    # all the same, while a withdrawal of an unknown number wants a place too.
    plan = kilograms_under(513)
    plan.enter(1, 1, 1, 0, CEMENT, 10)
    plan.withdraw(514, 0)
    yield "numbers_513", plan.feed(), page(
        "denied 513 23",
        "denied 515 23",
        "1 521 512",
        "2 0 0",
        "3 0 0",
        "4 0 0",
        "total 521 512",
        "grade 2",
    )


def withdrawals():
    # The withdrawal comes in ahead of the amendment it follows: the amendment does
    # not set the entry up again, but a higher revision does.
    plan = Plan(rows=ROWS)
    plan.withdraw(1, 2)
    plan.enter(1, 1, 1, 0, CEMENT, 5)
    plan.enter(1, 3, 1, 0, CEMENT, 7)
    yield "withdrawal_ahead", plan.feed(), page(
        "denied 2 21", "1 7 1", "2 0 0", "3 0 0", "4 0 0", "total 7 1", "grade 2"
    )
    # Sending both again brings nothing back.
    plan = Plan(rows=ROWS)
    for _ in range(2):
        plan.enter(1, 0, 1, 0, CEMENT, 5)
        plan.withdraw(1, 1)
    yield "withdrawn_and_resent", plan.feed(), page("denied 3 21", "denied 4 21", *BARE)


def runs():
    yield from every_refusal()
    yield from places()
    yield from withdrawals()
