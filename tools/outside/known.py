"""Feeds whose output is set down by hand from the rules.

They hold the reference to the rules, as the reference holds the program.
"""

from fractions import Fraction

from notes import (
    GRAM,
    HOUSE,
    MILLION,
    Plan,
    building_note,
    framed,
    nearest_binary64,
    withdrawal_note,
)
from reference import Factor


def page(*lines):
    return "".join(line + "\n" for line in lines).encode()


def worked_example():
    plan = Plan(rows=[(7, Factor(7_000_000, 1)), (8, Factor(100_000, 7))])
    plan.enter(1, 0, 1, 0, 7, 2_500)
    plan.withdraw(2, 2)
    plan.enter(2, 1, 1, 0, 7, 1_000)
    plan.enter(3, 0, 12, 0, 1, 20_000_000)
    plan.enter(4, 0, 22, 0, 9, 1)
    plan.enter(5, 0, 20, 0, 8, 300_000)
    return plan.feed()


WORKED_REPORT = page(
    "denied 3 21",
    "denied 5 8",
    "1 1750 1",
    "2 0 0",
    "3 350000 2",
    "4 0 0",
    "total 351750 3",
    "grade 2",
)


def entries_of_one_thousandth(amount):
    """Five hundred: half a kilogram if each books a gram, nothing if none does."""
    plan = Plan(rows=[(7, Factor(amount, 1))])
    for number in range(500):
        plan.enter(number, 0, 1, 0, 7, 1)
    return plan.feed()


def measured_against_counted(value, first, second):
    """The sheet tells whether two quantities are booked alike by its denial."""
    plan = Plan()
    plan.measure(1, 0, 1, 0, GRAM[0], nearest_binary64(value))
    plan.enter(1, 0, 1, 0, GRAM[0], first)
    plan.enter(1, 0, 1, 0, GRAM[0], second)
    return plan.feed()


def up_to_a_million():
    plan = Plan(rows=[(7, Factor(10, 1))])
    plan.measure(1, 0, 1, 0, 7, MILLION)
    plan.measure(2, 0, 1, 0, 7, MILLION + 1)
    return plan.feed()


def refrigerant(less):
    """The charge of one kilogram less some grams on the site."""
    plan = Plan()
    plan.enter(1, 0, 21, 15, 102, 1_000)
    plan.grams(2, 9, less)
    return plan.feed()


def haulage(less):
    plan = Plan(rows=[(5, Factor(1_290, 5)), GRAM])
    plan.enter(1, 0, 2, 500, 5, 30_000)
    plan.grams(2, 9, less)
    return plan.feed()


def largest_product(life):
    plan = Plan(HOUSE._replace(life=life), [(7, Factor(10**9, 3))])
    plan.enter(1, 0, 11, 0, 7, 10**9)
    return plan.feed()


def of_grams(*row_and_grams):
    plan = Plan()
    for number, (row, grams) in enumerate(row_and_grams):
        plan.grams(number, row, grams)
    return plan.feed()


def late_amendment():
    plan = Plan()
    plan.withdraw(1, 2)
    plan.enter(1, 1, 1, 0, GRAM[0], 5_000)
    plan.enter(1, 3, 1, 0, GRAM[0], 7_000)
    return plan.feed()


def reused():
    plan = Plan(rows=[(7, Factor(5, 1))])
    plan.enter(1, 0, 1, 0, 1_000_007, 10**9)
    return plan.feed()


def of_rows(count):
    return Plan(rows=[(code, Factor(1, 1)) for code in range(count)]).feed()


# The page and the grade of the house with nothing counted.
BARE = ("1 0 0", "2 0 0", "3 0 0", "4 0 0", "total 0 0", "grade 2")


def known_answers():
    """Name, feed and output, each output set down by hand from the rules."""
    return (
        ("the worked example", worked_example(), WORKED_REPORT),
        (
            "half a gram books one",
            entries_of_one_thousandth(5_000),
            page("1 1 500", "2 0 0", "3 0 0", "4 0 0", "total 1 500", "grade 2"),
        ),
        (
            "less than half a gram books none",
            entries_of_one_thousandth(4_999),
            page("1 0 500", "2 0 0", "3 0 0", "4 0 0", "total 0 500", "grade 2"),
        ),
        (
            "0.0625 books 63 thousandths",
            measured_against_counted(Fraction(625, 10_000), 63, 62),
            page("denied 2 21", "denied 3 22", "1 0 1", *BARE[1:4], "total 0 1", "grade 2"),
        ),
        (
            "0.0624 books 62 thousandths",
            measured_against_counted(Fraction(624, 10_000), 62, 63),
            page("denied 2 21", "denied 3 22", "1 0 1", *BARE[1:4], "total 0 1", "grade 2"),
        ),
        (
            "a million is taken, the next number is not",
            up_to_a_million(),
            page("denied 2 7", "1 1000 1", *BARE[1:4], "total 1000 1", "grade 2"),
        ),
        (
            "a refrigerant charge is no less than 4,766,667 g",
            refrigerant(4_766_167),
            page("1 0 0", "2 -4766 1", "3 4767 1", "4 0 0", "total 1 2", "grade 2"),
        ),
        (
            "a refrigerant charge is no more than 4,766,667 g",
            refrigerant(4_766_168),
            page("1 0 0", "2 -4766 1", "3 4766 1", "4 0 0", "total 0 2", "grade 2"),
        ),
        (
            "a haul is no less than 1,935,000 g",
            haulage(1_934_500),
            page("1 1935 1", "2 -1934 1", "3 0 0", "4 0 0", "total 1 2", "grade 2"),
        ),
        (
            "a haul is no more than 1,935,000 g",
            haulage(1_934_501),
            page("1 1935 1", "2 -1935 1", "3 0 0", "4 0 0", "total 0 2", "grade 2"),
        ),
        (
            "the largest product is taken",
            largest_product(1),
            page(*BARE[:2], "3 100000000000 1", "4 0 0", "total 100000000000 1", "grade 0"),
        ),
        ("twice the largest product is not", largest_product(2), page("denied 1 10", *BARE)),
        (
            "three headings of 400 g",
            of_grams((1, 400), (3, 400), (18, 400)),
            page("1 0 1", "2 1 1", "3 0 1", "4 0 0", "total 1 3", "grade 2"),
        ),
        (
            "500 g, then 1,000 g subtracted",
            of_grams((1, 500), (9, 1_000)),
            page("1 1 1", "2 -1 1", "3 0 0", "4 0 0", "total 0 2", "grade 2"),
        ),
        (
            "minus 500 g is nothing",
            of_grams((9, 500)),
            page("1 0 0", "2 0 1", "3 0 0", "4 0 0", "total 0 1", "grade 2"),
        ),
        (
            "minus 501 g is minus one kilogram",
            of_grams((9, 501)),
            page("1 0 0", "2 -1 1", "3 0 0", "4 0 0", "total -1 1", "grade 2"),
        ),
        (
            "an amendment late after its withdrawal",
            late_amendment(),
            page("denied 2 21", "1 7 1", *BARE[1:4], "total 7 1", "grade 2"),
        ),
        (
            "a reused amount of 5 is 3",
            reused(),
            page("1 300 1", *BARE[1:4], "total 300 1", "grade 2"),
        ),
        ("a building alone", building_note(HOUSE), page(*BARE)),
        ("a byte after the building", building_note(HOUSE) + b"\0", page("denied 1 1", *BARE)),
        ("no bytes", b"", page("denied 0 1")),
        ("no building", withdrawal_note(1, 1), page("denied 0 2")),
        ("256 factor rows", of_rows(256), page(*BARE)),
        ("257 factor rows", of_rows(257), page("denied 0 24")),
        ("a feed one byte too long", worked_example().ljust(65_537, b"\0"), page("denied 0 25")),
        (
            "a feed of the largest length",
            building_note(HOUSE) + framed(9, bytes(65_536 - 18 - 4)),
            page("denied 1 2", *BARE),
        ),
    )
