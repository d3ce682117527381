"""Stored runs told by how their figures are booked and rounded."""

from fractions import Fraction

from known import of_grams, page
from notes import GRAM, MILLION, NEGATIVE, Plan, nearest_binary64
from reference import Factor

# A thousandth under this code is a kilogram.
KILOGRAM = (7, Factor(10_000_000, 1))


def half_up():
    """Running sums of grams are rounded to kilograms, a half going up."""
    # A half kilogram is rounded up.
    yield "half_up_500_g", of_grams((1, 500)), page(
        "1 1 1", "2 0 0", "3 0 0", "4 0 0", "total 1 1", "grade 2"
    )
    # 500 g, then 1,000 g subtracted: the running sums of 500 g and -500 g are 1 and 0,
    # and the second heading prints the step between them.
    yield "half_up_500_g_less_1000_g", of_grams((1, 500), (9, 1_000)), page(
        "1 1 1", "2 -1 1", "3 0 0", "4 0 0", "total 0 2", "grade 2"
    )
    # Below nothing up is towards nothing.
    yield "half_up_minus_500_g", of_grams((9, 500)), page(
        "1 0 0", "2 0 1", "3 0 0", "4 0 0", "total 0 1", "grade 2"
    )
    # A gram past the half.
    yield "half_up_minus_501_g", of_grams((9, 501)), page(
        "1 0 0", "2 -1 1", "3 0 0", "4 0 0", "total -1 1", "grade 2"
    )
    # Each alone would be printed as nothing, but headings add up to the total.
    yield "half_up_three_of_400_g", of_grams((1, 400), (3, 400), (18, 400)), page(
        "1 0 1", "2 1 1", "3 0 1", "4 0 0", "total 1 3", "grade 2"
    )


def booked_grams():
    """Each entry is booked to the gram before anything is added."""
    # A thousandth at 5,000 tenths of a gram is half a gram and books one, which brings
    # stage A to 500 g; one at 4,999 books none, and leaves the sum at 1,499 g.
    plan = Plan(rows=[GRAM, (3, Factor(5_000, 1)), (4, Factor(4_999, 1))])
    plan.enter(1, 0, 1, 0, 3, 1)
    plan.grams(2, 1, 499)
    plan.enter(3, 0, 3, 0, 4, 1)
    plan.grams(4, 3, 999)
    yield "booked_half_a_gram", plan.feed(), page(
        "1 1 2", "2 0 2", "3 0 0", "4 0 0", "total 1 4", "grade 2"
    )
    # Each of the yearly rows counts a kilogram for every one of 50 years: six are added,
    # water among them, and two subtracted.
    plan = Plan(rows=[KILOGRAM])
    for number, row in enumerate((11, 12, 13, 14, 15, 16, 19, 20), 1):
        plan.enter(number, 0, row, 0, KILOGRAM[0], 1)
    yield "booked_every_year", plan.feed(), page(
        "1 0 0", "2 0 0", "3 200 8", "4 0 0", "total 200 8", "grade 2"
    )


def measured(bits):
    plan = Plan(rows=[KILOGRAM])
    plan.measure(1, 0, 1, 0, KILOGRAM[0], bits)
    return plan.feed()


def measured_quantities():
    """A thousandth is a kilogram here, so that the page tells the thousandths."""
    # 62.5 thousandths exactly.
    yield "measured_0_0625", measured(nearest_binary64(Fraction(625, 10_000))), page(
        "1 63 1", "2 0 0", "3 0 0", "4 0 0", "total 63 1", "grade 2"
    )
    # 62.4 thousandths, or as near to it as the number comes.
    yield "measured_0_0624", measured(nearest_binary64(Fraction(624, 10_000))), page(
        "1 62 1", "2 0 0", "3 0 0", "4 0 0", "total 62 1", "grade 2"
    )
    # The most that is taken.
    yield "measured_million", measured(MILLION), page(
        "1 1000000000 1", "2 0 0", "3 0 0", "4 0 0", "total 1000000000 1", "grade 2"
    )
    # Negative zero is zero, and an entry like others.
    yield "measured_negative_zero", measured(NEGATIVE), page(
        "1 0 1", "2 0 0", "3 0 0", "4 0 0", "total 0 1", "grade 2"
    )


def rows_with_a_span():
    # A kilogram of R-134a in equipment of 15 years, over 50 years: 4,766,667 g. With
    # 833 g more stage C is at 4,767,500 g, which a gram less would print as 4767; with
    # 999 g more stage D is at 4,768,499 g, where a gram more would print a kilogram.
    plan = Plan()
    plan.enter(1, 0, 21, 15, 102, 1_000)
    plan.grams(2, 18, 833)
    plan.grams(3, 22, 999)
    yield "refrigerant_charge", plan.feed(), page(
        "1 0 0", "2 0 0", "3 4768 2", "4 0 1", "total 4768 3", "grade 2"
    )
    # 30 t over 500 km at 129 g: 1,935,000 g. 500 g and 999 g more tell a gram less
    # and a gram more, as above.
    plan = Plan(rows=[(5, Factor(1_290, 5)), GRAM])
    plan.enter(1, 0, 2, 500, 5, 30_000)
    plan.grams(2, 1, 500)
    plan.grams(3, 3, 999)
    yield "haulage", plan.feed(), page(
        "1 1936 2", "2 0 1", "3 0 0", "4 0 0", "total 1936 3", "grade 2"
    )
    # What serves as long as the building lives is renewed once, and what serves a year
    # longer never: that entry is nothing, and counts.
    plan = Plan(rows=[KILOGRAM])
    plan.enter(1, 0, 17, 50, KILOGRAM[0], 1)
    plan.enter(2, 0, 17, 51, KILOGRAM[0], 1)
    yield "renewal_past_the_life", plan.feed(), page(
        "1 0 0", "2 0 0", "3 1 2", "4 0 0", "total 1 2", "grade 2"
    )


def recycled_codes():
    # Half of 5 tenths of a gram is 3, so that a million tonnes are 300 kg. The second
    # code stands for something told by the square metre, which has no recycled form.
    plan = Plan(rows=[(7, Factor(5, 1)), (8, Factor(5, 7))])
    plan.enter(1, 0, 1, 0, 1_000_007, 1_000_000_000)
    plan.enter(2, 0, 1, 0, 1_000_008, 1_000_000_000)
    yield "recycled", plan.feed(), page(
        "denied 2 8", "1 300 1", "2 0 0", "3 0 0", "4 0 0", "total 300 1", "grade 2"
    )


def runs():
    yield from half_up()
    yield from booked_grams()
    yield from measured_quantities()
    yield from rows_with_a_span()
    yield from recycled_codes()
