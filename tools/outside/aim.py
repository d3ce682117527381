"""Feeds brought to the edge where one gram more changes what is printed.

The reference is used here only to aim, to learn how many grams are wanted. What
the program has to print is worked out afresh from the feed.
"""

import reference
from notes import GRAM, Plan
from parts import pick
from reference import Factor

PROBE_ROWS = (1, 3, 18, 22)  # in each stage one without span or multiplier, that is added
FIRST_PROBE_NUMBER = 4_000_000_000


def reveal(rng, plan):
    """Bring the running sum of each stage beside a half kilogram, where one gram
    wrongly booked changes the page."""
    if GRAM not in plan.rows:
        return plan.feed()
    try:
        sheet, _ = reference.open_and_send(plan.feed())
    except reference.Refused:
        return plan.feed()
    by_row, _ = sheet.row_sums()
    running = 0
    for stage, row in enumerate(PROBE_ROWS):
        running += sum(by_row[each] for each in reference.STAGES[stage])
        wanted = (pick(rng, (499, 500, 500, 501)) - running) % 1000
        plan.grams(FIRST_PROBE_NUMBER + stage, row, wanted)
        running += wanted
    return plan.feed()


# Factors by the kWh: one of a tenth of a gram, then from a gram up, each tenfold.
LADDER = [(20, Factor(1, 3))] + [(21 + j, Factor(10 ** (4 + j), 3)) for j in range(6)]


def enter_exactly(rng, plan, rows, grams, first_number):
    """Entries in yearly rows whose booked grams add up to exactly `grams`."""
    life, number = plan.building.life, first_number
    for code, factor in reversed(LADDER[1:]):
        step = factor.amount // 10_000 * life
        most = min(10**9, 10**18 // (factor.amount * life))
        while grams >= step:
            thousandths = min(grams // step, most)
            grams -= thousandths * step
            plan.enter(number, 0, pick(rng, rows), 0, code, thousandths)
            number += 1
    assert grams < life
    if grams:
        # Less than a year's step is left; a small factor comes near enough to
        # book it, since its own step is less than half a gram.
        plan.enter(number, 0, pick(rng, rows), 0, 20, reference.nearest(grams * 10_000, life))


def graded_plan(rng, building, weight, less=0):
    """A plan whose energy weighs exactly `weight` grams, `less` grams of renewables
    being part of the sum."""
    plan = Plan(building, [GRAM] + LADDER)
    less = max(less, -weight)
    enter_exactly(rng, plan, (11, 12, 14, 15), weight + less, 100)
    enter_exactly(rng, plan, (19,), less, 200)
    return plan
