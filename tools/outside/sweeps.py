"""Feeds that go through a range one by one: bytes, fields, tables, limits."""

import random

import tables
from aim import graded_plan, reveal
from known import known_answers, worked_example
from notes import GRAM, HOUSE, LARGEST_U16, Plan
from reference import Building, Factor


def cut_sweep():
    """The worked example cut at each of its bytes."""
    whole = worked_example()
    for length in range(len(whole) + 1):
        yield "cut at each byte", whole[:length]


def every_type_of_building(area, life, reference_intensity):
    for region in range(1, 6):
        for sun in range(1, 5):
            for building_type in range(1, 9):
                yield Building(area, life, region, sun, building_type, reference_intensity)


def limit_sweep():
    """Each limit met exactly and passed by a gram; and, where there is none, a
    building that emits nothing or less, which any limit at all would let through."""
    rng = random.Random(0)
    for building in every_type_of_building(1_234, 7, 0):
        place = building.region, building.sun, building.type
        scale = 10 * building.area * building.life
        near_zero = tables.near_zero_limit(*place)
        weights = [0, -1]
        if near_zero is not None:
            weights = [near_zero * scale, near_zero * scale + 1]
        low_carbon = tables.low_carbon_limit(*place) * scale
        for weight in weights + [low_carbon, low_carbon + 1]:
            yield "each limit", graded_plan(rng, building, weight).feed()


def reduction_sweep():
    """Each reduction met exactly and passed by a gram, limits being far below. All
    is odd, so that some of the allowed weights are not whole grams."""
    rng = random.Random(0)
    for building in every_type_of_building(321, 7, 9_999):
        if building.sun != 1 + building.region % 4:
            continue
        for table in (tables.NEAR_ZERO_REDUCTION, tables.LOW_CARBON_REDUCTION):
            hundredfold = 100 - table[building.region]
            hundredfold *= 10 * building.reference * building.area * building.life
            for weight in (hundredfold // 100, hundredfold // 100 + 1):
                yield "each reduction", graded_plan(rng, building, weight).feed()


def unit_sweep():
    """Each row with each unit, and each row with spans at every edge."""
    rows = [(10 + unit, Factor(10_000, unit)) for unit in range(1, 8)]
    for row in range(24):
        plan = Plan(rows=[GRAM] + rows)
        number = 0
        for span in (0, 1, 2, 100, 101, 10_000, 10_001, LARGEST_U16):
            for unit in range(1, 8):
                number += 1
                plan.enter(number, 0, row, span, 10 + unit, 1_000 + number)
        yield "each row, unit and span", plan.feed()


def edges(low, high, size):
    """The ends of a range, one past each, and what only its higher bytes put out."""
    most = 256**size - 1
    beyond = {256**step + value for step in range(1, size) for value in (low, high)}
    values = {low, high, low - 1, high + 1, most, most - 1} | beyond
    return sorted(value for value in values if 0 <= value <= most)


def building_sweep():
    ranges = ((1, 10**8, 4), (1, 100, 2), (1, 5, 2), (1, 4, 2), (1, 8, 2), (0, 10_000, 2))
    for place, bounds in enumerate(ranges):
        for value in edges(*bounds):
            fields = list(HOUSE)
            fields[place] = value
            yield "each building field", Plan(Building(*fields)).feed()


def factor_row_sweep():
    """Fields at their edges; then a full list, whose first and last rows are asked for."""
    for amount in edges(0, 10**9, 4):
        yield "each factor row field", Plan(rows=[GRAM, (7, Factor(amount, 1))]).feed()
    for unit in edges(1, 7, 2):
        yield "each factor row field", Plan(rows=[GRAM, (7, Factor(1, unit))]).feed()
    plan = Plan(rows=[(5_000 + at, Factor(10_000 + at, 1)) for at in range(256)])
    for at in (0, 1, 2, 127, 128, 253, 254, 255, 256):
        plan.enter(at, 0, 1, 0, 5_000 + at, 10**6)
        plan.enter(1_000 + at, 0, 18, 0, 1_005_000 + at, 10**6)
    yield "each factor row field", plan.feed()


def factor_sweep():
    """Each built-in factor, plain and reused, seen through its kilograms."""
    for code in [*range(0, 3), *range(99, 118)]:
        plan = Plan(HOUSE._replace(life=1))
        for number, asked in enumerate((code, code + 1_000_000)):
            for row in (18, 21):
                plan.enter(10 * number + row, 0, row, int(row == 21), asked, 10_000_000)
        yield "each built-in factor", plan.feed()


def product_sweep():
    """The products nearest to the largest that fields can make: one below it, the
    largest itself, and four past it, which is the next there is."""
    for quantity, amount, life in (
        (142_857_143, 999_999_999, 7),
        (500_000_001, 999_999_998, 2),
        (10**9, 5 * 10**8, 2),
        (10**9, 10**7, 100),
        (562_425_889, 889_006_018, 2),
        (444_503_009, 562_425_889, 4),
    ):
        rows = [GRAM] + [(10 + unit, Factor(amount, unit)) for unit in (3, 4, 5)]
        plan = Plan(HOUSE._replace(life=life), rows)
        for row in (11, 12, 13, 14, 15, 16, 19, 20):
            plan.enter(row, 0, row, 0, 13, quantity)
        plan.enter(2, 0, 2, life, 15, quantity)
        plan.enter(8, 0, 8, life + 1, 15, quantity)
        plan.enter(17, 0, 17, 1, 13, quantity)
        plan.enter(18, 0, 18, 0, 13, quantity)
        for span in (1, 2, 3, 100):  # dividing comes after the product is judged
            plan.enter(100 + span, 0, 21, span, 14, quantity)
        yield "the largest products", reveal(random.Random(life), plan)


def sweeps():
    for name, feed, _ in known_answers():
        yield "known answers", feed
    yield from cut_sweep()
    yield from building_sweep()
    yield from factor_row_sweep()
    yield from unit_sweep()
    yield from factor_sweep()
    yield from product_sweep()
    yield from limit_sweep()
    yield from reduction_sweep()
