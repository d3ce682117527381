"""Random families of feeds, by content: what the notes say, their form being sound."""

from fractions import Fraction

import reference
import tables
from aim import graded_plan, reveal
from notes import GRAM, LARGEST_U32, Plan
from parts import (
    CODES,
    NUMBERS,
    fitting_codes,
    fitting_line,
    fitting_span,
    one_in,
    pick,
    random_bits,
    random_building,
    random_plan,
    random_rows,
    spoiled_entry,
    stray_note,
    up_to,
    written,
)
from reference import Factor, Line


def sound_projects(rng):
    return reveal(rng, random_plan(rng, notes=60))


def revisions(rng):
    """Few numbers, few revisions and few lines: each denial from the state comes up,
    and equal lines told once by counting and once by measuring."""
    plan = random_plan(rng, notes=0)
    codes_by_row = fitting_codes(plan)
    lines = [fitting_line(rng, codes_by_row) for _ in range(3)]
    lines.append(lines[0]._replace(thousandths=max(lines[0].thousandths, 1) - 1))
    numbers = [pick(rng, NUMBERS) for _ in range(rng.randrange(1, 6))]
    first = pick(rng, (0, 0, 2**31 - 2, LARGEST_U32 - 4))
    for _ in range(rng.randrange(5, 80)):
        number, revision = pick(rng, numbers), first + rng.randrange(5)
        if one_in(rng, 4):
            plan.withdraw(number, revision)
        else:
            plan.notes.append(written(rng, number, revision, pick(rng, lines)))
    return reveal(rng, plan)


SINGLE_ROWS = (1, 3, 9, 18, 22)  # without span or multiplier


def crowded_books(rng):
    """More numbers than places, then anything: amendments of those that have a
    place, new numbers that find none, unsound notes under either."""
    plan = Plan(random_building(rng), [GRAM])
    first = pick(rng, (0, 7, LARGEST_U32 - 700))
    numbers = [first + step for step in range(rng.randrange(505, 560))]
    rng.shuffle(numbers)
    for number in numbers:
        if one_in(rng, 5):
            plan.withdraw(number, rng.randrange(3))
        elif one_in(rng, 20):
            row, code = pick(rng, (0, 1, 23)), pick(rng, (9, GRAM[0]))
            plan.enter(number, 0, row, 0, code, up_to(rng, 2**40))
        else:
            row = pick(rng, SINGLE_ROWS)
            plan.enter(number, rng.randrange(3), row, 0, GRAM[0], up_to(rng, 999))
    for _ in range(rng.randrange(120)):
        number, revision = first + rng.randrange(600), rng.randrange(5)
        if one_in(rng, 4):
            plan.withdraw(number, revision)
        elif one_in(rng, 6):
            plan.enter(number, revision, 1, 1, GRAM[0], 1)
        else:
            plan.enter(number, revision, pick(rng, SINGLE_ROWS), 0, GRAM[0], up_to(rng, 999))
    return plan.feed()


def codes_and_layers(rng):
    """The same few codes listed twice, hidden, reused and asked for on every side."""
    count = rng.randrange(1, 12)
    rows = random_rows(rng, count)
    rows = [(code, factor._replace(unit=pick(rng, (1, 1, factor.unit)))) for code, factor in rows]
    plan = Plan(random_building(rng), [GRAM] + rows)
    listed = [code for code, _ in rows]
    for number in range(rng.randrange(1, 40)):
        code = pick(rng, (pick(rng, CODES), pick(rng, listed), 1_000_000 + pick(rng, listed)))
        row = rng.randrange(1, 23)
        line = Line(row, fitting_span(rng, row), code % 2**32, up_to(rng, 10**9))
        plan.notes.append(written(rng, number, 0, line))
    return reveal(rng, plan)


def rows_and_units(rng):
    """Every row against every unit; now and then a unit that none may have."""
    rows = [(10 + unit, Factor(up_to(rng, 10**6), unit)) for unit in range(1, 8)]
    if one_in(rng, 8):
        rows.append((19, Factor(1, pick(rng, (0, 8)))))
    plan = Plan(random_building(rng), [GRAM] + rows)
    for number in range(rng.randrange(1, 60)):
        row = rng.randrange(1, 23)
        code = pick(rng, (*range(10, 19), 1_000_011, 1_000_014))
        line = Line(row, fitting_span(rng, row), code, up_to(rng, 10**9))
        plan.notes.append(written(rng, number, 0, line))
    return reveal(rng, plan)


def one_fault(rng):
    """Sound notes with at most one field at an edge, in a project that would count."""
    return reveal(rng, faulty_plan(rng, 1))


def many_faults(rng):
    """Several faults in one note, and known numbers: the smallest has to win."""
    return reveal(rng, faulty_plan(rng, 4))


def faulty_plan(rng, most_faults):
    plan = random_plan(rng, notes=6, numbers=8)
    codes_by_row = fitting_codes(plan)
    for _ in range(rng.randrange(1, 40)):
        if one_in(rng, 10):
            plan.notes.append(stray_note(rng))
            continue
        line = fitting_line(rng, codes_by_row)
        number = pick(rng, (rng.randrange(8), rng.getrandbits(32), pick(rng, NUMBERS)))
        faults = rng.randrange(most_faults + 1)
        plan.notes.append(spoiled_entry(rng, number, rng.randrange(3), line, faults))
    return plan


def measured_quantities(rng):
    """Each number is told twice under one number: measured, and then counted as it
    should be booked or one off, so that a denial shows each thousandth."""
    plan = Plan(random_building(rng), [GRAM])
    row = pick(rng, (1, 9, 10, 18, 22))
    for number in range(rng.randrange(1, 40)):
        bits = random_bits(rng)
        plan.measure(number, 0, row, 0, GRAM[0], bits)
        value = reference.exact_binary64(bits)
        if value is not None and 0 <= value <= 1_000_001:
            booked = (value * 1000).__floor__() + rng.randrange(2)
            plan.enter(number, 0, row, 0, GRAM[0], booked)
    return reveal(rng, plan)


def large_products(rng):
    """Quantity, factor and multiplier about as large as may be, and one past."""
    life = pick(rng, (1, 2, 4, 5, 10, 32, 50, 64, 99, 100, rng.randrange(1, 101)))
    building = random_building(rng)._replace(life=life)
    amounts = [pick(rng, (10**9, 10**8, 5 * 10**8, 10**9 - 1, 10**7)), 1 + up_to(rng, 10**9 - 1)]
    plan = Plan(building, [GRAM])
    for which, amount in enumerate(amounts):
        plan.rows += [(11 + 10 * which + unit, Factor(amount, unit)) for unit in (1, 4, 5)]
    for number in range(rng.randrange(1, 20)):
        row = pick(rng, (1, 2, 8, 11, 12, 13, 15, 16, 17, 19, 20, 21, 22))
        span = fitting_span(rng, row)
        unit = 5 if row in reference.HAULAGE_ROWS else 4 if row == reference.REFRIGERANT_ROW else 1
        which = rng.randrange(2)
        times = amounts[which] * reference.multiplier(row, span, life)
        edge = 10**18 // times if times else 10**9
        thousandths = min(max(edge + rng.randrange(-1, 3), 0), 10**9)
        line = Line(row, span, 11 + 10 * which + unit, thousandths)
        plan.notes.append(written(rng, number, 0, line))
    return reveal(rng, plan)


def half_grams(rng):
    """Entries whose exact value lies at a half gram or next to it."""
    building = random_building(rng)
    life = building.life
    rows = [(30, Factor(1, 1)), (31, Factor(5_000, 3)), (34, Factor(5_001, 4))]
    rows += [(35, Factor(4_999, 5)), (36, Factor(up_to(rng, 10**7), 4))]
    rows += [(37, Factor(2 * up_to(rng, 10**5) + 1, 5))]
    plan = Plan(building, [GRAM] + rows)
    source = plan.source()
    codes_by_row = fitting_codes(plan)
    for number in range(rng.randrange(1, 30)):
        line = fitting_line(rng, codes_by_row)
        times = source(line.code).amount * reference.multiplier(line.row, line.span, life)
        if times:
            whole = 10_000 * reference.divisor(line.row, line.span)
            half = Fraction((2 * up_to(rng, 10**6) + 1) * whole, 2 * times)
            near = half.__floor__() + rng.randrange(-1, 3)
            line = line._replace(thousandths=min(max(near, 0), 10**9))
        plan.notes.append(written(rng, number, 0, line))
    return reveal(rng, plan)


def half_kilograms(rng):
    """Stage sums at a half kilogram and beside it, above nothing and below."""
    plan = Plan(random_building(rng)._replace(life=1), [GRAM])
    number = 0
    for rows in ((1,), (3, 9), (17, 18, 19, 20), (22,)):
        for _ in range(rng.randrange(3)):
            row = pick(rng, rows)
            edge = 1000 * up_to(rng, 10**5) + pick(rng, (0, 1, 400, 498, 499, 500, 501, 502, 999))
            plan.enter(number, 0, row, int(row == 17), GRAM[0], edge)
            number += 1
    return plan.feed() if one_in(rng, 2) else reveal(rng, plan)


def negative_sums(rng):
    """More subtracted than added, up to the largest sums there can be."""
    rows = [(40, Factor(10**9, 1)), (41, Factor(up_to(rng, 10**9), 2))]
    plan = Plan(random_building(rng), [GRAM] + rows)
    for number in range(pick(rng, (5, 20, 500, 512))):
        row = pick(rng, (9, 9, 19, 20, 1, 11))
        largest = 10**9 // reference.multiplier(row, 0, plan.building.life)
        thousandths = pick(rng, (largest, up_to(rng, largest)))
        plan.enter(number, 0, row, 0, pick(rng, (40, 41)), thousandths)
    return reveal(rng, plan)


EDGES_OF_A_LIMIT = (-1000, -501, -500, -1, 0, 0, 1, 1, 2, 499, 500, 501, 1000)


def with_noise(rng, plan):
    """Rows that no grade looks at, some of them large."""
    for number in range(300, 300 + rng.randrange(6)):
        row = pick(rng, (1, 3, 9, 10, 13, 16, 18, 20, 22))
        plan.enter(number, 0, row, 0, pick(rng, (GRAM[0], 20, 26)), up_to(rng, 10**7))
    rng.shuffle(plan.notes)
    return plan


def grade_limits(rng):
    """Energy at a limit and beside it, with renewables taken off; nothing at all
    where the building has no limit."""
    building = random_building(rng)
    place = building.region, building.sun, building.type
    limit = pick(rng, (tables.near_zero_limit(*place), tables.low_carbon_limit(*place)))
    weight = 10 * (limit or 0) * building.area * building.life
    weight += pick(rng, EDGES_OF_A_LIMIT)
    less = pick(rng, (0, 1, up_to(rng, 10**12)))
    return reveal(rng, with_noise(rng, graded_plan(rng, building, weight, less)))


def grade_reductions(rng):
    building = random_building(rng)
    if one_in(rng, 2):  # all odd: half a gram may be left over
        area, life, intensity = (2 * up_to(rng, most) + 1 for most in (49_999_999, 49, 4_999))
        building = building._replace(area=area, life=life, reference=intensity)
    if not one_in(rng, 6):
        building = building._replace(type=rng.randrange(2, 9))
    table = pick(rng, (tables.NEAR_ZERO_REDUCTION, tables.LOW_CARBON_REDUCTION))
    hundredfold = 100 - table[building.region]
    hundredfold *= 10 * building.reference * building.area * building.life
    weight = hundredfold // 100 + pick(rng, EDGES_OF_A_LIMIT)
    less = pick(rng, (0, 1, up_to(rng, 10**12)))
    return reveal(rng, with_noise(rng, graded_plan(rng, building, weight, less)))
