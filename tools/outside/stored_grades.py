"""Stored runs told by their grade: each way to a grade met exactly, and passed by a
gram; and buildings for which grade 2 has no limit.

The kilograms are worked out by hand from the printed tables, as the comment beside
each shows: kilograms by square metre and year, square metres, years.
"""

from known import page
from notes import Plan, building_note
from reference import Building, Factor

# A thousandth under these codes, every year of the life, is a gram and a kilogram.
GRAM, KILOGRAM = 7, 8
HOME, SMALL_OFFICE, LARGE_OFFICE, SMALL_HOTEL, LARGE_HOTEL, SHOP, HOSPITAL, SCHOOL = range(1, 9)


def energy(building, kilograms, more_grams):
    """Energy burnt and bought for equipment and by users, less renewables, all over
    the life of the building. Each of the five rows is needed to make the sum."""
    yearly, left_over = divmod(10_000, building.life)
    assert left_over == 0
    rows = [(GRAM, Factor(yearly, 3)), (KILOGRAM, Factor(1_000 * yearly, 3))]
    plan = Plan(building, rows)
    plan.enter(1, 0, 11, 0, GRAM, 10_000 + more_grams)
    plan.enter(2, 0, 12, 0, KILOGRAM, kilograms - 20)
    plan.enter(3, 0, 14, 0, KILOGRAM, 20)
    plan.enter(4, 0, 15, 0, KILOGRAM, 30)
    plan.enter(5, 0, 19, 0, KILOGRAM, 40)
    return plan.feed()


def graded(kilograms, grade):
    """A gram more is too little to be printed, except by the grade."""
    return page(
        "1 0 0", "2 0 0", f"3 {kilograms} 5", "4 0 0", f"total {kilograms} 5", f"grade {grade}"
    )


def met_and_passed(name, building, kilograms, grade):
    yield name, energy(building, kilograms, 0), graded(kilograms, grade)
    yield f"{name}_past", energy(building, kilograms, 1), graded(kilograms, grade - 1)


def limit(grade, region, sun, building_type, area, life, kilograms):
    """No reference, and so the limit alone can give the grade."""
    building = Building(10 * area, life, region, sun, building_type, 0)
    return met_and_passed(f"grade_{grade}_limit_region_{region}", building, kilograms, grade)


def ratio(grade, region, sun, building_type, reference, area, life, kilograms):
    """The reference is so high that the building is past its limit, if there is one."""
    building = Building(10 * area, life, region, sun, building_type, 10 * reference)
    return met_and_passed(f"grade_{grade}_ratio_region_{region}", building, kilograms, grade)


def limits():
    # Grade, region, sun class, type, square metres, years; kilograms at the limit.
    # Past the limit of grade 1 a building has none.
    yield from limit(1, 1, 4, HOME, 100, 50, 115_000)  # 23 x 100 x 50
    yield from limit(1, 2, 1, LARGE_OFFICE, 2_000, 40, 2_000_000)  # 25 x 2,000 x 40
    yield from limit(1, 3, 3, LARGE_HOTEL, 1_000, 20, 860_000)  # 43 x 1,000 x 20
    yield from limit(1, 4, 1, HOSPITAL, 500, 80, 2_600_000)  # 65 x 500 x 80
    yield from limit(1, 5, 2, SCHOOL, 300, 25, 97_500)  # 13 x 300 x 25
    # Past that of grade 2 it falls to grade 1, whose limit is wider.
    yield from limit(2, 1, 1, HOSPITAL, 100, 10, 40_500)  # 40.5 x 100 x 10
    yield from limit(2, 2, 2, HOME, 100, 50, 70_000)  # 14 x 100 x 50
    yield from limit(2, 3, 4, SMALL_OFFICE, 400, 50, 340_000)  # 17 x 400 x 50
    yield from limit(2, 4, 3, SHOP, 5_000, 40, 14_000_000)  # 70 x 5,000 x 40
    yield from limit(2, 5, 3, SMALL_HOTEL, 250, 100, 475_000)  # 19 x 250 x 100


def ratios():
    # Grade, region, sun class, type, reference, square metres, years; kilograms.
    # Grade 1: the reference less 40 per cent in region 1, 35 in 2, 30 in the others.
    yield from ratio(1, 1, 3, HOSPITAL, 100, 500, 50, 1_500_000)  # 60 x 500 x 50, limit 55
    yield from ratio(1, 2, 2, SCHOOL, 40, 200, 80, 416_000)  # 26 x 200 x 80, limit 16
    yield from ratio(1, 3, 4, SMALL_HOTEL, 50, 150, 100, 525_000)  # 35 x 150 x 100, limit 33
    yield from ratio(1, 4, 3, SMALL_OFFICE, 35, 1_000, 40, 980_000)  # 24.5 x 1,000 x 40, limit 23
    yield from ratio(1, 5, 4, LARGE_OFFICE, 33, 700, 20, 323_400)  # 23.1 x 700 x 20, limit 22
    # Grade 2: less 55 per cent in region 1, 50 in 2, 45 in the others. A gram past it
    # a building falls to grade 1, whose reduction is smaller.
    yield from ratio(2, 1, 1, SMALL_OFFICE, 40, 1_000, 50, 900_000)  # 18 x 1,000 x 50, limit 16
    yield from ratio(2, 2, 4, LARGE_OFFICE, 60, 2_000, 20, 1_200_000)  # 30 x 2,000 x 20, no limit
    yield from ratio(2, 3, 3, SCHOOL, 36, 600, 40, 475_200)  # 19.8 x 600 x 40, limit 16
    yield from ratio(2, 4, 2, LARGE_HOTEL, 80, 3_000, 10, 1_320_000)  # 44 x 3,000 x 10, limit 33
    yield from ratio(2, 5, 1, SHOP, 120, 4_000, 25, 6_600_000)  # 66 x 4,000 x 25, no limit


# Regions and sun classes without a limit for grade 2, of homes and of all others, and
# one of the others to stand for them.
WITHOUT_LIMIT = (
    (1, 4, "small_office", SMALL_OFFICE),
    (2, 4, "large_office", LARGE_OFFICE),
    (3, 1, "small_hotel", SMALL_HOTEL),
    (3, 2, "large_hotel", LARGE_HOTEL),
    (4, 1, "shop", SHOP),
    (4, 4, "hospital", HOSPITAL),
    (5, 1, "school", SCHOOL),
)


def without_limit():
    """A building that emits nothing would be let through by any limit, and keeps that
    of grade 1."""
    nothing = page("1 0 0", "2 0 0", "3 0 0", "4 0 0", "total 0 0", "grade 1")
    for region, sun, other, building_type in WITHOUT_LIMIT:
        for name, each in (("home", HOME), (other, building_type)):
            building = building_note(Building(1_000, 50, region, sun, each, 0))
            yield f"no_limit_region_{region}_sun_{sun}_{name}", building, nothing


def home_with_a_reference():
    # 22 kg by square metre and year are within every ratio of a reference of 100; but a
    # home has limits alone, and its are 14 and 21.
    home = Building(1_000, 50, 2, 2, HOME, 1_000)
    yield "home_with_a_reference", energy(home, 110_000, 0), graded(110_000, 0)  # 22 x 100 x 50


def runs():
    yield from limits()
    yield from ratios()
    yield from without_limit()
    yield from home_with_a_reference()
