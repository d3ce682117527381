"""The figures of the standards, as printed, and the few numbers drawn from them.

Every table is kept in its printed form (kilograms, decimals and all) and turned
into whole tenths of a kilogram on loading, so that the transcription can be laid
beside the print and compared by eye.
"""

from fractions import Fraction


def tenths(printed):
    """A printed kilogram figure in tenths; a stroke is a cell without a limit."""
    if printed == "/":
        return None
    value = Fraction(printed) * 10
    assert value.denominator == 1, printed
    return value.numerator


def cells(printed):
    """One printed line of figures, in tenths."""
    return tuple(tenths(cell) for cell in printed.split())


# Region numbers of a building note, in the order in which every limit table
# prints its regions.
SEVERE_COLD, COLD, HOT_SUMMER_COLD_WINTER, HOT_SUMMER_WARM_WINTER, MILD = 1, 2, 3, 4, 5

# Grid electricity, of the zero-carbon draft: half a kilogram per kWh, in tenths
# of a gram.
GRID_CODE = 1
GRID_AMOUNT = 5_000

# Refrigerants of the accounting draft, in its order, with the warming potential
# of one kilogram in kilograms of carbon dioxide.
REFRIGERANTS = (
    ("R-125", 3500),
    ("R-134a", 1430),
    ("R-143a", 4470),
    ("R-152a", 124),
    ("R-227ea", 3220),
    ("R-23", 14800),
    ("R-236cb", 1340),
    ("R-236ea", 1370),
    ("R-236fa", 9810),
    ("R-245ca", 693),
    ("R-245fa", 1030),
    ("R-32", 675),
    ("R-365mfc", 794),
    ("R-41", 92),
    ("R-43-10mee", 1640),
)
FIRST_REFRIGERANT_CODE = 101
# One kilogram of carbon dioxide is 10,000 tenths of a gram.
REFRIGERANT_AMOUNTS = {
    FIRST_REFRIGERANT_CODE + place: potential * 10_000
    for place, (_, potential) in enumerate(REFRIGERANTS)
}

# The limits and reductions below are those of the zero-carbon draft, in kilograms
# by square metre and year, and in per cent.

# Low-carbon dwellings, one limit by region.
LOW_CARBON_DWELLING = dict(zip(range(1, 6), cells("23 21 21 23 18")))

# Low-carbon public buildings, by region. Columns: small office, large office,
# small hotel, large hotel, shopping, hospital, school (building types 2 to 8).
LOW_CARBON_PUBLIC = {
    SEVERE_COLD: cells("23 25 30 35 65 55 15"),
    COLD: cells("21 25 30 40 68 55 16"),
    HOT_SUMMER_COLD_WINTER: cells("21 28 33 43 75 60 20"),
    HOT_SUMMER_WARM_WINTER: cells("23 30 36 45 85 65 25"),
    MILD: cells("18 22 28 30 63 45 13"),
}

# Near-zero-carbon dwellings, by sun class; columns are the five regions.
NEAR_ZERO_DWELLING = {
    1: cells("14 13 / / /"),
    2: cells("15 14 / 16 12"),
    3: cells("16 16 16 17 13"),
    4: cells("/ / 17 / 14"),
}

# Near-zero-carbon public buildings, by region and sun class; the columns are
# those of the low-carbon table. A sun class that a region does not list is absent.
NEAR_ZERO_PUBLIC = {
    (SEVERE_COLD, 1): cells("16 19 20 24 49 40.5 10"),
    (SEVERE_COLD, 2): cells("17 20 22 25 51 42.5 11"),
    (SEVERE_COLD, 3): cells("18 21 24 26.5 53.5 44.5 12"),
    (COLD, 1): cells("14 18 20 27 51.5 42.5 11"),
    (COLD, 2): cells("15 19 22 28.5 54 43.5 12"),
    (COLD, 3): cells("16 20 24 30 56 45 13"),
    (HOT_SUMMER_COLD_WINTER, 3): cells("16 23 22 30 61 47 16"),
    (HOT_SUMMER_COLD_WINTER, 4): cells("17 24 24 31 63 49 17"),
    (HOT_SUMMER_WARM_WINTER, 2): cells("16 24 27 33 69 50 20"),
    (HOT_SUMMER_WARM_WINTER, 3): cells("17 25 29 35 70 52 21"),
    (MILD, 2): cells("12 18 18 22 49.5 35 9"),
    (MILD, 3): cells("13 18 19 23 52 37 10"),
    (MILD, 4): cells("14 18 21 25 54 38 11"),
}

# Reduction against the reference intensity, in per cent, by region. The print
# spans one cell over the last three regions.
LOW_CARBON_REDUCTION = dict(zip(range(1, 6), (40, 35, 30, 30, 30)))
NEAR_ZERO_REDUCTION = dict(zip(range(1, 6), (55, 50, 45, 45, 45)))

DWELLING = 1  # building type
FIRST_PUBLIC_TYPE = 2


def low_carbon_limit(region, sun, building_type):
    """Limit of grade 1 in tenths of a kilogram; the sun class plays no part."""
    if building_type == DWELLING:
        return LOW_CARBON_DWELLING[region]
    return LOW_CARBON_PUBLIC[region][building_type - FIRST_PUBLIC_TYPE]


def near_zero_limit(region, sun, building_type):
    """Limit of grade 2 in tenths of a kilogram, or None where there is none."""
    if building_type == DWELLING:
        return NEAR_ZERO_DWELLING[sun][region - 1]
    listed = NEAR_ZERO_PUBLIC.get((region, sun))
    return None if listed is None else listed[building_type - FIRST_PUBLIC_TYPE]
