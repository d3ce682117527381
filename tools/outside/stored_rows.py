"""Stored runs told by the rule of each row, and by codes and spans at their ends."""

from known import page
from notes import HOUSE, Plan
from reference import Factor

# A thousandth at each of these is a kilogram, or one for each kilometre.
TONNE, ROAD, CHARGE = 7, 5, 4
KILOGRAMS = [
    (TONNE, Factor(10_000_000, 1)),
    (ROAD, Factor(10_000_000, 5)),
    (CHARGE, Factor(10_000_000, 4)),
]
TEN_YEARS = HOUSE._replace(life=10)


def each_row():
    """One entry in each row, each with a figure of its own in its stage's sum."""
    plan = Plan(building=TEN_YEARS, rows=KILOGRAMS)
    entries = (
        # Stage A: 1 kg, and 10 kg over 5 km.
        (1, 0, TONNE, 1),
        (2, 5, ROAD, 10),
        # Stage B: row 8 is hauled over 5 km, and row 9 subtracted.
        (3, 0, TONNE, 1),
        (4, 0, TONNE, 10),
        (5, 0, TONNE, 100),
        (6, 0, TONNE, 1_000),
        (7, 0, TONNE, 10_000),
        (8, 5, ROAD, 100_000),
        (9, 0, TONNE, 1_000_000),
        (10, 0, TONNE, 10_000_000),
        # Stage C: six rows come in each of ten years. A part of 4 years comes twice.
        (11, 0, TONNE, 1),
        (12, 0, TONNE, 10),
        (13, 0, TONNE, 100),
        (14, 0, TONNE, 1_000),
        (15, 0, TONNE, 10_000),
        (16, 0, TONNE, 100_000),
        (17, 4, TONNE, 1_000_000),
        (18, 0, TONNE, 10_000_000),
        # Subtracted, in each of ten years.
        (19, 0, TONNE, 10_000_000),
        (20, 0, TONNE, 100_000_000),
        # A charge is lost two times and a half.
        (21, 4, CHARGE, 800_000_000),
        (22, 0, TONNE, 7),
    )
    for number, (row, span, code, thousandths) in enumerate(entries, 1):
        plan.enter(number, 0, row, span, code, thousandths)
    # B: 10,511,111 with 500,000 of row 8 among them, less 1,000,000. C: 1,111,110,
    # 2,000,000 and 10,000,000, less 100,000,000 and 1,000,000,000, and 2,000,000,000.
    yield "each_row", plan.feed(), page(
        "1 51 2", "2 9511111 8", "3 913111110 11", "4 7 1", "total 922622279 22", "grade 2"
    )


def ends_of_spans():
    """Spans at their ends and one beyond, and units that do not fit."""
    plan = Plan(rows=KILOGRAMS)
    sends = (
        # Renewal: 1 to 100 years. In 50 years a part of one comes 50 times.
        ((17, 1, TONNE), None),
        ((17, 100, TONNE), None),
        ((17, 101, TONNE), "denied 3 6"),
        ((17, 10, ROAD), "denied 4 9"),
        # Refrigerant: the same span, and kilograms alone.
        ((21, 1, CHARGE), None),
        ((21, 100, CHARGE), None),
        ((21, 0, CHARGE), "denied 7 6"),
        ((21, 10, TONNE), "denied 8 9"),
        # Yearly rows have no span, and nothing that is hauled.
        ((11, 1, TONNE), "denied 9 6"),
        ((19, 1, TONNE), "denied 10 6"),
        ((16, 0, ROAD), "denied 11 9"),
        ((18, 1, TONNE), "denied 12 6"),
        # Haulage: 0 to 10,000 kilometres.
        ((8, 10_000, ROAD), None),
        ((8, 10_001, ROAD), "denied 14 6"),
        ((2, 0, ROAD), None),
        ((2, 1, TONNE), "denied 16 9"),
    )
    for number, ((row, span, code), _) in enumerate(sends, 1):
        plan.enter(number, 0, row, span, code, 1)
    denied = [line for _, line in sends if line]
    # Stage B: 10,000 kg. Stage C: 50 and 0, and 50 and half a kilogram, which goes up.
    yield "ends_of_spans", plan.feed(), page(
        *denied, "1 0 1", "2 10000 1", "3 101 4", "4 0 0", "total 10101 6", "grade 2"
    )


def ends_of_recycled_codes():
    """Recycled are the codes after 1,000,000 and before 2,000,000."""
    two = Factor(20_000_000, 1)
    codes = (1, 999_999, 1_000_000, 1_000_001, 2_000_000)
    plan = Plan(rows=[(code, two) for code in codes])
    # A thousandth is two kilograms, and of recycled material one, although the list has
    # a row for the first of them.
    for number, code in enumerate((1_000_000, 1_000_001, 1_999_999, 2_000_000), 1):
        plan.enter(number, 0, 1, 0, code, 10 ** (number - 1))
    # 2 + 10 + 100 + 2,000. The next code lacks, and so does what it is recycled from.
    plan.enter(5, 0, 1, 0, 2_000_001, 1)
    yield "ends_of_recycled_codes", plan.feed(), page(
        "denied 5 8", "1 2112 4", "2 0 0", "3 0 0", "4 0 0", "total 2112 4", "grade 2"
    )


def runs():
    yield from each_row()
    yield from ends_of_spans()
    yield from ends_of_recycled_codes()
