"""Stored runs told by the form of their feed: what is refused before the notes, what
is too long, and what cannot be framed."""

from known import BARE, WORKED_REPORT, of_grams, of_rows, page, worked_example
from notes import GRAM, HOUSE, Plan, building_note, entry_note, factor_note, framed
from reference import Factor, Line

BUILDING = building_note(HOUSE)
ENTRY = entry_note(1, 0, Line(1, 0, GRAM[0], 1_000))
ROW = factor_note(*GRAM)
ROW_OF_15_BYTES = framed(2, ROW[4:] + b"\0")
ROW_WITH_UNIT_8 = factor_note(8, Factor(1, 8))


def first_feeds():
    # The house of the rules.
    yield "worked_house", worked_example(), WORKED_REPORT
    # No bytes, and so no building.
    yield "empty", b"", page("denied 0 1")
    # A length and a kind take four bytes.
    yield "three_bytes", BUILDING[:3], page("denied 0 1")
    # The building's length goes beyond the bytes there are.
    yield "building_cut_short", BUILDING[:17], page("denied 0 1")


def refused_before_the_notes():
    # What comes first has to be the building.
    yield "entry_first", ENTRY, page("denied 0 2")
    # Framed well, but a byte shorter than a building is.
    yield "building_of_17_bytes", framed(1, BUILDING[4:17]), page("denied 0 3")
    # A building lives for a year at least.
    yield "building_with_life_0", building_note(HOUSE._replace(life=0)), page("denied 0 4")
    # A factor row that can be framed belongs to the rows, and is refused with them.
    yield "row_of_15_bytes", BUILDING + ROW_OF_15_BYTES + ENTRY, page("denied 0 3")
    # Units go from 1 to 7.
    yield "row_with_unit_8", BUILDING + ROW_WITH_UNIT_8 + ENTRY, page("denied 0 4")
    # The first bad row decides, though the second has the smaller number.
    yield "two_bad_rows", BUILDING + ROW_WITH_UNIT_8 + ROW_OF_15_BYTES, page("denied 0 4")


def many_rows():
    # As many rows as there may be; the entry is booked at the last one's factor.
    plan = Plan(rows=[(2_000 + at, Factor(1, 1)) for at in range(255)])
    plan.rows.append((7, Factor(10_000_000, 1)))
    plan.enter(1, 0, 1, 0, 7, 5)
    yield "rows_256", plan.feed(), page("1 5 1", "2 0 0", "3 0 0", "4 0 0", "total 5 1", "grade 2")
    # One good row too many.
    yield "rows_257", of_rows(257), page("denied 0 24")
    # A bad row is refused for what it is, before it is counted as one too many.
    yield "rows_257_last_bad", of_rows(256) + ROW_WITH_UNIT_8, page("denied 0 4")
    # The row before the bad one is one too many, and the bad one is not reached.
    yield "rows_258_last_bad", of_rows(257) + ROW_WITH_UNIT_8, page("denied 0 24")


def full_feed():
    """All bytes that a feed may have: 512 numbers of a kilogram each, amended again
    and again, until the last two notes withdraw the first and set it up at nine."""
    plan = Plan()
    for place in range(2_338):
        plan.enter(place % 512, place // 512, 1, 0, GRAM[0], 1_000)
    plan.withdraw(0, 8)
    plan.enter(0, 9, 1, 0, GRAM[0], 9_000)
    feed = plan.feed()
    assert len(feed) == 65_536
    return feed


def long_feeds():
    # The last note counts: without it there were 511 entries.
    yield "full_feed", full_feed(), page(
        "1 520 512", "2 0 0", "3 0 0", "4 0 0", "total 520 512", "grade 2"
    )
    # One byte past the largest feed, and no note is read.
    yield "one_byte_more", full_feed() + b"\0", page("denied 0 25")
    # Found too long before it is found to have no building.
    yield "long_and_bad", bytes(65_537), page("denied 0 25")


def unframed():
    # A length of 3 is no length; the entry after it cannot be reached.
    yield "unframed_after_building", BUILDING + b"\3\0\2\0" + ENTRY, page("denied 1 1", *BARE)
    # A factor row whose end is lacking cannot be framed, and so is sent.
    yield "unframed_after_rows", BUILDING + ROW + ROW[:-1], page("denied 1 1", *BARE)
    # What was sent before counts.
    sends = of_grams((1, 1_000), (3, 2_000), (22, 4_000))
    yield "unframed_at_the_end", sends + ENTRY[:3], page(
        "denied 4 1", "1 1 1", "2 2 1", "3 0 0", "4 4 1", "total 7 3", "grade 2"
    )
    # A building alone: nothing is denied, and the page has nothing on it.
    yield "nothing_sent", BUILDING, page(*BARE)


def runs():
    yield from first_feeds()
    yield from refused_before_the_notes()
    yield from many_rows()
    yield from long_feeds()
    yield from unframed()
