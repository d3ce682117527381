"""What the program `page` has to print for a feed, worked out a second time.

Written from the rules alone, without sight of the program. Whole numbers and
fractions throughout: no floating number takes part in any step.

`report(feed)` gives the program's standard output.
"""

from fractions import Fraction
from typing import NamedTuple

import tables
from sources import (
    KILOGRAM,
    SQUARE_METRE,
    TONNE,
    TONNE_KILOMETRE,
    Factor,
    defaults,
    nearest,
    project_list,
    recycled,
)

LARGEST_FEED = 65_536
MOST_FACTOR_ROWS = 256
PLACES = 512
LARGEST_QUANTITY = 1_000_000_000  # thousandths
LARGEST_AMOUNT = 1_000_000_000  # tenths of a gram
LARGEST_PRODUCT = 10**18

BUILDING, FACTOR_ROW, ENTRY, MEASURED_ENTRY, WITHDRAWAL = 1, 2, 3, 4, 5
LENGTHS = {BUILDING: 18, FACTOR_ROW: 14, ENTRY: 28, MEASURED_ENTRY: 28, WITHDRAWAL: 12}


class Refused(Exception):
    """A call is denied; `number` is the reason's number in the rules."""

    def __init__(self, number):
        super().__init__(number)
        self.number = number


def need(truth, number):
    """Deny with `number` unless the truth holds.

    Each reader asks its questions from the smallest number to the largest, so
    the first that fails is the smallest that applies.
    """
    if not truth:
        raise Refused(number)


# Notes ---------------------------------------------------------------------


def field(note, start, size):
    """An unsigned field, smallest byte first."""
    return int.from_bytes(note[start : start + size], "little")


def first_note(feed, at):
    """Frame the note at a place: its kind, its bytes, and the place after it.

    Only the length is judged here; kind and content are for whoever reads it.
    """
    left = len(feed) - at
    need(left >= 4, 1)
    length = field(feed, at, 2)
    need(4 <= length <= left, 1)
    return field(feed, at + 2, 2), feed[at : at + length], at + length


class Building(NamedTuple):
    area: int  # tenths of a square metre
    life: int  # years
    region: int
    sun: int
    type: int  # 1 a dwelling, the others public buildings
    reference: int  # tenths of a kilogram per square metre and year; 0 is none


def read_building(kind, note):
    need(kind == BUILDING, 2)
    need(len(note) == LENGTHS[BUILDING], 3)
    building = Building(
        field(note, 4, 4),
        field(note, 8, 2),
        field(note, 10, 2),
        field(note, 12, 2),
        field(note, 14, 2),
        field(note, 16, 2),
    )
    need(1 <= building.area <= 100_000_000, 4)
    need(1 <= building.life <= 100, 4)
    need(1 <= building.region <= 5, 4)
    need(1 <= building.sun <= 4, 4)
    need(1 <= building.type <= 8, 4)
    need(building.reference <= 10_000, 4)
    return building


def read_factor_row(kind, note):
    """A code, which may be any, and the factor under it."""
    need(kind == FACTOR_ROW, 2)
    need(len(note) == LENGTHS[FACTOR_ROW], 3)
    factor = Factor(field(note, 8, 4), field(note, 12, 2))
    need(factor.amount <= LARGEST_AMOUNT, 4)
    need(TONNE <= factor.unit <= SQUARE_METRE, 4)
    return field(note, 4, 4), factor


# Quantities ----------------------------------------------------------------


def exact_binary64(bits):
    """The exact value behind the 64 bits, or None for infinities and not-a-number.

    One sign bit, eleven of exponent, fifty-two of fraction. Exponent 0 has no
    hidden leading one, which is how zero and the subnormal numbers are written.
    """
    sign = -1 if bits >> 63 else 1
    exponent = (bits >> 52) & 0x7FF
    fraction = bits & ((1 << 52) - 1)
    if exponent == 0x7FF:
        return None
    if exponent == 0:
        return Fraction(sign * fraction, 1 << 1074)
    return sign * Fraction((1 << 52) + fraction) * Fraction(2) ** (exponent - 1075)


def counted_thousandths(field_value):
    need(field_value <= LARGEST_QUANTITY, 7)
    return field_value


def measured_thousandths(bits):
    """The range is asked of the exact value, before rounding: the next number
    above a million and the smallest number below zero are both out of it.
    Negative zero decodes to plain zero, and so passes."""
    value = exact_binary64(bits)
    need(value is not None and 0 <= value <= 1_000_000, 7)
    thousandths = value * 1000
    return nearest(thousandths.numerator, thousandths.denominator)


# Rows -----------------------------------------------------------------------

HAULAGE_ROWS = {2, 8}
YEARLY_ROWS = {11, 12, 13, 14, 15, 16, 19, 20}
RENEWAL_ROW = 17
REFRIGERANT_ROW = 21
SUBTRACTED_ROWS = {9, 19, 20}
STAGES = (range(1, 3), range(3, 11), range(11, 22), range(22, 23))


def span_fits(row, span):
    """Kilometres for haulage, years of service for renewal and refrigerant, else 0."""
    if row in HAULAGE_ROWS:
        return span <= 10_000
    if row in (RENEWAL_ROW, REFRIGERANT_ROW):
        return 1 <= span <= 100
    return span == 0


def unit_fits(row, unit):
    if row in HAULAGE_ROWS:
        return unit == TONNE_KILOMETRE
    if row == REFRIGERANT_ROW:
        return unit == KILOGRAM
    return unit != TONNE_KILOMETRE


def multiplier(row, span, life):
    if row in HAULAGE_ROWS:
        return span
    if row == RENEWAL_ROW:
        return life // span  # the fraction of a last renewal is dropped
    if row in YEARLY_ROWS or row == REFRIGERANT_ROW:
        return life
    return 1


def divisor(row, span):
    return span if row == REFRIGERANT_ROW else 1


# Sending --------------------------------------------------------------------


class Line(NamedTuple):
    """What two entries must share to be equal: a counted and a measured one may."""

    row: int
    span: int
    code: int
    thousandths: int


class Note(NamedTuple):
    number: int
    revision: int
    line: Line | None  # None is a withdrawal


def read_send(kind, note, building, source):
    """A note as the sheet takes it, or the denial for its content."""
    need(kind in (ENTRY, MEASURED_ENTRY, WITHDRAWAL), 2)
    need(len(note) == LENGTHS[kind], 3)
    number, revision = field(note, 4, 4), field(note, 8, 4)
    if kind == WITHDRAWAL:
        return Note(number, revision, None)
    row, span, code = field(note, 12, 2), field(note, 14, 2), field(note, 16, 4)
    need(1 <= row <= 22, 5)
    need(span_fits(row, span), 6)
    read_quantity = counted_thousandths if kind == ENTRY else measured_thousandths
    thousandths = read_quantity(field(note, 20, 8))
    factor = source(code)
    need(isinstance(factor, Factor), 8)
    need(unit_fits(row, factor.unit), 9)
    product = thousandths * factor.amount * multiplier(row, span, building.life)
    need(product <= LARGEST_PRODUCT, 10)
    return Note(number, revision, Line(row, span, code, thousandths))


def exact_grams(line, building, source):
    """Unsigned and unrounded; thousandths of a unit and tenths of a gram make 10,000."""
    product = line.thousandths * source(line.code).amount
    product *= multiplier(line.row, line.span, building.life)
    return Fraction(product, 10_000 * divisor(line.row, line.span))


def booked_grams(line, building, source):
    exact = exact_grams(line, building, source)
    return nearest(exact.numerator, exact.denominator)


def sign(row):
    return -1 if row in SUBTRACTED_ROWS else 1


class Sheet:
    """One building and one source, with the book and the roll kept side by side.

    The book answers what is denied for the state of things. The page is drawn
    from the roll instead, which never hears those answers: two roads to the same
    figures, so that a slip in one of them shows.
    """

    def __init__(self, building, source):
        self.building = building
        self.source = source
        self.book = {}  # number -> the note held
        self.roll = []
        self.listed = set()

    def send(self, kind, note):
        fresh = read_send(kind, note, self.building, self.source)
        self.enrol(fresh)
        self.place(fresh)

    def enrol(self, fresh):
        """All that is sound goes on the roll, save a new number past the places."""
        if fresh.number in self.listed or len(self.listed) < PLACES:
            self.listed.add(fresh.number)
            self.roll.append(fresh)

    def place(self, fresh):
        held = self.book.get(fresh.number)
        if held is None:
            need(len(self.book) < PLACES, 23)
        else:
            need(fresh.revision >= held.revision, 21)
            if fresh.revision == held.revision:
                raise Refused(21 if fresh.line == held.line else 22)
        self.book[fresh.number] = fresh

    def counted_lines(self):
        """For each number its note of the highest revision, the first among equals;
        withdrawals then count as nothing."""
        deciding = {}
        for note in self.roll:
            best = deciding.get(note.number)
            if best is None or note.revision > best.revision:
                deciding[note.number] = note
        return [note.line for note in deciding.values() if note.line is not None]

    def row_sums(self):
        """Signed booked grams and counts by row."""
        grams, counts = dict.fromkeys(range(1, 23), 0), dict.fromkeys(range(1, 23), 0)
        for line in self.counted_lines():
            grams[line.row] += sign(line.row) * booked_grams(line, self.building, self.source)
            counts[line.row] += 1
        return grams, counts


# Page and grade -------------------------------------------------------------


def page_figures(grams, counts):
    """Kilograms and counts of the four stages and of the whole.

    The running sum is rounded, not the heading, so that headings add up.
    """
    headings, running, printed = [], 0, 0
    for rows in STAGES:
        running += sum(grams[row] for row in rows)
        rounded = nearest(running, 1000)
        headings.append((rounded - printed, sum(counts[row] for row in rows)))
        printed = rounded
    return headings, (printed, sum(counts.values()))


def energy_grams(grams):
    """Burnt and bought energy of equipment and users, less renewables, whose sums
    are signed already."""
    return sum(grams[row] for row in (11, 12, 14, 15, 19))


def limit_holds(weight, limit, building):
    """`limit` in tenths of a kilogram by square metre and year; no limit, no pass."""
    return limit is not None and weight <= 10 * limit * building.area * building.life


def reduction_holds(weight, per_cent, building):
    if building.type == tables.DWELLING or building.reference == 0:
        return False
    allowed = (100 - per_cent) * 10 * building.reference * building.area * building.life
    return 100 * weight <= allowed


def grade(weight, building):
    """The highest grade met by limit or by reduction."""
    place = building.region, building.sun, building.type
    if limit_holds(weight, tables.near_zero_limit(*place), building) or reduction_holds(
        weight, tables.NEAR_ZERO_REDUCTION[building.region], building
    ):
        return 2
    if limit_holds(weight, tables.low_carbon_limit(*place), building) or reduction_holds(
        weight, tables.LOW_CARBON_REDUCTION[building.region], building
    ):
        return 1
    return 0


# The program ----------------------------------------------------------------


def opening(feed):
    """The building, the factor rows straight after it, and the place of the sends.

    What cannot be framed after the building is no factor row: it is left to be
    sent. A note of kind 2 that can be framed is one, and is refused if unsound.
    """
    need(len(feed) <= LARGEST_FEED, 25)
    kind, note, at = first_note(feed, 0)
    building = read_building(kind, note)
    rows = []
    while True:
        try:
            kind, note, after = first_note(feed, at)
        except Refused:
            break
        if kind != FACTOR_ROW:
            break
        row = read_factor_row(kind, note)
        need(len(rows) < MOST_FACTOR_ROWS, 24)
        rows.append(row)
        at = after
    return building, rows, at


def send_all(feed, at, sheet):
    """Send what is left, note by note; give the denials with their places.

    Bytes that cannot be framed are a send as well, and the last one.
    """
    denials, place = [], 0
    while at < len(feed):
        place += 1
        try:
            kind, note, at = first_note(feed, at)
            sheet.send(kind, note)
        except Refused as refusal:
            denials.append((place, refusal.number))
            if refusal.number == 1:
                break
    return denials


def open_and_send(feed):
    """The sheet after the whole feed, and the denials met on the way."""
    building, rows, at = opening(feed)
    sheet = Sheet(building, recycled(defaults(project_list(rows))))
    return sheet, send_all(feed, at, sheet)


def report(feed):
    try:
        sheet, denials = open_and_send(feed)
    except Refused as refusal:
        return b"denied 0 %d\n" % refusal.number
    grams, counts = sheet.row_sums()
    headings, (kilograms, count) = page_figures(grams, counts)
    lines = [b"denied %d %d\n" % denial for denial in denials]
    lines += [b"%d %d %d\n" % (place, *figures) for place, figures in enumerate(headings, 1)]
    lines.append(b"total %d %d\n" % (kilograms, count))
    lines.append(b"grade %d\n" % grade(energy_grams(grams), sheet.building))
    return b"".join(lines)
