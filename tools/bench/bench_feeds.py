"""The feeds of the benchmark, all with the same house. One version of Python makes the same
bytes each time."""

import pathlib
import random
import sys

# The bytes of notes, and what fits a row, are the second program's.
sys.path.insert(0, str(pathlib.Path(__file__).parent.parent / "outside"))

from notes import HOUSE, Plan
from parts import fitting_span, written
from reference import ENTRY, LARGEST_FEED, LENGTHS, PLACES, Factor, Line, unit_fits
from sources import KILOGRAM, KWH, PIECE, TONNE, TONNE_KILOMETRE

REMAINDERS = 4096  # as in crates/sheet/src/index.rt
UNITS = (TONNE, TONNE_KILOMETRE, KILOGRAM, KWH, PIECE)
LACKING, FIRST_CODE = 999, 2_000
ENTRY_LENGTH = LENGTHS[ENTRY]


def factor_rows(count):
    return [(FIRST_CODE + k, Factor(1_000 + 37 * k, UNITS[k % len(UNITS)])) for k in range(count)]


def room(plan):
    return LARGEST_FEED - len(plan.feed())


def enter_one(plan, choice, number, revision):
    """An entry that can be booked: of any row, and about as often counted as measured."""
    row = choice.randint(1, 22)
    code = choice.choice([code for code, factor in plan.rows if unit_fits(row, factor.unit)])
    line = Line(row, fitting_span(choice, row), code, choice.randint(0, 10_000_000))
    plan.notes.append(written(choice, number, revision, line))


def full(numbers):
    """As many notes as a feed has room for, over 64 factor rows: first an entry for each
    number, then amendments in no order, among them a tenth of withdrawals, so that about half
    of all sends are refused."""
    choice = random.Random("full")
    plan = Plan(HOUSE, factor_rows(64))
    for number in numbers:
        enter_one(plan, choice, number, 1)
    left = room(plan)
    while left >= ENTRY_LENGTH:
        number, revision = choice.choice(numbers), choice.randint(0, 6)
        if choice.random() < 0.1:
            plan.withdraw(number, revision)
        else:
            enter_one(plan, choice, number, revision)
        left -= len(plan.notes[-1])
    return plan


def all_accepted(numbers):
    """As many entries as a feed has room for, the same for any numbers: round after round,
    one for each number, with a higher revision."""
    choice = random.Random("all accepted")
    plan = Plan(HOUSE, factor_rows(64))
    for k in range(room(plan) // ENTRY_LENGTH):
        enter_one(plan, choice, numbers[k % len(numbers)], k // len(numbers))
    return plan


def in_order(held=PLACES):
    return range(1, held + 1)


def at_random(held=PLACES):
    return random.Random("numbers").sample(range(2**32), held)


def one_remainder(held=PLACES):
    return range(7, REMAINDERS * held, REMAINDERS)


def last_row():
    """As many factor rows as there may be, and entries that all ask for the last one."""
    choice = random.Random("last row")
    plan = Plan(HOUSE, factor_rows(256))
    code = plan.rows[-1][0]
    for k in range(room(plan) // ENTRY_LENGTH):
        plan.enter(1 + k % PLACES, k // PLACES, 1, 0, code, choice.randint(0, 10_000_000))
    return plan


def all_refused():
    """Entries for which there is no factor."""
    plan = Plan(HOUSE, factor_rows(64))
    for k in range(room(plan) // ENTRY_LENGTH):
        plan.enter(1 + k % PLACES, 0, 1, 0, LACKING, 1_000)
    return plan


def one_note():
    plan = Plan(HOUSE, [])
    plan.enter(1, 0, 12, 0, 1, 20_000_000)
    return plan


def none_sent():
    """What stands in a feed of `all_accepted` before its first send."""
    return Plan(HOUSE, factor_rows(64))


FEEDS = {
    "full, 512 numbers in order": lambda: full(in_order()),
    "full, 512 random numbers of 32 bits": lambda: full(at_random()),
    "full, 512 numbers of one remainder": lambda: full(one_remainder()),
    "256 factor rows, all ask for the last": last_row,
    "all sends refused": all_refused,
    "one note": one_note,
}
