"""Random feeds for the program `page`, chosen by seed.

Feed i of seed s is always the same bytes, so that a difference can be met again.
"""

import random

import families_content as content
import families_form as form

# How often each family's turn comes in a round; the long ones are slow.
FAMILIES = {
    content.sound_projects: 4,
    content.revisions: 4,
    content.crowded_books: 2,
    form.damaged_bytes: 4,
    form.damaged_notes: 4,
    form.cut_short: 3,
    form.factor_rows: 4,
    content.codes_and_layers: 4,
    content.rows_and_units: 3,
    form.building_edges: 3,
    content.one_fault: 4,
    content.many_faults: 4,
    content.measured_quantities: 5,
    content.large_products: 4,
    content.half_grams: 4,
    content.half_kilograms: 4,
    content.negative_sums: 2,
    content.grade_limits: 6,
    content.grade_reductions: 5,
    form.largest_feeds: 1,
    form.long_feeds: 1,
    form.tiny_feeds: 3,
    form.random_bodies: 2,
}
ROUND = [family for turns in range(1, 7) for family, times in FAMILIES.items() if times >= turns]


def random_feed(seed, index):
    family = ROUND[index % len(ROUND)]
    return family.__name__.replace("_", " "), family(random.Random(f"{seed} {index}"))


def random_feeds(seed, count):
    for index in range(count):
        yield random_feed(seed, index)
