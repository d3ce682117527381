"""Tests the reference by itself: against the worked example and the other answers set
down by hand, and on random sheets by what has to hold of every page.

    python3 selftest.py
"""

from fractions import Fraction

import feeds
from known import known_answers
from reference import STAGES, Refused, exact_grams, open_and_send, page_figures, report, sign


def book_agrees_with_roll(sheet):
    held = [note.line for note in sheet.book.values() if note.line is not None]
    assert sorted(held) == sorted(sheet.counted_lines())


def headings_keep_their_promise(sheet):
    """Any run of headings, in grams, lies nearer than 1,000 and half its count to
    the exact sum of its entries; and the headings add up to the total."""
    exact = dict.fromkeys(range(1, 23), Fraction(0))
    for line in sheet.counted_lines():
        exact[line.row] += sign(line.row) * exact_grams(line, sheet.building, sheet.source)
    headings, total = page_figures(*sheet.row_sums())
    assert total == tuple(map(sum, zip(*headings)))
    for first in range(4):
        for last in range(first, 4):
            run = headings[first : last + 1]
            printed = 1000 * sum(kilograms for kilograms, _ in run)
            count = sum(number for _, number in run)
            truth = sum(exact[row] for rows in STAGES[first : last + 1] for row in rows)
            assert abs(printed - truth) < 1000 + Fraction(count, 2)


def self_test():
    for name, feed, expected in known_answers():
        got = report(feed)
        assert got == expected, f"{name}: {got!r} in place of {expected!r}"
    tried = 0
    for _, feed in feeds.random_feeds(seed=0, count=40 * len(feeds.FAMILIES)):
        try:
            sheet, _ = open_and_send(feed)
        except Refused:
            continue
        book_agrees_with_roll(sheet)
        headings_keep_their_promise(sheet)
        tried += 1
    print(f"reference: {len(known_answers())} known answers, {tried} random sheets, all well")


if __name__ == "__main__":
    self_test()
