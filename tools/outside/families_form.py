"""Random families of feeds, by form: damaged and cut bytes, wrong lengths and kinds,
and the building and the factor rows before the sends."""

import reference
from notes import (
    LARGEST_U16,
    LARGEST_U32,
    Plan,
    building_note,
    factor_note,
    framed,
    le,
    withdrawal_note,
)
from parts import (
    CODES,
    fitting_codes,
    fitting_line,
    one_in,
    pick,
    random_building,
    random_factor,
    random_plan,
    random_rows,
    stray_note,
    written,
)
from reference import Building, Factor, Line


def damage(rng, feed):
    """Bytes changed, lost, put in or doubled, without regard to where notes begin."""
    at = rng.randrange(len(feed) + 1)
    piece = feed[at : at + rng.randrange(1, 40)]
    way = rng.randrange(6)
    if way == 0 and at < len(feed):
        return feed[:at] + le(feed[at] ^ 1 << rng.randrange(8), 1) + feed[at + 1 :]
    if way == 1 and at < len(feed):
        return feed[:at] + pick(rng, (b"\0", b"\xff", b"\x03", rng.randbytes(1))) + feed[at + 1 :]
    if way == 2:
        return feed[:at]
    if way == 3:
        return feed[:at] + rng.randbytes(rng.randrange(1, 30)) + feed[at:]
    if way == 4:
        return feed[:at] + feed[at + len(piece) :]
    return feed[:at] + piece + feed[at:]


def damaged_bytes(rng):
    feed = random_plan(rng, rows=4, notes=12).feed()
    for _ in range(rng.randrange(1, 4)):
        feed = damage(rng, feed)
    return feed


def damaged_notes(rng):
    """Whole notes with a wrong length field, kind or body, swapped, lost or doubled."""
    parts = random_plan(rng, rows=4, notes=12).parts()
    for _ in range(rng.randrange(1, 4)):
        at = rng.randrange(len(parts))
        note = parts[at]
        way = rng.randrange(7)
        if way == 0:
            length = pick(rng, (0, 1, 3, 4, 5, len(note) - 1, len(note) + 1, 256, LARGEST_U16))
            parts[at] = le(length, 2) + note[2:]
        elif way == 1:
            parts[at] = note[:2] + le(pick(rng, (0, 1, 2, 3, 4, 5, 6, 256, 0x0300)), 2) + note[4:]
        elif way == 2:
            body = note[4:] + rng.randbytes(8)
            parts[at] = framed(note[2], body[: pick(rng, (0, 1, 8, 10, 14, 24, 25))])
        elif way == 3:
            other = rng.randrange(len(parts))
            parts[at], parts[other] = parts[other], parts[at]
        elif way == 4:
            parts.insert(at, note)
        elif way == 5 and len(parts) > 1:
            del parts[at]
        else:
            parts.insert(at, stray_note(rng))
    return b"".join(parts)


def cut_short(rng):
    feed = random_plan(rng, rows=3, notes=6).feed()
    tail = rng.randbytes(rng.randrange(4)) if one_in(rng, 3) else b""
    return feed[: rng.randrange(len(feed) + 1)] + tail


def bad_row(rng):
    way = rng.randrange(4)
    if way == 0:
        return factor_note(pick(rng, CODES), Factor(pick(rng, (10**9 + 1, LARGEST_U32)), 1))
    if way == 1:
        return factor_note(pick(rng, CODES), Factor(1, pick(rng, (0, 8, 256, 257, LARGEST_U16))))
    if way == 2:
        return framed(2, rng.randbytes(pick(rng, (0, 1, 9, 11, 14, 24))))
    return framed(2, le(7, 4) + le(LARGEST_U32, 4) + le(9, 2) + b"\0")  # two faults at once


def factor_rows(rng):
    """Runs up to the last row that fits and past it, with bad rows anywhere, codes
    told twice, and the run broken by what is no row or cannot be framed."""
    count = pick(rng, (0, 1, 2, 10, 254, 255, 256, 256, 257, 258, 300))
    codes = CODES
    rows = random_rows(rng, count)
    if one_in(rng, 2):  # each code once, the first and the last rows asked for
        rows = [(5_000 + at, random_factor(rng)) for at in range(count)]
        codes = (5_000, 5_001, 5_253, 5_254, 5_255, 5_256, 4_999 + count, 1_005_255)
    rows = [factor_note(*row) for row in rows]
    for _ in range(rng.randrange(3)):
        at = pick(rng, (rng.randrange(count + 1), min(256, count), max(count - 1, 0)))
        rows[at : at + rng.randrange(2)] = [bad_row(rng)]
    if one_in(rng, 3):
        at = rng.randrange(len(rows) + 1)
        stop = pick(rng, (withdrawal_note(1, 1), framed(9, b""), b"\3\0\2\0", b"\xff\xff\2\0"))
        rows[at:at] = [stop]
    plan = Plan(random_building(rng), [])
    plan.notes = rows
    for number in range(rng.randrange(6)):
        line = Line(pick(rng, (1, 2, 18, 21, 22)), pick(rng, (0, 1)), pick(rng, codes), 10**6)
        plan.notes.append(written(rng, number, 0, line))
    return plan.feed()


def building_edges(rng):
    building = list(random_building(rng))
    ends = ((1, 100_000_000), (1, 100), (1, 5), (1, 4), (1, 8), (0, 10_000))
    for _ in range(rng.randrange(1, 3)):
        at = rng.randrange(6)
        low, high = ends[at]
        values = [low, high, high + 1, LARGEST_U16, LARGEST_U32 if at == 0 else 257]
        building[at] = pick(rng, values + [low - 1] * (low > 0))
    note = building_note(Building(*building))
    if one_in(rng, 8):
        body = (note[4:] + rng.randbytes(4))[: pick(rng, (0, 13, 15, 18))]
        note = framed(pick(rng, (1, 1, 2, 3)), body)
    return note + b"".join(random_plan(rng, rows=0, notes=3).notes)


def padded(rng, feed, length):
    """The feed brought to a length by notes of a kind that is not wanted; a gap too
    small for a note is filled with bytes that cannot be framed."""
    while len(feed) <= length - 4:
        size = min(length - len(feed), pick(rng, (4, 12, 28, 1_000, 30_000)))
        if length - len(feed) - size < 4:
            size = length - len(feed)
        feed += framed(pick(rng, (0, 1, 2, 6, 999)), rng.randbytes(min(size, 65_535) - 4))
    return feed.ljust(length, b"\0")


def largest_feeds(rng):
    """Of the largest length, one less, one more and far more."""
    length = pick(rng, (65_535, 65_536, 65_536, 65_537, 65_537, 65_540, 70_000, 131_072, 300_000))
    way = rng.randrange(4)
    if way == 0:
        return rng.randbytes(length)
    if way == 1:
        return bytes(length)
    return padded(rng, random_plan(rng, notes=30).feed(), length)


def long_feeds(rng):
    """Close to the largest length, full of short notes."""
    plan = random_plan(rng, rows=pick(rng, (0, 4, 250)), notes=0)
    codes_by_row = fitting_codes(plan)
    room = 65_536 - len(plan.feed()) - rng.randrange(40)
    way = rng.randrange(4)
    while room >= 28:
        number, revision = rng.randrange(pick(rng, (20, 500, 600))), rng.randrange(50)
        if way == 0:
            note = withdrawal_note(number, revision)
        elif way == 1:
            note = framed(rng.randrange(7, 20), b"")
        elif one_in(rng, 5):
            note = pick(rng, (withdrawal_note(number, revision), stray_note(rng)))
        else:
            note = written(rng, number, revision, fitting_line(rng, codes_by_row))
        if len(note) > room:
            break
        plan.notes.append(note)
        room -= len(note)
    return plan.feed()


def tiny_feeds(rng):
    way = rng.randrange(4)
    if way == 0:
        return rng.randbytes(rng.randrange(40))
    if way == 1:
        return building_note(random_building(rng))[: rng.randrange(19)]
    if way == 2:
        return building_note(random_building(rng)) + rng.randbytes(rng.randrange(8))
    kind, length = rng.randrange(7), rng.randrange(30)
    return le(length, 2) + le(kind, 2) + bytes(rng.randrange(30))


def random_bodies(rng):
    """Proper lengths and kinds round random bodies."""
    parts = [building_note(random_building(rng))]
    for _ in range(rng.randrange(30)):
        kind = rng.randrange(1, 6)
        parts.append(framed(kind, rng.randbytes(reference.LENGTHS[kind] - 4)))
    return b"".join(parts)
