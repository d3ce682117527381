"""Hold the built program `page` to the reference, feed by feed.

    python3 check.py PROGRAM [--seconds S] [--seed N] [--feeds N] [--jobs 1|2]

Known answers and sweeps go first, then random feeds until their number or the
time is used up. Output has to agree byte for byte, with exit status 0. The first
difference ends the check: the feed is made smaller while the difference lasts,
and is written down with both outputs.

Exit status: 0 all agreed, 1 a difference, 2 the feeds tried left a refusal, a
grade or a family out, so that the agreement is worth less than it seems.
"""

import argparse
import collections
import concurrent.futures
import itertools
import os
import subprocess
import sys
import tempfile
import threading
import time

import feeds
import known
import reference
import sweeps

RUN_LIMIT = 10  # seconds for one run of the program
SHRINK_LIMIT = 20  # seconds for making a feed smaller
REFUSALS_BEFORE = {1, 2, 3, 4, 24, 25}
REFUSALS_OF_SENDS = {1, 2, 3, 5, 6, 7, 8, 9, 10, 21, 22, 23}


class Clock:
    """The time given, in whole seconds. No run starts so late that it could not
    use its own limit and end in time."""

    def __init__(self, seconds):
        self.run_limit = min(RUN_LIMIT, max(1, seconds // 4))
        self.last_start = self.now() + seconds - self.run_limit

    @staticmethod
    def now():
        return time.monotonic_ns() // 10**9

    def may_start(self):
        return self.now() < self.last_start


# Running the program ---------------------------------------------------------


def fed_by_pipe(program, feed, limit):
    done = subprocess.run([program], input=feed, capture_output=True, timeout=limit)
    return done.stdout, done.returncode


def fed_from_file(program, feed, limit):
    with tempfile.TemporaryFile() as file:
        file.write(feed)
        file.seek(0)
        done = subprocess.run([program], stdin=file, capture_output=True, timeout=limit)
    return done.stdout, done.returncode


def fed_in_pieces(program, feed, limit):
    """A slow writer, whose pieces end anywhere: one read is not the whole feed."""
    size = 1 + len(feed) // 3
    with tempfile.TemporaryFile() as out:
        process = subprocess.Popen(
            [program], stdin=subprocess.PIPE, stdout=out, stderr=subprocess.DEVNULL
        )
        # The timer also ends a write that the program never reads.
        timer = threading.Timer(limit, process.kill)
        timer.start()
        try:
            for start in range(0, len(feed), size):
                process.stdin.write(feed[start : start + size])
                process.stdin.flush()
                time.sleep(1 / 500)
        except BrokenPipeError:
            pass  # a feed too long need not be read to its end
        process.communicate()
        timer.cancel()
        out.seek(0)
        return out.read(), process.returncode


def manner(index):
    """Mostly a pipe filled at once; now and then a file or a slow writer."""
    return {7: fed_from_file, 19: fed_in_pieces}.get(index % 24, fed_by_pipe)


def outcome(program, feed, limit, run):
    """Output of the program, and what went wrong besides, if anything did."""
    try:
        output, status = run(program, feed, limit)
    except subprocess.TimeoutExpired:
        return b"", f"no end within {limit} seconds"
    return output, None if status == 0 else f"exit status {status}"


# Telling a difference --------------------------------------------------------


def pieces_of(feed):
    """The feed's notes; what cannot be framed is one last piece."""
    at, pieces = 0, []
    while at < len(feed):
        try:
            _, note, at = reference.first_note(feed, at)
        except reference.Refused:
            note, at = feed[at:], len(feed)
        pieces.append(note)
    return pieces


def smaller(feed, still_differs, may_go_on):
    """Leave out runs of notes, long runs first, as long as the difference lasts."""
    pieces = pieces_of(feed)
    length = max(len(pieces) // 2, 1)
    while True:
        at, gained = 0, False
        while at < len(pieces):
            if not may_go_on():
                return b"".join(pieces)
            fewer = pieces[:at] + pieces[at + length :]
            if still_differs(b"".join(fewer)):
                pieces, gained = fewer, True
            else:
                at += length
        if length > 1:
            length //= 2
        elif not gained:
            return b"".join(pieces)


def write_down(feed, expected, got):
    folder = tempfile.mkdtemp(prefix="outside-difference-")
    for name, content in (("feed", feed), ("expected", expected), ("got", got)):
        with open(os.path.join(folder, name), "wb") as file:
            file.write(content)
    return folder


def first_unlike(expected, got):
    pairs = itertools.zip_longest(expected.splitlines(True), got.splitlines(True))
    for place, (wanted, found) in enumerate(pairs, 1):
        if wanted != found:
            return f"line {place}: expected {wanted!r}, got {found!r}"


def tell_difference(program, label, feed, run, met, clock):
    """Print the difference `met`, on a smaller feed if one is found in time."""
    print(f"DIFFERENCE in {label}, {len(feed)} bytes, {run.__name__.replace('_', ' ')}")
    known = {feed: met}
    stop = min(clock.now() + SHRINK_LIMIT, clock.last_start)

    def still_differs(tried):
        made = outcome(program, tried, clock.run_limit, run)
        known[tried] = made
        return made != (reference.report(tried), None)

    feed = smaller(feed, still_differs, lambda: clock.now() < stop)
    expected, (got, trouble) = reference.report(feed), known[feed]
    print(f"made smaller: {len(feed)} bytes")
    print(trouble or first_unlike(expected, got))
    print(f"feed, expected and got are in {write_down(feed, expected, got)}")


# The whole check -------------------------------------------------------------


class Seen:
    """What the feeds tried have brought up, as the reference tells it."""

    def __init__(self):
        self.families = collections.Counter()
        self.before, self.sends, self.grades = (collections.Counter() for _ in range(3))
        self.lines = self.bytes = self.longest = 0

    def note(self, family, feed, expected):
        self.families[family] += 1
        self.bytes += len(feed)
        self.longest = max(self.longest, len(feed))
        for line in expected.decode().splitlines():
            self.lines += 1
            words = line.split()
            if words[0] == "denied":
                place = self.before if words[1] == "0" else self.sends
                place[int(words[2])] += 1
            elif words[0] == "grade":
                self.grades[int(words[1])] += 1

    def missing(self):
        """What a check worth its name has to have met."""
        lacks = [f"denied 0 {n}" for n in sorted(REFUSALS_BEFORE - set(self.before))]
        lacks += [f"a send denied {n}" for n in sorted(REFUSALS_OF_SENDS - set(self.sends))]
        lacks += [f"grade {n}" for n in range(3) if n not in self.grades]
        names = [family.__name__.replace("_", " ") for family in feeds.FAMILIES]
        return lacks + [name for name in names if name not in self.families]

    def tell(self):
        print(f"{sum(self.families.values())} feeds, {self.bytes} bytes, longest {self.longest}")
        for family, count in sorted(self.families.items()):
            print(f"  {count:7} {family}")
        print("refused before the notes:", as_pairs(self.before))
        print("sends denied:", as_pairs(self.sends))
        print("grades:", as_pairs(self.grades))
        print(f"lines compared: {self.lines}")


def as_pairs(counter):
    return ", ".join(f"{key}: {count}" for key, count in sorted(counter.items())) or "none"


def all_feeds(seed, count):
    """Sweeps first; a random feed is labelled with what brings it back."""
    for family, feed in sweeps.sweeps():
        yield family, family, feed
    for index in itertools.count() if count is None else range(count):
        family, feed = feeds.random_feed(seed, index)
        yield family, f"{family} (seed {seed}, feed {index})", feed


def check(program, seed, count, jobs, clock, seen):
    """Run everything; true if all agreed. Feeds are made and foretold here while
    the program works on earlier ones."""
    waiting = collections.deque()

    def try_out(feed, run):
        return outcome(program, feed, clock.run_limit, run) if clock.may_start() else None

    def settle():
        family, label, feed, run, expected, job = waiting.popleft()
        met = job.result()
        if met is None:
            return True  # too late to be tried
        if met == (expected, None):
            seen.note(family, feed, expected)
            return True
        tell_difference(program, label, feed, run, met, clock)
        return False

    pool = concurrent.futures.ThreadPoolExecutor(jobs)
    try:
        for index, (family, label, feed) in enumerate(all_feeds(seed, count)):
            if not clock.may_start():
                print("the time given is used up")
                break
            run = manner(index)
            job = pool.submit(try_out, feed, run)
            waiting.append((family, label, feed, run, reference.report(feed), job))
            if len(waiting) > 2 * jobs and not settle():
                return False
        return all(settle() for _ in range(len(waiting)))
    finally:
        pool.shutdown(cancel_futures=True)


def reference_holds():
    """The reference itself against the answers set down by hand."""
    for name, feed, expected in known.known_answers():
        assert reference.report(feed) == expected, name


def arguments():
    parser = argparse.ArgumentParser(description=__doc__.splitlines()[0])
    parser.add_argument("program", help="the built program")
    parser.add_argument("--seconds", type=int, default=120, help="time for the whole check")
    parser.add_argument("--seed", type=int, default=1, help="another seed, other feeds")
    parser.add_argument("--feeds", type=int, help="random feeds, if not as many as the time allows")
    parser.add_argument("--jobs", type=int, choices=(1, 2), default=2, help="runs at a time")
    given = parser.parse_args()
    if not os.access(given.program, os.X_OK):
        parser.error(f"{given.program} cannot be run")
    return given


def main():
    given = arguments()
    clock, seen = Clock(given.seconds), Seen()
    reference_holds()
    program = os.path.abspath(given.program)
    agreed = check(program, given.seed, given.feeds, given.jobs, clock, seen)
    seen.tell()
    if not agreed:
        return 1
    missing = seen.missing()
    if missing:
        print("never met:", ", ".join(missing))
        return 2
    print("program and reference agree on every feed")
    return 0


if __name__ == "__main__":
    sys.exit(main())
