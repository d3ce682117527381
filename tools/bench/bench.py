"""How much the built program `page` costs, beside a plain Rust program with hash maps.

    python3 bench.py PROGRAM [--runs N]

`plain.rs` is compiled by rustc alone. Both programs get each feed of `bench_feeds.py`,
and have to print the same bytes. A table then has for each feed the instructions that
valgrind's callgrind counts, and the median wall time of many runs, in turns. Another has
the instructions of one send on average, by how many numbers are held.

Exit status: 0 the tables are printed, 1 the programs do not print the same, 2 a tool is
missing or a program fails.
"""

import argparse
import os
import pathlib
import re
import shutil
import statistics
import subprocess
import sys
import tempfile
import time

import bench_feeds  # which brings the second program's folder onto the path
from check import first_unlike

PLAIN = pathlib.Path(__file__).parent / "plain.rs"
TOOLS = ("rustc", "valgrind")
RUN_LIMIT = 60  # seconds for one run of a program, also under valgrind


class Differs(Exception):
    """The two programs do not print the same."""


def output(command, feed):
    with feed.open("rb") as stdin:
        run = subprocess.run(command, stdin=stdin, capture_output=True, timeout=RUN_LIMIT)
    run.check_returncode()
    return run.stdout


def instructions(program, feed):
    counts = feed.with_name("counts")
    output(["valgrind", "--tool=callgrind", f"--callgrind-out-file={counts}", program], feed)
    found = re.search(r"^totals: (\d+)", counts.read_text(), re.MULTILINE)
    if found is None:
        raise OSError("callgrind counted nothing")
    return int(found[1])


def seconds(program, feed):
    start = time.perf_counter()
    output([program], feed)
    return time.perf_counter() - start


def in_turns(programs, feed, runs):
    """The median seconds of each program. In turns, so that other work slows both alike."""
    rounds = [[seconds(program, feed) for program in programs] for _ in range(runs)]
    return [statistics.median(times) for times in zip(*rounds)]


def compared(programs, folder, name, plan):
    """The file of a feed for which both programs print the same."""
    feed = folder / "feed"
    feed.write_bytes(plan.feed())
    page, plain = (output([program], feed) for program in programs)
    if page != plain:
        raise Differs(f"{name}: {first_unlike(plain, page)}")
    return feed


def print_row(cells):
    print("|", " | ".join(cells), "|", flush=True)


def print_costs(programs, folder, runs):
    print("| feed | sends | instructions | plain Rust | ratio | µs | plain Rust | ratio |")
    print("|---|---|---|---|---|---|---|---|")
    for name, make in bench_feeds.FEEDS.items():
        plan = make()
        feed = compared(programs, folder, name, plan)
        page, plain = (instructions(program, feed) for program in programs)
        page_time, plain_time = in_turns(programs, feed, runs)
        counts = [f"{page:,}", f"{plain:,}", f"{page / plain:.2f}"]
        times = [f"{page_time * 1e6:,.0f}", f"{plain_time * 1e6:,.0f}"]
        ratio = f"{page_time / plain_time:.2f}"
        print_row([name, f"{len(plan.notes):,}", *counts, *times, ratio])


def print_sends(programs, folder):
    """Of feeds that differ in nothing but their numbers, less what a feed of no sends costs."""
    feed = compared(programs, folder, "no sends", bench_feeds.none_sent())
    bases = [instructions(program, feed) for program in programs]
    print("| numbers held | in order | plain Rust | random | plain Rust |", end="")
    print(" of one remainder | plain Rust |")
    print("|---|---|---|---|---|---|---|")
    for held in (1, 8, 64, 512):
        row = [str(held)]
        for numbers in (bench_feeds.in_order, bench_feeds.at_random, bench_feeds.one_remainder):
            plan = bench_feeds.all_accepted(numbers(held))
            feed = compared(programs, folder, f"{held} numbers", plan)
            for program, base in zip(programs, bases):
                row.append(str((instructions(program, feed) - base) // len(plan.notes)))
        print_row(row)


def arguments():
    parser = argparse.ArgumentParser(description=__doc__.splitlines()[0])
    parser.add_argument("program", help="the built program, as crates/page/out/page")
    parser.add_argument("--runs", type=int, default=1000, help="runs for a wall time")
    given = parser.parse_args()
    if not os.access(given.program, os.X_OK):
        parser.error(f"{given.program} cannot be run")
    if given.runs < 1:
        parser.error("a wall time needs a run")
    for tool in TOOLS:
        if shutil.which(tool) is None:
            parser.error(f"{tool} is not installed")
    return given


def main():
    given = arguments()
    with tempfile.TemporaryDirectory() as name:
        folder = pathlib.Path(name)
        plain = folder / "plain"
        programs = (os.path.abspath(given.program), plain)
        try:
            subprocess.run(["rustc", "-O", "--edition", "2021", "-o", plain, PLAIN], check=True)
            print_costs(programs, folder, given.runs)
            print()
            print_sends(programs, folder)
        except Differs as difference:
            print(difference, file=sys.stderr)
            return 1
        except (OSError, subprocess.SubprocessError) as trouble:
            print(trouble, file=sys.stderr)
            sys.stderr.buffer.write(getattr(trouble, "stderr", None) or b"")
            return 2
    return 0


if __name__ == "__main__":
    sys.exit(main())
