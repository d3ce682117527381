"""Write the stored runs of the crate `stored_reports`, or check that they are what they should be.

    python3 stored.py DIR [--check]

The program `stored_reports` works in the folder DIR/data. It reads names from its standard
input, opens the file of each, and prints the name and the report of that feed.
DIR/stdin gets the names, DIR/data the feeds, DIR/stdout what it has to print.

Each report is set down by hand beside its feed, and has to be the reference's too.

Exit status: 0 all there is as it should be, 1 something differs.
"""

import argparse
import os
import re
import sys

import reference
import stored_figures
import stored_form
import stored_grades
import stored_rows
import stored_school
import stored_sends

SUBJECTS = (stored_form, stored_sends, stored_rows, stored_figures, stored_grades, stored_school)


def stored_runs():
    """Name, feed and report of each run, in their order."""
    runs = [run for subject in SUBJECTS for run in subject.runs()]
    names = [name for name, _, _ in runs]
    assert len(set(names)) == len(names), "a name is given twice"
    for name, feed, report in runs:
        assert re.fullmatch("[a-z0-9]+(_[a-z0-9]+)*", name), name
        told = reference.report(feed)
        assert told == report, f"{name}: by hand {report!r}, by the reference {told!r}"
    return runs


def contents(runs):
    """What each file has to hold, by its path below DIR."""
    files = {os.path.join("data", name): feed for name, feed, _ in runs}
    files["stdin"] = b"".join(b"%s\n" % name.encode() for name, _, _ in runs)
    files["stdout"] = b"".join(b"# %s\n%s" % (name.encode(), report) for name, _, report in runs)
    return files


def write(folder, files):
    os.makedirs(os.path.join(folder, "data"), exist_ok=True)
    for path, content in files.items():
        with open(os.path.join(folder, path), "wb") as file:
            file.write(content)


def differences(folder, files):
    """What is lacking, what differs, and feeds that no run has. These are not taken
    away when writing, in case DIR is the wrong folder."""
    for path, content in files.items():
        try:
            with open(os.path.join(folder, path), "rb") as file:
                if file.read() != content:
                    yield f"{path} differs"
        except FileNotFoundError:
            yield f"{path} is lacking"
    data = os.path.join(folder, "data")
    for name in sorted(os.listdir(data)) if os.path.isdir(data) else ():
        if os.path.join("data", name) not in files:
            yield f"data/{name} belongs to no run"


def main():
    parser = argparse.ArgumentParser(description=__doc__.splitlines()[0])
    parser.add_argument("folder", metavar="DIR", help="the folder of the crate")
    parser.add_argument("--check", action="store_true", help="write nothing, only compare")
    given = parser.parse_args()
    files = contents(stored_runs())
    if not given.check:
        write(given.folder, files)
    met = list(differences(given.folder, files))
    for difference in met:
        print(difference)
    count, size = len(files) - 2, sum(map(len, files.values()))
    print(f"{count} stored runs, {size} bytes: {len(met)} differences")
    return 1 if met else 0


if __name__ == "__main__":
    sys.exit(main())
