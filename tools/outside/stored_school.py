"""The stored run of the worked school: its text in docs/, as tools/make_feed makes a feed of it."""

import os
import subprocess

TOP = os.path.join(os.path.dirname(os.path.abspath(__file__)), "..", "..")

# The report, as docs/example.md works it out by hand.
REPORT = b"""\
denied 10 21
denied 13 6
1 69673 5
2 4206 1
3 4807597 5
4 51600 1
total 4933076 12
grade 2
"""


def runs():
    """Name, feed and report."""
    tool = os.path.join(TOP, "tools", "make_feed")
    with open(os.path.join(TOP, "docs", "school.txt"), "rb") as text:
        feed = subprocess.run([tool], stdin=text, stdout=subprocess.PIPE, check=True).stdout
    yield "worked_school", feed, REPORT
