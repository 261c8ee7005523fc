#!/usr/bin/env python3
"""Tests what of the page in `web/` needs no browser, by `node --test`: its table of orders beside that of docs/requests.md;
the forms, the addresses and the reading of replies, which come from it; the reading of numbers, refusals, rules and reports.
lib/page_tables.test.mjs has the tests. Each text that `use_the_page.py --planted` replaces by a bug stands in the page.

Usage: scripts/test_the_tables.py. If node is not installed, it says that the tests were skipped. The exit status is 0 if all
pass."""

import shutil
import sys

from lib.in_node import WEB, failed_in_node
from lib.planted import PLANTED
from lib.usbreg import content


def lacking():
    """Returns the bugs that cannot be planted, since the page lacks the text that each replaces."""
    changes = [(what, *it) for what, _, *those in PLANTED for it in those if it[0] != "usbreg.conf"]
    return [f"{what}: web/{file} has no {old!r}" for what, file, old, _ in changes if old not in content(f"{WEB}/{file}").decode()]


def main():
    if there := lacking():
        sys.exit("\n".join(there))
    if not shutil.which("node"):
        print("SKIPPED: not installed: node; so the tables of the page were not tested")
    elif failed := failed_in_node():
        sys.exit(failed)
    else:
        print(f"web: the tables are as they should be, and the {len(PLANTED)} bugs have their places")


if __name__ == "__main__":
    main()
