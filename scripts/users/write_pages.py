#!/usr/bin/python3
"""Writes the numbers and the organisations of a record as pages in the layout of pid.codes: 1209/XXXX/index.md for each number
that is held, and org/SLUG/index.md for each organisation.

Usage: write_pages.py RECORD FOLDER [MOVED] [--over]. RECORD is what `usbreg history` prints, or - for the standard input. FOLDER must
not exist. MOVED is the folder of the move to `usbreg`, or its table names.tsv: organisations then have the names that they had before,
and numbers the folders. With --over FOLDER is a checkout whose pages are changed: one that says what the registry says stays to the
byte, the others keep what is below their fields and their other fields, and nothing else is touched. A page of a number that was
returned goes. USBREG names the program, which reads the links in these pages, by default `usbreg`.

A page cannot say who keeps an organisation, and no page says which numbers are reserved or were returned, which petitions
there are, and which keys were used: keep the record. The exit status is 0 if the pages are written."""

import os
import sys

from page_text import yaml
from read_record import registry_in
from site_pages import Names, Site


def main():
    words = [it for it in sys.argv[1:] if it != "--over"]
    over = len(words) < len(sys.argv) - 1
    if len(words) not in (2, 3):
        sys.exit(__doc__)
    record, folder = words[:2]
    if os.path.exists(folder) and not over:
        sys.exit(f"{folder} is there already: --over changes the pages in it")
    if over:
        yaml()
    registry = registry_in(record)
    site = Site(folder, registry.vendor, Names(*words[2:]), os.environ.get("USBREG", "usbreg"))
    site.write(registry)
    for name in (registry.vendor, "org"):
        os.makedirs(f"{folder}/{name}", exist_ok=True)


if __name__ == "__main__":
    main()
