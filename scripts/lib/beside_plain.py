"""Registries in files, each beside the plain history that it should have (`plain_history.py`): replies, all tables and
the exported list must be the same, and another reader must find the held numbers and their titles in the list."""

import json
import sys
from itertools import groupby

from lib import plain_history
from lib.plain_history import History
from lib.second_reader import devices
from lib.usbreg import found, opened, run, write, write_requests


class Registry:
    """A registry in a file, and the plain history that it should have."""

    def __init__(self, usbreg, store, history):
        self.program, self.store, self.history = usbreg, store, history

    def ended(self, words, statuses=(0,)):
        status, output, errors = run([self.program, *words])
        if status not in statuses or errors:
            sys.exit(f"usbreg {' '.join(words)}: status {status}, {errors!r}")
        return output.decode().splitlines()

    def imported(self, request):
        listed = write(f"{self.store}.ids", request["list"])
        words = ["import", self.store, listed, "--caller", request["caller"], "--key", request["key"], "--org", request["org"]]
        vendor = ["--vendor", request["vendor"]] if "vendor" in request else []
        return self.ended([*words, *vendor], (0, 2))

    def replies(self, requests):
        """Returns the program's replies, from one run for each stretch without an import."""
        replies = []
        for is_import, stretch in groupby(requests, lambda it: it["order"] == "import"):
            if is_import:
                replies += [line for request in stretch for line in self.imported(request)]
            else:
                lines = write_requests(f"{self.store}.jsonl", stretch)
                replies += self.ended(["apply", self.store, lines])
        return replies

    def send(self, what, requests, replies=None):
        """Checks that both reply the same, and as expected, and then have the same tables."""
        expected = [plain_history.line(self.history.answer(request)) for request in requests]
        for request, plain, given in zip(requests, expected, replies or expected, strict=True):
            if plain != given:
                sys.exit(f"{what}: the plain history replies {plain} to {request}, where {given} is expected")
        for request, plain, given in zip(requests, expected, self.replies(requests), strict=True):
            if plain != given:
                sys.exit(f"{what}: usbreg replies {given} to {request}, where {plain} is expected")
        self.compare_tables(what)
        self.compare_list(what)
        return expected

    def compare_tables(self, what):
        with opened(self.store) as connection:
            for name, rows in self.history.tables().items():
                stored = sorted(connection.execute(f"SELECT * FROM {name}"), key=repr)
                if stored != sorted(rows, key=repr):
                    sys.exit(f"{what}: the table {name} is {stored}, where {rows} is expected")

    def compare_list(self, what):
        """Checks that the exported list is the plain history's to the byte, and that another reader reads the same in it."""
        lines = self.ended(["export", self.store])
        if lines != self.history.list_lines():
            sys.exit(f"{what}: the list is {lines}, where {self.history.list_lines()} is expected")
        held = {(f"{vid:04x}", f"{pid:04x}"): title for (vid, pid), title in self.history.titles().items()}
        if devices("\n".join(lines)) != held:
            sys.exit(f"{what}: another reader takes {devices(chr(10).join(lines))} from the list, where {held} is held")


class Room:
    """A folder with a program, for one registry after another."""

    def __init__(self, usbreg, made):
        self.program, self.folder, self.count = usbreg, made, 0

    def registry(self, curator="cora", fixed="0001-0010", licences=("GPL-3.0-only", "MIT")):
        self.count += 1
        founding = f'vendor = "1209"\nname = "Shared products"\ncurators = ["{curator}"]\n'
        founding += f'licences = {json.dumps(licences)}\nfixed = ["{fixed}"]\n'
        path = write(f"{self.folder}/{self.count}.toml", founding)
        return Registry(self.program, found(self.program, f"{self.folder}/{self.count}.db", path), History(path))
