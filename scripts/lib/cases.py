"""Cases of a program over stores in files: the arguments, the exit status and what it prints."""

import sys

from lib.usbreg import FOUNDING, run, write


class Room:
    """A folder with a program, and the number of cases that ran."""

    def __init__(self, usbreg, made):
        self.program, self.folder, self.seen = usbreg, made, 0

    def file(self, name, text):
        return write(f"{self.folder}/{name}", text)

    def case(self, words, status=0, output="", errors="", lines=b""):
        """Checks that these arguments end with this exit status and print these texts."""
        ended, printed, said = run([self.program, *words], lines)
        if (ended, printed, said) != (status, output.encode(), errors.encode()):
            sys.exit(f"usbreg {' '.join(words)}: status {ended}, printed {printed!r} and {said!r}")
        self.seen += 1

    def founded(self, name):
        store = f"{self.folder}/{name}.db"
        self.case(["found", store, FOUNDING])
        return store
