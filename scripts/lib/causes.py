"""What the parts of `say_what_failed.py` share: a case, which is run with `--verbose` and without, in a folder with one store."""

import contextlib
import os
import shutil
import subprocess
import sys

from lib.usbreg import ENDINGS, EXAMPLES, content, found, library

ORDERS = f"{EXAMPLES}/first.jsonl"
STORE, FILE = "fault: store\n", "fault: file\n"
APPLY = ["apply", "CASE/numbers.db", ORDERS]


def named(errors, cause):
    """Returns the whole standard error of a run with `--verbose`."""
    return errors + (f"usbreg: {cause}\n" if cause else "")


def start(words, given=b"", env=None, user=None, output=subprocess.PIPE):
    return subprocess.run(words, input=given, stdout=output, stderr=subprocess.PIPE, env={**os.environ, **(env or {})}, user=user, check=False, timeout=60)


class Cases:
    """The cases that were tried, in a folder in which each begins with one store, numbers.db."""

    def __init__(self, usbreg, room):
        self.usbreg, self.room, self.count = usbreg, room, 0
        self.whole = found(usbreg, f"{room}/whole.db")
        self.shim = library(room, "fail")

    def path(self, name):
        return f"{self.room}/case/{name}"

    def begin(self, change):
        """Makes the folder of a case: a store, and what the case changes."""
        shutil.rmtree(f"{self.room}/case", ignore_errors=True)
        os.makedirs(f"{self.room}/case")
        os.chmod(f"{self.room}/case", 0o777)
        for ending in ENDINGS:
            if os.path.exists(f"{self.whole}{ending}"):
                shutil.copy(f"{self.whole}{ending}", self.path(f"numbers.db{ending}"))
                os.chmod(self.path(f"numbers.db{ending}"), 0o666)
        if change:
            change(self)

    def ended(self, words, options, change, fail, user, output, given):
        """Returns status, output, errors and the files of one run."""
        self.begin(change)
        env = {"LD_PRELOAD": self.shim, **{kind: str(number) for kind, number in fail.items()}} if fail else None
        if output:
            with open(output, "wb") as file:
                ran = start([self.usbreg, *words, *options], given, env, user, file)
        else:
            ran = start([self.usbreg, *words, *options], given, env, user)
        there = {name: os.path.isfile(self.path(name)) and content(self.path(name)) for name in sorted(os.listdir(f"{self.room}/case")) if not name.endswith((".pipe", "-wal"))}
        return ran.returncode, ran.stdout, ran.stderr.decode(), there

    def case(self, words, status, errors, cause, *, change=None, fail=None, user=None, output=None, given=b""):
        """Ends the script unless a run ends with this status and these errors, and with `--verbose` says this cause too."""
        words = [it.replace("CASE/", self.path("")) for it in words]
        plain = self.ended(words, [], change, fail, user, output, given)
        told = self.ended(words, ["--verbose"], change, fail, user, output, given)
        cause = cause and cause.replace("CASE/", self.path(""))
        if plain[0] != status or plain[2] != errors:
            sys.exit(f"usbreg {' '.join(words)}: status {plain[0]} and {plain[2]!r}, not {status} and {errors!r}")
        if told[2] != named(errors, cause):
            sys.exit(f"usbreg {' '.join(words)} --verbose: {told[2]!r}, not {named(errors, cause)!r}")
        if (told[0], told[1], told[3]) != (plain[0], plain[1], plain[3]):
            sys.exit(f"usbreg {' '.join(words)} --verbose: ends otherwise than without --verbose")
        self.count += 1


def remove_store(cases):
    for ending in ENDINGS:
        with contextlib.suppress(FileNotFoundError):
            os.remove(cases.path(f"numbers.db{ending}"))
