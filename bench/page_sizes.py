#!/usr/bin/env python3
"""Measures `usbreg` over stores with pages of several sizes, with sums and without.

On new stores: the instructions of `apply` for 1,500 requests, counted by callgrind if valgrind is installed, and the
processor seconds for 30,000, best of three runs. On a store with 65,535 numbers of one vendor and as many petitions as
asked, which SQLite makes: the size of the file, and the processor seconds and the peak memory of an opening (`report
census`), of `export`, and of `GET /list` on a server, best of three runs. All files are on tmpfs (/dev/shm).

Usage: bench/page_sizes.py [PETITIONS], by default 1,000,000. Needs cc and the program that `make` builds, or the one whose
path is in USBREG. The exit status is 0 if 1,500 requests on a store as `usbreg found` makes it take at most 0.65 of the
instructions on one with pages of 4,096 bytes and without sums."""

import os
import re
import resource
import shutil
import subprocess
import sys
import tempfile

HERE = os.path.dirname(os.path.abspath(__file__))
sys.path.insert(0, f"{HERE}/../scripts")
from lib.serving import exchange, get, serving
from lib.usbreg import PAGE_SIZE, SUM_SIZE, apply, blank_page, copy, found_in, older_text, opened, program, rounds, seal, write_requests
from open_older import COUNTED, ENTRIES, NEWEST, PETITIONS, ROWS

RUNS = int(os.environ.get("TIMES", "3"))
NEW, OLD = (PAGE_SIZE, SUM_SIZE), (4096, 0)
FORMS = ((512, SUM_SIZE), NEW, (2048, SUM_SIZE), (4096, SUM_SIZE), OLD)
MOST = 0.65


def instructions(words):
    """Returns the instructions of a run."""
    ran = subprocess.run(["valgrind", "--tool=callgrind", "--callgrind-out-file=/dev/null", *words], capture_output=True, check=True)
    return int(re.search(rb"Collected : (\d+)", ran.stderr)[1])


def processor_seconds(run):
    """Returns the processor seconds of the children of a call, and its result."""
    before = resource.getrusage(resource.RUSAGE_CHILDREN)
    result = run()
    after = resource.getrusage(resource.RUSAGE_CHILDREN)
    return after.ru_utime + after.ru_stime - before.ru_utime - before.ru_stime, result


def measured(peak, words):
    """Returns the least processor seconds of several runs, and the peak memory in bytes."""
    runs = [processor_seconds(lambda: subprocess.run([peak, *words], stdout=subprocess.PIPE, check=True).stdout) for _ in range(RUNS)]
    return min(seconds for seconds, _ in runs), int(runs[0][1].splitlines()[-1])


def large(store, form, petitions):
    """Makes a store with all numbers of a vendor and so many petitions, and returns its path."""
    with open(store, "wb") as file:
        file.write(blank_page(*form))
    rows = ROWS.replace(COUNTED.format(PETITIONS), COUNTED.format(petitions))
    texts = "".join(re.findall(r"^CREATE .*;$", older_text(2), re.MULTILINE))
    with opened(store) as connection:
        connection.executescript(f"BEGIN;{texts}{rows}{NEWEST}COMMIT;VACUUM;")
    seal(store)
    return store


def list_seconds(usbreg, store):
    """Returns the least processor seconds of a server for one more `GET /list`."""

    def serve(count):
        with serving(usbreg, store, count=count).up() as server:
            for _ in range(count):
                exchange(server.port, get("/list"))
            server.ended()

    one, several = (min(processor_seconds(lambda count=count: serve(count))[0] for _ in range(RUNS)) for count in (1, 6))
    return (several - one) / 5


def on_new_stores(usbreg, room, form):
    """Returns the instructions for 1,500 requests, or None, the seconds for 30,000, and the sizes of the files."""
    few, many = write_requests(f"{room}/few.jsonl", rounds(1, 500)), write_requests(f"{room}/many.jsonl", rounds(1, 10000))
    store, sizes, count = f"{room}/new.db", [os.path.getsize(found_in(usbreg, f"{room}/new.db", *form))], None
    if shutil.which("valgrind"):
        count = instructions([usbreg, "apply", store, few])
    seconds = []
    for _ in range(RUNS):
        found_in(usbreg, store, *form)
        seconds.append(processor_seconds(lambda: apply(usbreg, store, many))[0])
    sizes.append(os.path.getsize(store))
    return count, min(seconds), sizes


def main():
    petitions = int(sys.argv[1]) if len(sys.argv) > 1 else PETITIONS
    usbreg, counts = program(), {}
    with tempfile.TemporaryDirectory(dir="/dev/shm") as room:
        peak = f"{room}/peak"
        subprocess.run(["cc", "-O2", "-o", peak, f"{HERE}/peak.c"], check=True)
        for form in FORMS:
            counts[form], seconds, sizes = on_new_stores(usbreg, room, form)
            print(f"pages of {form[0]:,} bytes, {form[1]} of them reserved:")
            print(f"  {counts[form] or 0:,} instructions for 1,500 requests, {seconds:.2f} s for 30,000; the file {sizes[0]:,} bytes, then {sizes[1]:,}", flush=True)
            store = large(f"{room}/large.db", form, petitions)
            size, opening = os.path.getsize(store), measured(peak, [usbreg, "report", copy(store, f"{room}/copy.db"), "census"])
            export = measured(peak, [usbreg, "export", f"{room}/copy.db"])
            print(f"  with {ENTRIES:,} numbers and {petitions:,} petitions {size / 1e6:.1f} MB: opening {opening[0]:.2f} s and {opening[1] / 1e6:.0f} MB, ", end="")
            print(f"export {export[0]:.2f} s and {export[1] / 1e6:.0f} MB, GET /list {list_seconds(usbreg, store):.3f} s", flush=True)
    if counts[NEW]:
        print(f"1,500 requests take {counts[NEW] / counts[OLD]:.2f} of the instructions on a store with pages of 4,096 bytes without sums")
        if counts[NEW] > MOST * counts[OLD]:
            sys.exit(f"more than {MOST}")


if __name__ == "__main__":
    main()
