#!/usr/bin/env python3
"""Times `usbreg lookup` beside a plain look-up in C and one in Python: whole processes, which alternate.

Takes the path of a list, else uses Debian's list (package usb.ids), else a made-up one of its size. Prints the median of
the runs of each, in milliseconds, and the ratios. Needs the program that `make` builds, or the one whose path is in
USBREG, and cc."""

import os
import statistics
import subprocess
import sys
import tempfile
import time

HERE = os.path.dirname(os.path.abspath(__file__))
sys.path.insert(0, f"{HERE}/../scripts")
from lib.second_reader import devices
from lib.usbreg import content, done, program, write

RUNS = int(os.environ.get("TIMES", "200"))
LIST = "/usr/share/misc/usb.ids"
SIZE = "730000"


def list_of(room):
    if len(sys.argv) > 1:
        return sys.argv[1]
    if os.path.exists(LIST):
        return LIST
    print("Debian's list is not here: apt-get install usb.ids. A made-up list is taken.")
    return write(f"{room}/made_up.ids", done([sys.executable, f"{HERE}/made_up_list.py", SIZE]).decode())


def timed(words):
    began = time.perf_counter()
    subprocess.run(words, stdout=subprocess.DEVNULL, check=True)
    return (time.perf_counter() - began) * 1000


def main():
    with tempfile.TemporaryDirectory() as room:
        subprocess.run(["cc", "-O2", "-o", f"{room}/plain_look_up", f"{HERE}/plain_look_up.c"], check=True)
        path = list_of(room)
        every = sorted(devices(content(path).decode("latin-1")))
        device = [path, *every[len(every) // 2]]
        peers = {
            "usbreg": [program(), "lookup", *device],
            "C": [f"{room}/plain_look_up", *device],
            "Python": [sys.executable, f"{HERE}/plain_look_up.py", *device],
        }
        answers = {name: done(words) for name, words in peers.items()}
        if len(set(answers.values())) != 1:
            sys.exit(f"the answers differ: {answers}")
        times = {name: [] for name in peers}
        for _ in range(RUNS):
            for name, words in peers.items():
                times[name].append(timed(words))
        medians = {name: statistics.median(them) for name, them in times.items()}
        print(f"{path}: {os.path.getsize(path)} bytes, a look-up as a whole process, the median of {RUNS}")
        for name, median in medians.items():
            print(f"  {name}: {median:.2f} ms" + ("" if name == "usbreg" else f", usbreg takes {medians['usbreg'] / median:.2f} times as long"))


if __name__ == "__main__":
    main()
