#!/usr/bin/env python3
"""Builds the program twice, in two folders, and compares the bytes. The two clones of this commit have paths of different
lengths, and `make` runs in them at different times, in different time zones, with different homes, and as another user for
the second one if --user names one.

If the programs differ it says in which sections, and where these first differ. In each of them it looks for what a build
could leave of its place: the path of its checkout, its home, the name of the host, the day. With --paths it prints all paths
in them.

A kit keeps what it proved, for all checkouts of a machine. So that the second build does not begin with what the first one
kept, name a second copy of the kit, in a folder of its own, by --kit.

Usage: scripts/build_twice.py [--user NAME] [--kit FOLDER]
       scripts/build_twice.py ONE OTHER
The second form compares two programs that are there: files, or checkouts in which `make` has built them. It builds nothing.
The first form takes twice as long as `make`, and leaves both checkouts below the temporary folder. The exit status is 0 if the programs are the same and have no such traces."""

import argparse
import hashlib
import os
import re
import socket
import struct
import subprocess
import sys
import tempfile
import time

TOP = os.path.dirname(os.path.dirname(os.path.abspath(__file__)))
BUILT = "crates/registry_cli/out/registry_cli"
# The least length of a text in a program, and how many bytes are shown of two sections that differ.
LETTERS, SHOWN = 6, 64


def content(path):
    with open(path, "rb") as file:
        return file.read()


def sections(program):
    """Returns the sections of a program by name, from "ELF-64 Object File Format"."""
    if program[:6] != b"\x7fELF\x02\x01":
        sys.exit("a program is not in the format ELF of 64 bits, the least byte first")
    (table,), (size, count, names) = struct.unpack_from("<Q", program, 40), struct.unpack_from("<HHH", program, 58)
    headers = [struct.unpack_from("<IIQQQQ", program, table + at * size) for at in range(count)]
    names_at = headers[names][4]
    found = {}
    for name, kind, _, _, offset, length in headers:
        text = program[names_at + name : program.index(b"\0", names_at + name)].decode()
        # a section of zeros has no bytes in the file
        found[text] = b"" if kind == 8 else program[offset : offset + length]
    return found


def differences(one, other):
    """Yields what differs between two programs."""
    first, second = sections(one), sections(other)
    for name in sorted(first.keys() | second.keys()):
        mine, its = first.get(name), second.get(name)
        if mine is None or its is None:
            yield f"only one of them has the section {name}"
        elif mine != its:
            at = next((at for at, (a, b) in enumerate(zip(mine, its)) if a != b), min(len(mine), len(its)))
            start = max(0, at - SHOWN // 2)
            shown = " and ".join(repr(it[start : start + SHOWN]) for it in (mine, its))
            yield f"section {name}, {len(mine)} and {len(its)} bytes, from byte {at} of it on: {shown}"


def texts(program):
    return [it.decode() for it in re.findall(rb"[\x20-\x7e]{%d,}" % LETTERS, program)]


def paths(program):
    """Returns what looks like a path from the root in the texts of a program."""
    return sorted({it for text in texts(program) for it in re.findall(r"(?:^|(?<=[\s\"'=:(]))/[\w.+-]+(?:/[\w.+-]+)+", text)})


def traces(program, place):
    """Returns the texts of a program that name the place of its build."""
    day = time.gmtime()
    wanted = {place, os.path.dirname(place), os.path.expanduser("~"), socket.gethostname(), time.strftime("%Y-%m-%d", day), time.strftime("%b %e %Y", day)}
    wanted = {it for it in wanted if len(it) >= LETTERS - 1 and it != "/"}
    return sorted({text for text in texts(program) if any(it in text for it in wanted)})


def cloned(folder, user):
    """Clones this commit into a folder, for the given user, and returns the folder."""
    commit = subprocess.run(["git", "rev-parse", "HEAD"], cwd=TOP, check=True, capture_output=True, text=True).stdout.strip()
    os.makedirs(os.path.dirname(folder), exist_ok=True)
    subprocess.run(["git", "clone", "--quiet", "--no-local", TOP, folder], check=True)
    subprocess.run(["git", "checkout", "--quiet", "--detach", commit], cwd=folder, check=True)
    if user:
        subprocess.run(["chown", "-R", f"{user}:", os.path.dirname(folder)], check=True)
    return folder


def make(folder, zone, home, user=None, kit=None):
    """Runs `make` in a clone, and returns the path of the program."""
    os.makedirs(home, exist_ok=True)
    on_path = f"{kit}/bin:{os.environ['PATH']}" if kit else os.environ["PATH"]
    told = {"TZ": zone, "HOME": home, "PATH": on_path}
    words = ["make"]
    if user:
        subprocess.run(["chown", "-R", f"{user}:", home], check=True)
        words = ["runuser", "-u", user, "--", "env", *(f"{name}={value}" for name, value in told.items()), *words]
    began = time.monotonic()
    subprocess.run(words, cwd=folder, env=os.environ | told, check=True)
    print(f"{folder}: built in {(time.monotonic() - began) / 60:.0f} minutes", flush=True)
    return f"{folder}/{BUILT}"


def build_both(given):
    """Builds the program in two folders, and returns the paths of both."""
    room = tempfile.mkdtemp(prefix="built-twice-")
    os.chmod(room, 0o755)
    one = make(cloned(f"{room}/a/usbreg", None), "UTC", f"{room}/home")
    long = f"{room}/another/folder/with-a-longer-path/usbreg-of-another-user"
    # the day there is another one for most of the time
    other = make(cloned(long, given.user), "Pacific/Kiritimati", f"{room}/another/home", given.user, given.kit)
    return one, other


def program_in(path):
    return f"{path}/{BUILT}" if os.path.isdir(path) else path


def compared(one, other, shows_paths):
    """Prints what is found in two programs, and returns whether they are the same and have no trace of their places."""
    read = [content(it) for it in (one, other)]
    are_good = read[0] == read[1]
    for path, program in zip((one, other), read):
        summed = hashlib.sha256(program).hexdigest()
        print(f"{summed}  {path}")
        if os.path.exists(f"{path}.sha256") and content(f"{path}.sha256").split()[0].decode() != summed:
            print(f"{path}.sha256 has another number")
            are_good = False
        place = path.removesuffix(f"/{BUILT}") if path.endswith(f"/{BUILT}") else os.path.dirname(os.path.abspath(path))
        for text in traces(program, place):
            print(f"    a trace of its place: {text}")
            are_good = False
        for text in paths(program) if shows_paths else ():
            print(f"    a path: {text}")
    for difference in differences(*read) if read[0] != read[1] else ():
        print(f"    {difference}")
    return are_good


def main():
    words = argparse.ArgumentParser(description="Builds the program twice, and compares the bytes.")
    words.add_argument("programs", nargs="*", metavar="PROGRAM", help="two programs, or checkouts that have one, to compare instead")
    words.add_argument("--user", help="the user who builds the second one")
    words.add_argument("--kit", help="the folder of a second copy of the kit, for the second one")
    words.add_argument("--paths", action="store_true", help="print all paths in the programs")
    given = words.parse_args()
    if len(given.programs) not in (0, 2):
        words.error("name two programs, or none")
    one, other = map(program_in, given.programs) if given.programs else build_both(given)
    is_good = compared(one, other, given.paths)
    print("they are the same" if is_good else "they differ, or say where they were built")
    sys.exit(not is_good)


if __name__ == "__main__":
    main()
