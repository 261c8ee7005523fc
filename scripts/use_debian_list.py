#!/usr/bin/env python3
"""Looks devices up in Debian's list of USB numbers, as `lsusb` reads it, and imports a vendor's devices from it.

Usage: scripts/use_debian_list.py [PROGRAM [LIST]], by default the one that `make` builds, and the list of the package
usb.ids. The exit status is 0 if all results are right, or if the list does not exist."""

import os
import sys

from lib.requests import line
from lib.second_reader import devices
from lib.usbreg import content, done, folder, found, program, run, write

LIST = "/usr/share/misc/usb.ids"
LOOK_UPS = 10


def is_title(name):
    """Returns whether these are 1 to 200 bytes of UTF-8 without control characters, and no space at an end."""
    try:
        text = name.encode("latin-1").decode()
    except UnicodeDecodeError:
        return False
    return 1 <= len(name) <= 200 and text == text.strip(" ") and not any(ord(it) < 32 or ord(it) == 127 for it in text)


def look_up(usbreg, path, listed):
    every = sorted(listed)
    for vendor, device in every[:: max(1, len(every) // LOOK_UPS)][:LOOK_UPS]:
        ended = run([usbreg, "lookup", path, vendor, device])
        if ended != (0, listed[vendor, device].encode("latin-1") + b"\n", b""):
            sys.exit(f"lookup {vendor} {device}: {ended}, and the list has {listed[vendor, device]!r}")


def take_over(usbreg, room, path, listed):
    """Adds the vendor with the most devices to a registry, and imports and exports its devices."""
    vendors = [vendor for vendor, _ in listed]
    vendor = max(set(vendors), key=lambda it: (vendors.count(it), it))
    wanted = {it: name for it, name in listed.items() if it[0] == vendor and it[1] != "0000" and is_title(name)}
    store = found(usbreg, f"{room}/taken.db")
    lines = line("ann", "k1", "enrol", org="acme", title="Acme", site="https://acme.example/")
    lines += line("cora", "v1", "add-vendor", vendor=vendor, name="Another vendor")
    done([usbreg, "apply", store, write(f"{room}/lines.jsonl", lines)])
    reply = done([usbreg, "import", store, path, "--caller", "cora", "--key", "i1", "--org", "acme", "--vendor", vendor])
    if not reply.startswith(f'{{"done":"imported fresh {len(wanted)}, owned 0, reserved 0, '.encode()):
        sys.exit(f"import of vendor {vendor}: {reply!r}, where {len(wanted)} were to be fresh")
    if devices(done([usbreg, "export", store]).decode("latin-1")) != wanted:
        sys.exit(f"the export is not what was imported of vendor {vendor}")
    return vendor, len(wanted)


def main():
    usbreg = program(*sys.argv[1:2])
    path = sys.argv[2] if len(sys.argv) > 2 else LIST
    if not os.path.exists(path):
        print(f"SKIPPED: Debian's list of USB numbers is not used: {path} is not here: apt-get install usb.ids")
        return
    listed = {it: name.rstrip(" \t\r") for it, name in devices(content(path).decode("latin-1")).items()}
    look_up(usbreg, path, listed)
    with folder() as room:
        vendor, count = take_over(usbreg, room, path, listed)
    print(f"{LOOK_UPS} devices are looked up as the list has them, and {count} of vendor {vendor} are taken over")


if __name__ == "__main__":
    main()
