"""Another reader of lists of USB numbers, beside `usbreg`."""

import re


def devices(text):
    """Returns the devices of a list as `lsusb` reads one: a vendor is four digits and two spaces, a device a tab before
    them. An entry of another kind has no devices."""
    found, vendor = {}, None
    for it in text.split("\n"):
        entry = re.fullmatch(r"(\t?)([0-9a-f]{4})  (.*)", it)
        if entry and not entry[1]:
            vendor = entry[2]
        elif entry and vendor:
            found.setdefault((vendor, entry[2]), entry[3])
        elif it[:1] not in ("", "\t", "#"):
            vendor = None
    return found
