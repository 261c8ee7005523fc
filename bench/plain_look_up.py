"""A plain look-up in a usb.ids list, for comparison: prints the name of the first such device, and reads the list line by
line to its end."""
import re
import sys

path, vid, pid = sys.argv[1:]
vendor = re.compile(rb"(?i)%s  " % vid.encode())
device = re.compile(rb"(?i)\t%s  (.*)" % pid.encode())
under, name = False, None
with open(path, "rb") as file:
    for line in file:
        if line[:1] not in (b"\t", b"#", b"\n", b"\r"):
            under = vendor.match(line) is not None
        elif under and name is None and (found := device.match(line)):
            name = found[1].rstrip(b" \t\r")
if name is None:
    sys.exit(2)
sys.stdout.buffer.write(name + b"\n")
