"""Prints a made-up list of about the given number of bytes."""
import random
import sys

wanted = int(sys.argv[1])
random.seed(1209)
words = ["USB", "Hub", "Keyboard", "Audio", "Device", "Adapter", "Board", "rev. 2", "(storage)", "Wireless", "Camera"]
out = ["# Version: 2024.01.30\n", "\n"]
size = 0
vendor = 1
while size < wanted:
    lines = ["%04x  %s\n" % (vendor % 65536, " ".join(random.choices(words, k=3)))]
    for number in sorted(random.sample(range(65536), random.randint(1, 12))):
        lines.append("\t%04x  %s\n" % (number, " ".join(random.choices(words, k=4))))
    text = "".join(lines)
    out.append(text)
    size += len(text)
    vendor += 1
sys.stdout.write("".join(out))
