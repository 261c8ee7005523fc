"""The values that a registry takes of pages in the layout of pid.codes: titles, slugs, licences, and the numbers that names of
folders and fields name."""

import os
import re
import sys
import unicodedata

# The most bytes of a title and of a slug.
TITLE, SLUG = 200, 32
# The most bytes of the name of a folder.
FOLDER = 255
ALIASES = os.path.join(os.path.dirname(os.path.abspath(__file__)), "licence_aliases.tsv")
# Characters that end a line or control a terminal, and those that turn the direction of what follows them.
CONTROLS, TURNING = "\x00-\x1f\x7f-\x9f\u2028\u2029", "\u202a-\u202e\u2066-\u2069\ufeff"
# A vendor ID and a product ID, as fields have them: with a stroke or a colon between them, or as Windows writes them. And a product ID
# alone, which is not the name of a host.
PAIRS = (
    re.compile(r"(?<![0-9A-Za-z])(?:0[xX])?([0-9a-fA-F]{4})[/:](?:0[xX])?([0-9a-fA-F]{4})(?![0-9A-Za-z])"),
    re.compile(r"(?<![0-9A-Za-z])VID_([0-9A-F]{4})&PID_([0-9A-F]{4})(?![0-9A-Z])", re.IGNORECASE),
)
SINGLE = re.compile(r"(?<!//)(?<![0-9A-Za-z])(?:0x|PID_)([0-9A-F]{1,4})(?![0-9A-Z])", re.IGNORECASE)
# What a remark in brackets may say of a licence without changing what it means: the part that it is for.
REMARKS = set(
    "and bootloader board boards case code design designs docs documentation driver drivers enclosure enclosures files firmware for hardware host layout library "
    "pcb schematic schematics software source the tools".split()
)


def plain_of(text):
    """Returns a text without control characters and without those that turn its direction."""
    return re.sub(f"[{TURNING}]", "", re.sub(f"[{CONTROLS}]+", " ", text.encode("utf-8", "replace").decode())).strip(" ")


def title_of(text):
    """Returns a title, which is empty if nothing of the text can be one."""
    return plain_of(text).encode()[:TITLE].decode(errors="ignore").strip(" ")


def letters_of(name):
    """Returns the letters and digits of a name that a slug can have, with a hyphen between its words."""
    plain = unicodedata.normalize("NFKD", name).encode("ascii", "ignore").decode().lower()
    return re.sub(r"[^a-z0-9]+", "-", plain).strip("-")


def cut(text, size=SLUG):
    return text[:size].strip("-")


def slug_of(name):
    """Returns the slug of a name: its letters as far as there is room, or `org` if it has none."""
    return cut(letters_of(name)) or "org"


def can_be_folder(name):
    """Returns whether the page of an organisation with this name can stand in a folder of that name."""
    return "/" not in name and not name.startswith((".", "index.")) and len(name.encode()) <= FOLDER


def numbers_named(name):
    """Returns the numbers that the name of a folder or a file names: words of four hexadecimal digits, and fewer if they are all
    of it."""
    words = re.findall(r"(?<![0-9A-Za-z])(?:0[xX])?([0-9a-fA-F]{4})(?![0-9A-Za-z])", name)
    if re.fullmatch(r"[0-9a-fA-F]{1,3}", name):
        words.append(name)
    return {int(it, 16) for it in words} - {0}


def numbers_in(field, text, vendor):
    """Returns the numbers that a field names, each with its vendor: as `1209/300a`, `1209:300a`, `VID_1209&PID_300A` or `0x300a`, and in
    a field `pid` by the digits alone."""
    named = {(vid.lower(), int(pid, 16)) for pair in PAIRS for vid, pid in pair.findall(text)}
    rest = PAIRS[1].sub(" ", PAIRS[0].sub(" ", text))
    alone = SINGLE.findall(rest)
    if field == "pid":
        alone += [it for it in re.split(r"[\s,;]+", rest) if re.fullmatch("[0-9a-fA-F]{4}", it)]
    return {it for it in named | {(vendor, int(pid, 16)) for pid in alone} if it[1]}


class Licences:
    """A table of aliases: what people write, and the licences that they mean."""

    def __init__(self, path):
        self.whole, self.known = {}, {}
        with open(path, encoding="utf-8") as file:
            rows = [line.rstrip("\n").split("\t") for line in file]
        for row in rows:
            # a comment has no tab
            if row != [""] and not (len(row) == 1 and row[0].startswith("#")):
                self.put(path, row)

    def put(self, path, row):
        if len(row) != 2 or not row[0].strip() or title_of(row[1]) != row[1] or not row[1]:
            sys.exit(f"{path}: {row}: two columns are wanted, what is written and the licence that it means, of at most {TITLE} bytes")
        words = self.words(row[0])
        if self.whole.setdefault(words, row[1]) != row[1] or self.known.setdefault(self.plain(row[0]) or words, row[1]) != row[1]:
            sys.exit(f"{path}: {row}: one meaning of each alias is wanted")

    @staticmethod
    def words(written):
        return " ".join(written.lower().split())

    @staticmethod
    def plain(written):
        without = re.sub(r"\b(?:the|gnu|version|licen[cs]e)\b", " ", written.lower())
        return re.sub(r"[\s_-]|v(?=\d)", "", without)

    def found(self, written):
        """Returns the licence that an alias says this means, or that is written before brackets in which it is named again."""
        plain = self.plain(written)
        if known := self.whole.get(self.words(written)) or (plain and self.known.get(plain)):
            return known
        named = re.fullmatch(r"(.*\S)\s*\(([^()]*)\)\s*", written)
        again = named and self.found(named[1])
        return again if again and again == self.found(named[2]) else None

    def meant(self, written):
        """Returns the licence, or several joined as SPDX does, and the parts that are not known. What is not joined by `or` holds
        together: `GPLv3 (software), CC0 (hardware)`. Of what `or` joins the known ones are taken, and else nothing if a part is
        not known. A remark in brackets is part of what is written, unless it says only what the licence is for."""
        if whole := self.found(written):
            return whole, []
        text = re.sub(r"\(([^()]*)\)", lambda it: " " if set(re.findall(r"[^\s,/&]+", it[1].lower())) <= REMARKS else it[0], written)
        text = re.sub(r",(?=\s*v(?:ersion)?\s*\d)", " ", text, flags=re.IGNORECASE)
        either = re.split(r"\s+or\s+(?!later)", text, flags=re.IGNORECASE)
        parts = either if len(either) > 1 else re.split(r"[,/&;]|\s\+\s|\band\b", text, flags=re.IGNORECASE)
        parts = [it.strip() for it in parts if it.strip()]
        unknown = [it for it in parts if not self.found(it)]
        known = list(dict.fromkeys(filter(None, map(self.found, parts))))
        meant = (" OR " if len(either) > 1 else " AND ").join(known)
        if not known or (unknown and len(either) == 1) or len(meant.encode()) > TITLE:
            return None, unknown
        return meant, unknown


def is_no(text):
    return text.strip().lower() in ("false", "no", "off", "n")
