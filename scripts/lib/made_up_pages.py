"""A made-up repository in the layout of pid.codes, and what has to come of each page. Each row of cases/moving.tsv, whose head says what
its columns are, is a page in it, and the others are plain."""

import dataclasses
import os
import random
import re

from lib.usbreg import TOP, content

CASES = f"{TOP}/cases/moving.tsv"
VENDOR, FIRST, LAST, HOME = "1209", 0x0011, 0xFFFF, "https://pid.codes/org"
# The fields of a plain page, and the numbers that rows name besides.
PLAIN = {"layout": "pid", "title": "Device {at}", "owner": "Acme_Labs", "license": "MIT", "site": "https://example.org/{at}", "source": "https://example.org/{at}/src"}
TERMS = ("license", "site", "source")
NAMED = {0xD00D, 0xD01D, 0xD02D, 0xD03D, 0xD04D, 0xD05D, 0xD06D, 0xD07D, 0xD08D, 0xD09D, 0xD0AD}
STATES = {"granted": "held", "imported": "held", "returned": "returned", "reserved": "reserved"}


@dataclasses.dataclass
class Row:
    """A row of the table."""

    case: str
    file: str
    written: str
    becomes: str
    kept: str
    report: str


def rows():
    lines = [it.split("\t") for it in content(CASES).decode().splitlines() if it and not it.startswith("#")]
    return [Row(*it) for it in lines[1:]]


def bytes_of(text):
    """Returns the bytes that a cell of the table stands for."""
    names = {b"n": b"\n", b"r": b"\r", b"t": b"\t", b"\\": b"\\"}

    def one(found):
        what = found[1]
        if what in names:
            return names[what]
        return bytes([int(what[1:], 16)]) if what[:1] == b"x" else chr(int(what[1:], 16)).encode()

    return re.sub(rb"\\(u[0-9a-f]{4}|x[0-9a-f]{2}|[nrt\\])", one, text.encode())


def lines_of(cell):
    """Returns the lines of a cell, whose \\n stands for the end of one before another field. What is below the fields comes last."""
    above, mark, below = cell.partition("below ")
    lines = re.split(r"(?<!\\)\\n(?=-?[a-z_]+(?:: |:?$|:?\\n)|beside )", above) if above else []
    return lines + ([mark + below] if mark else [])


class MadeUp:
    """A repository that is written into a folder. `kept` has the fields of each page after the move, `told` the outcome and a part of
    each line of the report by page, `states` the state of each number with its vendor, and `slugs` the slug of each name."""

    def __init__(self, top, count):
        self.top, self.kept, self.told, self.slugs, self.states, self.becomes, self.rows = top, {}, {}, {}, {}, {}, {}
        self.numbers = {}
        for pid in range(1, 0x11):
            self.write(f"{VENDOR}/{pid:04x}/index.md", b"---\nlayout: pid\ntitle: For tests\nowner: pidcodes\n---\n")
            self.told[f"{VENDOR}/{pid:04x}/index.md"] = [("reserved", "one of those that stay reserved")]
        for folder in (VENDOR, "org"):
            self.write(f"{folder}/index.html", b"---\nlayout: list\n---\n")
        self.states |= {(VENDOR, it): "reserved" for it in NAMED}
        table = rows()
        numbers = random.Random(1209).sample([it for it in range(FIRST, LAST + 1) if it not in NAMED], max(count, len(table)))
        for at, row in enumerate(table):
            self.put_row(at, numbers[at], row)
        owners = [f"Works{at}" for at in range(max(1, count // 8))]
        for name in owners:
            self.put_row(0, 0, Row("", f"org/{name}/index.md", f"=---\nlayout: org\ntitle: {name}\nsite: https://{name.lower()}.example/\n---\n", f"enrolled {name.lower()}", "", ""))
        for at in range(len(table), count):
            self.put_row(at, numbers[at], Row("", "", f"owner: {owners[at % len(owners)]}", "granted", "", ""))
        self.twice()

    def twice(self):
        """Writes two pages of one number: the first one, by the name of its folder, is taken, as it would be by itself."""
        for folder, title in (("DEAD", "One"), ("dead", "Two")):
            self.write(f"{VENDOR}/{folder}/index.md", f"---\nlayout: pid\ntitle: {title}\nowner: acme-labs\n---\n".encode())
        self.kept[f"{VENDOR}/DEAD"] = {"layout": "pid", "title": "One", "owner": "acme-labs"}
        self.told |= {f"{VENDOR}/DEAD/index.md": [("lost", "since it has no licence")], f"{VENDOR}/dead/index.md": [("left out", "1209/DEAD/index.md has the same number")]}
        self.states[VENDOR, 0xDEAD], self.becomes[f"{VENDOR}/DEAD/index.md"] = "held", "imported"

    def path(self, case):
        """Returns the path of the page of a row."""
        return next(path for path, row in self.rows.items() if row.case == case)

    def page_of(self, name):
        """Returns the path of the page of an organisation, or of the first one that names it as its owner."""
        own = f"org/{name}/index.md"
        if os.path.exists(f"{self.top}/{own}") and name != "BadYaml":
            return own
        return next(f"{it}/index.md" for it in sorted(self.kept, key=str.lower) if self.kept[it].get("owner") == name)

    def number(self, case):
        return self.numbers[case]

    def write(self, path, data):
        os.makedirs(os.path.dirname(f"{self.top}/{path}"), exist_ok=True)
        with open(f"{self.top}/{path}", "wb") as file:
            file.write(data)

    def put_row(self, at, number, row):
        def put(text):
            return text.replace("{at}", str(at)).replace("{n}", f"{number:04x}").replace("{N}", f"{number:04X}")

        path = put(row.file or f"{VENDOR}/{{n}}/index.md")
        fields, below, beside = dict(PLAIN), "", []
        if row.written.startswith("="):
            data = bytes_of(put(row.written[1:]))
            fields = dict(it.split(": ", 1) for it in data.decode("utf-8-sig", "replace").splitlines() if ": " in it)
        else:
            lines = []
            for line in lines_of(row.written):
                name, _, value = line.partition(": ")
                if line.startswith("-"):
                    fields.pop(line[1:])
                elif line.startswith("below "):
                    below = line[6:]
                elif line.startswith("beside "):
                    beside.append(line[7:])
                else:
                    lines.append(line)
                    if name in PLAIN:
                        fields[name] = value
            given = {it.partition(":")[0] for it in lines}
            front = [f"{name}: {value}" for name, value in fields.items() if name not in given]
            data = bytes_of(put("".join(f"{it}\\n" for it in ["---", *front[:1], *lines, *front[1:], "---"]) + below))
        self.write(path, data)
        for it in beside:
            self.write(f"{os.path.dirname(path)}/{it}", b"\xff")
        self.expect(path, number, row, fields, put)

    def expect(self, path, number, row, fields, put):
        told = [it.partition(": ")[::2] for it in put(row.report).split(" | ") if it]
        if told:
            self.told[path] = told
        self.becomes[path], self.rows[path] = row.becomes, row
        self.numbers[row.case] = f"{number:04x}"
        vendor = path.split("/")[0]
        if vendor == "org":
            if row.becomes.startswith("enrolled "):
                self.slugs[path.split("/")[1]] = row.becomes.split()[1]
                self.keep(path, fields, row, put)
        elif row.becomes in STATES:
            self.states[vendor, number] = STATES[row.becomes]
            if STATES[row.becomes] == "held":
                self.keep(path, {name: it for name, it in fields.items() if name not in TERMS} if row.becomes == "imported" else fields, row, put)

    def keep(self, path, fields, row, put):
        kept = {name: bytes_of(put(it)).decode() for name, it in fields.items()}
        for line in lines_of(row.kept):
            name, _, value = line.partition(": ")
            kept[name] = bytes_of(put(value)).decode()
        self.kept[os.path.dirname(path)] = kept
        name = kept.get("owner")
        if name and name not in self.slugs and not os.path.exists(f"{self.top}/org/{name}") or name == "BadYaml":
            self.slugs[name] = name.lower().replace(" ", "-")
            self.kept[f"org/{name}"] = {"layout": "org", "title": name, "site": f"{HOME}/{self.slugs[name]}/"}
