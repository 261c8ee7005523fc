"""The text of a page in the layout of pid.codes: a file that begins with its *front matter*, which is fields in YAML between two
lines of three hyphens. YAML is read by its library alone, with a value as it is written: 1.10 is no number."""

import json
import os
import re
import sys

FRONT = re.compile(r"\A(---[ \t]*\n)(.*?\n|)((?:---|\.\.\.)[ \t]*(?:\n.*)?)\Z", re.DOTALL)
# Scalars that YAML reads as the text that they are, without quotes: a letter, and then nothing that YAML has a use for.
PLAIN = re.compile(r"[A-Za-z](?:[\w .,()/+@&-]|:(?=[^ ]))*(?<! )", re.ASCII)
WORDS = {"true", "false", "yes", "no", "on", "off", "y", "n", "null"}
NULLS = {"", "~", "null", "Null", "NULL"}


def yaml():
    """Returns Debian's reader of YAML. Ends the script if it is not installed."""
    try:
        import yaml as reader
    except ImportError:
        sys.exit(f"{sys.executable} has no module yaml: apt-get install python3-yaml")
    return reader


class Page:
    """A page. `fields` has the value of each field that is a text, or the texts of a list joined by commas, and `lists` the
    texts one by one. `wrong` is what else there is: kinds in move_report.REASONS, with their details. `fault` is such a pair if
    the page cannot be read, and the fields are then empty."""

    def __init__(self, data):
        self.fields, self.lists, self.wrong, self.fault = {}, {}, [], None
        self.front = self.end = self.text = ""
        self.marks, self.notes = [], set()
        try:
            text = data.decode("utf-8-sig")
        except UnicodeDecodeError as fault:
            self.fault = ("not utf-8", {"line": data.count(b"\n", 0, fault.start) + 1, "byte": f"0x{data[fault.start]:02x}"})
            return
        self.ends = "\r\n" if "\r\n" in text else "\n"
        parts = FRONT.match(text.replace("\r\n", "\n").replace("\r", "\n"))
        if not parts:
            self.fault = ("no front matter", {})
            return
        self.front, self.end = parts[2], parts[3]
        self.text = self.end.partition("\n")[2].strip()
        self.read_fields()

    def read_fields(self):
        reader = yaml()
        try:
            # the one in C, where it is there, takes a sixth of the time
            node = reader.compose(self.front, getattr(reader, "CBaseLoader", reader.BaseLoader))
        except (reader.YAMLError, RecursionError) as fault:
            self.fault = ("no yaml", {"why": place_of(fault, self.front)})
            return
        if node is None:
            return
        if not isinstance(node, reader.MappingNode):
            self.fault = ("no yaml", {"why": "line 2: these are no fields"})
            return
        for name, value in node.value:
            if isinstance(name, reader.ScalarNode):
                self.marks.append((name.start_mark.line, name.value))
                self.read_field(name.value, value, reader)
            else:
                self.marks.append((name.start_mark.line, None))
                self.wrong.append(("key", {"line": name.start_mark.line + 2}))
        self.find_comments(node, reader)

    def read_field(self, name, value, reader):
        items = value.value if isinstance(value, reader.SequenceNode) else [value]
        if not all(isinstance(it, reader.ScalarNode) for it in items):
            self.wrong.append(("field", {"field": name}))
            return
        # an escape of YAML can stand for half a character, which no text of UTF-8 has
        texts = [it.value.encode("utf-8", "replace").decode() for it in items if it.style or it.value not in NULLS]
        texts = [it for it in texts if it.strip()]
        if name in self.fields:
            self.wrong.append(("field twice", {"field": name, "dropped": self.fields[name]}))
            del self.fields[name]
        if texts:
            self.fields[name], self.lists[name] = ", ".join(texts), texts

    def find_comments(self, node, reader):
        """Finds the comments, which are where no text of a value is: behind it, or on lines of their own."""
        lines = self.front.split("\n")
        used = set()
        for leaf in leaves(node, reader):
            first, last = leaf.start_mark, leaf.end_mark
            used.update(range(first.line, last.line + (last.column > 0)))
            behind = lines[last.line][last.column :].lstrip(" \t,]}:") if last.column else ""
            if behind.startswith("#"):
                self.wrong.append(("comment", {"comment": behind}))
        self.notes = {at for at, it in enumerate(lines) if at not in used and it.lstrip().startswith("#")}
        self.wrong += [("comment", {"comment": lines[it].strip()}) for it in sorted(self.notes)]

    def changed(self, fields):
        """Returns the bytes of the page with other values of fields, or without those that are None. All else of it stays: the
        other fields, the comments among them, and what is below."""
        lines = self.front.split("\n")[:-1]
        starts = [it for it, _ in self.marks] + [len(lines)]
        kept, done = lines[: starts[0]], set()
        for (first, name), last in zip(self.marks, starts[1:]):
            if name not in fields:
                kept += lines[first:last]
            else:
                if name not in done and fields[name] is not None:
                    kept.append(f"{name}: {scalar(fields[name])}")
                kept += [lines[it] for it in range(first, last) if it in self.notes]
            done.add(name)
        kept += [f"{name}: {scalar(value)}" for name, value in fields.items() if name not in done and value is not None]
        text = "".join(f"{it}\n" for it in ["---", *kept]) + self.end
        return text.replace("\n", self.ends).encode()


def leaves(node, reader):
    """Yields the nodes of texts in a node, each once: an alias stands for a node that is elsewhere."""
    seen, todo = set(), [node]
    while todo:
        it = todo.pop()
        if id(it) in seen:
            continue
        seen.add(id(it))
        if isinstance(it, reader.ScalarNode):
            yield it
        else:
            todo += [part for one in it.value for part in (one if isinstance(one, tuple) else (one,))]


def place_of(fault, front):
    """Returns what the library says, with the line and the column in the page: its front matter begins in the second line."""
    mark = getattr(fault, "problem_mark", None)
    if mark:
        line, column, what = mark.line, mark.column, fault.problem
    elif hasattr(fault, "position"):
        before = front[: fault.position]
        line, column, what = before.count("\n"), len(before) - before.rfind("\n") - 1, fault.reason
    else:
        return f"line 2: {fault}"
    return f"line {line + 2}, column {column + 1}: {what}"


def page_of(fields):
    """Returns the bytes of a page that has these fields, without those that are None. Values are written without quotes where YAML
    reads them as they are, and else as in JSON, which is YAML if no character breaks a line."""
    lines = (f"{name}: {scalar(value)}\n" for name, value in fields.items() if value is not None)
    return f"---\n{''.join(lines)}---\n".encode()


def write(path, data):
    os.makedirs(os.path.dirname(path), exist_ok=True)
    with open(path, "wb") as file:
        file.write(data)


def read(path):
    with open(path, "rb") as file:
        return file.read()


def scalar(text):
    if PLAIN.fullmatch(text) and text.lower() not in WORDS:
        return text
    return re.sub("[\x7f-\x9f\u2028-\u202e\u2066-\u2069\ufeff]", lambda it: f"\\u{ord(it[0]):04x}", json.dumps(text, ensure_ascii=False))
