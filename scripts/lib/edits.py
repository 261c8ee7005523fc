"""Edits of source files, in the form of mutants/NAME/*.edit and crates/NAME/must-fail/, and the functions whose goals
decide about them."""

import re

# The first line of a function, and the first of what a method stands in, whose type has the name that is found last.
HEADER = re.compile(r"( *)(?:pub(?:\([a-z]+\))? )?(?:const )?(?:unsafe )?fn (\w+)")
BLOCK = re.compile(r"( *)(?:pub )?(?:impl|trait)\b(?:<.*?>(?= ))?(?: (?:\w+::)*(\w+).*? for)? &?(?:\w+::)*(\w*)")
# A constant or a type.
ITEM = re.compile(r"(?:pub(?:\([a-z]+\))? )?(?:const|static|struct|enum|type) (\w+)")


class Function:
    """A function of a source file: its lines, counted from 1, where its body begins, and whose method it is."""

    def __init__(self, path, owner, name, lines):
        self.path, self.owner, self.name = path, owner, name
        self.first, self.body, self.last = lines
        self.key = (owner or path, name)

    def has(self, path, line):
        return path == self.path and self.first <= int(line) <= self.last

    def owns(self, words):
        """Returns whether this name in what a check prints, or this folder of proofs, is of it or of a closure in it. A
        method has there the name of its type and behind it that of the trait, maybe in the module of its type."""
        if self.owner:
            return any(re.fullmatch(self.owner, one) and two == self.name for one, two in zip(words, words[1:]))
        module = [it for it in self.path[len("src/") : -len(".rt")].split("/") if it not in ("lib", "main")]
        return words == [*module, self.name] or words[: len(module) + 2] == [*module, "fn", self.name]


def body_of(lines, at, indent):
    """Returns where the body of the function on this line begins and ends, if it has lines of its own."""
    for begins in range(at, len(lines)):
        line = lines[begins]
        if line.endswith("{") and (begins == at or re.match(rf"{indent}[{{)>w]", line)):
            return begins, next(it for it in range(begins, len(lines)) if lines[it].startswith(f"{indent}}}"))
        if line.endswith(";") or begins == at and line.endswith("}"):
            return None
    return None


def functions_of(path, text):
    """Yields the functions of a source file, as `rt fmt` lays it out, whose bodies have lines of their own."""
    lines, block = text.split("\n"), None
    for at, line in enumerate(lines):
        block, header = BLOCK.match(line) or block, HEADER.match(line)
        body = body_of(lines, at, header[1]) if header else None
        if body:
            owner = block[3] + (rf"({block[2]}\w*)?" if block[2] else "") if block and block[1] < header[1] else None
            yield Function(path, owner, header[2], (at + 1, body[0] + 1, body[1] + 1))


class Edit:
    """An edit: the new text of lines, by file and number, and the functions whose goals decide about it."""

    def __init__(self, name, text, crate):
        self.name, self.functions, self.is_alone = name, [], False
        self.lines = self.changes(text, crate)
        for path, line in self.lines:
            held = [it for it in functions_of(path, crate.texts[path]) if it.has(path, line)]
            if held and line < held[-1].body:
                raise ValueError(f"it changes the contract of {held[-1].name}, and not its body")
            self.is_alone |= not held
            self.functions += held[-1:] or self.users(crate, path, line)
        if not self.functions:
            raise ValueError("no function names what it changes")
        self.keys = {it.key for it in self.functions}

    @staticmethod
    def changes(text, crate):
        """Returns the new text of each changed line, by its file and number."""
        path, old, made = "", "", dict(crate.texts)
        for word, colon, rest in (line.partition(":") for line in text.split("\n")):
            rest = rest.removeprefix(" ")
            path = rest.strip() if word == "file" and colon else path
            old = rest if word == "old" and colon else old
            if word == "new" and colon:
                count = made.get(path, "").count(old) if old else 0
                if count != 1:
                    raise ValueError(f"an 'old:' text is in {path} {count} times, and not once")
                made[path], old = made[path].replace(old, rest), ""
        lines = {}
        for path, now in made.items():
            both = zip(crate.texts[path].split("\n"), now.split("\n"))
            lines.update({(path, at): after for at, (before, after) in enumerate(both, 1) if before != after})
        if not lines:
            raise ValueError("it changes nothing")
        return lines

    @staticmethod
    def users(crate, path, line):
        """Yields the functions of the crate whose bodies name the constant or type of this line."""
        above = crate.texts[path].split("\n")[line - 1 :: -1]
        named = next((found[1] for found in map(ITEM.match, above) if found), None)
        for file, text in crate.texts.items() if named else ():
            for it in functions_of(file, text):
                if re.search(rf"\b{named}\b", "\n".join(text.split("\n")[it.body - 1 : it.last])):
                    yield it


def rounds_of(edits):
    """Returns the edits in few checks: two of one function apart, and alone an edit outside of functions."""
    rounds = []
    for edit in edits:
        clashes = lambda other: edit.is_alone or other.is_alone or other.keys & edit.keys
        free = next((it for it in rounds if not any(map(clashes, it))), None)
        if free is None:
            rounds.append(free := [])
        free.append(edit)
    return rounds
