"""What a power cut can leave of the files that a program writes, for scripts.

A preloaded library, `record.c`, records the calls of a run on the files of one folder. From them come states of that
folder, as a disk may have them if the power fails between two calls or within one: what was synced before is there; of
what was not, each sector of 512 bytes, each new length and each new entry of the folder is there or is not."""

import struct
from typing import NamedTuple

from lib.usbreg import content, run

HEAD = struct.Struct("=iiqq")
SECTOR = 512
# The name of the folder itself, whose sync makes its entries certain.
FOLDER = ""


class Step(NamedTuple):
    """What a call did: `made` an entry, `renamed` the one that `data` names, `write`, `cut`, `sync`, or `said` something to
    the output or a socket. The last step of a run that ended by itself is its `end`."""

    kind: str
    name: str = FOLDER
    at: int = 0
    data: bytes = b""

    def __str__(self):
        return f"{self.kind} {self.name or '.'} {self.at} {len(self.data)}"


KINDS = {"w": "write", "t": "cut", "s": "sync"}


def within(folder, path):
    """Returns the name of a path in a folder, or None if it leads elsewhere."""
    return path.removeprefix(folder).lstrip("/") if path.startswith(folder) else None


def steps_in(record, folder):
    """Returns the steps on the files of a folder in the bytes of a record, and what was written to files of other kinds."""
    names, steps, place = {}, [], 0
    while place < len(record):
        kind, file, at, size = HEAD.unpack_from(record, place)
        place += HEAD.size + size
        kind, data = chr(kind), record[place - size : place]
        if kind == "o":
            names[file] = within(folder, data.decode())
            if names[file] and not at:
                steps.append(Step("made", names[file]))
        elif kind == "r":
            before, after = (within(folder, it) for it in data.decode().split("\0"))
            names = {it: after if name == before else name for it, name in names.items()}
            steps.append(Step("renamed", after, data=before.encode()))
        elif kind == "c":
            names.pop(file, None)
        elif kind == "p" and file not in names:
            steps.append(Step("said", data=data))
        elif names.get(file) is not None:
            steps.append(Step(KINDS[kind], names[file], at, data))
    return steps


def recorded(words, folder, library, given=b""):
    """Returns how a run ended, with its output and errors, and its steps on the files of a folder."""
    record = f"{folder}.record"
    ended = run(words, given, recording(library, record))
    return ended, [*steps_in(content(record), folder), Step("end")]


def recording(library, record):
    """Returns the variables of a run whose calls are recorded in a file."""
    return {"LD_PRELOAD": library, "RECORD": record}


def told(steps):
    """Returns the bytes that a run wrote to its output and its sockets."""
    return b"".join(it.data for it in steps if it.kind == "said")


def pieces(step):
    """Returns the parts of a step that a disk makes one by one: a write, sector by sector."""
    if step.kind == "cut":
        return [step]
    ends = [*range(step.at - step.at % SECTOR + SECTOR, step.at + len(step.data), SECTOR), step.at + len(step.data)]
    begins = [step.at, *ends[:-1]]
    return [step._replace(at=begin, data=step.data[begin - step.at : end - step.at]) for begin, end in zip(begins, ends)]


def with_pieces(before, made):
    """Returns the bytes of a file after these pieces."""
    after = bytearray(before)
    for piece in made:
        after += bytes(max(0, piece.at - len(after)))
        if piece.kind == "cut":
            del after[piece.at :]
        else:
            after[piece.at : piece.at + len(piece.data)] = piece.data
    return bytes(after)


# What a disk makes of the pieces that were not synced.


def nothing(_, __):
    return []


def everything(all_pieces, _):
    return all_pieces


def the_first(all_pieces, dice):
    return all_pieces[: dice.randint(0, len(all_pieces))]


def some(all_pieces, dice):
    rate = dice.choice((0.1, 0.5, 0.9))
    return [it for it in all_pieces if dice.random() < rate]


def in_any_order(all_pieces, dice):
    taken = some(all_pieces, dice)
    return dice.sample(taken, len(taken))


def garbled(all_pieces, dice):
    """Returns some pieces; a few of them have bytes that nobody wrote."""
    taken = some(all_pieces, dice)
    return [it._replace(data=dice.randbytes(len(it.data))) if dice.random() < 0.2 else it for it in taken]


WAYS = (nothing, everything, the_first, some, in_any_order, garbled)


class Disk:
    """The files of a folder within a run: the bytes that are certain, and the steps that were not synced. The syncs of
    the lost files are taken as not made."""

    def __init__(self, files, lost=()):
        self.certain, self.later, self.new, self.lost = dict(files), {it: [] for it in files}, set(), lost
        # the files that were renamed since the last sync of the folder, with their names before
        self.renamed = {}

    def take(self, step):
        if step.kind == "made":
            self.new.add(step.name)
            self.certain[step.name], self.later[step.name] = b"", []
        elif step.kind == "renamed":
            before = step.data.decode()
            self.new = self.new - {before} | {step.name}
            self.certain[step.name], self.later[step.name] = self.certain.pop(before), self.later.pop(before)
            self.renamed[step.name] = before
        elif step.kind in ("write", "cut"):
            self.later[step.name] += pieces(step)
        elif step.kind == "sync" and step.name not in self.lost:
            if step.name == FOLDER:
                self.new.clear()
                self.renamed.clear()
            else:
                self.certain[step.name] = with_pieces(self.certain[step.name], self.later[step.name])
                self.later[step.name] = []

    def left(self, way, dice):
        """Returns the files that a power cut leaves: all in one way, or each in its own if none is given."""
        files = {}
        for name in sorted(self.certain):
            its = way or dice.choice(WAYS)
            entry = name
            if name in self.new and (its is nothing or its is not everything and dice.random() < 0.5):
                entry = self.renamed.get(name)
                if not entry or its is nothing or dice.random() < 0.5:
                    continue
            before, later = self.certain[name], self.later[name]
            files[entry] = after = with_pieces(before, its(later, dice))
            longest = max([len(before), *(it.at + len(it.data) for it in later)])
            if its not in (nothing, everything) and dice.random() < 0.25:
                # the file has its new length, but not yet its new bytes
                more = max(0, longest - len(after))
                files[entry] += dice.randbytes(more) if its is garbled else bytes(more)
        return files


def states(files, steps, dice, lost=(), ways=6):
    """Yields states that power cuts in a run can leave, in random order, each once: the number of steps before the cut,
    and the files. There are as many ways of each cut as said, two of which are nothing and everything."""
    cuts = [(cut, way) for cut in range(len(steps) + 1) for way in (nothing, everything, *[None] * (ways - 2))]
    dice.shuffle(cuts)
    seen = set()
    for cut, way in cuts:
        disk = Disk(files, lost)
        for step in steps[:cut]:
            disk.take(step)
        left = disk.left(way, dice)
        known = hash((len(told(steps[:cut])), tuple(sorted(left.items()))))
        if known not in seen:
            seen.add(known)
            yield cut, left
