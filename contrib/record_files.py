"""What publish-stories and publish-feed share: the record of a registry over HTTP, files that are made of it and replaced at once,
and where a run stopped."""

import collections
import hashlib
import http.client
import json
import os
import re
import shutil
import sys
import urllib.parse

# The lines that are held before they are written, in bytes; the files of which each is synced by itself; and the longest page of
# the record.
HELD, FEW, LONGEST = 1 << 26, 32, 1 << 23
# What replies say.
ID = "[0-9a-f]{4}"
GRANTED = re.compile(rf"granted (?:({ID}):)?({ID}) to (?:[a-z0-9-]+) by petition (\d+)")
PETITION = re.compile(r"(declined |withdrawn |)petition (\d+)")
SLUG = re.compile("[a-z0-9-]{1,32}")


class Registry:
    """The record of a registry over HTTP."""

    def __init__(self, url):
        self.at = urllib.parse.urlsplit(url)

    def fetched(self, path):
        connection = http.client.HTTPConnection(self.at.hostname, self.at.port, timeout=60)
        try:
            connection.request("GET", path)
            response = connection.getresponse()
            text = response.read(LONGEST)
        except (OSError, http.client.HTTPException) as failed:
            sys.exit(f"{path} cannot be fetched: {failed}")
        finally:
            connection.close()
        if response.status != 200 or text and not text.endswith(b"\n"):
            sys.exit(f"{path} cannot be fetched: status {response.status}, {len(text)} bytes")
        return text

    def lines(self, after):
        """Returns the lines of the record after so many requests, as many as come at once; or the founding."""
        return self.fetched(f"/history/{after}").split(b"\n")[:-1]

    def head(self):
        """Returns how many requests the record has, and their digest."""
        head = json.loads(self.fetched("/head"))
        return head["requests"], head["digest"]


def replace(path, text, is_synced=True):
    """Puts a text in the place of a file."""
    with open(f"{path}.new", "wb") as file:
        file.write(text)
        file.flush()
        if is_synced:
            os.fsync(file.fileno())
    os.replace(f"{path}.new", path)


class Files:
    """The files in a folder. What is taken is held until it is written. A subclass takes a request of the record (`take`), makes the
    text of a file of what is held for it and what is there (`text`), and ends a run that took requests (`end`)."""

    def __init__(self, folder):
        self.folder, self.held, self.size = folder, collections.defaultdict(dict), 0

    def add(self, path, number, line):
        self.held[path][number] = line
        self.size += len(line)

    def write(self):
        """Writes what is held. After a power cut no file is to be older than what `state` counts."""
        are_few = len(self.held) <= FEW
        for name in {os.path.dirname(it) for it in self.held}:
            os.makedirs(f"{self.folder}/{name}", exist_ok=True)
        for path, lines in self.held.items():
            replace(f"{self.folder}/{path}", self.text(path, lines), are_few)
        if not are_few:
            os.sync()
        self.held.clear()
        self.size = 0


def begun(folder, founding):
    """Returns how many requests were taken, their digest, and what else the run before has kept."""
    try:
        with open(f"{folder}/state", encoding="utf-8") as file:
            state = json.load(file)
        return state.pop("count"), state.pop("digest"), state
    except (FileNotFoundError, ValueError, KeyError):
        forget(folder)
        return 0, next_digest("", founding), {}


def forget(folder):
    """Removes all files. Without `head`, which goes first, the page reads the record."""
    for name in ("head", "state"):
        if os.path.exists(f"{folder}/{name}"):
            os.remove(f"{folder}/{name}")
    shutil.rmtree(folder, ignore_errors=True)


def next_digest(digest, line):
    """Returns the digest after one more line of the record."""
    return hashlib.sha256(b"%s%s\n" % (digest.encode(), line)).hexdigest()


def compare(count, digest, ends):
    """Ends the run over what is there if the registry has fewer requests, or as many with another digest."""
    if count >= ends[0] and (count, digest) != ends:
        raise ValueError("the registry goes on from another history")


def go_on(registry, folder, begin):
    """Writes the files of what the registry has accepted since the last run."""
    (founding,) = registry.lines("founding")
    ends = registry.head()
    first, digest, kept = begun(folder, founding)
    compare(first, digest, ends)
    files, count = begin(registry, folder, founding, kept), first
    os.makedirs(folder, exist_ok=True)
    while lines := registry.lines(count):
        for line in lines:
            count, digest = count + 1, next_digest(digest, line)
            if count == ends[0]:
                compare(count, digest, ends)
            files.take(count, line, digest)
        if files.size > HELD:
            files.write()
    files.write()
    if count != first or not os.path.exists(f"{folder}/state"):
        state = {"count": count, "digest": digest} | files.end()
        replace(f"{folder}/state", json.dumps(state).encode())
    return count


def publish(url, folder, begin):
    """Writes the files in a folder, which `begin` makes of the registry, the folder, the founding and what the run before has kept.
    Returns how many requests they are made of."""
    registry = Registry(url)
    try:
        return go_on(registry, folder, begin)
    except (KeyError, ValueError):
        # a power cut left a file without its lines, or the registry goes on from another history
        forget(folder)
        return go_on(registry, folder, begin)
