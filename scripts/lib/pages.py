"""The pages of the repository as the scripts read them: blocks of code, commands with what they print, the commands below a
title, and a shell in which the commands of a page run one after another."""

import os
import re
import secrets
import subprocess
import sys
import time

from lib.serving import PATIENCE, free_port, listens
from lib.usbreg import EXAMPLES, TOP, content

# The pages for who runs a registry.
OPERATING = ("docs/operating.md", "docs/limits.md", "docs/backup.md", "docs/faults.md")
# What bash says of the server that a page ends by `kill`.
ENDED = re.compile(r".*\bTerminated\b.*\n")


def page(name):
    """Returns the text of a page, by its path in the repository."""
    return content(f"{TOP}/{name}").decode()


def blocks(text, kind="sh"):
    """Returns the blocks of code of a text that have this kind behind their first three quotes."""
    return re.findall(rf"^```{kind}\n(.*?)^```$", text, re.MULTILINE | re.DOTALL)


def titled(text):
    """Returns the blocks of commands of a text, in their order, each behind the title above it."""
    found, title = [], ""
    for part in re.split(r"^(#+ [^\n]*|```sh\n.*?^```$)", text, flags=re.MULTILINE | re.DOTALL):
        if part.startswith("#"):
            title = part.lstrip("# ")
        elif part.startswith("```sh\n"):
            found.append((title, part[6:-3]))
    return found


def block(title, at=0, pages=OPERATING):
    """Returns the commands below a title of one of the pages: the first ones, or those after so many others."""
    there = [it for it in map(page, pages) if f"# {title}\n" in it]
    if len(there) != 1:
        sys.exit(f"{len(there)} of {', '.join(pages)} have the title {title!r}")
    return [commands for of, commands in titled(there[0]) if of == title][at]


def shown(text):
    """Yields the commands that a text shows behind a dollar, with what each prints: that ends at the next one."""
    for there in blocks(text, ""):
        for example in re.split(r"^\$ ", there, flags=re.MULTILINE)[1:]:
            words = re.match(r"(?:.*\\\n)*.*\n", example)[0]
            yield words, example[len(words) :]


def orders():
    """Returns the table of orders of docs/requests.md: the name of each, its fields, and a reply as an example."""
    return re.findall(r"^\| `([a-z-]+)` \| ([a-z?, ]+) \| `([^`]+)` \|$", page("docs/requests.md"), re.MULTILINE)


def links(text):
    """Returns the relative links of a page, without what follows a #."""
    return [it for it, _ in targets(text) if it]


def targets(text):
    """Returns the relative links of a page: the file, or nothing for the page itself, and what follows a #."""
    return re.findall(r"\]\((?![a-z]+:)([^)#\s]*)(?:#([^)\s]+))?\)", text)


def headings(text):
    """Returns the names by which links lead to the headings of a page."""
    there = re.findall(r"^#+ (.*)$", re.sub(r"^```.*?^```$", "", text, flags=re.MULTILINE | re.DOTALL), re.MULTILINE)
    return {re.sub(r"[^\w -]", "", it.lower()).replace(" ", "-") for it in there}


def broken_links(names):
    """Yields each link of these pages, by their paths in the repository, that leads to no file or to no heading."""
    for name in names:
        for file, heading in targets(page(name)):
            target = os.path.normpath(os.path.join(os.path.dirname(name), file)) if file else name
            if not os.path.exists(f"{TOP}/{target}") or heading and heading not in headings(page(target)):
                yield name, file, heading


def section(text, name):
    """Returns the first column of a section of a help text."""
    there = re.search(rf"^{name}:\n((?:  .*\n)*)", text, re.MULTILINE)
    return [re.split(r"  +", line.strip())[0] for line in there[1].splitlines()] if there else []


class Shell:
    """A shell in a folder that has `usbreg` and the examples of the repository, for a `with`. It stands in for a terminal:
    what a command prints comes with its errors. A server of the page gets a free port."""

    def __init__(self, usbreg, room):
        os.makedirs(f"{room}/bin")
        os.makedirs(f"{room}/here")
        os.symlink(usbreg, f"{room}/bin/usbreg")
        os.symlink(EXAMPLES, f"{room}/here/examples")
        self.port = free_port()
        how = {"stdin": subprocess.PIPE, "stdout": subprocess.PIPE, "stderr": subprocess.STDOUT}
        env = {**os.environ, "PATH": f"{room}/bin:{os.environ['PATH']}"}
        self.process = subprocess.Popen(["bash", "--norc"], cwd=f"{room}/here", env=env, **how)

    def type(self, text):
        self.process.stdin.write(text.encode())
        self.process.stdin.flush()

    def run(self, words):
        """Returns the status and the output of a command. One that ends in & is waited for until its port is open."""
        mark = f"ended-{secrets.token_hex(8)}"
        words = words.replace("--port 8080", f"--port {self.port}").replace(":8080", f":{self.port}")
        self.type(f"{{\n{words}\n}} < /dev/null\nprintf '\\n{mark} %s\\n' $?\n")
        output = ""
        while not (ended := re.search(rf"\n{mark} (\d+)\n$", output)):
            if not (line := self.process.stdout.readline()):
                sys.exit(f"{words} ended the shell: {output}")
            output += line.decode()
        if words.rstrip().endswith("&"):
            self.wait()
        return int(ended[1]), ENDED.sub("", output[: ended.start()].replace("\r\n", "\n"))

    def wait(self):
        until = time.monotonic() + PATIENCE
        while not listens(self.port):
            if time.monotonic() > until:
                sys.exit(f"nobody listens on port {self.port} after {PATIENCE} seconds")
            time.sleep(0.01)

    def __enter__(self):
        return self

    def __exit__(self, *_):
        self.type("kill $(jobs -p) 2> /dev/null\nexit\n")
        self.process.communicate()
