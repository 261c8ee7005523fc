#!/usr/bin/env python3
"""Completes command lines of `usbreg` in bash, zsh and fish, by the files that package/completions.py makes of its help.

In each shell a beginning of a command becomes the command, a beginning of an option that of its command, and that of a report
the report; the shell offers all commands, and all options that the help of a command has. In zsh the lines are typed at a
terminal.

Usage: scripts/complete_commands.py [PROGRAM], by default the one that `make` builds. A shell that is not installed is skipped,
and said. The exit status is 0 if all of this holds."""

import os
import pty
import re
import select
import shutil
import sys
import time

from lib.pages import section
from lib.usbreg import TOP, done, folder, program, run, same

# What is typed, and what it becomes.
TYPED = {
    "usbreg imp": ["import"], "usbreg che": ["check"], "usbreg re": ["replay", "report"], "usbreg report store.db cen": ["census"],
    "usbreg import --ca": ["--caller"], "usbreg apply store.db --ans": ["--answered"], "usbreg help hist": ["history"],
}
PATIENCE = 60


def in_bash(files, line):
    """Returns what bash offers for a line, by the function of the file."""
    words = line.split() if not line.endswith(" ") else [*line.split(), ""]
    put = " ".join(f"'{it}'" for it in words)
    script = f'. "$0"; COMP_WORDS=({put}); COMP_CWORD={len(words) - 1}; _usbreg; printf "%s\\n" "${{COMPREPLY[@]}}"'
    return done(["bash", "--norc", "-c", script, f"{files}/bash-completion/completions/usbreg"]).decode().split()


def in_fish(files, line):
    script = f"source {files}/fish/vendor_completions.d/usbreg.fish; complete -C '{line}'"
    status, output, _ = run(["fish", "--no-config", "-c", script], env={"HOME": files})
    same(f"fish: the status for {line}", status, 0)
    return [it.split("\t")[0] for it in output.decode().splitlines()]


class Zsh:
    """A zsh at a terminal, for a `with`."""

    def __init__(self, files):
        self.process, self.terminal = pty.fork()
        if not self.process:
            os.chdir(files)
            os.environ |= {"TERM": "dumb", "HOME": files, "PS1": "> ", "COLUMNS": "200"}
            os.execvp("zsh", ["zsh", "-f", "-i"])
        self.until("> ")
        self.type(f"fpath=({files}/zsh/vendor-completions $fpath); autoload -U compinit; compinit -u -D; LISTMAX=1000; echo re''ady\n")
        self.until("ready")

    def type(self, text):
        os.write(self.terminal, text.encode())

    def until(self, *wanted):
        """Waits until something matches each pattern."""
        got, until = "", time.monotonic() + PATIENCE
        while lacking := [it for it in wanted if not re.search(it, got)]:
            if time.monotonic() > until:
                sys.exit(f"zsh: {lacking} does not come: {got!r}")
            if select.select([self.terminal], [], [], 0.1)[0]:
                got += os.read(self.terminal, 65536).decode()

    def becomes(self, line, words):
        """Checks what a tab makes of a line, of which the shell writes the rest, or a list below it."""
        # of several words a first tab writes what they have in common, and a second one lists them
        self.type(f"{line}{chr(9) * min(len(words), 2)}")
        rest = words[0][len(line.split()[-1]) :]
        if len(words) == 1:
            self.until(re.escape(f"{line}{rest}"))
        else:
            self.until(*words)
        self.type("\x15")

    def __enter__(self):
        return self

    def __exit__(self, *_):
        os.close(self.terminal)
        os.waitpid(self.process, 0)


def offers_all(usbreg, files, shell, complete):
    """Checks that a shell offers each command, and each option of each command, as the helps have them."""
    commands = section(done([usbreg, "--help"]).decode(), "Commands")
    same(f"{shell}: the commands", [it for it in complete(files, "usbreg ") if not it.startswith("-") and it in commands or it in commands], commands if shell == "bash" else sorted(commands))
    for command in commands:
        if command != "help":
            helped = done([usbreg, command, "--help"]).decode().partition("\nOptions:\n")[2].partition("\nExample:\n")[0]
            wanted = set(re.findall(r"^ +(?:-\w, )?(--[a-z-]+)", helped, re.MULTILINE))
            same(f"{shell}: the options of {command}", set(complete(files, f"usbreg {command} --")), wanted)


def main():
    usbreg = program(*sys.argv[1:2])
    lacking = [it for it in ("bash", "fish", "zsh") if not shutil.which(it)]
    with folder() as files:
        done([f"{TOP}/package/completions.py", usbreg, files])
        for shell, complete in (("bash", in_bash), ("fish", in_fish)):
            if shell not in lacking:
                for line, words in TYPED.items():
                    same(f"{shell}: {line}", [it for it in complete(files, line) if it in words], words)
                offers_all(usbreg, files, shell, complete)
        if "zsh" not in lacking:
            with Zsh(files) as zsh:
                for line, words in TYPED.items():
                    zsh.becomes(line, words)
    print(f"{len(TYPED)} lines, and all commands and options, are completed in {3 - len(lacking)} shells")
    if lacking:
        print(f"SKIPPED: not installed: {', '.join(lacking)}")


if __name__ == "__main__":
    main()
