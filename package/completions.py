#!/usr/bin/env python3
"""Writes the completions of `usbreg` for bash, zsh and fish, by its own help: the commands, and the options of each with what
they are for. An argument is a file, but for those with values of their own in VALUES.

Usage: package/completions.py PROGRAM FOLDER, where FOLDER is PREFIX/share of an installation."""

import os
import re
import subprocess
import sys

BASH, ZSH, FISH = "bash-completion/completions/usbreg", "zsh/vendor-completions/_usbreg", "fish/vendor_completions.d/usbreg.fish"


def helped(program, *words):
    return subprocess.run([program, *words, "--help"], check=True, stdout=subprocess.PIPE, text=True).stdout


def rows(text, name):
    """Returns the two columns of a section of a help text. What stands alone in a line has its meaning in the next one."""
    there = re.search(rf"^{name}:\n((?:  .*\n|\n(?=  ))*)", text, re.MULTILINE)
    found = []
    for line in there[1].splitlines() if there else []:
        if not line.strip():
            continue
        if re.match(r" {2,6}\S", line):
            first, _, meaning = line.strip().partition("  ")
            found.append([first, meaning.strip()])
        elif not found[-1][1]:
            found[-1][1] = line.strip()
    return found


def options(text):
    """Returns the long options of a help text: the name, whether a value follows, and the meaning."""
    there = []
    for first, meaning in rows(text, "Options"):
        names = re.search(r"(--[a-z-]+)( <\w+>)?", first)
        there.append((names[1], bool(names[2]), plain(meaning)))
    return there


def values(text):
    """Returns the values of an argument whose help lists them: `one, two or three`."""
    return [it for _, meaning in rows(text, "Arguments") if re.fullmatch(r"\w+(, \w+)* or \w+", meaning) for it in re.split(", | or ", meaning)]


def plain(text):
    """Returns a text without what a shell or its completion would take as its own."""
    return re.sub(r"[^\w ,.+/()-]", "", text).rstrip(".")


class Commands:
    """The commands of the program by its help: what each is for, its options, and the values of its arguments."""

    def __init__(self, program):
        whole = helped(program)
        self.told = dict((name, plain(meaning)) for name, meaning in rows(whole, "Commands"))
        self.common = options(whole)
        helps = {it: helped(program, it) if it != "help" else "" for it in self.told}
        self.options = {it: options(text) for it, text in helps.items()}
        self.values = {it: values(text) for it, text in helps.items()}


def bash(commands):
    cases = []
    for command in commands.told:
        words = " ".join(name for name, _, _ in commands.options[command])
        valued = "|".join(name for name, takes, _ in commands.options[command] if takes)
        cases.append(f"        {command}) options='{words}' valued='{valued}' values='{' '.join(commands.values[command])}' ;;")
    return BASH_TEXT.replace("@COMMANDS@", " ".join(commands.told)).replace("@COMMON@", " ".join(it[0] for it in commands.common)).replace("@CASES@", "\n".join(cases))


BASH_TEXT = """\
# Completes the commands, options and arguments of usbreg in bash.
_usbreg() {
    local word=${COMP_WORDS[COMP_CWORD]} before=${COMP_WORDS[COMP_CWORD - 1]} options valued values
    COMPREPLY=()
    if [ "$COMP_CWORD" = 1 ]; then
        mapfile -t COMPREPLY < <(compgen -W '@COMMANDS@ @COMMON@' -- "$word")
        return
    fi
    case ${COMP_WORDS[1]} in
@CASES@
        *) return ;;
    esac
    if [ "${COMP_WORDS[1]}" = help ]; then
        mapfile -t COMPREPLY < <(compgen -W '@COMMANDS@' -- "$word")
    elif [[ -n $valued && $before =~ ^($valued)$ ]]; then
        return
    elif [[ $word == -* ]]; then
        mapfile -t COMPREPLY < <(compgen -W "$options" -- "$word")
    else
        mapfile -t COMPREPLY < <(compgen -W "$values" -- "$word"; compgen -f -- "$word")
        compopt -o filenames 2> /dev/null
    fi
}
complete -F _usbreg usbreg
"""


def zsh(commands):
    told = "\n".join(f"        '{name}:{meaning}'" for name, meaning in commands.told.items())
    common = " ".join(f"'{name}[{meaning}]'" for name, _, meaning in commands.common)
    cases = []
    for command in commands.told:
        words = [f"'{name}[{meaning}]{':value: ' if takes else ''}'" for name, takes, meaning in commands.options[command]]
        others = f"'*:name:({' '.join(commands.values[command])})'" if commands.values[command] else None
        if command == "help":
            others = f"'1:command:({' '.join(commands.told)})'"
        first = ["'1:store:_files'"] if commands.values[command] else []
        cases.append(f"        {command}) _arguments {' '.join([*words, *first, others or chr(39) + '*:file:_files' + chr(39)])} ;;")
    return ZSH_TEXT.replace("@TOLD@", told).replace("@COMMON@", common).replace("@CASES@", "\n".join(cases))


ZSH_TEXT = """\
#compdef usbreg
# Completes the commands, options and arguments of usbreg in zsh.
_usbreg() {
    local state line
    local -a told
    told=(
@TOLD@
    )
    _arguments -C @COMMON@ '1:command:->command' '*::argument:->argument'
    case $state in
    command) _describe command told ;;
    argument)
        case $line[1] in
@CASES@
        esac
        ;;
    esac
}
_usbreg "$@"
"""


def fish(commands):
    lines = ["# Completes the commands, options and arguments of usbreg in fish.", "complete -c usbreg -n __fish_use_subcommand -f"]
    for name, meaning in commands.told.items():
        lines.append(f"complete -c usbreg -n __fish_use_subcommand -a {name} -d '{meaning}'")
    for name, _, meaning in commands.common:
        lines.append(f"complete -c usbreg -n __fish_use_subcommand -l {name[2:]} -d '{meaning}'")
    for command in commands.told:
        within = f"-n '__fish_seen_subcommand_from {command}'"
        for name, takes, meaning in commands.options[command]:
            lines.append(f"complete -c usbreg {within} -l {name[2:]}{' -x' if takes else ''} -d '{meaning}'")
        if words := commands.values[command] or (command == "help" and list(commands.told)):
            lines.append(f"complete -c usbreg {within} -a '{' '.join(words)}'")
    return "\n".join(lines) + "\n"


def main():
    program, folder = sys.argv[1:]
    commands = Commands(program)
    for path, text in ((BASH, bash(commands)), (ZSH, zsh(commands)), (FISH, fish(commands))):
        os.makedirs(os.path.dirname(f"{folder}/{path}"), exist_ok=True)
        with open(f"{folder}/{path}", "w", encoding="utf-8") as file:
            file.write(text)


if __name__ == "__main__":
    main()
