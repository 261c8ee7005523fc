#!/usr/bin/env python3
"""Checks founding files and imports with `--check`, and compares what is said with what the command does without it.

The check of a founding makes no file and changes none, whatever is at STORE. It has status 0 for the files that found a
registry and have no other keys; of a bad file it says what the founding says, and of others it names each key that is
ignored. The check of an import prints the reply that the import then prints, and leaves the record of the registry and the
file of its store as they are; its key can still be used. Its status is 2 where the import is refused or imports nothing,
which it says. With `--verbose` a check says the same.

Usage: scripts/check_first.py [PROGRAM], by default the one that `make` builds. The exit status is 0 if all of this holds."""

import os
import sys

from lib.usbreg import EXAMPLES, FOUNDING, content, done, folder, found, program, run, same, write

FILE = "fault: file\n"
KEYS = {"vendor": '"1209"', "name": '"Shared products"', "curators": '["cora"]', "licences": '["MIT"]', "fixed": '["0001-0010"]'}
NONE = "licences is missing; it must have 1 to 1024 texts, each a line of 1 to 200 bytes without a control character, and no space at either end"
ORDER = '{"caller":"ann","key":"k1","order":"enrol","org":"acme","title":"Acme Tools","site":"https://acme.example/"}\n'


def ended(words, given=b""):
    """Returns the status, the output and the errors of a check, which `--verbose` does not change."""
    ran, told = (run(it, given) for it in (words, [*words, "--verbose"]))
    same(f"{words} --verbose", told, ran)
    return ran[0], ran[1].decode(), ran[2].decode()


# The keys of a founding file that others take the place of, the status, and the errors of its check. FILE stands for its path.
FOUNDINGS = [
    ({}, 0, ""),
    ({"fixed": None}, 0, ""),
    ({"fixed": None, "fxied": '["0001-0010"]'}, 2, "unknown key: fxied\n"),
    ({"fxied": "[]", "Vendor": '"1209"', "z": "{}"}, 2, "unknown key: Vendor\nunknown key: fxied\nunknown key: z\n"),
    ({'""': "1", '"a\\nb\\u007f"': "2", '"\u00e4"': "3"}, 2, "unknown key: \nunknown key: a?b?\nunknown key: \u00e4\n"),
    ({f"key{number:04}": "1" for number in range(2000)}, 2, "".join(f"unknown key: key{number:04}\n" for number in range(2000))),
    ({"licences": None, "licenses": '["MIT"]'}, 2, f'{{"detail":"licences","name":"BadFounding","refused":32}}\nusbreg: FILE: {NONE}; unknown keys are ignored: licenses\n'),
    ({"vendor": '"0000"'}, 2, '{"detail":"vendor","name":"BadFounding","refused":32}\nusbreg: FILE: vendor is "0000"; it must be a text of four hexadecimal digits, not 0000\n'),
    ({"name": '"x'}, 2, '{"detail":"toml","name":"BadFounding","refused":32}\nusbreg: FILE: line 2, column 10: invalid string\n'),
]


def try_foundings(usbreg, room):
    """Returns how many checks of founding files say what they should, and found nothing."""
    held = found(usbreg, f"{room}/held.db")
    before = content(held)
    founding = f"{room}/founding.toml"
    count = 0
    for changed, status, errors in FOUNDINGS:
        lines = {**KEYS, **changed}
        write(founding, "".join(f"{key} = {value}\n" for key, value in lines.items() if value))
        for store in (f"{room}/new.db", f"{room}/none/new.db", held, ""):
            there = sorted(os.listdir(room))
            got = ended([usbreg, "found", store, founding, "--check"])
            got = (*got[:2], got[2].replace(founding, "FILE"))
            same(f"a check of {changed}", got, (status, "", errors))
            same(f"what a check of {changed} leaves", sorted(os.listdir(room)), there)
            count += 1
        ran = run([usbreg, "found", f"{room}/new.db", founding])
        same(f"the founding by {changed}", ran[0], 0 if status == 0 or errors.startswith("unknown") else 2)
        if ran[0]:
            same("the message of the founding", errors.partition("\n")[0] + "\n", ran[2].decode())
        for name in os.listdir(room):
            if name.startswith("new.db"):
                os.remove(f"{room}/{name}")
    same("a missing file", ended([usbreg, "found", f"{room}/new.db", f"{room}/none.toml", "--check"]), (1, "", f"{FILE}usbreg: {room}/none.toml: no such file or folder\n"))
    same("a store that is there", content(held), before)
    same("a founding over it", run([usbreg, "found", held, FOUNDING]), (1, b"", b"fault: taken\n"))
    return count + 1


SENDER = ["--caller", "cora", "--key", "list-1", "--org", "acme"]
DEVICES = "1209  Shared products\n\t0011  Lamp\n\t0001  Fixed\n\t0012  Bell\n"
NOTHING = "no fresh number\n"


def counted(fresh, owned=0, reserved=0):
    return f'{{"done":"imported fresh {fresh}, owned {owned}, reserved {reserved}, doubled 0, untitled 0, zero 0"}}\n'


# A list, the options that are not those of SENDER, the status, the output and the errors of the check. LIST stands for its path.
IMPORTS = [
    (DEVICES, [], 0, counted(2, reserved=1), ""),
    ("", [], 2, counted(0), f"{NOTHING}usbreg: LIST: no line of vendor 1209; vendors in the list: 0, devices: 0\n"),
    ("1d50  X\n\t0001  Y\n\t0002  Z\n", [], 2, counted(0), f"{NOTHING}usbreg: LIST: no line of vendor 1209; vendors in the list: 1, devices: 2\n"),
    ("1209  X\n", [], 2, counted(0), f"{NOTHING}usbreg: LIST: vendor 1209 has no devices; vendors in the list: 1, devices: 0\n"),
    ("1209  X\n\t0001  Fixed\n", [], 2, counted(0, reserved=1), NOTHING),
    (
        "1209  X\n    0011  Lamp\n",
        [],
        2,
        "",
        '{"detail":"line 2: BadTop","name":"BadList","refused":29}\nusbreg: LIST: line 2 is "    0011  Lamp"; a device begins with a tab, and not with spaces\n',
    ),
    (DEVICES, ["--vendor", "1d50"], 2, '{"name":"NoVendor","refused":34}\n', ""),
    (DEVICES, ["--caller", "ann"], 2, '{"name":"NotCurator","refused":2}\n', ""),
    (DEVICES, ["--org", "works"], 2, '{"name":"NoOrg","refused":4}\n', ""),
    (DEVICES, ["--key", "?"], 2, "", "bad word: key\nusbreg: a key is 1 to 64 of A-Z, a-z, 0-9, - and _\n"),
]


def try_imports(usbreg, room):
    """Returns how many checks of imports say what they should, and import nothing."""
    whole, listed = found(usbreg, f"{room}/whole.db"), f"{room}/list.ids"
    same("an organisation", run([usbreg, "apply", whole, "-"], ORDER.encode())[0], 0)
    store, record = f"{room}/store.db", done([usbreg, "history", whole])
    for text, options, status, output, errors in IMPORTS:
        write(listed, text)
        sender = dict(zip(SENDER[::2], SENDER[1::2])) | dict(zip(options[::2], options[1::2]))
        sender = [word for pair in sender.items() for word in pair]
        for name, given in ((listed, b""), ("-", text.encode())):
            with open(store, "wb") as file:
                file.write(content(whole))
            got = ended([usbreg, "import", store, name, *sender, "--check"], given)
            shown = "standard input" if name == "-" else listed
            same(f"a check of {text!r} with {options}", got, (status, output, errors.replace("LIST", shown)))
            same("the record after a check", done([usbreg, "history", store]), record)
            same("the file after a check", content(store), content(whole))
            ran = run([usbreg, "import", store, name, *sender], given)
            same(f"the import of {text!r} with {options}", (ran[0], ran[1].decode()), (0 if '"done"' in output else 2, output))
        os.remove(store)
    return 2 * len(IMPORTS)


def try_keys(usbreg, room):
    """Returns how many checks under a key that is used say what the import says."""
    store, listed = found(usbreg, f"{room}/keys.db"), write(f"{room}/keys.ids", DEVICES)
    same("an organisation", run([usbreg, "apply", store, "-"], ORDER.encode())[0], 0)
    words = [usbreg, "import", store, listed, *SENDER]
    reply = counted(2, reserved=1)
    same("an import", done(words).decode(), reply)
    record = done([usbreg, "history", store])
    same("a check of what was done", ended([*words, "--check"]), (0, reply, ""))
    same("a check of it under another key", ended([*[it.replace("list-1", "list-2") for it in words], "--check"]), (2, counted(0, owned=2, reserved=1), NOTHING))
    write(listed, DEVICES + "\t0013  Clock\n")
    same("a check of another list under its key", ended([*words, "--check"]), (2, '{"name":"KeyReused","refused":1}\n', ""))
    same("the record after these", done([usbreg, "history", store]), record)
    missing = [usbreg, "import", f"{room}/none.db", listed, *SENDER, "--check"]
    same("a check of no store", ended(missing), (1, "", f"{FILE}usbreg: {room}/none.db: no such file\n"))
    same("a check without a list", ended([usbreg, "import", store, f"{room}/none.ids", *SENDER, "--check"]), (1, "", f"{FILE}usbreg: {room}/none.ids: no such file or folder\n"))
    same("an example", ended([usbreg, "import", store, f"{EXAMPLES}/devices.ids", *SENDER[:3], "list-3", *SENDER[4:], "--check"])[0], 0)
    return 6


def main():
    usbreg = program(*sys.argv[1:2])
    with folder() as room:
        count = sum(part(usbreg, room) for part in (try_foundings, try_imports, try_keys))
    print(f"{count} checks say what the command would do, and do nothing")


if __name__ == "__main__":
    main()
