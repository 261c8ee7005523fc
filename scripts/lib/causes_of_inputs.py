"""What `usbreg` says of what it reads, which is founding files, request lines, records and lists, and of its output: a part of
`say_what_failed.py`."""

import os
import sys
import time

from lib.causes import FILE
from lib.usbreg import run, write

TEXT = "a line of 1 to 200 bytes without a control character, and no space at either end"
VENDOR = "it must be a text of four hexadecimal digits, not 0000"
CURATORS = "it must have 1 to 64 texts, each 1 to 32 of a-z, 0-9 and -"
LICENCES = f"it must have 1 to 1024 texts, each {TEXT}"
FIXED = "it must be a list of texts as 0001 or 0001-0010, of four hexadecimal digits, not 0000, not descending"

# The key that is refused, what else the file has, and the words for it.
BAD_FOUNDINGS = [
    ("toml", {"curators": '["cora"'}, "line 4, column 1: missing comma between array elements, expected `,` or `]`"),
    ("toml", {"fixed": '["\u00fc"], "0001"]'}, "line 5, column 14: unexpected key or value, expected newline, `#`"),
    ("toml", {"vendor": '"1209"\nvendor = "1d50"'}, "line 2, column 1: duplicate key"),
    ("vendor", {"vendor": "1209"}, f"vendor is of type integer; {VENDOR}"),
    ("vendor", {"vendor": '"0000"'}, f'vendor is "0000"; {VENDOR}'),
    ("vendor", {"vendor": None}, f"vendor is missing; {VENDOR}"),
    ("name", {"name": '""'}, f'name is ""; it must be {TEXT}'),
    ("name", {"name": f'"{"n" * 64}\u00fc{"n" * 200}"'}, f'name is "{"n" * 64}.."; it must be {TEXT}'),
    ("curators", {"curators": '["cora", "Dan"]'}, f'item 2 of curators is "Dan"; {CURATORS}'),
    ("curators", {"curators": "[]"}, f"curators has 0 items; {CURATORS}"),
    ("curators", {"curators": '["cora"' + ', "cora"' * 64 + "]"}, f"curators has 65 items; {CURATORS}"),
    ("licences", {"licences": '["MIT", 3, ""]'}, f"item 2 of licences is of type integer; {LICENCES}"),
    ("licences", {"licences": '["MIT", "GPL\\u000a"]'}, f'item 2 of licences is "GPL?"; {LICENCES}'),
    ("licences", {"licences": '"MIT"'}, f"licences is of type string; {LICENCES}"),
    ("licences", {"licences": '["MIT"' + ', "MIT"' * 1024 + "]"}, f"licences has 1025 items; {LICENCES}"),
    ("licences", {"licences": None, "licenses": '["MIT"]', "fxied": "[]"}, f"licences is missing; {LICENCES}; unknown keys are ignored: fxied, licenses"),
    ("fixed", {"fixed": '["0001-0010", "0020-001f"]'}, f'item 2 of fixed is "0020-001f"; {FIXED}'),
    ("fixed", {"fixed": '["0001", "0002-"]'}, f'item 2 of fixed is "0002-"; {FIXED}'),
    ("fixed", {"fixed": "[1]"}, f"item 1 of fixed is of type integer; {FIXED}"),
    ("fixed", {"fixed": "{}"}, f"fixed is of type table; {FIXED}"),
]

FOUND = ["found", "CASE/new.db", "CASE/new.toml"]

BAD_JSON = '{"name":"BadJson","refused":27}\n'
REQUEST = '{"caller":"ann","key":"k1","order":"enrol","org":"acme","title":"Acme Tools","site":"https://acme.example/"}\n'
# What its line in a record has in the place of its member order.
ORDER, DONE = '"order"', '"done":"enrolled acme","order"'
LIMIT = 16 * 1024 * 1024

FIELD = '"name":"BadField","refused":28}\n'
TITLE = "a line of 1 to 200 bytes without a control character, and no space at either end"
LINK = "a link with http or https, which is kept in at most 400 bytes"

# The fields of a request that another value or none takes the place of, the first that is bad, and the words for it.
BAD_FIELDS = [
    ({"key": None}, "key", "key is missing; it must be a text of 1 to 64 of A-Z, a-z, 0-9, - and _"),
    ({"caller": '"Ann"'}, "caller", 'caller is "Ann"; it must be a text of 1 to 32 of a-z, 0-9 and -'),
    ({"org": "7"}, "org", "org is 7; it must be a text of 1 to 32 of a-z, 0-9 and -"),
    ({"order": '"enroll"'}, "order", 'order is "enroll"; it must be the name of an order, as enrol, ask or grant'),
    ({"title": f'"{"n" * 300}"'}, "title", f'title is "{"n" * 63}..; it must be {TITLE}'),
    ({"title": '"a\\nb"'}, "title", f'title is "a\\nb"; it must be {TITLE}'),
    ({"title": '"a\\tb"'}, "title", f'title is "a\\tb"; it must be {TITLE}'),
    ({"site": '"ftp://acme.example/"'}, "site", f'site is "ftp://acme.example/"; it must be {LINK}'),
    ({"site": f'"https://acme.example/{"n" * 400}"'}, "site", f'site is "https://acme.example/{"n" * 42}..; it must be {LINK}'),
    ({"order": '"return"', "number": "11"}, "number", "number is 11; it must be a text of four hexadecimal digits, not 0000"),
    ({"order": '"reserve"', "first": '"0011"', "last": '"0010"'}, "last", 'last is "0010"; it must be a text of four hexadecimal digits, not 0000, and of no lower number than first'),
    ({"order": '"decline"', "petition": "0"}, "petition", "petition is 0; it must be a whole number from 1 to 4294967295"),
    ({"order": '"decline"', "petition": "1", "reason": '""'}, "reason", f'reason is ""; it must be {TITLE}'),
    ({"at": '"2026-11-28"'}, "at", 'at is "2026-11-28"; it must be a time as 2026-11-28T20:34:13Z'),
]


def try_lengths(cases):
    """A file above the limit of an input: it is not read. A record has no limit but that of its lines."""
    large = f"{cases.room}/large"
    with open(large, "wb") as file:
        file.truncate(5 << 30)
    words = f"{large}: has {5 << 30} bytes; it may have at most {(1 << 32) - 1}"
    sender = ["--caller", "cora", "--key", "k1", "--org", "acme"]
    for command in (["apply", "CASE/numbers.db", large], ["import", "CASE/numbers.db", large, *sender], ["found", "CASE/new.db", large], ["lookup", large, "1209", "0001"]):
        began = time.monotonic()
        cases.case(command, 1, FILE, words)
        if time.monotonic() - began > 10:
            sys.exit(f"usbreg {command[0]}: a file above the limit is read")
    cases.case(["replay", "CASE/numbers.db", large], 2, "line 1: more than 4194304 bytes\n", None)
    os.remove(large)


def try_streams(cases):
    """Files that are read, and the output."""
    cases.case(["apply", "CASE/numbers.db", "CASE/none.jsonl"], 1, FILE, "CASE/none.jsonl: no such file or folder")
    cases.case(["apply", "CASE/numbers.db", "CASE/"], 1, FILE, "CASE/: is a folder")
    cases.case(["lookup", "CASE/none.ids", "1209", "0001"], 1, FILE, "CASE/none.ids: no such file or folder")
    cases.case(["export", "CASE/numbers.db"], 1, FILE, "standard output: no space left on the device", output="/dev/full")
    cases.case(["report", "CASE/numbers.db", "all"], 2, "bad word: name\n", "a report is census, holders, petitions, numbers or organisations")
    cases.case(["export", "CASE/numbers.db", "--stamp", "now"], 2, "bad word: stamp\n", "a stamp is a time as 2024-01-30 20:34:13")
    cases.case(["lookup", "CASE/none.ids", "12", "0001"], 2, "bad word: vid\n", "an ID is four hexadecimal digits")


def leaves_none(cases):
    left = [it for it in os.listdir(f"{cases.room}/case") if it.startswith("new.db")]
    if left:
        sys.exit(f"a founding file that is missing or bad leaves {left}")


def try_foundings(cases):
    """A founding file that is missing or bad: no store is left."""
    cases.case(["found", "CASE/new.db", "CASE/none.toml"], 1, FILE, "CASE/none.toml: no such file or folder")
    leaves_none(cases)
    write(f"{cases.room}/bad.toml", "vendor = 12\n")
    status, _, errors = run([cases.usbreg, "found", cases.path("new.db"), f"{cases.room}/bad.toml"])
    if status != 2 or b'"refused":32' not in errors:
        sys.exit(f"a bad founding file: status {status} and {errors!r}")
    leaves_none(cases)
    cases.count += 1


def founding(**changed):
    """Returns the change that writes new.toml, a founding file in which these keys have other values; one that is None is left out."""
    lines = {"vendor": '"1209"', "name": '"Shared products"', "curators": '["cora"]', "licences": '["MIT"]', **changed}
    return lambda cases: write(cases.path("new.toml"), "".join(f"{key} = {value}\n" for key, value in lines.items() if value))


def try_bad_foundings(cases):
    """What a founding file has in the place of a key, and keys that are unknown."""
    for key, changed, words in BAD_FOUNDINGS:
        cases.case(FOUND, 2, f'{{"detail":"{key}","name":"BadFounding","refused":32}}\n', f"CASE/new.toml: {words}", change=founding(**changed))
        leaves_none(cases)
    overlap = '["0001-0010", "0008-0020", "0008"]'
    cases.case(FOUND, 0, "", None, change=founding(fixed=overlap))
    cases.case(FOUND, 0, "", "CASE/new.toml: unknown keys are ignored: fxied", change=founding(fxied=overlap))
    cases.case(FOUND, 0, "", 'CASE/new.toml: unknown keys are ignored: "", a?b', change=founding(**{'""': "1", '"a\\tb"': "2"}))
    many = {f"key{number:03}": "1" for number in range(300)}
    shown = ", ".join(sorted(many)[:62])
    cases.case(FOUND, 0, "", f"CASE/new.toml: unknown keys are ignored: {shown}, ..", change=founding(**many))


def try_bad_lines(cases):
    """Lines that are no JSON objects."""

    def lines(text):
        return lambda cases: write(cases.path("new.jsonl"), text)

    cases.case(["apply", "CASE/numbers.db", "CASE/new.jsonl"], 2, f"line 3: {BAD_JSON}", "CASE/new.jsonl: line 3, column 17: invalid JSON", change=lines(f'{REQUEST}\n{{"caller":"ann" "key":"k2"}}\n'))
    cases.case(["apply", "CASE/numbers.db", "CASE/new.jsonl"], 2, f"line 2: {BAD_JSON}", "CASE/new.jsonl: line 2, column 16: the line ends inside the JSON", change=lines(f'{REQUEST} {{"caller":"ann"'))
    cases.case(["replay", "CASE/numbers.db", "CASE/new.jsonl"], 2, f"line 1: {BAD_JSON}", "CASE/new.jsonl: line 1, column 3: not an object", change=lines("  [1]\n"))
    cases.case(["replay", "CASE/numbers.db", "-"], 2, f"line 2: {BAD_JSON}", "standard input: line 2, column 12: invalid UTF-8", given=b'\n{"caller":"\xff"}\n')
    cases.case(["trial"], 2, f"line 2: {BAD_JSON}", "standard input: line 2, column 1: not an object", given=b" " * (LIMIT - 3) + b"\n[]")
    cases.case(["trial"], 2, f"line 2: {BAD_JSON}", None, given=b" " * (LIMIT - 2) + b"\n[]")
    cases.case(["trial"], 2, f"line 10000001: {BAD_JSON}", "standard input: line 10000001, column 1: not an object", given=b"\n" * 10_000_000 + b"[]")
    cases.case(["trial"], 0, "", None, given=REQUEST.encode())


def try_ignored_fields(cases):
    """Fields that an order does not have: the first line with such fields is named after a success. Null stands for none."""
    enrol = '{"caller":"ann","key":"k2","order":"enrol","org":"works","title":"Works","site":"https://works.example/"'
    more = f'{REQUEST}\n{enrol},"number":null,"keeper":"bob","done":"enrolled works"}}\n{enrol},"reason":"none"}}\n'.encode()
    words = "line 3: unknown fields are ignored: done, keeper"
    cases.case(["trial"], 0, "", f"standard input: {words}", given=more)
    cases.case(["apply", "CASE/numbers.db", "-"], 0, "", f"standard input: {words}", given=more)
    cases.case(["apply", "CASE/numbers.db", "CASE/new.jsonl"], 0, "", f"CASE/new.jsonl: {words}", change=lambda cases: write(cases.path("new.jsonl"), more.decode()))
    cases.case(["apply", "CASE/numbers.db", "-"], 0, "", None, given=f'{enrol},"number":null}}\n'.encode())


def try_bad_fields(cases):
    """What stands at a bad field of a request, and what may."""
    fields = {"caller": '"ann"', "key": '"k1"', "order": '"enrol"', "org": '"acme"', "title": '"Acme"', "site": '"https://acme.example/"'}
    for changes, field, words in BAD_FIELDS:
        line = ",".join(f'"{name}":{value}' for name, value in {**fields, **changes}.items() if value)
        cases.case(["apply", "CASE/numbers.db", "-"], 2, f'line 2: {{"detail":"{field}",{FIELD}', f"standard input: line 2: {words}", given=f"\n{{{line}}}\n".encode())


def try_counts_and_records(cases):
    """A count that is too great, and the lines of a record."""
    cases.case(["apply", "CASE/numbers.db", "-", "--answered", "4"], 2, "answered exceeds requests\n", "standard input: it has 2 requests, and --answered is 4", given=f"{REQUEST} \n{REQUEST}".encode())
    other = REQUEST.replace(ORDER, '"done":"petition 1","order"')
    words = 'standard input: line 1: the record has {"done":"petition 1"}'
    cases.case(["replay", "CASE/numbers.db", "-"], 2, 'line 1: another reply: {"done":"enrolled acme"}\n', words, given=other.encode())
    for digest, said, words in (
        ("0" * 63, f'{{"detail":"digest",{FIELD}', f'digest is "{"0" * 63}..; it must be a text of 64 of 0-9 and a-f'),
        ("0" * 64, "another record\n", f'digest is "{"0" * 63}..; the record of the registry has another there'),
    ):
        line = REQUEST.replace(ORDER, f'{DONE[:-7]}"digest":"{digest}",{ORDER}').encode()
        cases.case(["replay", "CASE/numbers.db", "-"], 2, f"line 1: {said}", f"standard input: line 1: {words}", given=line)
    done = '{"done":"imported fresh 1, owned 0, reserved 0, doubled 0, untitled 1, zero 0"}'
    lines = f'{REQUEST.replace(ORDER, DONE)}{{"caller":"cora",{done[1:-3]}1","items":[["0011","Blinker"],["0012",null]],"key":"k2","order":"import","org":"acme"}}\n'
    words = f"standard input: line 2: the record has {done[:-3]}1\"}}"
    cases.case(["replay", "CASE/numbers.db", "-"], 2, f"line 2: another reply: {done}\n", words, given=lines.encode())
    line = '{"curators":["cora","Dan"],"fixed":[],"licences":["MIT"],"name":"Shared products","vendor":"1209"}\n'
    words = f'standard input: line 1: curators is ["cora","Dan"]; {CURATORS}; in order, and without repeats'
    cases.case(["replay", "CASE/numbers.db", "-"], 2, 'line 1: {"detail":"curators","name":"BadFounding","refused":32}\n', words, given=line.encode())
    touching = line.replace(',"Dan"', "").replace('"fixed":[]', '"fixed":["0001-0010","0011"]')
    words = f'standard input: line 1: fixed is ["0001-0010","0011"]; {FIXED}; in order, and none that overlaps or touches another'
    cases.case(["replay", "CASE/numbers.db", "-"], 2, 'line 1: {"detail":"fixed","name":"BadFounding","refused":32}\n', words, given=touching.encode())
    line = line.replace(',"Dan"', "").replace("1209", "0000")
    words = f'standard input: line 1: vendor is "0000"; {VENDOR}'
    cases.case(["replay", "CASE/numbers.db", "-"], 2, 'line 1: {"detail":"vendor","name":"BadFounding","refused":32}\n', words, given=line.encode())


def try_lists(cases):
    """Lists with a faulty line, and lists that have nothing of the vendor."""

    def bad(text, detail, words):
        for command in (["import", "CASE/numbers.db", "CASE/new.ids", "--caller", "cora", "--key", "k1", "--org", "acme"], ["lookup", "CASE/new.ids", "1209", "0001"]):
            cases.case(command, 2, f'{{"detail":"{detail}","name":"BadList","refused":29}}\n', f"CASE/new.ids: {words}", change=lambda cases: write(cases.path("new.ids"), text))

    bad("1209  X\n        0011  Y\n", "line 2: BadTop", 'line 2 is "        0011  Y"; a device begins with a tab, and not with spaces')
    bad("{}\n", "line 1: BadTop", 'line 1 is "{}"; a line without a tab begins with four hexadecimal digits, or with a tag as C')
    bad("1209  X\n\t011  Y\n", "line 2: BadCode", 'line 2 is "?011  Y"; the code is one to four hexadecimal digits, and four directly below a vendor')
    bad("\t0011  Y\n", "line 1: NoParent", 'line 1 is "?0011  Y"; the lines above it have none that it stands below')
    words = f'line 1 is "1209  {"n" * 58}.."; a line has at most 65536 bytes, and a name at most 65000'
    bad(f"1209  {'n' * 70000}\n", "line 1: LineTooLong", words)

    def nothing(text, words, *more):
        given = f"{REQUEST}".encode()

        def change(cases):
            write(cases.path("new.ids"), text)
            status, _, errors = run([cases.usbreg, "apply", cases.path("numbers.db"), "-"], given)
            if status:
                sys.exit(f"usbreg apply: status {status} and {errors!r}")

        sender = ["--caller", "cora", "--key", "k1", "--org", "acme"]
        cases.case(["import", "CASE/numbers.db", "CASE/new.ids", *sender, *more], 0, "", words and f"CASE/new.ids: {words}", change=change)

    nothing("", "no line of vendor 1209; vendors in the list: 0, devices: 0")
    nothing("1d50  X\n\t0001  Y\n\t0002  Z\n2341  A\n", "no line of vendor 1209; vendors in the list: 2, devices: 2")
    nothing("1209  X\n1d50  Y\n\t0001  Z\n", "vendor 1209 has no devices; vendors in the list: 2, devices: 1")
    nothing("1209  X\n\t0011  Y\n", None)


INPUTS = (try_lengths, try_streams, try_foundings, try_bad_foundings, try_bad_lines, try_bad_fields, try_ignored_fields, try_counts_and_records, try_lists)
