"""A plain reader of a usb.ids list, for comparison: names as bytes, a tree of lists."""
import sys
import time

SEPARATORS = b" \t"


def code_of(word):
    if not 1 <= len(word) <= 4:
        raise ValueError("code")
    return int(word, 16), len(word)


def split_word(rest):
    at = 0
    while at < len(rest) and rest[at] not in SEPARATORS:
        at += 1
    return rest[:at], rest[at:].lstrip(SEPARATORS)


def read(text):
    tops = []
    for line in text.split(b"\n"):
        line = line.rstrip(b" \t\r")
        body = line.lstrip(SEPARATORS)
        if not body or body.startswith(b"#"):
            continue
        if line.startswith(b"\t\t"):
            word, name = split_word(line[2:])
            tops[-1][4][-1][3].append((*code_of(word), name))
        elif line.startswith(b"\t"):
            word, name = split_word(line[1:])
            tops[-1][4].append((*code_of(word), name, []))
        else:
            word, name = split_word(line)
            kind = None
            if word.isalpha() and word.isupper() and len(word) != 4:
                kind = word
                word, name = split_word(name)
            elif word.isalpha() and word.isupper():
                try:
                    code_of(word)
                except ValueError:
                    kind = word
                    word, name = split_word(name)
            tops.append((kind, *code_of(word), name, []))
    return tops


def main():
    with open(sys.argv[1], "rb") as file:
        text = file.read()
    for _ in range(int(sys.argv[2])):
        start = time.perf_counter()
        tops = read(text)
        spent = time.perf_counter() - start
        del tops
        print("read", int(spent * 1e6))


main()
