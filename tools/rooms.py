#!/usr/bin/env python3
"""Tries cases of making room with the reader of docs/FORMAT.md: the Python that stands there, and nothing else.

Usage: tools/rooms.py < CASES     a case on each line, see crates/rooms/README.md

Its last line is `agree A, differ D`; a case that differs is named by its line. So the document is held to the same
cases as the program `rooms`, and neither makes the other's answers. Its exit status is 0 where all agree.
"""
import pathlib
import re
import sys


def document():
    """The functions of docs/FORMAT.md."""
    text = (pathlib.Path(__file__).resolve().parent.parent / "docs/FORMAT.md").read_text()
    names = {}
    for block in re.findall(r"```python\n(.*?)```", text, re.S):
        exec(block, names)
    return names


def bytes_of(field):
    """The bytes that a field spells; a hyphen is none."""
    return bytearray() if field == "-" else bytearray.fromhex(field)


def field_of(journal):
    """The field that spells these bytes."""
    return journal.hex() or "-"


def answered(make_room, length, before, mark):
    """The last five fields of a case whose first three are these: number, mark, bytes moved, records dropped, journal."""
    journal = bytes_of(before)
    answer = make_room(journal, int(mark), int(length, 16))
    return [str(n) for n in answer] + [field_of(journal)]


def main():
    make_room = document()["make_room"]
    agree = differ = 0
    for number, line in enumerate(sys.stdin, 1):
        length, before, mark, *wanted = line.split()
        if answered(make_room, length, before, mark) == wanted:
            agree += 1
        else:
            differ += 1
            print(f"line {number}")
    print(f"agree {agree}, differ {differ}")
    return differ > 0


if __name__ == "__main__":
    sys.exit(main())
