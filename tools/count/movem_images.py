#!/usr/bin/env python3
"""movem_images.py FOLDER: writes images that do MOVEM nearly all the time, one for each form, size and number of registers.

Two hundred MOVEMs of one kind after a LEA, and again from two bytes further on, for ever: then each byte that is stored is another than the
one that stood there, and all of them are in the record. With `same` in its name an image has one such row only: it stores what stands there
already, and its records have no byte of memory. Two or three of the steps in a round are not MOVEM. For tools/count/movem.
"""
import pathlib
import struct
import sys

ROW = 200
LISTS = {1: [3], 8: range(8), 16: range(16)}


def words(*values):
    return b"".join(struct.pack(">H", value & 0xFFFF) for value in values)


def movem(form, long, registers, place):
    size = 0x40 if long else 0
    if form == "down":  # registers to -(A0): bit 0 of the list is A7
        return words(0x48A0 | size, sum(1 << 15 - r for r in registers))
    if form == "up":  # registers to d16(A0)
        return words(0x48A8 | size, sum(1 << r for r in registers), place)
    return words(0x4C98 | size, sum(1 << r for r in registers))  # (A0)+ to registers


def image(form, long, count, same):
    code = b""
    for i in range(8):  # MOVE.L #..,Di
        code += words(0x203C | i << 9) + struct.pack(">I", 0x01234567 * (i + 3) & 0xFFFFFFFF)
    for i in range(1, 8):  # MOVEA.L #..,Ai
        code += words(0x207C | i << 9) + struct.pack(">I", 0x13572469 * (i + 5) & 0xFFFFFF00 | 0xFF)
    start = len(code)
    for base in [0x8000] if same else [0x8000, 0x8002]:
        code += words(0x41F9) + struct.pack(">I", base)  # LEA base,A0
        for k in range(ROW):
            code += movem(form, long, LISTS[count], k * count * (4 if long else 2) % 0x3000)
    code += words(0x6000, start - len(code) - 2)  # BRA
    whole = struct.pack(">II", 0x7000, 8) + code
    return whole + bytes(i * 37 + i // 256 * 11 & 255 for i in range(0x10000 - len(whole)))


def main():
    folder = pathlib.Path(sys.argv[1])
    for form in ("down", "up", "load"):
        for long in (False, True):
            for count in LISTS:
                for same in (False, True):
                    if form == "load" and not same:
                        continue
                    name = f"{form}-{'long' if long else 'word'}-{count:02}{'-same' if same else ''}.bin"
                    (folder / name).write_bytes(image(form, long, count, same))


main()
