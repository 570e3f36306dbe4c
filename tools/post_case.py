#!/usr/bin/env python3
"""Writes what the gate runs of `post`: a file of form 2, and what `post show` must tell of it.

Usage: tools/post_case.py crates/post

The steps stand below. The file's bytes are written by the Python of docs/FORMAT.md; what must be told is made of the
steps here, by crates/post/README.md, and of nothing that a program said.
"""
import pathlib
import sys

sys.dont_write_bytecode = True  # of rooms.py: nothing is left beside the tools
import rooms

SLOTS = [f"D{k}" for k in range(8)] + [f"A{k}" for k in range(7)] + ["USP", "SSP", "PC", "SR", "mode"]
MODES = ["running", "stopped", "halted"]

# What each step had before it, the oldest first: registers, and runs of memory.
STEPS = [
    ({"D0": 0, "PC": 0x400}, {}),                                          # MOVEQ
    ({}, {}),                                                              # BRA to itself
    ({"PC": 0x402, "SR": 0x2704}, {0x300: "0102", 0x303: "ff"}),           # MOVE.L, whose third byte stays
    ({}, {0: "80", 2: "7f", 0xFFFFFE: "00ff"}),                            # the ends of memory
    ({"A6": 0xFFFFFFFF, "PC": 0x1000}, {0x8000: bytes(range(120, 136)).hex()}),  # MOVEM.L of four registers to -(A6)
    ({"SSP": 0x8000, "PC": 0x100A, "SR": 0xA71F}, {0x7FFA: "000010", 0x7FFE: "000a"}),  # an exception's frame
    ({"PC": 0x2000, "SR": 0x2700, "mode": 0}, {}),                         # STOP
    ({"SSP": 0x7FFA, "mode": 1}, {}),                                      # an interrupt
    (dict(zip(SLOTS, [*range(0x10, 0x22), 0x15, 2])), {0x10FFFF: "01"}),   # every slot; from a halt no step leads on
]


def changes(step):
    """The slots and the bytes of a step, as FORMAT.md has them."""
    registers, runs = step
    slots = sorted((SLOTS.index(name), old) for name, old in registers.items())
    return slots, sorted((first + k, old) for first, run in runs.items() for k, old in enumerate(bytes.fromhex(run)))


def held(name, old):
    return f"{name} " + (MODES[old] if name == "mode" else f"{old:04x}" if name == "SR" else f"{old:08x}")


def told(step):
    """What is told of a step, after its number."""
    registers, runs = step
    slots = ", ".join(held(name, registers[name]) for name in SLOTS if name in registers)
    memory = ", ".join(f"{first:06x}: {bytes.fromhex(run).hex(' ')}" for first, run in sorted(runs.items()))
    parts = [part for part in (slots, memory and f"memory {memory}") if part]
    return "before it " + "; ".join(parts) if parts else "it changed nothing"


def main():
    if len(sys.argv) != 2:
        sys.exit(__doc__)
    folder = pathlib.Path(sys.argv[1])
    file = b"".join(bytes(rooms.document()["record_two"](*changes(step))) for step in STEPS)
    n = len(STEPS)
    lines = [f"form 2, {len(file)} bytes: {n} records, one for each step, the newest first, as undo takes them back",
             "a line says what the registers and the memory that its step changed held before it, in base 16;"
             " bytes stand after the address of the first of them"]
    lines += [f"step {k} of {n}: {told(STEPS[k - 1])}" for k in range(n, 0, -1)]
    (folder / "stdin").write_bytes(file)
    (folder / "stdout").write_text("".join(f"{line}\n" for line in lines))
    (folder / "args").write_text("show\n")


if __name__ == "__main__":
    main()
