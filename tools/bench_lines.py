#!/usr/bin/env python3
"""Writes what the gate asks of `bench`, and what it has to say: from outside numbers, or worked out here; not by a run.

Usage: tools/bench_lines.py FOLDER RECORDS crates/bench

FOLDER has the outside numbers of the four programs in crates/bench/data: runref.txt, what so many steps of each give,
and clocksums.txt, the sum of their clocks. RECORDS has for each program of DROPPED a file of its name: what
`./run bench image PROGRAM records 10000` tells. These are held to the outside hashes, and then bench_rooms.py works
out of them what is to be said where records are dropped. The small images are written here. They have 1,024 bytes: SSP, PC, and at PC
two MOVEQs, whose clocks are 4 each by table D-5 of 003. Each but the first has one thing altered, so that a hash of
memory or of the journal which passes over it tells a wrong number. crates/bench/args and crates/bench/stdout are
written whole.
"""
import pathlib
import sys

from bench_rooms import after, hashed, rows

# the four programs, and after how many steps they are asked
PROGRAMS = ("memcpy.bin", "sort.bin", "crc.bin", "calls.bin")
COUNTS = (1, 10, 100, 1000, 10000, 100000)

# two of them once more, with a journal that is full after a few steps
SHORT = ("calls.bin", "sort.bin")
SHORT_JOURNAL = 600
SHORT_COUNT = 10000

# and as they are measured: the steps alone; each undone and done again, so that its clocks count twice
MEASURED = (("speed", 1), ("undo", 2))

# and where the oldest records are dropped: by program and journal, the word and the steps
DROPPED = (
    ("calls.bin", SHORT_JOURNAL, (("dropping", 10000), ("singly", 1000))), ("sort.bin", 4096, (("dropping", 10000), )))

LENGTH = 1024
SSP = 0x400
MOVEQ_CLOCKS = 4

# by name: where the MOVEQs are, and the place of the byte that is altered
IMAGES = {
    "plain.image": (0x200, None), "middle.image": (0x200, LENGTH // 2 - 1), "last.image": (0x200, LENGTH - 1),
    "place.image": (0x202, None)}


def number(v):
    """A number of the journal. [01 The journal]"""
    groups = [v % 128]
    while v := v // 128:
        groups.insert(0, v % 128)
    return bytes([groups[0]] + [g + 128 for g in groups[1:]])


def image(pc, altered=None):
    """SSP, PC, MOVEQ #1,D0 and MOVEQ #2,D0; one byte altered."""
    data = bytearray(LENGTH)
    data[0:8] = SSP.to_bytes(4, "big") + pc.to_bytes(4, "big")
    data[pc:pc + 4] = bytes.fromhex("70017002")
    if altered is not None:
        data[altered] ^= 1
    return bytes(data)


def line(pc, data, steps):
    """After so many steps, each MOVEQ changes D0 and PC: slots 0 and 17. SR stays $2700."""
    records = ([0, n, 17, pc + 2 * n, 2, 0] for n in range(steps))
    journal = b"".join(number(v) for r in records for v in r)
    slots = [steps] + [0] * 15 + [SSP, pc + 2 * steps, 0x2700, 0]
    return (f"steps {steps} journal {len(journal)} jhash {hashed(journal):08x} memhash {hashed(data):08x} "
            f"clocks {MOVEQ_CLOCKS * steps} state {','.join(f'{v:x}' for v in slots)}\n")


class Outside:
    """The outside numbers of the four programs, by name and steps."""

    def __init__(self, folder):
        self.before, self.slots, self.clocks = {}, {}, {}
        for text in (folder / "runref.txt").read_text().splitlines():
            program, _, told = text.partition(" ")
            before, _, slots = told.partition(" state ")
            key = program, int(before.split(" ")[1])
            self.before[key], self.slots[key] = before, slots
        for text in (folder / "clocksums.txt").read_text().splitlines():
            if not text.startswith("#"):
                program, steps, clocks, _ = text.split(" ")
                self.clocks[program, int(steps)] = int(clocks)

    def line(self, *key):
        return f"{self.before[key]} {self.measured(1, *key)}"

    def hold(self, program, records):
        """Ends unless the records are those of the outside numbers, at each count that they reach."""
        for (name, steps), before in self.before.items():
            if name == program and steps <= len(records):
                row = b"".join(records[:steps])
                told = f"steps {steps} journal {len(row)} jhash {hashed(row):08x} "
                if not before.startswith(told):
                    sys.exit(f"the records of {program} are not those of the outside numbers, at {steps} steps")

    def dropped(self, records, journal, *key):
        """What is told where records are dropped."""
        memhash = "memhash " + self.before[key].partition(" memhash ")[2] + " "
        return after(records, journal, key[1]).told(memhash) + self.measured(1, *key)

    def measured(self, times, *key):
        """What is told where steps are only measured."""
        return f"clocks {times * self.clocks[key]} state {self.slots[key]}\n"


def programs(outside):
    """What is asked of the four programs, and what is to be said."""
    args, said = [], ""
    for program in PROGRAMS:
        args += ["image", program, *COUNTS]
        said += "".join(outside.line(program, count) for count in COUNTS)
    args += ["memory", 65536, "journal", SHORT_JOURNAL]
    for program in SHORT:
        args += ["image", program, SHORT_COUNT]
        said += outside.line(program, SHORT_COUNT)
        for word, times in MEASURED:
            args += [word, SHORT_COUNT]
            said += outside.measured(times, program, SHORT_COUNT)
    return args, said


def droppings(outside, folder):
    """What is asked where records are dropped, and what is to be said."""
    args, said = ["memory", 65536], ""
    for program, journal, asked in DROPPED:
        records = rows((folder / program).read_text())
        outside.hold(program, records)
        args += ["journal", journal, "image", program]
        for word, steps in asked:
            args += [word, steps]
            said += outside.dropped(records, journal, program, steps)
    return args, said


def main():
    if len(sys.argv) != 4:
        sys.exit(__doc__)
    folder = pathlib.Path(sys.argv[3])
    outside = Outside(pathlib.Path(sys.argv[1]))
    args, said = programs(outside)
    args += ["memory", LENGTH]
    for name, (pc, altered) in IMAGES.items():
        data = image(pc, altered)
        (folder / "data" / name).write_bytes(data)
        args += ["image", name, 1, 2]
        said += line(pc, data, 1) + line(pc, data, 2)
    last_args, last_said = droppings(outside, pathlib.Path(sys.argv[2]))
    args, said = args + last_args, said + last_said
    (folder / "args").write_text("".join(f"{word}\n" for word in args))
    (folder / "stdout").write_text(said)


if __name__ == "__main__":
    main()
