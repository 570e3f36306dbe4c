#!/usr/bin/env python3
"""Works out what `bench` has to tell where the oldest records are dropped, from the records of its steps alone.

Usage: ./run bench image PROGRAM records COUNT | tools/bench_rooms.py JOURNAL STEPS..

Standard input has the records of the steps from a reset, each as it is where all are kept: what `records COUNT` tells.
For a journal of JOURNAL bytes, 0 at first, and each number of steps, a line is written: the part of the line of
`bench journal JOURNAL dropping STEPS` that the records decide. The rule is that of docs/FORMAT.md section 10. Nothing
is run here, and no record is read again once it is known where it begins: dropping and moving are done as they are
written there, on a row of records. The records themselves are read by the Python of the document.
"""
import collections
import sys

from rooms import document

# the bytes that a step needs free; the memory of the four programs
ROOM = 536
MEMORY = 65536


def hashed(data):
    """FNV-1a of 32 bits."""
    h = 2166136261
    for b in data:
        h = (h ^ b) * 16777619 % 2**32
    return h


def rows(text):
    """The records that bench's `records` tells, the oldest first. Its last line tells clocks and state."""
    record_starts, records = document()["record_starts"], []
    for line in text.splitlines():
        if not line.startswith("clocks "):
            row = bytes.fromhex(line)
            starts = record_starts(row, len(row), MEMORY)
            if starts is None:
                sys.exit("what stands there are no records")
            records += [row[a:b] for a, b in zip(starts, starts[1:] + [len(row)])]
    return records


class Full:
    """A journal of so many bytes, the lengths of the records in it, and the sums of what was moved and dropped."""

    def __init__(self, length):
        self.journal, self.mark, self.lengths = bytearray(length), 0, collections.deque()
        self.steps = self.moved = self.dropped = 0

    def make_room(self):
        """A record goes exactly if it starts below the number of missing bytes; the others move down to place 0."""
        missing = ROOM - (len(self.journal) - self.mark)
        if missing <= 0:
            return
        start = gone = 0
        while self.lengths and start < missing:
            start += self.lengths.popleft()
            gone += 1
        kept = self.journal[start:self.mark]
        self.journal[0:len(kept)] = kept
        self.mark = len(kept)
        self.moved += len(kept)
        self.dropped += gone

    def step(self, record):
        """A step whose record is this one."""
        self.make_room()
        self.journal[self.mark:self.mark + len(record)] = record
        self.mark += len(record)
        self.lengths.append(len(record))
        self.steps += 1

    def told(self, memhash=""):
        """What bench tells, to before the clocks. The records do not decide memory's hash."""
        return (f"steps {self.steps} mark {self.mark} jhash {hashed(self.journal):08x} {memhash}"
                f"moved {self.moved} dropped {self.dropped} ")


def after(records, length, steps):
    """The journal of so many bytes after so many steps."""
    full = Full(length)
    for record in records[:steps]:
        full.step(record)
    if full.steps < steps:
        sys.exit(f"the records are those of {full.steps} steps only")
    return full


def main():
    if len(sys.argv) < 3:
        sys.exit(__doc__)
    records = rows(sys.stdin.read())
    for steps in sys.argv[2:]:
        print(after(records, int(sys.argv[1]), int(steps)).told().strip())


if __name__ == "__main__":
    main()
