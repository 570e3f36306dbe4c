#!/usr/bin/env python3
"""Writes what the gate runs of `rooms`: chosen outside cases, cases of our own, lines that must differ, and no cases.

Usage: zcat k5/rooms.txt.gz | tools/room_cases.py crates/rooms

Standard input is all outside cases (crates/rooms/README.md). The answers of our own cases are those of the Python in
docs/FORMAT.md, by tools/rooms.py. What `rooms` has to say of a wrong line follows from what was altered here, and from
nothing that a program said.
"""
import pathlib
import sys

sys.dont_write_bytecode = True  # of rooms.py: nothing is left beside the tools
import rooms

LONGEST = 8192
LENGTH, BEFORE, MARK, NUMBER, MARK_AFTER, MOVED, DROPPED, AFTER = range(8)

# the four records of the example in FORMAT.md
ROWS = bytes.fromhex("00001104800200" "0000" "11048012000680000201" "13000100")
THIRD = 0x300  # the address in the third of them


def group(case):
    """What kind of case this is: room there, number, records dropped, whether all went, length of memory."""
    free = len(case[BEFORE]) // 2 - int(case[MARK])
    return free >= 536, case[NUMBER], min(int(case[DROPPED]), 4), case[MARK_AFTER] == "0", case[LENGTH]


def chosen(cases):
    """The first and the last case of each kind, in their order."""
    kinds = {}
    for i, case in enumerate(cases):
        kinds.setdefault(group(case), []).append(i)
    places = sorted({i for at in kinds.values() for i in (at[0], at[-1])})
    return [cases[i] for i in places]


def own():
    """Cases that the outside has none of: journals below 536 bytes, odd lengths of memory, the example of FORMAT.md."""
    make_room = rooms.document()["make_room"]

    def case(used, length, memory=1024, mark=None):
        journal = rooms.field_of(bytearray(used + bytes(length - len(used))))
        start = [f"{memory:x}", journal, str(len(used) if mark is None else mark)]
        return start + rooms.answered(make_room, *start)

    damaged = ROWS[:8] + b"\x47" + ROWS[9:]
    cases = [case(ROWS, length) for length in (559, 558, 550, 549, 540, 539, 535)]
    cases += [case(damaged, length) for length in (559, 558, 536, 535)]
    cases += [case(ROWS, 550, memory) for memory in (THIRD, THIRD + 1, 1, 0, 2 ** 32 - 1)]
    cases += [case(b"\0" + ROWS, 550), case(ROWS, 550, mark=22)]
    cases += [case(b"", length) for length in (0, 1, 535, 536, 537)]
    cases += [case(bytes(length), length) for length in (535, 536, 537, 1071, 1072, 1073)]
    cases += [case(b"\xff" * 535, 535), case(b"\xff" * 536, 536), case(bytes(600), 600, mark=64)]
    return cases


def altered(case, place, value):
    return case[:place] + [str(value)] + case[place + 1:]


def with_byte(case, at):
    """The case with one byte of the journal after it altered."""
    journal = rooms.bytes_of(case[AFTER])
    journal[at] ^= 1
    return altered(case, AFTER, journal.hex())


def cut_at(case, place, dropped):
    """The case as if what stands from this place on were kept, so many records dropped."""
    journal = rooms.bytes_of(case[BEFORE])
    kept = journal[place:int(case[MARK])]
    journal[:len(kept)] = kept
    return case[:MARK_AFTER] + [str(len(kept)), str(len(kept)), str(dropped), journal.hex()]


def wrong(cases):
    """Lines that must differ, and in what."""
    names = rooms.document()
    some = next(c for c in cases if c[NUMBER] == "0" and 2 <= int(c[DROPPED]) and 20 <= int(c[MARK_AFTER]))
    there = next(c for c in cases if group(c)[0])
    torn = next(c for c in cases if c[NUMBER] == "8")
    short = next(c for c in cases if c[NUMBER] == "5")
    mark, moved, dropped = int(some[MARK_AFTER]), int(some[MOVED]), int(some[DROPPED])
    starts = names["record_starts"](rooms.bytes_of(some[BEFORE]), int(some[MARK]), int(some[LENGTH], 16))
    last = len(some[AFTER]) // 2 - 1
    yield from ((altered(some, NUMBER, n), "number") for n in (5, 8, 1))
    yield from ((altered(torn, NUMBER, n), "number") for n in (0, 5))
    yield from ((altered(short, NUMBER, n), "number") for n in (0, 8))
    yield from ((altered(there, NUMBER, n), "number") for n in (5, 8))
    yield from ((altered(some, MARK_AFTER, mark + n), "mark") for n in (1, -1, 65536))
    yield altered(torn, MARK_AFTER, 0), "mark"
    yield cut_at(some, starts[dropped - 1], dropped - 1), "mark"
    yield cut_at(some, (starts + [int(some[MARK])])[dropped + 1], dropped + 1), "mark"
    yield from ((altered(some, MOVED, n), "bytes moved") for n in (0, moved - 1, moved + 1))
    yield altered(there, MOVED, there[MARK]), "bytes moved"
    yield from ((altered(some, DROPPED, n), "records dropped") for n in (0, dropped - 1, dropped + 1))
    yield altered(there, DROPPED, 1), "records dropped"
    yield from ((with_byte(some, at), "journal") for at in (0, mark // 2, mark - 1, mark, mark + 1, last))
    yield from ((with_byte(torn, at), "journal") for at in (0, last % (len(torn[AFTER]) // 2)))
    yield altered(some, AFTER, some[BEFORE]), "journal"
    yield altered(some, AFTER, some[AFTER] + "00"), "journal"
    yield altered(some, AFTER, some[AFTER][:-2]), "journal"


def no_cases(cases):
    """Lines that are no case, for one reason each."""
    case = next(c for c in cases if c[NUMBER] == "8")
    yield ""
    yield " ".join(case[:-1])
    yield " ".join(case + ["0"])
    yield "  ".join(case)
    for place in range(8):
        yield " ".join(altered(case, place, ""))
        yield " ".join(altered(case, place, "x"))
    yield " ".join(altered(case, LENGTH, "123456789"))
    yield " ".join(altered(case, MARK, len(case[BEFORE]) // 2 + 1))
    yield " ".join(altered(case, MARK, "1f"))
    yield " ".join(altered(case, MARK, "-"))
    for place in (BEFORE, AFTER):
        yield " ".join(altered(case, place, case[place][:-1]))
        yield " ".join(altered(case, place, case[place][:-1] + "g"))
    yield " ".join(altered(case, AFTER, "0" * LONGEST))


def main():
    folder = pathlib.Path(sys.argv[1])
    cases = chosen([line.split() for line in sys.stdin]) + own()
    differ = list(wrong(cases))
    skipped = list(no_cases(cases))
    lines = [" ".join(case) for case in cases + [case for case, _ in differ]] + skipped
    said = [f"line {len(cases) + i}: {what}" for i, (_, what) in enumerate(differ, 1)]
    said.append(f"agree {len(cases)}, differ {len(differ)}, skipped {len(skipped)}")
    (folder / "stdin").write_text("".join(f"{line}\n" for line in lines))
    (folder / "stdout").write_text("".join(f"{line}\n" for line in said))


if __name__ == "__main__":
    main()
