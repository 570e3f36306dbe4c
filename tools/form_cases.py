#!/usr/bin/env python3
"""Writes what the gate runs of `forms_cases`: chosen outside cases, cases of our own, lines that must differ, no cases.

Usage: zcat k8/forms.txt.gz | tools/form_cases.py crates/forms_cases

Standard input is all outside cases (crates/forms_cases/README.md). The answers of our own cases are those of the Python
in docs/FORMAT.md. What `forms_cases` has to say of a wrong line follows from what was altered here, and from nothing
that a program said.
"""
import pathlib
import sys

sys.dont_write_bytecode = True  # of rooms.py and select_vectors.py: nothing is left beside the tools
import rooms
from select_vectors import spread

LONGEST = 8192
EACH = 5
LONG = 1500  # a line with more characters: of these there are few
FORM, SOURCE, BEFORE, NUMBER, LENGTH, AFTER = range(6)
SIZES = (1, 8, 32, 128, 512)
NAMES = rooms.document()
TO = {"1": NAMES["to_two"], "2": NAMES["to_one"]}

# records in both forms: nothing, two slots, a halt, a lone byte, two runs, the top of memory
BOTH = (("0000", "0000"), ("00001104800200", "00001104800200"), ("13000100", "13000100"),
        ("11048012000680000201", "1104801200000680010201"),
        ("06800106810206 8301ff0003", "01020680 0201ff0683010002"),
        ("07fffffe0007ffffff000002", "000007fffffe020001"))

# not well shaped in form 2
TORN = ("00", "1500", "0047", "00470001", "0680000001", "01068001020681010002", "01068201020680010002",
        "010207ffffff020001", "02800680010001", "0107ffffff80010001", "00000080", "80")


def count(field):
    """How many bytes a field spells."""
    return len(rooms.bytes_of(field))


def length(case):
    """How many characters the line has."""
    return len(" ".join(case))


def kind(case):
    """What kind of case this is: form and number; of those that are not long, size of the source too, and whether the
    target is just as long as is needed, or by one or by more longer or shorter.
    """
    if LONG < length(case):
        return case[FORM], case[NUMBER]
    size = sum(count(case[SOURCE]) >= s for s in SIZES)
    out = TO[case[FORM]](rooms.bytes_of(case[SOURCE]))
    off = 0 if out is None else count(case[BEFORE]) - len(out)
    return case[FORM], case[NUMBER], size, max(-2, min(off, 2))


def chosen(cases):
    """Five cases of each kind, spread evenly over those that there are, and of the long ones the longest, in order."""
    kinds = {}
    for i, case in enumerate(cases):
        kinds.setdefault(kind(case), []).append(i)
    places = []
    for what, at in kinds.items():
        long = len(what) == 2
        places += [max(at, key=lambda i: length(cases[i]))] if long else spread(at, EACH)
    return [cases[i] for i in sorted(places)]


def own():
    """Cases of our own: the records of FORMAT.md, the longest one, the limits on either side, 8 before 11."""
    def case(form, source, room):
        target = rooms.field_of(bytearray(0xE0 + i % 16 for i in range(room)))
        start = [form, rooms.field_of(bytearray(source)), target]
        after = rooms.bytes_of(target)
        answer = NAMES["convert"](TO[form], source, after)
        return start + [str(n) for n in answer] + [rooms.field_of(after)]

    def targets(form, source, *more):
        """The target longer by so many bytes than is needed, or shorter."""
        return [case(form, source, len(TO[form](source)) + n) for n in more]

    one, two = (b"".join(bytes.fromhex(pair[k]) for pair in BOTH) for k in (0, 1))
    assert TO["1"](one) == two and TO["2"](two) == one
    slots = [(k, 2 ** 32 - 1) for k in range(18)] + [(18, 0xA71F), (19, 2)]
    apart = [(0x200000 + 2 * k, 255) for k in range(70)]
    row = [(0xFFFFFF - 69 + k, k) for k in range(70)]
    cases = targets("1", one, 0, 1, -1, -len(two)) + targets("2", two, 0, 1, -1, -len(one))
    for some in (slots, apart), ([], row):
        for form, record in ("1", "record_one"), ("2", "record_two"):
            cases += targets(form, bytes(NAMES[record](*some)), 0, -1)
    cases += [case("2", bytes.fromhex(torn), 40) for torn in TORN]
    cases += [case("2", bytes.fromhex(torn) + two, 200) for torn in TORN]
    cases += [case("1", b"\x47" + one, room) for room in (100, 0)] + [case("2", two[1:], room) for room in (100, 0)]
    for n in (70, 71):
        bytes_there = [(k, 1) for k in range(n)]
        cases += [case("1", bytes(NAMES["record_one"]([], bytes_there)), 400)]
        cases += [case("2", bytes(NAMES["record_two"]([], bytes_there)), 400)]
        cases += [case("2", bytes(NAMES["record_two"]([], [(2 * k, 1) for k in range(n)])), 400)]
    return cases


def altered(case, place, value):
    return case[:place] + [str(value)] + case[place + 1:]


def with_byte(case, at):
    """The case with one byte of the target after it altered."""
    target = rooms.bytes_of(case[AFTER])
    target[at] ^= 1
    return altered(case, AFTER, target.hex())


def wrong(cases):
    """Lines that must differ, and in what."""
    for form in "12":
        def shortest(number, where):
            return min((c for c in cases if c[FORM] == form and c[NUMBER] == number and where(c)), key=length)

        some = shortest("0", lambda c: 20 <= int(c[LENGTH]) <= count(c[BEFORE]) - 4)
        torn, short = (shortest(number, lambda c: 8 <= count(c[BEFORE])) for number in ("8", "11"))
        n, last = int(some[LENGTH]), count(some[BEFORE]) - 1
        yield from ((altered(some, NUMBER, number), "number") for number in (8, 11, 1))
        yield from ((altered(torn, NUMBER, number), "number") for number in (0, 11))
        yield from ((altered(short, NUMBER, number), "number") for number in (0, 8))
        other = "2" if form == "1" else "1"
        assert TO[other](rooms.bytes_of(some[SOURCE])) is None
        yield altered(some, FORM, other), "number"
        yield from ((altered(some, LENGTH, due), "length") for due in (0, n - 1, n + 1, n + 65536))
        yield from ((altered(c, LENGTH, count(c[BEFORE])), "length") for c in (torn, short))
        yield from ((with_byte(some, at), "target") for at in (0, n // 2, n - 1, n, last))
        yield from ((with_byte(c, at), "target") for c in (torn, short) for at in (0, count(c[BEFORE]) - 1))
        yield altered(some, AFTER, some[AFTER][:2 * n] + "00" * (last + 1 - n)), "target"
        yield altered(some, AFTER, some[BEFORE]), "target"
        yield altered(some, AFTER, some[AFTER][:2 * n]), "target"
        yield altered(some, AFTER, some[AFTER] + "00"), "target"
        out = TO[form](rooms.bytes_of(short[SOURCE]))
        yield altered(short, AFTER, out[:count(short[BEFORE])].hex()), "target"


def no_cases(cases):
    """Lines that are no case, for one reason each."""
    case = min((c for c in cases if c[NUMBER] == "8" and c[BEFORE] != "-"), key=length)
    yield ""
    yield " ".join(case[:-1])
    yield " ".join(case + ["0"])
    yield "  ".join(case)
    for place in range(6):
        yield " ".join(altered(case, place, ""))
        yield " ".join(altered(case, place, "x"))
    yield from (" ".join(altered(case, FORM, form)) for form in ("0", "3", "11", "-"))
    for place in (NUMBER, LENGTH):
        yield from (" ".join(altered(case, place, value)) for value in ("1f", "-", "123456789"))
    for place in (SOURCE, BEFORE, AFTER):
        yield " ".join(altered(case, place, case[place][:-1]))
        yield " ".join(altered(case, place, case[place][:-1] + "g"))
    yield " ".join(altered(case, AFTER, "0" * LONGEST))


def main():
    if len(sys.argv) != 2:
        sys.exit(__doc__)
    folder = pathlib.Path(sys.argv[1])
    cases = chosen([line.split() for line in sys.stdin]) + own()
    differ = list(wrong(cases))
    skipped = list(no_cases(cases))
    lines = [" ".join(case) for case in cases + [case for case, _ in differ]] + skipped
    said = [f"line {len(cases) + i}: {what}" for i, (_, what) in enumerate(differ, 1)]
    said.append(f"agree {len(cases)}, differ {len(differ)}, skipped {len(skipped)}")
    (folder / "stdin").write_text("".join(f"{line}\n" for line in lines))
    (folder / "stdout").write_text("".join(f"{line}\n" for line in said))


if __name__ == "__main__":
    main()
