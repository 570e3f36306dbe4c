#!/usr/bin/env python3
"""Writes the gate's cases and, after them, lines that must differ: each is a true case with one thing altered.

Usage: tools/select_vectors.py FOLDER | tools/wrong_cases.py crates/vectors

Standard input is the chosen cases (crates/vectors/README.md). crates/vectors/stdin gets them and then the wrong lines,
each named by what was altered, `wrong:slot-0`; crates/vectors/stdout gets what `vectors` has to say of them all. What
it has to say of a wrong line follows from what was altered here, and from nothing that a program said.
"""
import pathlib
import sys

# Of these two most wrong lines are made: a MOVE to memory, and an address error, whose record is long.
MOVE = "MOVE.L:Dn>-(An) a "
FAULT = "MOVE.L:-(An)>-(An) f "

# Lines with wrong clocks: what is altered, the case that it is altered of, and what is added to its clocks (None: the
# line says 0). Every rule on clocks of K2 and K3 has one; the numbers are those of Appendix D.
CLOCKS = (
    ("one-more", MOVE, 1), ("one-fewer", MOVE, -1), ("none", MOVE, None), ("256-more", MOVE, 256),
    ("65536-more", MOVE, 65536), ("10000000-more", MOVE, 10000000), ("fault-none", FAULT, None),
    ("fault-with-trace", "MOVE.W:(An)>(An) ft ", 34), ("trap-none", "TRAP:> a ", None),
    ("trap-as-illegal", "TRAP:> a ", -4), ("trap-without-operand", "CHK:(An)>Dn ap ", -4),
    ("line-1010-none", "LINEA:> a ", None), ("trace-left-out", "MOVEQ:q>Dn t ", -34),
    ("trace-of-trap-left-out", "TRAP:> t ", -34),
    ("trace-twice", "NOP:> t ", 34), ("trace-that-halts", "MOVEA.W:Dn>An th ", 34), ("halted", "ILLEGAL:> h ", 34),
    ("interrupt-none", "INT:taken> i ", None), ("interrupt-one-more", "INT:taken> i ", 1),
    ("interrupt-halted", "INT:taken> ih ", 44), ("stopped-none", "INT:stopped-not-taken> i ", None),
    ("odd-jump-with-its-own", "RTS:> 2o ", 16), ("odd-jump-traced", "RTS:> to ", 34),
    ("odd-handler-of-a-fault", "MOVE.W:(An)>(An) fk ", 50))

# ABCD, SBCD and NBCD by 01 alone, where N keeps its value: SR after is as before in that bit.
DECIMAL = ("ABCD:", "SBCD:", "NBCD:")
N_BIT = 3

STEP_NUMBER = "the step is refused"
STEP_SLOTS = "slots after the step"
STEP_MEMORY = "memory after the step"
STEP_MARK = "mark after the step"
STEP_JOURNAL = "journal after the step"
STEP_CLOCKS = "clocks of the step"
UNDO_NUMBER = "number after the undo"
UNDO_SLOTS = "slots after the undo"
UNDO_MEMORY = "memory after the undo"
UNDO_MARK = "mark after the undo"
NO_CASE = "no case"

SLOTS = 20
A0, SSP, PC, SR = 8, 16, 17, 18
ADDRESSES = 1 << 24
VECTOR_2 = 8
MARK = 1000
LONGEST = 8192

# fields of a line, counted from 0; after these, a true case has its clocks, and perhaps a window, and after that a ROM
NAME, LENGTH, LEVEL, VECTOR, START, MEMORY, SLOTS_AFTER, MEMORY_AFTER, RECORD = 0, 2, 3, 4, 5, 6, 7, 8, 9
FIELDS = 10
CLOCKS_NAME = "clocks="
WINDOW_NAME = "window="
ROM_NAME = "rom="
ROM_START = 0xF00000
LO, HI = 0, 1


def bytes_of(runs):
    """The bytes of a list of runs, by place."""
    found = {}
    for run in runs.split(",") if runs != "-" else []:
        place, digits = run.split(":")
        for i, b in enumerate(bytes.fromhex(digits)):
            found[int(place, 16) + i] = b
    return found


def listed(items):
    return ",".join(items) or "-"


def runs_of(found):
    """A list of runs of one byte each."""
    return listed(f"{place:x}:{b:02x}" for place, b in sorted(found.items()))


class Case:
    """A true case: slots and bytes before and after its step."""

    def __init__(self, line):
        fields = line.split(" ")
        self.fields, self.last = fields[:FIELDS], fields[FIELDS:]
        names = [text[:text.find("=") + 1] for text in self.last]
        if not names or names != [CLOCKS_NAME, WINDOW_NAME, ROM_NAME][:len(names)]:
            sys.exit(f"no case with clocks: {line}")
        self.timed = self.last[0]
        self.clocks = int(self.timed[len(CLOCKS_NAME):])
        self.length = int(self.fields[LENGTH], 16)
        self.window = [0, self.length]
        if len(self.last) > 1:
            self.window = [int(end, 16) for end in self.last[1][len(WINDOW_NAME):].split(",")]
        self.rom, self.rom_end = {}, ROM_START
        if len(self.last) > 2:
            length, _, runs = self.last[2][len(ROM_NAME):].partition(",")
            self.rom, self.rom_end = bytes_of(runs or "-"), ROM_START + int(length, 16)
        self.start = [int(v, 16) for v in self.fields[START].split(",")]
        self.slots = list(self.start)
        for change in self.fields[SLOTS_AFTER].split(",") if self.fields[SLOTS_AFTER] != "-" else []:
            slot, value = change.split("=")
            self.slots[int(slot)] = int(value, 16)
        self.memory = bytes_of(self.fields[MEMORY])
        self.changed = bytes_of(self.fields[MEMORY_AFTER])
        self.record = bytes.fromhex(self.fields[RECORD])
        self.wrote = min(self.changed, default=0)

    def but(self, name, *altered, undo=(), last=None):
        """The line with some fields altered, with those of its undo, and what stands last in it or what is given."""
        fields = list(self.fields)
        fields[NAME] = f"wrong:{name}"
        for k, text in altered:
            fields[k] = text
        return " ".join([*fields, *undo, *(self.last if last is None else last)])

    def through(self, name, lo, hi):
        """The line with another window."""
        return self.but(f"window-{name}", last=[self.timed, f"{WINDOW_NAME}{lo:x},{hi:x}"])

    def rom_length(self):
        return self.rom_end - ROM_START

    def beside(self, name, length, rom=None):
        """The line with another ROM; where nothing is said of its bytes, with those that it still holds."""
        end = ROM_START + length
        kept = {place: b for place, b in (self.rom if rom is None else rom).items() if place < end}
        runs = [runs_of(kept)] if kept else []
        return self.but(f"rom-{name}", last=[*self.last[:2], ",".join([f"{ROM_NAME}{length:x}", *runs])])

    def number_at(self, place, n):
        """The number that n bytes of memory or of ROM spell after the step."""
        after = self.memory | self.changed | self.rom
        return int.from_bytes(bytes(after.get(place + i, 0) for i in range(n)), "big")

    def fetched(self):
        """The address of the operation word."""
        return self.start[PC] % ADDRESSES

    def pointed(self):
        """The address in the register that the operation word names last: what (An) means, in user state."""
        register = self.number_at(self.fetched(), 2) % 8
        return self.start[register + A0] % ADDRESSES

    def blamed(self):
        """The address of the access that failed, out of the frame."""
        return self.number_at(self.slots[SSP] % ADDRESSES + 2, 4)

    def changes(self, slots):
        return listed(f"{k}={v:x}" for k, v in enumerate(slots) if v != self.start[k])

    def places(self):
        """Where a byte is altered: both ends, about the middle, and where the step writes."""
        middle = self.length // 2
        return {"first": 0, "second": 1, "before-middle": middle - 1, "middle": middle,
                "last-but-one": self.length - 2, "last": self.length - 1, "written": self.wrote}


def with_bit(values, k, bit):
    return [v ^ (1 << bit if i == k else 0) for i, v in enumerate(values)]


def step_lines(case, fault):
    """What is compared after the step."""
    halted = listed(f"{v:x}" for v in [*case.start[:-1], 2])
    yield STEP_NUMBER, case.but("halted", (START, halted))
    for k in range(SLOTS):
        wrong = with_bit(case.slots, k, k * 13 % 32)
        yield STEP_SLOTS, case.but(f"slot-{k}", (SLOTS_AFTER, case.changes(wrong)))
    for bit, (name, place) in enumerate(case.places().items()):
        after = case.memory | case.changed
        wrong = case.changed | {place: after.get(place, 0) ^ 1 << bit}
        yield STEP_MEMORY, case.but(f"memory-{name}", (MEMORY_AFTER, runs_of(wrong)))
    record = fault.record
    yield STEP_MARK, fault.but("record-too-long", (RECORD, record.hex() + "00"))
    yield STEP_MARK, fault.but("record-too-short", (RECORD, record[:-1].hex()))
    for name, at, bit in ("first", 0, 0), ("middle", len(record) // 2, 4), ("last", len(record) - 1, 7):
        yield STEP_JOURNAL, fault.but(f"record-{name}", (RECORD, bytes(with_bit(record, at, bit)).hex()))


def sign_lines(cases):
    """N of the decimal three as it was, where their result alters it."""
    for begins in DECIMAL:
        decimal = (Case(c) for c in cases if c.startswith(begins))
        case = next(c for c in decimal if (c.start[SR] ^ c.slots[SR]) >> N_BIT & 1)
        changes = case.changes(with_bit(case.slots, SR, N_BIT))
        yield STEP_SLOTS, case.but(f"{begins[:-1].lower()}-keeps-n", (SLOTS_AFTER, changes))


def clocks_lines(cases):
    """The clocks of the step; and lines that say none, where other things are still compared."""
    for name, begins, more in CLOCKS:
        case = Case(next(c for c in cases if c.startswith(begins)))
        wrong = 0 if more is None else case.clocks + more
        assert 0 <= wrong != case.clocks, name
        yield STEP_CLOCKS, case.but(f"clocks-{name}", last=[f"{CLOCKS_NAME}{wrong}"])
    move = Case(next(c for c in cases if c.startswith(MOVE)))
    good = ["0", "-", "-", f"{MARK:x}"]
    yield STEP_CLOCKS, move.but("clocks-before-undo", undo=good, last=[f"{CLOCKS_NAME}{move.clocks + 2}"])
    changes = move.changes(with_bit(move.slots, 0, 0))
    yield STEP_SLOTS, move.but("no-clocks-slot-0", (SLOTS_AFTER, changes), last=())
    yield UNDO_MARK, move.but("no-clocks-undo-mark", undo=[*good[:3], "0"], last=())


def window_lines(cases):
    """The window: an end moved by one byte, so that an access that failed is let in, or one that did not is shut out;
    other windows; and true windows, where other things are still compared.
    """
    def first(begins, where=None, end=LO, off=0):
        found = (Case(c) for c in cases if c.startswith(begins))
        return next(c for c in found if where is None or where(c) == c.window[end] + off)

    for name, begins, where, end, off, by in (
            ("byte-below-lo-let-in", "MOVE.B:(An)>Dn wx ", Case.blamed, LO, -1, -1),
            ("byte-at-hi-let-in", "MOVE.B:-(An)>Dn wx ", Case.blamed, HI, 0, 1),
            ("word-cut-by-lo-let-in", "MOVEtoCCR:(An)> wx ", Case.blamed, LO, -1, -1),
            ("word-cut-by-hi-let-in", "CLR.W:>(An) wx ", Case.blamed, HI, -1, 1),
            ("fetch-cut-by-lo-let-in", "SWAP:>Dn wxf ", Case.blamed, LO, -1, -1),
            ("fetch-cut-by-hi-let-in", "CLR.W:>Dn wxf ", Case.blamed, HI, -1, 1),
            ("byte-at-lo-shut-out", "ADDQ.B:q>(An) w0 ", Case.pointed, LO, 0, 1),
            ("byte-below-hi-shut-out", "MOVE.B:(An)>abs.W w0 ", Case.pointed, HI, -1, -1),
            ("word-below-hi-shut-out", "ASR.W:1>(An) w0 ", Case.pointed, HI, -2, -1),
            ("fetch-at-lo-shut-out", "MOVE.L:Dn>Dn w0 ", Case.fetched, LO, 0, 1),
            ("fetch-below-hi-shut-out", "MOVE.L:Dn>Dn w0 ", Case.fetched, HI, -2, -1)):
        case = first(begins, where, end, off)
        ends = [e + by * (k == end) for k, e in enumerate(case.window)]
        yield STEP_SLOTS, case.through(name, *ends)
    outside = first("MOVE.B:(An)>Dn wx ")
    assert outside.blamed() < outside.length
    yield STEP_SLOTS, outside.through("all-of-memory", 0, outside.length)
    yield STEP_SLOTS, outside.but("window-left-out", last=[outside.timed])
    odd = first("ORI.W:#>abs.L wo ")
    taken = [odd.number_at(VECTOR_2, 4) if k == PC else v for k, v in enumerate(odd.slots)]
    assert taken != odd.slots
    yield STEP_SLOTS, odd.but("window-before-odd", (SLOTS_AFTER, odd.changes(taken)))
    case = first("MOVE.L:Dn>Dn w0 ")
    lo, hi = case.window
    assert lo < hi
    yield STEP_SLOTS, case.through("empty", 0, 0)
    yield STEP_SLOTS, case.through("empty-at-end", case.length, case.length)
    yield STEP_NUMBER, case.through("turned", hi, lo)
    yield STEP_NUMBER, case.through("past-memory", lo, case.length + 1)
    yield STEP_NUMBER, case.through("far-past-memory", lo, 0xFFFFFFFF)
    unfenced = first("MOVE.B:(An)>Dn ws ")
    yield STEP_NUMBER, unfenced.through("past-memory-in-supervisor-state", 0, unfenced.length + 1)
    changes = (SLOTS_AFTER, case.changes(with_bit(case.slots, 0, 0)))
    yield STEP_SLOTS, case.but("window-slot-0", changes)
    yield STEP_SLOTS, case.but("window-no-clocks-slot-0", changes, last=case.last[1:])
    yield STEP_CLOCKS, case.but("window-clocks", last=[f"{CLOCKS_NAME}{case.clocks + 1}", *case.last[1:]])
    for name, last in ("window-undo-mark", case.last), ("window-no-clocks-undo-mark", case.last[1:]):
        yield UNDO_MARK, case.but(name, undo=["0", "-", "-", "0"], last=last)


def rom_lines(cases):
    """The ROM: a byte of it; its length, which lets an access in or shuts it out; a ROM left out, and ROMs that are
    refused; a window's ends in it; and true ROMs, where other things are still compared.
    """
    def first(begins, holds=lambda c: True):
        return next(c for c in map(Case, (c for c in cases if c.startswith(begins))) if holds(c))

    def altered(name, case, place):
        return case.beside(f"{name}-altered", case.rom_length(), case.rom | {place: case.rom.get(place, 0) ^ 1})

    def through(name, case, *by):
        ends = ",".join(f"{end + more:x}" for end, more in zip(case.window, by))
        return case.but(f"rom-{name}", last=[case.timed, f"{WINDOW_NAME}{ends}", *case.last[2:]])

    # the lowest bit of a byte, which the register that is written then shows
    read = first("SUB.L:(An)>Dn r ", lambda c: ROM_START <= c.pointed() and c.window[HI] <= c.length)
    yield STEP_SLOTS, altered("operand", read, read.pointed() + 3)
    fetched = first("SUBI.W:#>Dn r ", lambda c: ROM_START <= c.fetched())
    yield STEP_SLOTS, altered("immediate", fetched, fetched.fetched() + 3)
    fetched = first("MOVEQ:q>Dn r ", lambda c: ROM_START <= c.fetched())
    yield STEP_SLOTS, altered("operation-word", fetched, fetched.fetched() + 1)
    # two bytes fewer or more. Scc reads before it writes, and a long is two words: let in, the second of these fails
    for reason, name, begins, holds, more in (
            (STEP_SLOTS, "byte-at-end-shut-out", "CMPI.B:#>(An) r ", lambda c: c.pointed() == c.rom_end - 1, -2),
            (STEP_SLOTS, "fetch-at-end-shut-out", "MOVEQ:q>Dn r ", lambda c: c.fetched() == c.rom_end - 2, -2),
            (STEP_SLOTS, "fetch-past-end-let-in", "ORI.B:#>Dn rf ", lambda c: c.blamed() == c.rom_end, 2),
            (STEP_MEMORY, "read-of-scc-let-in", "SNE:>(An)+ rf ", lambda c: c.blamed() == c.rom_end, 2),
            (STEP_MEMORY, "half-a-long-let-in", "SUB.L:Dn>(An) rf ", lambda c: c.blamed() == c.rom_end, 2)):
        case = first(begins, lambda c: holds(c) and c.window[HI] <= c.length)
        yield reason, case.beside(name, case.rom_length() + more)
    yield STEP_SLOTS, read.but("rom-left-out", last=read.last[:2])
    yield STEP_SLOTS, read.beside("empty", 0)
    yield STEP_NUMBER, read.beside("one-byte-shorter", read.rom_length() - 1)
    yield STEP_NUMBER, read.beside("of-one-byte", 1)
    # in user state
    inside = first("MOVE.B:(An)>(An)+ ru ", lambda c: ROM_START <= c.pointed() == c.window[HI] - 1)
    yield STEP_SLOTS, through("byte-below-hi-shut-out", inside, 0, -1)
    outside = first("ADD.W:An>Dn rfu ", lambda c: ROM_START <= c.blamed() == c.window[HI] - 1 < c.rom_end - 1)
    yield STEP_SLOTS, through("fetch-cut-by-hi-let-in", outside, 0, 1)
    outside = first("CMP.W:An>Dn rfu ", lambda c: ROM_START <= c.blamed() == c.window[LO] - 1)
    yield STEP_SLOTS, through("fetch-cut-by-lo-let-in", outside, -1, 0)
    whole = first("SUB.W:(An)>Dn ru ", lambda c: c.window[HI] == c.rom_end)
    yield STEP_NUMBER, through("hi-past-end", whole, 0, 1)
    yield STEP_NUMBER, whole.beside("shorter-than-hi", whole.rom_length() - 2)
    yield STEP_NUMBER, whole.but("rom-left-out-below-hi", last=whole.last[:2])
    # a write: the frame says that it was one
    write = first("MOVE.L:An>(An) rfw ", lambda c: ROM_START <= c.blamed() < c.rom_end)
    place = write.slots[SSP] % ADDRESSES + 1
    changed = write.changed | {place: write.number_at(place, 1) ^ 0x10}
    yield STEP_MEMORY, write.but("rom-write-blamed-as-read", (MEMORY_AFTER, runs_of(changed)))
    changes = (SLOTS_AFTER, read.changes(with_bit(read.slots, 0, 0)))
    yield STEP_SLOTS, read.but("rom-slot-0", changes)
    yield STEP_SLOTS, read.but("rom-no-clocks-slot-0", changes, last=read.last[1:])
    yield STEP_CLOCKS, read.but("rom-clocks", last=[f"{CLOCKS_NAME}{read.clocks + 1}", *read.last[1:]])
    for name, last in ("rom-undo-mark", read.last), ("rom-no-clocks-undo-mark", read.last[1:]):
        yield UNDO_MARK, read.but(name, undo=["0", "-", "-", "0"], last=last)


def undo_lines(case):
    """What is compared after the undo."""
    def undone(name, number="0", slots="-", memory="-", mark=f"{MARK:x}"):
        return case.but(f"undo-{name}", undo=(number, slots, memory, mark))

    yield UNDO_NUMBER, undone("refused", number="8")
    for k in range(SLOTS):
        wrong = with_bit(case.start, k, k * 13 % 32)
        yield UNDO_SLOTS, undone(f"slot-{k}", slots=case.changes(wrong))
    for bit, (name, place) in enumerate(case.places().items()):
        yield UNDO_MEMORY, undone(f"memory-{name}", memory=runs_of({place: case.memory.get(place, 0) ^ 1 << bit}))
    yield UNDO_MEMORY, undone("memory-stays", memory=case.fields[MEMORY_AFTER])
    for name, mark in ("lower", MARK - 1), ("higher", MARK + 1), ("stays", MARK + len(case.record)):
        yield UNDO_MARK, undone(f"mark-{name}", mark=f"{mark:x}")


def no_cases(case):
    """Lines that are no case."""
    fields = case.fields
    yield " ".join(["wrong:nine-fields", *fields[1:9]])
    for name, further in ("eleven-fields", "0"), ("thirteen-fields", "0 - -"), ("fifteen-fields", "0 - - 3e8 0"):
        yield case.but(name, last=further.split(" "))
    zeros = "00" * (LONGEST // 2)
    yield case.but("too-long", (MEMORY, fields[MEMORY] + ",0:" + zeros))
    for name, k, text in (
            ("length-letter", LENGTH, "g0000"), ("length-odd", LENGTH, "10001"), ("length-small", LENGTH, "3fe"),
            ("length-large", LENGTH, "1000002"), ("level-letter", LEVEL, "x"), ("vector-large", VECTOR, "100"),
            ("slot-letter", START, "g" + fields[START][1:]), ("slots-too-few", START, fields[START].rpartition(",")[0]),
            ("slots-too-many", START, fields[START] + ",0"), ("memory-letter", MEMORY, "0:0o"),
            ("memory-past-end", MEMORY, fields[MEMORY] + ",ffff:0000"), ("slot-20", SLOTS_AFTER, "20=0"),
            ("slot-value-letter", SLOTS_AFTER, "17=z"), ("memory-after-letter", MEMORY_AFTER, "0:g0"),
            ("record-letter", RECORD, "0z" + fields[RECORD][2:]), ("record-half-byte", RECORD, fields[RECORD] + "0")):
        yield case.but(name, (k, text))
    for name, further in (
            ("number-letter", "g - - 3e8"), ("slot-20", "0 20=0 - 3e8"), ("memory-letter", "0 - 0:0g 3e8"),
            ("mark-letter", "0 - - k")):
        yield case.but(f"undo-{name}", undo=further.split(" "))
    right = case.clocks
    yield " ".join(["wrong:nine-fields-and-clocks", *fields[1:9], case.timed])
    for name, last in (
            ("letter", f"clocks={right}x"), ("no-digit", "clocks="), ("base-16", "clocks=1f"), ("minus", "clocks=-4"),
            ("nine-digits", f"clocks={right:09}"), ("twice", f"{case.timed} {case.timed}"),
            ("two-signs", f"clocks=={right}"), ("no-sign", "clocks"), ("no-name", f"={right}"),
            ("other-name", f"clock={right}"), ("capitals", f"CLOCKS={right}"), ("two-spaces", f" {case.timed}"),
            ("after-window", f"window=0,10000 {case.timed}"), ("after-other-field", f"other=1 {case.timed}"),
            ("before-other-field", f"{case.timed} other=1")):
        yield case.but(f"clocks-{name}", last=[last])
    yield case.but("other-field", last=["other=1"])
    yield " ".join(["wrong:nine-fields-and-window", *fields[1:9], "window=0,10000"])
    for name, last in (
            ("lo-letter", "window=g,10000"), ("hi-letter", "window=0,1000g"), ("minus", "window=-1,10000"),
            ("no-lo", "window=,10000"), ("no-hi", "window=0,"), ("one-end", "window=10000"),
            ("three-ends", "window=0,10000,10000"), ("nine-digits", "window=0,000010000"),
            ("twice", "window=0,10000 window=0,10000"), ("two-signs", "window==0,10000"), ("no-sign", "window"),
            ("no-name", "=0,10000"), ("other-name", "windows=0,10000"), ("capitals", "WINDOW=0,10000"),
            ("two-spaces", " window=0,10000"), ("after-other-field", "other=1 window=0,10000"),
            ("before-other-field", "window=0,10000 other=1")):
        yield case.but(f"window-{name}", last=[case.timed, last])
    yield case.but("window-alone-letter", last=["window=x,10000"])
    whole = "window=0,10000"
    yield case.but("rom-without-window", last=[case.timed, "rom=10"])
    yield case.but("rom-alone", last=["rom=10"])
    yield case.but("rom-before-window", last=[case.timed, "rom=10", whole])
    yield case.but("rom-before-clocks", last=[whole, "rom=10", case.timed])
    yield case.but("rom-window-letter", last=[case.timed, "window=0,x", "rom=10"])
    for name, last in (
            ("length-letter", "rom=1g"), ("no-length", "rom="), ("no-length-before-run", "rom=,f00000:00"),
            ("nine-digits", "rom=000000010"), ("minus", "rom=-10"), ("length-large", "rom=100002"),
            ("two-signs", "rom==10"), ("no-sign", "rom"), ("no-name", "=10"), ("other-name", "roms=10"),
            ("capitals", "ROM=10"), ("two-spaces", " rom=10"), ("twice", "rom=10 rom=10"),
            ("after-other-field", "other=1 rom=10"), ("before-other-field", "rom=10 other=1"),
            ("place-letter", "rom=10,f0000g:00"), ("place-counted-from-0", "rom=10,0:00"),
            ("place-below", "rom=10,efffff:00"), ("place-at-end", "rom=10,f00010:00"),
            ("bytes-past-end", "rom=10,f0000f:0000"), ("byte-letter", "rom=10,f00000:0g"),
            ("half-byte", "rom=10,f00000:000"), ("no-bytes", "rom=10,f00000:"), ("no-place", "rom=10,:00"),
            ("no-colon", "rom=10,f00000"), ("two-colons", "rom=10,f00000:00:00"), ("comma-at-end", "rom=10,"),
            ("two-commas", "rom=10,,f00000:00"), ("hyphen", "rom=10,-")):
        yield case.but(f"rom-{name}", last=[case.timed, whole, last])
    yield case.but("undo-clocks-letter", undo=["0", "-", "-", f"{MARK:x}"], last=["clocks=x"])


def wrong_lines(cases):
    """What is to be said, and the line, for each."""
    move, fault = (Case(next(c for c in cases if c.startswith(name))) for name in (MOVE, FAULT))
    yield from step_lines(move, fault)
    yield from sign_lines(cases)
    yield from clocks_lines(cases)
    yield from window_lines(cases)
    yield from rom_lines(cases)
    yield from undo_lines(move)
    for line in no_cases(move):
        yield NO_CASE, line


def main():
    if len(sys.argv) != 2:
        sys.exit(__doc__)
    folder = pathlib.Path(sys.argv[1])
    cases = sys.stdin.read().splitlines()
    wrong = list(wrong_lines(cases))
    said = [f"line {n} {line.split(' ')[NAME]}: {reason}" for n, (reason, line) in enumerate(wrong, len(cases) + 1)]
    said.append(f"agree {len(cases)}, differ {len(wrong)}, skipped 0")
    for name, lines in ("stdin", [*cases, *(line for _, line in wrong)]), ("stdout", said):
        (folder / name).write_text("".join(f"{line}\n" for line in lines), encoding="ascii")


if __name__ == "__main__":
    main()
