#!/usr/bin/env python3
"""Chooses the single-step cases that the gate runs; tools/wrong_cases.py writes them to crates/vectors/stdin.

Usage: tools/select_vectors.py FOLDER | tools/wrong_cases.py crates/vectors

       tools/select_vectors.py FOLDER NAME     all cases of one file, for `vectors` by hand: plain .., k7/inside, k10/rom

FOLDER holds the vector files, NAME.vec.gz, a case to a line (crates/vectors/README.md), and beside each k2/NAME.clk.gz,
the clocks of its cases in the same order, a number to a line: they become the line's field clocks=N. Of the requests
that change what a step does, k3/NAME.vec.gz and k4/NAME.vec.gz have the cases that are then other, with their clocks:
each takes the place of the case with the same first seven fields. k7/NAME.vec.gz and k10/NAME.vec.gz have cases of
their own, whole as they stand. Chosen are, of the cases whose memory is 65,536 bytes or less: all of choice, halt,
interrupt, oddjump, scope and k7/interrupt; of every other file three cases of each name, spread evenly over those that
it has, but of k7's and k10's, where that would be most of the gate's cases, three of each instruction, and what is
then still missing of one for each instruction with each length of ROM, and of one for each pair of operand kinds; and
what is then still missing of three for each flag string. Where there are fewer, all. The choice depends on nothing but
the files, and keeps their order.
"""
import collections
import gzip
import pathlib
import sys

WHOLE = {"choice", "halt", "interrupt", "oddjump", "scope", "k7/interrupt"}
REPLACED_BY = ("k3", "k4")  # in the order in which they came
ADDED_BY = ("k7", "k10")
GIVEN = 7  # fields that say what a case is; the others say what comes of it
EACH = 3
LARGEST = 65536
SUFFIX = ".vec.gz"
ROM_NAME = " rom="


def spread(items, n):
    """n of the items, or all, evenly apart."""
    if len(items) <= n:
        return items
    return [items[i * (len(items) - 1) // (n - 1)] for i in range(n)]


def lines_of(path):
    """The lines of a packed file."""
    with gzip.open(path, "rt", encoding="ascii") as file:
        return file.read().splitlines()


def given(line):
    return tuple(line.split(" ", GIVEN)[:GIVEN])


def added(name):
    """Whether a file has a request's own cases."""
    return name.split("/")[0] in ADDED_BY


def rom_length(line):
    """The length of a case's ROM, as it is written; nothing where it has none."""
    return line.partition(ROM_NAME)[2].split(",")[0].strip()


def timed(folder, name):
    """The cases of a file, each with its clocks, and as the last request has it that changes it."""
    path = folder / f"{name}{SUFFIX}"
    lines = lines_of(path)
    if added(name):
        return [f"{line}\n" for line in lines]
    clocks = folder / "k2" / f"{name}.clk.gz"
    counts = lines_of(clocks)
    if len(lines) != len(counts):
        sys.exit(f"{path} has {len(lines)} cases, {clocks} {len(counts)}")
    cases = {given(line): f"{line} clocks={n}\n" for line, n in zip(lines, counts)}
    if len(cases) != len(lines):
        sys.exit(f"{path} has a case twice")
    for request in REPLACED_BY:
        other = folder / request / path.name
        for line in lines_of(other) if other.exists() else []:
            if given(line) not in cases:
                sys.exit(f"{other} has a case that {path} has not: {line}")
            cases[given(line)] = f"{line}\n"
    return list(cases.values())


def names_in(folder):
    """The files of a folder, those of the requests last."""
    for part in ("", *ADDED_BY):
        for path in sorted((folder / part).glob(f"*{SUFFIX}")):
            yield path.relative_to(folder).as_posix().removesuffix(SUFFIX)


def main():
    if len(sys.argv) not in (2, 3):
        sys.exit(__doc__)
    folder = pathlib.Path(sys.argv[1])
    if len(sys.argv) == 3:
        sys.stdout.writelines(timed(folder, sys.argv[2]))
        return
    files = list(names_in(folder))
    if not files:
        sys.exit(f"no *{SUFFIX} in {sys.argv[1]}")
    cases, chosen = [], set()
    for file in files:
        by_name, by_rom, by_kinds = (collections.defaultdict(list) for _ in range(3))
        for line in timed(folder, file):
            name, flags, length = line.split(" ", 3)[:3]
            if int(length, 16) > LARGEST:
                continue
            if added(file):
                name, kinds = name.split(":")
                by_rom[name, rom_length(line)].append(len(cases))
                by_kinds[kinds].append(len(cases))
            by_name[name].append(len(cases))
            cases.append((flags, line))
        for places in by_name.values():
            chosen.update(places if file in WHOLE else spread(places, EACH))
        for places in (*by_rom.values(), *by_kinds.values()):
            if chosen.isdisjoint(places):
                chosen.add(places[0])
    by_flags = collections.defaultdict(list)
    for place, (flags, _) in enumerate(cases):
        by_flags[flags].append(place)
    for places in by_flags.values():
        if sum(p in chosen for p in places) < EACH:
            chosen.update(places[:EACH])
    for place in sorted(chosen):
        sys.stdout.write(cases[place][1])


if __name__ == "__main__":
    main()
