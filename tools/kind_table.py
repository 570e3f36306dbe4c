#!/usr/bin/env python3
# kind_table.py - writes src/table.rt and proofs/table/entry/Proof.antt of crate kind_table out of its specs/Table.antt.
# Means: nothing; what it writes is proved. By hand, after the table changed.
# Source: [K9].
import os
import re

root = os.path.join(os.path.dirname(os.path.abspath(__file__)), "..", "crates")
DECIDE = 128  # an entry below is a kind
GROUP = 8  # places with the same line and the same bits 8 to 6, by bits 11 to 9
ANSWERS = 4  # in a row of the proof

CODE = """// table.rt - the table of 1,024 entries, chosen by the word divided by 64, as a `match`: by line and bits 8 to 6, each entry and its places.
// Means: entries in specs/Table.antt, out of which tools/kind_table.py writes this file.
// Uses: decode.  Source: [K9].
// A `match` is kept as data, and costs no copy. No two places of an arm are neighbours: of such the kit makes a range, which is tested and
// not looked up (docs/DECISIONS.md D98).
ghost use Rattle.std.specs.Prelude.{◌≡◌};
ghost use Rattle.kind_table.specs.Table.{entry_at};

use decode::kinds;

// The entry of a word's upper ten bits.
pub fn entry(h: u32) -> u32
    ensures { result ≡ entry_at h }
{
    match h {
%s
        _ => kinds::LINE_F,
    }
}
"""

PROOF = """use Rattle.kind_table.specs.Table.{entries, entry_at}
use Rattle.kind_table.proofs.PlaceLaws.{places, arms, entry_at_place, entry_past}
use Rattle.kind_table.proofs.table.entry.Statement.{statement}
use Rattle.kind_table.proofs.table.entry.Tie as tie

pub entry_spec : {M : Type 1} → statement M
unfolding places entries entry_at arms
entry_spec =
    tie.close (tie.spec
%s)
"""


def path(*names):
    return os.path.join(root, *names)


def read(*names):
    with open(path(*names), encoding="utf-8") as file:
        return file.read()


def write(text, *names):
    with open(path(*names), "w", encoding="utf-8") as file:
        file.write(text)


def rows(items, most, between):
    return [between.join(items[i : i + most]) for i in range(0, len(items), most)]


entries = [int(n) for n in re.findall(r"(\d+) ∷", read("kind_table", "specs", "Table.antt"))]
assert len(entries) == 1024, len(entries)
kinds = {int(n): name for name, n in re.findall(r"pub const (\w+): u32 = (\d+);", read("decode", "src", "kinds.rt"))}

arms, answers = [], []
for group in range(len(entries) // GROUP):
    if group % 8 == 0:
        arms.append(f"        // line {group // 8}")
    places = [group // 8 * 64 + r * 8 + group % 8 for r in range(GROUP)]
    for entry in dict.fromkeys(entries[h] for h in places):
        told = "kinds::" + kinds[entry] if entry < DECIDE else str(entry)
        arms.append("        " + " | ".join(str(h) for h in places if entries[h] == entry) + f" => {told},")
        answers.append(f"(λ c. search (entry_at_place {group}))")
answers.append("(λ c. entry_past c.before.args.h c.in_default.in_default-own.rest)")
write(CODE % "\n".join(arms), "kind_table", "src", "table.rt")
write(PROOF % "\n".join("    " + row for row in rows(answers, ANSWERS, " ")), "kind_table", "proofs", "table", "entry", "Proof.antt")
