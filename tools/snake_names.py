#!/usr/bin/env python3
"""Brings this repository's own definitions and lemmas to snake case, as the port to a newer Rattle asked: `sign-byte-is` becomes
`sign_byte_is`. Run once, at the top, right after the kit's port.py. A name turns if a file of specs/ or proofs/ of this repository
declares it; names of the kit keep their spelling, and so do functions of src/, strings, inputs and outputs.

usage: tools/snake_names.py [--check]      --check writes nothing, and lists names that would fall together in one file

What turns: whole words in .antt files (code and comments), in the clauses, `ghost use` items and comments of .rt files, in the lines
of must-fail edits, and in .txt copies of such files. A proof's own name follows its folder: `f_spec`. Pages are turned by hand.
"""
import os
import re
import sys

WORD = r"[^\s(){}.;,@\"«»:\[\]|`]+"
DECLARED = re.compile(rf"^\s*((?:(?:pub|abbrev|unfoldable|opaque|data|record)\s+)+)?({WORD}(?:\s+{WORD})*)\s+:(?:\s|$)")
HEAD = re.compile(rf"^\s*(?:(?:pub|abbrev|unfoldable|opaque)\s+)*(?:data|record)\s+(?:pub\s+)?({WORD})")
KEYWORDS = {"pub", "abbrev", "unfoldable", "opaque", "data", "record", "module", "where", "_"}
# Words of English that a definition happens to be called: in comments they stay.
ENGLISH = {"well-formed", "one-step", "end-of-memory", "end-of-rom", "ibz-calls", "machine-calls", "odd-jumps"}
# Types with a dash, and a lemma that would fall together with a word of the kit.
TYPES = {
    "At-most": "AtMost",
    "Of-size": "OfSize",
    "None-below": "NoneBelow",
    "Room-holds": "RoomHolds",
    "All-kept-to": "AllKeptTo",
    "Kept-to": "KeptTo",
    "None-of": "NoneOf",
    "ones-in": "ones_in_lem",
}


def files(endings):
    for folder, folders, names in os.walk("crates"):
        folders[:] = sorted(d for d in folders if d != "out")
        for name in sorted(names):
            if name.endswith(endings):
                yield os.path.join(folder, name)


def text_of(path):
    with open(path, encoding="utf-8") as f:
        return f.read()


def declared():
    """The names with a dash that this repository declares, each with its new spelling; a proof of a function is no such name."""
    new = dict(TYPES)
    for path in files((".antt",)):
        for line in text_of(path).split("\n"):
            if line.lstrip().startswith("--"):
                continue
            found = DECLARED.match(line)
            words = found.group(2).split() if found else []
            head = HEAD.match(line)
            if head:
                words.append(head.group(1))
            for word in words:
                bare = word.strip("'")
                if word in KEYWORDS or "-" not in bare or not re.match(r"[\w+]", word) or word in TYPES:
                    continue
                if word.startswith("+") or re.match(r"(Need|need|In|After|Lts|Goal)-", word):
                    continue
                new[word] = word.replace("-", "_")
    return new


def turned(text, new, stays=()):
    def word(found):
        it = found.group(0)
        return it if it in stays else new.get(it, it)

    return re.sub(WORD, word, text)


def comments_of(line, mark):
    """Where a line's comment begins, or its end."""
    at = line.find(mark)
    return len(line) if at < 0 else at


def antt(text, new, path):
    out = []
    for line in text.split("\n"):
        at = comments_of(line, "--") if line.lstrip().startswith("--") or " -- " in line else len(line)
        out.append(turned(line[:at], new) + turned(line[at:], new, ENGLISH))
    text = "\n".join(out)
    parts = path.split("/")
    if parts[2] == "proofs" and parts[-1].startswith("Proof.antt"):
        own = parts[-2] + "_spec"
        olds = {m.group(1) for m in re.finditer(rf"^pub ({WORD}[-_]spec)\s+:", text, re.M)}
        for old in olds:
            if old.replace("-", "_") == own:
                text = re.sub(rf"(?<![^\s(){{}}.;,]){re.escape(old)}(?![^\s(){{}}.;,])", own, text)
    return text


CLAUSE = re.compile(r"(?:requires|ensures|ghost)\b[^{;\n]*\{|ghost\s+use\b")


def rt(text, new):
    """Comments, clauses and `ghost use` items; a clause ends where its bracket does."""
    out, at = [], 0
    pieces = re.compile(r"//[^\n]*|\"(?:\\.|[^\"\\])*\"|ghost\s+use\b[^;]*;|(?:requires|ensures|ghost)\b[^{;\n=]*(?:=\s*)?\{")
    while True:
        found = pieces.search(text, at)
        if not found:
            out.append(text[at:])
            return "".join(out)
        out.append(text[at : found.start()])
        piece, end = found.group(0), found.end()
        if piece.startswith("//"):
            out.append(turned(piece, new, ENGLISH))
        elif piece.startswith('"'):
            out.append(piece)
        elif piece.endswith(";"):
            out.append(turned(piece, new))
        else:
            depth = 1
            while depth and end < len(text):
                depth += {"{": 1, "}": -1}.get(text[end], 0)
                end += 1
            out.append(turned(text[found.start() : end], new))
        at = end


def edit(text, new):
    return "\n".join(turned(l, new) if re.match(r"(old|new):", l) else l for l in text.split("\n"))


def main(argv):
    check = "--check" in argv
    new = declared()
    names = set(new.values())
    fallen = sorted(n for n in names if sum(v == n for v in new.values()) > 1)
    print(f"{len(new)} names turn; {len(fallen)} fall together: {fallen}")
    changed = 0
    for path in files((".antt", ".rt", ".edit", ".antt.txt", ".rt.txt")):
        text = text_of(path)
        if ".antt" in path:
            after = antt(text, new, path)
            code = "\n".join(l.split(" -- ")[0] for l in text.split("\n") if not l.lstrip().startswith("--"))
            words = set(re.findall(WORD, code))
            both = sorted(w for w in words if w in new and new[w] in words)
            if both:
                print(f"{path}: stands in both spellings: {both}")
        elif path.endswith(".edit"):
            after = edit(text, new)
        else:
            after = rt(text, new)
        if after != text:
            changed += 1
            if not check:
                with open(path, "w", encoding="utf-8") as f:
                    f.write(after)
    print(f"{changed} files {'would change' if check else 'changed'}")


if __name__ == "__main__":
    main(sys.argv[1:])
