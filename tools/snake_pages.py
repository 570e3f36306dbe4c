#!/usr/bin/env python3
"""Brings the names of definitions and lemmas in the pages to snake case, as tools/snake_names.py brought those of the tree.

usage: tools/snake_pages.py OLD PAGE..      OLD is a checkout of the commit before the port to a newer Rattle began

A name turns if a file of specs/ or proofs/ in OLD declares it and the tree now has the new spelling. It turns where it stands as code:
between two backticks, which may be on two lines; what stands between three and three is not read. It prints each span that it turned and that is more than names of that form, and each
word with a dash between backticks that it left, to be read. Run once, and then for a page that comes back from before.
"""
import importlib.util
import os
import re
import sys

sys.dont_write_bytecode = True
ROOT = os.path.dirname(os.path.dirname(os.path.abspath(__file__)))
spec = importlib.util.spec_from_file_location("snake_names", f"{ROOT}/tools/snake_names.py")
snake_names = importlib.util.module_from_spec(spec)
spec.loader.exec_module(snake_names)
# a name ends also where a path does
WORD = snake_names.WORD.replace("`]+", "`/]+")
# Rattle makes these of a loop
RATTLES = {"invariant-loop", "decreases-loop"}


def names(old):
    """Each old name with its new spelling."""
    here = os.getcwd()
    os.chdir(old)
    new = snake_names.declared()
    os.chdir(ROOT)
    there = set()
    for path in snake_names.files((".antt", ".rt")):
        there.update(re.findall(snake_names.WORD, snake_names.text_of(path)))
    os.chdir(here)
    return {old: it for old, it in new.items() if it in there and old not in RATTLES}


def main(argv):
    if len(argv) < 2:
        sys.exit(__doc__)
    new = names(argv[0])
    for path in argv[1:]:
        turned = 0

        def span(found):
            nonlocal turned
            was = found.group(0)
            if was.startswith("```"):
                return was
            now = re.sub(WORD, lambda it: new.get(it.group(0), it.group(0)), was)
            if now != was:
                turned += 1
                if not re.fullmatch(r"`([a-z_0-9]+\.)?[\w'′₀-₉]+`", now):
                    print(f"{path}: {' '.join(was.split())} is {' '.join(now.split())}")
            for it in re.findall(WORD, now):
                if re.search(r"\w-\w", it):
                    print(f"{path}: left: {it} in {' '.join(now.split())}")
            return now

        text = snake_names.text_of(path)
        after = re.sub(r"```.*?```|`[^`]+`", span, text, flags=re.S)
        print(f"{path}: {turned} spans turned")
        if after != text:
            with open(path, "w", encoding="utf-8") as file:
                file.write(after)


if __name__ == "__main__":
    main(sys.argv[1:])
