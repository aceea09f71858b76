#!/usr/bin/env python3
"""Lists what a tree promises and how that is tried: each function's clauses, each test, each line of the inputs of test
programs, and each edit. Two lists are compared with `diff`, or by this script itself, so that nothing is lost where code
moves: names of crates and of modules are left out, since a clause that moves is the same one.

usage: tests/clauses.py TREE            prints the list
       tests/clauses.py BEFORE AFTER    prints what only one of them has: `-` before, `+` after
Needs Python 3.8.
"""
import os
import re
import sys
from collections import Counter

WORD = re.compile(r"[A-Za-z_]\w*")


def texts(top, folders, ends):
    for crate in sorted(os.listdir(f"{top}/crates")):
        for folder in folders:
            for at, below, names in os.walk(f"{top}/crates/{crate}/{folder}"):
                below.sort()
                for name in sorted(names):
                    if name.endswith(ends):
                        with open(f"{at}/{name}", encoding="utf-8") as file:
                            yield crate, f"{at}/{name}", file.read()


def bare(text):
    """The code without comments, where a string is one word."""
    return re.sub(r'//[^\n]*|"(?:[^"\\]|\\.)*"', lambda it: "" if it[0].startswith("//") else it[0].replace("{", "(").replace("}", ")"), text)


def behind(text, at, opens="{", closes="}"):
    """The place behind the bracket that closes the one at this place."""
    depth = 0
    for place in range(at, len(text)):
        depth += (text[place] == opens) - (text[place] == closes)
        if depth == 0:
            return place + 1
    return len(text)


def clauses_of(text, start):
    """The clauses behind a function's name, up to its body."""
    at = behind(text, text.index("(", start), "(", ")")
    while at < len(text) and text[at] not in "{;":
        word = WORD.match(text, at)
        if word and word[0] in ("requires", "ensures"):
            opened = text.index("{", at)
            closed = behind(text, opened)
            yield " ".join(text[at:closed].split())
            at = closed
        else:
            at = word.end() if word else at + 1


def listed(top):
    found = Counter()
    for _, _, text in texts(top, ["src"], ".rt"):
        code = bare(text)
        for it in re.finditer(r"((?:pub(?:\([^)]*\))? )?)(?:const )?(?:unsafe )?fn (\w+)", code):
            is_test = re.search(r"#\[test\]\s*\Z", code[: it.start()])
            if is_test:
                found[f"test {it[2]}"] += 1
            for clause in clauses_of(code, it.end()):
                found[f"{'public' if it[1].strip() == 'pub' else 'private'} {it[2]} {clause}"] += 1
    for _, path, text in texts(top, ["must-fail", "edits"], ".edit"):
        found[f"edit {os.path.basename(path)}"] += 1
    for crate in sorted(os.listdir(f"{top}/crates")):
        path = f"{top}/crates/{crate}/stdin"
        if os.path.isfile(path):
            with open(path, encoding="utf-8", errors="replace") as file:
                for line in file:
                    if " => " in line:
                        found[f"case {line.strip()}"] += 1
    return found


def main(words):
    if len(words) == 1:
        for line, count in sorted(listed(words[0]).items()):
            print(line + (f"  ({count} times)" if count > 1 else ""))
        return 0
    if len(words) != 2:
        print(__doc__.split("\n\n")[1], file=sys.stderr)
        return 2
    before, after = map(listed, words)
    for sign, only in (("-", before - after), ("+", after - before)):
        for line, count in sorted(only.items()):
            print(f"{sign} {line}" + (f"  ({count} times)" if count > 1 else ""))
    print(f"{sum(before.values())} before, {sum(after.values())} after")
    return 0


if __name__ == "__main__":
    sys.exit(main(sys.argv[1:]))
