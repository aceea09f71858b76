#!/usr/bin/env python3
"""Measures the house: crates and the longest chain of them, lines of code, definitions and proofs, and of functions how many
private ones are called once, how many contracts are longer than their bodies, and how many values are read and not used.

usage: tools/measure.py [CRATE ..]     prints the whole, and the crates that are named, or all

Of functions those with a body that are no test; crates whose names end in `_tests` are left out of all but their lines. Private
is what is not `pub`, or no further than its crate; what a trait has is not. A call is the name before a bracket, anywhere in the
function's own crate: so a private function that shares its name with another is counted as called by both, and one that is
handed on by its name, or that a macro calls, as called by none. A contract is its `requires` and `ensures`, a body the lines
between its outer braces. A value is read and not used where `let _name =` stands. Needs Python 3.8.
"""
import os
import re
import sys

sys.dont_write_bytecode = True

TOP = os.path.dirname(os.path.dirname(os.path.abspath(__file__)))
HEAD = re.compile(r"((?:pub(?:\([^)]*\))? )?)(?:const )?(?:unsafe )?fn (\w+)")
WORD = re.compile(r"[A-Za-z_]\w*")
OPENS, CLOSES = "([{", ")]}"


def crates_of(text):
    """By crate the crates of the repository that it stands on."""
    lines = [line.partition("#")[0].partition(":") for line in text.splitlines()]
    found = {name.split()[0]: below.split() for name, colon, below in lines if colon}
    return {name: [it for it in below if it in found] for name, below in found.items()}


def levels_of(crates):
    """By crate the number of crates of the longest chain that ends in it."""
    levels = {}

    def level(name):
        if name not in levels:
            levels[name] = 1 + max((level(it) for it in crates[name]), default=0)
        return levels[name]

    return {name: level(name) for name in crates}


def files_of(crate, folder, end):
    for at, below, names in os.walk(f"{TOP}/crates/{crate}/{folder}"):
        below.sort()
        for name in sorted(names):
            if name.endswith(end):
                with open(f"{at}/{name}", encoding="utf-8") as file:
                    yield file.read()


def bare(text):
    """The code without comments, texts and single characters, with its lines where they were."""
    return re.sub(r"//[^\n]*|\"(?:[^\"\\]|\\.)*\"|'(?:[^'\\]|\\.)'", lambda it: "" if it[0][0] == "/" else "0", text)


def behind(code, at):
    """The place behind the bracket that closes the one at this place."""
    depth = 0
    for place in range(at, len(code)):
        depth += (code[place] in OPENS) - (code[place] in CLOSES)
        if depth == 0:
            return place + 1
    return len(code)


def of_traits(code):
    """Where the traits of a file stand, and what has them."""
    found = []
    for head in re.finditer(r"\b(?:trait\b|impl\b[^{};]*? for )[^{};]*\{", code):
        found.append(range(head.start(), behind(code, head.end() - 1)))
    return found


class Function:
    def __init__(self, code, head, traits):
        self.name, self.is_private = head[2], head[1].strip() != "pub" and not any(head.start() in it for it in traits)
        self.is_test = re.search(r"#\[test\]\s*\Z", code[: head.start()]) is not None
        self.contract, self.body = 0, None
        at = behind(code, code.index("(", head.end()))
        while at < len(code) and code[at] not in "{;":
            word = WORD.match(code, at)
            if word and word[0] in ("requires", "ensures"):
                closed = behind(code, code.index("{", at))
                self.contract += code.count("\n", at, closed) + 1
                at = closed
            else:
                at = word.end() if word else at + 1
        if at < len(code) and code[at] == "{":
            inside = code[at + 1 : behind(code, at) - 1]
            self.body = sum(1 for line in inside.splitlines() if line.strip())


class Crate:
    def __init__(self, name):
        texts = list(files_of(name, "src", ".rt"))
        codes = [bare(text) for text in texts]
        found = [Function(code, head, traits) for code in codes for traits in [of_traits(code)] for head in HEAD.finditer(code)]
        self.is_tests = name.endswith("_tests")
        self.code = sum(text.count("\n") for text in texts)
        self.specs = sum(text.count("\n") for text in files_of(name, "specs", ".antt"))
        self.proofs = sum(text.count("\n") for text in files_of(name, "proofs", ".antt"))
        self.functions = [it for it in found if it.body and not it.is_test]
        whole = "\n".join(codes)
        calls = re.findall(r"(?<!fn )\b(\w+)(?:::<[^()]*>)?\(", whole)
        self.private = [it for it in self.functions if it.is_private and it.name != "main"]
        self.once = [it for it in self.private if calls.count(it.name) == 1]
        self.longer = [it for it in self.functions if it.contract > it.body]
        self.unused = len(re.findall(r"\blet _\w* ?=", whole))


def share(some, of):
    return f"{len(some) / len(of):.2f}" if of else "  - "


def line_of(name, crates):
    def all_of(member):
        return [it for crate in crates if not crate.is_tests for it in getattr(crate, member)]

    code, specs, proofs = (sum(getattr(crate, it) for crate in crates) for it in ("code", "specs", "proofs"))
    functions, private = all_of("functions"), all_of("private")
    return (f"{name:28}{code:8,}{specs:8,}{proofs:9,}{len(functions):7,}{share(all_of('once'), private):>7}"
            f"{share(all_of('longer'), functions):>8}{sum(it.unused for it in crates if not it.is_tests):7}")


def main(names):
    with open(f"{TOP}/crates.txt", encoding="utf-8") as file:
        listed = crates_of(file.read())
    unknown = [it for it in names if it not in listed]
    if unknown:
        print(f"measure.py: crates.txt has no {unknown[0]}", file=sys.stderr)
        return 2
    crates = {name: Crate(name) for name in listed}
    total = sum(it.code + it.specs + it.proofs for it in crates.values())
    print(f"{len(crates)} crates, the longest chain {max(levels_of(listed).values())}, {total:,} lines")
    print(f"{'':28}{'code':>8}{'specs':>8}{'proofs':>9}{'fn':>7}{'once':>7}{'longer':>8}{'unused':>7}")
    print(line_of("all", list(crates.values())))
    for name in names or sorted(crates):
        print(line_of(name, [crates[name]]))
    return 0


if __name__ == "__main__":
    sys.exit(main(sys.argv[1:]))
