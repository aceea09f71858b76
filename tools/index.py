#!/usr/bin/env python3
"""Prints docs/INDEX.md from the sources: each crate with what it stands on, its public calls with the names of their clauses,
its laws with their sentences, and its definitions by file.

usage: tools/index.py            prints the index
       tools/index.py --check    says where docs/INDEX.md is not as printed, and ends with status 1 then

A crate's line is the first sentence of its `//!`. A public call is a `pub fn` of src/ that lib.rt hands out, with what it
belongs to where it is a method; a law is one whose body is empty, with its `///`. A file of definitions is told by its
first comment. A file of laws or definitions without such a line is an error, and so is a crate. Needs Python 3.8.
"""
import os
import re
import sys

TOP = os.path.dirname(os.path.dirname(os.path.abspath(__file__)))
PAGE = os.path.join(TOP, "docs", "INDEX.md")
WORD = re.compile(r"[A-Za-z_]\w*")
HEAD = """# Index

Printed from the sources by `tools/index.py`; `tools/index.py --check` says where it is not. For each crate of `crates.txt`, lowest
first: what it is, the crates of this repository that it stands on, its laws, its public calls and its definitions.

A *clause* is a named sentence of a call's contract: `select` (`none`, `first`) has two. A call with one unnamed clause has none
behind it. A *law* is the contract of a public function that does nothing; its sentence stands beside it, and its clauses are in the
file that is named. docs/PROMISES.md says what it all comes to for a user.
"""


def stop(why):
    print(f"index.py: {why}", file=sys.stderr)
    sys.exit(1)


def text_of(path):
    with open(path, encoding="utf-8") as file:
        return file.read()


def crates():
    """Each crate with the crates of the repository that it stands on, lowest first, else in the order of crates.txt."""
    lines = [line.split("#")[0].partition(":") for line in text_of(f"{TOP}/crates.txt").splitlines() if ":" in line.split("#")[0]]
    names = [name.split()[0] for name, _, _ in lines]
    below = {name.split()[0]: [it for it in deps.split() if it in names] for name, _, deps in lines}
    found = []

    def visit(name):
        for it in below[name]:
            visit(it)
        if name not in found:
            found.append(name)

    for name in names:
        visit(name)
    return [(name, below[name]) for name in found]


def files(folder, end):
    """The files of a folder, in order of their names."""
    return sorted(it for it in (os.listdir(folder) if os.path.isdir(folder) else []) if it.endswith(end))


def comment(text, mark):
    """The lines at the head of a text that begin with a mark, as one line."""
    lines = []
    for line in text.splitlines():
        if not line.startswith(mark):
            break
        lines.append(line[len(mark) :].strip())
    return " ".join(" ".join(lines).split("  ")[0].split())


def sentence(text):
    """The first sentence of a text."""
    found = re.match(r"(.*?[.:])(?= [A-Z`]|\Z)", text, re.S)
    return found[1] if found else text


def behind(text, at, opens, closes):
    """The place behind the bracket that closes the one at this place."""
    depth = 0
    for place in range(at, len(text)):
        depth += (text[place] == opens) - (text[place] == closes)
        if depth == 0:
            return place + 1
    return len(text)


def blanked(text):
    """The code with comments and strings of the same length, in which no bracket stands."""
    return re.sub(r'//[^\n]*|"(?:[^"\\]|\\.)*"|\'(?:[^\'\\\n]|\\.)\'', lambda it: re.sub(r"[{}()<>;]", " ", it[0]), text)


def clauses(code, start):
    """The names of the clauses behind a function's name, and the place of its body."""
    names, at = [], behind(code, code.index("(", start), "(", ")")
    while at < len(code) and code[at] not in "{;":
        word = WORD.match(code, at)
        if word and word[0] in ("requires", "ensures"):
            opened = code.index("{", at)
            named = code[word.end() : opened].strip().lstrip("*").strip()
            names += [named] if word[0] == "ensures" and named else []
            at = behind(code, opened, "{", "}")
        else:
            at = word.end() if word else at + 1
    return names, at


def owner(code, at):
    """What a function at this place is a method of, or nothing."""
    for found in reversed(list(re.finditer(r"^(impl|pub trait|trait)\b([^{;]*)\{", code[:at], re.M))):
        if behind(code, found.end() - 1, "{", "}") > at:
            named = re.sub(r"<[^<>]*>", "", re.sub(r"<[^<>]*>", "", found[2]))
            return named.split(" for ")[-1].split(":")[0].strip()
        return ""
    return ""


def doc_before(text, at):
    """The `///` lines right before a place, past attributes."""
    lines = text[:at].rstrip("\n").split("\n")
    if lines and not text[:at].endswith("\n"):
        lines.pop()
    while lines and lines[-1].lstrip().startswith("#["):
        lines.pop()
    found = []
    while lines and lines[-1].lstrip().startswith("///"):
        found.append(lines.pop().lstrip()[3:].strip())
    return " ".join(reversed(found))


def functions(path):
    """Each public function of a file: its name, its owner, the names of its clauses, whether it does nothing, and its comment."""
    text = text_of(path)
    code = blanked(text)
    for it in re.finditer(r"^( *)pub (?:const )?(?:unsafe )?fn (\w+)", code, re.M):
        names, body = clauses(code, it.end())
        empty = code[body : body + 1] == "{" and not code[body + 1 : behind(code, body, "{", "}") - 1].strip()
        yield it[2], owner(code, it.start()) if it[1] else "", names, empty, doc_before(text, it.start())


def handed_out(lib):
    """What the root of a crate hands out: the items that it names, and the modules that are public."""
    named = set()
    for it in re.finditer(r"^pub use ([^;]*);", lib, re.M):
        named.update(re.findall(r"\w+", it[1].split("{")[-1]) if "{" in it[1] else [it[1].split("::")[-1]])
    return named, set(re.findall(r"^pub mod (\w+);", lib, re.M))


def with_clauses(name, names):
    return f"`{name}`" + (f" ({', '.join(f'`{it}`' for it in names)})" if names else "")


def page_of(name, below):
    folder = f"{TOP}/crates/{name}"
    root = "main.rt" if os.path.isfile(f"{folder}/src/main.rt") else "lib.rt"
    lib = text_of(f"{folder}/src/{root}")
    head = comment(lib, "//!") or stop(f"{name}: {root} has no line that says what it is")
    lines = [f"## {name}", "", sentence(head)]
    if below:
        lines[-1] += f" On {', '.join(f'`{it}`' for it in below)}."
    named, modules = handed_out(lib)
    laws, calls = [], {}
    for file in files(f"{folder}/src", ".rt"):
        module = file[: -len(".rt")]
        for function, of, names, empty, doc in functions(f"{folder}/src/{file}"):
            if module not in (*modules, "lib") and function not in named and of not in named:
                continue
            if empty and not of:
                laws.append(f"- `{function}` (`{file}`): {doc or stop(f'{name}: the law {function} has no sentence')}")
            else:
                calls.setdefault(of, []).append(with_clauses(function, names))
    if laws:
        lines += ["", "Laws:", "", *laws]
    if calls:
        lines += ["", "Calls:", ""]
        lines += [f"- {f'`{of}`: ' if of else ''}{', '.join(calls[of])}" for of in sorted(calls)]
    told = []
    for file in files(f"{folder}/specs", ".antt"):
        first = comment(text_of(f"{folder}/specs/{file}"), "--")
        if file != "Lib.antt" and not first.startswith("What is passed on of"):
            told.append(f"- `{file}`: {sentence(first) or stop(f'{name}: specs/{file} has no line that says what it is')}")
    if told:
        lines += ["", "Definitions:", "", *told]
    return "\n".join(lines) + "\n"


def main(words):
    page = HEAD + "\n" + "\n".join(page_of(name, below) for name, below in crates())
    if not words:
        print(page, end="")
        return 0
    if words != ["--check"]:
        print(__doc__.split("\n\n")[1], file=sys.stderr)
        return 2
    stands = text_of(PAGE) if os.path.isfile(PAGE) else ""
    if stands == page:
        return 0
    at = next((i for i, (one, other) in enumerate(zip(stands.splitlines(), page.splitlines())) if one != other), None)
    print(f"docs/INDEX.md is not as printed{'' if at is None else f', from line {at + 1} on'}: tools/index.py > docs/INDEX.md")
    return 1


if __name__ == "__main__":
    if sys.argv[1:] in (["-h"], ["--help"]):
        sys.exit(__doc__)
    sys.exit(main(sys.argv[1:]))
