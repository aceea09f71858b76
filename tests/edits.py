#!/usr/bin/env python3
"""Tries the edits that stand outside the gate, and says which of them the prover refuses.

An edit is a wrong body, or a wrong definition, that the prover of its crate has to refuse. Those in a crate's folder must-fail/
are tried by `rt ci`; those in its folder edits/ by this script: it copies the crates to a temporary folder, lays each crate's
edits/ there in the place of its must-fail/, and runs `rt must-fail` for that crate. What was tried before, and stands on
nothing that changed since, is not tried again, unless --anew is given.

usage: tests/edits.py [--anew] [--gate] [CRATE ..]

With crates only theirs are tried; with --gate those of must-fail/ are tried too. Needs Python 3.8, and `rt`. Ends with status 1
where an edit was missed (the crate is still proved with it), is bad (it cannot be applied or compiled) or could not be tried.
"""
import os
import re
import shutil
import subprocess
import sys
import tempfile

TOP = os.path.dirname(os.path.dirname(os.path.abspath(__file__)))
SAID = {"refused": "refused, as it must be", "missed": "NOT REFUSED", "bad": "BAD EDIT", "not tried": "NOT TRIED"}


def edits_in(folder):
    return sorted(it for it in os.listdir(folder) if it.endswith(".edit")) if os.path.isdir(folder) else []


def copy_of(top, to):
    """Copies the crates, without what `rt` keeps in them."""
    shutil.copytree(f"{top}/crates", f"{to}/crates", ignore=shutil.ignore_patterns("out"))
    for name in ("crates.txt", "HANDLES"):
        if os.path.exists(f"{top}/{name}"):
            shutil.copyfile(f"{top}/{name}", f"{to}/{name}")


def lay(crate, gate):
    """Puts the edits that are to be tried into a crate's must-fail/, and returns how many they are."""
    of_gate, outside = f"{crate}/must-fail", f"{crate}/edits"
    if not gate:
        shutil.rmtree(of_gate, ignore_errors=True)
    for name in edits_in(outside):
        os.makedirs(of_gate, exist_ok=True)
        if os.path.exists(f"{of_gate}/{name}"):
            sys.exit(f"{outside}/{name} has the name of an edit of must-fail/")
        shutil.copyfile(f"{outside}/{name}", f"{of_gate}/{name}")
    return len(edits_in(of_gate))


def tried(room, name, many, words):
    """Tries a crate's edits, and returns how many came to what."""
    ran = subprocess.run(
        ["rt", "must-fail", *words, name], cwd=room, stdin=subprocess.DEVNULL, stdout=subprocess.PIPE, stderr=subprocess.STDOUT, errors="replace"
    )
    told = re.findall(rf"^rt: (?:must-fail )?(\S*{name}/\S*?): (.*)$", ran.stdout, re.M)
    found = {kind: [line for line in told if line[1].startswith(words)] for kind, words in SAID.items()}
    for kind, lines in found.items():
        for edit, said in lines:
            print(f"{kind:9} {edit}{'' if kind == 'refused' else ': ' + said}", flush=True)
    lost = many - sum(len(it) for it in found.values())
    if lost:
        print(f"{name}: rt says nothing of {lost} edits; the end of what it said:", *ran.stdout.rstrip().split("\n")[-5:], sep="\n", flush=True)
    return {**{kind: len(lines) for kind, lines in found.items()}, "not tried": len(found["not tried"]) + lost}


def main(words):
    flags, names = [it for it in words if it.startswith("-")], [it for it in words if not it.startswith("-")]
    every = sorted(os.listdir(f"{TOP}/crates"))
    if not {*flags} <= {"--anew", "--gate"} or not {*names} <= {*every}:
        print(__doc__.split("\n\n")[2], file=sys.stderr)
        return 2
    whole = dict.fromkeys(SAID, 0)
    with tempfile.TemporaryDirectory(prefix="edits-") as room:
        copy_of(TOP, room)
        many = {it: lay(f"{room}/crates/{it}", "--gate" in flags) for it in names or every}
        for name in [it for it in many if many[it]]:
            for kind, count in tried(room, name, many[name], [it for it in flags if it == "--anew"]).items():
                whole[kind] += count
    print(f"{sum(whole.values())} edits: " + ", ".join(f"{count} {kind}" for kind, count in whole.items()))
    return 1 if whole["missed"] or whole["bad"] or whole["not tried"] else 0


if __name__ == "__main__":
    sys.exit(main(sys.argv[1:]))
