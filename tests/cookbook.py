#!/usr/bin/env python3
"""Runs the commands of README.md, docs/COOKBOOK.md and the manual pages, and prints how many print what the page says:
cookbook.py OVERLAY INSPECT

A line of a page that is indented and begins with `$ ` is a command, and the indented lines under it, up to the next one, are its
output, with the empty lines between them; in a manual page these lines are literal displays. The commands are run in order by
bash, in a temporary folder with links to `examples`, `tests` and `tools`, where the built programs are first on the path, and
OVERLAY stands in the place of `out/overlay-unproved` and of `crates/overlay/out/overlay`. A `make &&` in front of a command is left
out: it would build. What is written to standard output and to standard error is compared. No command is to leave a file at the
top. Needs Python 3.10, bash, and the commands that the pages use: cut, diff, grep, jq, sed, uniq, yq. Ends with status 1 where an
output differs, where a file is left, or where the manual page of overlay is not the one that the gate reads.
"""
import os
import pathlib
import re
import shlex
import subprocess
import sys
import tempfile

TOP = pathlib.Path(__file__).resolve().parent.parent
PAGES = ("README.md", "docs/COOKBOOK.md", "docs/inspect.1", "docs/overlay.1")
READ = "crates/document_tests/stdin"
WRITTEN = re.compile("crates/overlay/out/overlay|out/overlay-unproved")
BUILDS = "make && "
LINKS = ("examples", "tests", "tools")
MADE = ("bin", "out")  # folders that are there before, beside the links
INDENT = "    "
PROMPT = "$ "
SECONDS = 600


def printed(text):
    """The literal displays of a manual page, line by line as a page has them that is not formatted."""
    inside = False
    for line in text.splitlines():
        if line.startswith((".Bd", ".Ed")):
            inside = line == ".Bd -literal -offset indent"
            yield ""
        else:
            yield INDENT + line.replace("\\-", "-") if inside else ""


def lines_of(page):
    text = (TOP / page).read_text(encoding="utf-8")
    return list(printed(text)) if page.endswith(".1") else text.splitlines()


def commands_of(page):
    """The place of each command of a page, the command, and the lines of its output."""
    commands, inside, blank = [], False, []
    for number, line in enumerate(lines_of(page), 1):
        text = line[len(INDENT):]
        if not line:
            blank.append("")
        elif not line.startswith(INDENT):
            inside = False
        elif text.startswith(PROMPT):
            commands.append((f"{page}:{number}", text[len(PROMPT):], []))
            inside = True
        elif inside:
            commands[-1][2].extend([*blank, text])
        if line:
            blank = []
    return commands


def runnable(program, command):
    """A command as it is run here."""
    command = WRITTEN.sub(lambda _: shlex.quote(program), command)
    return command[len(BUILDS):] if command.startswith(BUILDS) else command


def differs(program, folder, command, wanted):
    """Returns what differs in the output of a command, or an empty text."""
    words = ["bash", "-c", runnable(program, command)]
    nothing, ends = subprocess.DEVNULL, {"stdout": subprocess.PIPE, "stderr": subprocess.STDOUT}
    path = os.pathsep.join([os.path.join(folder, "bin"), os.environ["PATH"]])
    try:
        ran = subprocess.run(words, cwd=folder, env={**os.environ, "PATH": path}, stdin=nothing, timeout=SECONDS, **ends)
    except subprocess.TimeoutExpired:
        return f"no answer in {SECONDS} seconds"
    got = ran.stdout.decode(errors="replace").splitlines()
    if got != wanted:
        place = next((i for i, (a, b) in enumerate(zip(got, wanted)) if a != b), min(len(got), len(wanted)))
        return f"output {place + 1}: {got[place:place + 1]} in place of {wanted[place:place + 1]}"
    left = sorted(set(os.listdir(folder)) - {*LINKS, *MADE})
    return f"it leaves {left} at the top" if left else ""


def prepare(program, inspect, folder):
    for name in LINKS:
        os.symlink(TOP / name, os.path.join(folder, name))
    for name in MADE:
        os.mkdir(os.path.join(folder, name))
    os.symlink(program, os.path.join(folder, "bin", "overlay"))
    os.symlink(inspect, os.path.join(folder, "bin", "inspect"))


def main(program, inspect):
    commands = [command for page in PAGES for command in commands_of(page)]
    agree = 0
    with tempfile.TemporaryDirectory() as folder:
        prepare(program, inspect, folder)
        for place, command, wanted in commands:
            said = differs(program, folder, command, wanted)
            agree += not said
            if said:
                print(f"{place}: {command}: {said}")
    page = (TOP / PAGES[-1]).read_text(encoding="utf-8").replace("\n", "\\n")
    if f"\nmanual {page} => " not in (TOP / READ).read_text(encoding="utf-8"):
        print(f"{PAGES[-1]} is not what the gate reads, {READ}")
        return 1
    print(f"{agree} of {len(commands)} commands agree")
    return 0 if commands and agree == len(commands) else 1


if __name__ == "__main__":
    if len(sys.argv) != 3:
        sys.exit(__doc__)
    sys.exit(main(*map(os.path.abspath, sys.argv[1:])))
