#!/usr/bin/env python3
"""Runs the scripts outside the gate on the built programs, one after the other: all.py OVERLAY INSPECT [NAME ..]

They are those of docs/TESTS.md that prove nothing; with names only those whose name contains one of them. Behind each stands how
it ended and how many seconds it took. One for which something is not there is left out, and said to be. Needs Python 3.8 and what
each needs. Ends with status 1 where one ended with another status than 0, and with 2 where a program is not there.
"""
import importlib.util
import os
import shutil
import subprocess
import sys
import time

HERE = os.path.dirname(os.path.abspath(__file__))
CASES = ("run", "scale", "constrain", "graceful", "flows", "decode")
# What each wants beside Python: commands, and modules of Python.
COMMANDS = {"cookbook.py": ["bash", "cut", "diff", "grep", "jq", "sed", "uniq", "yq"], "allocations.py": ["cc"]}
MODULES = {"schema.py": ["jsonschema"]}


def calls(program, inspect):
    """Each script with its words."""
    lines = [f"{HERE}/{name}.jsonl" for name in CASES]
    yield "schedules.py", [program]
    yield "shown.py", [program]
    yield "ties.py", [f"{HERE}/schedules.jsonl"]
    yield "changes.py", [program]
    yield from (("cases.py", [program, line]) for line in lines)
    yield "schema.py", [program, inspect]
    yield "cookbook.py", [program, inspect]
    for name in ("pictures", "scenarios", "statuses", "rehearsals", "installs", "captures", "forms", "exports",
                 "allocations"):
        yield f"{name}.py", [program]
    yield from ((f"inspect_{it}.py", [inspect]) for it in ("ways", "unused", "json"))
    yield from ((f"inspect_{it}.py", [inspect, program]) for it in ("diff", "expect", "hitless", "why"))
    yield "windows.py", [inspect, program]
    yield "shorts.py", []
    yield "ways.py", []
    yield "pages.py", []
    yield "../tools/index.py", ["--check"]


def lacks(name):
    """What a script wants and is not there."""
    return [it for it in COMMANDS.get(name, []) if not shutil.which(it)] + \
        [it for it in MODULES.get(name, []) if not importlib.util.find_spec(it)]


def main(program, inspect, names):
    for it in (program, inspect):
        if not os.path.isfile(it):
            print(f"all.py: {it} is no file", file=sys.stderr)
            return 2
    failed = 0
    for name, words in calls(os.path.abspath(program), os.path.abspath(inspect)):
        told = " ".join([name, *(os.path.relpath(it, HERE) for it in words if it.endswith(".jsonl"))])
        if names and not any(it in told for it in names):
            continue
        if lacks(name):
            print(f"{told}: left out, without {', '.join(lacks(name))}", flush=True)
            continue
        began = time.monotonic()
        status = subprocess.run([sys.executable, f"{HERE}/{name}", *words], check=False).returncode
        failed += status != 0
        print(f"{told}: {'passed' if status == 0 else 'FAILED with status %d' % status}, {time.monotonic() - began:.0f} s", flush=True)
    return 1 if failed else 0


if __name__ == "__main__":
    if len(sys.argv) < 3 or sys.argv[1] in ("-h", "--help"):
        sys.exit(__doc__)
    sys.exit(main(sys.argv[1], sys.argv[2], sys.argv[3:]))
