#!/usr/bin/env python3
"""Runs the built program on each schedule of tests/schedules.jsonl, and says where what it writes is another.

Each line there is an object with a name, a document of `run`, and what `run` is to write of it: small schedules of every
kind of event, spelled in many ways; schedules with chains, edits, losses and restarts, which trace each pair of ports
before and after the network settles; and two large ones, which show every node. What is to be written was not computed by
this program.

usage: tests/schedules.py PROGRAM [NAME ..]

PROGRAM is the built `overlay`. With names only these schedules are run. Needs Python 3.8. Ends with status 1 where an
output was another.
"""
import json
import os
import subprocess
import sys

SCHEDULES = os.path.join(os.path.dirname(os.path.abspath(__file__)), "schedules.jsonl")
SECONDS = 120


def difference(program, schedule):
    """What is wrong with the run of a schedule, or None."""
    try:
        run = subprocess.run(
            [program, "run"], input=schedule["document"].encode(), capture_output=True, timeout=SECONDS, check=False
        )
    except subprocess.TimeoutExpired:
        return f"took more than {SECONDS} seconds"
    if run.returncode != 0:
        return f"ended with status {run.returncode}"
    written = run.stdout.decode().splitlines()
    wanted = schedule["answers"].splitlines()
    for number, (line, other) in enumerate(zip(written, wanted), 1):
        if line != other:
            return f"line {number} is {line!r} and not {other!r}"
    if len(written) != len(wanted):
        return f"has {len(written)} lines and not {len(wanted)}"
    return None


def main(program, names):
    with open(SCHEDULES, encoding="utf-8") as lines:
        schedules = [json.loads(line) for line in lines]
    if names:
        schedules = [schedule for schedule in schedules if schedule["name"] in names]
    wrong = 0
    for schedule in schedules:
        found = difference(program, schedule)
        if found:
            wrong += 1
            print(f"{schedule['name']}: {found}")
    print(f"{len(schedules)} schedules, {wrong} wrong")
    return 1 if wrong or not schedules else 0


if __name__ == "__main__":
    if len(sys.argv) < 2:
        sys.exit(__doc__)
    sys.exit(main(sys.argv[1], sys.argv[2:]))
