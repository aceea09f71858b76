#!/usr/bin/env python3
"""How much of what control nodes tell each other is asked.

Runs `constrain` of the built program on the networks of scenarios, which are made by the rules of docs/FORMATS.md as
`tests/scenarios.py` makes them, without their events, and prints a table in Markdown: of each scenario how many routes all
control nodes would tell all others, how many of these are sent where only what is asked is, and the seconds that it took.

usage: bench/constrain.py PROGRAM [NUMBER ..]

PROGRAM is the built `overlay`. With no numbers the scenarios 1 to 8 and 16 are run. Needs Python 3.8.
"""
import json
import pathlib
import subprocess
import sys
import time

sys.path.insert(0, str(pathlib.Path(__file__).resolve().parent.parent / "tests"))
from scenarios import document

SECONDS = 900
NUMBERS = [1, 2, 3, 4, 5, 6, 7, 8, 16]


def network(number):
    """The document of `constrain` of a scenario: its network as it begins."""
    made = document(number)
    return {"topology": made["topology"], "configuration": made["configuration"]}


def shares(program, number):
    """How many routes are sent, of how many."""
    run = subprocess.run(
        [program, "constrain"], input=json.dumps(network(number)).encode(), capture_output=True, timeout=SECONDS, check=True
    )
    sent = [line.split() for line in run.stdout.decode().splitlines() if line.startswith("sent ")]
    return sum(int(words[3]) for words in sent), sum(int(words[5]) for words in sent)


def main(program, numbers):
    print("| Scenario | Routes that all would tell all others | Sent where asked | Of 100 | s |")
    print("|---|---|---|---|---|")
    for number in numbers:
        began = time.monotonic()
        try:
            some, whole = shares(program, number)
        except subprocess.TimeoutExpired:
            print(f"| {number} | had not ended after {SECONDS} s | | | |", flush=True)
            continue
        took = time.monotonic() - began
        print(f"| {number} | {whole:,} | {some:,} | {100 * some // max(whole, 1)} | {took:.1f} |", flush=True)


if __name__ == "__main__":
    if len(sys.argv) < 2:
        sys.exit(__doc__)
    main(sys.argv[1], [int(word) for word in sys.argv[2:]] or NUMBERS)
