#!/usr/bin/env python3
"""Says how long the gate from nothing would take by the clock on other machines, from the table that tests/gate_cost.py
printed of one run: the proofs and tests of crates are laid on processors as `rt` lays them, each behind the libraries that it
stands on, and first those with the longest chain of lines behind them.

An `rt` that keeps nothing (kit 13b) also reads the files below each library once for each way that leads down to them
(tests/ways.py), before its proof and after it, in one thread: 4.5 ms a way.

usage: tests/gate_forecast.py TABLE
Needs Python 3.8.
"""
import os
import sys

sys.dont_write_bytecode = True
import ways  # noqa: E402

TOP = os.path.dirname(os.path.dirname(os.path.abspath(__file__)))
A_WAY = 0.0045  # seconds
SLOW = 1.31  # what slow processors take for a second of those that were measured
MACHINES = [(4, 1.0), (2, 1.0), (4, SLOW), (2, SLOW)]


def seconds_of(path):
    """Of each crate its seconds by kind, as the table has them: proof, tests, base, edits, runs."""
    found = {}
    with open(path, encoding="utf-8") as file:
        for line in file:
            words = line.split()
            if len(words) >= 7 and all(it.isdigit() for it in words[1:7]) and words[0] != "all":
                found[words[0]] = [int(it) for it in words[1:6]]
    return found


def lines_of(crate):
    folder, lines = f"{TOP}/crates/{crate}/src", 0
    for at, _, names in os.walk(folder):
        for name in names:
            with open(f"{at}/{name}", encoding="utf-8") as file:
                lines += sum(1 for _ in file)
    return lines


def tasks_of(crates, seconds):
    """What is to be done: by its name what it waits for, and its seconds."""
    tasks = {}
    for name, below in crates.items():
        proof, tests, base, edits, _ = seconds.get(name, [0] * 5)
        after = [(it, "proof") for it in below]
        tasks[name, "proof"] = after, proof
        tasks[name, "tests"] = after, tests
        tasks[name, "edits"] = [(name, "proof"), (name, "tests")], base + edits
    return tasks


def ranks(crates, tasks):
    """The lines of the longest chain that begins with each task."""
    lines = {name: lines_of(name) for name in crates}
    above = {}
    for key, (after, _) in tasks.items():
        for it in after:
            above.setdefault(it, []).append(key)
    found = {}

    def rank(key):
        if key not in found:
            found[key] = (lines[key[0]] if key[1] != "edits" else 0) + max(map(rank, above.get(key, [])), default=0)
        return found[key]

    return {key: rank(key) for key in tasks}


def clock(crates, tasks, rank, processors, a_second, a_way):
    """The seconds by the clock until all tasks have ended."""
    down = ways.ways_of(crates)
    left, ends, now, thread_free, done = dict(tasks), [], 0.0, 0.0, set()
    while left or ends:
        ready = sorted((key for key, (after, _) in left.items() if done.issuperset(after)), key=lambda it: (it[1] == "edits", -rank[it]))
        for key in ready[: processors - len(ends)]:
            _, seconds = left.pop(key)
            begun = now
            if a_way and key[1] == "proof":
                read = a_way * down[key[0]]
                thread_free = max(thread_free, now) + 2 * read
                begun = thread_free - read
            ends.append((begun + a_second * seconds, key))
        now, key = min(ends)
        ends.remove((now, key))
        done.add(key)
    return now


def main(words):
    if len(words) != 1:
        print(__doc__.split("\n\n")[2], file=sys.stderr)
        return 2
    crates, seconds = ways.crates_of(TOP), seconds_of(words[0])
    tasks = tasks_of(crates, seconds)
    rank, runs = ranks(crates, tasks), sum(it[4] for it in seconds.values())
    print("| Processors | Seconds for one of these | Proofs are kept by content, min | Nothing is kept, min |\n|---|---|---|---|")
    for processors, a_second in MACHINES:
        cells = [(clock(crates, tasks, rank, processors, a_second, it) + a_second * runs) / 60 for it in (0, A_WAY)]
        print(f"| {processors} | {a_second} | " + " | ".join(f"{it:.0f}" for it in cells) + " |")
    return 0


if __name__ == "__main__":
    sys.exit(main(sys.argv[1:]))
