#!/usr/bin/env python3
"""Counts the ways that lead down from each library through crates.txt, itself among them. `rt` of kit 13b reads what lies
below a library once for each way, before and after its proof, in one thread: 3 to 6 ms each time. So what a crate lists
beside another that stands on it costs more than it says.

usage: tests/ways.py [CRATE ..]     prints the sum, and the ways from the crates that are named or else from the ten with the most
Ends with 1 where there are more than 100,000 in all. Needs Python 3.8.
"""
import os
import sys

TOP = os.path.dirname(os.path.dirname(os.path.abspath(__file__)))
MOST = 100_000


def crates_of(top):
    """The crates of a repository, each with those that it lists, in the order of the file."""
    found = {}
    with open(f"{top}/crates.txt", encoding="utf-8") as file:
        for line in file:
            name, colon, below = line.partition("#")[0].partition(":")
            if colon:
                found[name.split()[0]] = below.split()
    return {name: [it for it in below if it in found] for name, below in found.items()}


def ways_of(crates):
    """The ways down from each crate."""
    found = {}

    def count(name):
        if name not in found:
            found[name] = 1 + sum(count(it) for it in crates[name])
        return found[name]

    return {name: count(name) for name in crates}


def libraries_of(top, crates):
    return [name for name in crates if not os.path.isfile(f"{top}/crates/{name}/src/main.rt")]


def whole(top, crates):
    """The ways down from all libraries together."""
    ways = ways_of(crates)
    return sum(ways[name] for name in libraries_of(top, crates))


def main(names):
    crates = crates_of(TOP)
    ways, libraries, total = ways_of(crates), libraries_of(TOP, crates), whole(TOP, crates)
    print(f"{len(crates)} crates, {sum(map(len, crates.values()))} edges, {total:,} ways down from {len(libraries)} libraries")
    for name in names or sorted(libraries, key=lambda it: -ways[it])[:10]:
        print(f"{ways.get(name, 0):8,} {name}")
    if total > MOST:
        print(f"more than {MOST:,}: a crate that lists another one above can take names through it (docs/ARCHITECTURE.md)")
    return int(total > MOST)


if __name__ == "__main__":
    sys.exit(main(sys.argv[1:]))
