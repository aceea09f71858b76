#!/usr/bin/env python3
"""Compares `inspect unused` with the first rule that matches, found here packet by packet, and says where they differ.

usage: tests/inspect_unused.py PROGRAM [COUNT [SEED]]

PROGRAM is the built `inspect`. COUNT random documents are made (50 where none is given), as those of tests/inspect_ways.py, some with
a policy that stands twice, behind itself. Which rules decide is found here: of each ordered pair of networks that differ, a tuple of
each cell is tried, at each end of each range that a rule names and at both sides of it. A rule is to have a line exactly where none
of these tuples is decided by it, with the rules that stand before it between some two networks; a policy exactly where fewer than two
networks attach it; a chain exactly where no rule leads through it between two networks that attach the rule's policy. The lines are
to stand in the order of the document. Needs Python 3.8. Ends with status 1 where something differs.
"""
import copy
import itertools
import json
import random
import subprocess
import sys

from inspect_ways import around, document, matches, rules_between


def speaks(rule, a, b):
    names = (rule["source"], rule["destination"])
    return any(names[0] in ("any", one) and names[1] in ("any", two) for one, two in ((a, b), (b, a)))


def decider(rules, a, b, protocol, sport, dport):
    for number, rule in rules:
        if matches(rule, a, b, protocol, sport, dport):
            return number
        if rule["direction"] == "<>" and matches(rule, b, a, protocol, dport, sport):
            return number
    return None


def cells(rules):
    ports = [n for _, r in rules for ends in (r["source_ports"], r["destination_ports"]) for n in ends]
    protocols = [r["protocol"] for _, r in rules if r["protocol"] != "any"]
    return around(protocols or [0], 255), around(ports or [0], 65535)


def expected(configuration):
    deciders, before = set(), {}
    for a, b in itertools.permutations(configuration["networks"], 2):
        rules = list(rules_between(configuration, a, b))
        here = [number for number, rule in rules if speaks(rule, a["name"], b["name"])]
        for place, number in enumerate(here):
            before.setdefault(number, set()).update(here[:place])
        protocols, ports = cells(rules)
        for protocol, sport, dport in itertools.product(protocols, ports, ports):
            deciders.add(decider(rules, a["name"], b["name"], protocol, sport, dport))
    numbers = [f"{p['sequence']}/{n}" for p in configuration["policies"] for n in range(1, len(p["rules"]) + 1)]
    for number in numbers:
        if number not in deciders:
            behind = ",".join(n for n in numbers if n in before.get(number, ())) or "-"
            yield f"rule {number} unused behind {behind}\n"
    for policy in configuration["policies"]:
        attached = sum(policy["name"] in network["policies"] for network in configuration["networks"])
        if attached < 2:
            yield f"policy {policy['name']} attached by {attached}\n"
    attaching = {p["name"]: [n["name"] for n in configuration["networks"] if p["name"] in n["policies"]] for p in configuration["policies"]}
    in_use = {
        rule["chain"]
        for policy in configuration["policies"]
        for rule in policy["rules"]
        if rule["action"] == "chain" and {rule["source"], rule["destination"]} <= set(attaching[policy["name"]])
    }
    for chain in configuration["chains"]:
        if chain["name"] not in in_use:
            yield f"chain {chain['name']} unused\n"


def with_echo(doc, chance):
    """The same with a policy whose rules stand once more, behind all others, but for those of chains."""
    configuration = doc["configuration"]
    chosen = chance.choice(configuration["policies"])
    echo = copy.deepcopy(chosen)
    echo.update(name="echo", sequence=900, rules=[r for r in echo["rules"] if r["action"] != "chain"])
    if not echo["rules"]:
        return
    configuration["policies"].insert(chance.randrange(len(configuration["policies"]) + 1), echo)
    for network in configuration["networks"]:
        if chosen["name"] in network["policies"] or not chance.randrange(4):
            network["policies"].append("echo")


def asked(program, text):
    run = subprocess.run([program, "unused", "-"], input=text.encode(), stdout=subprocess.PIPE, stderr=subprocess.PIPE)
    return run.returncode, run.stdout.decode()


def main():
    if not 2 <= len(sys.argv) <= 4:
        sys.exit(__doc__)
    program, count, seed = sys.argv[1], int((sys.argv[2:] or ["50"])[0]), int((sys.argv[3:] or ["1"])[0])
    chance, done, refused, lines, wrong = random.Random(seed), 0, 0, 0, 0
    while done < count:
        doc = document(chance)
        if chance.randrange(2):
            with_echo(doc, chance)
        status, output = asked(program, json.dumps(doc))
        if status == 7:
            refused += 1
            continue
        done += 1
        wanted = list(expected(doc["configuration"]))
        lines += len(wanted)
        if (status, output) != (0, "".join(wanted)):
            wrong += 1
            print(f"status {status}: {output} and not {''.join(wanted)}")
    print(f"{done} documents, {refused} refused, {lines} lines, {wrong} documents with a difference")
    sys.exit(1 if wrong else 0)


main()
