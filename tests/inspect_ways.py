#!/usr/bin/env python3
"""Compares `inspect ways` with the first rule that matches, found here packet by packet, and says where they differ.

usage: tests/inspect_ways.py PROGRAM [COUNT [SEED]]

PROGRAM is the built `inspect`. COUNT random documents are made (50 where none is given), of a few networks, policies, services and
chains. Of each ordered pair of networks that differ, each cell is tried: a tuple at each end of each range that a rule names and at
both sides of it. A tuple is to be on one line exactly where the first rule that matches lets it through, and on no more; the line is
to have that rule and those services. With the names of two networks the lines are to be those of these two. Needs Python 3.8. Ends
with status 1 where something differs.
"""
import itertools
import json
import random
import re
import subprocess
import sys

LINE = re.compile(
    r"(\S+) > (\S+) protocol (any|\d+|\d+-\d+) source (\d+)-(\d+) destination (\d+)-(\d+)"
    r" (passed|through) (\d+/\d+) services (-|\d+(?:,\d+)*)"
)
ENDS = [0, 1, 22, 53, 80, 443, 5432, 32767, 32768, 65534, 65535]
PROTOCOLS = ["any", "any", 0, 1, 6, 6, 17, 254, 255]


def span(chance):
    kind = chance.randrange(4)
    if kind == 0:
        return [0, 65535]
    if kind == 1:
        return [chance.choice(ENDS)] * 2
    return sorted(chance.sample(ENDS, 2))


def document(chance):
    """A random document in which every name stands for something; its chains may still break a rule."""
    names = [f"net{n}" for n in range(1, chance.randint(2, 4) + 1)]
    services = [{"name": f"s{n}", "id": n, "node": "n1"} for n in (1, 2, 3)]
    chains = [{"name": "one", "hops": ["s1"]}, {"name": "two", "hops": ["s2", "s3"]}, {"name": "deep", "hops": ["two", "s1"]}]
    policies, use = [], 0
    for number in range(chance.randint(1, 3)):
        rules = []
        for _ in range(chance.randint(1, 6)):
            rule = {
                "direction": chance.choice([">", "<>"]),
                "source": chance.choice(names + ["any"]),
                "destination": chance.choice(names + ["any"]),
                "protocol": chance.choice(PROTOCOLS),
                "source_ports": span(chance),
                "destination_ports": span(chance),
                "action": chance.choice(["pass", "pass", "deny"]),
            }
            if chance.randrange(3) == 0:
                rule["source"], rule["destination"] = chance.sample(names, 2)
                rule.update(action="chain", chain=chance.choice(["one", "two", "deep"]), use=use)
                use += 1
            rules.append(rule)
        policies.append({"name": f"p{number}", "sequence": 10 * (number + 1), "rules": rules})
    chance.shuffle(policies)
    networks = [
        {
            "name": name,
            "id": n,
            "subnets": [f"10.{n}.0.0/24"],
            "policies": [p["name"] for p in policies if chance.randrange(5)],
        }
        for n, name in enumerate(names, 1)
    ]
    topology = {
        "as": 64512,
        "controllers": [{"name": "c1", "address": "192.0.2.1"}],
        "nodes": [{"name": "n1", "address": "192.0.2.11", "controllers": ["c1"]}],
    }
    configuration = {"networks": networks, "ports": [], "services": services, "chains": chains, "policies": policies}
    return {"topology": topology, "configuration": configuration}


SERVICES = {"one": [1], "two": [2, 3], "deep": [2, 3, 1]}


def rules_between(configuration, a, b):
    shared = [p for p in configuration["policies"] if p["name"] in a["policies"] and p["name"] in b["policies"]]
    for policy in sorted(shared, key=lambda p: p["sequence"]):
        for position, rule in enumerate(policy["rules"], 1):
            yield f"{policy['sequence']}/{position}", rule


def matches(rule, source, destination, protocol, sport, dport):
    return (
        rule["source"] in ("any", source)
        and rule["destination"] in ("any", destination)
        and rule["protocol"] in ("any", protocol)
        and rule["source_ports"][0] <= sport <= rule["source_ports"][1]
        and rule["destination_ports"][0] <= dport <= rule["destination_ports"][1]
    )


def decided(rules, a, b, protocol, sport, dport):
    """What lets a packet through: the word, the rule and the services; nothing where none does."""
    for number, rule in rules:
        if matches(rule, a, b, protocol, sport, dport):
            mirrored = False
        elif rule["direction"] == "<>" and matches(rule, b, a, protocol, dport, sport):
            mirrored = True
        else:
            continue
        if rule["action"] == "deny":
            return None
        if rule["action"] == "pass":
            return ("passed", number, "-")
        services = SERVICES[rule["chain"]]
        return ("through", number, ",".join(map(str, reversed(services) if mirrored else services)))
    return None


def around(numbers, last):
    return sorted({n + d for n in numbers for d in (-1, 0, 1) if 0 <= n + d <= last})


def lines_of(output):
    for line in output.splitlines():
        found = LINE.fullmatch(line)
        if not found:
            sys.exit(f"no line of ways: {line}")
        a, b, protocol, *ports, word, rule, services = found.groups()
        if protocol == "any":
            low, high = 0, 255
        else:
            low, _, high = protocol.partition("-")
            low, high = int(low), int(high or low)
        yield (a, b), (low, high, *map(int, ports)), (word, rule, services)


def asked(program, text, *words):
    run = subprocess.run([program, "ways", "-", *words], input=text.encode(), stdout=subprocess.PIPE, stderr=subprocess.PIPE)
    return run.returncode, run.stdout.decode()


def differences(program, doc, chance):
    status, output = asked(program, json.dumps(doc))
    if status:
        return status, ["" if status == 7 else f"status {status}: {output}"], 0
    configuration = doc["configuration"]
    lines, wrong, tried = {}, [], 0
    for pair, box, way in lines_of(output):
        lines.setdefault(pair, []).append((box, way))
    order = [(a["name"], b["name"]) for a in configuration["networks"] for b in configuration["networks"] if a is not b]
    if [pair for pair in order if pair in lines] != list(lines):
        wrong.append(f"order of pairs: {list(lines)}")
    for a, b in itertools.permutations(configuration["networks"], 2):
        rules = list(rules_between(configuration, a, b))
        protocols = around([0, 255] + [r["protocol"] for _, r in rules if r["protocol"] != "any"], 255)
        ports = around([0, 65535] + [n for _, r in rules for n in r["source_ports"] + r["destination_ports"]], 65535)
        for protocol, sport, dport in itertools.product(protocols, ports, ports):
            here = [
                way
                for (l, h, sl, sh, dl, dh), way in lines.get((a["name"], b["name"]), [])
                if l <= protocol <= h and sl <= sport <= sh and dl <= dport <= dh
            ]
            way = decided(rules, a["name"], b["name"], protocol, sport, dport)
            tried += 1
            if here != ([way] if way else []):
                wrong.append(f"{a['name']} > {b['name']} {protocol} {sport} {dport}: {here}, and not {way}")
    a, b = chance.choice(order)
    status, some = asked(program, json.dumps(doc), a, b)
    if status or some != "".join(line + "\n" for line in output.splitlines() if line.startswith(f"{a} > {b} ")):
        wrong.append(f"ways of {a} {b} alone: status {status}")
    return 0, wrong, tried


def main():
    if not 2 <= len(sys.argv) <= 4:
        sys.exit(__doc__)
    program, count, seed = sys.argv[1], int((sys.argv[2:] or ["50"])[0]), int((sys.argv[3:] or ["1"])[0])
    chance, answered, refused, tried, wrong = random.Random(seed), 0, 0, 0, 0
    while answered < count:
        status, found, packets = differences(program, document(chance), chance)
        refused += status == 7
        answered += status != 7
        tried += packets
        for line in filter(None, found[:5]):
            print(line)
        wrong += any(found)
    print(f"{answered} documents, {refused} more refused, {tried} packets, {wrong} documents with a difference")
    sys.exit(1 if wrong else 0)


if __name__ == "__main__":
    main()
