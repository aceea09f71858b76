#!/usr/bin/env python3
"""Compares `inspect diff` with the first rule that matches, found here packet by packet, and with `overlay reach`.

usage: tests/inspect_diff.py PROGRAM OVERLAY [COUNT [SEED]]

PROGRAM and OVERLAY are the built `inspect` and `overlay`. COUNT pairs of random documents are made (50 where none is given): a
document, and the same after some changes of rules, attachments, chains, ports, subnets and networks. The lines of objects are to be
what one document has and the other has not. Between each two networks that stand in both, each cell is tried: a tuple at each end
of each range that a rule of either names, and at both sides of it. A tuple is to be on one line, which has both fates, exactly
where it is let through in one document and not in the other, or by other services; and on no line otherwise. Of each two ports that
stay as they are, in networks that differ, some tuples are asked of `reach` in both documents: the outcomes are to differ in being
delivered, or by which services, exactly where a line holds the tuple. Needs Python 3.8. Ends with status 1 where something differs.
"""
import copy
import itertools
import json
import os
import random
import re
import subprocess
import sys
import tempfile

LINE = re.compile(
    r"(\S+) > (\S+) protocol (any|\d+|\d+-\d+) source (\d+)-(\d+) destination (\d+)-(\d+): (.+) => (.+)"
)
ENDS = [0, 1, 22, 53, 80, 443, 5432, 32767, 32768, 65534, 65535]
PROTOCOLS = ["any", "any", 0, 1, 6, 6, 17, 254, 255]
ASKED = 12  # packets between two ports, at most


def span(chance):
    kind = chance.randrange(4)
    if kind == 0:
        return [0, 65535]
    if kind == 1:
        return [chance.choice(ENDS)] * 2
    return sorted(chance.sample(ENDS, 2))


def rule_of(chance, names, use):
    """A random rule; one that leads through a chain has this use."""
    rule = {
        "direction": chance.choice([">", "<>"]),
        "source": chance.choice(names + ["any"]),
        "destination": chance.choice(names + ["any"]),
        "protocol": chance.choice(PROTOCOLS),
        "source_ports": span(chance),
        "destination_ports": span(chance),
        "action": chance.choice(["pass", "pass", "deny"]),
    }
    if chance.randrange(3) == 0:
        rule["source"], rule["destination"] = chance.sample(names, 2)
        rule.update(action="chain", chain=chance.choice(["one", "two", "deep"]), use=use)
    return rule


def document(chance):
    """A random document in which every name stands for something; its chains may still break a rule."""
    names = [f"net{n}" for n in range(1, chance.randint(2, 4) + 1)]
    services = [{"name": f"s{n}", "id": n, "node": "n1"} for n in (1, 2, 3)]
    chains = [{"name": "one", "hops": ["s1"]}, {"name": "two", "hops": ["s2", "s3"]}, {"name": "deep", "hops": ["two", "s1"]}]
    policies, use = [], 0
    for number in range(chance.randint(1, 3)):
        rules = []
        for _ in range(chance.randint(1, 6)):
            rules.append(rule_of(chance, names, use))
            use += 1
        policies.append({"name": f"p{number}", "sequence": 10 * (number + 1), "rules": rules})
    chance.shuffle(policies)
    networks = [
        {"name": name, "id": n, "subnets": [f"10.{n}.0.0/24"], "policies": [p["name"] for p in policies if chance.randrange(5)]}
        for n, name in enumerate(names, 1)
    ]
    ports = [
        {"name": f"v{n}", "id": n, "network": names[n % len(names)], "address": f"10.{1 + n % len(names)}.0.{n}", "node": "n1"}
        for n in range(1, chance.randint(2, 6) + 1)
    ]
    topology = {
        "as": 64512,
        "controllers": [{"name": "c1", "address": "192.0.2.1"}],
        "nodes": [
            {"name": "n1", "address": "192.0.2.11", "controllers": ["c1"]},
            {"name": "n2", "address": "192.0.2.12", "controllers": ["c1"]},
        ],
    }
    configuration = {"networks": networks, "ports": ports, "services": services, "chains": chains, "policies": policies}
    return {"topology": topology, "configuration": configuration}


def change(chance, configuration):
    """Changes one thing of a configuration."""
    names = [n["name"] for n in configuration["networks"]]
    rules = chance.choice(configuration["policies"])["rules"]
    network = chance.choice(configuration["networks"])
    port = chance.choice(configuration["ports"])
    kind = chance.randrange(14)
    if kind < 3:
        rules[chance.randrange(len(rules))] = rule_of(chance, names, chance.randint(100, 999))
    elif kind == 3 and len(rules) > 1:
        rules.pop(chance.randrange(len(rules)))
    elif kind == 4:
        rules.insert(chance.randint(0, len(rules)), rule_of(chance, names, chance.randint(100, 999)))
    elif kind == 5:
        chance.shuffle(rules)
    elif kind == 6:
        policy = chance.choice(configuration["policies"])["name"]
        (network["policies"].remove if policy in network["policies"] else network["policies"].append)(policy)
    elif kind == 7:
        chance.choice(configuration["chains"][:2])["hops"] = chance.sample(["s1", "s2", "s3"], chance.randint(1, 2))
    elif kind == 8 and len(configuration["ports"]) > 1:
        configuration["ports"].remove(port)
    elif kind == 9:
        port["node"] = "n2"
    elif kind == 10:
        port["address"] = port["address"].rsplit(".", 1)[0] + f".{chance.randint(100, 200)}"
    elif kind == 11:
        network["subnets"].append(f"10.{chance.randint(20, 250)}.0.0/24")
    elif kind == 12:
        configuration["networks"].append({"name": "new", "id": 99, "subnets": ["10.99.0.0/24"], "policies": []})
    elif kind == 13:
        chance.choice(configuration["services"])["node"] = "n2"


def objects(configuration):
    """The objects of a configuration, as they are printed."""
    for network in configuration["networks"]:
        yield f"network {network['name']}"
    for network in configuration["networks"]:
        for subnet in network["subnets"]:
            yield f"subnet {network['name']} {subnet}"
    for port in configuration["ports"]:
        yield f"port {port['id']} network {port['network']} address {port['address']} node {port['node']}"
    for service in configuration["services"]:
        yield f"service {service['id']} node {service['node']}"


def numbers_of(configuration, chain):
    """The numbers of a chain's services."""
    services = {s["name"]: s["id"] for s in configuration["services"]}
    hops = next(c["hops"] for c in configuration["chains"] if c["name"] == chain)
    return [n for hop in hops for n in ([services[hop]] if hop in services else numbers_of(configuration, hop))]


def rules_between(configuration, a, b):
    shared = [p for p in configuration["policies"] if p["name"] in a["policies"] and p["name"] in b["policies"]]
    for policy in sorted(shared, key=lambda p: p["sequence"]):
        for position, rule in enumerate(policy["rules"], 1):
            yield f"{policy['sequence']}/{position}", rule


def matches(rule, source, destination, protocol, sport, dport):
    return (
        rule["source"] in ("any", source)
        and rule["destination"] in ("any", destination)
        and rule["protocol"] in ("any", protocol)
        and rule["source_ports"][0] <= sport <= rule["source_ports"][1]
        and rule["destination_ports"][0] <= dport <= rule["destination_ports"][1]
    )


def fate(configuration, rules, a, b, protocol, sport, dport):
    """What becomes of a packet, as it is printed, and the services that it is let through by, or None."""
    for number, rule in rules:
        if matches(rule, a, b, protocol, sport, dport):
            mirrored = False
        elif rule["direction"] == "<>" and matches(rule, b, a, protocol, dport, sport):
            mirrored = True
        else:
            continue
        if rule["action"] == "deny":
            return f"denied {number}", None
        if rule["action"] == "pass":
            return f"passed {number}", []
        services = numbers_of(configuration, rule["chain"])
        services = services[::-1] if mirrored else services
        return f"through {number} services {','.join(map(str, services)) or '-'}", services
    return "denied -", None


def around(numbers, last):
    return sorted({n + d for n in numbers for d in (-1, 0, 1) if 0 <= n + d <= last})


def cells(rules):
    """A tuple of each cell that the ranges of rules make."""
    protocols = around([0, 255] + [r["protocol"] for _, r in rules if r["protocol"] != "any"], 255)
    ports = around([0, 65535] + [n for _, r in rules for n in r["source_ports"] + r["destination_ports"]], 65535)
    return itertools.product(protocols, ports, ports)


def boxes_of(lines):
    boxes = {}
    for line in lines:
        found = LINE.fullmatch(line)
        if not found:
            sys.exit(f"no line of a difference: {line}")
        a, b, protocol, *ends = found.groups()[:7]
        low, _, high = ("0-255" if protocol == "any" else protocol).partition("-")
        boxes.setdefault((a, b), []).append((int(low), int(high or low), *map(int, ends), found[8], found[9]))
    return boxes


def holding(boxes, pair, protocol, sport, dport):
    return [
        (was, becomes)
        for l, h, sl, sh, dl, dh, was, becomes in boxes.get(pair, [])
        if l <= protocol <= h and sl <= sport <= sh and dl <= dport <= dh
    ]


def diff(program, before, after):
    """The status and the lines of `inspect diff` on two documents."""
    with tempfile.TemporaryDirectory() as folder:
        paths = [os.path.join(folder, name) for name in ("before.json", "after.json")]
        for path, made in zip(paths, (before, after)):
            with open(path, "w", encoding="utf-8") as it:
                json.dump(made, it)
        run = subprocess.run([program, "diff", *paths], capture_output=True, check=False)
    return run.returncode, run.stdout.decode().splitlines()


def reached(program, document_, packets):
    """What `reach` says of packets: the port and the services, or None where one is dropped."""
    run = subprocess.run([program, "reach"], input=json.dumps({**document_, "packets": packets}).encode(), capture_output=True, check=False)
    lines = [line.split() for line in run.stdout.decode().splitlines()]
    return [(words[3], words[5]) if words[1] == "delivered" else None for words in lines]


def of_regions(old, new, boxes):
    """What is wrong of the differences, cell by cell."""
    after = {n["name"]: n for n in new["networks"]}
    tried, wrong = 0, []
    for a, b in itertools.permutations(old["networks"], 2):
        if a["name"] not in after or b["name"] not in after:
            continue
        pair = (a["name"], b["name"])
        rules, later = list(rules_between(old, a, b)), list(rules_between(new, after[pair[0]], after[pair[1]]))
        for packet in cells(rules + later):
            was, by = fate(old, rules, *pair, *packet)
            becomes, through = fate(new, later, *pair, *packet)
            tried += 1
            here = holding(boxes, pair, *packet)
            if here != ([(was, becomes)] if by != through else []):
                wrong.append(f"{pair} {packet}: {here}, and {was} => {becomes}")
    return tried, wrong


def of_reach(program, chance, before, after, boxes):
    """What is wrong of the differences beside `reach`, between ports that stay as they are."""
    old, new = before["configuration"], after["configuration"]
    stay = [p for p in old["ports"] if p in new["ports"]]
    asked = []
    for a, b in itertools.permutations(stay, 2):
        if a["network"] == b["network"]:
            continue
        networks = [next(n for n in old["networks"] if n["name"] == p["network"]) for p in (a, b)]
        tuples = list(cells(list(rules_between(old, *networks))))
        for protocol, sport, dport in chance.sample(tuples, min(ASKED, len(tuples))):
            packet = {"port": a["id"], "to": b["address"], "protocol": protocol, "sport": sport, "dport": dport}
            asked.append(((a["network"], b["network"]), packet))
    if not asked:
        return 0, []
    packets = [packet for _, packet in asked]
    wrong = []
    for (pair, p), was, becomes in zip(asked, reached(program, before, packets), reached(program, after, packets)):
        here = holding(boxes, pair, p["protocol"], p["sport"], p["dport"])
        if (was != becomes) != bool(here):
            wrong.append(f"reach {pair} {p}: {was}, {becomes}, and lines {here}")
    return len(asked), wrong


def differences(programs, before, after, chance):
    status, lines = diff(programs[0], before, after)
    if status > 1:
        return status, [], 0
    old, new = before["configuration"], after["configuration"]
    had, has = list(objects(old)), list(objects(new))
    expected = [f"went {o}" for o in had if o not in has] + [f"came {o}" for o in has if o not in had]
    wrong = [] if lines[: len(expected)] == expected else [f"objects {expected}: {lines}"]
    boxes = boxes_of(lines[len(expected) :])
    if status != (1 if lines else 0):
        wrong.append(f"status {status} for {len(lines)} lines")
    tried, of_cells = of_regions(old, new, boxes)
    asked, of_packets = of_reach(programs[1], chance, before, after, boxes)
    return status, wrong + of_cells + of_packets, tried + asked


def main():
    if not 3 <= len(sys.argv) <= 5:
        sys.exit(__doc__)
    programs, count, seed = sys.argv[1:3], int((sys.argv[3:] or ["50"])[0]), int((sys.argv[4:] or ["1"])[0])
    chance, ends, tried, wrong = random.Random(seed), {0: 0, 1: 0}, 0, 0
    while ends[0] + ends[1] < count:
        before = document(chance)
        after = copy.deepcopy(before)
        for _ in range(chance.randint(0, 3)):
            change(chance, after["configuration"])
        status, found, packets = differences(programs, before, after, chance)
        ends[status] = ends.get(status, 0) + 1
        tried += packets
        for line in found[:5]:
            print(line)
        wrong += bool(found)
    print(f"{ends[0]} pairs alike, {ends[1]} that differ, {ends.get(7, 0)} more refused, {tried} packets, {wrong} pairs with a difference")
    sys.exit(1 if wrong else 0)


if __name__ == "__main__":
    main()
