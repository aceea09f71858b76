#!/usr/bin/env python3
"""Compares `inspect hitless` with the definitions of kept packets, read here over all pairs of ports and a tuple of each cell.

usage: tests/inspect_hitless.py PROGRAM OVERLAY [COUNT [SEED]]

PROGRAM and OVERLAY are the built `inspect` and `overlay`. COUNT random documents of edits are made (40 where none is given). Edits
that are refused are to be refused in the words of `overlay run`. Of each edit that is made, each two ports and each tuple at the
ends of the ranges of rules are tried in the configurations before and after: by which way the packet goes, to which port, and with
which track each configuration offers both ways. The lines are to be those of the pairs of ports with a packet that both deliver and
do not keep: with the least such tuple, both ways, and what differs first. Needs Python 3.8. Ends with status 1 where a line differs.
"""
import copy
import itertools
import json
import random
import subprocess
import sys

ENDS = [0, 1, 22, 53, 80, 443, 5432, 32767, 32768, 65534, 65535]
PROTOCOLS = ["any", "any", 0, 1, 6, 6, 17, 254, 255]
KINDS = {
    "network": "networks",
    "port": "ports",
    "policy": "policies",
    "service": "services",
    "chain": "chains",
}
WORDS = ["network", "node", "services", "subnet", "control nodes"]


def span(chance):
    kind = chance.randrange(4)
    if kind == 0:
        return [0, 65535]
    if kind == 1:
        return [chance.choice(ENDS)] * 2
    return sorted(chance.sample(ENDS, 2))


def rule_of(chance, names, use):
    """A random rule; one that leads through a chain has this use."""
    rule = {
        "direction": chance.choice([">", "<>"]),
        "source": chance.choice(names + ["any"]),
        "destination": chance.choice(names + ["any"]),
        "protocol": chance.choice(PROTOCOLS),
        "source_ports": span(chance),
        "destination_ports": span(chance),
        "action": chance.choice(["pass", "pass", "deny"]),
    }
    if chance.randrange(3) == 0:
        rule["source"], rule["destination"] = chance.sample(names, 2)
        rule.update(action="chain", chain=chance.choice(["one", "two", "deep"]), use=use)
    return rule


def node(name, address, controllers):
    return {"name": name, "address": address, "controllers": controllers}


def document(chance):
    """A random topology and configuration; its chains may still break a rule."""
    names = [f"net{n}" for n in range(1, chance.randint(2, 4) + 1)]
    policies, use = [], 0
    for number in range(chance.randint(1, 3)):
        rules = []
        for _ in range(chance.randint(1, 4)):
            rules.append(rule_of(chance, names, use))
            use += 1
        policies.append({"name": f"p{number}", "sequence": 10 * (number + 1), "rules": rules})
    topology = {
        "as": 64512,
        "controllers": [{"name": "c1", "address": "192.0.2.1"}, {"name": "c2", "address": "192.0.2.2"}],
        "nodes": [node("n1", "192.0.2.11", ["c1"]), node("n2", "192.0.2.12", ["c1", "c2"])],
    }
    configuration = {
        "networks": [
            {"name": name, "id": n, "subnets": [f"10.{n}.0.0/24"], "policies": [p["name"] for p in policies if chance.randrange(5)]}
            for n, name in enumerate(names, 1)
        ],
        "ports": [
            {"name": f"v{n}", "id": n, "network": names[n % len(names)], "address": f"10.{1 + n % len(names)}.0.{n}", "node": chance.choice(["n1", "n2"])}
            for n in range(1, chance.randint(3, 6) + 1)
        ],
        "services": [{"name": f"s{n}", "id": n, "node": chance.choice(["n1", "n2"])} for n in (1, 2, 3)],
        "chains": [{"name": "one", "hops": ["s1"]}, {"name": "two", "hops": ["s2", "s3"]}, {"name": "deep", "hops": ["two", "s1"]}],
        "policies": policies,
    }
    return {"topology": topology, "configuration": configuration}


def put(kind, value):
    return {"put": {kind: value}}


def rule_change(chance, names, policy):
    """Changes the rules of a policy."""
    rules = policy["rules"]
    kind = chance.randrange(4)
    if kind == 0:
        rules[chance.randrange(len(rules))] = rule_of(chance, names, chance.randint(100, 999))
    elif kind == 1 and len(rules) > 1:
        rules.pop(chance.randrange(len(rules)))
    elif kind == 2:
        rules.insert(chance.randint(0, len(rules)), rule_of(chance, names, chance.randint(100, 999)))
    else:
        chance.shuffle(rules)
    return put("policy", policy)


def network_change(chance, configuration, network):
    """Changes what a network attaches, or its subnets."""
    policy = chance.choice(configuration["policies"])["name"]
    if chance.randrange(2):
        (network["policies"].remove if policy in network["policies"] else network["policies"].append)(policy)
    elif chance.randrange(2):
        network["subnets"].append(f"10.{chance.randint(20, 250)}.0.0/24")
    else:
        place = network["subnets"][0].split(".")[1]
        network["subnets"][0] = f"10.{place}.0.0/{chance.choice([23, 25, 26])}"
    return put("network", network)


def port_change(chance, configuration, port):
    """Moves a port, or gives it another number or address."""
    kind = chance.randrange(4)
    if kind == 0:
        port["node"] = chance.choice(["n1", "n2"])
    elif kind == 1:
        port["id"] = chance.randint(1, 9)
    elif kind == 2:
        port["address"] = port["address"].rsplit(".", 1)[0] + f".{chance.randint(1, 9)}"
    else:
        home = chance.choice(configuration["networks"])
        port["network"], port["address"] = home["name"], f"10.{home['id']}.0.{chance.randint(1, 9)}"
    return put("port", port)


def edit_of(chance, x):
    """A random edit."""
    configuration = copy.deepcopy(x["configuration"])
    names = [n["name"] for n in configuration["networks"]]
    kind = chance.randrange(12)
    if kind < 4 and configuration["policies"]:
        return rule_change(chance, names, chance.choice(configuration["policies"]))
    if kind < 6 and configuration["policies"]:
        return network_change(chance, configuration, chance.choice(configuration["networks"]))
    if kind == 6 and configuration["ports"]:
        return port_change(chance, configuration, chance.choice(configuration["ports"]))
    if kind == 7:
        return put("service", {"name": f"s{chance.randint(1, 3)}", "id": chance.randint(1, 4), "node": chance.choice(["n1", "n2"])})
    if kind == 8:
        return put("chain", {"name": chance.choice(["one", "two"]), "hops": chance.sample(["s1", "s2", "s3"], chance.randint(1, 2))})
    if kind == 9:
        return put("node", node("n2", chance.choice(["192.0.2.12", "192.0.2.13"]), chance.choice([["c1"], ["c2"], ["c2", "c1"]])))
    if kind == 10:
        at = chance.randint(1, 4)
        return put("port", {"name": f"w{at}", "id": 20 + at, "network": chance.choice(names), "address": f"10.{at}.0.{20 + at}", "node": "n1"})
    word = chance.choice(list(KINDS))
    return {"delete": {word: chance.choice(configuration[KINDS[word]])["name"] if configuration[KINDS[word]] else "none"}}


def made(x, edit):
    """What an edit makes."""
    x = copy.deepcopy(x)
    (verb, what), = edit.items()
    (kind, value), = what.items()
    things = x["topology"]["nodes"] if kind == "node" else x["configuration"][KINDS[kind]]
    name = value["name"] if verb == "put" else value
    places = [i for i, thing in enumerate(things) if thing["name"] == name]
    if verb == "delete":
        things.pop(places[0])
    elif places:
        things[places[0]] = value
    else:
        things.append(value)
    return x


def named(things, name):
    return next((thing for thing in things if thing["name"] == name), None)


def address_number(text):
    a, b, c, d = (int(part) for part in text.split("."))
    return ((a * 256 + b) * 256 + c) * 256 + d


def holds(subnet, address):
    start, length = subnet.split("/")
    size = 2 ** (32 - int(length))
    return address_number(start) <= address < address_number(start) + size


def fits(rule, own, target):
    return rule["source"] in ("any", own["name"]) and rule["destination"] in ("any", target["name"])


def rules_between(configuration, own, target):
    shared = [p for p in configuration["policies"] if p["name"] in own["policies"] and p["name"] in target["policies"]]
    rules = [rule for p in sorted(shared, key=lambda p: p["sequence"]) for rule in p["rules"]]
    return [rule for rule in rules if fits(rule, own, target) or fits(rule, target, own)]


def within(span, port):
    return span[0] <= port <= span[1]


def taken(rule, own, target, t):
    """How a rule is taken: forwards, mirrored, or not."""
    if rule["protocol"] not in ("any", t[0]):
        return None
    if fits(rule, own, target) and within(rule["source_ports"], t[1]) and within(rule["destination_ports"], t[2]):
        return False
    both = rule["direction"] == "<>" and fits(rule, target, own)
    return True if both and within(rule["source_ports"], t[2]) and within(rule["destination_ports"], t[1]) else None


def way_on(configuration, own, target, t):
    """The way of a tuple from one network into another, if it is let through."""
    if own["name"] == target["name"]:
        return "inside"
    for rule in rules_between(configuration, own, target):
        mirrored = taken(rule, own, target, t)
        if mirrored is not None:
            action = rule["action"]
            return None if action == "deny" else "pass" if action == "pass" else (rule["use"], mirrored)
    return None


def ends(x, source, address):
    """The port that packets leave, the network that they go to, and the port there, if they arrive."""
    configuration = x["configuration"]
    port = next((q for q in configuration["ports"] if q["id"] == source), None)
    if not port:
        return None
    own = named(configuration["networks"], port["network"])
    for target in configuration["networks"]:
        near = target["name"] == own["name"] or any(r["action"] != "deny" for r in rules_between(configuration, own, target))
        if near and any(holds(subnet, address) for subnet in target["subnets"]):
            there = [q for q in configuration["ports"] if q["network"] == target["name"] and address_number(q["address"]) == address]
            return (port, own, target, there[0]) if there else None
    return None


def services_of(configuration, chain):
    hops = named(configuration["chains"], chain)["hops"]
    for hop in hops:
        service = named(configuration["services"], hop)
        if service:
            yield service
        else:
            yield from services_of(configuration, hop)


def track(x, found, way):
    """The track with which a way is offered, if it is."""
    configuration, nodes = x["configuration"], x["topology"]["nodes"]
    port, own, target, arrival = found
    stops, subnet = [], None
    inside = own["name"] == target["name"]
    between = rules_between(configuration, own, target)
    if way == "inside":
        if not inside:
            return None
    elif inside:
        return None
    elif way == "pass":
        if all(rule["action"] != "pass" for rule in between):
            return None
    else:
        use, mirrored = way
        led = [r for r in between if r["action"] == "chain" and r["use"] == use]
        led = [r for r in led if (r["direction"] == "<>" and fits(r, target, own) if mirrored else fits(r, own, target))]
        if not led:
            return None
        stops = [(s["id"], named(nodes, s["node"])) for s in services_of(configuration, led[0]["chain"])]
        subnet = next(s for s in target["subnets"] if holds(s, address_number(arrival["address"])))
    return (own["id"], target["id"]), (named(nodes, port["node"]), named(nodes, arrival["node"])), stops, subnet


def place(n):
    return n["name"], n["address"]


def track_difference(one, two):
    """What of two tracks differs first, as the place of its word."""
    if one[0] != two[0]:
        return 0
    if [place(n) for n in one[1]] != [place(n) for n in two[1]]:
        return 1
    if [(s, place(n)) for s, n in one[2]] != [(s, place(n)) for s, n in two[2]]:
        return 2
    if one[3] != two[3]:
        return 3
    return 4 if one != two else 5


def difference(x, y, before, after, was, becomes):
    """What differs first of a packet's ways, or nothing."""
    if before[3]["id"] != after[3]["id"]:
        return f"another port {after[3]['id']}"
    tracks = [(track(x, before, way), track(y, after, way)) for way in (was, becomes)]
    if tracks[1][0] is None:
        return "not offered before"
    if tracks[0][1] is None:
        return "not offered after"
    least = min(track_difference(*pair) for pair in tracks)
    return WORDS[least] if least < len(WORDS) else None


def words(way):
    return way if isinstance(way, str) else f"use {way[0]}"


def tuples(x, y):
    """A tuple of each cell: those at the ends of ranges."""
    protocols, ports = {0}, {0}
    for rule in itertools.chain(*(p["rules"] for z in (x, y) for p in z["configuration"]["policies"])):
        if rule["protocol"] != "any":
            protocols |= {rule["protocol"], rule["protocol"] + 1}
        for low, high in (rule["source_ports"], rule["destination_ports"]):
            ports |= {low, high + 1}
    ports = sorted(p for p in ports if p <= 65535)
    return list(itertools.product(sorted(p for p in protocols if p <= 255), ports, ports))


def packet_lines(number, x, y):
    """The lines of an edit that makes the second of the first."""
    lines = []
    for q in sorted(x["configuration"]["ports"], key=lambda q: q["id"]):
        for d in sorted(x["configuration"]["ports"], key=lambda d: d["id"]):
            address = address_number(d["address"])
            before, after = ends(x, q["id"], address), ends(y, q["id"], address)
            if not before or not after or before[3]["id"] != d["id"]:
                continue
            for t in tuples(x, y):
                was, becomes = way_on(x["configuration"], before[1], before[2], t), way_on(y["configuration"], after[1], after[2], t)
                differs = was and becomes and difference(x, y, before, after, was, becomes)
                if differs:
                    lines.append(f"{number} from {q['id']} to {d['id']} tuple {t[0]} {t[1]} {t[2]} was {words(was)} is {words(becomes)}: {differs}")
                    break
    return [f"{number} interrupts {len(lines)}"] + lines if lines else [f"{number} hitless"]


def run(words, document):
    return subprocess.run(words, input=json.dumps(document), capture_output=True, text=True).stdout.splitlines()


def expected(overlay, x, edits):
    """The lines of these edits; None where the opening configuration is refused."""
    said = run([overlay, "run"], {**x, "events": [{"edit": edit} for edit in edits]})
    if len(said) != len(edits):
        return None
    lines = []
    for number, (edit, line) in enumerate(zip(edits, said), 1):
        if line == f"{number} did":
            y = made(x, edit)
            lines += packet_lines(number, x, y)
            x = y
        else:
            lines.append(line)
    return lines


def without_details(line):
    """A line without what its services were and become."""
    return line.split(": services ")[0] + ": services" if ": services " in line else line


def main():
    program, overlay = sys.argv[1:3]
    count = int(sys.argv[3]) if len(sys.argv) > 3 else 40
    seed = int(sys.argv[4]) if len(sys.argv) > 4 else 1
    chance = random.Random(seed)
    tried, kinds, wrong = 0, {}, 0
    while tried < count:
        x = document(chance)
        edits, now = [], x
        for _ in range(chance.randint(1, 6)):
            edits.append(edit_of(chance, now))
        lines = expected(overlay, x, edits)
        if lines is None:
            continue
        tried += 1
        said = [without_details(line) for line in run([program, "hitless", "-"], {**x, "edits": edits})]
        for line in lines:
            kind = line.split(": ")[1].split(" port")[0] if ": " in line else line.split()[1]
            kinds[kind] = kinds.get(kind, 0) + 1
        if said != lines:
            wrong += 1
            print(json.dumps({**x, "edits": edits}))
            for one, two in itertools.zip_longest(lines, said):
                if one != two:
                    print(f"expected {one}\nsaid     {two}")
    print(f"{tried} documents, lines {kinds}, {wrong} wrong")
    sys.exit(1 if wrong else 0)


if __name__ == "__main__":
    main()
