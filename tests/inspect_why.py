#!/usr/bin/env python3
"""Compares `inspect why` with `overlay reach`, and with the networks, the rules, the conditions and the walks that are found here.

usage: tests/inspect_why.py PROGRAM OVERLAY [COUNT [SEED]]

PROGRAM is the built `inspect`, OVERLAY the built `overlay`. COUNT random documents are made (50 where none is given), as those of
tests/inspect_expect.py without what is expected. The lines of outcomes are to be those that `overlay reach` prints. What is to stand
below each is found here: the two networks, each rule that is asked before the one that decides with the first condition that fails
forwards and mirrored, and that one; or the policies of the packet's network and each network that holds the address. Its walk is
found in the lines that `overlay compile` prints of agents: by their labels, their access lists and the longest prefix of their
tables. With `--json` there is to be a line for each packet, with its number and the same walk (tests/inspect_json.py holds the rest of
these lines against the text). Then each document is spoilt, and has to be refused as `overlay reach` refuses it. Needs Python 3.8. Ends
with status 1 where something differs.
"""
import collections
import copy
import ipaddress
import json
import random
import sys

from inspect_expect import peopled, run

SPOILT = [
    lambda doc, packet: packet.pop("to"),
    lambda doc, packet: packet.update(dport=65536),
    lambda doc, packet: packet.update(protocol="tcp"),
    lambda doc, packet: packet.update(expect="dropped"),
    lambda doc, packet: doc.update(more=[]),
    lambda doc, packet: doc.pop("configuration"),
    lambda doc, packet: doc["configuration"]["networks"][0].update(policies=["nowhere"]),
    lambda doc, packet: doc["configuration"]["ports"].append(dict(doc["configuration"]["ports"][0])),
]


def fits(rule, a, b):
    return rule["source"] in ("any", a["name"]) and rule["destination"] in ("any", b["name"])


def between(configuration, a, b):
    """The rules between two networks, each with its policy's name and its position."""
    for policy in sorted(configuration["policies"], key=lambda it: it["sequence"]):
        if all(policy["name"] in network["policies"] for network in (a, b)):
            for position, rule in enumerate(policy["rules"], 1):
                if fits(rule, a, b) or fits(rule, b, a):
                    yield policy["name"], position, rule


def within(ends, port):
    return ends[0] <= port <= ends[1]


def failing(rule, packet, sport, dport, a, b):
    """The first condition that fails, or none."""
    conditions = [
        ("protocol", rule["protocol"] in ("any", packet["protocol"])),
        ("source-ports", within(rule["source_ports"], sport)),
        ("destination-ports", within(rule["destination_ports"], dport)),
        ("direction", fits(rule, a, b)),
    ]
    return next((name for name, holds in conditions if not holds), None)


def asked(configuration, packet, a, b):
    for policy, position, rule in between(configuration, a, b):
        forwards = failing(rule, packet, packet["sport"], packet["dport"], a, b)
        mirrored = "-"
        if rule["direction"] == "<>":
            mirrored = failing(rule, packet, packet["dport"], packet["sport"], b, a)
        if forwards is None or mirrored is None:
            yield f"decided policy {policy} position {position} {'forwards' if forwards is None else 'mirrored'}"
            return
        yield f"skipped policy {policy} position {position} forwards {forwards} mirrored {mirrored}"


def holds(network, address):
    return any(ipaddress.ip_address(address) in ipaddress.ip_network(subnet) for subnet in network["subnets"])


def related(configuration, a, b):
    return any(rule["action"] != "deny" for _, _, rule in between(configuration, a, b))


def attached(network):
    return [f"attached network {network['name']} policy {policy}" for policy in network["policies"]]


def causes(configuration, packet):
    ports = [port for port in configuration["ports"] if port["id"] == packet["port"]]
    if not ports:
        return
    own = [network for network in configuration["networks"] if network["name"] == ports[0]["network"]][0]
    yield f"from network {own['name']}"
    holders = [network for network in configuration["networks"] if holds(network, packet["to"])]
    near = [network for network in holders if network is own or related(configuration, own, network)]
    if not near:
        yield from attached(own)
        for network in holders:
            yield f"unrelated network {network['name']}"
            yield from attached(network)
        return
    yield f"to network {near[0]['name']}"
    if near[0] is not own:
        yield from asked(configuration, packet, own, near[0])


class Agent:
    """An agent by the lines of `compile`: what is under its labels, its access lists, and its tables."""

    def __init__(self, node):
        self.name, self.address = node["name"], node["address"]
        self.labels, self.lists, self.tables = {}, {}, collections.defaultdict(list)

    def take(self, words):
        if words[0] == "label":
            self.labels[int(words[1])] = (words[2], int(words[3]), int(words[5]))
        elif words[0] == "table":
            self.tables[int(words[1])].append((ipaddress.ip_network(words[2]), words[2:]))
        elif words[3] == "subnets":
            subnets = [] if words[4] == "-" else words[4].split(",")
            self.lists[int(words[1]), int(words[2])] = ([ipaddress.ip_network(it) for it in subnets], [])
        else:
            self.lists[int(words[1]), int(words[2])][1].append(words[5:])

    def verdict(self, network, packet):
        """The instance that a packet from a network goes on in, or none."""
        address = ipaddress.ip_address(packet["to"])
        towards = [to for (own, to), (subnets, _) in self.lists.items() if own == network and any(address in it for it in subnets)]
        if not towards:
            return None
        if min(towards) == network:
            return network
        for protocol, sports, dports, *done in self.lists[network, min(towards)][1]:
            ends = [[int(end) for end in ports.split("-")] for ports in (sports, dports)]
            if protocol in ("any", str(packet["protocol"])) and within(ends[0], packet["sport"]) and within(ends[1], packet["dport"]):
                return {"pass": network, "deny": None, "enter": int(done[-1]) if done[1:] else None}[done[0]]
        return None

    def row(self, table, address):
        """The words of the row with the longest prefix that contains an address, or none."""
        rows = [it for it in self.tables[table] if ipaddress.ip_address(address) in it[0]]
        return max(rows, key=lambda it: it[0].prefixlen)[1] if rows else None


def compiled(overlay, doc):
    output = run(overlay, ["compile"], {"topology": doc["topology"], "configuration": doc["configuration"]})[1]
    agents = [Agent(node) for node in doc["topology"]["nodes"]]
    for line in output.splitlines():
        words = line.split()
        for agent in agents:
            if words[:2] == ["agent", agent.name]:
                agent.take(words[2:])
    return agents


def owner(configuration, table):
    """What a table is of, as text and as a value."""
    if table < 16384:
        name = named(configuration["networks"], table)
        return "network " + name, {"kind": "network", "name": name}
    use, hop = divmod(table - 16384, 16)
    return f"use {use} hop {hop}", {"hop": hop, "kind": "use", "use": use}


def named(things, number):
    return next(it["name"] for it in things if it["id"] == number)


def walk(configuration, agents, packet):
    """The steps of a packet, each as text and as a value."""
    at = next((it for it in agents if it.labels.get(16 + packet["port"], ("", 0, 0))[0] == "port"), None)
    table = at and at.verdict(at.labels[16 + packet["port"]][2], packet)
    while table:
        row, to, further = at.row(table, packet["to"]), None, None
        of, value = owner(configuration, table)
        line = f"agent {at.name} table {table} {' '.join(row or '-')} of {of}"
        step = {"agent": at.name, "of": value, "row": None, "table": table}
        if row:
            step["row"] = {"label": int(row[2]), "next_hop": row[1], "prefix": row[0]}
            at = next(it for it in agents if it.address == row[1])
            kind, number, third = at.labels[int(row[2])]
            if kind == "port":
                to = {"id": number, "kind": "port", "name": named(configuration["ports"], number)}
            else:
                to = {"id": third, "kind": "service", "name": named(configuration["services"], third)}
                further = (number - 1 if number % 2 == 0 else number + 1) // 2
        yield f"{line} to " + (f"{to['kind']} {to['name']}" if to else "-"), {**step, "to": to}
        table = further


def told(doc, agents, outcomes):
    for number, (packet, outcome) in enumerate(zip(doc["packets"], outcomes), 1):
        yield outcome
        for cause in causes(doc["configuration"], packet):
            yield f"{number} {cause}\n"
        for step, _ in walk(doc["configuration"], agents, packet):
            yield f"{number} {step}\n"


def walks_in(lines):
    """The number and the walk of each line of JSON."""
    values = [json.loads(line) for line in lines.splitlines()]
    return [(value["packet"], value["walk"]) for value in values]


def walked(doc, agents):
    for number, packet in enumerate(doc["packets"], 1):
        yield number, [value for _, value in walk(doc["configuration"], agents, packet)]


def spread(chance, doc):
    """The document with its ports and services at several compute nodes."""
    names = [f"n{number}" for number in range(1, chance.randint(1, 4) + 1)]
    doc["topology"]["nodes"] = [
        {"name": name, "address": f"192.0.2.{10 + number}", "controllers": ["c1"]} for number, name in enumerate(names, 1)
    ]
    for thing in doc["configuration"]["ports"] + doc["configuration"]["services"]:
        thing["node"] = chance.choice(names)
    return doc


def differences(program, overlay, doc, chance, words):
    status, output = run(overlay, ["reach"], doc)
    outcomes = output.splitlines(keepends=True)
    agents = [] if status else compiled(overlay, doc)
    expected = output if status else "".join(told(doc, agents, outcomes))
    found, wrong = run(program, ["why", "-"], doc), []
    if found != (status, expected):
        wrong.append(f"status {found[0]}: {found[1]} and not {status}: {expected}")
    json_status, lines = run(program, ["why", "--json", "-"], doc)
    if json_status != status or (lines != output if status else walks_in(lines) != list(walked(doc, agents))):
        wrong.append(f"with --json status {json_status}: {lines} and not {status}: {output if status else list(walked(doc, agents))}")
    words.update(line.split()[1] for line in expected.splitlines())
    if doc["packets"] and doc["configuration"]["ports"]:
        spoilt = copy.deepcopy(doc)
        chance.choice(SPOILT)(spoilt, chance.choice(spoilt["packets"]))
        if run(program, ["why", "-"], spoilt) != run(overlay, ["reach"], spoilt):
            wrong.append(f"a spoilt document: {run(program, ['why', '-'], spoilt)} and not {run(overlay, ['reach'], spoilt)}")
    return status, wrong


def main():
    if not 3 <= len(sys.argv) <= 5:
        sys.exit(__doc__)
    program, overlay, count, seed = sys.argv[1], sys.argv[2], int((sys.argv[3:] or ["50"])[0]), int((sys.argv[4:] or ["1"])[0])
    chance, words, done, refused, wrong = random.Random(seed), collections.Counter(), 0, 0, 0
    while done < count:
        doc = spread(chance, peopled(chance))
        status, found = differences(program, overlay, doc, chance, words)
        done, refused = done + (status == 0), refused + (status != 0)
        for line in found[:5]:
            print(line)
        wrong += bool(found)
    lines = ", ".join(f"{many} {word}" for word, many in sorted(words.items()))
    print(f"{done} documents, {refused} refused, {wrong} documents with a difference; lines: {lines}")
    sys.exit(1 if wrong else 0)


if __name__ == "__main__":
    main()
