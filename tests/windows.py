#!/usr/bin/env python3
"""Traces all packets of random changes while they go on, and says where one is dropped, or goes otherwise, that the change keeps.

Each document is settled, gets one random edit, and then its messages are delivered one by one in a random order. `inspect hitless`
says of the edit which ordered pairs of ports have a packet that is not kept. Every packet of another pair that the policies deliver
before and after, to one port, is to be delivered there after each event: as the policies before have it, or as those after do.
The edit may give the source port of a packet another address.

usage: tests/windows.py INSPECT OVERLAY [COUNT [SEED [DEPTH]]]

INSPECT and OVERLAY are the built programs, COUNT is how many changes are tried (50 where none is given). With DEPTH the first messages
behind each edit, as many as that, are delivered in every order that there is, and those behind them in a random one. Needs
Python 3.8. Ends with status 1 where something is otherwise.
"""
import copy
import json
import random
import re
import subprocess
import sys

sys.dont_write_bytecode = True
from inspect_expect import peopled  # noqa: E402

ROUNDS = 8  # of one delivery on each session, in a random order
PORTS = [22, 80, 443, 50000]


def spread(doc, chance):
    """The document with two control nodes and three compute nodes, and its ports and services on these."""
    controllers = [{"name": f"c{n}", "address": f"192.0.2.{n}"} for n in (1, 2)]
    names = [it["name"] for it in controllers]
    nodes = [
        {"name": f"n{n}", "address": f"192.0.2.{10 + n}", "controllers": chance.sample(names, chance.randint(1, 2))} for n in (1, 2, 3)
    ]
    doc["topology"] = {"as": 64512, "controllers": controllers, "nodes": nodes}
    for it in [*doc["configuration"]["ports"], *doc["configuration"]["services"]]:
        it["node"] = chance.choice(nodes)["name"]
    return doc


def edits_of(doc, chance):
    """A random edit of an object that is there."""
    configuration = doc["configuration"]
    kind = chance.choice(["networks", "ports", "policies", "policies", "services", "chains"])
    if not configuration[kind]:
        return None
    it, word = copy.deepcopy(chance.choice(configuration[kind])), {"policies": "policy"}.get(kind, kind[:-1])
    if chance.randrange(6) == 0:
        return {"delete": {word: it["name"]}}
    if kind == "networks":
        policies = [p["name"] for p in configuration["policies"]]
        it["policies"] = chance.sample(policies, chance.randint(0, len(policies)))
    elif kind == "policies":
        chance.shuffle(it["rules"])
        del it["rules"][chance.randint(1, len(it["rules"])) :]
    elif kind == "chains":
        it["hops"] = chance.sample(["s1", "s2", "s3"], chance.randint(1, 2))
    elif kind == "ports" and chance.randrange(2):
        it["address"] = it["address"].rsplit(".", 1)[0] + f".{chance.randint(1, 9)}"
    else:
        it["node"] = chance.choice(["n1", "n2", "n3"])
    return {"put": {word: it}}


def packets_of(doc, chance):
    ports = doc["configuration"]["ports"]
    return [
        {"port": a["id"], "to": b["address"], "protocol": chance.choice([6, 17]), "sport": chance.choice(PORTS), "dport": chance.choice(PORTS)}
        for a in ports
        for b in ports
        for _ in range(2)
    ]


def sessions_of(doc):
    topology = doc["topology"]
    names = [it["name"] for it in topology["controllers"]]
    pairs = [("config", it) for it in names] + [(a, b) for a in names for b in names if a < b]
    pairs += [(it, node["name"]) for node in topology["nodes"] for it in node["controllers"]]
    return [pair for a, b in pairs for pair in ((a, b), (b, a))]


def answered(program, words, doc):
    run = subprocess.run([program, *words], input=json.dumps(doc).encode(), capture_output=True, check=False)
    return run.returncode, run.stdout.decode().splitlines()


def outcomes(overlay, doc, packets):
    status, lines = answered(overlay, ["reach"], {"topology": doc["topology"], "configuration": doc["configuration"], "packets": packets})
    return [it.split(" ", 1)[1] for it in lines] if status == 0 else None


def after(doc, edit):
    """The document with the edit made."""
    made = copy.deepcopy(doc)
    (verb, named), = edit.items()
    (word, what), = named.items()
    objects = made["configuration"][{"policy": "policies"}.get(word, word + "s")]
    name = what["name"] if verb == "put" else what
    place = next(at for at, it in enumerate(objects) if it["name"] == name)
    objects[place : place + 1] = [what] if verb == "put" else []
    return made


def takes(overlay, doc, edit, order):
    """Whether the last of these deliveries behind the edit takes a message."""
    events = ["settle", {"edit": edit}, *({"deliver": [a, b, 1]} for a, b in order)]
    _, lines = answered(overlay, ["run"], {"topology": doc["topology"], "configuration": doc["configuration"], "events": events})
    return lines[-1].endswith(" did")


def orders_of(overlay, doc, edit, depth, order=()):
    """Every order in which the first messages behind the edit are delivered, as many as the depth, or all where there are fewer."""
    if depth == 0:
        return [order]
    longer = [(*order, pair) for pair in sessions_of(doc)]
    found = [one for it in longer if takes(overlay, doc, edit, it) for one in orders_of(overlay, doc, edit, depth - 1, it)]
    return found or [order]


def deliveries_of(doc, order, chance):
    """The deliveries of an order, and behind them those of some rounds, in a random order."""
    events = [{"deliver": [a, b, 1]} for a, b in order]
    for _ in range(ROUNDS):
        sessions = sessions_of(doc)
        chance.shuffle(sessions)
        events += [{"deliver": [a, b, chance.choice([1, 1, 3])]} for a, b in sessions]
    return events


def watched(overlay, doc, edit, deliveries, kept):
    """What is otherwise while these deliveries follow the edit: after each every kept packet is traced."""
    traces = [{"trace": packet} for packet, _ in kept]
    events = ["settle", {"edit": edit}, *(event for it in deliveries for event in (it, *traces))]
    status, lines = answered(overlay, ["run"], {"topology": doc["topology"], "configuration": doc["configuration"], "events": events})
    if status:
        return [f"run ended with status {status}: {lines}"]
    said = {int(it.split(" ", 1)[0]): it.split(" ", 1)[1] for it in lines}
    places = range(3, 3 + len(deliveries) * (1 + len(kept)), 1 + len(kept))
    return [
        f"{json.dumps(packet)} is {said[place + offset]} and not of {sorted(fine)} at event {place + offset} of "
        f"{json.dumps({**doc, 'events': events})}"
        for place in places
        for offset, (packet, fine) in enumerate(kept, 1)
        if said[place + offset] not in fine
    ]


def tried(inspect, overlay, chance, depth):
    """What is otherwise in one change, how many traces there were, and whether the change was hitless."""
    doc = spread(peopled(chance), chance)
    packets, edit = packets_of(doc, chance), edits_of(doc, chance)
    before = edit and outcomes(overlay, doc, packets)
    if not before:
        return [], 0, None
    status, lines = answered(inspect, ["hitless", "-"], {"topology": doc["topology"], "configuration": doc["configuration"], "edits": [edit]})
    if lines[:1] and lines[0].startswith("1 refused"):
        return [], 0, None
    later = outcomes(overlay, after(doc, edit), packets)
    if status not in (0, 1) or later is None:
        return [f"inspect ended with status {status}: {lines}"], 0, None
    numbers = {it["address"]: it["id"] for it in doc["configuration"]["ports"]}
    hit = {tuple(map(int, found)) for line in lines for found in re.findall(r"^1 from (\d+) to (\d+) ", line)}
    kept = [
        (packet, {one, two})
        for packet, one, two in zip(packets, before, later)
        if one.startswith("delivered") and two.split(" services")[0] == one.split(" services")[0]
        and (packet["port"], numbers[packet["to"]]) not in hit
    ]
    wrong, traces = [], 0
    for order in orders_of(overlay, doc, edit, depth):
        deliveries = deliveries_of(doc, order, chance)
        wrong += watched(overlay, doc, edit, deliveries, kept)
        traces += len(kept) * len(deliveries)
    return wrong[:3], traces, not hit


def main(inspect, overlay, count=50, seed=1, depth=0):
    chance, faults, traces, kinds = random.Random(seed), 0, 0, {True: 0, False: 0, None: 0}
    for _ in range(count):
        wrong, many, kind = tried(inspect, overlay, chance, depth)
        print(*wrong, sep="\n", end="\n" if wrong else "")
        faults, traces, kinds[kind] = faults + len(wrong), traces + many, kinds[kind] + 1
    print(f"{count} changes, {kinds[True]} hitless, {kinds[False]} not, {kinds[None]} refused: {traces:,} traces of kept packets, {faults} faults")
    return 1 if faults else 0


if __name__ == "__main__":
    if len(sys.argv) < 3:
        sys.exit(__doc__)
    sys.exit(main(*sys.argv[1:3], *map(int, sys.argv[3:])))
