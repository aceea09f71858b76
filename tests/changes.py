#!/usr/bin/env python3
"""Compares the tables of a network after each of many changes with tables that are made from scratch.

Makes a schedule of random edits: ports come, move and go, networks attach policies and detach them, services move, chains get
other hops. Each is followed by `settle`, and by `show` of one node, each node in its turn. Every show is to print exactly the
lines that `compile` prints of that node for the configuration of that moment (tests/shown.py does the comparing).

usage: tests/changes.py PROGRAM [CHANGES [SEED]]

PROGRAM is the built `overlay`; 1,000 changes and seed 1 where none is given. Needs Python 3.8. Ends with status 1 where a
show printed something else.
"""
import random
import sys

from shown import shows

CONTROLS, NODES, NETWORKS, PORTS, SERVICES = 3, 5, 6, 24, 4


def network(place, policies):
    return {
        "name": f"w{place}",
        "id": place + 1,
        "subnets": [f"10.{place}.0.0/16"],
        "policies": sorted(policies),
    }


def port(place, node):
    home = place % NETWORKS
    return {
        "name": f"p{place}",
        "id": place + 1,
        "network": f"w{home}",
        "address": f"10.{home}.1.{place}",
        "node": f"n{node}",
    }


def service(place, node):
    return {"name": f"s{place}", "id": place + 1, "node": f"n{node}"}


def rule(action, source, destination, more):
    ends = {"direction": "<>", "source": source, "destination": destination, "protocol": "any"}
    return {**ends, "source_ports": [0, 65535], "destination_ports": [0, 65535], "action": action, **more}


# Two chains between networks, and one policy that passes all.
POLICIES = [
    {"name": "q0", "sequence": 0, "rules": [rule("chain", "w0", "w1", {"chain": "k0", "use": 0})]},
    {"name": "q1", "sequence": 1, "rules": [rule("chain", "w2", "w3", {"chain": "k1", "use": 1})]},
    {"name": "q2", "sequence": 2, "rules": [rule("pass", "any", "any", {})]},
]


def chain(place, hops):
    return {"name": f"k{place}", "hops": [f"s{hop}" for hop in hops]}


def topology():
    controls = [{"name": f"c{i}", "address": f"192.0.2.{i + 1}"} for i in range(CONTROLS)]
    nodes = [
        {
            "name": f"n{i}",
            "address": f"192.0.2.{i + 11}",
            "controllers": sorted({f"c{i % CONTROLS}", f"c{(i + 1) % CONTROLS}"} if i % 2 else {f"c{i % CONTROLS}"}),
        }
        for i in range(NODES)
    ]
    return {"as": 64512, "controllers": controls, "nodes": nodes}


def configuration():
    return {
        "networks": [network(i, ["q2"] if i % 2 else ["q0", "q1"]) for i in range(NETWORKS)],
        "ports": [port(i, i % NODES) for i in range(PORTS // 2)],
        "policies": POLICIES,
        "services": [service(i, i % NODES) for i in range(SERVICES)],
        "chains": [chain(0, [0, 1]), chain(1, [2])],
    }


def change(chance, ports):
    """One edit, and the ports that there are then."""
    kind = chance.randrange(10)
    if kind < 4:
        place = chance.randrange(PORTS)
        return {"put": {"port": port(place, chance.randrange(NODES))}}, ports | {place}
    if kind < 6 and ports:
        place = chance.choice(sorted(ports))
        return {"delete": {"port": f"p{place}"}}, ports - {place}
    if kind < 8:
        attached = [name for name in ("q0", "q1", "q2") if chance.random() < 0.5]
        return {"put": {"network": network(chance.randrange(NETWORKS), attached)}}, ports
    if kind < 9:
        return {"put": {"service": service(chance.randrange(SERVICES), chance.randrange(NODES))}}, ports
    hops = chance.sample(range(SERVICES), chance.randrange(1, SERVICES))
    return {"put": {"chain": chain(chance.randrange(2), hops)}}, ports


def document(changes, seed):
    chance, ports, events = random.Random(seed), set(range(PORTS // 2)), ["settle"]
    names = [f"c{i}" for i in range(CONTROLS)] + [f"n{i}" for i in range(NODES)]
    for number in range(changes):
        edit, ports = change(chance, ports)
        events += [{"edit": edit}, "settle", {"show": names[number % len(names)]}]
    return {"topology": topology(), "configuration": configuration(), "events": events}


def main(program, changes=1000, seed=1):
    compared, wrong = shows(program, document(int(changes), int(seed)))
    for answer in wrong:
        print(answer)
    print(f"{compared} shows after {changes} changes, {len(wrong)} that are not compiled")
    return 1 if wrong or compared != int(changes) else 0


if __name__ == "__main__":
    if not 2 <= len(sys.argv) <= 4:
        sys.exit(__doc__)
    sys.exit(main(*sys.argv[1:]))
