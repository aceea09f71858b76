#!/usr/bin/env python3
"""Runs `gen` of the built program, and the same scenarios as documents of `run` that are made here by the rules of
docs/FORMATS.md, and says where the two differ.

usage: tests/scenarios.py PROGRAM [NUMBER ..]

PROGRAM is the built `overlay`. With no numbers the scenarios 1 to 4 and 17 are run. Needs Python 3.8. Prints the summary of
each scenario with the seconds that `gen` took, and ends with status 1 where a summary is another.
"""
import json
import subprocess
import sys
import time

ANY = [0, 65535]


def rule(source, destination, port, action, **more):
    return {
        "direction": "<>", "source": source, "destination": destination, "protocol": 6, "source_ports": ANY,
        "destination_ports": [port, port], "action": action, **more,
    }


def tenant_policies(t):
    return [
        {"name": f"pf{t}", "sequence": 3 * t + 1, "rules": [
            rule("any", "any", 23, "deny"), rule(f"w{t}", f"a{t}", 80, "chain", chain=f"k{t}", use=t)]},
        {"name": f"pb{t}", "sequence": 3 * t + 2, "rules": [rule(f"a{t}", f"d{t}", 5432, "pass")]},
        {"name": f"pm{t}", "sequence": 3 * t + 3, "rules": [rule(f"m{t}", "any", 22, "pass")]},
    ]


def tenant_networks(t):
    attached = {"w": ["pf", "pm"], "a": ["pf", "pb", "pm"], "d": ["pb", "pm"], "m": ["pm"]}
    return [
        {"name": f"{letter}{t}", "id": 4 * t + place + 1, "subnets": [f"10.{place}.0.0/24"],
         "policies": [f"{name}{t}" for name in attached[letter]]}
        for place, letter in enumerate("wadm")
    ]


def port(x, n, tenants):
    network = x % (4 * tenants)
    return {
        "name": f"v{x}", "id": x, "network": "wadm"[network % 4] + str(network // 4),
        "address": f"10.{x % 4}.0.{1 + x // (4 * tenants)}", "node": f"n{1 + (7 * x + n) % 20}",
    }


def document(n):
    """The scenario of a number, as a document of `run`."""
    tenants = 1 + (n - 1) % 16
    each = range(tenants)
    packets = [
        {"port": (17 * q + n) % (64 * tenants), "to": f"10.{q % 4}.0.{1 + q % 16}", "protocol": 6, "sport": 50000 + q,
         "dport": [80, 22, 5432, 23][q // 4 % 4]}
        for q in range(40)
    ]
    return {
        "topology": {
            "as": 64512,
            "controllers": [{"name": f"c{i}", "address": f"192.0.2.{i}"} for i in (1, 2, 3)],
            "nodes": [
                {"name": f"n{i}", "address": f"192.0.2.{10 + i}", "controllers": [f"c{1 + i % 3}", f"c{1 + (i + 1) % 3}"]}
                for i in range(1, 21)
            ],
        },
        "configuration": {
            "networks": [network for t in each for network in tenant_networks(t)],
            "ports": [port(x, n, tenants) for x in range(64 * tenants)],
            "policies": [policy for t in each for policy in tenant_policies(t)],
            "services": [
                {"name": f"{letter}{t}", "id": 2 * t + 1 + place, "node": f"n{1 + (3 * t + n + place) % 20}"}
                for t in each for place, letter in enumerate("fl")
            ],
            "chains": [{"name": f"k{t}", "hops": [f"f{t}", f"l{t}"]} for t in each],
        },
        "events": [
            "settle", {"lose": ["c1", "c2"]}, {"restart": f"n{1 + n % 20}"}, {"edit": {"delete": {"port": "v5"}}}, "settle",
            *({"trace": packet} for packet in packets),
        ],
    }


def answers(program, word, made):
    run = subprocess.run([program, word], input=json.dumps(made).encode(), capture_output=True, check=True)
    return [line.split(" ", 1)[1] for line in run.stdout.decode().splitlines()]


def summary(program, n):
    """What `gen` is to print, by what `run` and `reach` print of a document."""
    made = document(n)
    answered = answers(program, "run", made)
    traced = answered[5:]
    config = made["configuration"]
    left = {**config, "ports": [port for port in config["ports"] if port["name"] != "v5"]}
    packets = [event["trace"] for event in made["events"][5:]]
    reached = answers(program, "reach", {"topology": made["topology"], "configuration": left, "packets": packets})
    rounds = [answered[place].split()[-1] for place in (0, 4)]
    delivered = sum(line.startswith("delivered") for line in traced)
    agreed = sum(one == other for one, other in zip(traced, reached))
    return (
        f"gen {n} controllers 3 nodes 20 networks {len(config['networks'])} ports {len(config['ports'])} "
        f"uses {len(config['chains'])}\nrounds {' '.join(rounds)}\ntraces 40 delivered {delivered} agreed {agreed}\n"
    )


def main(program, numbers):
    wrong = 0
    for n in numbers:
        begun = time.monotonic()
        run = subprocess.run([program, "gen", str(n)], capture_output=True, check=False)
        took = time.monotonic() - begun
        written = run.stdout.decode()
        print(f"{written}{took:.1f} s, status {run.returncode}")
        if written != summary(program, n) or run.returncode != 0:
            wrong += 1
            print(f"scenario {n} is another")
    return 1 if wrong else 0


if __name__ == "__main__":
    if len(sys.argv) < 2:
        sys.exit(__doc__)
    sys.exit(main(sys.argv[1], [int(n) for n in sys.argv[2:]] or [1, 2, 3, 4, 17]))
