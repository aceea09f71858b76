#!/usr/bin/env python3
"""What the delivery of one octet costs.

Runs schedules with the built program in which the configuration node tells a control node the objects of two networks and an
access list between them, and all that it tells is taken in deliveries of one octet each; then the session is lost, connected,
and told all again, some times over. Prints a table in Markdown: how many entries the access list has, which is one record, how
many deliveries there are, the seconds of the whole run, and the microseconds that one delivery costs, less what the run costs
where deliveries take all octets at once. Of each the least of five runs counts.

usage: bench/octets.py PROGRAM

PROGRAM is the built `overlay`. Needs Python 3.8.
"""
import json
import subprocess
import sys
import time

SECONDS = 900
RUNS = 5
# How many policies both networks attach, of 16 rules each.
POLICIES = [1, 2, 4]
# How often all is told.
TIMES = 40
ALL = 65_536


def rule(number):
    return {
        "direction": "<>",
        "source": "red",
        "destination": "blue",
        "protocol": number % 256,
        "source_ports": [number, 65535],
        "destination_ports": [number, 65535 - number],
        "action": "pass",
    }


def policy(place):
    return {"name": f"p{place}", "sequence": place, "rules": [rule(16 * place + i) for i in range(16)]}


def document(events, policies):
    names = [f"p{place}" for place in range(policies)]
    return {
        "topology": {
            "as": 64512,
            "controllers": [{"name": "c1", "address": "192.0.2.1"}],
            "nodes": [{"name": "n1", "address": "192.0.2.11", "controllers": ["c1"]}],
        },
        "configuration": {
            "networks": [
                {"name": "red", "id": 1, "subnets": ["10.1.0.0/24"], "policies": names},
                {"name": "blue", "id": 2, "subnets": ["10.2.0.0/24"], "policies": names},
            ],
            "ports": [],
            "policies": [policy(place) for place in range(policies)],
            "services": [],
            "chains": [],
        },
        "events": events,
    }


def taken(count, size):
    """All is told some times over, and taken in so many deliveries of so many octets."""
    begins = [{"connect": ["config", "c1"]}, {"deliver": ["c1", "config", 1]}]
    return (begins + [{"deliver-bytes": ["config", "c1", size]}] * count + [{"lose": ["config", "c1"]}, "round"]) * TIMES


def run(program, events, policies):
    """The seconds of a run, and its answers."""
    given = json.dumps(document(events, policies)).encode()
    began = time.monotonic()
    ran = subprocess.run([program, "run"], input=given, capture_output=True, timeout=SECONDS, check=True)
    return time.monotonic() - began, ran.stdout.decode().splitlines()


def least(program, events, policies):
    return min(run(program, events, policies)[0] for _ in range(RUNS))


def octets_told(program, policies):
    """How many octets the configuration node tells, of which each delivery takes one."""
    one_by_one = taken(ALL // 8, 1)[: ALL // 8]
    return sum(line.endswith(" did") for line in run(program, one_by_one, policies)[1]) - 2


def main(program):
    print("| Entries of the access list | Deliveries of one octet | s | Microseconds of one |")
    print("|---|---|---|---|")
    for policies in POLICIES:
        count = octets_told(program, policies)
        base, took = (least(program, taken(*sizes), policies) for sizes in ((1, ALL), (count, 1)))
        made = count * TIMES
        print(f"| {16 * policies} | {made:,} | {took:.3f} | {1e6 * (took - base) / made:.2f} |", flush=True)


if __name__ == "__main__":
    if len(sys.argv) != 2:
        sys.exit(__doc__)
    main(sys.argv[1])
