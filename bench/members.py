#!/usr/bin/env python3
"""How evenly members of a service are chosen, over 10,000 packets that differ in their source port.

The packets go from 10.1.0.1 to 10.2.0.2, port 80 of TCP, from the ports 50000 to 59999, through one service with the members
1 to N. Without PROGRAM the choices are computed by the rule of docs/MODEL.md; with it `scale` is run on a document of these
packets, and what it writes is counted and compared with the rule.

usage: bench/members.py [PROGRAM]

PROGRAM is the built `overlay`. Needs Python 3.8. Ends with status 1 where a choice of the program was another.
"""
import collections
import ipaddress
import json
import subprocess
import sys

SOURCE, DESTINATION, PROTOCOL, PORT = "10.1.0.1", "10.2.0.2", 6, 80
PORTS = range(50000, 60000)
COUNTS = (2, 3, 16)
FULL = [0, 65535]


def chosen(members, key):
    """The member with the greatest score, and the least such."""
    return max(members, key=lambda member: ((key + 257 * member) * 40503 % 65536, -member))


def by_rule(members):
    """The member that each packet visits."""
    addresses = int(ipaddress.ip_address(SOURCE)) + int(ipaddress.ip_address(DESTINATION))
    return [chosen(members, addresses + port + PORT + PROTOCOL) for port in PORTS]


def document(members):
    """A document of `scale`: two networks, and a chain of one service between them."""
    networks = [("red", 1, "10.1.0.0/24"), ("blue", 2, "10.2.0.0/24")]
    ports = [("vm1", 1, "red", SOURCE), ("vm2", 2, "blue", DESTINATION)]
    rule = {
        "direction": "<>", "source": "red", "destination": "blue", "protocol": "any", "source_ports": FULL,
        "destination_ports": FULL, "action": "chain", "chain": "one", "use": 0,
    }
    return {
        "topology": {
            "as": 64512,
            "controllers": [{"name": "c1", "address": "192.0.2.1"}],
            "nodes": [{"name": "n1", "address": "192.0.2.11", "controllers": ["c1"]}],
        },
        "configuration": {
            "networks": [{"name": n, "id": i, "subnets": [s], "policies": ["sec"]} for n, i, s in networks],
            "ports": [{"name": n, "id": i, "network": w, "address": a, "node": "n1"} for n, i, w, a in ports],
            "policies": [{"name": "sec", "sequence": 20, "rules": [rule]}],
            "services": [{"name": "fw", "id": 1, "node": "n1"}],
            "chains": [{"name": "one", "hops": ["fw"]}],
        },
        "groups": [{"service": "fw", "members": list(members)}],
        "packets": [
            {"port": 1, "to": DESTINATION, "protocol": PROTOCOL, "sport": port, "dport": PORT} for port in PORTS
        ],
    }


def by_program(program, members):
    """The member that each packet visits, as `scale` writes it."""
    text = json.dumps(document(members)).encode()
    run = subprocess.run([program, "scale"], input=text, stdout=subprocess.PIPE, check=True)
    return [int(line.rsplit(":", 1)[1]) for line in run.stdout.decode().splitlines()]


def main(program):
    wrong = 0
    for count in COUNTS:
        members = range(1, count + 1)
        choices = by_rule(members)
        if program and by_program(program, members) != choices:
            wrong += 1
            print(f"{count} members: the program chooses otherwise")
        made = collections.Counter(choices)
        print(f"{count} members: " + ", ".join(str(made[member]) for member in members))
    return 1 if wrong else 0


if __name__ == "__main__":
    if len(sys.argv) > 2:
        sys.exit(__doc__)
    sys.exit(main(sys.argv[1] if len(sys.argv) == 2 else None))
