#!/usr/bin/env python3
"""Compares `inspect expect` with what becomes of packets by `overlay reach` and by the first rule that matches, found here.

usage: tests/inspect_expect.py PROGRAM OVERLAY [COUNT [SEED]]

PROGRAM is the built `inspect`, OVERLAY the built `overlay`. COUNT random documents are made (50 where none is given), as those of
tests/inspect_ways.py with ports and packets. What becomes of each packet is found here, and has to be what `overlay reach` prints.
Of each packet something is expected that is so, or that is not: another reason, another port, other services. The lines, the counts
and the status are to be those that follow. Then one `expect` of each document is spoilt, and the line of the refusal is to name it.
Needs Python 3.8. Ends with status 1 where something differs.
"""
import copy
import json
import random
import subprocess
import sys

from inspect_ways import SERVICES, document, matches, rules_between

REASONS = ["no-source-port", "no-destination", "no-route", "denied"]
SPOILT = [
    (None, "Kind", ""),
    (7, "Kind", ""),
    (["dropped"], "Kind", ""),
    ("Dropped", "Range", ""),
    ("dropped denied 10/1", "Range", ""),
    ("dropped no-label", "Range", ""),
    ("", "Range", ""),
    ({}, "Missing", ".port"),
    ({"port": 1}, "Missing", ".services"),
    ({"port": -1, "services": []}, "Range", ".port"),
    ({"port": 524272, "services": []}, "Range", ".port"),
    ({"port": "1", "services": []}, "Kind", ".port"),
    ({"port": 1, "services": 7}, "Kind", ".services"),
    ({"port": 1, "services": [1, 65536]}, "Range", ".services[1]"),
    ({"port": 1, "services": [1.5]}, "Kind", ".services[0]"),
    ({"port": 1, "services": [], "rule": "10/1"}, "Unknown", ".rule"),
]


def peopled(chance):
    """A random document with ports, some addresses of which no port has, and packets."""
    doc = document(chance)
    configuration = doc["configuration"]
    number = 0
    for network in configuration["networks"]:
        for host in range(1, chance.randint(1, 3)):
            number += 1
            configuration["ports"].append(
                {
                    "name": f"v{number}",
                    "id": number,
                    "network": network["name"],
                    "address": f"10.{network['id']}.0.{host}",
                    "node": "n1",
                }
            )
    ports = [22, 53, 80, 443, 5432, 0, 65535]
    doc["packets"] = [
        {
            "port": chance.randint(0, number + 1),
            "to": f"10.{chance.randint(1, len(configuration['networks']) + 1)}.0.{chance.randint(1, 3)}",
            "protocol": chance.choice([0, 1, 6, 17, 255]),
            "sport": chance.choice(ports),
            "dport": chance.choice(ports),
        }
        for _ in range(chance.randint(0, 12))
    ]
    return doc


def decided(rules, a, b, packet):
    for number, rule in rules:
        if matches(rule, a, b, packet["protocol"], packet["sport"], packet["dport"]):
            return number, rule, False
        if rule["direction"] == "<>" and matches(rule, b, a, packet["protocol"], packet["dport"], packet["sport"]):
            return number, rule, True
    return None


def speaks(rule, a, b):
    return rule["source"] in ("any", a) and rule["destination"] in ("any", b)


def related(configuration, a, b):
    return any(
        rule["action"] != "deny" and (speaks(rule, a["name"], b["name"]) or speaks(rule, b["name"], a["name"]))
        for _, rule in rules_between(configuration, a, b)
    )


def outcome(configuration, packet):
    """What becomes of a packet: the words of a drop and the reason, or the port and the services."""
    source = [p for p in configuration["ports"] if p["id"] == packet["port"]]
    if not source:
        return "no-source-port", ""
    own = [n for n in configuration["networks"] if n["name"] == source[0]["network"]][0]
    third = packet["to"].split(".")[1]
    target = [n for n in configuration["networks"] if str(n["id"]) == third]
    if not target or (target[0] is not own and not related(configuration, own, target[0])):
        return "no-destination", ""
    services = []
    if target[0] is not own:
        found = decided(list(rules_between(configuration, own, target[0])), own["name"], target[0]["name"], packet)
        if not found:
            return "denied", " -"
        number, rule, mirrored = found
        if rule["action"] == "deny":
            return "denied", " " + number
        if rule["action"] == "chain":
            services = SERVICES[rule["chain"]][:: -1 if mirrored else 1]
    arrival = [p for p in configuration["ports"] if p["network"] == target[0]["name"] and p["address"] == packet["to"]]
    return (arrival[0]["id"], services) if arrival else ("no-route", "")


def listed(services):
    return ",".join(map(str, services)) or "-"


def words(found):
    first, second = found
    if isinstance(first, int):
        return f"delivered port {first} services {listed(second)}"
    return f"dropped {first}{second}"


def drawn(chance, found):
    """Something that is expected, whether it is so, and how it is printed."""
    first, second = found
    if chance.randrange(2):
        if isinstance(first, int):
            return {"port": first, "services": second}, True, None
        return chance.choice(["dropped", f"dropped {first}"]), True, None
    wrong = [r for r in REASONS if r != first]
    if isinstance(first, int):
        other = chance.choice([(first + 1, second), (first, second + [3]), (first, [9] + second), (first, second[1:] or [5])])
        choices = [f"dropped {chance.choice(REASONS)}", "dropped", other]
    else:
        choices = [f"dropped {chance.choice(wrong)}", (1, [])]
    expected = chance.choice(choices)
    if isinstance(expected, str):
        return expected, False, expected
    return {"port": expected[0], "services": expected[1]}, False, words(expected)


def run(program, command, doc):
    done = subprocess.run(
        [program, *command], input=json.dumps(doc).encode(), stdout=subprocess.PIPE, stderr=subprocess.PIPE
    )
    return done.returncode, done.stdout.decode()


def differences(program, overlay, doc, chance):
    found = [outcome(doc["configuration"], packet) for packet in doc["packets"]]
    status, output = run(overlay, ["reach"], doc)
    if status == 7:
        spoilt = copy.deepcopy(doc)
        for packet in spoilt["packets"]:
            packet["expect"] = "dropped"
        same = run(program, ["expect", "-"], spoilt) == (7, output)
        return 7, [] if same else [f"refused otherwise than {output}"]
    wrong = []
    if (status, output) != (0, "".join(f"{n} {words(o)}\n" for n, o in enumerate(found, 1))):
        wrong.append(f"reach: status {status}: {output} and not {list(map(words, found))}")
    lines = []
    for number, (packet, is_so) in enumerate(zip(doc["packets"], found), 1):
        packet["expect"], met, printed = drawn(chance, is_so)
        if not met:
            lines.append(f"{number} expected {printed} but {words(is_so)}\n")
    lines.append(f"packets {len(found)} otherwise {len(lines)}\n")
    status, output = run(program, ["expect", "-"], doc)
    if (status, output) != (int(len(lines) > 1), "".join(lines)):
        wrong.append(f"status {status}: {output} and not {lines}")
    if found:
        place = chance.randrange(len(found))
        value, kind, path = chance.choice(SPOILT)
        spoilt = copy.deepcopy(doc)
        spoilt["packets"][place]["expect"] = value
        line = f"bad document packets[{place}].expect{path} {kind}\n"
        if run(program, ["expect", "-"], spoilt) != (6, line):
            wrong.append(f"{value}: {run(program, ['expect', '-'], spoilt)} and not {line}")
        del spoilt["packets"][place]["expect"]
        if run(program, ["expect", "-"], spoilt) != (6, f"bad document packets[{place}].expect Missing\n"):
            wrong.append("an absent member is not missed")
    return status, wrong


def main():
    if not 3 <= len(sys.argv) <= 5:
        sys.exit(__doc__)
    program, overlay, count, seed = sys.argv[1], sys.argv[2], int((sys.argv[3:] or ["50"])[0]), int((sys.argv[4:] or ["1"])[0])
    chance, ends, packets, wrong = random.Random(seed), {0: 0, 1: 0, 7: 0}, 0, 0
    while ends[0] + ends[1] < count:
        doc = peopled(chance)
        status, found = differences(program, overlay, doc, chance)
        ends[status] = ends.get(status, 0) + 1
        packets += len(doc["packets"]) * (status != 7)
        for line in found[:5]:
            print(line)
        wrong += bool(found)
    print(f"{ends[0]} documents met, {ends[1]} otherwise, {ends[7]} refused, {packets} packets, {wrong} documents with a difference")
    sys.exit(1 if wrong else 0)


if __name__ == "__main__":
    main()
