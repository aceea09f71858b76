#!/usr/bin/env python3
"""What the commands cost.

Makes inputs by formula, runs the built program on each, and prints a table in Markdown: processor time in seconds (user and
system, the least of five runs), peak memory and size of the output, both in millions of octets and of the quickest run.
Behind each figure stands its ratio to a baseline on the same input: `jq -c .` for documents, and for hexadecimal digits the
floor, a plain C program (floor.c) that tells the same messages by the same text. Ends with a message where a baseline
fails, where the runs of one input end differently, or where the floor's text is another one.

usage: bench/bench.py PROGRAM [WORD]

PROGRAM is the built `overlay`. With WORD only the inputs whose name has it are run. Needs Python 3.8, a C compiler as `cc`,
and Debian's packages jq and time.
"""
import filecmp
import json
import os
import resource
import subprocess
import sys
import tempfile

RUNS = 5
SECONDS = 600  # after which a run is stopped
FLOOR = os.path.join(os.path.dirname(os.path.abspath(__file__)), "floor.c")


def topology(controllers):
    """So many control nodes, and 64 compute nodes that list the first of them."""
    return {
        "as": 64512,
        "controllers": [{"name": f"c{i}", "address": f"192.0.2.{i}"} for i in range(1, controllers + 1)],
        "nodes": [{"name": f"n{i}", "address": f"192.0.2.{100 + i}", "controllers": ["c1"]} for i in range(1, 65)],
    }


def rule(action, protocol, first, last):
    """A rule of any two networks, in both directions, for a range of destination ports."""
    return {
        "direction": "<>", "source": "any", "destination": "any", "protocol": protocol,
        "source_ports": [0, 65535], "destination_ports": [first, last], "action": action,
    }


def denied(count, first):
    """So many rules that deny one port each, from a first one on."""
    return [rule("deny", 6, port, port) for port in range(first, first + count)]


def policies_of(count, rules):
    """So many policies of so many rules each: the last rule of the last one passes everything, and each other denies a port."""
    before = [
        {"name": f"denied{i}", "sequence": 1 + i, "rules": denied(rules, 10000 + i * rules)} for i in range(count - 1)
    ]
    last = denied(rules - 1, 10000 + (count - 1) * rules) + [rule("pass", "any", 0, 65535)]
    return before + [{"name": "all", "sequence": count, "rules": last}]


def document(networks, ports, related, controllers=1, rules=1, policies=1):
    """Ports in turn on the networks, which all attach the same policies, or none and have equal subnets."""
    shared = policies_of(policies, rules) if related else []

    def block(n):
        """The first three octets of a network's addresses."""
        return f"10.{n}.0" if related else "10.0.0"

    configuration = {
        "networks": [
            {"name": f"w{n}", "id": n, "subnets": [f"{block(n)}.0/24"], "policies": [value["name"] for value in shared]}
            for n in range(1, networks + 1)
        ],
        "ports": [
            {
                "name": f"p{p}", "id": p, "network": f"w{1 + p % networks}",
                "address": f"{block(1 + p % networks)}.{1 + p // networks}", "node": f"n{1 + p % 64}",
            }
            for p in range(ports)
        ],
        "policies": shared,
    }
    return {"topology": topology(controllers), "configuration": configuration}


def chain_rule(use, left, right):
    """A rule between two networks, in both directions, that leads through a chain, for one destination port."""
    value = rule("chain", 6, 20000 + use, 20000 + use)
    return {**value, "source": f"w{left}", "destination": f"w{right}", "chain": f"chain{use % 128}", "use": use}


def with_chains(value, uses):
    """A document of 128 related networks, with 128 chains of 15 services in so many uses.

    Each 16 uses have a policy of their own, of two neighbours, 127 at most: then 15 more stand in the policy of all.
    """
    configuration = value["configuration"]
    configuration["services"] = [{"name": f"s{i}", "id": 1 + i, "node": f"n{1 + i % 64}"} for i in range(128)]
    configuration["chains"] = [
        {"name": f"chain{i}", "hops": [f"s{(i + j) % 128}" for j in range(15)]} for i in range(128)
    ]
    networks = configuration["networks"]
    for i in range(min(127, uses // 16)):
        numbers = range(16 * i, 16 * i + 16)
        rules = [chain_rule(use, 1 + i, 2 + i) for use in numbers]
        configuration["policies"].append({"name": f"chains{i}", "sequence": 2 + i, "rules": rules})
        networks[i]["policies"].append(f"chains{i}")
        networks[i + 1]["policies"].append(f"chains{i}")
    first = configuration["policies"][0]  # that of all
    first["rules"] = [chain_rule(use, 1, 2) for use in range(127 * 16, uses)] + first["rules"]
    return value


def long_name(kind, number):
    """A name of 32 octets; those of one kind are alike but for their last octets."""
    return f"{kind}{number:031d}"


def largest(nested):
    """A valid configuration at every limit, with names of 32 octets: the networks are all related, and each two neighbours
    use chains, 2,047 in all. Each chain has 15 services; or each but the last names the next alone, and the last has them.
    """
    def use(number, left, right):
        """A chain rule between two networks."""
        value = chain_rule(number, left, right)
        ends = {"source": long_name("w", left), "destination": long_name("w", right)}
        return {**value, **ends, "chain": long_name("h", number % 128)}

    def hops(chain):
        """The hops of a chain."""
        if nested and chain < 127:
            return [long_name("h", chain + 1)]
        return [long_name("s", (chain + place) % 128) for place in range(15)]

    def attached(network):
        """Four policies: those of the network with its neighbours, others until there are three, and that of all."""
        near = [policy for policy in (network - 1, network, network + 1) if 1 <= policy <= 127]
        return [long_name("p", policy) for policy in (near + [1])[:3] + [0]]

    among_all = [use(127 * 16 + i, 1, 2) for i in range(15)] + [rule("pass", "any", 0, 65535)]
    policies = [
        {"name": long_name("p", p), "sequence": p, "rules": [use(16 * (p - 1) + i, p, p + 1) for i in range(16)]}
        for p in range(1, 128)
    ] + [{"name": long_name("p", 0), "sequence": 128, "rules": among_all}]
    return {
        "topology": {
            "as": 64512,
            "controllers": [{"name": long_name("c", i), "address": f"192.0.2.{1 + i}"} for i in range(8)],
            "nodes": [
                {
                    "name": long_name("n", i), "address": f"192.0.2.{100 + i}",
                    "controllers": [long_name("c", i % 8), long_name("c", (i + 1) % 8)],
                }
                for i in range(64)
            ],
        },
        "configuration": {
            "networks": [
                {
                    "name": long_name("w", n), "id": n, "subnets": [f"10.{n}.{i}.0/24" for i in range(4)],
                    "policies": attached(n),
                }
                for n in range(1, 129)
            ],
            "ports": [
                {
                    "name": long_name("v", p), "id": p, "network": long_name("w", 1 + p % 128),
                    "address": f"10.{1 + p % 128}.{p // 256}.{1 + p // 128}", "node": long_name("n", p % 64),
                }
                for p in range(1024)
            ],
            "policies": policies,
            "services": [{"name": long_name("s", i), "id": 1 + i, "node": long_name("n", i % 64)} for i in range(128)],
            "chains": [{"name": long_name("h", i), "hops": hops(i)} for i in range(128)],
        },
    }


def packets(count):
    """Packets from each port in turn to ports of other networks: the source's is 1 + i % 128."""
    return [
        {
            "port": i % 1024, "to": f"10.{1 + (i + 1 + i % 127) % 128}.0.{1 + i % 8}",
            "protocol": 6, "sport": 50000, "dport": 80 + i % 3,
        }
        for i in range(count)
    ]


def attribute(flags, kind, value):
    """A path attribute; one of more than 255 octets has the flag Extended Length."""
    if len(value) > 255:
        return bytes([flags | 0x10, kind]) + len(value).to_bytes(2, "big") + value
    return bytes([flags, kind, len(value)]) + value


def message(attributes):
    """An UPDATE of these attributes."""
    body = b"\0\0" + len(attributes).to_bytes(2, "big") + attributes
    return b"\xff" * 16 + (19 + len(body)).to_bytes(2, "big") + b"\2" + body


def announcement(routes):
    """The attribute of VPN-IPv4 routes behind one next hop."""
    return attribute(0x80, 14, bytes.fromhex("0001800c0000000000000000c000020b00") + b"".join(routes))


LABEL = (23 * 16 + 1).to_bytes(3, "big")


def update(first, routes):
    """An UPDATE of so many VPN-IPv4 host routes of one instance, with one route target."""
    distinguisher = bytes.fromhex("0001c000020b0001")
    hosts = [bytes([120]) + LABEL + distinguisher + (0x0A000000 + n).to_bytes(4, "big") for n in range(first, first + routes)]
    return message(b"".join([
        attribute(0x40, 1, b"\0"),
        attribute(0x40, 2, b""),
        attribute(0x40, 5, (100).to_bytes(4, "big")),
        announcement(hosts),
        attribute(0xC0, 16, bytes.fromhex("0002fc00007a1201")),
    ]))


def hostile_update():
    """An UPDATE of 165 default routes, each of an instance of its own, with 250 route targets: each line tells them all."""
    routes = [bytes([88]) + LABEL + bytes.fromhex("0001c000020b") + n.to_bytes(2, "big") for n in range(1, 166)]
    targets = [bytes.fromhex("0002fc00") + (8_000_000 + n).to_bytes(4, "big") for n in range(250)]
    return message(b"".join([
        attribute(0x40, 1, b"\0"),
        attribute(0x40, 2, b""),
        announcement(routes),
        attribute(0xC0, 16, b"".join(targets)),
    ]))


def updates(octets, routes):
    """UPDATEs of so many routes each, one a line, until so many octets are there."""
    count = -(-octets // len(update(0, routes)))
    return "\n".join(update(i * routes, routes).hex() for i in range(count))


def inputs():
    """Each input's name, its command and its text."""
    for networks, ports in [(8, 64), (32, 256), (128, 1024)]:
        for related in (False, True):
            name = f"compile {ports} ports, {networks} networks, {'related' if related else 'unrelated'}"
            yield name, "compile", json.dumps(document(networks, ports, related))
    yield "compile 1024 ports, 128 networks, related, 8 control nodes", "compile", json.dumps(document(128, 1024, True, 8))
    for controllers, uses in [(1, 128), (1, 2047), (8, 2047)]:
        name = f"compile 1024 ports, 128 networks, related, {uses} uses of 15 services, {controllers} control nodes"
        yield name, "compile", json.dumps(with_chains(document(128, 1024, True, controllers), uses))
    for networks, policies in [(128, 1), (32, 4), (128, 4)]:
        name = f"compile 1024 ports, {networks} networks, related, {policies} policies of 16 rules"
        yield name, "compile", json.dumps(document(networks, 1024, True, 1, 16, policies))
    for nested in (False, True):
        value = largest(nested)
        chains = "each chain but the last names the next" if nested else "each chain has 15 services"
        yield f"compile at every limit, {chains}", "compile", json.dumps(value)
        yield f"reach no packet at every limit, {chains}", "reach", json.dumps({**value, "packets": []})
    for count in (100, 1_000, 10_000, 100_000):
        value = document(128, 1024, True, 1, 16)
        value["packets"] = packets(count)
        yield f"reach {count} packets", "reach", json.dumps(value)
    for millions in (1, 4, 8):
        for routes in (1, 20):
            yield f"decode {millions} million octets, {routes} a message", "decode", updates(millions * 1_000_000, routes)
    yield "decode 2077 UPDATEs of 165 routes with 250 targets", "decode", "\n".join([hostile_update().hex()] * 2_077)


def processor_seconds():
    """What processes that have ended took, of those that this one started."""
    used = resource.getrusage(resource.RUSAGE_CHILDREN)
    return used.ru_utime + used.ru_stime


def run(command, path, output):
    """Seconds of processors, peak megabytes and megabytes of output of a command that reads a file, and its status."""
    with open(path, "rb") as source, open(output, "wb") as sink, tempfile.NamedTemporaryFile("r") as peak:
        watched = ["timeout", str(SECONDS), "time", "--quiet", "--format=%M", f"--output={peak.name}"] + command
        begun = processor_seconds()
        status = subprocess.run(watched, stdin=source, stdout=sink).returncode
        seconds = processor_seconds() - begun
        told = peak.read().split()
        if not told:
            sys.exit(f"{' '.join(command)}: no peak memory, and status {status}, which is 124 after {SECONDS} seconds")
        return (seconds, int(told[-1]) * 1024 / 1e6, os.path.getsize(output) / 1e6), status


def measured(command, path, output):
    """The figures of the quickest of some runs, and the status of all."""
    runs = [run(command, path, output) for _ in range(RUNS)]
    statuses = {status for _, status in runs}
    if len(statuses) > 1:
        sys.exit(f"{' '.join(command)}: the runs of one input ended with different statuses: {sorted(statuses)}")
    return min(runs)


def row(name, program, floor, word, text):
    """A line of the table."""
    with tempfile.TemporaryDirectory() as folder:
        path, output, other = (os.path.join(folder, file) for file in ("input", "output", "baseline"))
        with open(path, "w") as file:
            file.write(text)
        reader = [floor] if word == "decode" else ["jq", "-c", "."]
        figures, status = measured([program, word], path, output)
        baseline, read = measured(reader, path, other)
        if read != 0:
            sys.exit(f"{' '.join(reader)}: the baseline ended with status {read}")
        if word == "decode" and not filecmp.cmp(output, other, shallow=False):
            sys.exit(f"{name}: the floor tells something else")
    told = name if status == 0 else f"{name} (status {status})"
    digits = (3, 1, 2)
    ratios = [f"{figure / base:.1f}" for figure, base in zip(figures, baseline)]
    cells = [f"{figure:.{n}f} ({ratio})" for figure, ratio, n in zip(figures, ratios, digits)]
    return f"| {told} | {len(text) / 1e6:.2f} | " + " | ".join(cells) + " |"


def main():
    if len(sys.argv) not in (2, 3):
        sys.exit(__doc__)
    program = os.path.abspath(sys.argv[1])
    wanted = sys.argv[2] if len(sys.argv) > 2 else ""
    print("| Command and input | Input, MB | Processor time, s (ratio) | Peak memory, MB (ratio) | Output, MB (ratio) |")
    print("|---|---|---|---|---|")
    with tempfile.TemporaryDirectory() as folder:
        floor = os.path.join(folder, "floor")
        subprocess.run(["cc", "-O2", FLOOR, "-o", floor], check=True)
        for name, word, text in inputs():
            if wanted in name:
                print(row(name, program, floor, word, text), flush=True)


if __name__ == "__main__":
    main()
