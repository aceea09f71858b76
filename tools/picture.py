#!/usr/bin/env python3
"""Draws a document as SVG: its nodes with their sessions, its networks with ports, policies and chains, the uses of
chains in effect, and, where answers are given, the ways of packets.

usage: tools/picture.py DOCUMENT [ANSWERS] > OUT.svg

DOCUMENT is a document of `compile`, `reach`, `scale` or `run`, or `-` for standard input. ANSWERS is what `reach` or
`scale` printed of it, or `run` (then the answers of its traces are drawn). The drawing decides nothing by itself: it
does not ask whether a configuration is valid, and the ways of packets are those of the answers. Needs Python 3.8.
"""
import json
import re
import sys

sys.dont_write_bytecode = True
from drawing import LINE, Box, Drawing, width_of

MARGIN = 20
GAP = 14
MOST = 12  # lines of one kind in a box


def stack(boxes, x, top):
    for box in boxes:
        box.at(x, top)
        top += box.height + GAP
    return top - GAP if boxes else top


def columns(drawing, lists, gaps, top):
    """Columns of boxes beside each other, the lower ones in the middle. Answers where they end."""
    high = max(sum(box.height + GAP for box in boxes) - GAP if boxes else 0 for boxes in lists)
    x = MARGIN
    for boxes, gap in zip(lists, gaps):
        own = sum(box.height + GAP for box in boxes) - GAP if boxes else 0
        stack(boxes, x, top + (high - own) / 2)
        for box in boxes:
            drawing.box(box)
        x += (max(box.width for box in boxes) if boxes else 0) + gap
    return top + high


def some(lines):
    return lines if len(lines) <= MOST else lines[:MOST - 1] + ["and %d more" % (len(lines) - MOST + 1)]


def heading(drawing, y, text):
    drawing.text(MARGIN, y, text, bold=True)
    return y + LINE


def legend(drawing, y, entries):
    x = MARGIN
    for paint, dashed, text in entries:
        drawing.line((x, y - 4), (x + 30, y - 4), paint, dashed)
        drawing.text(x + 36, y, text, "faint")
        x += 36 + width_of(text) + 20
    return y + LINE


def topology(drawing, document, top):
    known = document["topology"]
    configuration = document["configuration"]
    top = heading(drawing, top, "Nodes and their sessions, autonomous system %s" % known["as"])
    top = legend(drawing, top, [
        ("feed", False, "the feed: low-level objects"), ("peer", True, "between control nodes: VPN-IPv4 routes")])
    top = legend(drawing, top, [
        ("agent", False, "of an agent, the preferred control node"), ("agent", True, "and its second one")])
    config = Box(["config", "configuration node"], "blue")
    controls = [Box([c["name"], c["address"], "control node"], "violet") for c in known["controllers"]]
    agents = []
    for node in known["nodes"]:
        ports = ["port %s of %s, %s" % (p["name"], p["network"], p["address"])
                 for p in configuration.get("ports", []) if p["node"] == node["name"]]
        services = ["service %s" % s["name"] for s in configuration.get("services", []) if s["node"] == node["name"]]
        agents.append(Box([node["name"], node["address"] + ", compute node"] + some(ports) + some(services), "green"))
    gap = 70 + 12 * len(controls)
    end = columns(drawing, [[config], controls, agents], [gap, 110, 0], top)
    for control in controls:
        drawing.bend(config.right(), control.left(), "feed")
    for i, a in enumerate(controls):
        for j, b in enumerate(controls[i + 1:], 1):
            x, y, z, out = a.x, a.y + a.height - 10, b.y + 10, a.x - 12 - 12 * j
            drawing.stroke("M%.1f %.1f C%.1f %.1f %.1f %.1f %.1f %.1f" % (x, y, out, y, out, z, x, z), "peer", True)
    for node, box in zip(known["nodes"], agents):
        for place, name in enumerate(node["controllers"]):
            for given, control in zip(known["controllers"], controls):
                if given["name"] == name:
                    drawing.bend(control.right(), box.left(), "agent", place > 0)
    return end + 3 * LINE


def ports_of(bounds):
    return "any" if bounds == [0, 65535] else "%d-%d" % tuple(bounds) if bounds[0] != bounds[1] else str(bounds[0])


def rule_line(policy, place, rule):
    action = rule["action"]
    if action == "chain":
        action = "chain %s use %d" % (rule["chain"], rule["use"])
    return "%d/%d %s %s %s, protocol %s, ports %s to %s: %s" % (
        policy["sequence"], place, rule["source"], rule["direction"], rule["destination"], rule["protocol"],
        ports_of(rule["source_ports"]), ports_of(rule["destination_ports"]), action)


def networks(drawing, document, top):
    configuration = document["configuration"]
    given = configuration.get("networks", [])
    policies = configuration.get("policies", [])
    chains = configuration.get("chains", [])
    if not given and not policies and not chains:
        return top
    top = heading(drawing, top, "Networks, the policies that they attach, and chains")
    left = []
    for network in given:
        ports = ["port %s %s on %s" % (p["name"], p["address"], p["node"])
                 for p in configuration.get("ports", []) if p["network"] == network["name"]]
        left.append(Box(["%s, number %d" % (network["name"], network["id"])] + network["subnets"] + some(ports),
                        "green"))
    middle = [Box(["%s, sequence %d" % (p["name"], p["sequence"])]
                  + [rule_line(p, i, rule) for i, rule in enumerate(p["rules"], 1)], "amber") for p in policies]
    right = [Box([c["name"]] + ["%d %s" % place for place in enumerate(c["hops"], 1)], "violet") for c in chains]
    end = columns(drawing, [left, middle, right], [110, 110, 0], top)
    for network, box in zip(given, left):
        for policy, other in zip(policies, middle):
            if policy["name"] in network.get("policies", []):
                drawing.bend(box.right(), other.left(), "edge")
    for policy, box in zip(policies, middle):
        for i, rule in enumerate(policy["rules"], 1):
            for chain, other in zip(chains, right):
                if rule["action"] == "chain" and rule["chain"] == chain["name"]:
                    drawing.bend(box.row(i), other.left(), "warn")
    return end + 3 * LINE


def expansion(configuration, name, above=()):
    """The services of a chain in order, or None where it loops, is too long or names what is not there."""
    services = {s["name"]: s for s in configuration.get("services", [])}
    chains = {c["name"]: c for c in configuration.get("chains", [])}
    if name not in chains or name in above:
        return None
    found = []
    for hop in chains[name]["hops"]:
        more = [services[hop]] if hop in services else expansion(configuration, hop, above + (name,))
        if more is None or len(found) + len(more) > 15:
            return None
        found += more
    return found


def strip(drawing, boxes, top):
    """Boxes in one row, with arrows from each to the next."""
    high = max(box.height for box in boxes)
    x = MARGIN
    for i, box in enumerate(boxes):
        box.at(x, top + (high - box.height) / 2)
        drawing.box(box)
        if i:
            drawing.line(boxes[i - 1].right(), box.left(), "ink", arrow=True)
        x += box.width + 34
    return top + high


def uses(drawing, document, top):
    configuration = document["configuration"]
    attaches = {n["name"]: n.get("policies", []) for n in configuration.get("networks", [])}
    begun = False
    for policy in configuration.get("policies", []):
        for place, rule in enumerate(policy["rules"], 1):
            if rule["action"] != "chain":
                continue
            ends = [rule["source"], rule["destination"]]
            services = expansion(configuration, rule["chain"])
            if services is None or any(policy["name"] not in attaches.get(end, []) for end in ends):
                continue
            if not begun:
                top = heading(drawing, top, "Uses of chains in effect: each hop has an instance, each side of a service"
                              " a circuit there")
                begun = True
            first = 16384 + 16 * rule["use"]
            drawing.text(MARGIN, top + 4, "use %d, chain %s, by rule %d/%d" % (
                rule["use"], rule["chain"], policy["sequence"], place), "faint")
            boxes = [Box([ends[0], "left network"], "green")]
            for j, service in enumerate(services):
                boxes.append(Box(["hop %d" % j, "instance %d" % (first + j)]))
                boxes.append(Box([service["name"], "on %s" % service["node"], "left circuit %d" % (
                    2 * (first + j) + 1), "right circuit %d" % (2 * (first + j + 1))], "violet"))
            boxes.append(Box(["hop %d" % len(services), "instance %d" % (first + len(services))]))
            boxes.append(Box([ends[1], "right network"], "green"))
            top = strip(drawing, boxes, top + LINE) + 2 * LINE
    return top + LINE if begun else top


def packets_of(document):
    """The packets by the numbers of their answers."""
    if "packets" in document:
        return dict(enumerate(document["packets"], 1))
    return {i: event["trace"] for i, event in enumerate(document.get("events", []), 1)
            if isinstance(event, dict) and "trace" in event}


def ways(drawing, document, answers, top):
    configuration = document["configuration"]
    ports = {p["id"]: p for p in configuration.get("ports", [])}
    services = {str(s["id"]): s for s in configuration.get("services", [])}
    packets = packets_of(document)

    def port_box(word, number):
        port = ports.get(number)
        return Box(["port %s" % (port["name"] if port else number), word]
                   + (["%s on %s" % (port["network"], port["node"])] if port else []), "green")

    begun = False
    for line in answers:
        found = re.match(r"(\d+) (delivered port (\d+) services (\S+)|dropped (.+))$", line)
        packet = packets.get(int(found.group(1))) if found else None
        if packet is None:
            continue
        if not begun:
            top = heading(drawing, top, "The ways of packets, as they were answered")
            begun = True
        drawing.text(MARGIN, top + 4, "%s: to %s, protocol %d, ports %d to %d" % (
            found.group(1), packet["to"], packet["protocol"], packet["sport"], packet["dport"]), "faint")
        boxes = [port_box("sends", packet["port"])]
        if found.group(5):
            boxes.append(Box(["dropped", found.group(5)], "amber"))
        else:
            for visited in [] if found.group(4) == "-" else found.group(4).split(","):
                number, _, member = visited.partition(":")
                service = services.get(number)
                boxes.append(Box(["service %s" % (service["name"] if service else number)]
                                 + (["on %s" % service["node"]] if service else [])
                                 + (["member %s" % member] if member else []), "violet"))
            boxes.append(port_box("takes it", int(found.group(3))))
        top = strip(drawing, boxes, top + LINE) + 2 * LINE
    return top


def picture(document, answers):
    drawing = Drawing("The nodes and the networks of a document")
    top = topology(drawing, document, MARGIN + LINE)
    top = networks(drawing, document, top)
    top = uses(drawing, document, top)
    ways(drawing, document, answers, top)
    return drawing.written()


def main():
    if len(sys.argv) not in (2, 3) or sys.argv[1] in ("-h", "--help"):
        sys.exit(__doc__)
    try:
        with (sys.stdin if sys.argv[1] == "-" else open(sys.argv[1], encoding="utf-8")) as source:
            document = json.load(source)
        answers = []
        if len(sys.argv) == 3:
            with open(sys.argv[2], encoding="utf-8") as source:
                answers = source.read().splitlines()
        drawn = picture(document, answers)
    except OSError as fault:
        sys.exit("picture.py: %s" % fault)
    except (ValueError, LookupError, TypeError, AttributeError):
        sys.exit("picture.py: this is no document with a topology and a configuration; docs/FORMATS.md has the form")
    sys.stdout.write(drawn)


if __name__ == "__main__":
    main()
