#!/usr/bin/env python3
"""Compares the lines of JSON that `inspect` writes with its lines of text, and says where they differ.

usage: tests/inspect_json.py PROGRAM [COUNT [SEED]]

PROGRAM is the built `inspect`. COUNT random documents are made (50 where none is given) for each command that has lines of JSON. Each is
answered twice, without `--json` and with it. Each line of JSON, read by Python's json, is to be an object whose members are in order and
spell out the line of text, or for `why` the lines of a packet, and each name beside a number is to be the document's; the exit status is
to be the same, and so is the line of a document that is not fit. Needs Python 3.8. Ends with status 1 where something differs.
"""
import copy
import json
import random
import subprocess
import sys
import tempfile

import inspect_diff
import inspect_expect
import inspect_hitless
import inspect_ways


def named(items, number, by="id"):
    return [it["name"] for it in items if it[by] == number]


class Names:
    """Spells values of one configuration as the text does, and keeps what is named otherwise than there."""

    def __init__(self, configuration, wrong):
        self.configuration, self.wrong = configuration, wrong

    def check(self, items, value, number, name, by="id"):
        if (named(self.configuration[items], value[number], by) or [None]) != [value[name]]:
            self.wrong.append(f"{value} is not named as in the document")

    def rule(self, value):
        self.check("policies", value, "sequence", "policy", "sequence")
        return f"{value['sequence']}/{value['position']}"

    def services(self, values):
        for value in values:
            self.check("services", value, "id", "name")
        return ",".join(str(value["id"]) for value in values) or "-"

    def object(self, value):
        kind = value["kind"]
        if kind == "network":
            return f"network {value['name']}"
        if kind == "subnet":
            return f"subnet {value['network']} {value['prefix']}"
        self.check(f"{kind}s", value, "id", "name")
        if kind == "port":
            return f"port {value['id']} network {value['network']} address {value['address']} node {value['node']}"
        return f"service {value['id']} node {value['node']}"

    def fate(self, value):
        rule = self.rule(value["rule"]) if value["rule"] else "-"
        services = self.services(value["services"])
        if value["fate"] != "through":
            return f"{value['fate']} {rule}" if services == "-" else f"{value['fate']} with services"
        return f"through {rule} services {services}"

    def outcome(self, value):
        """An outcome, or what is expected of a packet."""
        if value["fate"] == "delivered":
            self.check("ports", value["port"], "id", "name")
            return f"delivered port {value['port']['id']} services {self.services(value['services'])}"
        words = " ".join([value["fate"]] + [value[it] for it in ("why",) if it in value])
        if value.get("why") != "denied" or "rule" not in value:
            return words + ("" if not value.get("rule") else " with a rule")
        return f"{words} {self.rule(value['rule']) if value['rule'] else '-'}"

    def unmet(self, value):
        if "otherwise" in value:
            return f"packets {value['packets']} otherwise {value['otherwise']}"
        return f"{value['packet']} expected {self.outcome(value['expected'])} but {self.outcome(value['outcome'])}"

    def cause(self, value):
        kind = value["kind"]
        if kind == "attached":
            return f"attached network {value['network']} policy {value['policy']}"
        if kind not in ("skipped", "decided"):
            return f"{kind} network {value['network']}"
        rule = value["rule"]
        self.rule(rule)
        place = f"{kind} policy {rule['policy']} position {rule['position']}"
        if kind == "decided":
            return f"{place} {value['reading']}"
        return f"{place} forwards {value['forwards']} mirrored {value['mirrored'] or '-'}"

    def owner(self, value):
        """What a table is of."""
        if value is None:
            return "-"
        return f"network {value['name']}" if value["kind"] == "network" else f"{value['kind']} {value['use']} hop {value['hop']}"

    def step(self, value):
        """A step of a walk."""
        row, to = value["row"], value["to"]
        if to:
            self.check(f"{to['kind']}s", to, "id", "name")
        taken = f"{row['prefix']} {row['next_hop']} {row['label']}" if row else "-"
        leads = f"{to['kind']} {to['name'] or '-'}" if to else "-"
        return f"agent {value['agent'] or '-'} table {value['table']} {taken} of {self.owner(value['of'])} to {leads}"

    def explained(self, value):
        told = [self.outcome(value["outcome"])] + [self.cause(it) for it in value["causes"]] + [self.step(it) for it in value["walk"]]
        return "\n".join(f"{value['packet']} {it}" for it in told)

    def idle(self, value):
        if value["kind"] == "rule":
            behind = ",".join(map(self.rule, value["behind"])) or "-"
            return f"rule {self.rule(value['rule'])} unused behind {behind}"
        if value["kind"] == "policy":
            return f"policy {value['name']} attached by {value['networks']}"
        return f"chain {value['name']} unused"


class Edits:
    """Spells what is said of edits, and names ports as the configuration does that the last edit made."""

    def __init__(self, document, edits, wrong):
        self.document, self.edits, self.wrong = document, edits, wrong

    def way(self, value):
        return f"use {value['use']}" if value["way"] == "use" else value["way"]

    def packet(self, value):
        names = Names(self.document["configuration"], self.wrong)
        for port in (value["from"], value["to"], value["other_port"]):
            if port:
                names.check("ports", port, "id", "name")
        differs = value["difference"] + (f" {value['other_port']['id']}" if value["other_port"] else "")
        ways = f"was {self.way(value['was'])} is {self.way(value['becomes'])}: {differs}"
        packet = f"tuple {value['protocol']} {value['sport']} {value['dport']}"
        return f"from {value['from']['id']} to {value['to']['id']} {packet} {ways}"

    def said(self, value):
        if "refused" in value:
            return f"{value['edit']} refused {value['refused']}"
        if "interrupts" not in value:
            return f"{value['edit']} {self.packet(value)}"
        self.document = inspect_hitless.made(self.document, self.edits[value["edit"] - 1])
        return f"{value['edit']} interrupts {value['interrupts']}" if value["interrupts"] else f"{value['edit']} hitless"


def region(value):
    low, high = value["protocols"]
    protocols = "any" if (low, high) == (0, 255) else str(low) if low == high else f"{low}-{high}"
    source, destination = ("-".join(map(str, value[ports])) for ports in ("source_ports", "destination_ports"))
    return f"{value['from']} > {value['to']} protocol {protocols} source {source} destination {destination}"


def way(names, value):
    rule, services = names.rule(value["rule"]), names.services(value["services"])
    return f"{region(value)} {value['fate']} {rule} services {services}"


def change(before, after, value):
    if "went" in value:
        return "went " + before.object(value["went"])
    if "came" in value:
        return "came " + after.object(value["came"])
    return f"{region(value)}: {before.fate(value['was'])} => {after.fate(value['becomes'])}"


def run(program, words, text):
    made = subprocess.run([program, *words], input=text.encode(), stdout=subprocess.PIPE, stderr=subprocess.PIPE)
    return made.returncode, made.stdout.decode()


def compared(program, command, words, text, spelled, wrong):
    """Whether both answers are whole; what differs between them is kept."""
    status, lines = run(program, [command, *words], text)
    json_status, json_lines = run(program, [command, "--json", *words], text)
    if status != json_status:
        wrong.append(f"{command}: status {status}, and {json_status} with --json")
    if status > 1:
        if lines != json_lines:
            wrong.append(f"{command}: {lines} and with --json {json_lines}")
        return False
    said = []
    for line in json_lines.splitlines():
        value = json.loads(line)
        if json.dumps(value, sort_keys=True, separators=(",", ":")) != line:
            wrong.append(f"{command}: not spelled so: {line}")
        said.append(spelled(value) + "\n")
    if "".join(said) != lines:
        wrong.append(f"{command}: {lines} and with --json {json_lines}")
    return True


def tried(program, chance, wrong):
    """Answers one random document by each command, and says whether it was fit."""
    doc = inspect_ways.document(chance)
    names = Names(doc["configuration"], wrong)
    text = json.dumps(doc)
    if not compared(program, "ways", ["-"], text, lambda value: way(names, value), wrong):
        return False
    a, b = chance.sample([network["name"] for network in doc["configuration"]["networks"]], 2)
    compared(program, "ways", ["-", a, b], text, lambda value: way(names, value), wrong)
    compared(program, "unused", ["-"], text, names.idle, wrong)
    return True


def packets_tried(program, chance, wrong):
    """The same of a document with packets, of which something is expected or nothing."""
    doc = inspect_expect.peopled(chance)
    names = Names(doc["configuration"], wrong)
    if not compared(program, "why", ["-"], json.dumps(doc), names.explained, wrong):
        return False
    for packet in doc["packets"]:
        packet["expect"] = inspect_expect.drawn(chance, inspect_expect.outcome(doc["configuration"], packet))[0]
    compared(program, "expect", ["-"], json.dumps(doc), names.unmet, wrong)
    return True


def edits_tried(program, chance, wrong):
    """The same of a document with edits."""
    doc = inspect_hitless.document(chance)
    edits = [inspect_hitless.edit_of(chance, doc) for _ in range(chance.randint(1, 6))]
    return compared(program, "hitless", ["-"], json.dumps({**doc, "edits": edits}), Edits(doc, edits, wrong).said, wrong)


def pair_tried(program, chance, folder, wrong):
    before = inspect_diff.document(chance)
    after = copy.deepcopy(before)
    for _ in range(chance.randint(1, 4)):
        inspect_diff.change(chance, after["configuration"])
    old = f"{folder}/old.json"
    with open(old, "w") as it:
        json.dump(before, it)
    names = [Names(document["configuration"], wrong) for document in (before, after)]
    return compared(program, "diff", [old, "-"], json.dumps(after), lambda value: change(*names, value), wrong)


def main():
    if not 2 <= len(sys.argv) <= 4:
        sys.exit(__doc__)
    program, count, seed = sys.argv[1], int((sys.argv[2:] or ["50"])[0]), int((sys.argv[3:] or ["1"])[0])
    chance, fit, refused, wrong = random.Random(seed), [0, 0, 0, 0], 0, []
    with tempfile.TemporaryDirectory() as folder:
        while min(fit) < count:
            was = len(wrong)
            found = [it(program, chance, wrong) for it in (tried, packets_tried, edits_tried)]
            found.append(pair_tried(program, chance, folder, wrong))
            fit, refused = [a + b for a, b in zip(fit, found)], refused + found.count(False)
            for line in wrong[was : was + 5]:
                print(line)
    documents, packets, edits, pairs = fit
    print(f"{documents} documents, {packets} with packets, {edits} with edits, {pairs} pairs, {refused} more refused, {len(wrong)} differences")
    sys.exit(1 if wrong else 0)


if __name__ == "__main__":
    main()
