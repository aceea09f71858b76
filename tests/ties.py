#!/usr/bin/env python3
"""Holds the answers of schedules against ties that are found here by themselves: ties.py FILE|FOLDER ..

A FILE is of lines, each an object with `name`, `document` and `answers`, as `tests/schedules.jsonl` is; in a FOLDER a case of
`run` is NAME.in and NAME.out, beside a NAME.args that is `run`. Of each document this keeps the configuration so far by its
edits that are answered `did`, and with it what it ties: the network number of each port number, the two network numbers of
each use number that a chain rule has, the address of each name of a compute node and the name at each of their addresses,
from the first time on. It says where an edit is answered `did` that would move one of them, where one is answered `refused
Tied ..` that moves nothing, or another tie first. It knows nothing else of networks, and nothing of the program. Needs Python
3.8. Ends with status 1 where it says anything.
"""
import json
import pathlib
import sys

KINDS = {"network": "networks", "port": "ports", "policy": "policies", "service": "services", "chain": "chains", "node": "nodes"}


def edited(config, edit):
    """The configuration that an edit makes."""
    config = {kind: list(config.get(kind) or []) for kind in KINDS.values()}
    (deed, what), = edit.items()
    (kind, thing), = what.items()
    held = config[KINDS[kind]]
    if deed == "delete":
        config[KINDS[kind]] = [it for it in held if it["name"] != thing]
    elif any(it["name"] == thing["name"] for it in held):
        config[KINDS[kind]] = [thing if it["name"] == thing["name"] else it for it in held]
    else:
        held.append(thing)
    return config


def tied_by(config):
    """What a configuration ties, in the document's order: ports, then uses, then compute nodes. Of each tie what it is of, as
    it is printed, what it is kept by, and where that is."""
    numbers = {it["name"]: it["id"] for it in config.get("networks") or []}
    for port in config.get("ports") or []:
        yield f"port {port['id']}", ("port", port["id"]), numbers.get(port["network"])
    for policy in config.get("policies") or []:
        for rule in policy["rules"]:
            if rule["action"] == "chain":
                ends = numbers.get(rule["source"]), numbers.get(rule["destination"])
                yield f"use {rule['use']}", ("use", rule["use"]), ends
    for node in config.get("nodes") or []:
        yield f"node {node['address']}", ("name", node["name"]), node["address"]
        yield f"node {node['address']}", ("address", node["address"]), node["name"]


def first_moved(ties, config):
    """The first tie that a configuration breaks."""
    return next((what for what, key, where in tied_by(config) if ties.get(key, where) != where), None)


def tie(ties, config):
    """Ties what a configuration has, where it has no tie."""
    for what, key, where in tied_by(config):
        ties.setdefault(key, where)


def faults(document, answers):
    """Where the answers are not as ties ask: the number of an event, and what is wrong there."""
    told = {}
    for line in answers.splitlines():
        number, _, rest = line.partition(" ")
        if number.isdigit():
            told[int(number)] = rest
    config = {**document["configuration"], "nodes": document["topology"]["nodes"]}
    ties = {}
    tie(ties, config)
    for number, event in enumerate(document["events"], 1):
        if not isinstance(event, dict) or "edit" not in event or number not in told:
            continue
        answer = told[number]
        made = edited(config, event["edit"]) if answer == "did" or answer.startswith("refused Tied") else config
        moved = first_moved(ties, made)
        if answer == "did" and moved:
            yield number, f"is answered did, and moves {moved}"
        elif answer.startswith("refused Tied") and answer != f"refused Tied {moved}":
            yield number, f"is answered {answer}, and moves {moved} first"
        if answer == "did" and not moved:
            config = made
            tie(ties, config)


def schedules_of(path):
    path = pathlib.Path(path)
    if path.is_file():
        for line in path.read_text(encoding="utf-8").splitlines():
            schedule = json.loads(line)
            yield schedule["name"], schedule["document"], schedule["answers"]
        return
    for case in sorted(path.glob("*.args")):
        if case.read_text().split() == ["run"] and case.with_suffix(".status").read_text().strip() == "0":
            yield case.stem, case.with_suffix(".in").read_text(encoding="utf-8"), case.with_suffix(".out").read_text()


def main(paths):
    count = wrong = tied = 0
    for path in paths:
        for name, document, answers in schedules_of(path):
            count += 1
            tied += answers.count(" refused Tied ")
            for number, what in faults(json.loads(document), answers):
                wrong += 1
                print(f"{name}: event {number} {what}")
    print(f"{count} schedules, {tied} edits refused for a tie, {wrong} wrong")
    return 1 if wrong or not count else 0


if __name__ == "__main__":
    if len(sys.argv) < 2:
        sys.exit(__doc__)
    sys.exit(main(sys.argv[1:]))
