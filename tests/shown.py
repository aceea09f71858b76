#!/usr/bin/env python3
"""Compares what nodes show, once a network is settled, with what `compile` prints of the configuration of that moment.

Runs the built program on each schedule of tests/schedules.jsonl. After a `settle` that answers settled, and up to the next
event that is no `show` and no `trace`, each `show` of a node is to print exactly the lines that `compile` prints of that
node for the topology and the configuration then: the opening ones with each edit that was answered by `did`.

usage: tests/shown.py PROGRAM

PROGRAM is the built `overlay`. Needs Python 3.8. Ends with status 1 where a show printed something else.
"""
import json
import os
import re
import subprocess
import sys

SCHEDULES = os.path.join(os.path.dirname(os.path.abspath(__file__)), "schedules.jsonl")
LISTS = {"network": "networks", "port": "ports", "policy": "policies", "service": "services", "chain": "chains"}


def ran(program, word, document):
    run = subprocess.run([program, word], input=json.dumps(document).encode(), capture_output=True, check=False)
    return run.stdout.decode().splitlines()


def edited(document, edit):
    """The topology and the configuration with one object put or deleted."""
    (what, change), = edit.items()
    (kind, value), = change.items()
    part, held = ("topology", "nodes") if kind == "node" else ("configuration", LISTS[kind])
    objects = list(document[part].get(held, []))
    made = {**document, part: {**document[part], held: objects}}
    name = value["name"] if what == "put" else value
    places = [place for place, found in enumerate(objects) if found["name"] == name]
    if what == "delete":
        del objects[places[0]]
    elif places:
        objects[places[0]] = value
    else:
        objects.append(value)
    return made


def answers_of(lines):
    """The lines of each answer: each begins with the number of its event."""
    answers = []
    for line in lines:
        if re.match(rf"{len(answers) + 1} ", line):
            answers.append([line])
        else:
            answers[-1].append(line)
    return answers


def shows(program, document):
    """How many shows of a settled network there are, and those that printed something else."""
    given, settled, compared, wrong = {part: document[part] for part in ("topology", "configuration")}, False, 0, []
    for event, answer in zip(document["events"], answers_of(ran(program, "run", document))):
        if event == "settle":
            settled = " settled " in answer[0]
        elif isinstance(event, dict) and "edit" in event:
            settled = False
            if answer[0].endswith(" did"):
                given = edited(given, event["edit"])
        elif isinstance(event, dict) and "show" in event:
            if settled and not answer[0].endswith(" idle"):
                whole = ran(program, "compile", given)
                begins = (f"control {event['show']} ", f"agent {event['show']} ")
                compared += 1
                if answer[1:] != [line for line in whole if line.startswith(begins)]:
                    wrong.append(answer[0])
        elif not (isinstance(event, dict) and "trace" in event):
            settled = False
    return compared, wrong


def main(program):
    compared, failed = 0, 0
    with open(SCHEDULES, encoding="utf-8") as lines:
        for schedule in map(json.loads, lines):
            count, wrong = shows(program, json.loads(schedule["document"]))
            compared += count
            failed += len(wrong)
            for answer in wrong:
                print(f"{schedule['name']}: {answer}")
    print(f"{compared} shows of settled networks, {failed} that are not compiled")
    return 1 if failed or not compared else 0


if __name__ == "__main__":
    if len(sys.argv) != 2:
        sys.exit(__doc__)
    sys.exit(main(sys.argv[1]))
