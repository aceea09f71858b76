#!/usr/bin/env python3
"""Draws documents, and compares the drawing of docs/ with what the sources give.

docs/chain.svg is to be what tools/picture.py draws of examples/reach.json with what `reach` prints of it. Then each document of `run` and `scale` that the tests have, and
each example that has a topology, is drawn, with its answers where they are there: the drawing is to be XML, no two
boxes overlap, all words lie in the drawing and none goes over the edge of a box, and there is a line for each
session, each attached policy and each chain rule, and the way of each packet that was answered; the uses of chains
and the circuits are those that `compile` prints.

usage: tests/pictures.py PROGRAM

PROGRAM is the built `overlay`. Needs Python 3.8. Ends with status 1 where something is otherwise.
"""
import glob
import json
import os
import re
import subprocess
import sys
import xml.etree.ElementTree as xml

HERE = os.path.dirname(os.path.abspath(__file__))
TOP = os.path.dirname(HERE)
sys.dont_write_bytecode = True
sys.path.insert(0, os.path.join(TOP, "tools"))
import picture

SVG = "{http://www.w3.org/2000/svg}"
LETTER = 7.23  # the width of a letter of DejaVu Sans Mono of 12 units
HEIGHT = 10


def text_of(*parts):
    with open(os.path.join(TOP, *parts), encoding="utf-8") as source:
        return source.read()


def faults_of(drawn):
    """What is wrong with a drawing by itself."""
    try:
        root = xml.fromstring(drawn)
    except xml.ParseError as fault:
        return [f"no XML: {fault}"]
    shapes = [tuple(float(shape.get(k)) for k in ("x", "y", "width", "height")) for shape in root.iter(SVG + "rect")]
    (_, _, wide, high), boxes = shapes[0], shapes[1:]
    faults = []
    for i, (x, y, w, h) in enumerate(boxes):
        if x < 0 or y < 0 or x + w > wide or y + h > high:
            faults.append(f"a box at {x} {y} is outside")
        for a, b, c, d in boxes[i + 1:]:
            if x < a + c and a < x + w and y < b + d and b < y + h:
                faults.append(f"boxes at {x} {y} and {a} {b} overlap")
    for text in root.iter(SVG + "text"):
        x, y, w = float(text.get("x")), float(text.get("y")), LETTER * len(text.text)
        if x < 0 or x + w > wide or y - HEIGHT < 0 or y > high:
            faults.append(f"{text.text!r} is outside")
        for a, b, c, d in boxes:
            touches = x < a + c and a < x + w and y - HEIGHT < b + d and b < y
            if touches and not (a <= x and x + w <= a + c and b <= y - HEIGHT and y <= b + d):
                faults.append(f"{text.text!r} goes over the edge of a box")
    return faults


def wanted_lines(document):
    """How many lines of each paint a document has, those of the three legends that look alike beside."""
    known, configuration = document["topology"], document["configuration"]
    controls = {c["name"] for c in known["controllers"]}
    policies = [p["name"] for p in configuration.get("policies", [])]
    chains = [c["name"] for c in configuration.get("chains", [])]
    rules = [r for p in configuration.get("policies", []) for r in p["rules"]]
    return {
        "feed": 1 + len(known["controllers"]),
        "peer": 1 + len(known["controllers"]) * (len(known["controllers"]) - 1) // 2,
        "agent": 2 + sum(name in controls for node in known["nodes"] for name in node["controllers"]),
        "edge": sum(name in n.get("policies", []) for n in configuration.get("networks", []) for name in policies),
        "warn": sum(r["action"] == "chain" and r["chain"] in chains for r in rules),
    }


def faults_of_uses(program, document, drawn):
    given = json.dumps({name: document[name] for name in ("topology", "configuration")})
    run = subprocess.run([program, "compile"], input=given.encode(), capture_output=True, check=False)
    if run.returncode != 0:
        return [f"compile ended with status {run.returncode}"]
    printed = run.stdout.decode()
    faults = []
    if set(re.findall(r">use (\d+), chain ", drawn)) != set(re.findall(r"^use (\d+) ", printed, re.M)):
        faults.append("the uses are not those of compile")
    if set(re.findall(r">(?:left|right) circuit (\d+)<", drawn)) != set(
            re.findall(r"^attach \d+ circuit (\d+) ", printed, re.M)):
        faults.append("the circuits are not those of compile")
    return faults


def faults_of_document(program, document, answers):
    drawn = picture.picture(document, answers)
    faults = faults_of(drawn) + faults_of_uses(program, document, drawn)
    for paint, wanted in wanted_lines(document).items():
        found = len(re.findall(f'<path class="s-{paint}"', drawn))
        if found != wanted:
            faults.append(f"{found} lines of {paint} and not {wanted}")
    ways = sum(bool(re.match(r"\d+ (delivered|dropped) ", line)) for line in answers)
    found = len(re.findall(r">\d+: to [0-9.]+, protocol \d+, ports ", drawn))
    if found != ways:
        faults.append(f"{found} ways and not {ways}")
    return faults


def documents():
    """Each document that is drawn, with its name and its answers."""
    for line in text_of("tests", "schedules.jsonl").splitlines():
        case = json.loads(line)
        yield f"schedule {case['name']}", json.loads(case["document"]), case["answers"].splitlines()
    for line in text_of("tests", "scale.jsonl").splitlines():
        case = json.loads(line)
        if case["status"] == 0:
            yield f"scale {case['name']}", json.loads(case["input"]), case["output"].splitlines()
    for path in sorted(glob.glob(os.path.join(TOP, "examples", "*.json"))):
        document = json.loads(text_of(path))
        if isinstance(document, dict) and "topology" in document:
            yield os.path.basename(path), document, []


def main(program):
    wrong = 0
    example = text_of("examples", "reach.json")
    run = subprocess.run([program, "reach"], input=example.encode(), capture_output=True, check=True)
    chain = picture.picture(json.loads(example), run.stdout.decode().splitlines())
    if chain != text_of("docs", "chain.svg"):
        wrong += 1
        print("docs/chain.svg is not what the sources give")
    for fault in faults_of(chain):
        wrong += 1
        print(f"docs/chain.svg: {fault}")
    count = 0
    for name, document, answers in documents():
        count += 1
        for fault in faults_of_document(program, document, answers):
            wrong += 1
            print(f"{name}: {fault}")
    print(f"{count} documents, {wrong} faults")
    return 1 if wrong or not count else 0


if __name__ == "__main__":
    if len(sys.argv) != 2:
        sys.exit(__doc__)
    sys.exit(main(sys.argv[1]))
