#!/usr/bin/env python3
"""Compares docs/overlay.schema.json with what the built programs answer of documents, and says where they disagree.

A document that the schema refuses is to be answered `bad document`, and one that is answered `bad document` is to be refused
by the schema at the place that the program names, unless the fault is one that a schema cannot say: a number of another
spelling, a range that descends, members that do not ascend, a service that is not there or comes twice, or a message. Of each
place that the program names, but of members that the form does not have, it is to say to people what the form wants there.

The documents are those of examples/, each for every command; those of tests/*.jsonl; and documents that are made here: of one
of each command each part in turn is left out, joined by another member, and put in place by values of every kind and by both
sides of each bound.

usage: tests/schema.py OVERLAY INSPECT [DOCUMENTS ..]

OVERLAY and INSPECT are the built programs. With DOCUMENTS only these are compared, each a file, for every command, or a folder, in which
NAME.in is a document and NAME.args the command. Documents of more than 1,000,000 octets are left out, and so are commands
that have no definition in the schema. Needs Python 3.8 and python3-jsonschema, 4.0 or later. Ends with status 1 where the two
disagree.
"""
import collections
import copy
import json
import pathlib
import re
import subprocess
import sys

import jsonschema

TOP = pathlib.Path(__file__).resolve().parent.parent
SCHEMA = json.loads((TOP / "docs" / "overlay.schema.json").read_text(encoding="utf-8"))
COMMANDS = [choice["$ref"].rpartition("/")[2] for choice in SCHEMA["anyOf"]]
OF_INSPECT = ("expect", "hitless")  # the commands of inspect that have a form of their own
LARGEST = 1_000_000
SECONDS = 120

WORDS = [
    "", "config", "round", "settle", "show", "closed", "expired", ">", "<", "<>", "pass", "deny", "chain", "A", "x y", "é", "x\n",
    "a" * 32, "a" * 33, "a-z_09",
]
ADDRESSES = [
    "0.255.255.255", "1.0.0.0", "223.255.255.255", "224.0.0.0", "255.255.255.255", "256.1.1.1", "1.1.1.256", "01.1.1.1",
    "1.1.1", "1.1.1.",
    "1.1.1.1.1", "1.1.1.1\n", "1.1.1.1/32",
]
PREFIXES = [
    "0.0.0.0/0", "128.0.0.0/0", "128.0.0.0/1", "64.0.0.0/1", "10.0.0.0/7", "11.0.0.0/7", "10.1.0.0/15", "10.2.0.0/15",
    "10.1.0.0/16", "10.1.2.0/22",
    "10.1.4.0/22", "10.1.0.1/31", "10.1.0.2/31", "10.1.0.1/32", "10.1.0.0/33", "10.1.0.0/024", "10.1.0.0/", "10.1.0.0/-1",
    "10.1.0/24",
    "10.1.0.0/24\n", "10.1.00.0/24", "300.0.0.0/8", "10.1.0.0",
]
NUMBERS = [
    -1, 0, 1, 2, 255, 256, 3071, 3072, 16383, 16384, 23455, 23456, 23457, 65534, 65535, 65536, 524271, 524272, 1000000, 1000001,
    4294967294, 4294967295, 2**64 - 1, 2**64, 1.0, 1.5, 1e2, -0.0, 1e300,
]
LISTS = [
    [], [0], [0, 0], [1, 0], [0, 65535], [0, 65536], [65535, 0], [0, 1.0], [0, 1, 2], [2, 2], [None], ["n1"], ["n1", "n2"],
    ["n1", "n2", "n1"],
    ["any"], ["A", "n1"], list(range(16)), list(range(17)), ["n1", "n2", 0], ["n1", "n2", 1], ["config", "c1", 1000000],
    ["n1", "n2", 1000001], ["n1", "n2"], [[]], [{}],
]
OBJECTS = [{"x": 0}, {"put": {}}, {"put": {"rule": 0}, "delete": {"port": "x"}}, {"delete": {"chain": "any"}}, {"show": "c1"}]
# what is said to people of a place where the program does not know what the form wants
NO_PHRASE = b": docs/FORMATS.md has it\n"
KINDS = [None, True, "x", "any", 0, 1.5, [], {}]
MEMBERS = ["", "x", "chain", "use", "$schema"]

HEAD = "ff" * 16
MESSAGES = [
    HEAD + "001304", HEAD + "001d0104fc000000c000020200", HEAD + "001d0104fc000000c000020b00",
    HEAD + "001d0104fc000001c000020b00",
    HEAD + "001d0104fc000002c000020b00", HEAD + "001d0104fc000003c000020b00", HEAD + "001d0104fc00000000000000" + "00",
    HEAD + "001d0103fc000000c000020b00", HEAD.upper() + "001D0104FC000000C000020B00", HEAD + "001d0104fc000000c000020b0",
    HEAD + "001e0104fc000000c000020b00", HEAD + "001d0104fc000000c000020b0000", HEAD + "00170200000000", HEAD + "001702000000",
    HEAD + "0017020000000000", HEAD + "00180200000000", HEAD + "00170200000001", HEAD + "0017 0200000000",
    HEAD[2:] + "00170200000000",
    "fe" + HEAD[2:] + "00170200000000", HEAD + "00170200000000\n", HEAD + "10000200000000" + "00" * 4073,
    HEAD + "1001020000" * 2000,
]

# every kind of event and of edit; what the events refer to is of no account to the form
EVENTS = [
    "round", {"deliver": ["c1", "n1", 1]}, {"deliver-bytes": ["c1", "n1", 1]}, {"lose": ["c1", "c2"]}, {"connect": ["c1", "c2"]},
    {"restart": "n1"}, {"show": "c1"}, {"break": ["c1", "n1", 1]},
    {"trace": {"port": 1, "to": "10.2.0.2", "protocol": 6, "sport": 50000, "dport": 80}},
    {"edit": {"put": {"network": {"name": "red", "id": 1, "subnets": ["10.1.0.0/24"], "policies": ["sec"]}}}},
    {"edit": {"put": {"port": {"name": "vm1", "id": 1, "network": "red", "address": "10.1.0.1", "node": "n1"}}}},
    {"edit": {"put": {"policy": {"name": "low", "sequence": 21, "rules": [
        {"direction": ">", "source": "any", "destination": "red", "protocol": 6, "source_ports": [0, 65535], "destination_ports": [80, 80],
         "action": "pass"}]}}}},
    {"edit": {"put": {"service": {"name": "s1", "id": 1, "node": "n1"}}}},
    {"edit": {"put": {"chain": {"name": "pair", "hops": ["s1"]}}}},
    {"edit": {"put": {"node": {"name": "n9", "address": "192.0.2.19", "controllers": ["c1"]}}}},
    *({"edit": {"delete": {kind: "gone"}}} for kind in ("network", "port", "policy", "service", "chain", "node")),
]


EXPECTED = ["dropped denied", {"port": 2, "services": [7]}]  # of a packet


def whole(spelled):
    """A number without fraction and exponent, as the program reads it."""
    return float(spelled) if spelled == "-0" or len(spelled) > 25 else int(spelled)


def read(text):
    """The value of a text; an error where it is no JSON."""
    return json.loads(text.decode("utf-8"), parse_int=whole)


def ends_where_it_says(validator, pattern, text, _schema):
    """The keyword `pattern`, of which `$` is the end of the text, and in Python also stands before a last line feed."""
    if validator.is_type(text, "string") and not re.search(pattern.replace("$", r"\Z"), text):
        yield jsonschema.ValidationError(f"{text!r} does not match {pattern!r}")


def validators():
    jsonschema.Draft202012Validator.check_schema(SCHEMA)
    kind = jsonschema.validators.extend(jsonschema.Draft202012Validator, {"pattern": ends_where_it_says})
    return {
        command: kind({"$schema": SCHEMA["$schema"], "$ref": f"#/$defs/{command}", "$defs": SCHEMA["$defs"]}) for command in COMMANDS
    }


def spelled(parts):
    """A path in the spelling of the program."""
    path = ""
    for part in parts:
        path += f"[{part}]" if isinstance(part, int) else f".{part}" if path else part
    return path


def places(errors):
    """The paths at which a schema refuses."""
    for error in errors:
        where = list(error.absolute_path)
        if error.validator == "required":
            names = [name for name in error.validator_value if name not in error.instance]
        elif error.validator == "additionalProperties":
            names = [name for name in error.instance if name not in error.schema["properties"]]
        else:
            names = []
            yield spelled(where)
        yield from (spelled([*where, name]) for name in names)
        yield from places(error.context)


def answer(programs, command, text):
    """The status of a run, or None where it takes long, and of a bad document the path, the kind, and what is said to people."""
    overlay, inspect = programs
    words = [inspect, command, "-"] if command in OF_INSPECT else [overlay, command]
    try:
        run = subprocess.run(words, input=text, capture_output=True, timeout=SECONDS)
    except subprocess.TimeoutExpired:
        return None, "", "", b""
    if run.returncode != 6:
        return run.returncode, "", "", b""
    path, _, kind = run.stdout.decode()[len("bad document "):-1].rpartition(" ")
    return 6, path, kind, run.stderr


def value_at(document, path):
    for name, place in re.findall(r"([^.\[\]]+)|\[(\d+)\]", path):
        document = document[name] if name else document[int(place)]
    return document


def unsaid(command, document, path, kind):
    """Why a schema cannot say a fault, or None."""
    try:
        value = value_at(document, path)
    except (LookupError, TypeError):
        return None
    if kind == "Kind" and isinstance(value, float) and value == int(value):
        return "a number of another spelling"
    if kind != "Range":
        return None
    if path.endswith("_ports") and len(value) == 2 and value[0] > value[1]:
        return "a range that descends"
    group = re.fullmatch(r"groups\[(\d+)\]\.(service|members)", path)
    if group and group[2] == "members" and any(low >= high for low, high in zip(value, value[1:])):
        return "members that do not ascend"
    if group and group[2] == "service":
        there = [service["name"] for service in document["configuration"].get("services", [])]
        earlier = [other["service"] for other in document["groups"][:int(group[1])]]
        if value not in there or value in earlier:
            return "a service that is not there or comes twice"
    if command == "graceful" and re.fullmatch(r"events\[\d+\]\.(opened|update)", path):
        return "a message"
    return None


def verdict(programs, validator, command, text):
    """What the two say of a document, and where they disagree."""
    if len(text) > LARGEST:
        return "left out", None
    status, path, kind, said = answer(programs, command, text)
    if status not in (0, 1, 6, 7):
        return f"answered with status {status}" if status else f"without an answer in {SECONDS} seconds", None
    try:
        document = read(text)
    except (ValueError, RecursionError):
        return "disagreed", "is JSON to the program alone"
    found = set(places(validator.iter_errors(document)))
    if status != 6:
        return ("disagreed", f"is read, and the schema refuses {sorted(found)}") if found else ("read by both", None)
    if kind != "Unknown" and said.endswith(NO_PHRASE) and command not in OF_INSPECT:
        return "disagreed", f"is answered {path} {kind}, and people are not told what the form wants there"
    holder = path.rpartition(".")[0]
    if path in found or kind == "Unknown" and holder in found:
        return "refused by both", None
    reason = unsaid(command, document, path, kind)
    if reason:
        return f"refused by the program alone for {reason}", None
    return "disagreed", f"is answered {path} {kind}, and the schema refuses {sorted(found) or 'nothing'}"


def inside(value, path=()):
    """Each part of a document, by its path."""
    yield path
    for name in value if isinstance(value, dict) else range(len(value)) if isinstance(value, list) else ():
        yield from inside(value[name], (*path, name))


def with_change(document, path, change):
    """A document one of whose parts is changed: `change` is given what holds the part, and its name there."""
    made = {"": copy.deepcopy(document)}
    held, name = made, ""
    for part in path:
        held, name = held[name], part
    change(held, name)
    return json.dumps(made[""]).encode()


def changes(part):
    """Each change of a part, with its name."""
    more = {int: NUMBERS, str: WORDS, list: LISTS, dict: OBJECTS}[type(part)]
    if more is WORDS:
        more = MESSAGES if part.startswith(HEAD) else PREFIXES if "/" in part else ADDRESSES if "." in part else WORDS
    yield "left out", lambda held, name: held.pop(name)
    for value in KINDS + more:
        yield f"is {json.dumps(value)[:60]}", lambda held, name, value=value: held.__setitem__(name, value)
    for member in MEMBERS if isinstance(part, dict) else ():
        yield f"with {member!r}", lambda held, name, member=member: held[name].setdefault(member, 0)


def changed(command, document, seen):
    """Documents each with one change, of parts that differ by their kind, or by their place in the object that holds them."""
    for path in inside(document):
        part, shape = document, (command,)
        for name in path:
            shape = (*shape, "*") if isinstance(part, list) else (tuple(part), name)
            part = part[name]
        shape = (*shape, type(part), tuple(part) if isinstance(part, dict) else ())
        if shape in seen:
            continue
        seen.add(shape)
        for what, change in changes(part):
            if path or what != "left out":
                yield f"made: {command}, {spelled(path) or 'the whole'} {what}", command, with_change(document, path, change)


def example(name):
    return read((TOP / "examples" / name).read_bytes())


def expecting(packet, what):
    return {**packet, "expect": what}


def made():
    """The documents that are made here."""
    schedule, scale, log, replies = (example(f"{name}.json") for name in ("schedule", "scale", "restart", "replies"))
    pair, seen = {name: scale[name] for name in ("topology", "configuration")}, set()
    yield from changed("run", {**schedule, "events": EVENTS}, seen)
    yield from changed("scale", scale, seen)
    yield from changed("reach", {**pair, "packets": scale["packets"]}, seen)
    yield from changed("hitless", example("edits.json"), seen)
    yield from changed("expect", {**pair, "packets": [*map(expecting, scale["packets"], EXPECTED)]}, seen)
    yield from changed("compile", pair, seen)
    yield from changed("flows", replies, seen)
    yield from changed("graceful", {"events": ["expired", *log["events"]]}, seen)


def shipped():
    """The documents that stand in the repository: name, command, text."""
    yield from given(sorted((TOP / "examples").glob("*.json")))
    for path in sorted((TOP / "tests").glob("*.jsonl")):
        for line in path.read_text(encoding="utf-8").splitlines():
            case = json.loads(line)
            yield f"{path.name} {case['name']}", " ".join(case.get("words", ["run"])), case.get("input", case.get("document")).encode()


def given(paths):
    """The documents of files and of folders."""
    for path in map(pathlib.Path, paths):
        if path.is_dir():
            for file in sorted(path.glob("*.in")):
                yield str(file), " ".join(file.with_suffix(".args").read_text().split()), file.read_bytes()
        else:
            for command in COMMANDS:
                yield f"{path.name} as {command}", command, path.read_bytes()


def main(programs, paths):
    kinds, counts = validators(), collections.Counter()
    for documents in (given(paths),) if paths else (shipped(), made()):
        for name, command, text in documents:
            if command not in kinds:
                counts["of a command without a definition"] += 1
                continue
            said, wrong = verdict(programs, kinds[command], command, text)
            counts[said] += 1
            if wrong:
                print(f"{name} {wrong}", flush=True)
    print(f"{sum(counts.values())} documents")
    for said, count in sorted(counts.items()):
        print(f"{count} {said}")
    return 1 if counts["disagreed"] or not counts["refused by both"] else 0


if __name__ == "__main__":
    if len(sys.argv) < 3:
        sys.exit(__doc__)
    sys.exit(main(sys.argv[1:3], sys.argv[3:]))
