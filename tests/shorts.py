#!/usr/bin/env python3
"""Makes documents of short ones and short ones of documents by tools/short.py, and says where they are not what they should be.

The example of its help gives the document that stands here, and examples/cloud.txt that of examples/cloud.json. Each document of
examples/ and each of tests/*.jsonl that is answered with status 0 is made short, with its numbers in the lines and with its
numbers kept, and the short one is to give that document again. Numbers are to stay when lines go, come and move. Short
documents, documents and kept numbers that are broken are to be refused at their line or their path, and answers to be led back
to their lines.

usage: tests/shorts.py

Needs Python 3.8. Ends with status 1 where something is otherwise.
"""
import json
import pathlib
import random
import subprocess
import sys
import tempfile
import textwrap

TOP = pathlib.Path(__file__).resolve().parent.parent
TOOL = TOP / "tools" / "short.py"
sys.dont_write_bytecode = True
sys.path.insert(0, str(TOP / "tools"))
import short

EXAMPLE = textwrap.dedent(short.__doc__[short.__doc__.index("    as 64512"):short.__doc__.index("A protocol is")])
ANY = [0, 65535]
STRICT = {
    "topology": {"as": 64512, "controllers": [{"name": "c1", "address": "192.0.2.1"}],
                 "nodes": [{"name": "n1", "address": "192.0.2.11", "controllers": ["c1"]}]},
    "configuration": {
        "networks": [{"name": "front", "id": 1, "subnets": ["10.1.0.0/24"], "policies": ["web"]},
                     {"name": "store", "id": 2, "subnets": ["10.2.0.0/24"], "policies": ["web"]}],
        "ports": [{"name": "vm1", "id": 1, "network": "front", "address": "10.1.0.1", "node": "n1"},
                  {"name": "vm2", "id": 2, "network": "store", "address": "10.2.0.2", "node": "n1"}],
        "policies": [{"name": "web", "sequence": 10, "rules": [
            {"direction": "<>", "source": "any", "destination": "any", "protocol": 6, "source_ports": ANY,
             "destination_ports": [22, 22], "action": "deny"},
            {"direction": ">", "source": "front", "destination": "store", "protocol": 17, "source_ports": [1024, 65535],
             "destination_ports": [514, 514], "action": "pass"},
            {"direction": "<>", "source": "front", "destination": "store", "protocol": "any", "source_ports": ANY,
             "destination_ports": ANY, "action": "chain", "chain": "guard", "use": 0}]}],
        "services": [{"name": "fw", "id": 1, "node": "n1"}],
        "chains": [{"name": "guard", "hops": ["fw"]}]},
    "packets": [{"port": 1, "to": "10.2.0.2", "protocol": 6, "sport": 50000, "dport": 22},
                {"port": 1, "to": "10.2.0.2", "protocol": 1, "sport": 0, "dport": 0}],
}
MORE = """
groups
    fw 1 2
capacity 3
steps
    trace tcp vm1 > vm2 1
events
    put port vm9 front 10.1.0.9 n1
    put policy web
        chain guard tcp front > store =5
    lose c1 n1
    break c1 n1 3
    delete port vm9
"""
HEAD = "as 64512\ncontroller c1 192.0.2.1\nnode n1 192.0.2.11 c1\n"  # three lines
RED = HEAD + "network red 10.1.0.0/24 web\nport vm1 red 10.1.0.1 n1\n"  # five

# a line behind the five above, on which of them the fault is told, and words of what is told
FAULTS = [
    ("vm x", 6, "`vm` is none of as, controller"), ("as 0", 6, "from 1 to 4294967294"), ("as 23456", 6, "is not 23456"),
    ("as 064", 6, "a number from 1"), ("as", 6, "the form is `as NUMBER`"), ("capacity 65536", 6, "from 1 to 65535"),
    ("controller c2 224.0.0.1", 6, "an address of a node"), ("controller config 192.0.2.2", 6, "`config`"),
    ("node n2 192.0.2.12", 6, "the form is `node NAME"), ("node n2 192.0.2.12 c1 c1 c1", 6, "the form is"),
    ("node N2 192.0.2.12 c1", 6, "and here is `N2`"), ("node n2 192.0.2.12 c1 =3", 6, "a node has no number"),
    ("network any", 6, "no network is named"), ("network a 10.1.0.0/33", 6, "a length up to 32"),
    ("network a 10.1.0.1/24", 6, "behind its length"), ("network a 10.1.0.0/024", 6, "a prefix is"),
    ("network a =0", 6, "from 1 to 16383"), ("network a =16384", 6, "from 1 to 16383"), ("network", 6, "a network has a name"),
    ("network " + "a" * 33, 6, "1 to 32"), ("port vm2 red 10.1.0.2", 6, "the form is `port NAME"),
    ("port vm2 red 10.1.0.256 n1", 6, "an address is wanted"), ("port vm2 red 10.1.0.2 n1 =524272", 6, "from 0 to 524271"),
    ("port vm2 red 10.1.0.2 n1 =1\nport vm3 red 10.1.0.3 n1 =1", 7, "is said of `vm2 red` in line 6"),
    ("port vm2 red 10.1.0.2 n1\n  pass", 7, "nothing stands under `port`"), ("service fw", 6, "the form is `service"),
    ("chain a", 6, "the form is `chain"), ("policy a b", 6, "the form is `policy"), ("policy a =65536", 6, "from 0 to 65535"),
    ("policy a\n pass tcp red > red\n drop tcp red > red", 8, "the form of a rule"),
    ("policy a\n pass tcp red >", 7, "the form of a rule"), ("policy a\n pass tcp red 1 2 > red", 7, "the form of a rule"),
    ("policy a\n pass xyz red > red", 7, "a protocol is a number from 0 to 255"), ("policy a\n pass 256 red > red", 7, "255"),
    ("policy a\n pass tcp red 5-4 > red", 7, "`5-4`"), ("policy a\n pass tcp red 5- > red", 7, "`5-`"),
    ("policy a\n pass tcp red 65536 > red", 7, "a port is a number"), ("policy a\n pass tcp red > red =1", 7, "a chain's"),
    ("policy a\n chain k tcp red > red =3072", 7, "from 0 to 3071"), ("packets\n tcp vm9 > vm1 22", 7, "no port `vm9`"),
    ("packets\n tcp vm1 > vm9 22", 7, "no port `vm9` stands before"), ("packets\n tcp vm1 vm1", 7, "the form of a packet"),
    ("packets\n any vm1 > vm1", 7, "a protocol is a number"), ("packets\n tcp vm1 > vm1 65536", 7, "a port of a packet"),
    ("packets x", 6, "the form is `packets`"), ("groups\n fw 1", 7, "no service `fw`"),
    ("service fw n1\ngroups\n fw 1 1", 8, "below the next"), ("service fw n1\ngroups\n fw 1\n fw 2", 9, "has a group already"),
    ("events\n gone", 7, "`gone` is none of settle"), ("events\n lose c1", 7, "the form is `lose NODE NODE`"),
    ("events\n break c1 n1 0", 7, "from 1 to 1000000"), ("events\n put rule x", 7, "what is put is one of"),
    ("events\n put port vm2 red 10.1.0.9", 7, "the form is `port"), ("events\n delete port", 7, "what is delete"),
    ("events\n put policy web\n  pass tcp red > red\n  gone", 9, "the form of a rule"), ("events\n trace vm1", 7, "a packet"),
    ("steps\n settle", 7, "`settle` is none of trace, put, delete"), ("events\n settle now", 7, "the form is `settle`"),
]
BROKEN = [  # documents, and the path that is told
    ('{"topology": 1}', "topology: is not an object"), ('{"a": 1}', "a: is none of"), ("[1]", "the document: is not an object"),
    ('{"topology": {"as": 1.5}}', "topology.as: is not a whole number"), ('{"events": [{"lose": ["a"]}]}', "events[0].lose"),
    ('{"topology": {"as": 1, "controllers": [{"name": "a"}]}}', "topology.controllers[0].address: is missing"),
    ('{"configuration": {"networks": [{"name": "a b"}]}}', "configuration.networks[0].name: is no word"),
    ('{"events": [{"gone": 1}]}', "events[0]: is no event"), ('{"packets": [{}]}', "packets[0].port: is missing"),
    ('{"events": ["gone"]}', "what gives the line `gone`"), ("{", "no JSON: "), ("", "no JSON: "), ("[" * 100000, "no JSON"),
]


def run(words, text=b""):
    ran = subprocess.run([sys.executable, TOOL, *map(str, words)], input=text, capture_output=True, timeout=120)
    return ran.returncode, ran.stdout.decode(), ran.stderr.decode()


def document_of(text, kept=None):
    """The document of a short one, and the numbers that are kept then."""
    document, reader, _ = short.read(text, kept or {})
    return json.loads(short.spelled(document)), reader.numbers.kept


def fault_of(call, *given):
    try:
        call(*given)
        return ""
    except short.Fault as fault:
        return str(fault)


def example():
    yield "the example of the help", document_of(EXAMPLE)[0], STRICT
    cloud, strict = ((TOP / "examples" / f"cloud.{kind}").read_text(encoding="utf-8") for kind in ("txt", "json"))
    yield "examples/cloud.txt", document_of(cloud)[0], json.loads(strict)
    text, kept = short.written(STRICT, True)
    yield "the example, made short with its numbers kept", "=" in text, False
    yield "the example, made short and back", document_of(text, kept)[0], STRICT
    words = "pass 6 red > red\n pass tcp red any <> red 0-65535\n pass any red 7 > red 8-9"
    rules = document_of(f"{RED}policy web\n {words}")[0]["configuration"]["policies"][0]["rules"]
    yield "protocols and ports of rules", [(r["protocol"], r["source_ports"], r["destination_ports"]) for r in rules], [
        (6, ANY, ANY), (6, ANY, ANY), ("any", [7, 7], [8, 9])]
    packets = document_of(f"{RED}packets\n udp vm1 > vm1 53\n tcp =9 1 > 9.9.9.9\n 89 vm1 > vm1")[0]["packets"]
    yield "packets", [tuple(p.values()) for p in packets], [
        (1, "10.1.0.1", 17, 50000, 53), (9, "9.9.9.9", 6, 1, 0), (1, "10.1.0.1", 89, 0, 0)]


def documents():
    """The documents of the repository that are answered."""
    for path in sorted((TOP / "examples").glob("*.json")):
        document = json.loads(path.read_text(encoding="utf-8"))
        if isinstance(document, dict) and "edits" not in document:  # (those are of `overlay`)
            yield path.name, document
    for path in sorted((TOP / "tests").glob("*.jsonl")):
        for line in path.read_text(encoding="utf-8").splitlines():
            case = json.loads(line)
            if case.get("status", 0) == 0 and path.stem != "decode":
                yield f"{path.name} {case['name']}", json.loads(case.get("input", case.get("document")))


def both_ways():
    """Each document made short and back; that is tried where it is made short too, by other means."""
    for name, document in documents():
        for keep in (False, True):
            said = f"{name}, made short{' with numbers kept' if keep else ''}"
            try:
                text, kept = short.written(document, keep)
                made = document_of(text, kept if keep else {})[0]
                yield said, json.dumps(short.plain(made), sort_keys=True), json.dumps(short.plain(document), sort_keys=True)
            except short.Fault as fault:
                yield said, str(fault), ""


def ports_of(document):
    return {port["name"]: port["id"] for port in document["configuration"]["ports"]}


def numbers():
    """Numbers stay when lines go, come and move."""
    green, other = "network green 10.2.0.0/24\n", "port vm2 red 10.1.0.2 n1\n"
    first, kept = document_of(RED + green + other)
    yield "numbers are given out", ports_of(first), {"vm1": 1, "vm2": 2}
    second, kept = document_of(HEAD + green + "network red 10.1.0.0/24\nport vm3 red 10.1.0.3 n1\n" + other, kept)
    yield "numbers stay", ports_of(second), {"vm3": 3, "vm2": 2}
    yield "numbers of networks stay", [it["id"] for it in second["configuration"]["networks"]], [2, 1]
    third, kept = document_of(RED + green + "port vm2 green 10.2.0.2 n1\n", kept)
    yield "a port that moves has another number", ports_of(third), {"vm1": 1, "vm2": 4}
    yield "and its old one again where it was", ports_of(document_of(RED + other, kept)[0]), {"vm1": 1, "vm2": 2}
    yield "a number that is said", ports_of(document_of(RED + "port vm9 red 10.1.0.9 n1 =70\nport vm8 red 10.1.0.8 n1\n")[0]), {
        "vm1": 71, "vm9": 70, "vm8": 72}
    policies = document_of(HEAD + "policy a\npolicy b =15\npolicy c\n")[0]["configuration"]["policies"]
    yield "sequences", [it["sequence"] for it in policies], [20, 15, 30]
    rules = " chain k tcp red > green\n chain k tcp red > green\n chain k tcp green > red\n"
    used, kept = document_of(RED + "policy web\n" + rules)
    yield "uses", [it["use"] for it in used["configuration"]["policies"][0]["rules"]], [0, 1, 2]
    rules = " chain k tcp green > red\n chain l tcp red > green\n chain k tcp red > green\n"
    used, kept = document_of(RED + "policy web\n" + rules + "events\n put policy web\n  chain k tcp red > green\n", kept)
    yield "a changed chain has a fresh use", [it["use"] for it in used["configuration"]["policies"][0]["rules"]], [2, 3, 0]
    yield "an edit that puts a policy again keeps the use", used["events"][0]["edit"]["put"]["policy"]["rules"][0]["use"], 0
    full = {"use": {str(number): number for number in range(3072)}}
    yield "all numbers are given out", fault_of(document_of, RED + "policy web\n" + rules, full)[:2], "7:"
    hole = {"use": {str(number): number for number in range(3072) if number != 9}}
    found = document_of(RED + "policy web\n chain k tcp red > green\n", hole)[0]
    yield "the last number that is free", found["configuration"]["policies"][0]["rules"][0]["use"], 9
    taken = fault_of(document_of, RED + "port vm9 red 10.1.0.9 n1 =1\n", {"port": {"vm1 red": 1}})
    yield "a number that is taken away", taken, "5: the port number 1 was given to this, and line 6 says it of something else"
    again = document_of(RED + "events\n delete port vm1\n put port vm9 green 10.2.0.9 n1 =1\n trace tcp vm9 > vm1 1\n")[0]["events"]
    yield "an edit may say a number again", (again[1]["edit"]["put"]["port"]["id"], again[2]["trace"]["port"]), (1, 1)


def faults():
    """What is broken is told at its line."""
    for line, number, wanted in FAULTS:
        said = fault_of(document_of, RED + line + "\n")
        yield f"a line {line!r}", (said.split(":")[0], wanted in said), (str(number), True)
    for text, wanted in ((RED[9:], "1: no line `as NUMBER`"), ("as 1\nnode n 1.1.1.1 c\n", "1: no line `controller NAME ADDRESS`"),
                         ("", "1: nothing stands here"), ("as 1\ncontroller c 1.1.1.1\n", "1: no line `node NAME ..`")):
        yield f"a text {text[:20]!r}", fault_of(document_of, text), wanted
    for text, wanted in BROKEN:
        status, out, err = run(["--back", "-"], text.encode())
        yield f"a document {text[:50]}", (status, out, wanted in err, "Traceback" in err), (1, "", True, False)


def mutated():
    """Short documents with a word taken out, put in or changed: whatever is said, it is no fault of the script."""
    dice, whole = random.Random(80), (EXAMPLE + MORE).split("\n")
    words = "as node network port policy chain packets events steps any tcp > <> =1 = 0 -1 10.1.0.0/24 1.2.3.4 vm1 # put é /".split()
    for turn in range(400):
        lines = list(whole)
        place = dice.randrange(len(lines))
        parts = lines[place].split(" ")
        at = dice.randrange(len(parts))
        parts[at:at + dice.randrange(2)] = dice.choice([[], [dice.choice(words)]])
        lines[place] = " ".join(parts)
        try:
            said = fault_of(document_of, "\n".join(lines))
            right = not said or said.split(":")[0].isdigit()
        except Exception as fault:  # whatever it is, it is what is looked for here
            right = repr(fault)
        yield f"a short document, changed {turn} to {lines[place]!r}", right, True


def files():
    """Kept numbers, words and statuses."""
    with tempfile.TemporaryDirectory() as folder:
        path, kept = pathlib.Path(folder, "net"), pathlib.Path(folder, "net.numbers")
        path.write_text(RED)
        status, out, err = run([path])
        yield "a file", (status, json.loads(out)["configuration"]["ports"][0]["id"], err, kept.exists()), (0, 1, "", True)
        kept.write_text('{"port": {"vm1 red": 70}}')
        yield "a file with kept numbers", json.loads(run([path])[1])["configuration"]["ports"][0]["id"], 70
        for text, wanted in (("x", ".numbers: no JSON"), ("[]", ".numbers: not an object"), ('{"port": 1}', ".numbers: port: not an"),
                             ('{"port": {"a": -1}}', ".numbers: port.a: not a number"), ('{"ports": {}}', ".numbers: not an object")):
            kept.write_text(text)
            status, out, err = run([path])
            yield f"kept numbers {text}", (status, out, wanted in err), (1, "", True)
        kept.unlink()
        path.write_text(RED + "vm x\n")
        yield "a broken file", run([path])[::2], (1, f"{path}:6: `vm` is none of as, controller, node, network, port, policy, "
                                                     "service, chain, capacity, packets, groups, events, steps\n")
        yield "a broken file keeps no numbers", kept.exists(), False
        path.write_bytes(b"as 1\n\xff\n")
        yield "a file that is no UTF-8", run([path])[::2], (1, f"{path}:2: no UTF-8\n")
        path.write_text(RED + "policy web\n pass tcp red > any\nevents\n settle\n lose c1 c9\n put port vm2 red 10.9.0.1 n1\n")
        answers = "1 settled rounds 2\n2 idle\n3 refused AddressOutside vm2\n"
        status, out, err = run([path, "--where"], answers.encode())
        yield "--where, events", (status, out, err), (0, answers, f"{path}:10: 2 idle\n{path}:11: 3 refused AddressOutside vm2\n")
        for refused, line in (("AddressOutside vm1", 5), ("ChainSameNetwork 10/1", 7), ("BadReference web", 4), ("Limit ports", None),
                              ("DuplicateId address 192.0.2.11", 3), ("SubnetReserved red 10.1.0.0/24", 4), ("DuplicateName n1", 11)):
            status, out, err = run([path, "--where"], f"refused {refused}\n".encode())
            place = f"{path}:{line}" if line else str(path)
            yield f"--where, {refused}", (status, err), (0, f"{place}: refused {refused}\n")
        made = pathlib.Path(folder, "made.json")
        made.write_text(json.dumps(STRICT))
        status, out, err = run(["--back", made, "--numbers", kept])
        yield "--back with numbers", (status, out.count("="), json.loads(kept.read_text())["port"]), (0, 0, {"vm1 front": 1, "vm2 store": 2})
    yield "--help", (run(["--help"])[0], "usage: " in run(["--help"])[1]), (0, True)
    for words in ([], ["a", "b"], ["--no", "a"], ["-", "--where"], ["a", "--numbers"]):
        yield f"words {words}", (run(words)[0], "usage: " in run(words)[2]), (2, True)
    yield "a file that is not there", run(["no/such"])[::2], (1, "no/such: No such file or directory\n")


def main():
    count = agree = 0
    for group in (example, numbers, faults, mutated, both_ways, files):
        for name, found, wanted in group():
            count += 1
            agree += found == wanted
            if found != wanted:
                print(f"{name}: {found!r} in place of {wanted!r}"[:800])
    print(f"{agree} of {count} cases agree")
    return 0 if agree == count else 1


if __name__ == "__main__":
    if len(sys.argv) > 1:
        sys.exit(__doc__)
    sys.exit(main())
