#!/usr/bin/env python3
"""Reads lines by tools/lines.py and writes them back, and says where what comes back is something else.

The lines are those of the answers in tests/*.jsonl, those that stand here, one or more of each form, and with PROGRAM, the built
`overlay`, those that it prints of each file of examples/. Each line is to have just one form, to be read, and to be written back
octet for octet; what is written of its object is to be read as that object. Each form is to be that of a line that stands here,
and those lines, changed in one place, are to be refused or to come back as they are. --forms is to print expressions that hold
of just these lines, also for `grep -P`, where there is one. docs/FORMATS.md is to have the tables of --table. Bad lines are to
be refused with the number of the line, and other words with status 2.

usage: tests/forms.py [PROGRAM]

Needs Python 3.8. Ends with status 1 where something is otherwise.
"""
import functools
import json
import pathlib
import random
import subprocess
import sys

TOP = pathlib.Path(__file__).resolve().parent.parent
TOOL = TOP / "tools" / "lines.py"
sys.dont_write_bytecode = True
sys.path.insert(0, str(TOP / "tools"))
import lines

# lines with what they say, by hand from docs/FORMATS.md
SAID = [
    ("instance 1 imports 1,2", {"line": "instance", "instance": 1, "imports": [1, 2]}),
    ("instance 16384 imports -", {"line": "instance", "instance": 16384, "imports": []}),
    ("attach 17 port 1 instance 1 address 10.1.0.1 node 192.0.2.11",
     {"line": "attach-port", "label": 17, "port": 1, "instance": 1, "address": "10.1.0.1", "node": "192.0.2.11"}),
    ("attach 557057 circuit 32769 service 1 instance 16384 address 250.0.128.1 node 192.0.2.11",
     {"line": "attach-circuit", "label": 557057, "circuit": 32769, "service": 1, "instance": 16384, "address": "250.0.128.1",
      "node": "192.0.2.11"}),
    ("acl 1 2 subnets 10.2.0.0/24,10.3.0.0/16", {"line": "acl", "from": 1, "to": 2, "subnets": ["10.2.0.0/24", "10.3.0.0/16"]}),
    ("acl 1 2 rule 20/1 6 0-65535 443-443 pass",
     {"line": "acl-rule", "from": 1, "to": 2, "rule": "20/1", "protocol": 6, "source_ports": [0, 65535],
      "destination_ports": [443, 443], "action": "pass"}),
    ("acl 1 2 rule 20/1 any 0-65535 443-443 enter 16384",
     {"line": "acl-enter", "from": 1, "to": 2, "rule": "20/1", "protocol": "any", "source_ports": [0, 65535],
      "destination_ports": [443, 443], "enter": 16384}),
    ("use 0 left 1 10.1.0.0/24 right 2 - hops 1@192.0.2.11,2@192.0.2.12",
     {"line": "use", "use": 0, "left": 1, "left_prefixes": ["10.1.0.0/24"], "right": 2, "right_prefixes": [],
      "hops": [[1, "192.0.2.11"], [2, "192.0.2.12"]]}),
    ("control c1 table 1 10.1.0.1/32 192.0.2.11:1 192.0.2.11 17",
     {"line": "control-row", "control": "c1", "instance": 1, "prefix": "10.1.0.1/32", "distinguisher": "192.0.2.11:1",
      "next_hop": "192.0.2.11", "label": 17}),
    ("agent n1 label 17 port 1 instance 1", {"line": "agent-port", "agent": "n1", "label": 17, "port": 1, "instance": 1}),
    ("agent n1 label 557057 circuit 32769 service 1",
     {"line": "agent-circuit", "agent": "n1", "label": 557057, "circuit": 32769, "service": 1}),
    ("agent n1 acl 1 2 subnets -", {"line": "agent-acl", "agent": "n1", "from": 1, "to": 2, "subnets": []}),
    ("agent label acl 1 2 rule 20/1 17 0-65535 5-6 deny",
     {"line": "agent-acl-rule", "agent": "label", "from": 1, "to": 2, "rule": "20/1", "protocol": 17, "source_ports": [0, 65535],
      "destination_ports": [5, 6], "action": "deny"}),
    ("agent n1 acl 1 2 rule 20/1 any 0-65535 0-65535 enter 16384",
     {"line": "agent-acl-enter", "agent": "n1", "from": 1, "to": 2, "rule": "20/1", "protocol": "any", "source_ports": [0, 65535],
      "destination_ports": [0, 65535], "enter": 16384}),
    ("agent n1 table 16384 10.2.0.0/24 192.0.2.11 557057",
     {"line": "agent-row", "agent": "n1", "instance": 16384, "prefix": "10.2.0.0/24", "next_hop": "192.0.2.11", "label": 557057}),
    ("gen 3 controllers 3 nodes 20 networks 12 ports 192 uses 3",
     {"line": "gen", "scenario": 3, "controllers": 3, "nodes": 20, "networks": 12, "ports": 192, "uses": 3}),
    ("rounds 6 5", {"line": "rounds", "first": 6, "second": 5}),
    ("traces 40 delivered 8 agreed 40", {"line": "traces", "traces": 40, "delivered": 8, "agreed": 40}),
    ("1 delivered port 2 services -", {"line": "delivered", "number": 1, "port": 2, "services": []}),
    ("1 delivered port 2 services 1,2", {"line": "delivered", "number": 1, "port": 2, "services": [1, 2]}),
    ("1 delivered port 2 services 1:3,2:0", {"line": "delivered", "number": 1, "port": 2, "services": [[1, 3], [2, 0]]}),
    *[(f"12 dropped {reason}", {"line": "dropped", "number": 12, "reason": reason})
      for reason in ("no-source-port", "no-destination", "no-route", "no-label", "ttl-expired")],
    ("2 dropped denied 10/1", {"line": "denied", "number": 2, "rule": "10/1"}),
    ("2 dropped denied -", {"line": "denied", "number": 2, "rule": None}),
    ("asked c1 64512:8000001,L70000:1,192.0.2.1:7,x0302000000000001",
     {"line": "asked", "control": "c1", "targets": ["64512:8000001", "L70000:1", "192.0.2.1:7", "x0302000000000001"]}),
    ("asked c2 -", {"line": "asked", "control": "c2", "targets": []}),
    ("sent c1 c2 2 of 5", {"line": "sent", "from": "c1", "to": "c2", "asked": 2, "of": 5}),
    ("3 did", {"line": "did", "number": 3}),
    ("3 idle", {"line": "idle", "number": 3}),
    ("3 settled rounds 6", {"line": "settled", "number": 3, "rounds": 6}),
    ("3 unsettled rounds 8", {"line": "unsettled", "number": 3, "rounds": 8}),
    ("3 show c1", {"line": "show", "number": 3, "node": "c1"}),
    ("3 show", {"line": "show-routes", "number": 3}),
    ("3 fault 3/9", {"line": "fault-of-entry", "number": 3, "fault": "3/9"}),
    ("route 192.0.2.11:1 10.1.0.5/32 next-hop 192.0.2.11 label 23 targets - stale",
     {"line": "route", "distinguisher": "192.0.2.11:1", "prefix": "10.1.0.5/32", "next_hop": "192.0.2.11", "label": 23,
      "targets": [], "state": "stale"}),
    ("3 refused Missing vm9", {"line": "edit-missing", "number": 3, "name": "vm9"}),
    ("3 refused Tied port 2", {"line": "edit-tied-port", "number": 3, "port": 2}),
    ("3 refused Tied use 0", {"line": "edit-tied-use", "number": 3, "use": 0}),
    ("3 refused Tied node 192.0.2.13", {"line": "edit-tied-node", "number": 3, "address": "192.0.2.13"}),
    ("open as 64512 hold 90 id 192.0.2.11", {"line": "open", "as": 64512, "hold": 90, "id": "192.0.2.11"}),
    ("update", {"line": "update"}),
    ("put x0003000000000001 10.1.0.5/32 next-hop 192.0.2.11 label 23 targets 64512:8000001",
     {"line": "put", "distinguisher": "x0003000000000001", "prefix": "10.1.0.5/32", "next_hop": "192.0.2.11", "label": 23,
      "targets": ["64512:8000001"]}),
    ("drop 64512:1 10.1.0.5/32", {"line": "drop", "distinguisher": "64512:1", "prefix": "10.1.0.5/32"}),
    ("ask all", {"line": "ask-all"}),
    ("ask 64512 64512:8000001", {"line": "ask", "as": 64512, "target": "64512:8000001"}),
    ("ask 64512 x0002fbff00000000/64", {"line": "ask-part", "as": 64512, "target": "x0002fbff00000000", "length": 64}),
    ("unask all", {"line": "unask-all"}),
    ("unask 64512 64512:8000001", {"line": "unask", "as": 64512, "target": "64512:8000001"}),
    ("unask 64512 x0002fbff00000000/64", {"line": "unask-part", "as": 64512, "target": "x0002fbff00000000", "length": 64}),
    ("notification 6/2", {"line": "notification", "notification": "6/2"}),
    ("keepalive", {"line": "keepalive"}),
    ("fault 1/1", {"line": "fault", "fault": "1/1"}),
    ("incomplete 18", {"line": "incomplete", "octets": 18}),
    ("not json", {"line": "not-json"}),
    ("not hex", {"line": "not-hex"}),
    ("bad document Kind", {"line": "bad-document", "path": "", "kind": "Kind"}),
    ("bad document configuration.networks[0].id Range",
     {"line": "bad-document", "path": "configuration.networks[0].id", "kind": "Range"}),
    ("bad document a b\nc\u2028\r Kind Unknown", {"line": "bad-document", "path": "a b\nc\u2028\r Kind", "kind": "Unknown"}),
]
RULES = [
    ("limit", "Limit networks", {"what": "networks"}),
    ("name", "DuplicateName red", {"name": "red"}),
    ("id", "DuplicateId network 7", {"what": "network", "id": 7}),
    ("address", "DuplicateId address 192.0.2.1", {"address": "192.0.2.1"}),
    ("reference", "BadReference web", {"name": "web"}),
    ("reserved", "SubnetReserved red 250.0.0.0/24", {"network": "red", "subnet": "250.0.0.0/24"}),
    ("nested", "SubnetNested red 10.1.0.0/16 10.1.2.0/24", {"network": "red", "subnet": "10.1.0.0/16", "other": "10.1.2.0/24"}),
    ("outside", "AddressOutside vm2", {"port": "vm2"}),
    ("taken", "AddressTaken vm1 vm2", {"port": "vm1", "other": "vm2"}),
    ("needs", "ChainNeedsNetworks 20/1", {"rule": "20/1"}),
    ("same", "ChainSameNetwork 20/1", {"rule": "20/1"}),
    ("loop", "ChainLoop c1", {"chain": "c1"}),
    ("long", "ChainTooLong long", {"chain": "long"}),
    ("twice", "ServiceTwice outer fw", {"chain": "outer", "service": "fw"}),
    ("overlap", "SubnetOverlap green blue", {"network": "green", "other": "blue"}),
]
SAID += [(f"refused {words}", {"line": f"refused-{name}", **members}) for name, words, members in RULES]
SAID += [(f"4 refused {words}", {"line": f"edit-{name}", "number": 4, **members}) for name, words, members in RULES]

NO_LINES = [
    "", " ", "did", "01 did", "1  did", "1 did ", "+1 did", "instance 1 imports", "instance 1 imports 1,", "instance 1 imports ,1",
    "instance 1 imports 01", "acl 1 2 rule 20/1 6 0-65535 443-443 enter", "acl 1 2 rule 20/1 6 0-65535 443-443 drop",
    "agent n1", "agent", "1 delivered port 2 services 1:2,3", "1 dropped denied", "1 dropped denied 10", "1 dropped -",
    "3 refused", "3 refused Tied", "3 refused Tied port x", "refused Tied port 2", "refused Missing vm9", "refused Limit vms",
    "ask", "ask x0002fbff00000000/64", "asked C1 -", "put 1 10.1.0.5/32 next-hop 192.0.2.11 label 23 targets -", "not  json",
    "Update", "keepalive 1", "fault 3", "1 dropped no label", "99999999999999999999999 did", "3 show c1 c2", "open as 1 hold 2 id x",
    "asked c1 x00", "asked c1 X0302000000000001", "drop L192.0.2.1:1 10.1.0.5/32",
]
NO_OBJECTS = [
    "x", "[]", "1", "{}", '{"line": 1}', '{"line": "no"}', '{"line": "did"}', '{"line": "did", "number": 1, "more": 1}',
    '{"line": "did", "number": "1"}', '{"line": "did", "number": 1.0}', '{"line": "did", "number": true}',
    '{"line": "did", "number": -1}', '{"line": "did", "number": null}', '{"line": "show", "number": 1, "node": "C"}',
    '{"line": "show", "number": 1, "node": "a b"}', '{"line": "instance", "instance": 1, "imports": 1}',
    '{"line": "instance", "instance": 1, "imports": ["1"]}', '{"line": "denied", "number": 1, "rule": ""}',
    '{"line": "delivered", "number": 1, "port": 1, "services": [[1, 2], 3]}', '{"line": "asked", "control": "c", "targets": "c"}',
    '{"line": "bad-document", "path": null, "kind": "Kind"}', '{"line": "use"}', "[" * 100000,
]


def run(words, text=b""):
    """What the script does, as a program of its own."""
    ran = subprocess.run([sys.executable, TOOL, *words], input=text, capture_output=True, timeout=120)
    return ran.returncode, ran.stdout, ran.stderr.decode()


@functools.lru_cache(maxsize=None)
def forms_of(line):
    return [form.name for form in lines.FORMS.values() if form.matches(line)]


def told(reader, text):
    """What a reader gives before its fault, and where that is."""
    made = []
    try:
        for line in reader(text):
            made.append(line)
        return made, ""
    except lines.Fault as fault:
        return made, str(fault).split(":")[0]


def comes_back(text):
    """What is wrong with a text that is read and written back, or an empty text."""
    try:
        made = list(lines.forth(text))
        if "".join(line + "\n" for line in lines.back("\n".join(made))) != text:
            return "is written back otherwise"
        if list(lines.forth(text)) != [json.dumps(json.loads(it)) for it in made]:
            return "is read otherwise"
    except lines.Fault as fault:
        return str(fault)
    several = [line for line in {line for _, line in lines.lines_of(text)} if len(forms_of(line)) != 1]
    return f"has a line of several forms: {several[0]}" if several else ""


def words_for(path):
    """The commands that take a file of examples/."""
    if path.suffix == ".hex":
        return ["decode"]
    if path.suffix != ".json":
        return []
    value = json.loads(path.read_text(encoding="utf-8"))
    members = set(value) if isinstance(value, dict) else set()
    if "edits" in members:  # (`inspect hitless` takes it)
        return []
    for member, word in (("capacity", "flows"), ("groups", "scale"), ("packets", "reach")):
        if member in members:
            return [word]
    if "events" in members:
        return ["run" if "topology" in members else "graceful"]
    return ["compile", "constrain"] if "topology" in members else []


def texts(program):
    """What was printed, with its name."""
    for path in sorted((TOP / "tests").glob("*.jsonl")):
        for line in path.read_text(encoding="utf-8").splitlines():
            case = json.loads(line)
            yield f"{path.name} {case['name']}", case.get("output", case.get("answers"))
    for path in sorted((TOP / "examples").iterdir()) if program else ():
        for word in words_for(path):
            with open(path, "rb") as source:
                ran = subprocess.run([program, word], stdin=source, stdout=subprocess.PIPE, check=True, timeout=120)
            yield f"{word} of {path.name}", ran.stdout.decode()


def said():
    """The lines that stand here."""
    for line, wanted in SAID:
        yield line, lines.object_of(line), wanted
        yield f"{line}, its forms", forms_of(line), [wanted["line"]]
        yield f"{line}, back", lines.line_of(1, json.dumps(wanted)), line
        mixed = json.dumps(dict(reversed(wanted.items())))
        yield f"{line}, back from members in another order", lines.line_of(1, mixed), line
    yield "forms without a line", set(lines.FORMS) - {wanted["line"] for _, wanted in SAID}, set()


def changed():
    """The lines with one character changed, taken out or added are refused, or come back as they are."""
    dice = random.Random(80)
    for line, _ in SAID:
        for turn in range(60):
            place, other = dice.randrange(len(line)), dice.choice("019 ,-:/.@axLnK\u00e9")
            made = line[:place] + dice.choice(["", other, other + line[place]]) + line[place + 1:]
            found = lines.object_of(made) if "\n" not in made else None
            back = lines.line_of(1, json.dumps(found)) if found else made
            yield f"{line}, changed {turn}", (back, len(forms_of(made)) <= 1), (made, True)


def refused():
    """Lines of no form, objects of none, texts that are cut, and words."""
    for line in NO_LINES:
        yield f"no line {line!r}", told(lines.forth, f"3 did\n{line}\n4 did\n"), (['{"line": "did", "number": 3}'], "line 2")
    for text in NO_OBJECTS:
        yield f"no object {text[:50]}", told(lines.back, f'{{"line": "update"}}\n{text}\n'), (["update"], "line 2")
    status, out, err = run([], b"3 did\n3 dix\n")
    yield "a bad line", (status, out, err), (1, b'{"line": "did", "number": 3}\n', "standard input: line 2: no form has '3 dix'\n")
    status, out, err = run(["--back"], b'{"line": "update"}\n{"line": "up"}\n')
    yield "a bad object", (status, out, err), (1, b"update\n", "standard input: line 2: no form has the name 'up'\n")
    for text, place in ((b"3 did\n4 di", "line 2: no line feed"), (b"bad document a\nb Kind", "line 1: no line feed"),
                        (b"3 did\n\xff\n", "line 2: no UTF-8, at octet 6"), (b"bad document a\nb\n", "line 1: no form")):
        status, _, err = run([], text)
        yield f"a text {text!r}", (status, place in err), (1, True)
    for words in (["--no"], ["a", "b"], ["--forms", "a"], ["--back", "--forms"]):
        status, out, err = run(words)
        yield f"words {words}", (status, out, "usage: " in err), (2, b"", True)
    yield "a file that is not there", run(["no/such"])[::2], (1, "no/such: No such file or directory\n")
    yield "--help", (run(["--help"])[0], b"usage: " in run(["--help"])[1]), (0, True)
    yield "nothing", run([]), (0, b"", "")


def printed():
    """What --forms prints, for other readers of regular expressions."""
    forms = [line.split("\t") for line in run(["--forms"])[1].decode().splitlines()]
    yield "--forms", [name for name, _ in forms], list(lines.FORMS)
    for name, pattern in forms:
        own = [line for line, wanted in SAID if wanted["line"] == name and "\n" not in line]
        given = "\n".join(line for line, _ in SAID if "\n" not in line).encode()
        try:
            ran = subprocess.run(["grep", "-P", pattern], input=given, capture_output=True, env={"LC_ALL": "C.UTF-8"}, timeout=60)
        except FileNotFoundError:
            return
        yield f"grep -P for {name}", ran.stdout.decode().splitlines(), own
    table = run(["--table"])[1].decode()
    for form in lines.FORMS.values():
        yield f"--table of {form.name}", f"| {form.name} | `{form.words}` |\n" in table, True
    page = (TOP / "docs" / "FORMATS.md").read_text(encoding="utf-8")
    for part in table.split("\n\n"):
        yield f"the table of docs/FORMATS.md that begins with {part[:20]}", part.strip("\n") in page, True


def main(program=None):
    count = agree = 0
    for group in (said, changed, refused, printed):
        for name, found, wanted in group():
            count += 1
            agree += found == wanted
            if found != wanted:
                print(f"{name}: {found!r} in place of {wanted!r}"[:800])
    whole = read = many = 0
    for name, text in texts(program):
        wrong = comes_back(text)
        whole += 1
        read += not wrong
        many += text.count("\n")
        if wrong:
            print(f"{name}: {wrong}")
    print(f"{agree} of {count} cases agree, {read} of {whole} texts come back, with {many} lines")
    return 0 if agree == count and read == whole else 1


if __name__ == "__main__":
    if len(sys.argv) > 2 or sys.argv[1:] in (["--help"], ["-h"]):
        sys.exit(__doc__)
    sys.exit(main(*sys.argv[1:]))
