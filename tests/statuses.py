#!/usr/bin/env python3
"""Runs the built program for each way that a run ends, and says where its status, its output or what it says to people is
another.

Statuses 0 and 2 to 8, `--help`, `-h`, `--version`, a word that is no UTF-8, and outputs that are closed or full; of standard error a
sentence for each rule that a configuration breaks, for each kind of a document's fault, and for what is no JSON or no digits, and
what is said beside it.
Where a sentence says which numbers the form allows, they are to be those of docs/overlay.schema.json.
Status 9, want of memory, is shown by tests/allocations.py.

usage: tests/statuses.py PROGRAM

PROGRAM is the built `overlay`. Needs Python 3.8 and Linux, whose /dev/full takes nothing. Ends with status 1 where a run
ended otherwise.
"""
import json
import os
import subprocess
import sys

TOP = os.path.dirname(os.path.dirname(os.path.abspath(__file__)))
EXAMPLES = os.path.join(TOP, "examples")
with open(os.path.join(TOP, "docs", "overlay.schema.json"), encoding="utf-8") as schema:
    DEFINITIONS = json.load(schema)["$defs"]
USAGE = b"usage: overlay COMMAND, with an input on standard input:\n"
COMMANDS = b"compile reach scale flows constrain graceful run decode gen --help --version".split()
STATUSES = b"0 2 3 4 5 6 7 8 9".split()
TEXT = b"""instance 1 imports 1
attach 23 port 7 instance 1 address 10.1.0.5 node 192.0.2.11
acl 1 1 subnets 10.1.0.0/24
control c1 table 1 10.1.0.5/32 192.0.2.11:1 192.0.2.11 23
agent n1 label 23 port 7 instance 1
agent n1 acl 1 1 subnets 10.1.0.0/24
agent n1 table 1 10.1.0.5/32 192.0.2.11 23
"""
NO_READ = b"overlay: standard input could not be read: give it a file or a pipe that is open\n"
NO_WRITE = (
    b"overlay: standard output could not be written: what takes it was closed, as by head, or there is no room where it goes\n"
)
TOO_LONG = b"overlay: the input has more than 16,777,216 octets: leave out what is not asked for, or make two of it\n"
NO_JSON = b"overlay: the input is no JSON, and reading it stopped at "
EMPTY = b"overlay: the input is empty: give it a document, as those of examples/\n"
BLANK = b"overlay: the input is blanks alone: give it a document, as those of examples/\n"
MARK = b"overlay: the input begins with a byte order mark, which is no JSON: leave it out\n"
NO_PAIR = b"overlay: hexadecimal digits stand in pairs, and that at line %d, column %d has no other\n"
STRAY = b"overlay: neither a hexadecimal digit nor a blank stands at line %d, column %d\n"
SUMMARY = b"""gen 3 controllers 3 nodes 20 networks 12 ports 192 uses 3
rounds 6 5
traces 40 delivered 8 agreed 40
"""
KEEPALIVE = b"ffffffffffffffffffffffffffffffff001304\n"


def example(name):
    with open(os.path.join(EXAMPLES, name), "rb") as file:
        return file.read()


def network(name, number, *subnets, **more):
    return {"name": name, "id": number, "subnets": list(subnets), **more}


def port(name, number, network, address):
    return {"name": name, "id": number, "network": network, "address": address, "node": "n1"}


def through(chain, use, source="red", destination="blue"):
    """A rule that leads through a chain."""
    return {"source": source, "destination": destination, "direction": "<>", "protocol": "any",
            "source_ports": [0, 65535], "destination_ports": [0, 65535], "action": "chain", "chain": chain, "use": use}


def policy(*rules):
    return {"name": "p", "sequence": 20, "rules": list(rules)}


def document(controllers=1, **members):
    """A document of one compute node, with these members of its configuration."""
    named = [{"name": f"c{n}", "address": f"192.0.2.{n}"} for n in range(1, controllers + 1)]
    nodes = [{"name": "n1", "address": "192.0.2.11", "controllers": ["c1"]}]
    topology = {"as": 64512, "controllers": named, "nodes": nodes}
    return json.dumps({"topology": topology, "configuration": members}).encode()


RED, BLUE = network("red", 1, "10.1.0.0/24"), network("blue", 2, "10.2.0.0/24")
PASSES = {"source": "any", "destination": "any", "direction": "<>", "protocol": "any", "source_ports": [0, 65535],
          "destination_ports": [0, 65535], "action": "pass"}
FIREWALL = {"name": "fw", "id": 7, "node": "n1"}

# documents that break a rule, the line, and the sentence behind `overlay: `
REFUSED = [
    (document(9), b"Limit controllers", b"a topology has at most 8 control nodes, and this one has more"),
    (document(networks=[RED, network("red", 2, "10.2.0.0/24")]), b"DuplicateName red",
     b"one name is given to two nodes, to two objects of one kind or to a service and a chain, "
     b"or stands twice in the list of a compute node: red"),
    (document(networks=[RED, network("blue", 1, "10.2.0.0/24")]), b"DuplicateId network 1",
     b"each network has an id of its own, and two have 1"),
    (document(networks=[network("red", 1, "10.1.0.0/24", policies=["web"])]), b"BadReference web",
     b"what is referred to has to exist, and nothing of the wanted kind is named web\n"
     b"overlay: network red wants a policy of that name, at configuration.networks[0].policies[0]"),
    (document(networks=[network("red", 1, *(f"10.{n}.0.0/16" for n in range(5)))]), b"Limit subnets",
     b"a network has at most 4 subnets, and one of these has more\noverlay: network red has 5, at configuration.networks[0].subnets"),
    (document(networks=[network("red", 1, "250.0.0.0/24")]), b"SubnetReserved red 250.0.0.0/24",
     b"250.0.0.0/15 is kept for the addresses of circuits, and subnet 250.0.0.0/24 of network red overlaps it"),
    (document(networks=[network("red", 1, "10.1.0.0/16", "10.1.2.0/24")]), b"SubnetNested red 10.1.0.0/16 10.1.2.0/24",
     b"the subnets of a network do not overlap, and 10.1.0.0/16 and 10.1.2.0/24 of network red do"),
    (document(networks=[RED], ports=[port("vm2", 2, "red", "10.9.0.1")]), b"AddressOutside vm2",
     b"the address of a port is in a subnet of its network, and that of port vm2 is in none"),
    (document(networks=[RED], ports=[port("vm1", 1, "red", "10.1.0.1"), port("vm2", 2, "red", "10.1.0.1")]),
     b"AddressTaken vm1 vm2",
     b"the ports of a network have addresses of their own, and ports vm1 and vm2 have the same"),
    (document(networks=[RED, BLUE], services=[FIREWALL], chains=[{"name": "c", "hops": ["fw"]}],
              policies=[policy(through("c", 1, source="any"))]), b"ChainNeedsNetworks 20/1",
     b"a rule through a chain names both of its networks, and rule 20/1 has any"),
    (document(networks=[RED, BLUE], services=[FIREWALL], chains=[{"name": "c", "hops": ["fw"]}],
              policies=[policy(through("c", 1, destination="red"))]), b"ChainSameNetwork 20/1",
     b"a rule through a chain is between two networks, and rule 20/1 names one twice"),
    (document(chains=[{"name": "c", "hops": ["c"]}]), b"ChainLoop c",
     b"a chain does not lead to itself, and chain c does"),
    (document(services=[{"name": f"s{n}", "id": n, "node": "n1"} for n in range(1, 17)],
              chains=[{"name": "long", "hops": [f"s{n}" for n in range(1, 17)]}]), b"ChainTooLong long",
     b"a chain comes to at most 15 services with those of the chains in it, and chain long to more"),
    (document(services=[FIREWALL], chains=[{"name": "c", "hops": ["fw", "fw"]}]), b"ServiceTwice c fw",
     b"a chain passes each service once, and chain c comes to service fw twice"),
    (document(networks=[network("red", 1, "10.1.0.0/24", policies=["p"]), network("blue", 2, "10.1.0.0/24", policies=["p"])],
              policies=[policy(PASSES)]), b"SubnetOverlap red blue",
     b"networks that are related, or related to one network, share no addresses, and red and blue do"),
]

# documents that break the form, the line behind `bad document `, and the sentence behind `overlay: `
BAD = [
    (b"[]", b"Kind", b"the document is a JSON value of another kind than the form wants there: an object"),
    (b"{}", b"topology Missing", b"topology is missing, and the form wants it: an object"),
    (b'{"topology": {"as": 1, "controllers": []}}', b"topology.controllers Range",
     b"topology.controllers is outside what the form allows there: a list of at least one control node"),
    (document(networks=[network("any", 1)]), b"configuration.networks[0].name Range",
     b"configuration.networks[0].name is outside what the form allows there: "
     b"a name of 1 to 32 of the characters a to z, 0 to 9, - and _, but not any"),
    (document(networks=[network("red", 1, "10.1.0.0")]), b"configuration.networks[0].subnets[0] Range",
     b"configuration.networks[0].subnets[0] is outside what the form allows there: "
     b"a prefix such as 10.1.0.0/24, with no bit set past its length"),
    (document(services=[{"id": 7, "node": "n1"}]), b"configuration.services[0].name Missing",
     b"configuration.services[0].name is missing, and the form wants it: "
     b"a name of 1 to 32 of the characters a to z, 0 to 9, - and _"),
    (document(policies=[policy({"direction": "<"})]), b"configuration.policies[0].rules[0].direction Range",
     b"configuration.policies[0].rules[0].direction is outside what the form allows there: > or <>"),
    (document(nets=[]), b"configuration.nets Unknown", b"configuration.nets is a member that the form does not have there: "
     b"networks, ports, policies, services and chains"),
    (json.dumps({**json.loads(document()), "nets": []}).encode(), b"nets Unknown",
     b"nets is a member that the form does not have there: compile and constrain take topology and configuration, "
     b"reach packets too, scale groups and packets, run events, flows capacity and steps, and graceful takes events alone; "
     b"of inspect, ways, diff and unused take what compile takes, why and expect what reach takes, and hitless edits too\n"
     b"overlay: compile takes topology and configuration"),
    (json.dumps({**json.loads(document()), "a.topology.as Range": []}).encode(), b"a.topology.as Range Unknown",
     b"a.topology.as Range is a member that the form does not have there: compile and constrain take topology and configuration, "
     b"reach packets too, scale groups and packets, run events, flows capacity and steps, and graceful takes events alone; "
     b"of inspect, ways, diff and unused take what compile takes, why and expect what reach takes, and hitless edits too\n"
     b"overlay: compile takes topology and configuration"),
    (document(**{"n" * 600: []}), b"configuration.%s Unknown" % (b"n" * 600),
     b"configuration.%s.. breaks the form; standard output has the whole path, and how" % (b"n" * 485)),
]


def in_schema(*path):
    """A part of the schema, by the way to it from the definitions."""
    found = DEFINITIONS
    for step in path:
        found = found[step]
        while "$ref" in found:
            found = DEFINITIONS[found["$ref"].rpartition("/")[2]]
    return found


def member_of(name, member):
    return in_schema(name, "properties", member)


def numbers(part):
    """What a sentence says of the numbers that a part of the schema allows."""
    return b"a whole number from %d to %d" % (part["minimum"], part["maximum"])


def with_members(**members):
    """A document of one compute node and no configuration, with these members beside it."""
    return {**json.loads(document()), **members}


def packet(**members):
    return {"port": 1, "to": "10.1.0.5", "protocol": 6, "sport": 1, "dport": 2, **members}


def group(*members):
    return {**json.loads(document(services=[FIREWALL])), "groups": [{"service": "fw", "members": list(members)}], "packets": []}


def numbered(past):
    """Of each place of a number: the command, a document with a number there that is one past its bounds, the number's part of
    the schema, its path, and what the sentence says beside the bounds. `past` gives a number of a part."""
    autonomous = member_of("topology", "as")
    reserved = b"%%s, neither %d nor %d" % tuple(autonomous["not"]["enum"])
    yield b"compile", {"topology": {"as": past(autonomous)}}, autonomous, b"topology.as", reserved
    for kind, made, member in (
        ("network", lambda n: network("red", n), "id"),
        ("port", lambda n: port("vm", n, "red", "10.1.0.5"), "id"),
        ("policy", lambda n: {"name": "p", "sequence": n}, "sequence"),
        ("service", lambda n: {**FIREWALL, "id": n}, "id"),
    ):
        part, named = member_of(kind, member), {"policy": "policies"}.get(kind, kind + "s")
        listed = json.loads(document(**{named: [made(past(part))]}))
        yield b"compile", listed, part, b"configuration.%s[0].%s" % (named.encode(), member.encode()), b"%s"
        put = with_members(events=[{"edit": {"put": {kind: made(past(part))}}}])
        yield b"run", put, part, b"events[0].edit.put.%s.%s" % (kind.encode(), member.encode()), b"%s"
    for member, part, made, said in (
        ("protocol", in_schema("rule", "properties", "protocol", "anyOf", 0), lambda n: {**PASSES, "protocol": n}, b"%s, or any"),
        ("use", member_of("rule", "use"), lambda n: through("c", n), b"%s"),
    ):
        listed = json.loads(document(policies=[policy(made(past(part)))]))
        yield b"compile", listed, part, b"configuration.policies[0].rules[0].%s" % member.encode(), said
    for member in ("source_ports", "destination_ports"):
        part = in_schema("rule", "properties", member, "items")
        listed = json.loads(document(policies=[policy({**PASSES, member: [past(part), 65535]})]))
        yield b"compile", listed, part, b"configuration.policies[0].rules[0].%s[0]" % member.encode(), b"%s"
    for member in ("port", "protocol", "sport", "dport"):
        part = member_of("packet", member)
        tried = packet(**{member: past(part)})
        yield b"reach", with_members(packets=[tried]), part, b"packets[0].%s" % member.encode(), b"%s"
        yield b"flows", with_members(capacity=1, steps=[{"trace": tried}]), part, b"steps[0].trace.%s" % member.encode(), b"%s"
    part = in_schema("group", "properties", "members", "items")
    yield b"scale", group(past(part)), part, b"groups[0].members[0]", b"%s"
    part = member_of("flows", "capacity")
    yield b"flows", with_members(capacity=past(part), steps=[]), part, b"capacity", b"%s"
    part = in_schema("names_and_number", "prefixItems", 2)
    for member in ("deliver", "deliver-bytes", "break"):
        lists = with_members(events=[{member: ["c1", "n1", past(part)]}])
        yield b"run", lists, part, b"events[0].%s[2]" % member.encode(), b"%s"


def lengthy():
    """A group with more members than there may be, its path, and what the form wants there."""
    part = member_of("group", "members")
    said = b"a list of %d to %d numbers, each below the next" % (part["minItems"], part["maxItems"])
    return group(*range(part["maxItems"] + 1)), b"groups[0].members", said


def outside(command, text, path, said):
    """A run on a document that is outside the form at a path, as those of RUNS."""
    sentence = b"overlay: %s is outside what the form allows there: %s\n" % (path, said)
    return [command], json.dumps(text).encode(), 6, b"bad document %s Range\n" % path, sentence


def bounds():
    """Runs of numbers on both sides outside the bounds of the schema."""
    for past in (lambda part: part["minimum"] - 1, lambda part: part["maximum"] + 1):
        for command, text, part, path, said in numbered(past):
            yield outside(command, text, path, said % numbers(part))
    yield outside(b"scale", *lengthy())


# the words, the input, the status, standard output, standard error
RUNS = [
    ([b"compile"], example("one.json"), 0, TEXT, b""),
    ([b"decode"], b"", 0, b"", b""),
    ([b"decode"], KEEPALIVE * 10_000, 0, b"keepalive\n" * 10_000, b""),
    ([b"gen", b"3"], b"", 0, SUMMARY, b""),
    ([b"compile"], b" " * 16_777_217, 4, b"", TOO_LONG),
    ([b"compile"], b"", 5, b"not json\n", EMPTY),
    ([b"compile"], b"\xef\xbb\xbf" + example("one.json"), 5, b"not json\n", MARK),
    ([b"compile"], b"\n", 5, b"not json\n", BLANK),
    ([b"compile"], b"{", 5, b"not json\n", NO_JSON + b"line 1, column 2\n"),
    ([b"run"], b'{"a": 1,\n "b": x}', 5, b"not json\n", NO_JSON + b"line 2, column 7\n"),
    ([b"reach"], b'{"a":\n  "\xff"}', 5, b"not json\n", NO_JSON + b"line 2, column 4\n"),
    ([b"decode"], b"0", 5, b"not hex\n", NO_PAIR % (1, 1)),
    ([b"decode"], KEEPALIVE * 10_000 + b"0", 5, b"not hex\n", NO_PAIR % (10_001, 1)),
    ([b"decode"], KEEPALIVE * 10_000 + b"00 0x", 5, b"not hex\n", STRAY % (10_001, 5)),
    ([b"run"], json.dumps(with_members(events=["settle", {"show": "n9"}, {"lose": ["n9", "c1"]}])).encode(), 0,
     b"1 settled rounds 2\n2 idle\n3 idle\n", b"overlay: event 2 names n9, and no such node is there\n"),
    ([b"run"], json.dumps(with_members(events=[{"lose": ["n1", "n1"]}])).encode(), 0, b"1 idle\n",
     b"overlay: event 1 names a session of n1 and n1, and they have none\n"),
    *(([b"compile"], text, 7, b"refused " + line + b"\n", b"overlay: " + said + b"\n") for text, line, said in REFUSED),
    *(([b"compile"], text, 6, b"bad document " + line + b"\n", b"overlay: " + said + b"\n") for text, line, said in BAD),
    *bounds(),
]
# what is built by tools/build_unproved.py says so
VERSIONS = [b"overlay 0.1.0\n", b"overlay 0.1.0, not proved\n"]
# words that are no command, and what is said of them before the usage
WRONG = [
    ([], b""),
    ([b"show"], b"overlay: show is no command\n"),
    ([b"compil"], b"overlay: compil is no command, and the nearest is compile\n"),
    ([b"fows"], b"overlay: fows is no command, and the nearest is flows\n"),
    ([b"Run"], b"overlay: Run is no command, and the nearest is run\n"),
    ([b"help"], b"overlay: help is no command, and the nearest is --help\n"),
    ([b"one.json"], b"overlay: one.json is no command\n"),
    ([b"\x1b[2J"], b"overlay: \\x1b[2J is no command\n"),
    ([b""], b"overlay:  is no command\n"),
    ([b"compile", b"one.json"], b"overlay: compile reads standard input: overlay compile < one.json\n"),
    ([b"decode", b"a", b"b"], b"overlay: decode reads standard input: overlay decode < a\n"),
    ([b"--help", b"compile"], b""),
    ([b"gen"], b"overlay: gen takes one number, 1 to 999\n"),
    ([b"gen", b"03"], b"overlay: gen takes one number, 1 to 999\n"),
    ([b"\xff"], b""),
]


def names_each(text, words):
    """Whether a line of a text begins with each of the words, behind two blanks, and says more."""
    first = [line.split(b" ")[2] for line in text.splitlines() if line.startswith(b"  ") and line.count(b" ") > 2]
    return all(word in first for word in words)


def ended(program, words, source, sink):
    """The status of a run over these ends, and what it wrote to standard error."""
    run = subprocess.run([program] + words, stdin=source, stdout=sink, stderr=subprocess.PIPE, timeout=60)
    return run.returncode, run.stderr


def written(program, words, text):
    """The status of a run on a text, and what it wrote to standard output and to standard error."""
    run = subprocess.run([program] + words, input=text, capture_output=True, timeout=60)
    return run.returncode, run.stdout, run.stderr


def closed(program, words, stream):
    """The status of a run on the first example, one of whose streams is closed, and what it wrote to standard error."""
    command = 'exec "$0" "$@" %s' % {"input": "<&-", "output": ">&-"}[stream]
    with open(os.path.join(EXAMPLES, "one.json"), "rb") as source:
        ends = {"stdin": source, "stdout": subprocess.PIPE, "stderr": subprocess.PIPE}
        run = subprocess.run(["sh", "-c", command, program] + words, **ends, timeout=60)
    return run.returncode, run.stderr


def others(program):
    """Each run that ended otherwise, as a line."""
    for words, text, *wanted in RUNS:
        got = written(program, words, text)
        if got != tuple(wanted):
            yield f"{words}: status {got[0]} and not {wanted[0]}, {got[1][:80]!r}, {got[2][:80]!r}"
    for words, fault in WRONG:
        status, out, said = written(program, words, b"")
        if (status, out) != (2, b"") or not said.startswith(fault + USAGE) or not names_each(said, COMMANDS):
            yield f"{words}: status {status}, {out[:80]!r}, {said[:80]!r}"
    status, out, said = written(program, [b"--help"], b"")
    if (status, said) != (0, b"") or not names_each(out, COMMANDS + STATUSES):
        yield f"--help: status {status}, {out[:80]!r}, {said[:80]!r}"
    if written(program, [b"-h"], b"") != (status, out, said):
        yield "-h: not as --help"
    status, out, said = written(program, [b"--version"], b"")
    if (status, said) != (0, b"") or out not in VERSIONS:
        yield f"--version: status {status}, {out[:80]!r}, {said[:80]!r}"
    with open(EXAMPLES + "/one.json", "rb") as source, open("/dev/full", "wb") as full:
        got = ended(program, [b"compile"], source, full)
        if got != (8, NO_WRITE):
            yield f"compile to a full output: {got}"
    for word in (b"--help", b"--version"):
        with open("/dev/full", "wb") as full:
            got = ended(program, [word], subprocess.DEVNULL, full)
            if got != (8, NO_WRITE):
                yield f"{word} to a full output: {got}"
    folder = os.open(EXAMPLES, os.O_RDONLY)
    try:
        got = ended(program, [b"compile"], folder, subprocess.DEVNULL)
        if got != (3, NO_READ):
            yield f"compile from a folder: {got}"
    finally:
        os.close(folder)
    got = closed(program, [b"compile"], "output")
    if got != (8, NO_WRITE):
        yield f"compile to a closed output: {got}"
    got = closed(program, [b"compile"], "input")
    if got != (3, NO_READ):
        yield f"compile from a closed input: {got}"


def main():
    if len(sys.argv) != 2:
        sys.exit(__doc__)
    found = list(others(os.path.abspath(sys.argv[1])))
    for line in found:
        print(line)
    print(f"{len(RUNS) + len(WRONG) + 8} runs, {len(found)} that ended otherwise")
    sys.exit(1 if found else 0)


if __name__ == "__main__":
    main()
