#!/usr/bin/env python3
"""Makes a document of `overlay` of one as people write it, and one as people write it of a document.

usage: tools/short.py FILE [--numbers KEPT] > DOCUMENT.json
       tools/short.py FILE --where [--numbers KEPT] < ANSWERS
       tools/short.py --back DOCUMENT.json [--numbers KEPT] > FILE

FILE, as examples/cloud.txt, has a thing in each line; `#` begins a comment; lines that belong to one stand under it, further to
the right:

    as 64512                              # of the topology
    controller c1 192.0.2.1
    node n1 192.0.2.11 c1                 # name, address, one or two control nodes

    network front 10.1.0.0/24 web         # name, subnets, policies
    network store 10.2.0.0/24 web
    port vm1 front 10.1.0.1 n1            # name, network, address, compute node
    port vm2 store 10.2.0.2 n1
    service fw n1                         # name, compute node
    chain guard fw                        # name, services and chains
    policy web
        deny tcp any <> any 22            # action, protocol, from [its ports] > or <> to [its ports]
        pass udp front 1024-65535 > store 514
        chain guard any front <> store

    packets                               # for reach and scale
        tcp vm1 > vm2 22                  # protocol, from [its port] > to [its port]
        icmp vm1 > 10.2.0.2

A protocol is `tcp`, `udp`, `icmp`, `any` or a number. Ports that are not said, or `any`, are all; of a packet they are 50000 of
tcp and udp where it comes from, and else 0. Where a packet comes from is a port's name, or `=` and a number; where it goes is a
port's name or an address. Beside `packets` there are `groups` with lines as `fw 1 2 3`, `events` (`settle`, `round`,
`lose c1 c2`, `connect c1 c2`, `restart n1`, `show n1`, `deliver c1 n1 5`, `deliver-bytes c1 n1 5`, `break c1 n1 1`, `trace` and
a packet, `put` and a thing as above, `delete port vm1`; of a log `opened` and `update` with digits, `closed`, `expired`, `show`),
`capacity 1`, and `steps` (`trace`, `put`, `delete`).

Numbers of networks, ports, services and uses and the sequences of policies are given out, a port another one in another
network, and a use another one where its chain, its policy or its networks are others. They are kept in KEPT, FILE.numbers where
it is not said, and what is not in FILE any more keeps its number there; `=7` at the end of a line says one. A new policy comes
behind all others.

With --where ANSWERS, what the program answered of the document, is printed again, and for what was refused and for each event
that was idle standard error has the line of FILE. With --back numbers are written to KEPT where that is said, and else
into FILE, as `=7`.

Needs Python 3.8. Ends with status 0 where all is written, 1 where FILE, DOCUMENT or KEPT is broken or cannot be read or written
(with its line, or its path), 2 where it was given other words.
"""
import ipaddress
import json
import os
import re
import signal
import sys

PROTOCOLS = {"icmp": 1, "tcp": 6, "udp": 17}
WORDS_OF = {number: word for word, number in PROTOCOLS.items()}
ALL = [0, 65535]
USUAL = 50000  # the source port of a packet of tcp and of udp
FIRST = {"network": 1, "port": 1, "service": 1, "policy": 10, "use": 0}
MOST = {"network": 16383, "port": 524271, "service": 65535, "policy": 65535, "use": 3071}
LEAST = {"network": 1}
LISTS = {"network": "networks", "port": "ports", "policy": "policies", "service": "services", "chain": "chains"}
SECTIONS = ("packets", "groups", "events", "steps")
PAIRS, TRIPLES, NODES = ("lose", "connect"), ("deliver", "deliver-bytes", "break"), ("restart", "show")


class Fault(Exception):
    """What is wrong, and where: a number of a line, or a path."""

    def __init__(self, place, said):
        super().__init__(f"{place}: {said}")


# lines -----------------------------------------------------------------------------------------------------------------


class Line:
    """A line with its words, and the lines under it."""

    def __init__(self, number, words):
        self.number, self.words, self.under = number, words, []

    def fault(self, said):
        return Fault(self.number, said)

    def count(self, least, most, form):
        if not least <= len(self.words) <= most:
            raise self.fault(f"the form is `{form}`, and here is `{' '.join(self.words)}`")

    def alone(self):
        if self.under:
            raise self.under[0].fault(f"nothing stands under `{self.words[0] if self.words else ''}`")

    def number_at(self, word, least, most, what):
        if not re.fullmatch("0|[1-9][0-9]{0,9}", word) or not least <= int(word) <= most:
            raise self.fault(f"{what} is a number from {least} to {most}, and here is `{word}`")
        return int(word)

    def name(self, word, what, also=()):
        if word not in also and not re.fullmatch("[a-z0-9_-]{1,32}", word):
            raise self.fault(f"{what} has a name of 1 to 32 of a to z, 0 to 9, - and _, and here is `{word}`")
        return word

    def address(self, word, node=False):
        found = address_of(word)
        if found is None or node and not 1 <= int(word.split(".")[0]) <= 223:
            wanted = "an address of a node from 1.0.0.0 to 223.255.255.255" if node else "an address"
            raise self.fault(f"{wanted} is wanted, and here is `{word}`")
        return word

    def prefix(self, word):
        front, _, length = word.partition("/")
        address = address_of(front)
        if address is None or not re.fullmatch("0|[1-9][0-9]?", length) or int(length) > 32:
            raise self.fault(f"a prefix is an address, / and a length up to 32, and here is `{word}`")
        if int(address) & (2 ** (32 - int(length)) - 1):
            raise self.fault(f"the prefix `{word}` has a bit of the address set behind its length")
        return word

    def protocol(self, word, also=()):
        return PROTOCOLS[word] if word in PROTOCOLS else word if word in also else self.number_at(word, 0, 255, "a protocol")

    def ports(self, word):
        if word == "any":
            return list(ALL)
        low, _, high = word.partition("-")
        found = [self.number_at(it, 0, 65535, "a port") for it in (low, high or low)]
        if found[0] > found[1] or word.endswith("-"):
            raise self.fault(f"a range of ports is `LOW-HIGH`, and here is `{word}`")
        return found


def address_of(word):
    try:
        return ipaddress.IPv4Address(word) if word.isascii() else None
    except ValueError:
        return None


def lines_of(text):
    """The lines of a text as a tree, by how far to the right they begin."""
    top = Line(0, [])
    open_lines = [(-1, top)]
    for number, whole in enumerate(text.split("\n"), 1):
        line = re.sub(r"(^|\s)#.*", "", whole).expandtabs()
        if not line.strip():
            continue
        depth = len(line) - len(line.lstrip())
        while open_lines[-1][0] >= depth:
            open_lines.pop()
        made = Line(number, line.split())
        open_lines[-1][1].under.append(made)
        open_lines.append((depth, made))
    return top


# numbers ---------------------------------------------------------------------------------------------------------------


class Numbers:
    """The numbers that were given out, by kind and key, and those that a document says itself."""

    def __init__(self, kept):
        self.kept = {kind: dict(kept.get(kind, {})) for kind in FIRST}
        self.said = {}  # of a kind and a number the key and the line that say it
        self.lost = {}  # of a kind and a key whose number another key was given the line that did it
        self.waiting = []  # what is to have a number: kind, key, line, and what takes it

    def ask(self, kind, key, line, said, take, is_edit):
        """A number for a key: the one that the line says, or one that is given once all lines are read."""
        if said is None:
            self.waiting.append((kind, key, line, take))
            return
        number = line.number_at(said[1:], LEAST.get(kind, 0), MOST[kind], f"what follows `=` of a {kind}")
        if not is_edit:  # an edit may put the number of something that is deleted by then
            self.say(kind, key, line, number)
        elif number not in self.kept[kind].values():
            self.kept[kind].setdefault(key, number)
        take(number)

    def say(self, kind, key, line, number):
        other, there = self.said.setdefault((kind, number), (key, line.number))
        if other != key:
            raise line.fault(f"the {kind} number {number} is said of `{other}` in line {there}")
        for name in [name for name, it in self.kept[kind].items() if it == number and name != key]:
            self.lost[kind, name] = line.number, number
            del self.kept[kind][name]
        self.kept[kind][key] = number

    def give(self):
        for kind, key, line, take in self.waiting:
            if (kind, key) in self.lost and key not in self.kept[kind]:
                there, number = self.lost[kind, key]
                raise line.fault(f"the {kind} number {number} was given to this, and line {there} says it of something else")
            if key not in self.kept[kind]:
                self.kept[kind][key] = self.new(kind, line)
            take(self.kept[kind][key])

    def new(self, kind, line):
        taken = set(self.kept[kind].values())
        step = 10 if kind == "policy" else 1
        number = max([FIRST[kind] - step, *taken]) // step * step + step
        if number > MOST[kind]:
            number = next((it for it in range(FIRST[kind], MOST[kind] + 1) if it not in taken), None)
        if number is None:
            raise line.fault(f"all numbers of a {kind} are given out")
        return number


def read_numbers(path):
    if path is None or not os.path.exists(path):
        return {}
    with open(path, encoding="utf-8") as source:
        try:
            kept = json.load(source)
        except ValueError as fault:
            raise Fault(path, f"no JSON: {fault}") from None
    wrong = not isinstance(kept, dict) or any(kind not in FIRST for kind in kept)
    if wrong:
        raise Fault(path, f"not an object with {', '.join(FIRST)}")
    for kind, names in kept.items():
        if not isinstance(names, dict):
            raise Fault(f"{path}: {kind}", "not an object")
        for name, number in names.items():
            if not isinstance(number, int) or isinstance(number, bool) or not LEAST.get(kind, 0) <= number <= MOST[kind]:
                raise Fault(f"{path}: {kind}.{name}", f"not a number from {LEAST.get(kind, 0)} to {MOST[kind]}")
    return kept


def write_numbers(path, kept):
    text = json.dumps({kind: names for kind, names in kept.items() if names}, indent=1) + "\n"
    with open(path + ".new", "w", encoding="utf-8") as target:
        target.write(text)
    os.replace(path + ".new", path)


# a short document to the strict one ------------------------------------------------------------------------------------


class Reader:
    """Makes a document of lines, and remembers which line each thing is of."""

    def __init__(self, kept):
        self.numbers = Numbers(kept)
        self.document, self.capacity = {}, None
        self.topology, self.configuration = {"as": None, "controllers": [], "nodes": []}, {}
        self.ports = {}  # by its name each port, as the lines so far say it
        self.later = []  # packets with their ports, whose numbers are not given yet
        self.lines = {}  # of a kind and a name the line
        self.rules = []  # a policy, the place of a rule, its line
        self.is_edit = False

    def text(self, top):
        for line in top.under:
            self.line(line)
        self.numbers.give()
        for made, port in self.later:
            made["port"] = port["id"]
        for policy, place, line in self.rules:
            self.lines["rule", f"{policy['sequence']}/{place}"] = line
        made = {}
        if self.configuration or any(self.topology.values()):
            for member, form in (("as", "as NUMBER"), ("controllers", "controller NAME ADDRESS"), ("nodes", "node NAME ..")):
                if not self.topology[member]:
                    raise Fault(1, f"no line `{form}`")
            made = {"topology": self.topology,
                    "configuration": {name: self.configuration[name] for name in LISTS.values() if name in self.configuration}}
        if self.capacity is not None:
            made["capacity"] = self.capacity
        made.update({name: self.document[name] for name in ("groups", *SECTIONS) if name in self.document})
        if not made:
            raise Fault(1, "nothing stands here")
        return made

    def line(self, line):
        kind = line.words[0]
        if kind in SECTIONS:
            line.count(1, 1, kind)
            for under in line.under:
                self.document.setdefault(kind, []).append(getattr(self, kind)(under))
            self.document.setdefault(kind, [])
        elif kind in LISTS:
            self.configuration.setdefault(LISTS[kind], []).append(self.thing(line, line.words))
        elif kind == "node":
            self.topology["nodes"].append(self.thing(line, line.words))
        elif kind == "controller":
            self.topology["controllers"].append(self.controller(line))
        elif kind in ("as", "capacity"):
            line.count(2, 2, f"{kind} NUMBER")
            line.alone()
            found = line.number_at(line.words[1], 1, 65535 if kind == "capacity" else 4294967294, f"`{kind}`")
            if kind == "as" and found in (23456, 65535):
                raise line.fault(f"the number of an autonomous system is not {found}")
            self.capacity = found if kind == "capacity" else self.capacity
            self.topology["as"] = found if kind == "as" else self.topology["as"]
        else:
            known = ["as", "controller", "node", *LISTS, "capacity", *SECTIONS]
            raise line.fault(f"`{kind}` is none of {', '.join(known)}")

    def controller(self, line):
        line.count(3, 3, "controller NAME ADDRESS")
        line.alone()
        self.lines["node", line.words[1]] = line
        return {"name": self.node_name(line, line.words[1]), "address": line.address(line.words[2], True)}

    @staticmethod
    def node_name(line, word):
        if word == "config":
            raise line.fault("no node is named `config`")
        return line.name(word, "a node")

    def thing(self, line, words):
        """What a line puts: a network, a port, a policy, a service, a chain or a node."""
        kind, said = words[0], words[-1] if words[-1].startswith("=") else None
        parts = words[1:-1] if said else words[1:]
        if said and kind not in FIRST:
            raise line.fault(f"a {kind} has no number")
        if kind != "policy":
            line.alone()
        if not parts:
            raise line.fault(f"a {kind} has a name")
        made = getattr(self, kind)(line, parts, said)
        if not self.is_edit:
            self.lines.setdefault((kind, parts[0]), line)
        return made

    def ask(self, kind, key, line, said, made, member="id"):
        self.numbers.ask(kind, key, line, said, lambda number: made.update({member: number}), self.is_edit)

    def node(self, line, parts, _):
        if not 3 <= len(parts) <= 4:
            raise line.fault("the form is `node NAME ADDRESS CONTROLLER [CONTROLLER]`")
        return {"name": self.node_name(line, parts[0]), "address": line.address(parts[1], True),
                "controllers": [line.name(it, "a control node") for it in parts[2:]]}

    def network(self, line, parts, said):
        name = line.name(parts[0], "a network")
        if name == "any":
            raise line.fault("no network is named `any`")
        made = {"name": name, "id": None, "subnets": [line.prefix(it) for it in parts[1:] if "/" in it],
                "policies": [line.name(it, "a policy") for it in parts[1:] if "/" not in it]}
        self.ask("network", name, line, said, made)
        return made

    def port(self, line, parts, said):
        if len(parts) != 4:
            raise line.fault("the form is `port NAME NETWORK ADDRESS NODE`")
        name, network = line.name(parts[0], "a port"), line.name(parts[1], "a network", ("any",))
        made = {"name": name, "id": None, "network": network, "address": line.address(parts[2]),
                "node": line.name(parts[3], "a node")}
        self.ports[name] = made
        self.ask("port", f"{name} {network}", line, said, made)
        return made

    def service(self, line, parts, said):
        if len(parts) != 2:
            raise line.fault("the form is `service NAME NODE`")
        made = {"name": line.name(parts[0], "a service"), "id": None, "node": line.name(parts[1], "a node")}
        self.ask("service", parts[0], line, said, made)
        return made

    def chain(self, line, parts, _):
        if len(parts) < 2:
            raise line.fault("the form is `chain NAME HOP ..`")
        return {"name": line.name(parts[0], "a chain"), "hops": [line.name(it, "a service or a chain") for it in parts[1:]]}

    def policy(self, line, parts, said):
        if len(parts) != 1:
            raise line.fault("the form is `policy NAME`, with its rules under it")
        made, uses = {"name": line.name(parts[0], "a policy"), "sequence": None, "rules": []}, {}
        for place, under in enumerate(line.under, 1):
            made["rules"].append(self.rule(under, parts[0], uses))
            if not self.is_edit:
                self.rules.append((made, place, under))
        self.ask("policy", parts[0], line, said, made, "sequence")
        return made

    def rule(self, line, policy, uses):
        form = "pass|deny|chain NAME PROTOCOL FROM [PORTS] >|<> TO [PORTS]"
        line.alone()
        words = list(line.words)
        action = words.pop(0)
        chain = words.pop(0) if action == "chain" and words else None
        said = words.pop() if words and words[-1].startswith("=") else None
        way = next((place for place, word in enumerate(words) if word in (">", "<>")), None)
        if action not in ("pass", "deny", "chain") or way not in (2, 3) or len(words) - way not in (2, 3):
            raise line.fault(f"the form of a rule is `{form}`, and here is `{' '.join(line.words)}`")
        if said and chain is None:
            raise line.fault("the number of a use is a chain's")
        made = {"direction": words[way], "source": line.name(words[1], "a network"),
                "destination": line.name(words[way + 1], "a network"), "protocol": line.protocol(words[0], ("any",)),
                "source_ports": line.ports(words[2] if way == 3 else "any"),
                "destination_ports": line.ports(words[way + 2] if len(words) > way + 2 else "any"), "action": action}
        if chain is not None:
            made.update(chain=line.name(chain, "a chain"), use=None)
            self.ask("use", key_of_use(uses, policy, chain, made["source"], made["destination"]), line, said, made, "use")
        return made

    def packet(self, line, words):
        form = "PROTOCOL PORT [NUMBER] > PORT or ADDRESS [NUMBER]"
        way = words.index(">") if ">" in words else 0
        if way not in (2, 3) or len(words) - way not in (2, 3):
            raise line.fault(f"the form of a packet is `{form}`, and here is `{' '.join(words)}`")
        protocol = line.protocol(words[0])
        usual = USUAL if protocol in (6, 17) else 0
        made = {"port": None, "to": self.target(line, words[way + 1]), "protocol": protocol,
                "sport": line.number_at(words[2], 0, 65535, "a port of a packet") if way == 3 else usual,
                "dport": line.number_at(words[-1], 0, 65535, "a port of a packet") if len(words) - way == 3 else 0}
        if words[1].startswith("="):
            made["port"] = line.number_at(words[1][1:], 0, MOST["port"], "a port")
        elif words[1] in self.ports:
            self.later.append((made, self.ports[words[1]]))
        else:
            raise line.fault(f"no port `{words[1]}` stands before")
        return made

    def target(self, line, word):
        if address_of(word) is None and word not in self.ports:
            raise line.fault(f"`{word}` is no address, and no port `{word}` stands before")
        return word if address_of(word) is not None else self.ports[word]["address"]

    def packets(self, line):
        line.alone()
        return self.packet(line, line.words)

    def groups(self, line):
        line.alone()
        if not 2 <= len(line.words) <= 17:
            raise line.fault("the form of a group is `SERVICE MEMBER ..`, with 1 to 16 members")
        members = [line.number_at(it, 0, 65535, "a member") for it in line.words[1:]]
        if any(low >= high for low, high in zip(members, members[1:])):
            raise line.fault("each member is below the next")
        if ("service", line.words[0]) not in self.lines:
            raise line.fault(f"no service `{line.words[0]}` stands before")
        if any(line.words[0] == it["service"] for it in self.document.get("groups", ())):
            raise line.fault(f"`{line.words[0]}` has a group already")
        return {"service": line.words[0], "members": members}

    def edit(self, line):
        """What a `put` or a `delete` is, or None."""
        words = line.words
        if words[0] not in ("put", "delete"):
            return None
        if len(words) < 3 or words[1] not in (*LISTS, "node"):
            raise line.fault(f"what is {words[0]} is one of {', '.join(LISTS)}, node, with its name")
        if words[0] == "put":
            self.is_edit = True
            made = {"put": {words[1]: self.thing(line, words[1:])}}
            self.is_edit = False
            return made
        line.count(3, 3, f"delete {words[1]} NAME")
        line.alone()
        return {"delete": {words[1]: line.name(words[2], f"a {words[1]}")}}

    def steps(self, line):
        edit = self.edit(line)
        if edit:
            return {"edit": edit}
        if line.words[0] != "trace":
            raise line.fault(f"`{line.words[0]}` is none of trace, put, delete")
        line.alone()
        return {"trace": self.packet(line, line.words[1:])}

    def events(self, line):
        words, kind = line.words, line.words[0]
        if kind in ("put", "delete", "trace"):
            return self.steps(line)
        line.alone()
        if kind in ("round", "settle", "closed", "expired") or kind == "show" and len(words) == 1:
            line.count(1, 1, kind)
            return kind
        if kind in ("opened", "update"):
            line.count(2, 2, f"{kind} DIGITS")
            return {kind: words[1]}
        if kind in NODES:
            line.count(2, 2, f"{kind} NODE")
            return {kind: line.name(words[1], "a node")}
        if kind in PAIRS:
            line.count(3, 3, f"{kind} NODE NODE")
            return {kind: [line.name(it, "a node") for it in words[1:]]}
        if kind in TRIPLES:
            line.count(4, 4, f"{kind} NODE NODE NUMBER")
            return {kind: [*(line.name(it, "a node") for it in words[1:3]), line.number_at(words[3], 1, 1000000, "the last")]}
        known = ("settle", "round", *PAIRS, *NODES, *TRIPLES, "trace", "put", "delete", "opened", "update", "closed", "expired")
        raise line.fault(f"`{kind}` is none of {', '.join(known)}")


def key_of_use(uses, *parts):
    """By what a use keeps its number: its policy, chain and networks, and which of several it is."""
    key = " ".join(parts)
    uses[key] = uses.get(key, 0) + 1
    return f"{key} {uses[key]}" if uses[key] > 1 else key


def read(text, kept):
    """The document of a short one, and who read it."""
    reader, top = Reader(kept), lines_of(text)
    return reader.text(top), reader, top


def spelled(document):
    """A document as text, with each thing in a line."""
    def inner(value, depth):
        here, pad = "  " * depth, "  " * (depth + 1)
        simple = json.dumps(value)
        if depth and len(simple) < 118 - len(here) or not isinstance(value, (dict, list)) or not value:
            return simple
        if isinstance(value, dict):
            return "{\n" + ",\n".join(f"{pad}{json.dumps(k)}: {inner(it, depth + 1)}" for k, it in value.items()) + f"\n{here}}}"
        return "[\n" + ",\n".join(pad + inner(it, depth + 1) for it in value) + f"\n{here}]"
    return inner(document, 0) + "\n"


# answers to lines ------------------------------------------------------------------------------------------------------

KINDS = {  # of a rule of a configuration the kinds of what it names
    "DuplicateName": ("node", *LISTS), "BadReference": (), "SubnetReserved": ("network",), "SubnetNested": ("network",),
    "AddressOutside": ("port",), "AddressTaken": ("port",), "ChainNeedsNetworks": ("rule",), "ChainSameNetwork": ("rule",),
    "ChainLoop": ("chain",), "ChainTooLong": ("chain",), "ServiceTwice": ("chain",), "SubnetOverlap": ("network",),
}


def line_of_refusal(words, reader, top):
    """The line of what is refused: of what it names, or the first that has the name as a word."""
    if words[0] == "Limit" or len(words) < 2:
        return None
    name = words[-1]
    for kind in KINDS.get(words[0], ()):
        if (kind, words[1]) in reader.lines:
            name = words[2] if words[0] in ("AddressTaken", "SubnetOverlap") and len(words) > 2 else words[1]
            found = reader.lines.get((kind, name))
            if found and words[0] != "DuplicateName":
                return found.number
    return first_with(top, name, words[0] == "DuplicateName")


def first_with(top, name, last):
    found = [line.number for line in walk(top) if name in line.words or f"={name}" in line.words]
    return found[-1 if last else 0] if found else None


def walk(line):
    for under in line.under:
        yield under
        yield from walk(under)


def where(text, kept, path):
    """Prints answers again, and says of which lines those are that were refused or idle."""
    _, reader, top = read(text, kept)
    events = [under for it in top.under if it.words[0] in ("events", "steps") for under in it.under]
    for answer in sys.stdin:
        sys.stdout.write(answer)
        words = answer.split()
        if words[:1] == ["refused"]:
            line = line_of_refusal(words[1:], reader, top)
            print(f"{path}:{line}: {answer.strip()}" if line else f"{path}: {answer.strip()}", file=sys.stderr)
        elif len(words) > 1 and words[0].isdigit() and words[1] in ("refused", "idle") and 0 < int(words[0]) <= len(events):
            print(f"{path}:{events[int(words[0]) - 1].number}: {answer.strip()}", file=sys.stderr)


# a strict document to the short one ------------------------------------------------------------------------------------


class Value:
    """A value of a document, with its path."""

    def __init__(self, value, path=""):
        self.value, self.path = value, path

    def fault(self, said):
        return Fault(self.path or "the document", said)

    def of(self, kind, said):
        if not isinstance(self.value, kind) or isinstance(self.value, bool):
            raise self.fault(f"is not {said}")
        return self.value

    def __getitem__(self, name):
        path = f"{self.path}.{name}" if self.path else name
        if name not in self.of(dict, "an object"):
            raise Fault(path, "is missing")
        return Value(self.value[name], path)

    def items(self, name=None):
        """The items of a list; of a list that may be absent by its name."""
        if name is not None:
            return self[name].items() if name in self.of(dict, "an object") else []
        return [Value(it, f"{self.path}[{place}]") for place, it in enumerate(self.of(list, "a list"))]

    def text(self):
        found = self.of(str, "a text")
        if not found or re.search(r"[\s#=]", found):
            raise self.fault("is no word")
        return found

    def number(self):
        return self.of(int, "a whole number")

    def one(self):
        """The one member of an object."""
        if len(self.of(dict, "an object")) != 1:
            raise self.fault("is not an object with one member")
        name = next(iter(self.value))
        return name, self[name]


class Writer:
    """Makes lines of a document; numbers are in the lines, or kept."""

    def __init__(self, keep):
        self.keep, self.kept = keep, {kind: {} for kind in FIRST}
        self.lines, self.ports, self.names = [], {}, {}

    def number(self, kind, key, value):
        """What a line says of a number: nothing where it is kept."""
        number = value.number()
        if self.keep and self.kept[kind].setdefault(key, number) == number:
            return ""
        return f" ={number}"

    def put(self, pad, *words):
        self.lines.append(pad + " ".join(words))

    def node(self, it, pad, before=""):
        self.put(pad, before + "node", it["name"].text(), it["address"].text(), *(c.text() for c in it["controllers"].items()))

    def network(self, it, pad, before=""):
        name = it["name"].text()
        parts = [part.text() for part in [*it["subnets"].items(), *it.items("policies")]]
        self.put(pad, before + "network", name, *parts, *self.number("network", name, it["id"]).split())

    def port(self, it, pad, before=""):
        name, network = it["name"].text(), it["network"].text()
        number = self.number("port", f"{name} {network}", it["id"])
        self.ports[it["id"].number()], self.names[name] = name, (it["id"].number(), it["address"].text())
        self.put(pad, before + "port", name, network, it["address"].text(), it["node"].text(), *number.split())

    def service(self, it, pad, before=""):
        name = it["name"].text()
        self.put(pad, before + "service", name, it["node"].text(), *self.number("service", name, it["id"]).split())

    def chain(self, it, pad, before=""):
        self.put(pad, before + "chain", it["name"].text(), *(hop.text() for hop in it["hops"].items()))

    def policy(self, it, pad, before=""):
        name = it["name"].text()
        self.put(pad, before + "policy", name, *self.number("policy", name, it["sequence"]).split())
        uses = {}
        for rule in it["rules"].items():
            self.rule(rule, name, uses, pad + "    ")

    def rule(self, it, policy, uses, pad):
        action, source, target = (it[name].text() for name in ("action", "source", "destination"))
        words, number = [action], ""
        if action == "chain":
            chain = it["chain"].text()
            words.append(chain)
            number = self.number("use", key_of_use(uses, policy, chain, source, target), it["use"])
        words += [protocol(it["protocol"]), source, *ports(it["source_ports"]), it["direction"].text(), target]
        self.put(pad, *words, *ports(it["destination_ports"]), *number.split())

    def packet(self, it):
        number, to, kind = it["port"].number(), it["to"].text(), it["protocol"].number()
        name = self.ports.get(number)
        source = name if name is not None and self.names[name][0] == number else f"={number}"
        targets = [port for port, (_, address) in self.names.items() if address == to]
        usual = USUAL if kind in (6, 17) else 0
        sport, dport = it["sport"].number(), it["dport"].number()
        return [protocol(it["protocol"]), source, *([str(sport)] if sport != usual else []), ">",
                targets[0] if len(targets) == 1 else to, *([str(dport)] if dport else [])]

    def step(self, it):
        kind, value = it.one()
        if kind == "trace":
            return self.put("    ", "trace", *self.packet(value))
        act, what = value.one()
        name, thing = what.one()
        if kind != "edit" or act not in ("put", "delete") or name not in (*LISTS, "node"):
            raise it.fault("is no event that is known here")
        if act == "delete":
            return self.put("    ", "delete", name, thing.text())
        return getattr(self, name)(thing, "    ", "put ")

    def event(self, it):
        if isinstance(it.value, str):
            return self.put("    ", it.text())
        kind, value = it.one()
        if kind in ("edit", "trace"):
            return self.step(it)
        if kind in (*PAIRS, *TRIPLES):
            parts, wanted = value.items(), 2 if kind in PAIRS else 3
            if len(parts) != wanted:
                raise value.fault(f"is not a list of {'two' if wanted == 2 else 'three'}")
            return self.put("    ", kind, *(part.text() for part in parts[:2]), *(str(part.number()) for part in parts[2:]))
        if kind in (*NODES, "opened", "update"):
            return self.put("    ", kind, value.text())
        raise it.fault("is no event that is known here")

    def write(self, document):
        known = ("topology", "configuration", "capacity", *SECTIONS)
        for name in document.of(dict, "an object"):
            if name not in known:
                raise Fault(name, f"is none of {', '.join(known)}")
        if "topology" in document.value:
            topology = document["topology"]
            self.put("", "as", str(topology["as"].number()))
            for it in topology["controllers"].items():
                self.put("", "controller", it["name"].text(), it["address"].text())
            for it in topology["nodes"].items():
                self.node(it, "")
        if "configuration" in document.value:
            for kind, name in LISTS.items():
                self.lines += [""] if document["configuration"].items(name) else []
                for it in document["configuration"].items(name):
                    getattr(self, kind)(it, "")
        if "capacity" in document.value:
            self.lines += ["", f"capacity {document['capacity'].number()}"]
        writers = {"packets": lambda it: self.put("    ", *self.packet(it)), "steps": self.step, "events": self.event,
                   "groups": lambda it: self.put("    ", it["service"].text(), *(str(m.number()) for m in it["members"].items()))}
        for name in SECTIONS:
            if name in document.value:
                self.lines += ["", name]
                for it in document[name].items():
                    writers[name](it)
        return "\n".join(self.lines).strip("\n") + "\n"


def protocol(value):
    return "any" if value.value == "any" else WORDS_OF.get(value.number(), str(value.number()))


def ports(value):
    low, high = [it.number() for it in value.items()] if len(value.items()) == 2 else (None, None)
    if low is None:
        raise value.fault("is not a list of two numbers")
    return [] if [low, high] == ALL else [str(low) if low == high else f"{low}-{high}"]


def plain(value):
    """A document without lists that may be absent and are empty."""
    if isinstance(value, dict):
        lists = [*LISTS.values()]
        return {name: plain(it) for name, it in value.items() if it != [] or name not in lists}
    return [plain(it) for it in value] if isinstance(value, list) else value


def difference(one, other, path=""):
    """The path of the first difference of two documents, or None."""
    if isinstance(one, dict) and isinstance(other, dict):
        for name in [*one, *other]:
            inner = f"{path}.{name}" if path else name
            found = inner if name not in one or name not in other else difference(one[name], other[name], inner)
            if found is not None:
                return found
        return None
    if isinstance(one, list) and isinstance(other, list) and len(one) == len(other):
        found = (difference(a, b, f"{path}[{place}]") for place, (a, b) in enumerate(zip(one, other)))
        return next((it for it in found if it is not None), None)
    return None if one == other and type(one) is type(other) else path


def written(document, keep):
    """The short document of one, and the numbers that are kept. That it reads as the document is tried."""
    writer = Writer(keep)
    text = writer.write(Value(document))
    try:
        again, _, _ = read(text, writer.kept if keep else {})
    except Fault as fault:
        line = text.split("\n")[int(str(fault).split(":")[0]) - 1].strip()
        raise Fault(f"what gives the line `{line}`", str(fault).partition(": ")[2]) from None
    place = difference(plain(document), plain(again))
    if place is not None:
        raise Fault(place or "the document", "breaks the form of documents")
    return text, writer.kept


# words -----------------------------------------------------------------------------------------------------------------


def content(path):
    octets = sys.stdin.buffer.read() if path == "-" else open(path, "rb").read()
    try:
        return octets.decode()
    except UnicodeDecodeError as fault:
        raise Fault(octets[:fault.start].count(b"\n") + 1, "no UTF-8") from None


def forth(path, kept_in):
    kept = read_numbers(kept_in)
    text = content(path)
    document, reader, _ = read(text, kept)
    if kept_in and reader.numbers.kept != {kind: kept.get(kind, {}) for kind in FIRST}:
        write_numbers(kept_in, reader.numbers.kept)
    sys.stdout.write(spelled(document))


def back(path, kept_in):
    try:
        document = json.loads(content(path))
    except (ValueError, RecursionError) as fault:
        raise Fault("no JSON", fault) from None
    text, kept = written(document, kept_in is not None)
    if kept_in:
        write_numbers(kept_in, kept)
    sys.stdout.write(text)


def main(words):
    if "--help" in words or "-h" in words:
        print(__doc__.strip())
        return 0
    kept_in = None
    if "--numbers" in words[:-1]:
        place = words.index("--numbers")
        kept_in = words[place + 1]
        words = words[:place] + words[place + 2:]
    options, paths = [it for it in words if it.startswith("--")], [it for it in words if not it.startswith("--")]
    if options not in ([], ["--where"], ["--back"]) or len(paths) != 1 or paths == ["-"] and options == ["--where"]:
        print(__doc__.split("\n\n")[1], file=sys.stderr)
        return 2
    path = paths[0]
    name, between = ("standard input" if path == "-" else path), ": " if options == ["--back"] else ":"
    try:
        if options == ["--back"]:
            back(path, kept_in)
            return 0
        kept_in = kept_in or (None if path == "-" else path + ".numbers")
        if options == ["--where"]:
            where(content(path), read_numbers(kept_in), path)
        else:
            forth(path, kept_in)
    except OSError as fault:
        print(f"{fault.filename or name}: {fault.strerror}", file=sys.stderr)
        return 1
    except Fault as fault:
        said = str(fault)
        print(said if kept_in and said.startswith(kept_in + ":") else name + between + said, file=sys.stderr)
        return 1
    return 0


if __name__ == "__main__":
    signal.signal(signal.SIGPIPE, signal.SIG_DFL)  # for who reads the first lines alone
    sys.exit(main(sys.argv[1:]))
