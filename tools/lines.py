#!/usr/bin/env python3
"""Makes lines of JSON of what `overlay` prints, and what it prints of lines of JSON.

usage: tools/lines.py [FILE] > OUT.jsonl
       tools/lines.py --back [FILE] > OUT.txt
       tools/lines.py --forms
       tools/lines.py --table

FILE, or standard input where there is none, is what a command printed: each line gives an object, whose member `line` is the
name of its form and whose other members are what it says, as numbers, texts and lists. `4 dropped denied 10/1` gives

    {"line": "denied", "number": 4, "rule": "10/1"}

A text that begins with `bad document ` is one line, since a name in its path may have a line break.

With --back FILE has such objects, one a line, and the text is written again, octet for octet. --forms prints the name of each
form and its regular expression, parted by a tab; Python, PCRE, Go and Rust take them. --table prints them for people, with the
parts by name.

Needs Python 3.8. Ends with status 0 where all is written, 1 where a line has no form or the file cannot be read (what stands
before is written), 2 where it was given other words.
"""
import json
import re
import signal
import sys


def some(item):
    """Items with commas between them, or `-` where there is none."""
    return f"(?:-|{item}(?:,{item})*)"


def split(text):
    return [] if text == "-" else text.split(",")


def joined(items):
    return ",".join(items) or "-"


def numbers(text):
    return [int(it) for it in split(text)]


def pairs(between, *kinds):
    """Of a list of pairs: how one is read and how it is written."""
    def read(text):
        return [[kind(part) for kind, part in zip(kinds, it.split(between))] for it in split(text)]

    def write(items):
        return joined(between.join(map(str, it)) for it in items)
    return read, write


def bounds(text):
    return [int(it) for it in text.split("-")]


def services(text):
    """The services of a way; with their members where `scale` prints them."""
    return pairs(":", int, int)[0](text) if ":" in text else numbers(text)


def written_services(items):
    return joined(":".join(map(str, it)) if isinstance(it, list) else str(it) for it in items)


# The parts of lines by name: regular expression, in which {PART} is that of another part; how the text is read; how the value is
# written.
PARTS = {
    "NUMBER": ("(?:0|[1-9][0-9]{0,19})", int, str),
    "NUMBERS": (some("{NUMBER}"), numbers, lambda items: joined(map(str, items))),
    "NAME": ("[a-z0-9_-]{1,32}", str, str),
    "ADDRESS": ("[0-9]{1,3}(?:\\.[0-9]{1,3}){3}", str, str),
    "PREFIX": ("{ADDRESS}/[0-9]{1,2}", str, str),
    "PREFIXES": (some("{PREFIX}"), split, joined),
    "RULE": ("{NUMBER}/{NUMBER}", str, str),
    "PROTOCOL": ("(?:{NUMBER}|any)", lambda text: text if text == "any" else int(text), str),
    "PORTS": ("{NUMBER}-{NUMBER}", bounds, lambda pair: "-".join(map(str, pair))),
    "DONE": ("(?:pass|deny)", str, str),
    "HOPS": (some("{NUMBER}@{ADDRESS}"), *pairs("@", int, str)),
    "SERVICES": ("(?:{NUMBERS}|" + some("{NUMBER}:{NUMBER}") + ")", services, written_services),
    "DISTINGUISHER": ("(?:{ADDRESS}:{NUMBER}|L?{NUMBER}:{NUMBER}|x[0-9a-f]{16})", str, str),
    "TARGET": ("{DISTINGUISHER}", str, str),
    "TARGETS": (some("{TARGET}"), split, joined),
    "CODE": ("{NUMBER}/{NUMBER}", str, str),
    "REASON": ("(?:no-source-port|no-destination|no-route|no-label|ttl-expired)", str, str),
    "STATE": ("(?:fresh|stale)", str, str),
    "MATCHED": ("(?:{RULE}|-)", lambda text: None if text == "-" else text, lambda rule: rule or "-"),
    "LIMIT": ("(?:networks|controllers|nodes|ports|policies|services|chains|subnets|attachments|rules|hops)", str, str),
    "ID": ("(?:network|port|sequence|service|use)", str, str),
    "ENDLESS": ("(?:[\\s\\S]* )?", lambda text: text[:-1], lambda text: text + " " if text else ""),
    "FAULT": ("(?:Missing|Kind|Range|Unknown)", str, str),
}

LIST = "acl {from:NUMBER} {to:NUMBER} "
ENTRY = LIST + "rule {rule:RULE} {protocol:PROTOCOL} {source_ports:PORTS} {destination_ports:PORTS} "
ROUTE = "{distinguisher:DISTINGUISHER} {prefix:PREFIX} next-hop {next_hop:ADDRESS} label {label:NUMBER} targets {targets:TARGETS}"
REFUSED = {
    "limit": "Limit {what:LIMIT}",
    "name": "DuplicateName {name:NAME}",
    "id": "DuplicateId {what:ID} {id:NUMBER}",
    "address": "DuplicateId address {address:ADDRESS}",
    "reference": "BadReference {name:NAME}",
    "reserved": "SubnetReserved {network:NAME} {subnet:PREFIX}",
    "nested": "SubnetNested {network:NAME} {subnet:PREFIX} {other:PREFIX}",
    "outside": "AddressOutside {port:NAME}",
    "taken": "AddressTaken {port:NAME} {other:NAME}",
    "needs": "ChainNeedsNetworks {rule:RULE}",
    "same": "ChainSameNetwork {rule:RULE}",
    "loop": "ChainLoop {chain:NAME}",
    "long": "ChainTooLong {chain:NAME}",
    "twice": "ServiceTwice {chain:NAME} {service:NAME}",
    "overlap": "SubnetOverlap {network:NAME} {other:NAME}",
}
EDITS = {
    "missing": "Missing {name:NAME}",
    "tied-port": "Tied port {port:NUMBER}",
    "tied-use": "Tied use {use:NUMBER}",
    "tied-node": "Tied node {address:ADDRESS}",
}

# The lines by the name of their form: the words of the line, with {MEMBER:PART} where a part stands.
LINES = {
    # objects and rows: compile, show
    "instance": "instance {instance:NUMBER} imports {imports:NUMBERS}",
    "attach-port": "attach {label:NUMBER} port {port:NUMBER} instance {instance:NUMBER} "
                   "address {address:ADDRESS} node {node:ADDRESS}",
    "attach-circuit": "attach {label:NUMBER} circuit {circuit:NUMBER} service {service:NUMBER} instance {instance:NUMBER} "
                      "address {address:ADDRESS} node {node:ADDRESS}",
    "acl": LIST + "subnets {subnets:PREFIXES}",
    "acl-rule": ENTRY + "{action:DONE}",
    "acl-enter": ENTRY + "enter {enter:NUMBER}",
    "use": "use {use:NUMBER} left {left:NUMBER} {left_prefixes:PREFIXES} right {right:NUMBER} {right_prefixes:PREFIXES} "
           "hops {hops:HOPS}",
    "control-row": "control {control:NAME} table {instance:NUMBER} {prefix:PREFIX} {distinguisher:DISTINGUISHER} "
                   "{next_hop:ADDRESS} {label:NUMBER}",
    "agent-port": "agent {agent:NAME} label {label:NUMBER} port {port:NUMBER} instance {instance:NUMBER}",
    "agent-circuit": "agent {agent:NAME} label {label:NUMBER} circuit {circuit:NUMBER} service {service:NUMBER}",
    "agent-acl": "agent {agent:NAME} " + LIST + "subnets {subnets:PREFIXES}",
    "agent-acl-rule": "agent {agent:NAME} " + ENTRY + "{action:DONE}",
    "agent-acl-enter": "agent {agent:NAME} " + ENTRY + "enter {enter:NUMBER}",
    "agent-row": "agent {agent:NAME} table {instance:NUMBER} {prefix:PREFIX} {next_hop:ADDRESS} {label:NUMBER}",
    # the summary of gen
    "gen": "gen {scenario:NUMBER} controllers {controllers:NUMBER} nodes {nodes:NUMBER} networks {networks:NUMBER} "
           "ports {ports:NUMBER} uses {uses:NUMBER}",
    "rounds": "rounds {first:NUMBER} {second:NUMBER}",
    "traces": "traces {traces:NUMBER} delivered {delivered:NUMBER} agreed {agreed:NUMBER}",
    # outcomes: reach, scale, and traces of run and flows
    "delivered": "{number:NUMBER} delivered port {port:NUMBER} services {services:SERVICES}",
    "dropped": "{number:NUMBER} dropped {reason:REASON}",
    "denied": "{number:NUMBER} dropped denied {rule:MATCHED}",
    # constrain
    "asked": "asked {control:NAME} {targets:TARGETS}",
    "sent": "sent {from:NAME} {to:NAME} {asked:NUMBER} of {of:NUMBER}",
    # answers of events, of steps and of entries of a log: run, flows, graceful
    "did": "{number:NUMBER} did",
    "idle": "{number:NUMBER} idle",
    "settled": "{number:NUMBER} settled rounds {rounds:NUMBER}",
    "unsettled": "{number:NUMBER} unsettled rounds {rounds:NUMBER}",
    "show": "{number:NUMBER} show {node:NAME}",
    "show-routes": "{number:NUMBER} show",
    "fault-of-entry": "{number:NUMBER} fault {fault:CODE}",
    "route": "route " + ROUTE + " {state:STATE}",
    **{f"edit-{name}": "{number:NUMBER} refused " + words for name, words in {**REFUSED, **EDITS}.items()},
    # decode
    "open": "open as {as:NUMBER} hold {hold:NUMBER} id {id:ADDRESS}",
    "update": "update",
    "put": "put " + ROUTE,
    "drop": "drop {distinguisher:DISTINGUISHER} {prefix:PREFIX}",
    "ask-all": "ask all",
    "ask": "ask {as:NUMBER} {target:TARGET}",
    "ask-part": "ask {as:NUMBER} {target:TARGET}/{length:NUMBER}",
    "unask-all": "unask all",
    "unask": "unask {as:NUMBER} {target:TARGET}",
    "unask-part": "unask {as:NUMBER} {target:TARGET}/{length:NUMBER}",
    "notification": "notification {notification:CODE}",
    "keepalive": "keepalive",
    "fault": "fault {fault:CODE}",
    "incomplete": "incomplete {octets:NUMBER}",
    # what could not be answered
    "not-json": "not json",
    "not-hex": "not hex",
    "bad-document": "bad document {path:ENDLESS}{kind:FAULT}",
    **{f"refused-{name}": "refused " + words for name, words in REFUSED.items()},
}
HOLE = re.compile(r"\{([a-z_]+):([A-Z]+)\}")
INNER = re.compile(r"\{([A-Z]+)\}")
WHOLE = "bad document "  # a text that begins so is one line, also where a name in its path has a line break


class Fault(Exception):
    """What is wrong, and in which line."""


def whole(pattern):
    """The regular expression of a part with those of its own parts written out."""
    return INNER.sub(lambda it: whole(PARTS[it[1]][0]), pattern)


class Form:
    """The form of a line: its regular expression, its members and their parts."""

    def __init__(self, name, words):
        self.name, self.words = name, words
        self.members = dict(HOLE.findall(words))
        self.pattern = HOLE.sub(lambda it: f"(?P<{it[1]}>{whole(PARTS[it[2]][0])})", words)
        self.matches = re.compile(self.pattern).fullmatch

    def read(self, line):
        """The object of a line, or None where it has another form."""
        found = self.matches(line)
        if found is None:
            return None
        return {"line": self.name, **{name: PARTS[part][1](found[name]) for name, part in self.members.items()}}

    def write(self, value):
        """The line of an object of this form."""
        if set(value) != {"line", *self.members}:
            raise ValueError(f"a line of the form {self.name} has the members {', '.join(self.members) or 'none'} beside `line`")
        try:
            line = HOLE.sub(lambda it: PARTS[it[2]][2](value[it[1]]), self.words)
        except (TypeError, AttributeError):
            line = None
        if line is None or json.dumps(self.read(line)) != json.dumps({name: value[name] for name in ("line", *self.members)}):
            raise ValueError(f"a member is none that a line of the form {self.name} has")
        return line


FORMS = {name: Form(name, words) for name, words in LINES.items()}
BY_WORD = {}  # the forms by a word that their lines have: the first, or the one behind a number or behind an agent's name


def key_of(line):
    """The word of a line, or of the words of a form, by which its form is looked for."""
    words = re.split("[ \n]", line)
    place = 1 if words[0][:1].isdigit() or words[0][:1] == "{" else 2 if words[0] == "agent" else 0
    return words[place] if place < len(words) else ""


for form in FORMS.values():
    BY_WORD.setdefault(key_of(form.words), []).append(form)


def object_of(line):
    """The object of a line, or None where it has no form."""
    found = (form.read(line) for form in BY_WORD.get(key_of(line), ()))
    return next((it for it in found if it is not None), None)


def lines_of(text):
    """The lines of a text, each with its number, without their line feeds."""
    if text.startswith(WHOLE):
        if not text.endswith("\n"):
            raise Fault("line 1: no line feed ends it")
        yield 1, text[:-1]
        return
    number = 0
    for number, line in enumerate(text.split("\n")[:-1], 1):
        yield number, line
    if not text.endswith("\n") and text:
        raise Fault(f"line {number + 1}: no line feed ends it, so what was printed is cut: {text.split(chr(10))[-1][:60]!r}")


def forth(text):
    """The lines of JSON of what was printed."""
    for number, line in lines_of(text):
        found = object_of(line)
        if found is None:
            raise Fault(f"line {number}: no form has {line[:80]!r}")
        yield json.dumps(found)


def line_of(number, text):
    """The line of a line of JSON."""
    try:
        value = json.loads(text)
    except (ValueError, RecursionError) as fault:
        raise Fault(f"line {number}: not JSON: {fault}") from None
    if not isinstance(value, dict) or not isinstance(value.get("line"), str):
        raise Fault(f"line {number}: not an object with a text `line`")
    if value["line"] not in FORMS:
        raise Fault(f"line {number}: no form has the name {value['line']!r}")
    try:
        return FORMS[value["line"]].write(value)
    except ValueError as fault:
        raise Fault(f"line {number}: {fault}") from None


def back(text):
    """What was printed, of lines of JSON."""
    for number, line in enumerate(text.split("\n"), 1):
        if line.strip():
            yield line_of(number, line)


def table():
    """The forms and their parts, for people."""
    yield "| Part | Regular expression |"
    yield "|---|---|"
    for name, (pattern, _, _) in PARTS.items():
        yield "| %s | `%s` |" % (name, pattern.replace("|", "\\|"))
    yield ""
    yield "| Form | Line |"
    yield "|---|---|"
    for form in FORMS.values():
        yield f"| {form.name} | `{form.words}` |"


def text_of(path):
    octets = open(path, "rb").read() if path else sys.stdin.buffer.read()
    try:
        return octets.decode()
    except UnicodeDecodeError as fault:
        line = octets[:fault.start].count(b"\n") + 1
        raise Fault(f"line {line}: no UTF-8, at octet {fault.start} of the text") from None


def main(words):
    options, paths = [it for it in words if it.startswith("--")], [it for it in words if not it.startswith("--")]
    if "--help" in words or "-h" in words:
        print(__doc__.strip())
        return 0
    if options not in ([], ["--back"], ["--forms"], ["--table"]) or len(paths) > (options not in (["--forms"], ["--table"])):
        print(__doc__.split("\n\n")[1], file=sys.stderr)
        return 2
    path = paths[0] if paths else None
    try:
        if options == ["--forms"]:
            lines = (f"{form.name}\t^{form.pattern}$" for form in FORMS.values())
        elif options == ["--table"]:
            lines = table()
        else:
            lines = (back if options else forth)(text_of(path))
        for line in lines:
            sys.stdout.buffer.write(line.encode() + b"\n")
    except (OSError, Fault) as fault:
        sys.stdout.buffer.flush()
        said = fault.strerror if isinstance(fault, OSError) else fault
        print(f"{path or 'standard input'}: {said}", file=sys.stderr)
        return 1
    return 0


if __name__ == "__main__":
    signal.signal(signal.SIGPIPE, signal.SIG_DFL)  # for who reads the first lines alone
    sys.exit(main(sys.argv[1:]))
