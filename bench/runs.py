#!/usr/bin/env python3
"""What `run` costs.

Makes schedules by formula, runs the built program on each, and prints tables in Markdown. A time is that of the processors,
user and system, the least of three runs, and of more where these are short; memory is the peak.

- Networks that settle from nothing, beside the floor (settle_floor.cpp): a plain C++ program that is built here, and does
  the same settle. The two take the same documents in turns; of each the time of the same document without its settle is
  taken off. The script ends with a sentence where they differ in their answer, in their tables, or in what is in
  flight in some direction at the beginning of some round, messages or octets.
- What happens in a settled network, with the settle behind it. What the schedule costs up to there is taken off; where
  something happens many times each figure is the mean of one. `gen 16` is whole.
- Whole schedules, each of a network from nothing: it is settled; or settled, edited and settled again; or settled, and then
  10,000 deliveries are asked for of which none has anything in flight; or settled, and then edited and settled a hundred
  times, where no other network has rows of the port that is edited, so that an edit makes the same messages whatever the
  size. Of the last the rounds are those of the first settle. Last come 63 or 64 compute nodes: in a settled network one
  more is put and deleted, or one listens to another control node and back, ten times, each settled.
- The messages of one such edit of a compute node.

The messages of a settle are counted round by round: in runs of their own, which go on to where a round begins, each
direction of each session is emptied by deliveries of one message. Beside the floor just the messages, and just the octets,
that the floor has in flight there are to empty it. Both are left out where a settle takes more than five seconds: the
number is the floor's then, in brackets, or `-`. Instructions are those that valgrind's cachegrind counts, in millions, with
up to 256 ports; of them is taken off what is taken off the time.

usage: bench/runs.py PROGRAM [WORD]

PROGRAM is the built `overlay`. With WORD only the lines whose name has it are run. Needs Python 3.8 on Linux; for the floor
a compiler of C++17 as `c++`, and for instructions valgrind. Where one of these is not there, that is said above the table.
"""
import json
import math
import multiprocessing
import os
import pathlib
import re
import resource
import shutil
import subprocess
import sys
import tempfile

HERE = pathlib.Path(__file__).resolve().parent
sys.path.insert(0, str(HERE.parent / "tests"))
from scenarios import document as scenario

FLOOR = HERE / "settle_floor.cpp"
RUNS = 3
MOST_RUNS = 20
SHORT = 2.0  # seconds; while all runs of a line take less, there are more of them
EDITS = 100
MOVES = 10
SECONDS = 900
COUNTED_SECONDS = 5.0  # the longest settle of which messages are counted
COUNTED_PORTS = 256  # the most with which instructions are counted
MOST = 1_000_000  # messages or octets of one delivery
SINGLES = 64  # deliveries of one message that are tried first
DOUBLINGS = 14  # and then so many, each of as many messages as all before


def compute_node(number, controllers=2):
    """A compute node, which lists two of so many control nodes in turn."""
    return {
        "name": f"n{number}", "address": f"192.0.2.{10 + number}",
        "controllers": [f"c{1 + (number - 1) % controllers}", f"c{1 + number % controllers}"],
    }


def topology(controllers=2, nodes=8):
    """Some control nodes and compute nodes."""
    return {
        "as": 64512,
        "controllers": [{"name": f"c{i}", "address": f"192.0.2.{i}"} for i in range(1, controllers + 1)],
        "nodes": [compute_node(i, controllers) for i in range(1, nodes + 1)],
    }


def rule(action, **more):
    return {
        "direction": "<>", "source": "any", "destination": "any", "protocol": "any",
        "source_ports": [0, 65535], "destination_ports": [0, 65535], "action": action, **more,
    }


def put(kind, value):
    return {"edit": {"put": {kind: value}}}


def related(ports):
    """So many ports on an eighth as many networks, which all attach one policy that passes everything."""
    networks = ports // 8
    return {
        "networks": [
            {"name": f"w{n}", "id": n, "subnets": [f"10.{n}.0.0/24"], "policies": ["all"]} for n in range(1, networks + 1)
        ],
        "ports": [
            {
                "name": f"p{p}", "id": p, "network": f"w{1 + p % networks}",
                "address": f"10.{1 + p % networks}.0.{1 + p // networks}", "node": f"n{1 + p % 8}",
            }
            for p in range(ports)
        ],
        "policies": [{"name": "all", "sequence": 1, "rules": [rule("pass")]}],
    }


def unrelated(ports, nodes=8):
    """The same without the policy, on so many compute nodes."""
    made = related(ports)
    for network in made["networks"]:
        network["policies"] = []
    for port in made["ports"]:
        port["node"] = f"n{1 + port['id'] % nodes}"
    return dict(made, policies=[])


def chain(ports, services):
    """Two networks of these ports, and a chain of so many services between them."""
    made = related(16)
    for network in made["networks"]:
        network["policies"] = ["through"]
    made["ports"] = made["ports"][:ports]
    made["services"] = [{"name": f"s{i}", "id": i, "node": f"n{1 + (2 * i - 1) % 8}"} for i in range(1, services + 1)]
    made["chains"] = [{"name": "all", "hops": [service["name"] for service in made["services"]]}]
    through = rule("chain", chain="all", use=0)
    through.update(source="w1", destination="w2")
    made["policies"] = [{"name": "through", "sequence": 1, "rules": [through]}]
    return made


def moved_port(configuration):
    """Edits by which the first port gets one of two addresses, and then the other."""
    port = configuration["ports"][0]
    return [put("port", dict(port, address=f"10.1.0.{200 + i % 2}")) for i in range(EDITS)]


def lines():
    """The lines: their names, and their documents."""
    for name, configuration in [
        ("16 ports, 2 related networks", related(16)),
        ("64 ports, 8 related networks", related(64)),
        ("256 ports, 32 related networks", related(256)),
        ("1,024 ports, 128 related networks", related(1024)),
        ("16 ports, a chain of 4 services", chain(16, 4)),
    ]:
        port = dict(configuration["ports"][0], address="10.1.0.200")
        edit = put("port", port)
        idle = [{"deliver": ["c1", "n1", 1]}] * 10_000
        for what, events in [
            ("settle", ["settle"]),
            ("settle, one edit, settle", ["settle", edit, "settle"]),
            ("settle, 10,000 deliveries", ["settle"] + idle),
        ]:
            yield f"{name}: {what}", {"topology": topology(), "configuration": configuration, "events": events}
    for ports in (64, 256, 1024):
        configuration = unrelated(ports)
        edits = moved_port(configuration)
        for what, events in [
            ("settle", ["settle"]),
            ("settle, 100 edits, each settled", ["settle"] + [event for edit in edits for event in (edit, "settle")]),
        ]:
            yield (
                f"{ports:,} ports, {ports // 8} unrelated networks: {what}",
                {"topology": topology(), "configuration": configuration, "events": events},
            )
    yield (
        "2 ports, a chain of 12 services, 4 control nodes: settle",
        {"topology": topology(4), "configuration": chain(2, 12), "events": ["settle"]},
    )


def moves(ports):
    """Edits of compute nodes in a cloud of 64 and so many ports: a name, the document, an edit, one that takes it back."""
    with_ports = {"topology": topology(2, 64), "configuration": unrelated(ports, 64)}
    without = {"topology": topology(2, 63), "configuration": unrelated(ports, 63)}
    yield "without ports is put and deleted", without, put("node", compute_node(64)), {"edit": {"delete": {"node": "n64"}}}
    alone = dict(compute_node(1), controllers=["c2"])
    yield f"with {ports // 64} ports moves and moves back", with_ports, put("node", alone), put("node", compute_node(1))


def move_lines():
    """The lines of compute nodes that come, go and move."""
    for ports in (64, 256, 1024):
        for what, document, edit, back in moves(ports):
            count = len(document["topology"]["nodes"])
            name = f"{ports:,} ports on {count} compute nodes, {ports // 8} unrelated networks"
            yield f"{name}: settle", dict(document, events=["settle"])
            again = [edit, "settle", back, "settle"] * MOVES
            yield f"{name}: settle, and a compute node {what}, {MOVES} times", dict(document, events=["settle"] + again)


def settles():
    """The networks that settle beside the floor: their names, how many ports they have, and their documents."""
    for kind, made in (("related", related), ("unrelated", unrelated)):
        for ports in (64, 256, 1024):
            name = f"{ports:,} ports, {ports // 8} {kind} networks"
            yield name, ports, {"topology": topology(), "configuration": made(ports)}


def happenings(configuration):
    """What may happen in a settled network: by name some events, each of which is settled."""
    network = configuration["networks"][0]
    yield "a port gets another address", moved_port(configuration)
    for policy in configuration["policies"]:
        denied = dict(rule("deny"), protocol=6, destination_ports=[22, 22])
        yield "a network leaves the policy", [put("network", dict(network, policies=[]))]
        yield "a rule is put before the pass rule", [put("policy", dict(policy, rules=[denied, *policy["rules"]]))]
    yield "a control node restarts", [{"restart": "c1"}]
    yield "an agent restarts", [{"restart": "n1"}]


class Stopped(Exception):
    """Why there is nothing more to measure."""


def apart(call, *given):
    """Calls a function in a process of its own, so that what it gathers is not in the peak of memory of later runs."""
    with multiprocessing.Pool(1) as pool:
        return pool.apply(call, given)


def run(command, document):
    """Processor time, peak memory in octets, and what was written, of a command that is given a document or nothing."""
    read, write = os.pipe()
    child = subprocess.Popen(command, stdin=subprocess.PIPE, stdout=write, stderr=subprocess.DEVNULL)
    os.close(write)
    if document is not None:
        child.stdin.write(json.dumps(document).encode())
    child.stdin.close()
    with os.fdopen(read, "rb") as output:
        text = output.read()
    _, status, usage = os.wait4(child.pid, 0)
    if status != 0:
        raise Stopped(f"{' '.join(map(str, command))} ended with {status}")
    return usage.ru_utime + usage.ru_stime, usage.ru_maxrss * 1024, text.decode()


def least(*jobs):
    """The runs of the least time of some jobs, each a command and a document, which take turns."""
    runs = []
    while len(runs) < RUNS or (len(runs) < MOST_RUNS and sum(time for turn in runs for time, _, _ in turn) < SHORT):
        runs.append([run(*job) for job in jobs])
    return [min(turns) for turns in zip(*runs)]


def rounds(text):
    """The rounds of each settle, as `run` answers them."""
    return [int(line.split()[-1]) for line in text.splitlines() if " rounds " in line]


def instructions(command, document):
    """How many instructions a command takes."""
    watched = ["valgrind", "--tool=cachegrind", "--cache-sim=no", "--cachegrind-out-file=/dev/null", *command]
    ran = subprocess.run(watched, input=json.dumps(document).encode(), capture_output=True, check=True)
    return int(re.search(r"I\s+refs:\s+([\d,]+)", ran.stderr.decode()).group(1).replace(",", ""))


def nodes_of(document, events):
    """The names of control nodes, and those of compute nodes, with those that the events put."""
    controllers = [node["name"] for node in document["topology"]["controllers"]]
    edits = [event["edit"] for event in events if "edit" in event]
    added = [edit["put"]["node"]["name"] for edit in edits if "node" in edit.get("put", {})]
    return controllers, list(dict.fromkeys([node["name"] for node in document["topology"]["nodes"]] + added))


def connections(controllers, nodes):
    """Connects all sessions, in the order of a round."""
    pairs = [("config", controller) for controller in controllers]
    pairs += [(one, other) for place, one in enumerate(controllers) for other in controllers[place + 1:]]
    pairs += [(controller, node) for node in nodes for controller in controllers]
    return [{"connect": list(pair)} for pair in pairs]


def directions(controllers, nodes):
    """All directions of sessions in two lists. Where a list is emptied in turn, no sender in it took anything before."""
    places = list(enumerate(controllers))
    forth = [(controller, node) for node in nodes for controller in controllers]
    forth += [(one, other) for place, one in reversed(places) for other in controllers[place + 1:]]
    forth += [("config", controller) for controller in controllers]
    back = [(controller, "config") for controller in controllers]
    back += [(one, other) for place, one in places for other in controllers[:place]]
    back += [(node, controller) for node in nodes for controller in controllers]
    return forth, back


def taken(program, document, events, tries):
    """How many deliveries in each direction, of the numbers of messages that are tried there, found something in flight."""
    deliveries = [{"deliver": [*pair, size]} for pair, sizes in tries.items() for size in sizes]
    _, _, text = run([program, "run"], dict(document, events=events + deliveries))
    answers = iter(text.splitlines()[len(events):])
    return {pair: sum(next(answers).endswith(" did") for _ in sizes) for pair, sizes in tries.items()}


def in_flight(program, document, events, pairs):
    """How many messages are in flight behind these events, in directions that are emptied in turn."""
    sizes = [1] * SINGLES + [SINGLES << i for i in range(DOUBLINGS)]
    found = taken(program, document, events, {pair: sizes for pair in pairs})
    # Of those that went beyond the first tries the front is taken at once: all that was surely there.
    fronts = {pair: SINGLES << count - SINGLES - 1 for pair, count in found.items() if count > SINGLES}
    if fronts:
        beyond = taken(program, document, events, {pair: [front] + [1] * front for pair, front in fronts.items()})
        found.update({pair: front + beyond[pair] - 1 for pair, front in fronts.items()})
    return sum(found.values())


def messages(program, document, events):
    """How many messages are taken by a settle behind these events."""
    nodes = nodes_of(document, events)
    played, total, done = list(events), 0, 0
    while True:
        count = sum(in_flight(program, document, played, pairs) for pairs in directions(*nodes))
        if done and not count:
            break
        played += ["round"] if done else ["round", *connections(*nodes)]
        total, done = total + count, done + 1
    _, _, text = run([program, "run"], dict(document, events=[*events, "settle"]))
    if rounds(text)[-1] != done:
        raise Stopped(f"the messages of {done} rounds were counted, and a settle takes {rounds(text)[-1]}")
    return total


def built_floor(folder):
    """Builds the floor, and returns its path, or None without a compiler."""
    if not shutil.which("c++"):
        print("There is no c++ here, so the floor is not built.")
        return None
    subprocess.run(["c++", "-std=c++17", "-O2", FLOOR, "-o", f"{folder}/floor"], check=True)
    return f"{folder}/floor"


def exactly(pair, kind, count):
    """Deliveries that find so much in one direction and no more, and whether each finds something."""
    sizes = [MOST] * ((count - 1) // MOST) + [(count - 1) % MOST] if count else []
    sizes = [size for size in sizes if size] + ([1, 1] if count else [1])
    return [{kind: [*pair, size]} for size in sizes], [True] * (len(sizes) - 1) + [False]


def rounds_agree(program, document, told):
    """Whether each round finds as many messages and octets in each direction as the floor tells of it."""
    nodes = nodes_of(document, [])
    played = ["round", *connections(*nodes)]
    for number in range(2, 3 + max(int(key[0]) for key in told)):
        for pairs in directions(*nodes):
            for place, kind in enumerate(("deliver", "deliver-bytes")):
                tried = [exactly(pair, kind, told.get((str(number), *pair), (0, 0))[place]) for pair in pairs]
                events = played + [event for some, _ in tried for event in some]
                _, _, text = run([program, "run"], dict(document, events=events))
                found = [line.endswith(" did") for line in text.splitlines()[len(played):]]
                if found != [wanted for _, some in tried for wanted in some]:
                    return False
        played.append("round")
    return True


def floor_messages(program, floor, name, document, answer, rounds_too):
    """The messages of the floor, where it answers as the program does, with the same tables and the same rounds."""
    _, _, text = run([floor, "rounds", "tables", "figures"], dict(document, events=["settle"]))
    own, *lines_of_floor, figures = text.splitlines()
    if [own] != answer.splitlines():
        raise Stopped(f"{name}: the floor answers {own}, and the program {answer}")
    words = [line.split() for line in lines_of_floor if line[0].isdigit()]
    told = {tuple(key): (int(messages), int(octets)) for *key, messages, octets in words}
    if rounds_too and not rounds_agree(program, document, told):
        raise Stopped(f"{name}: the messages or octets of the floor are others than those of the program")
    _, _, compiled = run([program, "compile"], document)
    tables = [line for line in compiled.splitlines() if line.startswith(("control ", "agent "))]
    if sorted(lines_of_floor[len(words):]) != sorted(tables):
        raise Stopped(f"{name}: the tables of the floor are others than those of compile")
    return int(figures.split()[1])


def counts_instructions(ports):
    return ports <= COUNTED_PORTS and shutil.which("valgrind") is not None


def figure(number):
    """A number with three digits or more."""
    if number is None or number <= 0:
        return "-"
    return f"{number:,.{max(0, 2 - math.floor(math.log10(number)))}f}"


def cells(figures):
    """The cells of a figure of the program, of the floor, as far as they are there, and of their ratio."""
    program, floor = (*figures, None, None)[:2]
    return [figure(program), figure(floor), figure(program / floor if floor else None)]


def per_message(seconds, count):
    """Microseconds of a message."""
    return seconds * 1e6 / count if count else None


SETTLE_HEADS = [
    "Network from nothing", "Messages", "Rounds", "Program, s", "Floor, s", "Ratio", "Program, µs a message",
    "Floor, µs a message", "Program, instructions", "Floor, instructions", "Ratio", "Peak memory, MB",
]


def settle_row(program, floor, name, ports, document):
    """A line of the first table."""
    settled, idle = (dict(document, events=events) for events in (["settle"], []))
    commands = [[program, "run"], [floor]] if floor else [[program, "run"]]
    runs = least(*((command, given) for command in commands for given in (settled, idle)))
    _, memory, answer = runs[0]
    seconds = [whole[0] - rest[0] for whole, rest in zip(runs[::2], runs[1::2])]
    made = []
    if counts_instructions(ports):
        made = [(instructions(it, settled) - instructions(it, idle)) / 1e6 for it in commands]
    short = seconds[0] <= COUNTED_SECONDS
    if floor:
        count = apart(floor_messages, program, floor, name, document, answer, short)
    else:
        count = apart(messages, program, document, []) if short else None
    shown = "-" if count is None else f"{count:,}" if short else f"({count:,})"
    each = cells(per_message(it, count) for it in seconds)[:2]
    return [name, shown, str(rounds(answer)[0]), *cells(seconds), *each, *cells(made), f"{memory / 1e6:.1f}"]


HAPPENING_HEADS = ["What happens, and is settled", "Messages", "Rounds", "ms", "µs a message", "Instructions"]


def network_rows(program, name, ports, document, word):
    """The lines of what happens in one network."""
    first = dict(document, events=["settle"])
    before = None  # the instructions of the first settle, which are counted once
    for what, events in happenings(document["configuration"]):
        if word not in f"{name}: {what}":
            continue
        whole = dict(document, events=["settle", *(event for it in events for event in (it, "settle"))])
        (seconds, _, text), (settled, _, _) = least(([program, "run"], whole), ([program, "run"], first))
        took = (seconds - settled) / len(events)
        count, made = None, None
        if took <= COUNTED_SECONDS:
            count = apart(messages, program, document, ["settle", events[0]])
        if counts_instructions(ports):
            before = before or instructions([program, "run"], first)
            made = (instructions([program, "run"], whole) - before) / 1e6 / len(events)
        shown = f"{count:,}" if count else "-"
        each = figure(per_message(took, count))
        yield [f"{name}: {what}", shown, str(rounds(text)[-1]), figure(took * 1e3), each, figure(made)]


def scenario_row(program, number):
    """The line of a scenario, both settles together."""
    [(seconds, _, text)] = least(([program, "gen", str(number)], None))
    document = scenario(number)
    ends = [place for place, event in enumerate(document["events"]) if event == "settle"]
    count = None
    if seconds <= COUNTED_SECONDS:
        count = sum(apart(messages, program, document, document["events"][:place]) for place in ends)
    shown = f"{count:,}" if count else "-"
    told = next(line for line in text.splitlines() if line.startswith("rounds ")).split()[1:]
    return [f"gen {number}", shown, ", ".join(told), figure(seconds * 1e3), figure(per_message(seconds, count)), "-"]


def happening_rows(program, word):
    """The lines of what happens in settled networks, but for the largest."""
    for name, ports, document in settles():
        if ports <= COUNTED_PORTS or not document["configuration"]["policies"]:
            yield from network_rows(program, name, ports, document, word)
    if word in "gen 16":
        yield scenario_row(program, 16)


def schedule_rows(program, word):
    """The lines of whole schedules."""
    for name, document in [*lines(), *move_lines()]:
        if word in name:
            [(seconds, memory, text)] = least(([program, "run"], document))
            told = rounds(text)
            told = told if len(told) <= 2 else told[:1]
            yield [name, f"{seconds:.3f}", f"{memory / 1e6:.1f}", ", ".join(map(str, told))]


def move_rows(program, word):
    """The lines of the messages of compute nodes that come, go and move."""
    for ports in (64, 256, 1024):
        for what, document, edit, back in moves(ports):
            name = f"{ports:,} ports on 64 compute nodes: a compute node {what}"
            if word in name:
                there = apart(messages, program, document, ["settle", edit])
                again = apart(messages, program, document, ["settle", edit, "settle", back])
                yield [name, f"{there}, {again}"]


def table(heads, rows):
    """Prints a table, where it has a line."""
    for place, cells in enumerate(rows):
        if not place:
            print("\n| " + " | ".join(heads) + " |\n" + "|---" * len(heads) + "|")
        print("| " + " | ".join(cells) + " |", flush=True)


def main(program, word):
    if not shutil.which("valgrind"):
        print("There is no valgrind here, so instructions are not counted.")
    with tempfile.TemporaryDirectory() as folder:
        wanted = [network for network in settles() if word in network[0]]
        floor = built_floor(folder) if wanted else None
        table(SETTLE_HEADS, (settle_row(program, floor, *network) for network in wanted))
    table(HAPPENING_HEADS, happening_rows(program, word))
    table(["Network from nothing", "Processor time, s", "Peak memory, MB", "Rounds"], schedule_rows(program, word))
    table(["Edit in a settled network", "Messages until it is settled again"], move_rows(program, word))


if __name__ == "__main__":
    if len(sys.argv) not in (2, 3) or sys.argv[1] in ("-h", "--help"):
        sys.exit(__doc__)
    resource.setrlimit(resource.RLIMIT_CPU, (SECONDS, SECONDS))
    try:
        main(sys.argv[1], sys.argv[2] if len(sys.argv) > 2 else "")
    except Stopped as why:
        sys.exit(str(why))
