#!/usr/bin/env python3
"""Rehearses a change: plays steps in a settled network, traces packets at every moment, and says which are lost when, and why.

usage: tools/rehearse.py [--program OVERLAY] [--svg OUT] BASE STEPS
       tools/rehearse.py [--program OVERLAY] [--seed S] [--jobs J] [--sshlogin LIST] --orders N BASE STEPS
       tools/rehearse.py [--seed S] --order I BASE STEPS

BASE is a document of `reach`: a topology, a configuration, and packets, which are the probes. STEPS is a list of events, or a
document of `run`, of which the events are taken. Packets that STEPS traces are probes too; its shows are left out, and so is all
of BASE that `run` does not take. The network of BASE is settled first; the probes are traced then, and behind each event.

`settle` hides what happens inside it, so it is played as what it stands for: a round, each session connected that is down, and
rounds until nothing is in flight. A node that restarts comes back by itself: a round, its sessions connected, and K + 5 rounds,
where K is the greatest number of services of a chain in a rule. Where a send may still fail (`break`), a settle stays whole.

Printed are the probes, a table with a line for each moment and what changed there, and when each probe was lost. In the table
`=` is delivered as at first, `~` delivered otherwise, `x` dropped though it was delivered before, and `.` dropped as ever. --svg
draws the same.

--orders plays N random orders beside: around each edit some messages come sooner and others later, what a round or a settle
takes comes in any order, and in every second order sessions are lost around edits, and some come back. It counts at which step,
in how many orders and why each probe is lost. GNU parallel, where it is there, takes the orders to all processors, and with
--sshlogin to other machines, which need Python, Perl and rsync; LIST and J are what parallel takes for --sshlogin and --jobs. The
same S (1 where none is given) gives the same orders. --order I prints order I as a document of `run`, and plays nothing.

OVERLAY is the built program: without it the proved one, or the unproved one, or `overlay` on the path. Needs Python 3.8. Ends
with status 0 where no probe that was delivered is dropped and each event is done; 1 where a probe is, or an event is idle,
refused or unsettled; 2 where an input or the program is not as wanted.
"""
import argparse
import collections
import json
import os
import random
import re
import shutil
import subprocess
import sys
import tempfile

sys.dont_write_bytecode = True
from drawing import LINE, Box, Drawing, width_of
from picture import MARGIN, expansion

HERE = os.path.dirname(os.path.abspath(__file__))
BUILT = [os.path.join(os.path.dirname(HERE), *it) for it in (("crates", "overlay", "out", "overlay"), ("out", "overlay-unproved"))]
LISTS = {"network": "networks", "port": "ports", "policy": "policies", "service": "services", "chain": "chains"}
ALL = 1000000  # more messages than any direction has in flight
CHUNK = 25  # orders that one process plays
PAINTS = {"=": "green", "~": "violet", "x": "amber", ".": "plain"}
ROW = 30

# What happens in one step, by words and, of rounds, a number, and the events that make it.
Moment = collections.namedtuple("Moment", "step words round events")
# Moments that are told in one line: the marks of the probes then, and their outcomes.
Row = collections.namedtuple("Row", "step words rounds marks outcomes")


class Wrong(Exception):
    """An input or a program that is not as wanted."""


# Documents


def read(path):
    try:
        with (sys.stdin if path == "-" else open(path, encoding="utf-8")) as source:
            return json.load(source)
    except OSError as fault:
        raise Wrong(f"{path}: {fault.strerror}") from fault
    except ValueError as fault:
        raise Wrong(f"{path}: this is no JSON: {fault}") from fault


def ran(program, word, document):
    """What the program says of a document: its status, the lines of its answer, and its sentence for people."""
    try:
        run = subprocess.run([program, word], input=json.dumps(document).encode(), capture_output=True, check=False)
    except OSError as fault:
        raise Wrong(f"{program}: {fault.strerror}") from fault
    return run.returncode, run.stdout.decode().splitlines(), run.stderr.decode(errors="replace").strip()


def plain(document):
    return {name: document[name] for name in ("topology", "configuration") if name in document}


def check_base(program, path, base, probes):
    status, lines, said = ran(program, "reach", {**plain(base), "packets": probes})
    if status:
        raise Wrong(f"{path}: {said or lines or 'the program ended with status %d' % status}")


def check_steps(program, path, base, steps):
    """Nothing is run: a text that is no event stands behind the steps, and is to be the first fault."""
    status, lines, said = ran(program, "run", {**plain(base), "events": steps + ["?"]})
    if status != 6 or lines != [f"bad document events[{len(steps)}] Range"]:
        raise Wrong(f"{path}: {said or lines or 'the program ended with status %d' % status}")


def inputs(program, base_path, steps_path):
    """The base, the steps that are events, by their places from 1 on, and the probes."""
    base, steps = read(base_path), read(steps_path)
    if not isinstance(base, dict):
        raise Wrong(f"{base_path}: this is no object with a topology, a configuration and packets")
    if isinstance(steps, dict):
        if any(part in steps and steps[part] != base.get(part) for part in ("topology", "configuration")):
            raise Wrong(f"{steps_path}: its topology and its configuration are not those of {base_path}")
        steps = steps.get("events")
    if not isinstance(steps, list):
        raise Wrong(f"{steps_path}: this is neither a list of events nor an object with one as its member events")
    packets = base.get("packets", [])
    check_base(program, base_path, base, packets)
    check_steps(program, steps_path, base, steps)
    probes = []
    for packet in packets + [it["trace"] for it in steps if isinstance(it, dict) and "trace" in it]:
        if packet not in probes:
            probes.append(packet)
    if not probes:
        raise Wrong(f"{base_path}: it has no packets, so there is nothing to trace")
    placed = [(i, it) for i, it in enumerate(steps, 1) if not isinstance(it, dict) or not {"trace", "show"} & set(it)]
    return plain(base), placed, probes


def edited(document, edit):
    """The topology and the configuration with one object put or deleted."""
    (what, change), = edit.items()
    (kind, value), = change.items()
    part, held = ("topology", "nodes") if kind == "node" else ("configuration", LISTS[kind])
    name = value["name"] if what == "put" else value
    objects = list(document[part].get(held, []))
    places = [i for i, it in enumerate(objects) if it["name"] == name]
    if what == "delete":
        objects = [it for it in objects if it["name"] != name]
    elif places:
        objects[places[0]] = value
    else:
        objects.append(value)
    return {**document, part: {**document[part], held: objects}}


def sessions(document):
    """The two ends of each session, in the order of a round."""
    known = document["topology"]
    controls = [it["name"] for it in known["controllers"]]
    feeds = [("config", name) for name in controls]
    peers = [(a, b) for i, a in enumerate(controls) for b in controls[i + 1:]]
    return feeds + peers + [(node["name"], name) for node in known["nodes"] for name in controls if name in node["controllers"]]


def most_rounds(document):
    """In how many rounds a network settles in which no session is down."""
    configuration = document["configuration"]
    chains = {it["chain"] for policy in configuration.get("policies", []) for it in policy["rules"] if it["action"] == "chain"}
    return max([len(expansion(configuration, it) or ()) for it in chains], default=0) + 5


def words_of(event):
    if isinstance(event, str):
        return event
    (name, value), = event.items()
    if name == "edit":
        (what, change), = value.items()
        (kind, named), = change.items()
        return f"{what} {kind} {named['name'] if what == 'put' else named}"
    return " ".join([name, *([value] if isinstance(value, str) else map(str, value))])


def outcome_of(answer):
    """An outcome in fewer words."""
    found = re.match(r"delivered port (\d+) services (\S+)$", answer)
    return answer[len("dropped "):] if not found else f"port {found[1]}" + (f" by {found[2]}" if found[2] != "-" else "")


# Moments


def connects(document, name=None):
    return [{"connect": list(it)} for it in sessions(document) if name is None or name in it]


def settle_moments(step, document, rounds):
    """A settle of so many rounds, event by event; that it is one is asked at the end."""
    moments = [Moment(step, "settle", 1, ["round"])]
    if rounds > 1:
        moments.append(Moment(step, "settle, sessions connect", None, connects(document)))
        moments += [Moment(step, "settle", i, ["round"]) for i in range(2, rounds + 1)]
    moments[-1].events.append("settle")
    return moments


def restart_moments(step, document, name):
    words = f"restart {name}"
    moments = [Moment(step, words, None, [{"restart": name}]), Moment(step, words, 1, ["round"]),
               Moment(step, f"{words}, it connects", None, connects(document, name))]
    return moments + [Moment(step, words, i, ["round"]) for i in range(2, most_rounds(document) + 2)]


def moments_of(base, steps, settled, refused):
    """Each step as the moments that it is played in. `settled` has the rounds of each settle that is played as rounds."""
    moments, document = [Moment(0, "begun", None, ["settle"])], base
    for step, event in steps:
        if event == "settle" and step in settled:
            moments += settle_moments(step, document, settled[step])
        elif isinstance(event, dict) and "restart" in event:
            moments += restart_moments(step, document, event["restart"])
        else:
            moments.append(Moment(step, words_of(event), None, [event]))
        if isinstance(event, dict) and "edit" in event and step not in refused:
            document = edited(document, event["edit"])
    return moments


def schedule(base, moments, probes):
    traces = [{"trace": packet} for packet in probes]
    return {**base, "events": [it for moment in moments for it in moment.events + traces]}


def played(program, base, moments, probes):
    """Of each moment the answers of its events, and the outcomes of the probes behind it."""
    status, lines, said = ran(program, "run", schedule(base, moments, probes))
    if status:
        raise Wrong(said or f"the program ended with status {status}")
    answers = [line.partition(" ")[2] for line in lines]
    found, at = [], 0
    for moment in moments:
        middle = at + len(moment.events)
        found.append((answers[at:middle], answers[middle:middle + len(probes)]))
        at = middle + len(probes)
    if at != len(answers):
        raise Wrong(f"{len(answers)} answers came of {at} events")
    return found


def breaks_before(steps):
    """The settles before which a send may still fail."""
    found, pending = set(), False
    for step, event in steps:
        if event == "settle":
            found |= {step} if pending else set()
            pending = False
        pending = pending or isinstance(event, dict) and "break" in event
    return found


def rehearsed(program, base, steps, probes):
    """The moments of the steps with what was answered there. The first of two runs says how many rounds a settle takes."""
    moments = moments_of(base, steps, {}, set())
    first = {}
    for moment, (answers, _) in zip(moments, played(program, base, moments, [])):
        first.setdefault(moment.step, answers[0])
    settled = {step: int(answer.split()[-1]) for step, answer in first.items() if " rounds " in answer}
    refused = {step for step, answer in first.items() if answer.startswith("refused")}
    whole = breaks_before(steps) | {0}
    moments = moments_of(base, steps, {k: v for k, v in settled.items() if k not in whole}, refused)
    return moments, played(program, base, moments, probes), first


# What is told


def marks_of(seen):
    """The marks of the probes at each moment."""
    first, had, found = seen[0][1], set(), []
    for _, outcomes in seen:
        had |= {i for i, it in enumerate(outcomes) if not it.startswith("dropped")}
        found.append("".join(("x" if i in had else ".") if it.startswith("dropped") else "=" if it == first[i] else "~"
                             for i, it in enumerate(outcomes)))
    return found


def rows_of(moments, seen):
    """Moments as rows: rounds of one step in which no probe changes are one."""
    rows = []
    for moment, marks, (_, outcomes) in zip(moments, marks_of(seen), seen):
        last = rows[-1] if rows else None
        if last and moment.round and last.rounds and last.words == moment.words and last.step == moment.step \
                and last.outcomes == outcomes:
            rows[-1] = last._replace(rounds=(last.rounds[0], moment.round))
        else:
            rows.append(Row(moment.step, moment.words, (moment.round,) * 2 if moment.round else None, marks, outcomes))
    return rows


def named(row):
    if not row.rounds:
        return row.words
    a, b = row.rounds
    return f"{row.words}, round {a}" if a == b else f"{row.words}, rounds {a} to {b}"


def changes(before, now):
    """Which probes have another outcome than before, by outcome."""
    groups = {}
    for i, (was, it) in enumerate(zip(before or [None] * len(now), now), 1):
        if was != it:
            groups.setdefault(it, []).append(str(i))
    return "; ".join(f"{','.join(places)} {outcome}" for outcome, places in groups.items())


def losses(rows):
    """Of each probe the rows from which on it is dropped while it was delivered before, where that ends, and why."""
    found = []
    for i in range(len(rows[0].outcomes)):
        had, begun, why = False, None, []
        for row in rows:
            outcome = row.outcomes[i]
            if not outcome.startswith("dropped"):
                if begun:
                    found.append((i + 1, begun, row, why))
                had, begun, why = True, None, []
            elif had:
                begun = begun or row
                why += [] if outcome_of(outcome) in why else [outcome_of(outcome)]
        if begun:
            found.append((i + 1, begun, None, why))
    return found


def faults(steps, moments, seen, first):
    """What was not done, of the events that were given."""
    told = [(step, words_of(event), first.get(step, "")) for step, event in steps]
    found = [f"step {step}, {words}: {answer}" for step, words, answer in told
             if answer.split()[:1] and answer.split()[0] in ("idle", "refused", "unsettled")]
    for moment, (answers, _) in zip(moments, seen):
        if moment.round and moment.events[-1] == "settle" and answers[-1] != "settled rounds 1":
            found.append(f"step {moment.step}, settle: played as rounds it is not settled ({answers[-1]})")
    return found


def at(row):
    """Where a row begins."""
    return f"step {row.step} ({row.words}{', round %d' % row.rounds[0] if row.rounds else ''})"


def probe_line(base, i, packet):
    names = {it["id"]: it["name"] for it in base["configuration"].get("ports", [])}
    name = f" ({names[packet['port']]})" if packet["port"] in names else ""
    return (f"{i}: port {packet['port']}{name} to {packet['to']}, protocol {packet['protocol']}, "
            f"ports {packet['sport']} to {packet['dport']}")


def in_columns(lines):
    """Lines of fields as text, each column as wide as its widest field."""
    wide = [max(len(line[i]) for line in lines) for i in range(len(lines[0]) - 1)]
    return ["  ".join([it.ljust(n) for it, n in zip(line, wide)] + [line[-1]]).rstrip() for line in lines]


def table(rows):
    lines, before = [("step", "moment", "probes", "what changed")], None
    for i, row in enumerate(rows):
        step = str(row.step) if not i or rows[i - 1].step != row.step else ""
        lines.append((step.rjust(4), named(row), row.marks, changes(before, row.outcomes)))
        before = row.outcomes
    return in_columns(lines)


def report(base, probes, rows, wrong):
    lines = ["probes"] + [probe_line(base, i, packet) for i, packet in enumerate(probes, 1)] + [""] + table(rows) + [""]
    for i, begun, ended, why in losses(rows):
        until = f"to {at(ended)}" if ended else "to the end"
        lines.append(f"probe {i} is lost from {at(begun)} {until}: {', '.join(why)}")
    if not losses(rows):
        lines.append("no probe that was delivered is dropped")
    return lines + wrong


# The picture


class Bar(Box):
    """A box as high as the rows that it stands beside."""

    def __init__(self, words, paint, width, rows):
        super().__init__([words], paint, width)
        self.height = ROW * rows - 4


def bars(rows, i):
    """The rows of one probe, those of one outcome together: the first row, how many, and the outcome with its mark."""
    found = []
    for place, row in enumerate(rows):
        if found and rows[place - 1].outcomes[i] == row.outcomes[i]:
            found[-1][1] += 1
        else:
            found.append([place, 1, outcome_of(row.outcomes[i]), row.marks[i]])
    return found


def drawn(base, probes, rows):
    drawing = Drawing("Which packets pass at each moment of a change")
    y = MARGIN + LINE
    drawing.text(MARGIN, y, "Which packets pass at each moment, from above to below", bold=True)
    for i, packet in enumerate(probes, 1):
        y += LINE
        drawing.text(MARGIN, y, probe_line(base, i, packet), "faint")
    y += LINE
    x = MARGIN
    for mark, words in (("=", "delivered as at first"), ("~", "delivered otherwise"), ("x", "dropped"), (".", "dropped as ever")):
        if any(mark in row.marks for row in rows):
            box = Box([words], PAINTS[mark]).at(x, y)
            drawing.box(box)
            x += box.width + 10
    y += ROW + LINE
    drawing.text(MARGIN, y, "port P by S: delivered to port P through the services S", "faint")
    top = y + 2 * LINE
    steps = [str(row.step) if not j or rows[j - 1].step != row.step else "" for j, row in enumerate(rows)]
    side = MARGIN + width_of("0000")
    x = side + max(width_of(named(row)) for row in rows) + 20
    end = x
    for i in range(len(probes)):
        found = bars(rows, i)
        width = max(Bar(words, "plain", 0, 1).width for _, _, words, _ in found)
        drawing.text(end + width / 2, top - 8, str(i + 1), bold=True, anchor="middle")
        for place, many, words, mark in found:
            drawing.box(Bar(words, PAINTS[mark], width, many).at(end, top + ROW * place + 2))
        end += width + 10
    for j, row in enumerate(rows):
        if steps[j]:
            drawing.line((MARGIN, top + ROW * j), (end - 10, top + ROW * j), "edge")
            drawing.text(MARGIN, top + ROW * j + 19, steps[j], bold=True)
        drawing.text(side, top + ROW * j + 19, named(row), "ink" if steps[j] else "faint")
    return drawing.written()


# Random orders


def few(chance, document):
    """A few messages of some directions, in any order."""
    ways = [it for pair in sessions(document) for it in (pair, pair[::-1])]
    return [{"deliver": [*it, chance.randint(1, 3)]} for it in chance.sample(ways, chance.randint(0, len(ways)))]


def mixed(chance, document):
    """All that is in flight, in any order: of each direction all, of some a few before."""
    ways = [it for pair in sessions(document) for it in (pair, pair[::-1])]
    events = few(chance, document) + [{"deliver": [*it, ALL]} for it in ways]
    chance.shuffle(events)
    return events


def disturbed(chance, document, events):
    """The same with a session that is lost at some place, and comes back at a later one or not."""
    pair = list(chance.choice(sessions(document)))
    place = chance.randint(0, len(events))
    events = events[:place] + [{"lose": pair}] + events[place:]
    if chance.random() < 0.5:
        later = chance.randint(place + 1, len(events))
        events = events[:later] + [{"connect": pair}] + events[later:]
    return events


def order_events(chance, document, event, is_lossy):
    """The events by which one step is played in a random order."""
    if isinstance(event, dict) and "edit" in event:
        sides = [few(chance, document), few(chance, edited(document, event["edit"]))]
        if is_lossy:
            side = chance.randrange(2)
            sides[side] = disturbed(chance, document, sides[side])
        return [*sides[0], event, *sides[1]]
    if event == "round":
        return mixed(chance, document)
    name = event.get("restart") if isinstance(event, dict) else None
    if event != "settle" and name is None:
        return [event]
    rounds = [it for _ in range(most_rounds(document)) for it in mixed(chance, document)]
    begin = [event] * (name is not None) + mixed(chance, document) + connects(document, name)
    return begin + rounds + ["settle"] * (event == "settle")


def order_of(base, steps, seed, number):
    """The moments of one order: one for each event, with the place of the step."""
    chance, document = random.Random(f"{seed} {number}"), base
    moments = [Moment(0, "begun", None, ["settle"])]
    for step, event in steps:
        for it in order_events(chance, document, event, number % 2 == 0):
            moments.append(Moment(step, words_of(it), None, [it]))
        if isinstance(event, dict) and "edit" in event:
            document = edited(document, event["edit"])
    return moments


def lost_in(moments, seen):
    """At which step which probe is dropped that was delivered before, and the first reason."""
    found, had = {}, [False] * len(seen[0][1])
    for moment, (_, outcomes) in zip(moments, seen):
        for i, outcome in enumerate(outcomes):
            if not outcome.startswith("dropped"):
                had[i] = True
            elif had[i]:
                found.setdefault((moment.step, i + 1), outcome_of(outcome))
    return found


def orders(program, base, steps, probes, seed, numbers):
    """Of some orders who was lost, a line each: the order, the step, the probe and why; and steps that were not made."""
    lines = []
    for number in numbers:
        moments = order_of(base, steps, seed, number)
        seen = played(program, base, moments, probes)
        lines += [[number, step, probe, why] for (step, probe), why in lost_in(moments, seen).items()]
        lines += [[number, moment.step, 0, answers[-1]] for moment, (answers, _) in zip(moments, seen)
                  if answers[-1].startswith(("refused", "unsettled"))]
    return lines


def is_gnu_parallel():
    found = shutil.which("parallel")
    return bool(found) and b"GNU parallel" in subprocess.run([found, "--version"], stdin=subprocess.DEVNULL,
                                                             capture_output=True, check=False).stdout


def in_parallel(options, program, base, steps, probes):
    """The same lines by GNU parallel. What it runs stands in a folder, which it takes to other machines."""
    with tempfile.TemporaryDirectory(prefix="rehearse-") as folder:
        for name in ("rehearse.py", "picture.py", "drawing.py"):
            shutil.copy(os.path.join(HERE, name), folder)
        shutil.copy(program, os.path.join(folder, "overlay"))
        for name, value in (("base", {**base, "packets": probes}), ("steps", [it for _, it in steps])):
            with open(os.path.join(folder, f"{name}.json"), "w", encoding="utf-8") as it:
                json.dump(value, it)
        words = ["parallel", "--will-cite", "--halt", "now,fail=1"]
        words += ["--jobs", options.jobs] if options.jobs else []
        for it in options.sshlogin or []:
            words += ["--sshlogin", it]
        if options.sshlogin:
            words += ["--cleanup", *[f"--basefile={folder}/{name}" for name in sorted(os.listdir(folder))]]
        words += ["python3", f"{folder}/rehearse.py", "--program", f"{folder}/overlay", "--seed", str(options.seed), "--chunk", "{}",
                  f"{folder}/base.json", f"{folder}/steps.json"]
        chunks = [f"{i}:{min(i + CHUNK, options.orders)}" for i in range(0, options.orders, CHUNK)]
        run = subprocess.run(words, input="\n".join(chunks), stdout=subprocess.PIPE, text=True, check=False)
    if run.returncode:
        raise Wrong(f"parallel ended with status {run.returncode}")
    places = [0] + [it for it, _ in steps]
    return [[number, places[step], probe, why] for number, step, probe, why in map(json.loads, run.stdout.splitlines())]


def counted(steps, lines, many):
    """The table of orders: of each step and probe in how many it is lost, in how many of these no session was beside, and why."""
    told = [("step", "event", "probe", "lost in", "of these quiet", "first in", "why")]
    for step, event in [(0, "begun")] + steps:
        for probe in sorted({it[2] for it in lines if it[1] == step and it[2]}):
            found = [it for it in lines if it[1] == step and it[2] == probe]
            why = collections.Counter(it[3] for it in found).most_common()
            told.append((str(step).rjust(4), words_of(event), str(probe), str(len(found)), str(sum(it[0] % 2 for it in found)),
                         str(min(it[0] for it in found)), ", ".join(f"{reason} {n}" for reason, n in why)))
    head = [f"{many} orders, {many // 2} of them quiet: in these no session is lost but by the steps themselves"]
    wrong = [f"order {number}, step {step}: {why}" for number, step, probe, why in lines if not probe]
    return head + (in_columns(told) if len(told) > 1 else ["no probe that was delivered is dropped"]) + wrong


def all_orders(options, program, base, steps, probes):
    if options.sshlogin or options.orders > CHUNK and is_gnu_parallel():
        if not is_gnu_parallel():
            raise Wrong("--sshlogin is for GNU parallel, which is not on the path (Debian's package parallel)")
        return in_parallel(options, program, base, steps, probes)
    return orders(program, base, steps, probes, options.seed, range(options.orders))


# The call


def program_of(given):
    """The path of the program: the one that is named, or else the first that is built, or the one on the path."""
    if not given:
        given = next(filter(os.path.isfile, BUILT), None) or shutil.which("overlay")
    if not given:
        raise Wrong("there is no built program: build it, as README.md says, or name one by --program")
    if os.path.sep in given:
        return os.path.abspath(given)
    return shutil.which(given) or os.path.abspath(given)


def options_of(words):
    parser = argparse.ArgumentParser(usage=argparse.SUPPRESS, description=__doc__,
                                     formatter_class=argparse.RawDescriptionHelpFormatter)
    parser.add_argument("--program", metavar="OVERLAY")
    parser.add_argument("--svg", metavar="OUT")
    parser.add_argument("--orders", type=int, default=0, metavar="N")
    parser.add_argument("--seed", type=int, default=1, metavar="S")
    parser.add_argument("--jobs", metavar="J")
    parser.add_argument("--sshlogin", action="append", metavar="LIST")
    parser.add_argument("--order", type=int, metavar="I")
    parser.add_argument("--chunk", help=argparse.SUPPRESS)
    parser.add_argument("base", metavar="BASE")
    parser.add_argument("steps", metavar="STEPS")
    return parser.parse_args(words)


def rehearse(options):
    program = program_of(options.program)
    base, steps, probes = inputs(program, options.base, options.steps)
    if options.chunk:
        begin, end = map(int, options.chunk.split(":"))
        for line in orders(program, base, steps, probes, options.seed, range(begin, end)):
            print(json.dumps(line))
        return 0
    if options.order is not None:
        print(json.dumps(schedule(base, order_of(base, steps, options.seed, options.order), probes)))
        return 0
    moments, seen, first = rehearsed(program, base, steps, probes)
    rows, wrong = rows_of(moments, seen), faults(steps, moments, seen, first)
    print(*report(base, probes, rows, wrong), sep="\n")
    if options.svg:
        with open(options.svg, "w", encoding="utf-8") as out:
            out.write(drawn(base, probes, rows))
    is_bad = bool(wrong or losses(rows))
    if options.orders:
        lines = all_orders(options, program, base, steps, probes)
        print("", *counted(steps, lines, options.orders), sep="\n")
        is_bad = is_bad or bool(lines)
    return 1 if is_bad else 0


def main():
    try:
        return rehearse(options_of(sys.argv[1:]))
    except Wrong as fault:
        print(f"rehearse.py: {fault}", file=sys.stderr)
    except OSError as fault:
        print(f"rehearse.py: {fault.filename or 'standard output'}: {fault.strerror}", file=sys.stderr)
    return 2


if __name__ == "__main__":
    sys.exit(main())
