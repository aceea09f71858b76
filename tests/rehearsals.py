#!/usr/bin/env python3
"""Rehearses changes with tools/rehearse.py, and says where it tells something else than `run` does.

Each example and each schedule of tests/schedules.jsonl is rehearsed, with the packets that it traces as probes; a base is settled
first. Where nothing restarted yet, the outcomes behind each step are to be those of one plain run of the same events, and each
settle is to take as many rounds, though it is played as rounds. Of the examples of docs/COOKBOOK.md the statuses, the losses and
the reasons are compared with what that page says of them. The pictures are to be as tests/pictures.py wants them. Random orders are
to be the same with GNU parallel as without it, and on another machine, for which a command stands in that only runs what it is
given; and each loss is to be there in a plain run of the order. And inputs that are broken are to be answered with status 2.

usage: tests/rehearsals.py PROGRAM [NAME ..]

PROGRAM is the built `overlay`; with names only these schedules are rehearsed. Needs Python 3.8, and for a part GNU parallel and
rsync. Ends with status 1 where something is otherwise.
"""
import json
import os
import subprocess
import sys
import tempfile

HERE = os.path.dirname(os.path.abspath(__file__))
TOP = os.path.dirname(HERE)
sys.dont_write_bytecode = True
sys.path.insert(0, os.path.join(TOP, "tools"))
import pictures
import rehearse

SCRIPT = os.path.join(TOP, "tools", "rehearse.py")
MOST = 8  # probes of a schedule
EXAMPLES = ("change", "smooth", "growth", "rounds", "schedule", "feed-first", "agents-first", "around", "fresh")
WEB = {"port": 1, "to": "10.2.0.2", "protocol": 6, "sport": 50000, "dport": 5432}
# Takes the place of ssh: passes over its options and runs the rest here.
NO_SSH = """#!/bin/sh
while [ $# -gt 0 ]; do
    case "$1" in -l|-p|-o) shift 2;; -*) shift;; *) break;; esac
done
shift
[ "$1" != -- ] || shift
exec sh -c "$*"
"""


def called(*words, **how):
    return subprocess.run([sys.executable, SCRIPT, *words], capture_output=True, text=True, check=False, **how)


def example(name):
    with open(os.path.join(TOP, "examples", f"{name}.json"), encoding="utf-8") as source:
        return json.load(source)


def schedules(names):
    with open(os.path.join(HERE, "schedules.jsonl"), encoding="utf-8") as source:
        for line in source:
            case = json.loads(line)
            if not names or case["name"] in names:
                yield case["name"], json.loads(case["document"])


def parts_of(document):
    """The steps and the probes of a document of `run`."""
    steps, probes = [], []
    for step, event in enumerate(document["events"], 1):
        if not isinstance(event, dict) or not {"trace", "show"} & set(event):
            steps.append((step, event))
        elif "trace" in event and event["trace"] not in probes and len(probes) < MOST:
            probes.append(event["trace"])
    return rehearse.plain(document), steps, probes or [WEB]


def is_restart(event):
    return isinstance(event, dict) and "restart" in event


def plainly(program, base, steps, probes):
    """What a plain run answers: of each step up to the first restart its answer and the outcomes behind it."""
    moments = [rehearse.Moment(0, "", None, ["settle"])] + [rehearse.Moment(step, "", None, [event]) for step, event in steps]
    restarts = [step for step, event in steps if is_restart(event)]
    seen = rehearse.played(program, base, moments, probes)
    return {moment.step: (answers[0], outcomes) for moment, (answers, outcomes) in zip(moments, seen)
            if not restarts or moment.step <= restarts[0]}


def differences(program, base, steps, probes):
    """What a rehearsal tells otherwise than a plain run."""
    moments, seen, first = rehearse.rehearsed(program, base, steps, probes)
    wanted = plainly(program, base, steps, probes)
    found, kinds = [], dict(steps)
    last = {moment.step: outcomes for moment, (_, outcomes) in zip(moments, seen) if not is_restart(kinds.get(moment.step))}
    for moment, (_, outcomes) in zip(moments, seen):
        if is_restart(kinds.get(moment.step)):
            last.setdefault(moment.step, outcomes)
    for step, (answer, outcomes) in wanted.items():
        if first[step] != answer:
            found.append(f"step {step} is answered {first[step]!r} and not {answer!r}")
        if last[step] != outcomes:
            found.append(f"step {step} ends with {last[step]} and not {outcomes}")
    found += [it for it in rehearse.faults(steps, moments, seen, first) if "played as rounds" in it]
    rows = rehearse.rows_of(moments, seen)
    return found + pictures.faults_of(rehearse.drawn(base, probes, rows))


def check_pages(program):
    """What docs/COOKBOOK.md says of its examples, and what is printed of them."""
    wanted = {
        "change": (1, ["probe 1 is lost from step 8 (round) to step 12 (settle, round ", ": no-label", "probe 2 is lost from "]),
        "smooth": (0, ["no probe that was delivered is dropped", "1 delivered port 2 services 8"]),
        "growth": (1, ["step 6, delete node n3: refused BadReference n3",
                       "step 10, put node n3: refused Tied node 192.0.2.14", "no-source-port"]),
    }
    for name, (status, texts) in wanted.items():
        path = os.path.join(TOP, "examples", f"{name}.json")
        run = called("--program", program, path, path)
        if run.returncode != status:
            yield f"{name} ended with status {run.returncode}: {run.stderr}"
        yield from (f"{name} does not say {text!r}" for text in texts if text not in run.stdout)
    base, steps, _ = parts_of(example("rounds"))
    _, _, first = rehearse.rehearsed(program, base, steps, [WEB])
    took = [answer for step, answer in first.items() if answer.startswith("settled")]
    if took != [f"settled rounds {n}" for n in (6, 1, 5, 5, 4)] + took[5:]:
        yield f"the settles of rounds.json are {took}"


def check_faults(program, folder):
    """Inputs that are broken: the words, and a part of what is said."""
    def file(name, text):
        path = os.path.join(folder, name)
        with open(path, "w", encoding="utf-8") as it:
            it.write(text)
        return path

    good = os.path.join(TOP, "examples", "cloud.json")
    bare = os.path.join(TOP, "examples", "one.json")
    steps = file("steps.json", '["settle"]')
    broken = {**example("one"), "topology": {"as": 0}}
    for words, said in (
            ([file("no", "{"), steps], "no: this is no JSON: "),
            ([os.path.join(folder, "none"), steps], "none: No such file or directory"),
            ([file("list", "[]"), steps], "list: this is no object"),
            ([file("bad", json.dumps(broken)), steps], "bad: overlay: topology.as is outside"),
            ([bare, steps], "one.json: it has no packets"),
            ([good, file("word", '"settle"')], "word: this is neither a list of events"),
            ([good, file("odd", '["settle", "sit"]')], "odd: overlay: events[1] "),
            ([good, file("deep", '["settle", {"deliver": ["c1", "n1", 0]}]')], "deep: overlay: events[1].deliver[2] "),
            ([good, os.path.join(TOP, "examples", "change.json")], "change.json: its topology and its configuration are not"),
            ([good], "the following arguments are required: STEPS")):
        run = called("--program", program, *words)
        if run.returncode != 2 or said not in run.stderr or run.stdout:
            yield f"{words} ended with status {run.returncode} and said {run.stderr!r}, not {said!r}"
    run = called("--program", os.path.join(folder, "none"), good, steps)
    if run.returncode != 2 or "No such file" not in run.stderr:
        yield f"a program that is not there ended with status {run.returncode} and said {run.stderr!r}"


def check_orders(program, folder):
    """Random orders, alone, by GNU parallel, and on a machine that is this one."""
    path, words = os.path.join(TOP, "examples", "change.json"), ["--orders", "60", "--seed", "7"]
    base, steps, probes = parts_of(example("change"))
    alone = rehearse.orders(program, base, steps, probes, 7, range(60))
    if not alone:
        yield "no order of change.json loses a packet"
    for number in sorted({it[0] for it in alone})[:5]:
        run = called("--program", program, "--seed", "7", "--order", str(number), path, path)
        status, lines, _ = rehearse.ran(program, "run", json.loads(run.stdout))
        if status or not any(" dropped " in line for line in lines):
            yield f"order {number} has no loss when it is run"
    table = "\n".join(rehearse.counted(steps, alone, 60))
    if not rehearse.is_gnu_parallel():
        print("without GNU parallel: orders are not compared with those of several processes")
        return
    ssh = os.path.join(folder, "ssh")
    with open(ssh, "w", encoding="utf-8") as it:
        it.write(NO_SSH)
    os.chmod(ssh, 0o755)
    there = {**os.environ, "PATH": f"{folder}{os.pathsep}{os.environ['PATH']}"}
    for more in ([], ["--jobs", "2", "--sshlogin", ":,elsewhere"]):
        run = called("--program", program, *words, *more, path, path, env=there)
        if run.returncode != 1 or table not in run.stdout:
            yield f"orders with {more} ended with status {run.returncode} and are others: {run.stdout[-900:]}{run.stderr[-900:]}"


def main(program, names):
    program, wrong, count = os.path.abspath(program), [], 0
    cases = [(name, example(name)) for name in EXAMPLES if not names] + list(schedules(names))
    for name, document in cases:
        count += 1
        wrong += [f"{name}: {it}" for it in differences(program, *parts_of(document))]
    if not names:
        with tempfile.TemporaryDirectory(prefix="rehearse-test-") as folder:
            wrong += [*check_pages(program), *check_faults(program, folder), *check_orders(program, folder)]
    print(*wrong, f"{count} schedules rehearsed, {len(wrong)} faults", sep="\n")
    return 1 if wrong or not count else 0


if __name__ == "__main__":
    if len(sys.argv) < 2 or sys.argv[1] in ("-h", "--help"):
        sys.exit(__doc__)
    sys.exit(main(sys.argv[1], sys.argv[2:]))
