#!/usr/bin/env python3
"""Plans how a policy gets other rules without an interruption, and prints the document of `overlay run` that does it.

usage: tools/plan.py [--program INSPECT] DOCUMENT POLICY RULES

DOCUMENT has a topology and a configuration, POLICY is the name of one of its policies, and RULES is a file with the list of its new
rules, written as in a document; a chain rule may leave out `use`. A standby policy with the new rules, each chain rule with a use
that no rule has, is put behind all others and attached by each network that attaches POLICY. Its sequence is put in front of that
of POLICY, and POLICY behind all others. Then each network lets go of POLICY, which is deleted. Each edit is followed by `settle`.

Every edit is checked by `inspect hitless` before anything is printed: a packet that an edit's configurations both deliver goes on
being delivered, in any order of messages. INSPECT is that program, and `inspect` of the path where none is given.

Ends with status 1 where there is no such plan, and says which limit or rule forbids it, or which edit interrupts which packets: a
port that moves, a service that moves or a subnet that changes has none. Needs Python 3.8.
"""
import argparse
import copy
import json
import subprocess
import sys

MOST_SEQUENCE, MOST_ATTACHED, MOST_POLICIES, MOST_USE, MOST_NAME = 65535, 4, 128, 3071, 32


def stop(why):
    sys.exit(f"plan.py: {why}")


def read(path):
    try:
        with open(path, encoding="utf-8") as file:
            return json.load(file)
    except (OSError, ValueError) as fault:
        stop(f"{path}: {fault}")


def named(objects, name, kind):
    return next((it for it in objects if it["name"] == name), None) or stop(f"the configuration has no {kind} {name}")


def free_name(policies, name):
    """A name of no policy that begins with this one."""
    taken = {it["name"] for it in policies}
    made = (f"{name[: MOST_NAME - len(tail)]}{tail}" for tail in ["-next", *(f"-next{n}" for n in range(2, MOST_POLICIES + 2))])
    return next(it for it in made if it not in taken)


def with_fresh_uses(policies, rules):
    """The rules, of which each chain rule has a use of its own that no rule of the configuration has."""
    taken = {rule["use"] for policy in policies for rule in policy["rules"] if "use" in rule}
    fresh = (it for it in range(MOST_USE + 1) if it not in taken)
    made = copy.deepcopy(rules)
    for rule in made:
        if rule.get("action") == "chain":
            rule["use"] = next(fresh, None)
            if rule["use"] is None:
                stop(f"no use from 0 to {MOST_USE} is free for a chain rule")
    return made


def sequences(policies, old):
    """Free sequences: two behind all others, and one right before the old policy."""
    taken = {it["sequence"] for it in policies}
    behind = max(taken) + 1
    if behind + 1 > MOST_SEQUENCE:
        stop(f"no two sequences behind {max(taken)} are free: {MOST_SEQUENCE} is the last")
    before = old["sequence"] - 1
    if before < 0 or before in taken:
        stop(f"no sequence is free between policy {old['name']}, {old['sequence']}, and what stands before it")
    return before, behind, behind + 1


def without(names, name):
    return [it for it in names if it != name]


def plan(configuration, name, rules):
    """The edits, in order."""
    policies = configuration["policies"]
    old = named(policies, name, "policy")
    if len(policies) + 1 > MOST_POLICIES:
        stop(f"there is no room for a standby policy beside {MOST_POLICIES} policies")
    before, first_behind, last = sequences(policies, old)
    standby = {"name": free_name(policies, name), "sequence": first_behind, "rules": with_fresh_uses(policies, rules)}
    attaching = [it for it in configuration["networks"] if name in it.get("policies", [])]
    for network in attaching:
        if len(network["policies"]) + 1 > MOST_ATTACHED:
            stop(f"network {network['name']} attaches {MOST_ATTACHED} policies, and has no room for a standby")
    yield {"put": {"policy": standby}}
    for network in attaching:
        yield {"put": {"network": {**network, "policies": [*network["policies"], standby["name"]]}}}
    yield {"put": {"policy": {**standby, "sequence": before}}}
    yield {"put": {"policy": {**old, "sequence": last}}}
    for network in attaching:
        yield {"put": {"network": {**network, "policies": [*without(network["policies"], name), standby["name"]]}}}
    yield {"delete": {"policy": name}}


def check(program, document, edits):
    """Sees that no edit is refused or interrupts a packet."""
    asked = json.dumps({"topology": document["topology"], "configuration": document["configuration"], "edits": edits})
    try:
        run = subprocess.run([program, "hitless", "-"], input=asked, capture_output=True, text=True, check=False)
    except OSError as fault:
        stop(f"{program}: {fault.strerror}")
    if run.returncode not in (0, 1):
        stop(f"{program} ended with status {run.returncode}: {run.stdout}{run.stderr}".rstrip())
    wrong = [it for it in run.stdout.splitlines() if it.split()[1:] != ["hitless"]]
    if wrong:
        number = int(wrong[0].split()[0])
        stop("\n".join([f"there is no such plan: its edit {number} is {json.dumps(edits[number - 1])}", *wrong]))


def main():
    parser = argparse.ArgumentParser(usage=argparse.SUPPRESS, description=__doc__, formatter_class=argparse.RawDescriptionHelpFormatter)
    parser.add_argument("--program", default="inspect")
    parser.add_argument("document")
    parser.add_argument("policy")
    parser.add_argument("rules")
    options = parser.parse_args()
    document = read(options.document)
    edits = list(plan(document["configuration"], options.policy, read(options.rules)))
    check(options.program, document, edits)
    events = ["settle", *(event for edit in edits for event in ({"edit": edit}, "settle"))]
    print(json.dumps({"topology": document["topology"], "configuration": document["configuration"], "events": events}, indent=1))


if __name__ == "__main__":
    main()
