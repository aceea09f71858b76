#!/usr/bin/env python3
"""Makes documents of exports of OpenContrail's API by tools/from_tungsten.py, and says where they are not what they should be.

tests/exports/shop.json is an export as the API gives it, written by its public schema (vnc_cfg.xsd), and tests/exports/shop.txt
the document that is wanted, by hand, in the form of tools/short.py; what is to be listed stands here. The same objects are
given as an export of the database, as a list of objects as contrail-api-cli prints them, and in two files. Then one thing of an
export is changed at a time, with what is to come of it; what is broken is to be told at its path, and parts that are taken out
or something else are to make no fault of the script.

usage: tests/exports.py [PROGRAM]

With PROGRAM, the built `overlay`, `compile` is to take the document. Needs Python 3.8. Ends with status 1 where something is
otherwise.
"""
import contextlib
import copy
import io
import json
import pathlib
import random
import subprocess
import sys
import tempfile

TOP = pathlib.Path(__file__).resolve().parent.parent
TOOL = TOP / "tools" / "from_tungsten.py"
sys.dont_write_bytecode = True
sys.path.insert(0, str(TOP / "tools"))
import from_tungsten
import short

SHOP = json.loads((TOP / "tests" / "exports" / "shop.json").read_text(encoding="utf-8"))
WANTED = (TOP / "tests" / "exports" / "shop.txt").read_text(encoding="utf-8")
LISTED = """\
access-control-list: 1 derived by the system
bgp-router: 1 of another kind than control nodes
compute nodes: 1 whose address was made
compute nodes: 3 whose two control nodes were chosen
floating-ip: 1 which the model has not
instance-ip: 1 of IPv6
instance-ip: 1 that are second ones
names: 1 of the kind network
names: 2 of the kind node
names: 1 of the kind policy
network-policy: 1 that no network attaches
project: 1 derived by the system
rules: 1 of IPv6
rules: 1 with ICMP types
rules: 1 with a network that is not in the document
rules: 1 with a service instance that is not in the export
rules: 1 with subnets as ends
rules: 1 with the action `log`
rules: 1 within one network
security-group: 1 which the model has not
service-instance: 1 that translate addresses (NAT)
service-instance: 1 to which no rule leads
subnets: 1 of IPv6
virtual-machine-interface: 1 in a network that is not in the document
virtual-machine-interface: 3 of a service
virtual-machine-interface: 1 on no compute node in the export
virtual-machine-interface: 1 with allowed address pairs
virtual-machine-interface: 2 with security groups
virtual-machine-interface: 1 without an address of IPv4
virtual-network: 1 of layer 2 alone
virtual-network: 1 of the system itself
virtual-network: 1 with route targets of its own
virtual-network: 1 with routes to outside
""".splitlines()


def run(*files, words=()):
    """What the script does with files, as it is called by people: status, standard output, standard error."""
    with tempfile.TemporaryDirectory() as folder:
        paths = [pathlib.Path(folder, f"{place}.json") for place in range(len(files))]
        for path, value in zip(paths, files):
            path.write_bytes(value if isinstance(value, bytes) else json.dumps(value).encode())
        out, err = io.StringIO(), io.StringIO()
        with contextlib.redirect_stdout(out), contextlib.redirect_stderr(err):
            status = from_tungsten.main([*map(str, paths), *words])
        return status, out.getvalue(), err.getvalue().replace(folder + "/", "")


def objects(export):
    """Each object of an export as the API gives it, with its type."""
    return [(kind, it[kind]) for items in export.values() for it in items for kind in it]


def rows(export):
    """The same objects as rows of the database, as db_json_exim writes them."""
    made = {}
    for kind, it in objects(export):
        row = {"type": kind.replace("-", "_"), "fq_name": it["fq_name"]}
        for name, value in it.items():
            if name == "virtual_machine_interface_bindings":
                row.update({f"propm:{name}:{pair['key']}": pair for pair in value["key_value_pair"]})
            elif name.endswith("_refs"):
                target = name[:-5]
                row.update({f"ref:{target}:{ref['uuid']}": {"attr": ref["attr"], "is_weakref": False} for ref in value})
            elif name == "parent_uuid":
                row[f"parent:{it['parent_type'].replace('-', '_')}:{value}"] = None
            elif name not in ("uuid", "fq_name", "name", "href", "parent_type"):
                row[f"prop:{name}"] = value
        made[it["uuid"]] = {column: [json.dumps(value), 1700000000000000] for column, value in row.items()}
    return {"cassandra": {"config_db_uuid": {"obj_uuid_table": made, "obj_fq_name_table": {}}}, "zookeeper": "[]"}


def lacks(listed):
    """The lines that are wanted and the lines that are there, where they are not the same."""
    there = listed.splitlines()
    return [it for it in LISTED if not any(line.startswith(it) for line in there)], [
        line for line in there if not any(line.startswith(it) for it in LISTED)]


def forms():
    wanted = short.read(WANTED, {})[0]
    halves = [dict(list(SHOP.items())[::2]), dict(list(SHOP.items())[1::2])]
    for name, files in (("as the API gives it", [SHOP]), ("as a database", [rows(SHOP)]),
                        ("as contrail-api-cli prints it", [[it for _, it in objects(SHOP)]]),
                        ("as a list of objects with their types", [[it for items in SHOP.values() for it in items]]),
                        ("in two files", halves), ("given twice", [SHOP, SHOP])):
        status, out, err = run(*files)
        found = short.plain(json.loads(out)) if out else err
        place = short.difference(short.plain(wanted), found) if out else err
        yield f"an export {name}", (status, place), (0, None)
        yield f"an export {name}, what is listed", lacks(err), ([], [])


def small():
    """A small export: two networks, two interfaces, a policy between them, no node."""
    network = lambda name, prefix: {"fq_name": ["d", "p", name], "uuid": name, "network_ipam_refs": [
        {"to": ["d", "p", "ipam"], "attr": {"ipam_subnets": [{"subnet": {"ip_prefix": prefix, "ip_prefix_len": 24}}]}}],
        "network_policy_refs": [{"to": ["d", "p", "pol"], "attr": {"sequence": {"major": 0, "minor": 0}}}]}
    interface = lambda name, net: {"fq_name": ["d", "p", name], "uuid": name, "virtual_network_refs": [{"to": ["d", "p", net]}]}
    address = lambda name, of, ip: {"fq_name": [name], "uuid": name, "instance_ip_address": ip,
                                    "virtual_machine_interface_refs": [{"to": ["d", "p", of], "uuid": of}]}
    rule = {"direction": "<>", "protocol": "tcp", "src_addresses": [{"virtual_network": "d:p:a"}], "dst_addresses": [
        {"virtual_network": "d:p:b"}], "src_ports": [{"start_port": -1, "end_port": -1}],
        "dst_ports": [{"start_port": 80, "end_port": 80}], "action_list": {"simple_action": "pass"}}
    return {"virtual-network": {"a": network("a", "10.1.0.0"), "b": network("b", "10.2.0.9")},
            "virtual-machine-interface": {"x": interface("x", "a"), "y": interface("y", "b")},
            "instance-ip": {"i": address("i", "x", "10.1.0.5"), "j": address("j", "y", "10.2.0.5")},
            "network-policy": {"pol": {
                "fq_name": ["d", "p", "pol"], "uuid": "pol", "network_policy_entries": {"policy_rule": [rule]}}}}


def with_change(change):
    made = copy.deepcopy(small())
    change(made)
    return [{kind: it} for kind, named in made.items() for it in named.values()]


def rule_of(made):
    return made["network-policy"]["pol"]["network_policy_entries"]["policy_rule"][0]


def changed():
    """One change each of the small export: what stands of it in the document, and what is listed of it."""
    status, out, err = run(with_change(lambda made: None))
    document = json.loads(out)
    topology, configuration = document["topology"], document["configuration"]
    yield "a small export", (status, topology["as"], topology["nodes"], topology["controllers"]), (
        0, 64512, [{"name": "compute", "address": "198.18.0.1", "controllers": ["control"]}],
        [{"name": "control", "address": "198.19.0.1"}])
    status, out, err = run(with_change(lambda made: None), {"obj_uuid_table": {"u": {"fq_name": ['["x"]']}, "v": {"type": ['"x"']}}})
    yield "rows without a type or a name", (status, "rows of the database: 2 without a type or a name, left out (u, v)\n" in err), (0, True)
    yield "a small export, its subnets", [it["subnets"] for it in configuration["networks"]], [["10.1.0.0/24"], ["10.2.0.0/24"]]
    yield "a small export, its ports", [(it["name"], it["node"]) for it in configuration["ports"]], [
        ("x", "compute"), ("y", "compute")]
    yield "a small export, its policy", configuration["policies"][0]["rules"], [
        {"direction": "<>", "source": "a", "destination": "b", "protocol": 6, "source_ports": [0, 65535],
         "destination_ports": [80, 80], "action": "pass"}]
    rules = lambda document: len(document["configuration"]["policies"][0]["rules"])
    ports = lambda document: len(document["configuration"]["ports"])
    cases = [
        ("a protocol that is not known", lambda m: rule_of(m).update(protocol="xyz"), rules, 0, "rules: 1 of the protocol `xyz`"),
        ("a protocol as a number", lambda m: rule_of(m).update(protocol="132"),
         lambda d: d["configuration"]["policies"][0]["rules"][0]["protocol"], 132, ""),
        ("a security group as an end", lambda m: rule_of(m).update(src_addresses=[{"security_group": "d:p:sg"}]),
         rules, 0, "rules: 1 with security groups as ends"),
        ("a policy as an end", lambda m: rule_of(m).update(src_addresses=[{"network_policy": "d:p:o"}]),
         rules, 0, "rules: 1 with policies as ends"),
        ("no end", lambda m: rule_of(m).update(dst_addresses=[]), rules, 0, "rules: 1 without dst_addresses"),
        ("two ends and two ranges", lambda m: rule_of(m).update(
            dst_addresses=[{"virtual_network": "d:p:b"}, {"virtual_network": "any"}],
            dst_ports=[{"start_port": 1, "end_port": 2}, {"start_port": 3, "end_port": None}]), rules, 4, ""),
        ("a rule of one network", lambda m: rule_of(m).update(dst_addresses=[{"virtual_network": "d:p:a"}]),
         rules, 0, "rules: 1 within one network"),
        ("a mirror", lambda m: rule_of(m)["action_list"].update(mirror_to={"analyzer_name": "z"}),
         rules, 1, "rules: 1 with the action `mirror_to`"),
        ("no action", lambda m: rule_of(m).update(action_list=None), rules, 0, "rules: 1 that neither pass nor deny"),
        ("something new in a rule", lambda m: rule_of(m).update(colour="red"), rules, 1, "rules: 1 with `colour`"),
        ("something new in a network", lambda m: m["virtual-network"]["a"].update(colour=["red"]),
         rules, 1, "virtual-network: 1 with `colour`"),
        ("something new that says nothing", lambda m: m["virtual-network"]["a"].update(colour=[None, {"b": False}]),
         rules, 1, ""),
        ("a type that is new", lambda m: m.update({"tardis": {"t": {"fq_name": ["t"], "uuid": "t"}}}),
         rules, 1, "tardis: 1 which the model has not"),
        ("a shared address", lambda m: m["instance-ip"]["i"]["virtual_machine_interface_refs"].append({"to": ["d", "p", "y"]}),
         ports, 2, "instance-ip: 1 of several interfaces"),
        ("an address twice", lambda m: m["virtual-machine-interface"].update(
            z={**m["virtual-machine-interface"]["x"], "uuid": "z", "fq_name": ["d", "p", "z"]}) or m["instance-ip"].update(
            k={**m["instance-ip"]["i"], "uuid": "k", "fq_name": ["k"], "virtual_machine_interface_refs": [{"uuid": "z"}]}),
             ports, 2, "virtual-machine-interface: 1 with the address of an earlier one"),
        ("an address of nothing", lambda m: m["instance-ip"]["i"].update(virtual_machine_interface_refs=[]),
         ports, 1, "instance-ip: 1 of no interface"),
        ("a network without a subnet", lambda m: m["virtual-network"]["a"].update(network_ipam_refs=None),
         ports, 2, "virtual-network: 1 without a subnet"),
        ("an external network", lambda m: m["virtual-network"]["a"].update(router_external=True),
         ports, 2, "virtual-network: 1 with routes to outside"),
        ("a policy with a timer",
         lambda m: m["virtual-network"]["a"]["network_policy_refs"][0]["attr"].update(timer={"start_time": "1"}), rules, 1,
         "virtual-network: 1 with a policy of certain times"),
        ("a policy that is not there", lambda m: m.pop("network-policy"),
         ports, 2, "virtual-network: 2 with a policy that is not in the export"),
        ("a name of the model that is taken", lambda m: m["virtual-network"].update(
            c={**m["virtual-network"]["a"], "uuid": "c", "fq_name": ["d", "q", "a"]}),
         lambda d: [it["name"] for it in d["configuration"]["networks"]], ["a", "b", "a-2"], "names: 1 of the kind network"),
        ("a long name", lambda m: m["virtual-network"]["a"].update(fq_name=["d", "p", "N" * 40]),
         lambda d: d["configuration"]["networks"][0]["name"], "n" * 32, "names: 1 of the kind network"),
        ("too many subnets", lambda m: m["virtual-network"]["a"]["network_ipam_refs"][0]["attr"].update(ipam_subnets=[
            {"subnet": {"ip_prefix": f"10.{place}.0.0", "ip_prefix_len": 24}} for place in range(5)]),
             ports, 2, "limits: 1 of the model passed: subnets are at most 4"),
        ("a virtual router at a control node", lambda m: m.update({
            "virtual-router": {"v": {"fq_name": ["g", "all"], "uuid": "v", "virtual_router_ip_address": "192.0.2.9"}},
            "bgp-router": {"r": {"fq_name": ["all"], "uuid": "r", "bgp_router_parameters": {
                "address": "192.0.2.9", "router_type": "control-node"}}}}),
         lambda d: [it["address"] for it in d["topology"]["controllers"] + d["topology"]["nodes"]], ["198.19.0.1", "192.0.2.9"],
         "control nodes: 1 on the machine of a compute node"),
        ("equal sequences", lambda m: m["network-policy"].update(
            o={"fq_name": ["d", "p", "o"], "uuid": "o"}) or m["virtual-network"]["a"]["network_policy_refs"].append(
            {"to": ["d", "p", "o"], "attr": {"sequence": {"major": 0, "minor": 0}}}),
             ports, 2, "networks: 1 with policies of equal sequence"),
    ]
    for name, change, what, wanted, listed in cases:
        status, out, err = run(with_change(change))
        found = what(json.loads(out)) if out else err
        yield name, (status, found, not listed or any(line.startswith(listed) for line in err.splitlines())), (0, wanted, True)


def broken():
    """What is broken is told at its path."""
    network = lambda **members: {"virtual-network": {"fq_name": ["d", "p", "a"], "uuid": "a", **members}}
    ipam = lambda subnet: network(network_ipam_refs=[{"to": ["x"], "attr": {"ipam_subnets": [{"subnet": subnet}]}}])
    policy = lambda **members: {"network-policy": {"fq_name": ["p"], "uuid": "p", "network_policy_entries": {"policy_rule": [members]}}}
    cases = [
        (b"", "0.json: no JSON"), (b"{", "0.json: no JSON"), (b"\xff", "0.json: no UTF-8 at octet 0"),
        (b"3", "0.json: the document: is not an object or a list"),
        ([1], "0.json: [0]: is not an object or a list"), ({"virtual-network": 1}, "0.json: virtual-network: is neither"),
        ({"virtual-networks": [{"href": "h", "fq_name": ["a"], "uuid": "u"}]}, "0.json: virtual-networks[0]: is a reference"),
        ([{"fq_name": ["a"], "uuid": "u"}], "0.json: [0]: has neither a type"),
        (network(fq_name=[]), "0.json: virtual-network: "),
        (network(fq_name=[1]), "0.json: virtual-network.fq_name[0]: is not a text"),
        (network(uuid=1), "0.json: virtual-network.uuid: is not a text"),
        (network(network_ipam_refs=1), "0.json: virtual-network.network_ipam_refs: is not a list"),
        (ipam(1), "0.json: virtual-network.network_ipam_refs[0].attr.ipam_subnets[0].subnet: is not an object"),
        (ipam({"ip_prefix": "10.0.0", "ip_prefix_len": 8}), "subnet: is no prefix: 10.0.0/8"),
        (ipam({"ip_prefix": "10.0.0.0", "ip_prefix_len": 33}), "subnet: is no prefix: 10.0.0.0/33"),
        (ipam({"ip_prefix": "10.0.0.0"}), "subnet: is no prefix"),
        (ipam({"ip_prefix": "10.0.0.0", "ip_prefix_len": "x"}), "subnet.ip_prefix_len: is not a number"),
        (policy(direction="<"), "policy_rule[0].direction: is neither"),
        (policy(protocol=6), "policy_rule[0].protocol: is not a text"),
        ({"cassandra": {"config_db_uuid": {}}}, "0.json: cassandra.config_db_uuid.obj_uuid_table: is missing"),
        ({"obj_uuid_table": {"u": {"fq_name": ["x"]}}}, "0.json: obj_uuid_table.u.fq_name[0]: is not JSON as text"),
    ]
    for value, wanted in cases:
        status, out, err = run(value)
        yield f"broken: {str(value)[:70]}", (status, out, wanted in err or err), (1, "", True)
    for words in ([], ["--no"], ["a", "--as", "x"]):
        yield f"words {words}", run(words=words)[:2], (2, "")
    yield "a file that is not there", run(words=["no/such"])[::2], (1, "no/such: No such file or directory\n")


def places(value, path=()):
    """The place of each part of an export."""
    for name in value if isinstance(value, dict) else range(len(value)) if isinstance(value, list) else ():
        yield (*path, name)
        yield from places(value[name], (*path, name))


def mutated():
    """Exports of which one part is taken out or is something else: whatever is said, it is no fault of the script."""
    others = [None, 1, -1, 1.5, "x", "", [], {}, [1], ["x"], [None], [{}], {"a": 1}, True, "2001:db8::", 70000]
    for name, export in (("as the API gives it", SHOP), ("as a database", rows(SHOP))):
        dice, known = random.Random(80), list(places(export))
        for turn in range(40):
            made = copy.deepcopy(export)
            *front, last = dice.choice(known)
            held = made
            for part in front:
                held = held[part]
            if turn % 4:
                held[last] = dice.choice(others)
            else:
                del held[last]
            try:
                status = run(made)[0] in (0, 1)
            except Exception as fault:  # whatever it is, it is what is looked for here
                status = repr(fault)
            yield f"an export {name}, changed {turn} at {front} {last}", status, True


def called():
    """The script as a program of its own, with its options."""
    with tempfile.TemporaryDirectory() as folder:
        names = pathlib.Path(folder, "names")
        words = [sys.executable, TOOL, "-", "--as", "70000", "--names", names]
        ran = subprocess.run(words, input=json.dumps(SHOP).encode(), capture_output=True, timeout=120)
        yield "--as", json.loads(ran.stdout)["topology"]["as"], 70000
        yield "--names", json.loads(names.read_text())["network"]["default-domain:shop:Office Net"], "office-net"
    ran = subprocess.run([sys.executable, TOOL, "--help"], capture_output=True, timeout=120)
    yield "--help", (ran.returncode, b"usage: " in ran.stdout), (0, True)


def compiled(program):
    for name, files in (("shop.json", [SHOP]), ("the small export", [with_change(lambda made: None)])):
        ran = subprocess.run([program, "compile"], input=run(*files)[1].encode(), capture_output=True, timeout=120)
        yield f"compile of {name}", (ran.returncode, ran.stderr), (0, b"")


def main(program=None):
    count = agree = 0
    for group in (forms, changed, broken, mutated, called, *([lambda: compiled(program)] if program else [])):
        for name, found, wanted in group():
            count += 1
            agree += found == wanted
            if found != wanted:
                print(f"{name}: {found!r} in place of {wanted!r}"[:900])
    print(f"{agree} of {count} cases agree")
    return 0 if agree == count else 1


if __name__ == "__main__":
    if len(sys.argv) > 2 or sys.argv[1:] in (["--help"], ["-h"]):
        sys.exit(__doc__)
    sys.exit(main(*sys.argv[1:]))
