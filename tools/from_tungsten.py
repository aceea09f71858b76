#!/usr/bin/env python3
"""Makes a document of `overlay compile` of what the API of OpenContrail or Tungsten Fabric exports.

usage: tools/from_tungsten.py FILE .. [--as NUMBER] [--names NAMES.json] > DOCUMENT.json

Each FILE, or `-` for standard input, is JSON: an object or a list of objects as the API gives them, with their type as
`{"virtual-network": {..}}`, `{"virtual-networks": [{..}]}`, or with an `href` as contrail-api-cli prints them; or an export of
the database, as db_json_exim writes it. Read are virtual networks with the subnets of their IPAMs, network policies, virtual
machine interfaces with their instance addresses, service instances and the lists `apply_service` of rules, and for nodes
virtual routers, BGP routers and the number of the autonomous system in global-system-config.

What the model has not, what was left out, and what was made since the export does not have it is listed on standard error by
kind and number, each with the first three that it concerns: what is not listed is in the document. Names become names of the
model (a to z, 0 to 9, - and _, at most 32); NAMES.json is given the name of each object by its kind and its own name.

    virtual machine interfaces: 2 with floating addresses, which the model has not (default-domain:a:vm1, default-domain:a:vm2)

The document has not been asked whether it is valid: `overlay compile` says that. Needs Python 3.8. Ends with status 0 where a
document is written (also where something is listed), 1 where a file is broken (with its path) or cannot be read, 2 where it was
given other words.
"""
import collections
import ipaddress
import itertools
import json
import re
import signal
import sys

sys.dont_write_bytecode = True
from short import Fault, Value, spelled

PROTOCOLS = {"any": "any", "icmp": 1, "igmp": 2, "tcp": 6, "udp": 17, "gre": 47, "esp": 50, "ah": 51, "sctp": 132}
SYSTEM = ("default-virtual-network", "ip-fabric", "__link_local__", "dci-network")
ALL = [0, 65535]
LIMITS = {"controllers": 8, "nodes": 64, "networks": 128, "ports": 1024, "policies": 128, "services": 128, "chains": 128}
MADE = ipaddress.IPv4Address("198.18.0.1")  # from here on are addresses of nodes that the export does not have

# Members that say nothing of packets, of every object.
SILENT = {
    "annotations", "configuration_version", "display_name", "draft_mode_state", "fq_name", "href", "id_perms", "name", "owner",
    "parent_href", "parent_type", "parent_uuid", "perms2", "type", "uuid", "_type",
}
# Of each type that is read the members that are read, or that say nothing of packets.
READ = {
    "virtual-network": {
        "network_ipam_refs", "network_policy_refs", "virtual_network_network_id", "is_shared", "routing_instances",
        "access_control_lists", "address_allocation_mode", "virtual_machine_interface_back_refs", "instance_ip_back_refs",
        "export_route_target_list", "import_route_target_list", "route_target_list", "virtual_network_properties",
        "port_security_enabled", "is_provider_network", "virtual_network_category"},
    "network-policy": {"network_policy_entries", "virtual_network_back_refs"},
    "virtual-machine-interface": {
        "virtual_network_refs", "virtual_machine_refs", "instance_ip_back_refs", "virtual_machine_interface_bindings",
        "virtual_machine_interface_mac_addresses", "virtual_machine_interface_properties", "port_tuple_refs",
        "virtual_machine_interface_device_owner", "virtual_machine_interface_dhcp_option_list", "routing_instance_refs",
        "port_security_enabled", "vlan_tag_based_bridge_domain"},
    "instance-ip": {
        "instance_ip_address", "instance_ip_family", "virtual_network_refs", "virtual_machine_interface_refs", "subnet_uuid",
        "instance_ip_mode", "instance_ip_secondary", "instance_ip_local_ip", "instance_ip_subscriber_mac"},
    "service-instance": {"service_instance_properties", "service_template_refs", "port_tuples", "virtual_machine_back_refs",
                         "service_instance_bindings"},
    "service-template": {"service_template_properties", "service_instance_back_refs", "domain_back_refs"},
    "port-tuple": {"virtual_machine_interface_back_refs", "logical_router_refs"},
    "virtual-machine": {"service_instance_refs", "virtual_machine_interface_back_refs", "virtual_router_back_refs",
                        "virtual_machine_interfaces", "server_type"},
    "virtual-router": {"virtual_router_ip_address", "virtual_machine_refs", "bgp_router_refs", "virtual_router_type",
                       "virtual_router_dpdk_enabled", "virtual_machine_interfaces"},
    "bgp-router": {"bgp_router_parameters", "bgp_router_refs", "bgp_router_back_refs", "virtual_router_back_refs"},
    "network-ipam": {"ipam_subnets", "ipam_subnet_method", "network_ipam_mgmt", "virtual_network_back_refs", "virtual_DNS_refs",
                     "ipam_subnetting"},
    "global-system-config": None,
}
# Types of which nothing concerns packets, or which the system derives from others.
DERIVED = {
    "access-control-list", "routing-instance", "route-target", "domain", "project", "config-root", "namespace", "api-access-list",
    "config-node", "database-node", "analytics-node", "config-database-node", "analytics-alarm-node", "analytics-snmp-node",
    "alarm", "discovery-service-assignment", "service-appliance-set", "global-vrouter-config", "global-qos-config",
    "devicemgr-node", "webui-node", "control-node-zone", "tag-type", "policy-management",
}
# Members by whose value the model would have something else, in words.
WORDS = {
    "alias_ip_back_refs": "alias addresses",
    "bgp_as_a_service_back_refs": "BGP as a service",
    "bridge_domains": "bridge domains",
    "ecmp_hashing_include_fields": "ECMP fields",
    "external_ipam": "addresses given elsewhere",
    "firewall_policy_back_refs": "firewall policies",
    "floating_ip_back_refs": "floating addresses",
    "floating_ip_pools": "pools of floating addresses",
    "interface_route_table_refs": "static routes",
    "logical_router_back_refs": "logical routers",
    "multi_policy_service_chains_enabled": "chains over several policies",
    "provider_properties": "provider networks",
    "qos_config_refs": "quality of service",
    "route_aggregate_back_refs": "aggregates",
    "route_table_refs": "static routes",
    "router_external": "routes to outside (external networks)",
    "security_group_refs": "security groups",
    "service_health_check_refs": "health checks",
    "tag_refs": "tags",
    "virtual_machine_interface_allowed_address_pairs": "allowed address pairs",
    "virtual_machine_interface_disable_policy": "policies disabled",
    "virtual_machine_interface_fat_flow_protocols": "fat flows",
    "virtual_machine_interface_refs": "sub-interfaces",
}


class Export:
    """The objects of an export, by type, and by number or name."""

    def __init__(self):
        self.by_type = collections.defaultdict(list)
        self.by_uuid, self.by_name = {}, {}
        self.nameless = []  # rows of a database that have no type or no name

    def add(self, kind, value):
        kind = kind.replace("_", "-")
        uuid = text(value, "uuid")
        if uuid and (kind, uuid) in self.by_uuid:
            return
        names = tuple(it.of(str, "a text") for it in several(value, "fq_name"))
        if not names:
            raise Fault(value.path, "has no fq_name")
        value.names = names
        self.by_type[kind].append(value)
        self.by_uuid[kind, uuid] = value
        self.by_name[kind, names] = value

    def of(self, kind):
        return self.by_type.get(kind, [])

    def found(self, kind, reference):
        """The object that a reference leads to, or None."""
        uuid = text(reference, "uuid")
        if uuid and (kind, uuid) in self.by_uuid:
            return self.by_uuid[kind, uuid]
        return self.by_name.get((kind, names_of(reference)))

    def targets(self, value, kind):
        """The objects of a type that an object refers to."""
        references = several(value, kind.replace("-", "_") + "_refs")
        return [it for it in (self.found(kind, reference) for reference in references) if it is not None]


def inner(value, name, kind, said, default):
    """A member that may be absent or null."""
    if value.of(dict, "an object").get(name) is None:
        return default
    found = value[name]
    found.of(kind, said)
    return found


def several(value, name):
    found = inner(value, name, list, "a list", None)
    return found.items() if found else []


def text(value, name, default=""):
    found = inner(value, name, str, "a text", None)
    return found.value if found else default


def number(value, name):
    found = inner(value, name, (int, str), "a number", None)
    if found is None:
        return None
    if isinstance(found.value, str) and not re.fullmatch("-?[0-9]{1,10}", found.value):
        raise found.fault("is not a number")
    return int(found.value)


def part(value, name):
    return inner(value, name, dict, "an object", Value({}, f"{value.path}.{name}"))


def names_of(reference):
    """The full name of what a reference leads to."""
    return tuple(it.of(str, "a text") for it in several(reference, "to"))


def is_said(value):
    """Whether a member says anything."""
    if isinstance(value, dict):
        return any(map(is_said, value.values()))
    if isinstance(value, list):
        return any(map(is_said, value))
    return value not in (None, "", False, 0)


# exports ---------------------------------------------------------------------------------------------------------------


def collect(export, value):
    """Adds what a file has, in whichever of the forms."""
    if isinstance(value.value, list):
        for it in value.items():
            collect(export, it)
        return
    members = value.of(dict, "an object or a list")
    if "cassandra" in members:
        collect_rows(export, part(part(value, "cassandra"), "config_db_uuid"))
    elif "obj_uuid_table" in members:
        collect_rows(export, value)
    elif "fq_name" in members:
        href = re.search(r"/([a-z-]+)/[0-9a-f-]+/?$", text(value, "href"))
        kind = text(value, "_type") or text(value, "type") or (href[1] if href else "")
        if not kind:
            raise value.fault("has neither a type around it nor an `href` that says one")
        export.add(kind, value)
    else:
        for name in members:
            collect_named(export, name, value[name])


def collect_named(export, name, value):
    if isinstance(value.value, list):
        for it in value.items():
            members = it.of(dict, "an object")
            if "fq_name" in members and set(members) <= {"href", "fq_name", "uuid"}:
                raise it.fault("is a reference without its content: ask the API for `?detail=true`")
            if "fq_name" in members:
                export.add(singular(name), it)
            else:
                collect(export, it)
    elif isinstance(value.value, dict):
        if "fq_name" in value.value:
            export.add(name, value)
        else:
            collect(export, value)
    else:
        raise value.fault("is neither an object nor a list of objects")


def singular(name):
    return name[:-3] + "y" if name.endswith("ies") else name[:-1] if name.endswith("s") else name


def decoded(column):
    """The value of a column of the database: JSON as text, with the time when it was written or without."""
    found = column.items()[0] if isinstance(column.value, list) and column.value else column
    try:
        return json.loads(found.of(str, "JSON as text"))
    except ValueError:
        raise found.fault("is not JSON as text") from None


def collect_rows(export, database):
    rows = database["obj_uuid_table"]
    names = {}
    for uuid in rows.of(dict, "an object"):
        if "fq_name" in rows[uuid].of(dict, "an object"):
            names[uuid] = decoded(rows[uuid]["fq_name"])
    for uuid in rows.value:
        row = rows[uuid]
        if "type" not in row.value or uuid not in names:
            export.nameless.append(uuid)
            continue
        made = {"uuid": uuid, "fq_name": names[uuid]}
        for column in row.value:
            add_column(made, column, row[column], names)
        export.add(str(decoded(row["type"])), Value(made, row.path))


def add_column(made, column, cell, names):
    """What a column of a row says, as the API says it."""
    kind, _, name = column.partition(":")
    name, _, rest = name.partition(":")
    if kind == "prop":
        made[name] = decoded(cell)
    elif kind == "propl":
        made.setdefault(name, []).append(decoded(cell))
    elif kind == "propm":
        made.setdefault(name, {"key_value_pair": []})["key_value_pair"].append(decoded(cell))
    elif kind == "ref":
        attr = decoded(cell)
        reference = {"uuid": rest, "to": names.get(rest, []), "attr": attr.get("attr") if isinstance(attr, dict) else None}
        made.setdefault(f"{name}_refs", []).append(reference)
    elif kind == "parent":
        made.update(parent_type=name.replace("_", "-"), parent_uuid=rest)


# the document ----------------------------------------------------------------------------------------------------------


class Names:
    """Names of the model, one for each object of a kind."""

    def __init__(self):
        self.given = collections.defaultdict(dict)
        self.changed = collections.defaultdict(list)

    def name(self, kind, key, wanted):
        """The name of an object, by its own full name."""
        given = self.given[kind]
        if key in given:
            return given[key]
        plain = re.sub("[^a-z0-9_-]+", "-", wanted.lower()).strip("-") or kind
        made = plain[:32]
        for place in itertools.count(2):
            if made not in given.values() and (kind, made) not in (("network", "any"), ("node", "config")):
                break
            made = f"{plain[:32 - len(str(place)) - 1]}-{place}"
        given[key] = made
        if made != wanted:
            self.changed[kind].append(key)
        return made


class Maker:
    """Makes the document, and lists what it does not say."""

    def __init__(self, export, number_of_as):
        self.export, self.number_of_as = export, number_of_as
        self.names, self.listed = Names(), {}
        self.nodes, self.places = {}, {}  # nodes by name; of a virtual machine its node
        self.networks, self.ids = {}, set()
        self.chains, self.services, self.service_of = {}, {}, {}
        self.next_use = 0

    def list(self, kind, said, what):
        self.listed.setdefault((kind, said), []).append(full(what) if isinstance(what, Value) else what)

    def document(self):
        topology = {"as": self.autonomous_system(), "controllers": self.controllers(), "nodes": []}
        self.routers()
        networks = self.all_networks()
        self.owners_of_services()
        ports = self.ports()
        policies = self.policies(networks)
        topology["nodes"] = self.listing(topology["controllers"])
        self.others()
        configuration = {"networks": networks, "ports": ports, "policies": policies,
                         "services": list(self.services.values()), "chains": list(self.chains.values())}
        self.bounds(topology, configuration)
        return {"topology": topology, "configuration": configuration}

    # nodes

    def autonomous_system(self):
        found = [number(it, "autonomous_system") for it in self.export.of("global-system-config")]
        found = [self.number_of_as or it for it in found if self.number_of_as or it] or [self.number_of_as]
        if found[0] is None:
            self.list("autonomous systems", "made, since the export has none", "64512")
            return 64512
        return found[0]

    def controllers(self):
        made = []
        for router in self.export.of("bgp-router"):
            parameters = part(router, "bgp_router_parameters")
            kind = text(parameters, "router_type") or text(parameters, "vendor")
            if kind not in ("control-node", "contrail"):
                self.list("bgp-router", "of another kind than control nodes, left out", router)
            elif ipv4(text(parameters, "address")) is None:
                self.list("bgp-router", "without an IPv4 address, left out", router)
            else:
                name = self.names.name("node", full(router), router.names[-1])
                made.append({"name": name, "address": text(parameters, "address")})
        if not made:
            self.list("control nodes", "made, since the export has none", "control")
            made = [{"name": self.names.name("node", "control node", "control"), "address": str(MADE + 65536)}]
        return made

    def node(self, name, address):
        """The name of a compute node, which is made where it is not there yet."""
        if name not in self.nodes:
            made = self.names.name("node", f"virtual router {name}", name)
            if ipv4(address) is None:
                address = str(MADE + len(self.nodes))
                self.list("compute nodes", "whose address was made, since the export has none", name)
            self.nodes[name] = {"name": made, "address": address, "controllers": []}
        return self.nodes[name]["name"]

    def routers(self):
        for router in self.export.of("virtual-router"):
            self.node(router.names[-1], text(router, "virtual_router_ip_address"))
            for reference in several(router, "virtual_machine_refs"):
                for key in (text(reference, "uuid"), ":".join(names_of(reference))):
                    self.places[key] = router.names[-1]

    def listing(self, controllers):
        """The compute nodes, each with two control nodes in its turn: the API does not have which they are."""
        if not self.nodes:
            self.list("compute nodes", "made, since the export has none", "compute")
            self.node("compute", "")
        taken = {it["address"] for it in self.nodes.values()}
        for place, it in enumerate(controllers):
            if it["address"] in taken:
                self.list("control nodes", "on the machine of a compute node, whose address there was made", it["name"])
                it["address"] = str(MADE + 65536 + place)
        names = [it["name"] for it in controllers]
        for place, node in enumerate(self.nodes.values()):
            first = place % len(names)
            node["controllers"] = list(dict.fromkeys([names[first], names[(first + 1) % len(names)]]))
        if len(names) > 1:
            said = "whose two control nodes were chosen in turn, since the export has not which they are"
            for name in self.nodes:
                self.list("compute nodes", said, name)
        return list(self.nodes.values())

    def place_of(self, interface):
        """The compute node of an interface, or None."""
        for reference in several(interface, "virtual_machine_refs"):
            for key in (text(reference, "uuid"), ":".join(names_of(reference))):
                if key in self.places:
                    return self.node(self.places[key], "")
        pairs = several(part(interface, "virtual_machine_interface_bindings"), "key_value_pair")
        host = next((text(it, "value") for it in pairs if text(it, "key") == "host_id"), "")
        if host and host not in self.nodes:
            host = next((name for name in self.nodes if name.split(".")[0] == host.split(".")[0]), host)
        if not host and not self.export.of("virtual-router"):
            said = "on no compute node, of which the export has none; one was made for them"
            self.list("virtual-machine-interface", said, interface)
            host = "compute"
        return self.node(host, "") if host else None

    # networks

    def all_networks(self):
        found = [it for it in self.export.of("virtual-network") if self.is_taken(it)]
        wanted = collections.Counter(number(it, "virtual_network_network_id") for it in found)
        self.ids = {it for it in wanted if it is not None and 1 <= it <= 16383 and wanted[it] == 1}
        return [self.network(it) for it in found]

    def is_taken(self, network):
        properties = part(network, "virtual_network_properties")
        if network.names[-1] in SYSTEM and network.names[:2] == ("default-domain", "default-project"):
            self.list("virtual-network", "of the system itself, left out", network)
            return False
        if text(properties, "forwarding_mode") == "l2":
            self.list("virtual-network", "of layer 2 alone, left out", network)
            return False
        for name, said in (("allow_transit", "transit"), ("mirror_destination", "mirrors to it"), ("rpf", "reverse path checks")):
            if is_said(properties.of(dict, "an object").get(name)) and properties.value[name] != "enable":
                self.list("virtual-network", f"with {said}, which the model has not", network)
        for name in ("route_target_list", "import_route_target_list", "export_route_target_list"):
            if several(part(network, name), "route_target"):
                self.list("virtual-network", "with route targets of its own, which the model has not", network)
        return True

    def network(self, network):
        wanted = number(network, "virtual_network_network_id")
        if wanted not in self.ids:
            wanted = next(it for it in itertools.count(1) if it not in self.ids)
            self.ids.add(wanted)
        name = self.names.name("network", full(network), network.names[-1])
        made = {"name": name, "id": wanted, "subnets": self.subnets(network), "policies": []}
        self.networks[network.path] = self.networks[full(network)] = made
        return made

    def subnets(self, network):
        found = []
        for reference in several(network, "network_ipam_refs"):
            own = several(part(reference, "attr"), "ipam_subnets")
            ipam = self.export.found("network-ipam", reference)
            if ipam is not None and text(ipam, "ipam_subnet_method") == "flat-subnet":
                own = own + several(part(ipam, "ipam_subnets"), "subnets")
            for it in own:
                found += self.subnet(network, it)
        if not found:
            self.list("virtual-network", "without a subnet of IPv4", network)
        return list(dict.fromkeys(found))

    def subnet(self, network, value):
        inside = part(value, "subnet")
        address, length = text(inside, "ip_prefix"), number(inside, "ip_prefix_len")
        if not address:
            return []
        if ":" in address:
            self.list("subnets", "of IPv6, which the model has not", f"{full(network)} {address}/{length}")
            return []
        if is_said(value.of(dict, "an object").get("host_routes")):
            self.list("subnets", "with host routes, which the model has not", f"{full(network)} {address}/{length}")
        try:
            return [str(ipaddress.IPv4Network(f"{address}/{length}", strict=False))]
        except ValueError:
            raise inside.fault(f"is no prefix: {address}/{length}") from None

    def network_of(self, value):
        """The network of the document that an object refers to first, or None."""
        found = self.export.targets(value, "virtual-network")
        return self.networks.get(found[0].path) if found else None

    # ports

    def addresses(self):
        """Of each interface, by its path, its addresses of IPv4."""
        found, seen = collections.defaultdict(list), {}
        for it in self.export.of("instance-ip"):
            address = text(it, "instance_ip_address")
            owners = self.export.targets(it, "virtual-machine-interface")
            if ipv4(address) is None:
                said = "of IPv6, which the model has not" if ":" in address else "without an address, left out"
                self.list("instance-ip", said, it)
            elif not owners:
                self.list("instance-ip", "of no interface in the export, left out", it)
            elif is_said(it.of(dict, "an object").get("instance_ip_secondary")):
                self.list("instance-ip", "that are second ones, which the model has not", it)
            else:
                if len(owners) > 1:
                    self.list("instance-ip", "of several interfaces, of which the first has it (shared addresses)", it)
                found[owners[0].path].append(address)
        return found

    def owners_of_services(self):
        """Of each interface of a service, by its path, the service instance."""
        for it in self.export.of("virtual-machine-interface"):
            tuples = self.export.targets(it, "port-tuple")
            owner = self.export.by_uuid.get(("service-instance", text(tuples[0], "parent_uuid"))) if tuples else None
            if tuples and owner is None:
                owner = self.export.by_name.get(("service-instance", tuples[0].names[:-1]))
            for machine in self.export.targets(it, "virtual-machine"):
                owner = owner or next(iter(self.export.targets(machine, "service-instance")), None)
            if owner is not None:
                self.service_of[it.path] = owner

    def ports(self):
        made, addresses, taken = [], self.addresses(), set()
        for it in self.export.of("virtual-machine-interface"):
            said = self.why_no_port(it, addresses[it.path])
            if said:
                self.list("virtual-machine-interface", f"{said}, left out", it)
                continue
            network, address = self.network_of(it), addresses[it.path][0]
            if (network["name"], address) in taken:
                self.list("virtual-machine-interface", "with the address of an earlier one in its network, left out", it)
                continue
            taken.add((network["name"], address))
            if len(addresses[it.path]) > 1:
                self.list("virtual-machine-interface", "with several addresses, of which the first is taken", it)
            if len(several(it, "virtual_network_refs")) > 1:
                self.list("virtual-machine-interface", "in several networks, of which the first is taken", it)
            wanted = text(it, "display_name") or it.names[-1]
            wanted = f"port-{wanted[:8]}" if re.fullmatch("[0-9a-f]{8}(-[0-9a-f]{4}){3}-[0-9a-f]{12}", wanted) else wanted
            name = self.names.name("port", f"{full(it)}", wanted)
            made.append({"name": name, "id": len(made) + 1, "network": network["name"], "address": address,
                         "node": self.place_of(it)})
            self.interface(it)
        return made

    def why_no_port(self, it, addresses):
        kind = text(part(it, "virtual_machine_interface_properties"), "service_interface_type")
        if it.path in self.service_of:
            return "of a service, which has circuits of its own in the model"
        if kind:
            return f"of a service that is not in the export ({kind})"
        if self.network_of(it) is None:
            return "in a network that is not in the document"
        if not addresses:
            return "without an address of IPv4 in the export"
        return "" if self.place_of(it) else "on no compute node in the export"

    def interface(self, it):
        properties = part(it, "virtual_machine_interface_properties")
        for name, said in (("sub_interface_vlan_tag", "a VLAN tag"), ("local_preference", "a preference"),
                           ("interface_mirror", "mirrors")):
            if is_said(properties.of(dict, "an object").get(name)):
                self.list("virtual-machine-interface", f"with {said}, which the model has not", it)

    # policies and services

    def policies(self, networks):
        attached = collections.defaultdict(list)  # of a policy's path, its networks with the sequence there
        for network in self.export.of("virtual-network"):
            if network.path not in self.networks:
                continue
            for reference in several(network, "network_policy_refs"):
                policy = self.export.found("network-policy", reference)
                if policy is None:
                    self.list("virtual-network", "with a policy that is not in the export", network)
                    continue
                attr = part(reference, "attr")
                if is_said(attr.of(dict, "an object").get("timer")):
                    self.list("virtual-network", "with a policy of certain times, which the model has not", network)
                order = part(attr, "sequence")
                place = (number(order, "major") or 0, number(order, "minor") or 0)
                attached[policy.path].append((place, self.networks[network.path]))
        first = {path: min(place for place, _ in there) for path, there in attached.items()}
        found = sorted(self.export.of("network-policy"), key=lambda it: first.get(it.path, (1 << 31, 0)))
        made = []
        for policy in found:
            if not attached[policy.path]:
                self.list("network-policy", "that no network attaches", policy)
            name = self.names.name("policy", full(policy), policy.names[-1])
            for _, network in attached[policy.path]:
                network["policies"].append(name)
            made.append({"name": name, "sequence": 10 * len(made) + 10,
                         "rules": self.rules(policy, [network["name"] for _, network in attached[policy.path]])})
        self.orders(attached, found)
        return made

    def orders(self, attached, found):
        """Lists networks that try their policies in another order than the one order of the document, or several at once."""
        places = collections.defaultdict(list)
        for policy in found:
            for place, network in attached[policy.path]:
                places[network["name"]].append(place)
        for name, order in places.items():
            if any(a > b for a, b in zip(order, order[1:])):
                self.list("networks", "that try policies in another order than others do; the model has one order for all", name)
            if len(set(order)) < len(order):
                self.list("networks", "with policies of equal sequence, which the document puts in an order", name)

    def rules(self, policy, attached):
        made = []
        for place, rule in enumerate(several(part(policy, "network_policy_entries"), "policy_rule"), 1):
            where = f"{full(policy)} rule {place}"
            self.said_by_rule(rule, where)
            protocol = self.protocol(rule, where)
            action = self.action(rule, where)
            sides = [self.side(rule, f"{side}_addresses", attached, where) for side in ("src", "dst")]
            if protocol is None or action is None:
                continue
            for source, target in itertools.product(*sides):
                made += self.rules_between(rule, where, protocol, action, source, target)
        return made

    def rules_between(self, rule, where, protocol, action, source, target):
        if action["action"] == "chain" and "any" in (source, target):
            self.list("rules", "with services between networks that are not named, left out", where)
            return []
        if source == target != "any":
            self.list("rules", "within one network, where the model asks no policy, left out", where)
            return []
        made = []
        for source_ports, target_ports in itertools.product(self.ranges(rule, "src_ports"), self.ranges(rule, "dst_ports")):
            if protocol == 1 and (source_ports != ALL or target_ports != ALL):
                self.list("rules", "with ICMP types, which the model has not, left out", where)
                continue
            use = {}
            if action["action"] == "chain":
                use = {"use": self.next_use}
                self.next_use += 1
            made.append({"direction": text(rule, "direction") or "<>", "source": source, "destination": target,
                         "protocol": protocol, "source_ports": source_ports, "destination_ports": target_ports, **action, **use})
        return made

    def said_by_rule(self, rule, where):
        """Lists what the model has not of a rule that it has otherwise."""
        if text(rule, "direction", "<>") not in ("<>", ">"):
            raise rule["direction"].fault("is neither > nor <>")
        read = {"rule_sequence", "rule_uuid", "direction", "protocol", "src_addresses", "dst_addresses", "src_ports", "dst_ports",
                "action_list", "ethertype", "created", "last_modified"}
        for name in rule.value:
            if name not in read and is_said(rule.value[name]):
                self.list("rules", f"with `{name}`, which the model has not", where)
        actions = part(rule, "action_list")
        for name in actions.value:
            if name not in ("simple_action", "apply_service") and is_said(actions.value[name]):
                self.list("rules", f"with the action `{name}`, which the model has not", where)

    def protocol(self, rule, where):
        word = text(rule, "protocol", "any").lower()
        if text(rule, "ethertype").lower() == "ipv6" or word in ("icmp6", "icmpv6", "58"):
            return self.list("rules", "of IPv6, which the model has not, left out", where)
        if word in PROTOCOLS:
            return PROTOCOLS[word]
        if re.fullmatch("[0-9]{1,3}", word) and int(word) <= 255:
            return int(word)
        return self.list("rules", f"of the protocol `{word}`, which is not known here, left out", where)

    def action(self, rule, where):
        actions = part(rule, "action_list")
        services = [it.of(str, "a text") for it in several(actions, "apply_service")]
        if services:
            named = [self.service(it, where) for it in services]
            return None if None in named else {"action": "chain", "chain": self.chain(named)}
        word = text(actions, "simple_action")
        if word in ("pass", "deny"):
            return {"action": word}
        return self.list("rules", f"that neither pass nor deny{f', but `{word}`' if word else ''}, left out", where)

    def side(self, rule, name, attached, where):
        """The networks that a side of a rule names."""
        if not several(rule, name):
            self.list("rules", f"without {name}, left out", where)
        return [end for it in several(rule, name) for end in self.ends(it, attached, where)]

    def ends(self, value, attached, where):
        """The networks that an address of a rule names."""
        for name, said in (("subnet", "subnets"), ("subnet_list", "subnets"), ("security_group", "security groups"),
                           ("network_policy", "policies")):
            if is_said(value.of(dict, "an object").get(name)):
                self.list("rules", f"with {said} as ends, which the model has not, left out", where)
                return []
        word = text(value, "virtual_network")
        if word == "any":
            return ["any"]
        if word == "local":
            if not attached:
                self.list("rules", "of the network that attaches them, which none does, left out", where)
            return attached
        if word in self.networks:
            return [self.networks[word]["name"]]
        self.list("rules", "with a network that is not in the document, left out", f"{where} {word}")
        return []

    def ranges(self, rule, name):
        made = []
        for it in several(rule, name):
            low, high = number(it, "start_port"), number(it, "end_port")
            low, high = (-1 if low is None else low), (-1 if high is None else high)
            if low == -1:
                made.append(ALL)
            elif 0 <= low <= (low if high == -1 else high) <= 65535:
                made.append([low, low if high == -1 else high])
            else:
                raise it.fault(f"is no range of ports: {low} to {high}")
        return made or [ALL]

    def chain(self, services):
        key = tuple(services)
        if key not in self.chains:
            # chains and services have names of one namespace
            name = self.names.name("service", "chain of " + ", ".join(services), "chain-" + "-".join(services))
            self.chains[key] = {"name": name, "hops": services}
        return self.chains[key]["name"]

    def service(self, word, where):
        """The name of a service, which comes into the document where a rule leads to it first."""
        value = self.export.by_name.get(("service-instance", tuple(word.split(":"))))
        if value is None:
            return self.list("rules", "with a service instance that is not in the export, left out", f"{where} {word}")
        if word not in self.services:
            name = self.names.name("service", word, value.names[-1])
            self.services[word] = {"name": name, "id": len(self.services), "node": self.place_of_service(value)}
            self.service_said(value)
        return self.services[word]["name"]

    def place_of_service(self, value):
        interfaces = [it for it in self.export.of("virtual-machine-interface") if self.service_of.get(it.path) is value]
        machines = {full(machine) for it in interfaces for machine in self.export.targets(it, "virtual-machine")}
        if len(machines) > 1:
            self.list("service-instance", "with several virtual machines, of which the first says where it is", value)
        found = next(filter(None, map(self.place_of, interfaces)), None)
        if found is None:
            found = next(iter(self.nodes.values()))["name"] if self.nodes else self.node("compute", "")
            self.list("service-instance", "on no compute node in the export; the first has it", value)
        return found

    def service_said(self, value):
        for template in self.export.targets(value, "service-template"):
            properties = part(template, "service_template_properties")
            if text(properties, "service_mode") == "in-network-nat":
                self.list("service-instance", "that translate addresses (NAT), which the model has not", value)
            if text(properties, "service_type") not in ("", "firewall"):
                self.list("service-instance", f"of the type {text(properties, 'service_type')}, in the model as any other", value)
        properties = part(value, "service_instance_properties")
        for it in several(properties, "interface_list"):
            if is_said(it.of(dict, "an object").get("static_routes")):
                self.list("service-instance", "with static routes, which the model has not", value)

    # what is listed

    def others(self):
        """Lists what the export has beside what is read: types, and members of objects that are read."""
        for uuid in self.export.nameless:
            self.list("rows of the database", "without a type or a name, left out", uuid)
        used = {full(it) for it in self.export.of("service-instance") if full(it) in self.services}
        for it in self.export.of("service-instance"):
            if full(it) not in used:
                self.list("service-instance", "to which no rule leads, left out", it)
        for kind, values in self.export.by_type.items():
            for it in values:
                if kind not in READ:
                    said = "derived by the system or without packets" if kind in DERIVED else "which the model has not, left out"
                    self.list(kind, said, it)
                elif READ[kind] is not None:
                    self.members(kind, it)
        for kind, keys in self.names.changed.items():
            for key in keys:
                self.list("names", f"of the kind {kind} that were spelled in another way", key)

    def members(self, kind, value):
        for name in value.value:
            known = name in SILENT or name in READ[kind] or name.endswith("_back_refs") and name not in WORDS
            if not known and is_said(value.value[name]):
                self.list(kind, f"with {WORDS.get(name, f'`{name}`')}, which the model has not", value)

    def bounds(self, topology, configuration):
        """Lists where the document is over a limit of the model."""
        for name, most in LIMITS.items():
            count = len({**topology, **configuration}[name])
            if count > most:
                self.list("limits", f"of the model passed: it has {most} {name}", f"{count} in the document")
        for name, members, most in (("networks", "subnets", 4), ("networks", "policies", 4), ("policies", "rules", 16)):
            for it in configuration[name]:
                if len(it[members]) > most:
                    self.list("limits", f"of the model passed: {members} are at most {most}", f"{it['name']} {len(it[members])}")


def full(value):
    return ":".join(value.names)


def ipv4(word):
    try:
        return ipaddress.IPv4Address(word)
    except ValueError:
        return None


def lines_of(listed):
    """What is listed, kind by kind."""
    for (kind, said), what in sorted(listed.items()):
        some = list(dict.fromkeys(what))
        shown = ", ".join(some[:3]) + (", .." if len(some) > 3 else "")
        yield f"{kind}: {len(some)} {said} ({shown})"


def read_file(export, path):
    name = "standard input" if path == "-" else path
    try:
        octets = sys.stdin.buffer.read() if path == "-" else open(path, "rb").read()
        value = json.loads(octets.decode())
    except UnicodeDecodeError as fault:
        raise Fault(name, f"no UTF-8 at octet {fault.start}") from None
    except (ValueError, RecursionError) as fault:
        raise Fault(name, f"no JSON: {fault}") from None
    try:
        collect(export, Value(value))
    except Fault as fault:
        raise Fault(name, fault) from None
    for values in export.by_type.values():
        for it in values:
            if not it.path.startswith(f"{name}: "):
                it.path = f"{name}: {it.path}"


def main(words):
    if "--help" in words or "-h" in words:
        print(__doc__.strip())
        return 0
    options = {}
    for option in ("--as", "--names"):
        if option in words[:-1]:
            place = words.index(option)
            options[option] = words[place + 1]
            words = words[:place] + words[place + 2:]
    if not words or any(it.startswith("--") for it in words) or not re.fullmatch("[0-9]{1,10}", options.get("--as", "1")):
        print(__doc__.split("\n\n")[1], file=sys.stderr)
        return 2
    try:
        export = Export()
        for path in words:
            read_file(export, path)
        maker = Maker(export, int(options["--as"]) if "--as" in options else None)
        document = maker.document()
        if "--names" in options:
            with open(options["--names"], "w", encoding="utf-8") as target:
                json.dump(maker.names.given, target, indent=1, sort_keys=True)
                target.write("\n")
        sys.stdout.write(spelled(document))
        sys.stderr.writelines(f"{line}\n" for line in lines_of(maker.listed))
    except OSError as fault:
        print(f"{fault.filename}: {fault.strerror}", file=sys.stderr)
        return 1
    except Fault as fault:
        print(fault, file=sys.stderr)
        return 1
    return 0


if __name__ == "__main__":
    signal.signal(signal.SIGPIPE, signal.SIG_DFL)  # for who reads the first lines alone
    sys.exit(main(sys.argv[1:]))
