#!/usr/bin/env python3
"""What a lookup of a route and a verdict on a packet cost.

Lays a test that takes times into a copy of `ov_types`, `vrouter_fib` and `flow_acl`, has `rt test` prove and run it, and
prints its lines: of tables of 1, 100 and 10,000 routes a lookup in the trie, and beside it a walk over all routes; of access
lists of 16 and 2,048 entries, of which none holds the packet, a verdict from the lists, one of a flow that is kept, and one
of a new flow. Each is the mean of 200,000 calls (2,000 of the walk over 10,000 routes), in nanoseconds.

usage: bench/forward.py

What earlier checks kept in the crates' out/ is copied too. Needs Python 3.8, Linux, and `rt`.
"""
import os
import re
import shutil
import subprocess
import sys
import tempfile

TOP = os.path.dirname(os.path.dirname(os.path.abspath(__file__)))
BELOW = ["ov_types", "vrouter_fib", "flow_acl"]
CRATES = """ov_types: arrayvec thiserror
vrouter_fib: ov_types
flow_acl: ov_types lru
forward_bench: vrouter_fib flow_acl ov_types
"""
FILES = {
    "src/lib.rt": """//! Times of lookups and verdicts.
#![tactic(auto)]

#[cfg(test)]
mod times;
""",
    "src/times.rt": """ghost use Rattle.flow_acl.specs.Flows.{AreOf};

use flow_acl::{Acls, FlowCache, evaluate};
use ov_types::{
    AclAction, AclRule, Addr, Entry, InstanceId, Items, Label, LowValue, Packet, PortNo, Prefix,
    Range16, RuleNo, Tuple, Verdict,
};
use std::alloc::Global;
use std::collections::BTreeMap;
use std::process::Abort;
use std::time::Instant;
use vrouter_fib::Fib;

const ROUNDS: u32 = 200_000;

fn entry(label: u32) -> Entry {
    Entry { next_hop: Addr(0xc000_020b), label: Label(label) }
}

/// The first address of each /24 from 10.0.0.0 on.
fn nth(at: u32) -> Prefix {
    let addr = 0x0a00_0000u32.wrapping_add((at % 65_536).wrapping_mul(256));
    match Prefix::new(Addr(addr / 256 * 256), 24) {
        Some(prefix) => prefix,
        None => Prefix::host(Addr(addr)),
    }
}

fn walked(routes: &BTreeMap<Prefix, Entry>, addr: Addr) -> Option<Entry> {
    let mut best: Option<(Prefix, Entry)> = None;
    for (prefix, entry) in routes.iter() {
        if prefix.contains(addr) {
            best = match best {
                Some(first) if first.0.len() >= prefix.len() => Some(first),
                _ => Some((*prefix, *entry)),
            };
        }
    }
    best.map(|route: (Prefix, Entry)| route.1)
}

fn fill(rt: &impl Abort, fib: &mut Fib, map: &mut BTreeMap<Prefix, Entry>, routes: u32) {
    for at in 0..routes {
        fib.set(nth(at), entry(at)).expect(rt, "memory");
        let added: Result<_, _> = map.insert(nth(at), entry(at));
        assert!(rt; added.is_ok());
    }
}

fn at_of(round: u32, routes: u32) -> u32 {
    let at = round.wrapping_mul(7919).checked_rem(routes).unwrap_or(0);
    0x0a00_0009u32.wrapping_add(at.wrapping_mul(256))
}

fn by_trie(fib: &Fib, routes: u32, rounds: u32) -> u32 {
    let mut sum = 0u32;
    for round in 0..rounds {
        let addr = Addr(at_of(round, routes));
        if let Some(found) = fib.lookup(addr) {
            sum = sum.wrapping_add(found.label.0);
        }
    }
    sum
}

fn by_walk(map: &BTreeMap<Prefix, Entry>, routes: u32, rounds: u32) -> u32 {
    let mut sum = 0u32;
    for round in 0..rounds {
        let addr = Addr(at_of(round, routes));
        if let Some(found) = walked(map, addr) {
            sum = sum.wrapping_add(found.label.0);
        }
    }
    sum
}

fn acls_of(rt: &impl Abort, alloc: Global, entries: u32) -> Acls {
    let mut rules = Items::new(alloc);
    for at in 0..entries {
        rules.push(AclRule {
            protocol: Some(17),
            sports: Range16 { lo: 0, hi: 65_535 },
            dports: Range16 { lo: 0, hi: 65_535 },
            action: AclAction::Pass,
            rule: RuleNo { sequence: 1, position: (at % 65_000) as u16 },
        }).expect(rt, "memory");
    }
    let mut subnets = Items::new(alloc);
    subnets.push(nth(0)).expect(rt, "memory");
    let mut acls = Acls::new(alloc);
    acls.set(InstanceId(1), InstanceId(2), LowValue::Acl { subnets, rules }).expect(rt, "memory");
    acls
}

fn packet(host: u32) -> Packet {
    Packet {
        source: PortNo(1),
        destination: Addr(0x0a00_0000 + (host & 0xff)),
        tuple: Tuple { proto: 6, sport: (host >> 8 & 0xffff) as u16, dport: 80 },
    }
}

fn plainly(acls: &Acls) -> u32 {
    let mut denied = 0u32;
    for _ in 0..ROUNDS {
        if evaluate(acls, InstanceId(1), &packet(5)) == Verdict::Pass {
            denied = denied.wrapping_add(1);
        }
    }
    denied
}

fn one(flows: &mut FlowCache, acls: &Acls, host: u32) -> u32
    requires { AreOf acls.now flows.old }
    ensures { AreOf acls.now flows.new }
{
    if flows.verdict(acls, InstanceId(1), &packet(host)) == Verdict::Pass {
        1
    } else {
        0
    }
}

fn kept(flows: &mut FlowCache, acls: &Acls, mask: u32) -> u32
    requires { AreOf acls.now flows.old }
    ensures { AreOf acls.now flows.new }
{
    let mut denied = 0u32;
    for round in 0..ROUNDS {
        denied = denied.wrapping_add(one(flows, acls, round & mask));
    }
    denied
}

#[test]
fn times(rt: HostRuntime) {
    for routes in [1u32, 100, 10_000] {
        let mut fib = Fib::new(rt.alloc());
        let mut map = BTreeMap::new(rt.alloc());
        fill(&rt, &mut fib, &mut map, routes);
        let rounds = if routes > 1000 { 2_000 } else { ROUNDS };
        let start = Instant::now(&rt).expect(&rt, "a clock");
        let sum = by_trie(&fib, routes, ROUNDS);
        let trie = start.elapsed(&rt).expect(&rt, "a clock");
        let start = Instant::now(&rt).expect(&rt, "a clock");
        let other = by_walk(&map, routes, rounds);
        let walk = start.elapsed(&rt).expect(&rt, "a clock");
        let trie_ns = trie.as_micros() * 1000 / u128::from(ROUNDS);
        let walk_ns = walk.as_micros() * 1000 / u128::from(rounds);
        println!(rt; "routes {routes} trie {trie_ns} ns walk {walk_ns} ns {sum} {other}").expect(&rt, "output");
    }
    for entries in [16u32, 2048] {
        let acls = acls_of(&rt, rt.alloc(), entries);
        let mut flows = FlowCache::new(rt.alloc()).expect(&rt, "memory");
        let start = Instant::now(&rt).expect(&rt, "a clock");
        let first = plainly(&acls);
        let plain = start.elapsed(&rt).expect(&rt, "a clock");
        let start = Instant::now(&rt).expect(&rt, "a clock");
        let second = kept(&mut flows, &acls, 0xff);
        let hit = start.elapsed(&rt).expect(&rt, "a clock");
        let start = Instant::now(&rt).expect(&rt, "a clock");
        let third = kept(&mut flows, &acls, 0xfff_ffff);
        let miss = start.elapsed(&rt).expect(&rt, "a clock");
        let plain_ns = plain.as_micros() * 1000 / u128::from(ROUNDS);
        let hit_ns = hit.as_micros() * 1000 / u128::from(ROUNDS);
        let miss_ns = miss.as_micros() * 1000 / u128::from(ROUNDS);
        println!(rt; "entries {entries} evaluate {plain_ns} ns hit {hit_ns} ns new {miss_ns} ns {first} {second} {third}").expect(&rt, "output");
    }
}
""",
    "proofs/times/kept/Invariants.antt": """use Rattle.std.proofs.Common.{◌≡◌}
use Rattle.flow_acl.specs.Flows.{AreOf}
use Rattle.forward_bench.proofs.times.kept.Given as goal

abbrev pub invariant-loop-round : goal.invariant-loop-round
invariant-loop-round l = AreOf l.acls l.flows
""",
}


def lay(room):
    """The crates below, and the one with the test."""
    for name in BELOW:
        shutil.copytree(f"{TOP}/crates/{name}", f"{room}/crates/{name}")
    for name, text in FILES.items():
        path = f"{room}/crates/forward_bench/{name}"
        os.makedirs(os.path.dirname(path), exist_ok=True)
        with open(path, "w", encoding="utf-8") as file:
            file.write(text)
    with open(f"{room}/crates.txt", "w", encoding="utf-8") as file:
        file.write(CRATES)
    shutil.copy(f"{TOP}/HANDLES", room)
    os.mkdir(f"{room}/.git")  # (it is the top of a repository)


def main():
    with tempfile.TemporaryDirectory(prefix="forward-") as room:
        lay(room)
        ran = subprocess.run(["rt", "test"], cwd=f"{room}/crates/forward_bench", capture_output=True, text=True, check=False)
        said = ran.stdout + ran.stderr
        lines = re.findall(r"^ *((?:routes|entries) .*)$", said, re.M)
        print("\n".join(lines) if lines else said)
        return ran.returncode


if __name__ == "__main__":
    sys.exit(main())
