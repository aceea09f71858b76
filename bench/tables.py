#!/usr/bin/env python3
"""What a change costs a control node's tables, and what all of their rows do, by an unproved build.

Lays a program into a copy of `vpn_tables` and the crates below it and builds it by `tools/build_unproved.py`: the same code as the
gate proves, with all its checks, at -O1, of which nothing is proved. Of so many ports on so many networks, half of the ports told
by an agent and half by a peer, it prints the processor time of

- a change of a peer's route, which withdraws it or tells it again (`set_peer_route_counted`), where no network imports another
  (one row is touched), and where all import each other (a row of each is);
- all rows, from nothing, where all networks import each other: each network is told before the ports, or behind them;
- a row, and the drop of the peer's session.

Each is the user time of a run less that of a run without it, the least of so many runs.

usage: bench/tables.py [--runs N] [PROGRAM]

With PROGRAM a program that this script built before is run, or is built there where no file is. Needs Python 3.8, Linux, `rt`, and
what `tools/build_unproved.py` needs.
"""
import argparse
import os
import shutil
import subprocess
import sys
import tempfile

TOP = os.path.dirname(os.path.dirname(os.path.abspath(__file__)))
sys.path.insert(0, os.path.join(TOP, "tools"))
import build_unproved  # noqa: E402

MAIN = """//! Changes of tables, as many as standard input says.
#![tactic(auto)]

use ov_sync::Delta;
use ov_types::{
    Addr, InstanceId, Items, Label, LowKey, LowValue, NoMemory, Prefix, Rd, Targets, UpKey, VpnKey,
    VpnRoute,
};
use path_select::Steps;
use route_targets::target;
use std::alloc::Global;
use std::io;
use std::marker::Brand;
use std::sync::ledger::{Blank, Ledger};
use vpn_tables::VpnTables;

const ASN: u32 = 64512;

/// How many ports and networks there are, of which each imports all or itself, and what is done.
#[derive(Clone, Copy)]
struct Load {
    ports: u32,
    networks: u16,
    are_related: bool,
    networks_last: bool,
    changes: u32,
    rows: u32,
    loses: bool,
}

fn network(alloc: Global, load: &Load, number: u16) -> Result<LowValue, NoMemory> {
    let mut imports = Vec::new(alloc);
    for other in 1..=load.networks {
        if load.are_related || other == number {
            imports.push(InstanceId(other))?;
        }
    }
    Ok(LowValue::Instance { imports: Items::from_vec(imports) })
}

fn host(port: u32) -> Prefix {
    Prefix::host(Addr(0x0a00_0000u32.wrapping_add(port)))
}

fn network_of(port: u32, load: &Load) -> InstanceId {
    InstanceId((1 + port / 2 % u32::from(load.networks)) as u16)
}

fn key(port: u32, load: &Load) -> VpnKey {
    let rd = Rd(0x0001_c000_020c_0000u64.wrapping_add(u64::from(network_of(port, load).0)));
    VpnKey { rd, prefix: host(port) }
}

fn route(alloc: Global, port: u32, load: &Load) -> Result<VpnRoute, NoMemory> {
    let mut targets = Targets::new(alloc);
    targets.insert(target(ASN, network_of(port, load)))?;
    Ok(VpnRoute { next_hop: Addr(0xc000_020c), label: Label(16u32.wrapping_add(port)), targets })
}

fn tell_networks(alloc: Global, tables: &mut VpnTables, load: &Load) -> Result<(), NoMemory> {
    for number in 1..=load.networks {
        tables.set_low(Delta::Put(LowKey::Instance(number), network(alloc, load, number)?))?;
    }
    Ok(())
}

fn tell_ports(alloc: Global, tables: &mut VpnTables, load: &Load) -> Result<(), NoMemory> {
    tables.set_agent(2, Addr(0xc000_020b))?;
    for port in 0..load.ports {
        if port % 2 == 0 {
            let told = UpKey::Publish(network_of(port, load), host(port));
            tables.set_publication(2, Delta::Put(told, Label(16u32.wrapping_add(port))))?;
        } else {
            tables.set_peer_route(1, Delta::Put(key(port, load), route(alloc, port, load)?))?;
        }
    }
    Ok(())
}

fn fill(alloc: Global, tables: &mut VpnTables, load: &Load) -> Result<(), NoMemory> {
    if load.networks_last {
        tell_ports(alloc, tables, load)?;
        return tell_networks(alloc, tables, load);
    }
    tell_networks(alloc, tables, load)?;
    tell_ports(alloc, tables, load)
}

fn change<L: Ledger>(
    alloc: Global,
    tables: &mut VpnTables,
    load: &Load,
    blank: Blank,
) -> Result<(), NoMemory> {
    let mut steps = Steps::<L>::new(blank);
    for round in 0..load.changes / 2 {
        let port = (round.wrapping_mul(14) % load.ports) | 1;
        tables.set_peer_route_counted(1, Delta::Drop(key(port, load)), &mut steps)?;
        let told = Delta::Put(key(port, load), route(alloc, port, load)?);
        tables.set_peer_route_counted(1, told, &mut steps)?;
    }
    Ok(())
}

fn ask(tables: &VpnTables, load: &Load) -> Result<u32, NoMemory> {
    let mut sum = 0u32;
    for round in 0..load.rows {
        let port = round.wrapping_mul(7) % load.ports;
        if let Some(row) = tables.row(network_of(port, load), &host(port))? {
            sum = sum.wrapping_add(row.label.0);
        }
    }
    Ok(sum)
}

fn play(alloc: Global, load: &Load) -> Result<(u32, usize), NoMemory> {
    let mut tables = VpnTables::new(alloc, ASN);
    fill(alloc, &mut tables, load)?;
    change::<Brand>(alloc, &mut tables, load, Blank::new(1))?;
    let sum = ask(&tables, load)?;
    if load.loses {
        tables.drop_session(1);
    }
    let rows = tables.table(InstanceId(load.networks))?;
    Ok((sum, rows.len()))
}

fn number(word: Option<&str>) -> u32 {
    match word {
        Some(word) => word.parse().unwrap_or(0),
        None => 0,
    }
}

fn load_of(text: &str) -> Load {
    let mut words = text.split_whitespace();
    Load {
        ports: number(words.next()),
        networks: number(words.next()) as u16,
        are_related: number(words.next()) == 1,
        networks_last: number(words.next()) == 1,
        changes: number(words.next()),
        rows: number(words.next()),
        loses: number(words.next()) == 1,
    }
}

fn main(rt: HostRuntime) -> io::Result<()> {
    let text = io::read_to_string(rt.alloc(), rt.stdin())?;
    match play(rt.alloc(), &load_of(text.as_str())) {
        Ok((sum, many)) => println!(rt; "{sum} {many}"),
        Err(_) => println!(rt; "no memory"),
    }
}
"""
# Ports, networks, how many import each other, and how many changes are timed.
CHANGES = [
    (64, 8, 1, 20000), (256, 8, 1, 20000), (1024, 8, 1, 20000), (1024, 128, 1, 20000),
    (64, 8, 8, 4000), (256, 8, 8, 4000), (1024, 8, 8, 4000), (1024, 128, 128, 400),
]
ALL = [(64, 8), (256, 32), (1024, 128)]
ROWS = 200000


def graph(top):
    lines = {}
    for line in open(f"{top}/crates.txt", encoding="utf-8"):
        line = line.split("#")[0].strip()
        if line:
            name, deps = line.split(":")
            lines[name.split()[0]] = (line, deps.split())
    return lines


def below(lines, name, found):
    if name in lines and name not in found:
        for dep in lines[name][1]:
            below(lines, dep, found)
        found.append(name)


def build(program):
    """Builds the program from a copy of the sources that it stands on."""
    lines = graph(TOP)
    crates = []
    below(lines, "vpn_tables", crates)
    with tempfile.TemporaryDirectory(prefix="tables-bench-") as top:
        for name in crates:
            shutil.copytree(f"{TOP}/crates/{name}", f"{top}/crates/{name}",
                            ignore=shutil.ignore_patterns(*build_unproved.LEFT_OUT))
        os.makedirs(f"{top}/crates/tables_bench/src")
        with open(f"{top}/crates/tables_bench/src/main.rt", "w", encoding="utf-8") as out:
            out.write(MAIN)
        shutil.copy(f"{TOP}/HANDLES", top)
        with open(f"{top}/crates.txt", "w", encoding="utf-8") as out:
            for name in crates:
                out.write(lines[name][0] + "\n")
            out.write("tables_bench: " + " ".join(reversed(crates)) + "\n")
        build_unproved.build(build_unproved.kit_of_path(), f"{top}/crates/tables_bench", program)


def seconds(program, words):
    """The user time of a run, and what it printed."""
    child = subprocess.Popen([program], stdin=subprocess.PIPE, stdout=subprocess.PIPE, text=True)
    child.stdin.write(" ".join(map(str, words)))
    child.stdin.close()
    text = child.stdout.read().strip()
    _, status, usage = os.wait4(child.pid, 0)
    if status or not text or text == "no memory":
        sys.exit(f"tables.py: {' '.join(map(str, words))} ended with {status}: {text}")
    return usage.ru_utime, text


def least(program, runs, words):
    tried = [seconds(program, words) for _ in range(runs)]
    return min(it for it, _ in tried), tried[0][1]


def main():
    parser = argparse.ArgumentParser(description=__doc__, formatter_class=argparse.RawDescriptionHelpFormatter)
    parser.add_argument("--runs", type=int, default=5)
    parser.add_argument("program", nargs="?")
    options = parser.parse_args()
    with tempfile.TemporaryDirectory(prefix="tables-bench-") as room:
        program = os.path.abspath(options.program or f"{room}/tables")
        if not os.path.isfile(program):
            build(program)
        started, _ = least(program, options.runs, (0, 0, 0, 0, 0, 0, 0))
        for ports, networks, related, changes in CHANGES:
            at = (ports, networks, int(related > 1), 0)
            without, _ = least(program, options.runs, (*at, 0, 0, 0))
            with_them, _ = least(program, options.runs, (*at, changes, 0, 0))
            print(f"ports {ports} networks {networks}, {related} rows touched: a change {(with_them - without) / changes * 1e6:.2f} us",
                  flush=True)
        for ports, networks in ALL:
            for last in (0, 1):
                took, text = least(program, options.runs, (ports, networks, 1, last, 0, 0, 0))
                print(f"ports {ports} related networks {networks}, networks told {'last' if last else 'first'}: "
                      f"all rows, {text.split()[1]} of each, {took - started:.3f} s", flush=True)
            without, _ = least(program, options.runs, (ports, networks, 1, 0, 0, 0, 0))
            rows, _ = least(program, options.runs, (ports, networks, 1, 0, 0, ROWS, 0))
            lost, _ = least(program, options.runs, (ports, networks, 1, 0, 0, 0, 1))
            print(f"ports {ports} related networks {networks}: a row {(rows - without) / ROWS * 1e9:.0f} ns, "
                  f"a session lost {(lost - without) * 1e3:.1f} ms", flush=True)
    return 0


if __name__ == "__main__":
    sys.exit(main())
