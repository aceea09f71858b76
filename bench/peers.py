#!/usr/bin/env python3
"""What other readers of BGP messages take for the same messages, in the same run.

Makes UPDATEs by the formula of bench.py, of one route each and of twenty, runs each reader that is there on them, and prints a
table in Markdown: the octets read, processor time in seconds (user and system, the least of five runs), octets a second, peak
memory and size of the output, in millions of octets. It installs nothing; a reader that is missing is passed over, and named
below the table.

usage: bench/peers.py PROGRAM

PROGRAM is the built `overlay`. Needs Python 3.8, a C compiler as `cc`, and Debian's package time. The others are
- gobgp's library, by the program gobgp.go (Debian's golang-go and golang-github-osrg-gobgp-dev): a line of each route;
- tshark (Debian's tshark): the octets as TCP segments to port 179 in a file of packets, and `-V -O bgp`, the tree of each message;
- exabgp (Debian's exabgp): `--decode`, of no more digits than one argument holds, so of fewer octets.
"""
import os
import shutil
import struct
import subprocess
import sys
import tempfile

import bench

HERE = os.path.dirname(os.path.abspath(__file__))
OCTETS = 1_000_000
ARGUMENT_OCTETS = 60_000  # Linux takes an argument of 131,071 octets at most
SEGMENT = 1_400
GO_FOLDER = "/usr/share/gocode"  # where Debian puts libraries of Go
NEIGHBOR = """neighbor 127.0.0.1 {
    router-id 192.0.2.1; local-address 127.0.0.1; local-as 64512; peer-as 64512;
    family { ipv4 mpls-vpn; }
}
"""


def packets(octets):
    """A file of packets (pcap, of IPv4 alone) with these octets in TCP segments of one connection to port 179."""
    pieces = [struct.pack("<IHHiIII", 0xA1B2C3D4, 2, 4, 0, 0, 65_535, 101)]
    for at in range(0, len(octets), SEGMENT):
        data = octets[at:at + SEGMENT]
        segment = struct.pack(">HHIIBBHHH", 50_000, 179, 1 + at, 1, 5 << 4, 0x18, 65_535, 0, 0) + data
        hosts = bytes([192, 0, 2, 1, 192, 0, 2, 2])
        packet = struct.pack(">BBHHHBBH", 0x45, 0, 20 + len(segment), 0, 0, 64, 6, 0) + hosts + segment
        pieces.append(struct.pack("<IIII", at // SEGMENT, 0, len(packet), len(packet)) + packet)
    return b"".join(pieces)


def version(words, pick):
    """A word of the first line that a command prints of its version."""
    ran = subprocess.run(words, stdout=subprocess.PIPE, stderr=subprocess.STDOUT, errors="replace")
    lines = [line for line in ran.stdout.splitlines() if any(c.isdigit() for c in line)]
    return pick(lines[0]) if lines else "of unknown version"


def gobgp(folder):
    """The program over gobgp's library and its version, where Go and the library are there."""
    if not shutil.which("go") or not os.path.isdir(f"{GO_FOLDER}/src/github.com/osrg/gobgp"):
        return None
    built = f"{folder}/gobgp"
    how = {**os.environ, "GO111MODULE": "off", "GOPATH": GO_FOLDER, "GOFLAGS": "", "GOCACHE": f"{folder}/cache"}
    if subprocess.run(["go", "build", "-o", built, f"{HERE}/gobgp.go"], env=how).returncode:
        return None
    of = version(["dpkg-query", "-W", "-f=${Version}\n", "golang-github-osrg-gobgp-dev"], str.strip)
    return built, f"gobgp's library {of}, a line of each route"


def readers(program, folder):
    """Each reader that is there: what it is, and from digits its command, the file that it reads and how many octets that has."""
    floor = f"{folder}/floor"
    subprocess.run(["cc", "-O2", bench.FLOOR, "-o", floor], check=True)

    def of_digits(command):
        return lambda digits, path: (command, path, len(bytes.fromhex(digits)))

    def of_packets(digits, path):
        octets = bytes.fromhex(digits)
        with open(f"{path}.pcap", "wb") as file:
            file.write(packets(octets))
        return ["tshark", "-r", f"{path}.pcap", "-V", "-O", "bgp"], path, len(octets)

    def of_argument(digits, path):
        messages, taken = digits.split("\n"), ""
        for message in messages:
            if len(taken) + len(message) > 2 * ARGUMENT_OCTETS:
                break
            taken += message
        conf = f"{folder}/neighbor.conf"
        with open(conf, "w") as file:
            file.write(NEIGHBOR)
        return ["exabgp", conf, "--decode", taken], path, len(taken) // 2

    yield "`overlay decode`", of_digits([program, "decode"])
    yield "the floor (`floor.c`)", of_digits([floor])
    library = gobgp(folder)
    if library:
        yield library[1], of_digits([library[0]])
    else:
        yield "", "gobgp's library"
    if shutil.which("tshark"):
        yield f"tshark {version(['tshark', '--version'], lambda line: line.split()[2])}, `-V -O bgp`", of_packets
    else:
        yield "", "tshark"
    if shutil.which("exabgp"):
        yield f"exabgp {version(['exabgp', '--version'], lambda line: line.split()[-1])}, `--decode`", of_argument
    else:
        yield "", "exabgp"


def row(name, routes, reader, folder):
    """A line of the table."""
    digits = bench.updates(OCTETS, routes)
    path = f"{folder}/digits"
    with open(path, "w") as file:
        file.write(digits)
    command, source, octets = reader(digits, path)
    (seconds, memory, size), status = bench.measured(command, source, f"{folder}/output")
    told = name if status == 0 else f"{name} (status {status})"
    return f"| {told} | {routes} | {octets / 1e6:.2f} | {seconds:.3f} | {octets / seconds / 1e6:.2f} | {memory:.0f} | {size:.2f} |"


def main():
    if len(sys.argv) != 2:
        sys.exit(__doc__)
    missing = []
    print("| Reader | Routes a message | Octets, MB | Processor time, s | Octets a second, MB | Peak memory, MB | Output, MB |")
    print("|---|---|---|---|---|---|---|")
    with tempfile.TemporaryDirectory() as folder:
        for name, reader in readers(os.path.abspath(sys.argv[1]), folder):
            if not name:
                missing.append(reader)
                continue
            for routes in (1, 20):
                print(row(name, routes, reader, folder), flush=True)
    if missing:
        print(f"\nMissing, and not measured: {', '.join(missing)}.")


if __name__ == "__main__":
    main()
