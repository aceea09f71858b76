#!/usr/bin/env python3
"""Takes messages from captures by tools/pcap.py, and compares them with what was sent.

Of examples/router.pcap the digits are to be those of examples/router.hex, and of tests/captures/*.pcap, which routers made, the
types of messages and the reasons of those that are left out are those that stand here. Then captures are made here of messages
that are known: in each form of file and each kind of link, and with segments that are captured out of order, twice,
overlapping, cut and not at all, about the end of the sequence numbers too. Files that are broken are to be refused with the
place, and words that are none with status 2.

usage: tests/captures.py [PROGRAM]

With PROGRAM, the built `overlay`, what is written of captures is given to `decode` too, which is to say no `fault` of it, and of
router.pcap what docs/COOKBOOK.md says. tests/captures/ was made by tools/captures.sh. Needs Python 3.10. Ends with status 1
where something is otherwise.
"""
import ipaddress
import pathlib
import random
import struct
import subprocess
import sys

TOP = pathlib.Path(__file__).resolve().parent.parent
TOOL = TOP / "tools" / "pcap.py"
sys.dont_write_bytecode = True
sys.path.insert(0, str(TOP / "tools"))
import pcap
import segments

ROUTER = [bytes.fromhex(line) for line in (TOP / "examples" / "router.hex").read_text().split()]
ENDS = {4: ("192.0.2.11", "192.0.2.12"), 6: ("2001:db8::11", "2001:db8::12")}
PORTS = 50000, 179
SYN, ACK, FIN = 2, 16, 1

PATHS = "[VPN-IPv4 routes with path identifiers]"
# of a capture, a session and an end: the types of the messages that it sent, those that are left out in brackets with their
# reason; the types are those that tshark tells of them too
MADE = {
    ("frr.pcap", 1, "192.0.2.31"): "open keepalive update [a length of 12066, above 4,096] update",
    ("frr.pcap", 1, "192.0.2.32"): "open keepalive update update update",
    ("frr.pcap", 2, "192.0.2.31"): "open notification notification",
    ("reload.pcap", 2, "192.0.2.31"): "open keepalive update update [type 5] [type 5] update [type 5]",
    ("reload.pcap", 2, "192.0.2.32"): "open keepalive update update [type 5] update [type 5] [type 5] update",
    ("paths.pcap", 2, "192.0.2.31"): f"open keepalive {PATHS} update [type 5] [type 5] {PATHS} [type 5]",
    ("paths.pcap", 2, "192.0.2.32"): "open keepalive update update [type 5] update [type 5] [type 5] update",
}


# messages, segments, packets, files ------------------------------------------------------------------------------------


def message(kind, body=b""):
    return b"\xff" * 16 + struct.pack(">HB", 19 + len(body), kind) + body


def opening(*capabilities):
    value = b"".join(bytes([code, len(it)]) + it for code, it in capabilities)
    parameters = bytes([2, len(value)]) + value if value else b""
    return message(1, bytes.fromhex("04fc00005ac000020b") + bytes([len(parameters)]) + parameters)


def update(attributes=b"", withdrawn=b"", routes=b""):
    return message(2, struct.pack(">H", len(withdrawn)) + withdrawn + struct.pack(">H", len(attributes)) + attributes + routes)


def attribute(flags, kind, value):
    return bytes([flags, kind, len(value)]) + value


def tcp(way, sequence, octets, flags=ACK):
    """A TCP segment, from the one end (way 0) or the other."""
    source, target = PORTS[way], PORTS[1 - way]
    return struct.pack(">2H2I2B3H", source, target, sequence % 2**32, 0, 0x50, flags, 65535, 0, 0) + octets


def ip(way, carried, version=4):
    source, target = (ipaddress.ip_address(ENDS[version][end]).packed for end in (way, 1 - way))
    if version == 4:
        return struct.pack(">2B3H2BH", 0x45, 0, 20 + len(carried), 0, 0x4000, 64, 6, 0) + source + target + carried
    return struct.pack(">IH2B", 0x60000000, len(carried) + 8, 60, 64) + source + target + b"\x06\0\1\4\0\0\0\0" + carried


def kind_of(octets):
    return b"\x08\x00" if octets[0] >> 4 == 4 else b"\x86\xdd"


LINKS = {  # name: link type, and how an IP packet is carried
    "ethernet": (1, lambda it: bytes(12) + kind_of(it) + it + bytes(max(0, 46 - len(it)))),
    "one tag": (1, lambda it: bytes(12) + b"\x81\0\0\7" + kind_of(it) + it),
    "two tags": (1, lambda it: bytes(12) + b"\x88\xa8\0\7\x81\0\0\x09" + kind_of(it) + it),
    "cooked": (113, lambda it: bytes(14) + kind_of(it) + it),
    "cooked, with a tag": (113, lambda it: bytes(14) + b"\x81\0\0\7" + kind_of(it) + it),
    "cooked, version 2": (276, lambda it: kind_of(it) + bytes(18) + it),
    "raw": (101, lambda it: it),
    "raw, as BSD numbers it": (12, lambda it: it),
    "loopback, little": (0, lambda it: (b"\2\0\0\0" if it[0] >> 4 == 4 else b"\x1e\0\0\0") + it),
    "loopback, big": (0, lambda it: (b"\0\0\0\2" if it[0] >> 4 == 4 else b"\0\0\0\x1c") + it),
    "loopback of OpenBSD": (108, lambda it: (b"\0\0\0\2" if it[0] >> 4 == 4 else b"\0\0\0\x18") + it),
}


def classic(order, magic):
    def made(link, packets):
        head = struct.pack(order + "I2H4I", magic, 2, 4, 0, 0, 65535, link)
        return head + b"".join(struct.pack(order + "4I", 1, 2, len(it), len(it)) + it for it in packets)
    return made


def block(order, kind, body):
    body += bytes(-len(body) % 4)
    size = struct.pack(order + "I", 12 + len(body))
    return struct.pack(order + "I", kind) + size + body + size


def section(order):
    return block(order, 0x0A0D0D0A, struct.pack(order + "I2Hq", 0x1A2B3C4D, 1, 0, -1))


def new_generation(order, kind, options=b""):
    """A capture of pcapng, with a section of the other byte order in front, and an interface before the one of its packets."""
    heads = {
        6: lambda it: struct.pack(order + "5I", 1, 0, 5, len(it), len(it)),
        2: lambda it: struct.pack(order + "2H4I", 1, 0, 0, 5, len(it), len(it)),
        3: lambda it: struct.pack(order + "I", len(it)),
    }

    def made(link, packets):
        other = 147 if kind != 3 else link
        front = section("<" if order == ">" else ">") + section(order) + block(order, 1, struct.pack(order + "2HI", other, 0, 0))
        front += block(order, 1, struct.pack(order + "2HI", link, 0, 0) + options) + block(order, 5, bytes(12))
        return front + b"".join(block(order, kind, heads[kind](it) + it) for it in packets)
    return made


FILES = {
    "pcap": classic("<", 0xA1B2C3D4), "pcap, big": classic(">", 0xA1B2C3D4),
    "pcap of nanoseconds": classic("<", 0xA1B23C4D), "pcap of nanoseconds, big": classic(">", 0xA1B23C4D),
    "pcapng": new_generation("<", 6), "pcapng, big": new_generation(">", 6),
    "pcapng with a resolution": new_generation("<", 6, struct.pack("<2HB3x2H", 9, 1, 9, 0, 0)),
    "pcapng, simple packets": new_generation("<", 3), "pcapng, packets of old": new_generation(">", 2),
}
PLAIN = FILES["pcap"]


def handshake(first=(1000, 2000)):
    return [tcp(0, first[0], b"", SYN), tcp(1, first[1], b"", SYN | ACK)]


def said(way, octets, first=1000, parts=None):
    """Segments that carry octets behind a SYN of number `first`, each of so many."""
    place, made = 0, []
    for size in parts or [len(octets)]:
        made.append(tcp(way, first + 1 + place, octets[place:place + size]))
        place += size
    return made


def capture(carried, form=PLAIN, link="ethernet", version=4):
    """A capture of TCP segments. Which end sent one is told by its port."""
    number, wrapped = LINKS[link]
    return form(number, [wrapped(ip(int(it[:2] != struct.pack(">H", PORTS[0])), it, version)) for it in carried])


# what is tried ---------------------------------------------------------------------------------------------------------


def taken(data, end=ENDS[4][0], wide=False, session=None):
    """What is written of one end of a capture, message by message, and what is said of it."""
    notes = []
    found = segments.connections(segments.segments(data, notes), 179)
    _, connection, side = pcap.chosen(found, session, (ipaddress.ip_address(end), None))
    return [bytes.fromhex(line) for line in pcap.extract(connection, side, wide, notes).split()], notes


def forms():
    """Each form of file with each kind of link and both versions of IP."""
    carried = handshake() + said(0, b"".join(ROUTER))
    for name, form in FILES.items():
        for link in LINKS:
            for version in (4, 6):
                found, notes = taken(capture(carried, form, link, version), ENDS[version][0])
                yield f"{name}, {link}, IPv{version}", (found, notes), (ROUTER, [])


def disorder():
    """Segments in any order, sent again in other parts, about the end of the sequence numbers, with the SYN and without."""
    whole = b"".join(ROUTER)
    for seed in range(200):
        dice = random.Random(seed)
        first = dice.choice([1000, 2**32 - 100, 2**32 - 1, 2**31 - 50])
        carried = handshake((first, 2000)) if seed % 2 else []
        cuts = sorted({0, len(whole), *(dice.randrange(len(whole)) for _ in range(dice.randrange(12)))})
        parts = [tcp(0, first + 1 + a, whole[a:b]) for a, b in zip(cuts, cuts[1:])]
        for _ in range(dice.randrange(6)):
            a = dice.randrange(len(whole))
            parts.append(tcp(0, first + 1 + a, whole[a:a + dice.randrange(1, 400)]))
        parts.append(tcp(0, first, b"\0"))  # by which TCP asks whether the other end is still there
        begin = parts.pop(0) if seed % 2 == 0 else None
        dice.shuffle(parts)
        parts = [begin, *parts] if begin else parts
        found, notes = taken(capture(carried + parts))
        behind = [note for note in notes if "before the first whole message" not in note]
        yield f"disorder {seed}", (found, behind), (ROUTER, [])


def gaps():
    """Octets that the capture lacks: what is whole behind them is read, and what was left out is said."""
    whole = b"".join(ROUTER)
    ends = [sum(map(len, ROUTER[:place])) for place in range(len(ROUTER) + 1)]
    lost = said(0, whole, parts=[ends[3] + 5, 10, len(whole)])
    found, notes = taken(capture(handshake() + [lost[0], lost[2]]))
    yield "a gap", (found, len(notes)), (ROUTER[:3] + ROUTER[4:], 3)
    yield "a gap, what is said", [word in " ".join(notes) for word in ("lacks 10 octets", "left out")], [True, True]
    found, _ = taken(capture(said(0, whole, parts=[ends[2] + 7, len(whole)])[1:]))
    yield "a capture that begins within a message", found, ROUTER[3:]
    found, notes = taken(capture(handshake() + said(0, whole[:-5])))
    yield "a capture that ends within a message", (found[-1], notes), (ROUTER[-1][:-5], [])
    front = capture(handshake())
    packet = LINKS["ethernet"][1](ip(0, said(0, whole)[0]))
    cut = front + struct.pack("<4I", 1, 2, len(packet) - 10, len(packet)) + packet[:-10]
    found, notes = taken(cut)
    yield "a packet that was cut", (found, notes[0], len(notes)), (ROUTER[:-1], "the capture lacks the last 10 octets", 2)
    other = handshake() + said(0, whole) + said(0, b"\0" * 40)
    found, notes = taken(capture(other))
    yield "octets sent again as others", (found, len(notes)), (ROUTER, 1)


def kinds():
    """Messages that `decode` has no form for are left out, and those that break BGP's own rules are not."""
    none, keep, refresh = [], message(4), message(5, bytes.fromhex("00010080"))
    wide, long = (65, bytes.fromhex("0000fc00")), (6, b"")
    paths = (69, bytes.fromhex("0001800300010103"))
    family = lambda octets, kind=14: update(attribute(0x80, kind, bytes.fromhex("000180") + octets))
    with_path = family(bytes.fromhex("0c0000000000000000c000020b00" + "00000001" + "780001710001c000020b00010a010005"))
    hop6 = family(bytes([24]) + bytes(25) + bytes.fromhex("780001710001c000020b00010a010005"))
    end = update(attribute(0x80, 15, bytes.fromhex("000180")))
    plain = update(routes=bytes.fromhex("00000001" + "180a0100"))
    two, four = (update(attribute(0x40, 2, bytes.fromhex(it))) for it in ("0201fde9", "02010000fde9"))
    confederation = update(attribute(0x40, 2, bytes.fromhex("03010000fde9")))
    large, other = message(2, bytes(4080)), message(77)
    cases = [
        ("refresh and other types", [wide], [wide], [keep, refresh, other, keep], [1, 2]),
        ("a long message", [long], [long], [large, keep], [0]),
        ("a long message of which one side knows nothing", [long], [], [large, keep], none),
        ("path identifiers", [paths], [paths], [with_path, plain, end, keep], [0, 1]),
        ("path identifiers that one side would send", [paths], [wide], [with_path, plain], none),
        ("path identifiers where one side was not heard", [paths], None, [with_path, plain, end], [0, 1]),
        ("a next hop of IPv6", [wide], [wide], [hop6, keep], [0]),
        ("numbers of two octets behind a wide OPEN", [wide], [], [two, four], [0]),
        ("numbers of four octets behind a narrow OPEN", [], [wide], [two, four], [1]),
        ("a confederation", [wide], [wide], [confederation, four], [0]),
        ("a broken marker", [wide], [wide], [keep, b"\xff" * 15 + b"\0" + keep], none),
        ("a broken length", [wide], [wide], [b"\xff" * 16 + b"\0\x12\4", keep], none),
    ]
    for name, own, peer, sent, left in cases:
        front = opening(*own)
        carried = handshake() + said(0, front + b"".join(sent))
        carried += said(1, opening(*peer), 2000) if peer is not None else []
        found, notes = taken(capture(carried))
        wanted = [front] + [it for place, it in enumerate(sent) if place not in left]
        yield name, (b"".join(found), len(notes)), (b"".join(wanted), len(left))
    found, notes = taken(capture(said(0, keep + four)), wide=True)
    yield "an OPEN that is not there, by --wide", (found[1:], found[0][18], notes), ([keep, four], 1, [])
    found, notes = taken(capture(said(0, keep + two + four)))
    yield "an OPEN that is not there", (found, len(notes)), ([keep, two], 2)
    parameters = bytes.fromhex("ff ff 0009 02 0006 41 04 0000fc00")
    extended = message(1, bytes.fromhex("04fc00005ac000020b") + parameters)
    found, notes = taken(capture(handshake() + said(0, extended + two + four)))
    yield "an OPEN with long parameters", (found, [it.split(": ")[-1][:20] for it in notes[:2]]), (
        [two], ["long parameters (RFC", "numbers of autonomou"])


def sessions():
    """Two sessions of the same ports are two, also where what is left of the first comes late."""
    first, second = ROUTER[0] + ROUTER[1], ROUTER[0] + ROUTER[2]
    carried = handshake() + said(0, first) + handshake((2**31, 5)) + said(0, second, 2**31)
    for number, wanted in ((1, [ROUTER[0], ROUTER[1]]), (2, [ROUTER[0], ROUTER[2]])):
        yield f"session {number} of two", taken(capture(carried), session=number)[0], wanted
    late = said(0, first) + handshake()
    yield "a SYN that is captured late", taken(capture(late))[0], [ROUTER[0], ROUTER[1]]


def types_of(found):
    names = {1: "open", 2: "update", 3: "notification", 4: "keepalive"}
    return [f"[{it.reason.split(' (')[0].split(', which')[0]}]" if it.reason else names[it.octets[18]] for it in found]


def routers():
    """The captures of routers."""
    found, notes = taken((TOP / "examples" / "router.pcap").read_bytes())
    yield "router.pcap", (found, notes), (ROUTER, [])
    for (name, session, end), wanted in MADE.items():
        data = (TOP / "tests" / "captures" / name).read_bytes()
        connection = segments.connections(segments.segments(data, []), 179)[session - 1]
        side = next(it for it in connection.sides if str(it[0]) == end)
        yield f"{name} from {end}", " ".join(types_of(pcap.said_by(connection, side, False, [])[0])), wanted


def run(words, data=b""):
    ran = subprocess.run([sys.executable, TOOL, *words], input=data, capture_output=True, timeout=120)
    return ran.returncode, ran.stdout.decode(), ran.stderr.decode()


def words():
    """Words, statuses, and what is said of files that are broken."""
    good = capture(handshake() + said(0, b"".join(ROUTER)))
    both = capture(handshake() + said(0, ROUTER[0]) + said(1, ROUTER[0], 2000))
    yield "written to standard output", run(["-"], good)[:2], (0, "".join(it.hex() + "\n" for it in ROUTER))
    yield "--help", (run(["--help"])[0], "usage: " in run(["--help"])[1]), (0, True)
    for given in ([], ["a", "b"], ["-", "--from", "x"], ["-", "--session", "x"], ["-", "--no"]):
        status, out, err = run(given)
        yield f"words {given}", (status, out, "usage: " in err), (2, "", True)
    ng = capture(handshake(), FILES["pcapng"])
    wrong = {
        "an empty file": (b"", "at octet 0: the file is empty"),
        "another file": (b"GIF89a", "at octet 0: neither pcap nor pcapng"),
        "a compressed file": (b"\x1f\x8b\x08", "at octet 0: the file is compressed by gzip"),
        "a head that is cut": (good[:20], "at octet 20: the head"),
        "no session": (capture([]), "no TCP session of port 179"),
        "both ends": (both, "say --from 192.0.2.11 or --from 192.0.2.12"),
        "a block too short": (ng[:28] + struct.pack("<2I", 6, 8), "at octet 28"),
        "an interface that is not there": (section("<") + block("<", 6, bytes(20)), "at octet 28: packet 1 is of interface 0"),
        "a packet longer than its block": (
            section("<") + block("<", 1, struct.pack("<2HI", 1, 0, 0)) + block("<", 6, struct.pack("<5I", 0, 0, 0, 99, 99)),
            "packet 1 is to have 99 octets"),
        "nothing sent": (capture(handshake()), "nothing was sent"),
    }
    for name, (data, wanted) in wrong.items():
        status, out, err = run(["-"], data)
        yield name, (status, out, "standard input: " in err and wanted in err and "Traceback" not in err), (1, "", True)
    status, _, err = run(["no/such/file"])
    yield "a file that is not there", (status, err), (1, "no/such/file: No such file or directory\n")
    yield "a session that is not there", run(["-", "--session", "9"], good)[::2], (1, "standard input: no session 9; there are 1\n")
    status, out, err = run(["-"], good[:-7])
    yield "a file that ends within a packet", (status, out, "the file ends within packet 3" in err), (1, "", True)
    listed = run([str(TOP / "examples" / "router.pcap"), "--list"])[1].splitlines()
    yield "--list", [line.split(": ")[1] for line in listed], [
        "KEEPALIVE 1, NOTIFICATION 1, OPEN 1, UPDATE 6; left out 0", "KEEPALIVE 1, OPEN 1, UPDATE 1; left out 0"]


def broken():
    """Files of which octets were changed or taken out: whatever is said, it is no fault of the script."""
    whole = {name: capture(handshake() + said(0, b"".join(ROUTER)) + said(1, ROUTER[0], 2000), form)
             for name, form in FILES.items()}
    dice = random.Random(80)
    for name, data in whole.items():
        for turn in range(150):
            made = bytearray(data)
            for _ in range(dice.randrange(1, 5)):
                made[dice.randrange(len(made))] = dice.randrange(256)
            made = bytes(made[:dice.randrange(len(made))] if turn % 3 == 0 else made)
            try:
                taken(made)
                fault = ""
            except segments.Fault:
                fault = ""
            except Exception as other:  # whatever it is, it is what is looked for here
                fault = repr(other)
            yield f"{name}, changed {turn}", fault, ""


def cookbook():
    """What the page says that `decode` prints of router.pcap."""
    lines = (TOP / "docs" / "COOKBOOK.md").read_text(encoding="utf-8").splitlines()
    command = "    $ tools/pcap.py examples/router.pcap --from 192.0.2.11 | overlay decode"
    place = lines.index(command)
    return [line[4:] for line in lines[place + 1:lines.index("", place)]]


def decoded(program):
    """What `decode` prints of what is written of captures."""
    files = [(TOP / "examples" / "router.pcap", 1, "192.0.2.11")]
    files += [(TOP / "tests" / "captures" / name, session, end) for name, session, end in MADE]
    for path, session, end in files:
        digits = run([str(path), "--session", str(session), "--from", end])[1]
        ran = subprocess.run([program, "decode"], input=digits.encode(), capture_output=True, timeout=120)
        lines = ran.stdout.decode().splitlines()
        faults = [it for it in lines if it.startswith(("fault", "incomplete"))]
        yield f"decode of {path.name} from {end}", (ran.returncode, faults), (0, [])
        if path.name == "router.pcap":
            yield "decode of router.pcap, as the page says", lines, cookbook()


def main(program=None):
    groups = [forms, disorder, gaps, kinds, sessions, routers, words, broken]
    count = agree = 0
    for name, found, wanted in [it for group in groups for it in group()] + list(decoded(program) if program else ()):
        count += 1
        agree += found == wanted
        if found != wanted:
            print(f"{name}: {found!r} in place of {wanted!r}"[:1500])
    print(f"{agree} of {count} cases agree")
    return 0 if agree == count else 1


if __name__ == "__main__":
    if len(sys.argv) > 2 or sys.argv[1:] in (["--help"], ["-h"]):
        sys.exit(__doc__)
    sys.exit(main(*sys.argv[1:]))
