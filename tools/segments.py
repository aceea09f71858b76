"""Capture files, and the octets that TCP carried in them, in order and once each, for pcap.py. Needs Python 3.10.

A capture file is classic pcap, in both byte orders and with microseconds or nanoseconds, or pcapng. Of its packets those are
taken that carry TCP over IPv4 or IPv6, over Ethernet, Linux cooked (v1 and v2), raw IP or a loopback, also behind VLAN tags.
"""
import bisect
import collections
import ipaddress
import struct

MAGICS = {  # of classic pcap, as the first four octets stand there: byte order, parts of a second
    b"\xd4\xc3\xb2\xa1": ("<", 10**6), b"\xa1\xb2\xc3\xd4": (">", 10**6),
    b"\x4d\x3c\xb2\xa1": ("<", 10**9), b"\xa1\xb2\x3c\x4d": (">", 10**9),
}
SECTION = b"\x0a\x0d\x0d\x0a"
ORDERS = {b"\x4d\x3c\x2b\x1a": "<", b"\x1a\x2b\x3c\x4d": ">"}
OTHER_FILES = {b"\x1f\x8b": "is compressed by gzip", b"\xfd7": "is compressed by xz", b"BZ": "is compressed by bzip2",
               b"\x28\xb5": "is compressed by zstd"}
IPV4, IPV6, TAGS = 0x0800, 0x86DD, (0x8100, 0x88A8, 0x9100)
FIN, SYN, RST, ACK = 1, 2, 4, 16
TCP, FRAGMENT, HEADERS = 6, 44, (0, 43, 60)  # headers of IPv6 that stand before TCP and tell their length
TURN = 1 << 32
NEAR = 1 << 24  # how far behind a SYN octets may stand that were captured before it

Packet = collections.namedtuple("Packet", "number time link octets place")
Segment = collections.namedtuple("Segment", "number time source target sequence flags octets length")
Piece = collections.namedtuple("Piece", "start octets number")


class Fault(Exception):
    """What is wrong with a capture file, and where."""


def at(place, said):
    return Fault(f"at octet {place}: {said}")


# files ----------------------------------------------------------------------------------------------------------------


def packets(data, notes):
    """The packets of a capture file, in its order. What of it cannot be read is told to `notes`."""
    if data[:4] in MAGICS:
        return classic(data, notes)
    if data[:4] == SECTION:
        return blocks(data, notes)
    for front, said in OTHER_FILES.items():
        if data.startswith(front):
            raise at(0, f"the file {said}")
    raise at(0, "neither pcap nor pcapng begins so" if data else "the file is empty")


def classic(data, notes):
    order, parts = MAGICS[data[:4]]
    if len(data) < 24:
        raise at(len(data), "the head of a pcap file has 24 octets, and the file ends within it")
    link = struct.unpack_from(order + "I", data, 20)[0] & 0xFFFF
    place, number = 24, 0
    while place < len(data):
        number += 1
        if len(data) - place < 16:
            return notes.append(f"at octet {place}: the file ends within the head of packet {number}")
        second, part, kept, _ = struct.unpack_from(order + "4I", data, place)
        if kept > len(data) - place - 16:
            return notes.append(f"at octet {place}: the file ends within packet {number}, of {kept} octets")
        yield Packet(number, second + part / parts, link, data[place + 16:place + 16 + kept], place)
        place += 16 + kept
    return None


def resolution(order, options):
    """How many parts of a second a unit of time is, by the options of an interface."""
    place = 0
    while place + 4 <= len(options):
        code, length = struct.unpack_from(order + "2H", options, place)
        if code == 9 and length == 1 and place + 4 < len(options):
            power = options[place + 4]
            return 2 ** (power & 127) if power & 128 else 10 ** power
        if code == 0:
            break
        place += 4 + length + -length % 4
    return 10**6


def packet_of_block(kind, order, body, links, number, place):
    """The packet of a block that has one, or None."""
    heads = {6: "5I", 2: "2H4I", 3: "I"}
    if kind not in heads:
        return None
    head = struct.Struct(order + heads[kind])
    if len(body) < head.size:
        raise at(place, f"the block of packet {number} has {len(body)} octets, and {head.size} are its head")
    parts = head.unpack_from(body)
    if kind == 3:
        interface, high, low, kept = 0, 0, 0, min(parts[0], len(body) - head.size)
    else:
        interface, (high, low, kept) = parts[0], parts[-4:-1]
    if interface >= len(links):
        raise at(place, f"packet {number} is of interface {interface}, and the section has {len(links)}")
    if kept > len(body) - head.size:
        raise at(place, f"packet {number} is to have {kept} octets, and its block has {len(body) - head.size}")
    link, unit, most = links[interface]
    kept = min(kept, most) if kind == 3 and most else kept
    return Packet(number, ((high << 32) + low) / unit, link, body[head.size:head.size + kept], place)


def blocks(data, notes):
    place, number, order, links = 0, 0, "<", []
    while place < len(data):
        if data[place:place + 4] == SECTION:
            order, links = ORDERS.get(data[place + 8:place + 12]), []
            if order is None:
                raise at(place, "a section without its mark of the byte order")
        if len(data) - place < 12:
            return notes.append(f"at octet {place}: the file ends within the head of a block")
        kind, length = struct.unpack_from(order + "2I", data, place)
        if length < 12 or length % 4:
            raise at(place, f"a block of {length} octets")
        if length > len(data) - place:
            return notes.append(f"at octet {place}: the file ends within a block, of {length} octets")
        body = data[place + 8:place + length - 4]
        if kind == 1:
            if len(body) < 8:
                raise at(place, f"an interface of {len(body)} octets, and 8 are its head")
            link, _, most = struct.unpack_from(order + "2HI", body)
            links.append((link, resolution(order, body[8:]), most))
        elif kind in (2, 3, 6):
            number += 1
            yield packet_of_block(kind, order, body, links, number, place)
        place += length
    return None


# packets to segments --------------------------------------------------------------------------------------------------


def null(octets):
    """What a packet of a loopback carries, by its family, which stands in either byte order and is numbered by each system."""
    family = min(int.from_bytes(octets[:4], order) for order in ("little", "big"))
    kind = {2: IPV4, 10: IPV6, 24: IPV6, 28: IPV6, 30: IPV6}.get(family)
    return kind and (kind, octets[4:])


def raw(octets):
    return {4: (IPV4, octets), 6: (IPV6, octets)}.get(octets[0] >> 4 if octets else 0)


def typed(place, begin):
    """A link whose head has a type of Ethernet at `place`, and what it carries at `begin`."""
    return lambda octets: (int.from_bytes(octets[place:place + 2], "big"), octets[begin:]) if len(octets) >= begin else None


LINKS = {
    0: null, 1: typed(12, 14), 12: raw, 14: raw, 101: raw, 108: null, 113: typed(14, 16), 228: raw, 229: raw, 276: typed(0, 20),
}


def without_tags(kind, octets):
    while kind in TAGS and len(octets) >= 4:
        kind, octets = int.from_bytes(octets[2:4], "big"), octets[4:]
    return kind, octets


def of_ipv4(octets):
    """Source, target, what is carried and how long it was before it was cut; a text for what is left out; None for others."""
    if len(octets) < 20 or octets[0] >> 4 != 4:
        return None
    head, whole = 4 * (octets[0] & 15), int.from_bytes(octets[2:4], "big")
    if octets[9] != TCP or head < 20 or len(octets) < head:
        return None
    if int.from_bytes(octets[6:8], "big") & 0x3FFF:
        return "fragments of IP packets"
    whole = whole or len(octets)  # 0 where the sender's card was to cut it into segments
    return octets[12:16], octets[16:20], octets[head:whole], whole - head


def of_ipv6(octets):
    if len(octets) < 40 or octets[0] >> 4 != 6:
        return None
    whole = 40 + (int.from_bytes(octets[4:6], "big") or len(octets) - 40)
    following, head = octets[6], 40
    while following in HEADERS and len(octets) >= head + 8:
        following, head = octets[head], head + 8 + 8 * octets[head + 1]
    if following == FRAGMENT:
        return "fragments of IP packets"
    return (octets[8:24], octets[24:40], octets[head:whole], whole - head) if following == TCP else None


def segment_of(packet):
    """The TCP segment of a packet; a text for what is left out and may be one; None for others."""
    if packet.link not in LINKS:
        return f"packets of the link type {packet.link}, which is not known here"
    carried = LINKS[packet.link](packet.octets)
    kind, octets = without_tags(*carried) if carried else (0, b"")
    found = of_ipv4(octets) if kind == IPV4 else of_ipv6(octets) if kind == IPV6 else None
    if found is None or isinstance(found, str):
        return found
    source, target, octets, length = found
    if len(octets) < 20 or 4 * (octets[12] >> 4) < 20:
        return "TCP segments whose head is cut"
    head = 4 * (octets[12] >> 4)
    ports = struct.unpack_from(">2H", octets)
    ends = tuple((ipaddress.ip_address(address), port) for address, port in zip((source, target), ports))
    sequence = int.from_bytes(octets[4:8], "big")
    return Segment(packet.number, packet.time, *ends, sequence, octets[13], octets[head:], max(0, length - head))


def segments(data, notes):
    """The TCP segments of a capture file. What was left out is told to `notes`, by kind and number."""
    left = collections.Counter()
    for packet in packets(data, notes):
        segment = segment_of(packet)
        if isinstance(segment, Segment):
            yield segment
        elif segment:
            left[segment] += 1
    notes.extend(f"left out: {count} {kind}" for kind, count in left.items())


# segments to octets in order ------------------------------------------------------------------------------------------


class Side:
    """What one end of a connection sent."""

    def __init__(self):
        self.start = None  # the sequence number of the first octet, where the SYN was captured
        self.segments = []

    def add(self, segment):
        if segment.flags & SYN:
            self.start = (segment.sequence + 1) % TURN
        self.segments.append(segment)

    def begins_with(self, sequence):
        """Whether a SYN of this number may be the one by which these octets began."""
        if self.start is not None:
            return self.start == (sequence + 1) % TURN
        return all((it.sequence - sequence) % TURN < NEAR for it in self.segments)

    def pieces(self):
        """The octets as pieces that neither overlap nor touch out of order, first captured first counted, and where they end.

        An octet's place counts from the first one, the first that was captured where the SYN was not. Also answers how many
        segments said otherwise what another had said."""
        carrying = [it for it in self.segments if it.length or it.flags & FIN]
        if not carrying:
            return [], 0, 0
        first = carrying[0]
        start = self.start if self.start is not None else first.sequence
        found, last, end, other = [], 0, 0, 0
        for it in carrying:
            begin = it.sequence + bool(it.flags & SYN) - start
            last += (begin - last + TURN // 2) % TURN - TURN // 2
            other += add_piece(found, Piece(last, it.octets, it.number))
            end = max(end, last + it.length)
        if self.start is not None:
            found = [it for it in (after(piece, 0) for piece in found) if it.octets]
        return found, end, other


def after(piece, place):
    """What of a piece stands at a place or behind it."""
    cut = max(0, place - piece.start)
    return Piece(piece.start + cut, piece.octets[cut:], piece.number)


def add_piece(found, piece):
    """Adds what of a piece is not there yet, and answers whether what was there already differs from it."""
    differs = False
    place = bisect.bisect_right(found, piece.start, key=lambda it: it.start) - 1 if found else 0
    place = max(place, 0)
    while piece.octets:
        if place == len(found):
            found.append(piece)
            break
        held = found[place]
        end = held.start + len(held.octets)
        if end <= piece.start:
            place += 1
            continue
        if piece.start < held.start:
            free = held.start - piece.start
            found.insert(place, Piece(piece.start, piece.octets[:free], piece.number))
            piece = after(piece, held.start)
            place += 1
            continue
        both = min(end, piece.start + len(piece.octets)) - piece.start
        held_here = held.octets[piece.start - held.start:piece.start - held.start + both]
        differs = differs or held_here != piece.octets[:both]
        piece = after(piece, end)
        place += 1
    return differs


class Connection:
    """A TCP connection: what each of its two ends sent, in the order in which they were first heard."""

    def __init__(self, segment):
        self.time = segment.time
        self.sides = {segment.source: Side(), segment.target: Side()}

    def has(self, segment):
        """Whether a segment is of this connection, and not of a later one between the same ports."""
        if not segment.flags & SYN:
            return True
        return self.sides[segment.source].begins_with(segment.sequence)

    def add(self, segment):
        self.sides[segment.source].add(segment)


def connections(found, wanted):
    """The connections of segments of which one end has a wanted port, in the order in which they begin."""
    made, present = [], {}
    for segment in found:
        if wanted not in (segment.source[1], segment.target[1]) or segment.source == segment.target:
            continue
        ends = frozenset((segment.source, segment.target))
        if ends not in present or not present[ends].has(segment):
            present[ends] = Connection(segment)
            made.append(present[ends])
        present[ends].add(segment)
    return made
