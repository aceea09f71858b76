#!/usr/bin/env python3
"""Takes from a capture of routers what one of them sent in a BGP session, as the digits that `overlay decode` reads.

usage: tools/pcap.py FILE --list
       tools/pcap.py FILE [--session N] [--from ADDRESS[:PORT]] [--port P] [--wide] > OUT.hex

FILE is a capture file, classic pcap or pcapng, as tcpdump writes it, or `-` for standard input. TCP's segments are put in
order, and what was sent again is taken once. Each line that is written is one BGP message, and the last one what the
capture has of a message that it does not have whole.

--list      lists the sessions, and what each end sent: its number, from and to, when it began, messages by type
--session   which session, by its number in the list; not needed where the file has one
--from      which end of it, by its address, or its address and port (`[ADDRESS]:PORT` of IPv6); not needed where one end
            alone sent anything
--port      the port of BGP, 179 where it is not said
--wide      where the capture begins within the session: begins what is written with an OPEN of nobody (AS 23456,
            255.255.255.255), so that `decode` reads numbers of autonomous systems of four octets

A message that `decode` has no form for is left out, with a line on standard error that says which and why, so that what
follows is read: ROUTE-REFRESH and other types, lengths above 4,096 (RFC 8654), routes with path identifiers (RFC 7911), a
next hop of IPv6 (RFC 8950), paths of a confederation (RFC 5065), paths in numbers of the other width (RFC 6793), an OPEN with
long parameters (RFC 9072). So are octets that the capture lacks, and what stands before the first whole message behind them.
A message that breaks BGP's own rules is written, and `decode` says its fault.

Needs Python 3.10. Ends with status 0 where all is written that is to be (also where messages were left out), 1 where the file
cannot be read or has no such session, 2 where it was given other words.
"""
import argparse
import collections
import datetime
import ipaddress
import signal
import sys

sys.dont_write_bytecode = True
import segments

MARKER = b"\xff" * 16
OPEN, UPDATE, NOTIFICATION, KEEPALIVE, REFRESH = 1, 2, 3, 4, 5
TYPES = {OPEN: "OPEN", UPDATE: "UPDATE", NOTIFICATION: "NOTIFICATION", KEEPALIVE: "KEEPALIVE", REFRESH: "ROUTE-REFRESH"}
HEAD, MOST = 19, 4096
LONG = 6, "lengths above 4,096"  # the capability of RFC 8654
ADD_PATH, WIDE = 69, 65
PLAIN, VPN, MEMBERSHIPS = (1, 1), (1, 128), (1, 132)  # the families that `decode` reads
FAMILIES = {PLAIN: "plain routes", VPN: "VPN-IPv4 routes", MEMBERSHIPS: "memberships"}
NOBODY = bytes.fromhex("ff" * 16 + "002501045ba00000ffffffff" + "080206410400005ba0")
LARGEST = 16_777_216  # octets that the program takes

Said = collections.namedtuple("Said", "octets number reason")  # a message; why it is left out, or an empty text


# what stands in messages -----------------------------------------------------------------------------------------------


def parts(octets, wide_length=False):
    """Type and value of parts that have a type, a length and a value each; None where the last is cut."""
    found, place, size = [], 0, 3 if wide_length else 2
    while place < len(octets):
        value = place + size
        end = value + int.from_bytes(octets[place + 1:value], "big")
        if len(octets) < end or len(octets) < value:
            return None
        found.append((octets[place], octets[value:end]))
        place = end
    return found


def has_long_parameters(message):
    return len(message) > 30 and message[28] == 255 and message[29] == 255


def capabilities(message):
    """The capabilities of an OPEN, code and value, also where its parameters are long; None where there is no OPEN."""
    if message is None:
        return None
    long = has_long_parameters(message)
    parameters = parts(message[32 if long else 29:], long) or []
    return [capability for kind, value in parameters if kind == 2 for capability in parts(value) or []]


def paths_announced(found):
    """For which families an OPEN says that it takes and that it sends path identifiers."""
    takes, sends = set(), set()
    for code, value in found:
        for place in range(0, len(value) - 3 if code == ADD_PATH else 0, 4):
            family, way = (int.from_bytes(value[place:place + 2], "big"), value[place + 2]), value[place + 3]
            takes |= {family} if way in (1, 3) else set()
            sends |= {family} if way in (2, 3) else set()
    return takes, sends


def attributes(octets):
    """Type and value of each attribute; None where the last is cut."""
    found, place = [], 0
    while place < len(octets):
        size = 4 if octets[place] & 0x10 else 3
        value = place + size
        end = value + int.from_bytes(octets[place + 2:value], "big")
        if len(octets) < value or len(octets) < end:
            return None
        found.append((octets[place + 1], octets[value:end]))
        place = end
    return found


def are_routes(octets, family, with_path):
    """Whether octets are whole routes of a family, none of them twice, with path identifiers or without."""
    least, most = {PLAIN: (0, 32), VPN: (88, 120), MEMBERSHIPS: (0, 96)}[family]
    place, found = 0, []
    while place < len(octets):
        begin, place = place, place + (4 if with_path else 0)
        if place >= len(octets) or not least <= octets[place] <= most:
            return False
        place += 1 + (octets[place] + 7) // 8
        found.append(octets[begin:place])
    return place == len(octets) and len(set(found)) == len(found)


def whole_path(octets, width, kinds=(1, 2)):
    """Whether octets are segments of an AS_PATH, of these types and with numbers of so many octets."""
    place = 0
    while place < len(octets):
        if len(octets) < place + 2 or octets[place] not in kinds or octets[place + 1] == 0:
            return False
        place += 2 + width * octets[place + 1]
    return place == len(octets)


class Update:
    """What an UPDATE has of routes, by family, its AS_PATHs, and the lengths of next hops of VPN-IPv4 routes."""

    def __init__(self, message):
        self.routes, self.paths, self.hops = [], [], []
        body = message[HEAD:]
        gone = 2 + int.from_bytes(body[:2], "big")
        first = gone + 2
        end = first + int.from_bytes(body[gone:first], "big")
        found = attributes(body[first:end]) if end <= len(body) else None
        if found is None:
            return
        self.routes = [(PLAIN, body[2:gone]), (PLAIN, body[end:])]
        for kind, value in found:
            family = (int.from_bytes(value[:2], "big"), value[2] if len(value) > 2 else 0)
            if kind == 2:
                self.paths.append(value)
            elif kind == 14 and family in (VPN, MEMBERSHIPS) and len(value) > 4:
                self.hops += [value[3]] if family == VPN else []
                self.routes.append((family, value[5 + value[3]:]))
            elif kind == 15 and family in (VPN, MEMBERSHIPS):
                self.routes.append((family, value[3:]))
        self.routes = [(family, octets) for family, octets in self.routes if octets]


class Reader:
    """What is known of a session when the messages of one of its ends are read: what the OPENs of both said."""

    def __init__(self, own, other, wide):
        self.own, self.other = capabilities(own), capabilities(other)
        self.wide = wide if own is None else not has_long_parameters(own) and self.has(self.own, WIDE)
        self.long = (self.own is None or self.has(self.own, LONG[0])) and (self.other is None or self.has(self.other, LONG[0]))

    @staticmethod
    def has(found, code):
        return any(code == it for it, _ in found)

    def has_paths(self, family, octets):
        """Whether routes have path identifiers: both sides said so; where one was not heard, whether they are routes with them
        alone."""
        sends = self.own is None or family in paths_announced(self.own)[1]
        takes = self.other is None or family in paths_announced(self.other)[0]
        if not sends or not takes:
            return False
        if self.own is not None and self.other is not None:
            return True
        return are_routes(octets, family, True) and not are_routes(octets, family, False)

    def reason_of_path(self, octets):
        width = 4 if self.wide else 2
        if whole_path(octets, width):
            return ""
        if whole_path(octets, 6 - width):
            return f"numbers of autonomous systems of {6 - width} octets where `decode` reads {width}"
        if whole_path(octets, 2, (1, 2, 3, 4)) or whole_path(octets, 4, (1, 2, 3, 4)):
            return "a path with segments of a confederation (RFC 5065)"
        return ""

    def reason_of_update(self, message):
        update = Update(message)
        for family, octets in update.routes:
            if self.has_paths(family, octets):
                return f"{FAMILIES[family]} with path identifiers (RFC 7911)"
        if any(length in (24, 48) for length in update.hops):
            return "a next hop of IPv6 (RFC 8950)"
        return next(filter(None, map(self.reason_of_path, update.paths)), "")

    def reason(self, message):
        """Why a message is left out, or an empty text."""
        kind = message[18]
        if kind not in (OPEN, UPDATE, NOTIFICATION, KEEPALIVE):
            return f"type {kind}, which `decode` does not have"
        if len(message) > MOST:
            return f"a length of {len(message)}, above 4,096 (RFC 8654)"
        if kind == OPEN and has_long_parameters(message):
            return "long parameters (RFC 9072)"
        return self.reason_of_update(message) if kind == UPDATE else ""


# messages of a side ----------------------------------------------------------------------------------------------------


def runs(pieces):
    """Pieces joined where they touch: where each run begins, its octets, and the piece in which each of its octets stands."""
    made = []
    for piece in pieces:
        if not made or made[-1][0] + len(made[-1][1]) != piece.start:
            made.append((piece.start, bytearray(), []))
        made[-1][2].append((len(made[-1][1]), piece.number))
        made[-1][1].extend(piece.octets)
    return made


def begins(octets, place):
    """Whether a message may begin at a place: a marker, a length and a type that one has."""
    length = int.from_bytes(octets[place + 16:place + 18], "big")
    return octets.startswith(MARKER, place) and len(octets) >= place + HEAD and HEAD <= length and 1 <= octets[place + 18] <= 5


def next_begin(octets, place):
    while place >= 0 and not begins(octets, place):
        place = octets.find(MARKER, place + 1)
    return place


def may_be(octets, place, reader):
    """Whether the octets at a place have a frame by which they can be passed over: one of BGP's, if not of `decode`'s."""
    length = int.from_bytes(octets[place + 16:place + 18], "big")
    kind = octets[place + 18]
    return octets.startswith(MARKER, place) and length >= HEAD and (
        length <= MOST or reader.long and kind not in (OPEN, KEEPALIVE))


def messages(side, reader, notes):
    """What an end sent, message by message. What cannot be told apart, and what the capture lacks, is told to `notes`."""
    pieces, end, other = side.pieces()
    if other:
        notes.append(f"{other} segments sent something else again than was sent at first; what was sent at first counts")
    reached = 0 if side.start is not None else pieces[0].start if pieces else 0
    whole = side.start is not None
    for start, octets, places in runs(pieces):
        if start > reached:
            notes.append(f"packet {places[0][1]}: the capture lacks {start - reached} octets before it")
        yield from messages_of_run(bytes(octets), places, whole and start == reached, start + len(octets) == end, reader, notes)
        reached, whole = start + len(octets), False
    if reached < end:
        notes.append(f"the capture lacks the last {end - reached} octets")


def messages_of_run(octets, places, in_step, is_last, reader, notes):
    """The messages of octets that have no gap. Where it is not `in_step`, they may begin within a message."""
    place, piece = 0, 0
    if not in_step:
        place = next_begin(octets, 0)
        if place:
            lacking = len(octets) if place < 0 else place
            notes.append(f"packet {places[0][1]}: {lacking} octets left out: they stand before the first whole message")
        if place < 0:
            return
    while place < len(octets):
        while piece + 1 < len(places) and places[piece + 1][0] <= place:
            piece += 1
        number = places[piece][1]
        length = int.from_bytes(octets[place + 16:place + 18], "big")
        if len(octets) >= place + HEAD and not may_be(octets, place, reader):
            yield Said(octets[place:], number, "")  # its fault ends what can be told
            return
        if len(octets) < place + HEAD or len(octets) < place + length:
            rest = octets[place:]
            why = "" if is_last else "the capture lacks the octets behind it"
            if is_last and len(rest) >= HEAD and (length > MOST or not OPEN <= rest[18] <= KEEPALIVE):
                why = f"the capture ends within it, and its length is {length} and its type {rest[18]}"
            yield Said(rest, number, why)
            return
        message = octets[place:place + length]
        yield Said(message, number, reader.reason(message))
        place += length


def first_open(side):
    """The OPEN of an end, or None where the capture does not have it."""
    nothing = Reader(None, None, False)
    found = next(messages(side, nothing, []), None)
    if found is None or len(found.octets) < 29 or found.octets[18] != OPEN or not found.octets.startswith(MARKER):
        return None
    return found.octets


def said_by(connection, end, wide, notes):
    """What an end of a session sent, and whether its OPEN is there."""
    own = first_open(connection.sides[end])
    other = first_open(next(side for name, side in connection.sides.items() if name != end))
    return list(messages(connection.sides[end], Reader(own, other, wide), notes)), own is not None


# what is asked for -----------------------------------------------------------------------------------------------------


def name_of(end):
    address, port = end
    return f"[{address}]:{port}" if address.version == 6 else f"{address}:{port}"


def name_of_type(octets):
    return TYPES.get(octets[18], f"type {octets[18]}") if len(octets) >= HEAD else "a part of a message"


def lines_of(number, connection):
    """The lines of the list on one session."""
    when = datetime.datetime.fromtimestamp(connection.time, datetime.timezone.utc).strftime("%Y-%m-%dT%H:%M:%SZ")
    for end, other in zip(connection.sides, reversed(connection.sides)):
        notes = []
        found, _ = said_by(connection, end, False, notes)
        types = collections.Counter(name_of_type(it.octets) for it in found)
        left = sum(bool(it.reason) for it in found)
        said = ", ".join(f"{kind} {count}" for kind, count in sorted(types.items())) or "nothing"
        lacking = ", octets lacking" if any("lacks" in note for note in notes) else ""
        yield f"{number} from {name_of(end)} to {name_of(other)} at {when}: {said}; left out {left}{lacking}"


def end_of(text):
    """The address and the port, or None, that `--from` names."""
    address, _, port = text.rpartition(":") if text.count(":") == 1 or text.startswith("[") and "]:" in text else (text, "", "")
    try:
        return ipaddress.ip_address(address.strip("[]")), int(port) if port else None
    except ValueError:
        raise argparse.ArgumentTypeError(f"{text!r} is no address, and no address with a port") from None


def chosen(found, session, wanted):
    """The session and the end that are asked for."""
    numbered = [it for it in enumerate(found, 1) if session in (None, it[0])]
    if not numbered:
        raise segments.Fault(f"no session {session}; there are {len(found)}")
    choices = [(number, connection, end) for number, connection in numbered for end, side in connection.sides.items()
               if any(it.length for it in side.segments) and (wanted is None or wanted in (end, (end[0], None)))]
    if len(choices) == 1:
        return choices[0]
    if not choices:
        said = f"by {name_of(wanted) if wanted[1] else wanted[0]}" if wanted else "by either end"
        raise segments.Fault(f"nothing was sent {said} in what is asked for; --list shows what there is")
    several = sorted({number for number, _, _ in choices})
    if len(several) > 1:
        raise segments.Fault(f"there are {len(several)} sessions; say which by --session; --list shows them")
    names = " or ".join(f"--from {name_of(end) if wanted else end[0]}" for _, _, end in choices)
    if len({end[0] for _, _, end in choices}) < len(choices):
        names = " or ".join(f"--from {name_of(end)}" for _, _, end in choices)
    raise segments.Fault(f"both ends of session {several[0]} sent messages; say {names}")


def written(found, begins_wide):
    """The lines of digits."""
    lines = [NOBODY.hex()] if begins_wide else []
    lines += [it.octets.hex() for it in found if not it.reason]
    return "".join(line + "\n" for line in lines)


def extract(connection, end, wide, notes):
    """The digits of what an end sent; what is to be known of them is told to `notes`."""
    found, has_open = said_by(connection, end, wide, notes)
    for place, it in enumerate(found, 1):
        if it.reason:
            kind = name_of_type(it.octets)
            notes.append(f"packet {it.number}: message {place}, {kind} of {len(it.octets)} octets, left out: {it.reason}")
    if not has_open and not wide and any(len(it.octets) >= HEAD and it.octets[18] == UPDATE for it in found):
        notes.append("the OPEN is not there, so `decode` reads numbers of autonomous systems of two octets; --wide makes it four")
    text = written(found, wide and not has_open)
    if len(text) > LARGEST:
        notes.append(f"what is written has {len(text)} octets, and the program takes {LARGEST}")
    return text


def words():
    usage = __doc__.split("usage: ")[1].split("\n\n")[0]
    parser = argparse.ArgumentParser(usage=usage, add_help=False)
    parser.add_argument("file")
    parser.add_argument("--list", action="store_true")
    parser.add_argument("--session", type=int)
    parser.add_argument("--from", dest="end", type=end_of)
    parser.add_argument("--port", type=int, default=179)
    parser.add_argument("--wide", action="store_true")
    return parser.parse_args()


def main():
    if {"--help", "-h"} & set(sys.argv[1:]):
        print(__doc__.strip())
        return 0
    given, notes, status = words(), [], 0
    name = "standard input" if given.file == "-" else given.file
    try:
        data = sys.stdin.buffer.read() if given.file == "-" else open(given.file, "rb").read()
        found = segments.connections(segments.segments(data, notes), given.port)
        if not found:
            raise segments.Fault(f"no TCP session of port {given.port}")
        if given.list:
            sys.stdout.writelines(f"{line}\n" for number, it in enumerate(found, 1) for line in lines_of(number, it))
        else:
            _, connection, end = chosen(found, given.session, given.end)
            sys.stdout.write(extract(connection, end, given.wide, notes))
    except (OSError, segments.Fault) as fault:
        notes.append(fault.strerror if isinstance(fault, OSError) else str(fault))
        status = 1
    for note in notes:
        print(f"{name}: {note}", file=sys.stderr)
    return status


if __name__ == "__main__":
    signal.signal(signal.SIGPIPE, signal.SIG_DFL)  # for who reads the first lines alone
    sys.exit(main())
