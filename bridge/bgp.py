"""BGP messages (RFC 4271): OPEN, KEEPALIVE, NOTIFICATION and ROUTE-REFRESH, and what is wrong with
those that a peer sends, as section 6 says. UPDATE messages are the program's (tables.py)."""
from __future__ import annotations

import asyncio
import socket
import struct
from collections.abc import Iterator, Sequence
from dataclasses import dataclass

OPEN, UPDATE, NOTIFICATION, KEEPALIVE, REFRESH = 1, 2, 3, 4, 5
MARKER, HEAD, LONGEST = b"\xff" * 16, 19, 4096
# Octets of a message of each kind (RFC 4271, section 4; RFC 2918, section 3).
SMALLEST = {OPEN: 29, UPDATE: 23, NOTIFICATION: 21, KEEPALIVE: HEAD, REFRESH: 23}
LARGEST = {KEEPALIVE: HEAD, REFRESH: 23}
# Capabilities (RFC 5492): routes of a family, their being told again, restarts, AS numbers.
ROUTES, REFRESHES, RESTART, FOUR_OCTET_NUMBERS = 1, 2, 64, 65
RESTART_SECONDS = 120  # for which a peer keeps routes while there's no session (RFC 4724)
VERSION, AS_TRANS, CAPABILITIES = 4, 23456, 2
Family = bytes  # the value of ROUTES: AFI, a zero, SAFI (RFC 4760, section 8)
IPV4: Family = b"\0\1\0\1"
IPV6: Family = b"\0\2\0\1"

# NOTIFICATION codes (RFC 4271, section 4.5; RFC 6608; RFC 4486; RFC 9384; RFC 9687)
NOT_SYNCHRONIZED, BAD_LENGTH, BAD_TYPE = (1, 1), (1, 2), (1, 3)
OPEN_FAULT, BAD_VERSION, BAD_PEER_AS, BAD_IDENTIFIER = (2, 0), (2, 1), (2, 2), (2, 3)
BAD_PARAMETER, BAD_HOLD_TIME, BAD_CAPABILITY = (2, 4), (2, 6), (2, 7)
MALFORMED_ATTRIBUTES, HOLD_TIME_OVER = (3, 1), (4, 0)
NO_OPEN_EXPECTED, NO_KEEPALIVE_EXPECTED, UNEXPECTED_WHILE_UP = (5, 1), (5, 2), (5, 3)
SHUTDOWN, PATH_DOWN, SEND_TIME_OVER = (6, 2), (6, 10), (8, 0)
NAMES = {1: "message header error", 2: "OPEN message error", 3: "UPDATE message error",
         4: "hold timer expired", 5: "finite state machine error", 6: "cease",
         7: "ROUTE-REFRESH message error", 8: "send hold timer expired"}
Notice = tuple[int, ...]  # code, subcode, data


class SessionEnded(Exception):
    """The session is over. `notice` is what the peer is to be told, its code, subcode and data."""

    def __init__(self, reason: str, notice: Notice | None = None) -> None:
        super().__init__(reason)
        self.notice = notice


def message(kind: int, body: bytes = b"") -> bytes:
    return MARKER + struct.pack(">HB", HEAD + len(body), kind) + body


def notification(notice: Notice) -> bytes:
    return message(NOTIFICATION, bytes(notice))


def name_of(notice: bytes) -> str:
    """What a NOTIFICATION says, for the operator."""
    code, subcode = notice[0], notice[1]
    return f"{NAMES.get(code, 'unknown error')} ({code}, {subcode})"


def family_in(value: bytes) -> Family:
    """The family of AFI, a reserved octet, and SAFI."""
    return value[:2] + b"\0" + value[3:4]


@dataclass(frozen=True)
class Offer:
    """What is offered in an OPEN. `restarts`: nothing, or that routes are to be kept where the
    session ends without a word, and whether it is the first since this side started."""
    number: int
    hold: int
    identifier: str
    families: Sequence[Family]
    restarts: bool | None = None


def open_message(offer: Offer) -> bytes:
    """An OPEN with the capabilities that the messages need: routes of the families (RFC 4760,
    section 8), four-octet AS numbers (RFC 6793, section 3), routes told again (RFC 2918), and
    restarts (RFC 4724, section 3). Packets go on then: it isn't the bridge that forwards them."""
    kinds = [(ROUTES, family) for family in offer.families] + [(REFRESHES, b"")]
    kinds.append((FOUR_OCTET_NUMBERS, struct.pack(">I", offer.number)))
    if offer.restarts is not None:
        kept = b"".join(family[:2] + family[3:] + b"\x80" for family in offer.families)
        kinds.append((RESTART, struct.pack(">H", 0x8000 * offer.restarts | RESTART_SECONDS) + kept))
    told = b"".join(struct.pack(">BB", kind, len(value)) + value for kind, value in kinds)
    options = struct.pack(">BB", CAPABILITIES, len(told)) + told
    short = offer.number if offer.number < 65536 else AS_TRANS
    identifier = socket.inet_aton(offer.identifier)
    head = struct.pack(">BHH4sB", VERSION, short, offer.hold, identifier, len(options))
    return message(OPEN, head + options)


@dataclass(frozen=True)
class Open:
    """What a peer's OPEN says. The families are those whose routes it takes, IPv4 alone where it
    names none (RFC 4760, section 8)."""
    hold: int
    number: int
    families: frozenset[Family]
    restarts: bool


def read_open(body: bytes, own: str, own_number: int) -> Open:
    """Reads an OPEN's body. `own` and `own_number` are this side's identifier and AS number. One
    that isn't as stated is answered as RFC 4271, section 6.2, says."""
    if len(body) < SMALLEST[OPEN] - HEAD:
        raise SessionEnded(f"an OPEN of {len(body)} octets", BAD_LENGTH + (0, HEAD + len(body)))
    version, short, hold, identifier, size = struct.unpack(">BHH4sB", body[:10])
    if version != VERSION:
        raise SessionEnded(f"its version is {version}", BAD_VERSION + (0, VERSION))
    if hold in (1, 2):
        raise SessionEnded(f"its hold time is {hold} s", BAD_HOLD_TIME)
    number, families, restarts = None, set(), False
    for kind, value in capabilities_in(body[10:], size):
        if kind == FOUR_OCTET_NUMBERS and len(value) == 4:
            number = int.from_bytes(value, "big")
        elif kind == ROUTES and len(value) == 4:
            families.add(family_in(value))
        elif kind in (FOUR_OCTET_NUMBERS, ROUTES):
            raise SessionEnded(f"a capability of {len(value)} octets can't be read", OPEN_FAULT)
        restarts |= kind == RESTART
    if short == 0 or number == 0:
        raise SessionEnded("its AS number is 0", BAD_PEER_AS)
    if number is None:
        wanted = (FOUR_OCTET_NUMBERS, 4, *own_number.to_bytes(4, "big"))
        raise SessionEnded("the peer has no four-octet AS numbers", BAD_CAPABILITY + wanted)
    # Two of one AS alone must have different ones (RFC 6286, section 2.2).
    is_own = number == own_number and identifier == socket.inet_aton(own)
    if identifier == bytes(4) or is_own:
        raise SessionEnded(f"its identifier is {socket.inet_ntoa(identifier)}", BAD_IDENTIFIER)
    return Open(hold, number, frozenset(families) or frozenset({IPV4}), restarts)


def capabilities_in(octets: bytes, size: int) -> Iterator[tuple[int, bytes]]:
    """The capabilities in an OPEN's optional parameters, with lengths of one octet or of two
    (RFC 9072)."""
    wide = size == 255 and octets[:1] == b"\xff"
    if wide:
        size, octets = int.from_bytes(octets[1:3], "big"), octets[3:]
    if size != len(octets):
        text = f"its optional parameters are of {len(octets)} octets, not {size}"
        raise SessionEnded(text, OPEN_FAULT)
    for kind, value in entries_in(octets, 2 if wide else 1):
        if kind != CAPABILITIES:
            raise SessionEnded(f"it has an optional parameter {kind}", BAD_PARAMETER)
        yield from entries_in(value, 1)


def entries_in(octets: bytes, width: int) -> Iterator[tuple[int, bytes]]:
    """Entries of a type, a length and a value, one after the other."""
    while octets:
        size = int.from_bytes(octets[1:1 + width], "big")
        if len(octets) < 1 + width + size:
            raise SessionEnded("its optional parameters can't be read", OPEN_FAULT)
        yield octets[0], octets[1 + width:1 + width + size]
        octets = octets[1 + width + size:]


def read_head(head: bytes) -> tuple[int, int]:
    """The kind and the size of a message; a head that isn't as stated is answered as RFC 4271,
    section 6.1, says."""
    size, kind = struct.unpack(">HB", head[16:])
    if head[:16] != MARKER:
        raise SessionEnded("what came is no BGP message", NOT_SYNCHRONIZED)
    if not SMALLEST.get(kind, HEAD) <= size <= LARGEST.get(kind, LONGEST):
        notice = BAD_LENGTH + tuple(head[16:18])
        raise SessionEnded(f"a message of kind {kind} and {size} octets", notice)
    if kind not in SMALLEST:
        raise SessionEnded(f"a message of kind {kind}", BAD_TYPE + (kind,))
    return kind, size


def check_update(body: bytes) -> None:
    """Whether the lengths of an UPDATE fit in it (RFC 4271, section 6.3). What else may be wrong in
    one concerns routes, and none is taken: so it comes to what RFC 7606 calls treat-as-withdraw."""
    gone = int.from_bytes(body[:2], "big")
    attributes = int.from_bytes(body[2 + gone:4 + gone], "big")
    if 4 + gone + attributes > len(body):
        raise SessionEnded("the lengths in an UPDATE are past its end", MALFORMED_ATTRIBUTES)


async def next_message(reader: asyncio.StreamReader) -> tuple[int, bytes]:
    """The kind and the body of the next message. A NOTIFICATION ends the session, and isn't
    answered."""
    try:
        kind, size = read_head(await reader.readexactly(HEAD))
        body = await reader.readexactly(size - HEAD)
    except EOFError as fault:
        raise SessionEnded("the peer ended the connection") from fault
    if kind == NOTIFICATION:
        raise SessionEnded(f"the peer ended it: {name_of(body)}")
    if kind == UPDATE:
        check_update(body)
    return kind, body
