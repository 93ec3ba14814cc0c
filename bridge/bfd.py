"""Whether the path to a neighbor is there: BFD, asynchronous, without authentication or echo
(RFC 5880). Nothing here knows of sockets or of the time."""
from __future__ import annotations

import struct
from collections.abc import Mapping
from dataclasses import dataclass, field
from typing import Any

PACKET = struct.Struct(">BBBBIIIII")
VERSION = 1
DOWN_BY_ADMIN, DOWN, INIT, UP = range(4)  # states
POLL, FINAL, MULTIPOINT, SIGNED = 0x20, 0x10, 0x01, 0x04  # flags
NONE, EXPIRED, SIGNALED, BY_ADMIN = 0, 1, 3, 7  # diagnostics
LATE = 0.05  # seconds by which whoever runs looks late at most
SLOW = 1_000_000  # microseconds between packets, at least, while the session isn't up
ONE_HOP_TTL, FAR_TTL = 255, 1  # the least of a neighbor's packets (RFC 5881; over routers: any)


@dataclass(frozen=True)
class Profile:
    """Times in microseconds. `multihop`: over routers (RFC 5883)."""
    transmit: int = 300_000
    receive: int = 300_000
    multiplier: int = 3
    is_passive: bool = False
    multihop: bool = False
    least_ttl: int = ONE_HOP_TTL

    @classmethod
    def of(cls, spec: Mapping[str, Any], multihop: bool = False) -> Profile:
        """The profile of a BFDProfile object, whose times are milliseconds."""
        far = int(spec.get("minimumTtl") or FAR_TTL)
        return cls(1000 * int(spec.get("transmitInterval") or 300),
                   1000 * int(spec.get("receiveInterval") or 300),
                   int(spec.get("detectMultiplier") or 3),
                   bool(spec.get("passiveMode")),
                   multihop,
                   far if multihop else ONE_HOP_TTL)


@dataclass(frozen=True)
class Heard:
    """What a packet says (RFC 5880, section 4.1)."""
    state: int
    flags: int
    multiplier: int
    mine: int
    yours: int
    transmit: int
    receive: int


def read_packet(octets: bytes) -> Heard | None:
    """What a packet says, or nothing where it is to be ignored (RFC 5880, section 6.8.6)."""
    if len(octets) < PACKET.size:
        return None
    first, second, multiplier, size, *rest = PACKET.unpack_from(octets)
    mine, yours, transmit, receive, _echo = rest
    state, flags = second >> 6, second & 0x3F
    is_formed = first >> 5 == VERSION and PACKET.size <= size <= len(octets)
    is_plain = not flags & (MULTIPOINT | SIGNED)
    is_placed = mine and (yours or state <= DOWN)
    if not (is_formed and is_plain and is_placed and multiplier):
        return None
    return Heard(state, flags, multiplier, mine, yours, transmit, receive)


@dataclass
class Machine:
    """One session's state. `mine` is its discriminator, not zero."""
    profile: Profile
    mine: int
    state: int = DOWN
    why: int = NONE  # diagnostic
    polls: bool = False  # whether new times await the neighbor's word
    heard: Heard | None = None
    detection: float = 0.0  # seconds without a packet after which the path isn't there
    expires: float | None = None  # when a packet must have come
    spared: float = 0.0  # seconds that were added since the last packet
    is_faulty: bool = False  # whether the path was up, and was found not to be there
    steps: int = field(default=0)  # how often the state changed

    def transmit(self) -> int:
        return self.profile.transmit if self.state == UP else max(self.profile.transmit, SLOW)

    def pause(self) -> float | None:
        """Seconds until the next packet, before jitter; none while none is to be sent (RFC 5880,
        sections 6.8.1 and 6.8.7)."""
        if self.heard is None:
            return None if self.profile.is_passive else self.transmit() / 1e6
        if self.heard.receive == 0:
            return None
        return max(self.transmit(), self.heard.receive) / 1e6

    def packet(self, flags: int = 0) -> bytes:
        if self.polls and not flags & FINAL:
            flags |= POLL
        yours = self.heard.mine if self.heard else 0
        head = VERSION << 5 | self.why, self.state << 6 | flags
        return PACKET.pack(*head, self.profile.multiplier, PACKET.size, self.mine, yours,
                           self.transmit(), self.profile.receive, 0)

    def take(self, heard: Heard, now: float) -> bool:
        """Takes a packet in, and whether it is to be answered at once. That the neighbor ended its
        session by order, or has made another one, says nothing of the path."""
        if self.state == DOWN_BY_ADMIN:
            return False
        is_other = self.heard is not None and self.heard.mine != heard.mine
        self.heard = heard
        if heard.flags & FINAL:
            self.polls = False
        if heard.state == DOWN_BY_ADMIN:
            self.become(DOWN, SIGNALED, False)
        elif self.state == UP and heard.state == DOWN:
            self.become(DOWN, SIGNALED, not is_other)
        elif self.state == DOWN and heard.state == DOWN:
            self.become(INIT, NONE)
        elif self.state == DOWN and heard.state == INIT:
            self.become(UP, NONE)
        elif self.state == INIT and heard.state in (INIT, UP):
            self.become(UP, NONE)
        self.detection = heard.multiplier * max(self.profile.receive, heard.transmit) / 1e6
        self.expires, self.spared = now + self.detection, 0.0
        return bool(heard.flags & POLL)

    def expire(self, now: float) -> None:
        """Nothing came in time (RFC 5880, section 6.8.4). A neighbor that asked for no packets is
        told again. Who looks late didn't run meanwhile, and what it didn't run counts for nobody's
        absence: the neighbor has that much longer, but in all no more than twice its time, so that
        one that is gone is found by who is always late."""
        if self.expires is None or now < self.expires:
            return
        late, rest = now - self.expires, self.detection - self.spared
        if late > LATE and rest > 0:
            more = min(late, rest)
            self.expires, self.spared = now + more, self.spared + more
            return
        self.expires, self.heard = None, None
        self.become(DOWN, EXPIRED)

    def end(self) -> bool:
        """The session ends by order, and whether the neighbor is to be told."""
        was_there = self.state != DOWN
        self.state, self.why, self.polls = DOWN_BY_ADMIN, BY_ADMIN, False
        return was_there

    def become(self, state: int, why: int, is_fault: bool = True) -> None:
        if state == self.state:
            return
        self.is_faulty |= self.state == UP and is_fault
        self.state, self.why, self.polls = state, why, state == UP
        self.steps += 1
