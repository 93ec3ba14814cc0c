"""What one node says to another of itself, as octets.

A datagram is MARK, the sender's boot (random at each start) and number (one more each time), the
receiver's boot and number as the sender heard them last, in how many milliseconds the next one
comes, flags, names, each with its length ahead of it, and an HMAC of all this. The first name is
the sender's, and the others are those of nodes that it doesn't hear any more."""
from __future__ import annotations

import hmac
import struct
from collections.abc import Iterator, Sequence
from dataclasses import dataclass

BOOT, SIGN = 8, 16  # octets
MARK, HEAD = b"sut2", struct.Struct(">4s8sQ8sQHB")
SERVES, ASKS = 1, 2  # flags
LONGEST_NAME = 253  # octets of a node's name (RFC 1123)
MOST_NAMES = 1000  # octets of the names after the first, so that it isn't sent in pieces


@dataclass(frozen=True)
class Datagram:
    """What one node says to another. `heard_boot` and `heard_number` are the receiver's, zeros
    where it wasn't heard yet. `pause`: seconds until the next one. `asks`: it is to be answered at
    once. `lost`: nodes that the sender heard until lately."""
    boot: bytes
    number: int
    heard_boot: bytes
    heard_number: int
    pause: float
    serves: bool
    node: str
    asks: bool = False
    lost: tuple[str, ...] = ()


def signature(key: bytes, body: bytes) -> bytes:
    """The first octets of an HMAC-SHA-256 (RFC 2104)."""
    return hmac.digest(key, body, "sha256")[:SIGN]


def named(names: Sequence[str]) -> bytes:
    """Names, each with its length ahead of it."""
    return b"".join(bytes([len(name)]) + name for name in (name.encode() for name in names))


def as_many_as_fit(names: Sequence[str]) -> tuple[str, ...]:
    """The first of these names, of which a datagram has no more than MOST_NAMES octets."""
    fitting: list[str] = []
    for name in names:
        if len(named([*fitting, name])) > MOST_NAMES:
            break
        fitting.append(name)
    return tuple(fitting)


def names_in(octets: bytes) -> Iterator[str]:
    while octets:
        yield octets[1:1 + octets[0]].decode(errors="replace")
        octets = octets[1 + octets[0]:]


def written(said: Datagram, key: bytes) -> bytes:
    """The octets of a datagram."""
    pause = min(0xFFFF, round(1000 * said.pause))
    head = HEAD.pack(MARK, said.boot, said.number, said.heard_boot, said.heard_number, pause,
                     SERVES * said.serves | ASKS * said.asks)
    body = head + named((said.node, *said.lost))
    return body + signature(key, body)


def read(octets: bytes, keys: Sequence[bytes]) -> Datagram | None:
    """What a datagram says, or nothing where no key has signed it, or where it is none of these."""
    body, sign = octets[:-SIGN], octets[-SIGN:]
    if not HEAD.size < len(body) <= HEAD.size + 1 + LONGEST_NAME + MOST_NAMES:
        return None
    if not any(hmac.compare_digest(sign, signature(key, body)) for key in keys):
        return None
    mark, boot, number, heard_boot, heard_number, pause, flags = HEAD.unpack_from(body)
    if mark != MARK or not pause:
        return None
    node, *lost = names_in(body[HEAD.size:])
    return Datagram(boot, number, heard_boot, heard_number, pause / 1000, bool(flags & SERVES),
                    node, bool(flags & ASKS), tuple(lost))
