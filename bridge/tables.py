"""What a peer was told of routes: the UPDATE messages that a program writes, read, and made anew
(RFC 4271, section 4.3; RFC 4760)."""
from __future__ import annotations

import struct
from collections.abc import Callable, Iterable, Iterator, Mapping, Sequence

from bgp import IPV4, IPV6, LONGEST, UPDATE, Family, message

NEXT_HOP, REACHED, UNREACHED = 3, 14, 15  # path attributes
EXTENDED = 0x10  # the flag of a length of two octets
OPTIONAL = 0x80
Attribute = tuple[int, int, bytes]  # flags but EXTENDED, type, value
Terms = tuple[Attribute, ...]  # those of a route
Hops = Mapping[Family, bytes]  # next hops in place of the program's


def attributes_in(octets: bytes) -> Iterator[Attribute]:
    """The path attributes, each with its flags, its type and its value."""
    while octets:
        if octets[0] & EXTENDED:
            size, start = int.from_bytes(octets[2:4], "big"), 4
        else:
            size, start = octets[2], 3
        yield octets[0] & ~EXTENDED, octets[1], octets[start:start + size]
        octets = octets[start + size:]


def attribute(flags: int, kind: int, value: bytes) -> bytes:
    if len(value) < 256:
        return struct.pack(">BBB", flags, kind, len(value)) + value
    return struct.pack(">BBH", flags | EXTENDED, kind, len(value)) + value


def parts_of(octets: bytes) -> tuple[bytes, list[Attribute], bytes]:
    """The parts of an UPDATE message: the withdrawn IPv4 prefixes, the attributes, and the
    announced prefixes."""
    gone = 21 + int.from_bytes(octets[19:21], "big")
    attributes = gone + 2 + int.from_bytes(octets[gone:gone + 2], "big")
    return octets[21:gone], list(attributes_in(octets[gone + 2:attributes])), octets[attributes:]


def update(withdrawn: bytes, attributes: Iterable[Attribute], announced: bytes) -> bytes:
    told = b"".join(attribute(*one) for one in attributes)
    body = struct.pack(">H", len(withdrawn)) + withdrawn + struct.pack(">H", len(told)) + told
    return message(UPDATE, body + announced)


def prefixes_in(octets: bytes) -> Iterator[bytes]:
    while octets:
        size = 1 + (octets[0] + 7) // 8
        yield octets[:size]
        octets = octets[size:]


def family_of(octets: bytes) -> Family:
    """Of which family an UPDATE message tells: the program's are of one."""
    kinds = {kind for _, kind, _ in parts_of(octets)[1]}
    return IPV6 if kinds & {REACHED, UNREACHED} else IPV4


def by_hops(terms: Iterable[Attribute], hops: Hops) -> Iterator[Attribute]:
    """The attributes with these next hops, of the families for which there is one."""
    for flags, kind, value in terms:
        if kind == NEXT_HOP and IPV4 in hops:
            value = hops[IPV4]
        elif kind == REACHED and IPV6 in hops:
            value = value[:3] + bytes([len(hops[IPV6])]) + hops[IPV6] + value[4 + value[3]:]
        yield flags, kind, value


def told_by_hops(octets: bytes, hops: Hops) -> bytes:
    """An UPDATE message with these next hops."""
    if not hops:
        return octets
    withdrawn, attributes, announced = parts_of(octets)
    return update(withdrawn, by_hops(attributes, hops), announced)


def withdrawing(family: Family, prefixes: bytes) -> bytes:
    """The message that withdraws the prefixes of the family; without any it says that all was told
    (End-of-RIB: RFC 4724, section 2)."""
    if family == IPV6:
        return update(b"", [(OPTIONAL, UNREACHED, family[:2] + family[3:] + prefixes)], b"")
    return update(prefixes, (), b"")


def announcing(family: Family, terms: Iterable[Attribute], prefixes: bytes) -> bytes:
    """The message that announces the prefixes of the family with these attributes; IPv6 ones stand
    in one of them, after the next hop."""
    if family == IPV4:
        return update(b"", terms, prefixes)
    inside = ((flags, kind, value + prefixes if kind == REACHED else value)
              for flags, kind, value in terms)
    return update(b"", inside, b"")


def in_messages(form: Callable[[bytes], bytes], prefixes: Iterable[bytes]) -> Iterator[bytes]:
    """The prefixes in as few messages as they fit."""
    room = LONGEST - len(form(b"")) - 2  # a longer attribute may have a length of two octets
    told: list[bytes] = []
    size = 0
    for prefix in prefixes:
        if size + len(prefix) > room:
            yield form(b"".join(told))
            told, size = [], 0
        told.append(prefix)
        size += len(prefix)
    if told:
        yield form(b"".join(told))


class Table:
    """The routes that a peer is to know, of each family by the octets of their prefixes: what the
    messages to it come to."""

    def __init__(self) -> None:
        self.routes: dict[Family, dict[bytes, Terms]] = {IPV4: {}, IPV6: {}}

    def read(self, octets: bytes) -> None:
        """Takes in one UPDATE message."""
        withdrawn, attributes, announced = parts_of(octets)
        values = {kind: value for _, kind, value in attributes}
        for prefix in prefixes_in(withdrawn):
            self.routes[IPV4].pop(prefix, None)
        for prefix in prefixes_in(values.get(UNREACHED, IPV6)[3:]):
            self.routes[IPV6].pop(prefix, None)
        terms = tuple(attributes)
        for prefix in prefixes_in(announced):
            self.routes[IPV4][prefix] = terms
        if (reached := values.get(REACHED)) is not None:
            end = 5 + reached[3]  # AFI, SAFI, the next hop's length, that, and a reserved octet
            terms = tuple((flags, kind, reached[:end] if kind == REACHED else value)
                          for flags, kind, value in attributes)
            for prefix in prefixes_in(reached[end:]):
                self.routes[IPV6][prefix] = terms

    def messages(self, families: Sequence[Family], hops: Hops,
                 before: Table | None = None) -> Iterator[bytes]:
        """The messages that tell all routes of these families to a peer that has none, or that has
        those of the table before."""
        for family in families:
            now, old = self.routes[family], before.routes[family] if before else {}
            groups: dict[Terms, list[bytes]] = {}
            for prefix, terms in now.items():
                if old.get(prefix) != terms:
                    groups.setdefault(terms, []).append(prefix)
            for terms, prefixes in groups.items():
                told = tuple(by_hops(terms, hops))
                yield from in_messages(announcing_by(family, told), prefixes)
            gone = (prefix for prefix in old if prefix not in now)
            yield from in_messages(withdrawing_of(family), gone)


def announcing_by(family: Family, terms: Terms) -> Callable[[bytes], bytes]:
    return lambda prefixes: announcing(family, terms, prefixes)


def withdrawing_of(family: Family) -> Callable[[bytes], bytes]:
    return lambda prefixes: withdrawing(family, prefixes)
