"""The socket filter by which the kernel passes what asks for announced addresses, and nothing else
(Linux, Documentation/networking/filter)."""
from __future__ import annotations

import struct
from collections.abc import Iterable, Sequence

from addresses import packed

RANGES = 300  # of each family: six steps each, and a filter may have 4,096
LOAD_WORD, LOAD_HALF, LOAD_OCTET = 0x20, 0x28, 0x30
GO, EQUAL, ABOVE, NOT_BELOW, AND = 0x05, 0x15, 0x25, 0x35, 0x54
Step = tuple[int, int, int, int]  # code, steps to skip where it holds and where it doesn't, number
KEPT, DROPPED = (0x06, 0, 0, 0xFFFF), (0x06, 0, 0, 0)
# What the kernel knows of a frame, by its places: whom it is to, the tag that was taken off, and
# whether one was.
PACKET_TYPE, VLAN_TAG, HAS_TAG = 0xFFFFF004, 0xFFFFF02C, 0xFFFFF030
VLAN_NUMBER = 0xFFF  # of a tag; with 0 it tells a priority alone (IEEE 802.1Q, 9.6)


def ranges_of(addresses: Iterable[str]) -> list[tuple[int, int]]:
    """The last four octets of the addresses, as ranges. Of too many ranges those that are closest
    are joined: then the kernel passes more."""
    numbers = sorted({int.from_bytes(packed(address)[-4:], "big") for address in addresses})
    ranges: list[tuple[int, int]] = []
    for number in numbers:
        if ranges and ranges[-1][1] + 1 == number:
            ranges[-1] = ranges[-1][0], number
        else:
            ranges.append((number, number))
    if len(ranges) <= RANGES:
        return ranges
    gaps = sorted(range(1, len(ranges)), key=lambda at: ranges[at - 1][1] - ranges[at][0])
    ends = [0, *sorted(gaps[:RANGES - 1]), len(ranges)]
    return [(ranges[begin][0], ranges[end - 1][1]) for begin, end in zip(ends, ends[1:])]


def search(ranges: Sequence[tuple[int, int]]) -> list[Step]:
    """The steps that keep a frame whose loaded word is in one of the ranges."""
    if not ranges:
        return [DROPPED]
    if len(ranges) == 1:
        first, last = ranges[0]
        return [(NOT_BELOW, 0, 1, first), (ABOVE, 0, 1, last), DROPPED, KEPT]
    middle = len(ranges) // 2
    lower, upper = search(ranges[:middle]), search(ranges[middle:])
    return [(NOT_BELOW, 1, 0, ranges[middle][0]), (GO, 0, 0, len(upper)), *upper, *lower]


def filter_for(addresses: Sequence[str]) -> list[Step]:
    """Frames to this host, of no VLAN, that are ARP requests or neighbor solicitations for
    one of the addresses, as far as their last four octets say."""
    narrow = [address for address in addresses if ":" not in address]
    wide = [address for address in addresses if ":" in address]
    arp = [(LOAD_WORD, 0, 0, 38), *search(ranges_of(narrow))]  # target protocol address
    neighbor = [(LOAD_WORD, 0, 0, 74), *search(ranges_of(wide))]  # target address
    return [
        (LOAD_WORD, 0, 0, PACKET_TYPE),  # to this host, to all, or to a group: each less than 3
        (ABOVE, 0, 1, 2),
        DROPPED,
        (LOAD_WORD, 0, 0, HAS_TAG),
        (EQUAL, 4, 0, 0),
        (LOAD_WORD, 0, 0, VLAN_TAG),
        (AND, 0, 0, VLAN_NUMBER),
        (EQUAL, 1, 0, 0),
        DROPPED,
        (LOAD_HALF, 0, 0, 12),  # EtherType
        (EQUAL, 0, 4, 0x0806),
        (LOAD_HALF, 0, 0, 20),  # ARP's operation (RFC 826)
        (EQUAL, 1, 0, 1),
        DROPPED,
        (GO, 0, 0, 7),
        (EQUAL, 0, 5, 0x86DD),
        (LOAD_OCTET, 0, 0, 20),  # IPv6's next header
        (EQUAL, 0, 3, 58),
        (LOAD_OCTET, 0, 0, 54),  # ICMPv6's type (RFC 4861, section 4.3)
        (EQUAL, 0, 1, 135),
        (GO, 0, 0, 1 + len(arp)),
        DROPPED,
        *arp,
        *neighbor,
    ]


def code_of(steps: Sequence[Step]) -> bytes:
    """The steps as the kernel takes them (struct sock_filter)."""
    return b"".join(struct.pack("HBBI", *step) for step in steps)
