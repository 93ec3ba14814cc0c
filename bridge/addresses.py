"""Addresses as octets, and those that Ethernet frames tell of."""
from __future__ import annotations

import socket

ARP, IPV6 = b"\x08\x06", b"\x86\xdd"  # EtherTypes
ICMPV6, ADVERTISEMENT = 58, 136


def packed(address: str) -> bytes:
    return socket.inet_pton(socket.AF_INET6 if ":" in address else socket.AF_INET, address)


def solicited_node(address: str) -> bytes:
    """The group by which solicitations for an IPv6 address come (RFC 4291, section 2.7.1)."""
    return packed("ff02::1:ff00:0")[:13] + packed(address)[13:]


def told_by(frame: bytes) -> bytes | None:
    """The address that a frame says to be the sender's, by ARP (RFC 826: its sender protocol
    address) or by a neighbor advertisement (RFC 4861, section 4.4: its target); else nothing."""
    kind, size = frame[12:14], len(frame)
    if kind == ARP and size >= 42:
        return frame[28:32]
    if kind == IPV6 and size >= 78 and (frame[20], frame[54]) == (ICMPV6, ADVERTISEMENT):
        return frame[62:78]
    return None
