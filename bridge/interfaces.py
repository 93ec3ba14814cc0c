"""The interfaces of the node as the kernel shows them, and `ip -d link` after it (rtnetlink(7))."""
from __future__ import annotations

import contextlib
import logging
import socket
import struct
from collections.abc import Iterator, Sequence
from dataclasses import dataclass

LOG = logging.getLogger("bridge")
NETLINK_ROUTE = 0
GET_LINK, NEW_LINK, DONE, FAULT = 18, 16, 3, 2  # messages
REQUEST, DUMP = 0x1, 0x300  # flags of a message that asks for all
MESSAGE = struct.Struct("=IHHII")  # struct nlmsghdr: size, kind, flags, sequence, port
LINK = struct.Struct("=BxHiII")  # struct ifinfomsg: family, type, index, flags, change
ATTRIBUTE, NUMBER = struct.Struct("=HH"), struct.Struct("=I")  # struct rtattr: size, kind
KIND_BITS = 0x3FFF  # of an attribute's kind; the others are flags
NAME, MASTER, INFO, INFO_KIND, PART_KIND = 3, 10, 18, 1, 4  # IFLA_IFNAME, IFLA_MASTER, ..
ETHERNET, IS_UP, HAS_NO_ARP = 1, 0x1, 0x80  # ARPHRD_ETHER, IFF_UP, IFF_NOARP
LONGEST, PATIENCE = 1 << 17, 1.0  # octets that are read at once, and seconds until they come
ROUTED = "vrf"  # a member of one receives for itself: only its routes are in another table


@dataclass(frozen=True)
class Shown:
    """An interface. `kind`: such as bond, vlan or bridge, empty for a card. `master`: the index of
    the one that it is part of, or zero, and `part_kind` the kind of that."""
    name: str
    index: int
    form: int
    flags: int
    kind: str = ""
    master: int = 0
    part_kind: str = ""

    @property
    def is_part(self) -> bool:
        """Whether what it receives is another one's, as a bond's or a bridge's."""
        return bool(self.master) and self.part_kind != ROUTED

    @property
    def has_neighbors(self) -> bool:
        """Whether it is one on which neighbors ask for addresses: Ethernet, up, and with ARP."""
        return self.form == ETHERNET and self.flags & (IS_UP | HAS_NO_ARP) == IS_UP


def attributes_in(octets: bytes) -> Iterator[tuple[int, bytes]]:
    """The attributes that stand one after the other, each at a multiple of four octets."""
    while len(octets) >= ATTRIBUTE.size:
        size, kind = ATTRIBUTE.unpack_from(octets)
        if not ATTRIBUTE.size <= size <= len(octets):
            return
        yield kind & KIND_BITS, octets[ATTRIBUTE.size:size]
        octets = octets[-(-size // 4) * 4:]


def text_of(octets: bytes) -> str:
    return octets.rstrip(b"\0").decode(errors="replace")


def read_link(body: bytes) -> Shown | None:
    """The interface that a message shows, or nothing where it can't be read."""
    if len(body) < LINK.size:
        return None
    _, form, index, flags, _ = LINK.unpack_from(body)
    told = dict(attributes_in(body[LINK.size:]))
    info = dict(attributes_in(told.get(INFO, b"")))
    if not told.get(NAME):
        return None
    master, = NUMBER.unpack(told.get(MASTER, b"")[:4].ljust(NUMBER.size, b"\0"))
    return Shown(text_of(told[NAME]), index, form, flags, text_of(info.get(INFO_KIND, b"")),
                 master, text_of(info.get(PART_KIND, b"")))


def messages_in(octets: bytes) -> Iterator[tuple[int, bytes]]:
    """The kinds and bodies of the messages that came at once."""
    while len(octets) >= MESSAGE.size:
        size, kind, *_ = MESSAGE.unpack_from(octets)
        if not MESSAGE.size <= size <= len(octets):
            return
        yield kind, octets[MESSAGE.size:size]
        octets = octets[-(-size // 4) * 4:]


def interfaces() -> list[Shown]:
    """All interfaces, in the kernel's order; none where it doesn't tell them, which is told."""
    found: list[Shown] = []
    try:
        with contextlib.closing(socket.socket(socket.AF_NETLINK, socket.SOCK_RAW,
                                              NETLINK_ROUTE)) as asked:
            asked.settimeout(PATIENCE)
            body = LINK.pack(socket.AF_UNSPEC, 0, 0, 0, 0)
            head = MESSAGE.pack(MESSAGE.size + len(body), GET_LINK, REQUEST | DUMP, 1, 0)
            asked.send(head + body)
            while True:
                for kind, said in messages_in(asked.recv(LONGEST)):
                    if kind == DONE:
                        return found
                    if kind == FAULT:
                        raise OSError("the kernel refuses")
                    if kind == NEW_LINK and (one := read_link(said)):
                        found.append(one)
    except OSError as fault:
        LOG.warning("the interfaces can't be read: %s", fault)
        return []


def wholes(shown: Sequence[Shown]) -> dict[str, str]:
    """Of each interface that is part of another one, by its name, the name of that."""
    names = {one.index: one.name for one in shown}
    return {one.name: names.get(one.master, "another") for one in shown if one.is_part}
