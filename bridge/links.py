"""The links of a node: what an interface receives and sends by AF_PACKET, the multicast groups that
solicitations come by, and which interfaces there are."""
from __future__ import annotations

import argparse
import asyncio
import contextlib
import ctypes
import logging
import os
import pathlib
import re
import socket
import struct
from collections.abc import Collection, Iterator, Sequence
from typing import Protocol

from addresses import solicited_node
from common import Stop
from filters import code_of, filter_for
from interfaces import NETLINK_ROUTE, Shown, interfaces, wholes

LOG = logging.getLogger("bridge")
ATTACH_FILTER, ALL_PROTOCOLS = 26, 3
LONGEST, SHORTEST = 65536, 60  # octets of a frame that is read, and of one that is sent
MOST = 16  # interfaces of a program
# Interfaces that a cluster makes for its pods, or a host for its virtual machines.
MADE = re.compile("cbr|cali|cilium|cni|docker|dummy|flannel|kube-|lxc|nodelocaldns|tunl|veth|virbr"
                  "|vxlan")
GROUP_LINK = 1  # rtnetlink: changes of interfaces


class AnyLink(Protocol):
    """A link of the node."""
    name: str
    hardware: str

    async def received(self) -> bytes: ...

    def send(self, frame: bytes) -> None: ...

    def listen_to(self, addresses: list[str]) -> None: ...

    def is_another(self) -> bool: ...

    def is_up(self) -> bool: ...

    def renew(self) -> None: ...

    def close(self) -> None: ...


class Interface:
    """An interface of the node, whatever the kernel has by that name: a card, a VLAN, a bond.
    `asked` is the hardware address that the operator names in place of its own."""

    def __init__(self, name: str, asked: str = "") -> None:
        self.name, self.asked = name, asked
        self.open()

    def open(self) -> None:
        self.index = 0  # none, until all is open
        self.joined: set[bytes] = set()
        self.groups: dict[int, socket.socket] = {}
        self.frames = socket.socket(socket.AF_PACKET, socket.SOCK_RAW, 0)
        try:
            index = socket.if_nametoindex(self.name)
            self.filter([])  # ahead of the binding, so that nothing comes that isn't asked for
            self.frames.bind((self.name, ALL_PROTOCOLS))
        except OSError:
            self.frames.close()
            raise
        self.frames.setblocking(False)
        self.index, self.hardware = index, self.asked or self.own_hardware()

    def own_hardware(self) -> str:
        octets: bytes = self.frames.getsockname()[4]
        return octets.hex(":")

    def filter(self, addresses: list[str]) -> None:
        code = code_of(filter_for(addresses))
        held = ctypes.create_string_buffer(code)
        program = struct.pack("HP", len(code) // 8, ctypes.addressof(held))  # struct sock_fprog
        self.frames.setsockopt(socket.SOL_SOCKET, ATTACH_FILTER, program)

    def is_another(self) -> bool:
        """Whether an interface of this name is there that isn't the one listened at, as after one
        was taken away and made anew, or that has another hardware address. From the old one nothing
        comes any more."""
        with contextlib.suppress(OSError):
            is_anew = socket.if_nametoindex(self.name) != self.index
            return is_anew or not self.asked and self.own_hardware() != self.hardware
        return False

    def is_up(self) -> bool:
        """Whether frames can pass, as far as the kernel knows."""
        with contextlib.suppress(OSError):
            state = pathlib.Path(f"/sys/class/net/{self.name}/operstate").read_text().strip()
            return state not in ("down", "lowerlayerdown", "notpresent")
        return False

    def renew(self) -> None:
        self.close()
        self.open()

    async def received(self) -> bytes:
        return await asyncio.get_running_loop().sock_recv(self.frames, LONGEST)

    def send(self, frame: bytes) -> None:
        """Sends a frame, padded as Ethernet asks. One that can't be sent is lost, as on a wire."""
        with contextlib.suppress(OSError):
            self.frames.send(frame.ljust(SHORTEST, b"\0"))

    def listen_to(self, addresses: list[str]) -> None:
        """Receives what asks for these addresses, and is of the solicited-node groups of the IPv6
        ones and of no others."""
        try:
            self.filter(addresses)
        except OSError as fault:
            LOG.warning("%s: filter of frames: %s", self.name, fault)
        wanted = {solicited_node(address) for address in addresses if ":" in address}
        for group in wanted - self.joined:
            self.change(socket.IPV6_JOIN_GROUP, group)
        for group in self.joined - wanted:
            self.change(socket.IPV6_LEAVE_GROUP, group)
        self.joined = wanted

    def change(self, change: int, group: bytes) -> None:
        try:
            place = self.socket_for(group)
            place.setsockopt(socket.IPPROTO_IPV6, change, group + struct.pack("I", self.index))
        except OSError as fault:
            LOG.warning("%s: groups of solicitations: %s", self.name, fault)

    def socket_for(self, group: bytes) -> socket.socket:
        """One of several sockets: the kernel lets each be of some hundred groups
        (net.core.optmem_max)."""
        if group[-1] not in self.groups:
            self.groups[group[-1]] = socket.socket(socket.AF_INET6, socket.SOCK_DGRAM)
        return self.groups[group[-1]]

    def close(self) -> None:
        self.frames.close()
        for made in self.groups.values():
            made.close()


class SocketLink:
    """Datagram sockets in an interface's place, for tests: frames come by FOLDER/NODE-NAME, and go
    from FOLDER/NODE-NAME.out to FOLDER/hub. None is lost."""

    def __init__(self, name: str, hardware: str, folder: str, node: str) -> None:
        self.name, self.hardware = name, hardware
        self.path, self.hub = os.path.join(folder, f"{node}-{name}"), os.path.join(folder, "hub")
        self.frames, self.out = self.bound(self.path), self.bound(self.path + ".out")
        self.frames.setblocking(False)

    @staticmethod
    def bound(path: str) -> socket.socket:
        with contextlib.suppress(FileNotFoundError):
            os.unlink(path)
        made = socket.socket(socket.AF_UNIX, socket.SOCK_DGRAM)
        made.bind(path)
        return made

    async def received(self) -> bytes:
        return await asyncio.get_running_loop().sock_recv(self.frames, LONGEST)

    def send(self, frame: bytes) -> None:
        """Waits while the hub has too many frames that it hasn't read."""
        with contextlib.suppress(OSError):
            self.out.sendto(frame, self.hub)

    def listen_to(self, addresses: list[str]) -> None:
        """All frames come."""

    def is_another(self) -> bool:
        return False

    def is_up(self) -> bool:
        return True

    def renew(self) -> None:
        """It is what it was."""

    def close(self) -> None:
        for made, path in ((self.frames, self.path), (self.out, self.path + ".out")):
            made.close()
            with contextlib.suppress(FileNotFoundError):
                os.unlink(path)


def listened_to(shown: Sequence[Shown]) -> Iterator[str]:
    """What `auto` stands for: the Ethernet interfaces that are up, but for those that are made for
    pods and machines, and for those that are part of another one, as of a bond or a bridge. A VLAN
    is one beside the card or the bond that it is of."""
    for one in shown:
        if one.has_neighbors and not one.is_part and not MADE.match(one.name):
            yield one.name


def links_of(options: argparse.Namespace, held: Collection[str] = (),
             shown: Sequence[Shown] | None = None) -> dict[str, AnyLink]:
    """The links that the words name, by their names, but for those that are held. `auto` stands for
    all interfaces, of which a program takes MOST."""
    folders = dict(word.split("=", 1) for word in options.link)
    is_auto = options.interface == ["auto"]
    shown = interfaces() if shown is None else shown
    words = list(listened_to(shown))[:MOST] if is_auto else options.interface
    links: dict[str, AnyLink] = {}
    for word in words:
        name, _, hardware = word.partition("=")
        if name in held:
            continue
        try:
            if name in folders:
                links[name] = SocketLink(name, hardware, folders[name], options.node_name)
            else:
                links[name] = Interface(name, hardware)
                if whole := wholes(shown).get(name):
                    LOG.warning("%s is part of %s: name that one", name, whole)
        except OSError as fault:
            if not is_auto:
                raise Stop(2, f"no link {name}: {fault}") from fault
    return links


def look_at(links: dict[str, AnyLink], options: argparse.Namespace) -> Iterator[str]:
    """What is to be told where the links aren't what they were, and brings them to what they are
    now. An interface that is gone or down stays, as it may be back; one that became part of another
    one doesn't."""
    if options.interface == ["auto"]:
        shown = interfaces()
        for part, whole in wholes(shown).items():
            if part in links:
                links.pop(part).close()
                yield f"{part} is part of {whole} now"
        more = dict(list(links_of(options, links, shown).items())[:MOST - len(links)])
        links |= more
        yield from (f"{name} is an interface now" for name in more)
    for name, link in links.items():
        if link.is_another():
            try:
                link.renew()
            except OSError as fault:  # it went while it was looked at, and is looked at again
                LOG.warning("%s: %s", name, fault)
                continue
            yield f"{name} is another interface now"


class Changes:
    """Waits until the kernel changes an interface (rtnetlink), or for some time."""

    def __init__(self) -> None:
        self.socket: socket.socket | None = None
        with contextlib.suppress(OSError):
            self.socket = socket.socket(socket.AF_NETLINK, socket.SOCK_RAW, NETLINK_ROUTE)
            self.socket.bind((0, GROUP_LINK))
            self.socket.setblocking(False)

    async def until_next(self, patience: float) -> None:
        if self.socket is None:
            await asyncio.sleep(patience)
            return
        with contextlib.suppress(TimeoutError, OSError):
            async with asyncio.timeout(patience):
                await asyncio.get_running_loop().sock_recv(self.socket, LONGEST)

    def close(self) -> None:
        if self.socket:
            self.socket.close()
