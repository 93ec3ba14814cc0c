"""What the neighbors on a node's links are told: that it has an address, unasked and again, and
answers to those who ask for it."""
from __future__ import annotations

import asyncio
import logging
from collections.abc import Mapping
from typing import Protocol

from addresses import ARP, packed, told_by

LOG = logging.getLogger("bridge")
JOIN_PAUSE = 0.05  # seconds in which the links are told once what is announced, for many together
ARP_TURNS, ARP_PAUSE = 2, 2.0  # RFC 5227, section 2.3
NEIGHBOR_TURNS, NEIGHBOR_PAUSE = 3, 1.0  # RFC 4861, section 7.2.6


class Link(Protocol):
    """What frames are sent by, and which is told for what it is to listen."""
    name: str

    def send(self, frame: bytes) -> None: ...

    def listen_to(self, addresses: list[str]) -> None: ...


def forms_of(frame: bytes) -> list[bytes]:
    """An unasked frame, and of an ARP reply the same as a request, which RFC 5227 asks for."""
    return [frame, frame[:21] + b"\x01" + frame[22:]] if frame[12:14] == ARP else [frame]


class Neighbors:
    """The addresses that the node announces, and the frames that tell of them."""

    def __init__(self, links: Mapping[str, Link]) -> None:
        self.links = links
        self.repeats: dict[str, list[asyncio.Task[None]]] = {}
        self.frames: dict[str, list[tuple[Link, bytes]]] = {}
        self.announced: set[bytes] = set()
        self.newest: str | None = None  # the address of which the next frames tell unasked
        self.joining: asyncio.TimerHandle | None = None
        self.is_late = False
        self.dropped = 0  # answers for addresses that don't stand announced

    def announce(self, address: str) -> None:
        for task in self.repeats.pop(address, []):
            task.cancel()
        self.repeats[address], self.frames[address], self.newest = [], [], address
        self.announced.add(packed(address))
        self.join()

    def withdraw(self, address: str) -> None:
        for task in self.repeats.pop(address, []):
            task.cancel()
        self.frames.pop(address, None)
        self.announced.discard(packed(address))
        self.newest = None
        self.join()

    def join(self) -> None:
        """Tells the links what is announced: at once, or soon where they were told just now."""
        if self.joining:
            self.is_late = True
            return
        self.joining = asyncio.get_running_loop().call_later(JOIN_PAUSE, self.join_late)
        self.is_late = False
        for link in self.links.values():
            link.listen_to(list(self.repeats))

    def join_late(self) -> None:
        self.joining = None
        if self.is_late:
            self.join()

    def took(self) -> None:
        """What follows belongs to another line: a frame that is sent now is an answer until an
        address is announced."""
        self.newest = None

    def send(self, name: str, frame: bytes) -> None:
        """Sends a frame that the program wrote, unless it tells of an address that doesn't stand
        announced: an answer may come after the withdrawal that followed the question."""
        link = self.links.get(name)
        if link is None or told_by(frame) not in self.announced:
            self.dropped += 1
            LOG.debug("%s: a frame for what isn't announced is dropped", name)
        elif self.newest is None:
            link.send(frame)
        else:
            self.frames[self.newest].append((link, frame))
            self.repeat_for(self.newest, link, frame)

    def repeat_for(self, address: str, link: Link, frame: bytes) -> None:
        self.repeats[address].append(asyncio.create_task(self.repeat(link, frame)))

    def tell_again(self) -> None:
        """Tells of all that is announced once more, as where a node is back that may have announced
        it to those whom only it reached."""
        for address, frames in self.frames.items():
            self.repeats[address] = [task for task in self.repeats[address] if not task.done()]
            for link, frame in frames:
                self.repeat_for(address, link, frame)

    async def repeat(self, link: Link, frame: bytes) -> None:
        """Sends an unasked frame more than once, since it may be lost."""
        forms, is_arp = forms_of(frame), frame[12:14] == ARP
        for turn in range(ARP_TURNS if is_arp else NEIGHBOR_TURNS):
            if turn:
                await asyncio.sleep(ARP_PAUSE if is_arp else NEIGHBOR_PAUSE)
            for form in forms:
                link.send(form)

    def close(self) -> None:
        for address in list(self.repeats):
            self.withdraw(address)
        if self.joining:
            self.joining.cancel()
            self.join_late()
