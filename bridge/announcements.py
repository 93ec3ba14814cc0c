"""Which services a node announces, as the program's announcements and routes say it, and the Event
that tells it once for each change: MetalLB's `nodeAssigned`, in its words.

What a program that is started anew announces as the one before did is no change."""
from __future__ import annotations

import asyncio
import contextlib
from collections.abc import Callable, Iterable, Mapping
from typing import Any

from addresses import packed
from events import Events, Key
from guard import is_handled
from watches import ends_list

SETTLE = 1.0  # seconds without a change until it is looked at, so that many are told together
LONGEST = 10  # so many times as long it is waited for that
LAYER2, BGP = "layer2", "bgp"  # the protocols, as MetalLB calls them
Addresses = tuple[bytes, ...]
Event = Mapping[str, Any]


def addresses_of(service: Mapping[str, Any]) -> Addresses:
    """The addresses that a service records, as octets; what isn't one is passed over."""
    status: Any = service.get("status") or {}
    ingress = (status.get("loadBalancer") or {}).get("ingress") or []
    found = []
    for one in ingress:
        with contextlib.suppress(OSError, TypeError, KeyError):
            found.append(packed(one["ip"]))
    return tuple(found)


def masked(address: bytes, length: int) -> bytes:
    """The prefix of this length that the address lies in, as routes have it."""
    bits = 8 * len(address)
    number = int.from_bytes(address, "big") >> (bits - length) << (bits - length)
    return bytes([length]) + number.to_bytes(len(address), "big")[:(length + 7) // 8]


class Routes:
    """The prefixes of one family that some peer is told."""

    def __init__(self, prefixes: Iterable[bytes]) -> None:
        self.prefixes = set(prefixes)
        self.lengths = sorted({one[0] for one in self.prefixes})

    def cover(self, address: bytes) -> bool:
        return any(masked(address, length) in self.prefixes for length in self.lengths)


class Announcements:
    """The addresses of each service of the handled class, as the watches showed them, and for which
    of them it was told that the node announces them."""

    def __init__(self, node: str, lb_class: str | None, events: Events) -> None:
        self.node, self.lb_class, self.events = node, lb_class, events
        self.services: dict[Key, Addresses] = {}
        self.coming: dict[Key, Addresses] = {}  # of a list that hasn't ended
        self.is_listed = False
        self.told: set[tuple[Key, str]] = set()
        self.news = asyncio.Event()

    def note(self, event: Event) -> None:
        """A line of the watches is given."""
        if event["type"] == "ERROR":
            self.coming, self.is_listed = {}, False
            return
        if event["object"].get("kind") != "Service":
            return
        if event["type"] != "BOOKMARK":
            self.events.note(dict(event))
            self.show(event)
        elif ends_list(dict(event)) and not self.is_listed:
            self.services, self.is_listed = self.coming, True
            self.news.set()

    def show(self, event: Event) -> None:
        """A service is shown, or its deletion."""
        service = event["object"]
        key = service["metadata"]["namespace"], service["metadata"]["name"]
        held = self.services if self.is_listed else self.coming
        before = held.pop(key, ())
        is_there = event["type"] != "DELETED" and is_handled(service, self.lb_class)
        if is_there and (addresses := addresses_of(service)):
            held[key] = addresses
        if self.is_listed and held.get(key, ()) != before:
            self.news.set()

    def look(self, addresses: Iterable[str], narrow: Iterable[bytes],
             wide: Iterable[bytes]) -> None:
        """Tells of the services that are announced, and weren't before. `addresses` are those that
        the node answers for; `narrow`, `wide`: the prefixes of its routes of IPv4, of IPv6."""
        answered = set(map(packed, addresses))
        routes = {4: Routes(narrow), 16: Routes(wide)}
        found = set()
        for key, held in self.services.items():
            if answered.intersection(held):
                found.add((key, LAYER2))
            if any(routes[len(one)].cover(one) for one in held):
                found.add((key, BGP))
        for key, protocol in sorted(found - self.told):
            self.events.announced(key, self.node, protocol)
        self.told = found

    async def keep(self, look: Callable[[], None]) -> None:
        """Has it looked at, a while after changes, for as long as this runs."""
        while True:
            await self.news.wait()
            for _ in range(LONGEST):
                self.news.clear()
                await asyncio.sleep(SETTLE)
                if not self.news.is_set():
                    break
            if self.is_listed:
                look()
