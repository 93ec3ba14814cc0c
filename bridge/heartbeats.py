"""Members by heartbeats: the socket, the keys, the time, and the API server that is asked where no
other node is heard."""
from __future__ import annotations

import asyncio
import collections
import contextlib
import logging
import os
import pathlib
import socket
from collections.abc import Awaitable, Callable, Iterable, Iterator, Mapping
from typing import Any

from api import Api, Broken, NotSent
from beats import LOST, MANY, PAUSE, SIDE, Beats, Verdict
from common import together
from datagrams import BOOT
from figures import sample
from kubelets import Kubelets
from leases import MEMBERS, Give, LeaseMembers, names_of
from membership import TICK, Membership, Standing
from roster import Roster

LOG = logging.getLogger("bridge")
ASK_WAIT = 1.0  # seconds for an answer of the API server, and between two while no node is heard
ASK_SELDOM = 2.5  # and while others are heard, and between two looks at kubelets' Leases
KEYS_PAUSE, UNSIGNED_TOLD = 1.0, 15.0  # seconds until keys are read again, and it is told again
MOST, LONGEST = 1000, 2048  # datagrams that are read at once, and their octets
STANDING, BEATS = "sutchebam_standing", "sutchebam_beats_total"
BEATS_PAUSE = "sutchebam_beats_pause_seconds"
KEPT = 1 << 22  # octets of datagrams that the kernel is asked to keep until they are read
GOODBYES = 2  # datagrams to each node at the end, since one may be lost


class Secret:
    """A file with a key in each line. It is read again while this runs, so that keys can be
    changed."""

    def __init__(self, path: str) -> None:
        self.path = pathlib.Path(path)
        self.keys = self.read()
        if not self.keys:
            raise OSError(f"no key in {path}")

    def read(self) -> list[bytes]:
        with contextlib.suppress(OSError):
            lines = (line.strip() for line in self.path.read_bytes().splitlines())
            return [line for line in lines if line]
        return []

    def renew(self) -> list[bytes]:
        """The keys as they are now; while the file can't be read, those before."""
        self.keys = self.read() or self.keys
        return self.keys


class Port:
    """A UDP socket at a port of all addresses, of both families where the kernel has IPv6."""

    def __init__(self, port: int) -> None:
        self.port, self.is_wide = port, os.path.exists("/proc/net/if_inet6")
        family = socket.AF_INET6 if self.is_wide else socket.AF_INET
        self.socket = socket.socket(family, socket.SOCK_DGRAM)
        if self.is_wide:
            self.socket.setsockopt(socket.IPPROTO_IPV6, socket.IPV6_V6ONLY, 0)
        self.socket.setsockopt(socket.SOL_SOCKET, socket.SO_RCVBUF, KEPT)
        self.socket.bind(("::" if self.is_wide else "", port))
        self.socket.setblocking(False)

    def send(self, address: str, octets: bytes) -> bool:
        """Whether it was sent. One that can't be now is lost, as on a wire."""
        to = f"::ffff:{address}" if self.is_wide and ":" not in address else address
        with contextlib.suppress(OSError):
            self.socket.sendto(octets, (to, self.port))
            return True
        return False

    def received(self) -> Iterator[bytes]:
        with contextlib.suppress(OSError):
            for _ in range(MOST):
                yield self.socket.recv(LONGEST)

    def close(self) -> None:
        self.socket.close()


class HeartbeatMembers:
    """The members at a node that tells the others of itself, and hears them. `leases`: those that
    go by Leases count too, and this node has one for them, as while a cluster goes over from Leases
    to heartbeats. `boot` is a text of BOOT octets that no start before had."""

    def __init__(self, api: Api, namespace: str, node: str, secret: Secret, port: Port,
                 leases: LeaseMembers | None = None, boot: bytes | None = None) -> None:
        self.api, self.secret, self.port, self.leases = api, secret, port, leases
        self.kubelets = Kubelets(api)
        self.beats = Beats(node, boot or os.urandom(BOOT), secret.keys)
        self.membership = Membership(self.beats, Roster(namespace))
        self.serves = False  # whether the program was given this node as a member
        self.is_well: Callable[[], bool] = lambda: True
        self.standing = Standing.AMONG_OTHERS
        self.counts: collections.Counter[str] = collections.Counter()
        self.changed, self.is_many = asyncio.Event(), False
        self.is_leased = asyncio.Event()  # whether Leases were looked at

    def note(self, event: Mapping[str, Any]) -> None:
        """Takes in a line of the watches, ahead of its being given to the program."""
        self.membership.roster.note(event)

    def beat(self) -> None:
        """Tells other nodes of this one, as far as they are due."""
        self.send(self.beats.beat(self.serves and self.is_well()))

    def send(self, datagrams: Iterable[tuple[str, bytes]]) -> None:
        for address, octets in datagrams:
            self.counts["sent" if self.port.send(address, octets) else "unsent"] += 1

    def hear(self) -> None:
        """Takes the datagrams that came, but for a flood, and answers."""
        before = self.beats.changes
        for octets in self.port.received():
            self.counts[self.beats.take(octets).value] += 1
        self.send(self.beats.answers())
        if self.beats.changes != before:
            self.changed.set()

    async def run(self, forever: Awaitable[None]) -> None:
        """Tells and hears, and serves, until it is cancelled. At the end the others are told that
        this node serves no more."""
        loop = asyncio.get_running_loop()
        loop.add_reader(self.port.socket, self.hear)
        try:
            await together(self.tick(), self.keep_keys(), self.keep_asking(), self.keep_looking(),
                           forever)
        finally:
            loop.remove_reader(self.port.socket)
            self.serves = False
            for _ in range(GOODBYES):
                self.beat()
            self.port.close()
            if self.leases:
                await self.leases.leave()

    async def tick(self) -> None:
        """Lets time go by. That in which this program itself didn't run counts for nobody's
        absence, and what came meanwhile is read first."""
        loop = asyncio.get_running_loop()
        last, rest = loop.time(), 0.0
        while True:
            await asyncio.sleep(TICK)
            now = loop.time()
            passed, rest, last = min(now - last, 2 * TICK), rest - (now - last), now
            self.membership.look()
            if rest <= 0 or self.beats.has_news:
                self.beat()
                rest = PAUSE
            self.hear()
            self.beats.pass_time(passed)
            self.send(self.beats.questions())
            self.tell_many()
            self.changed.set()

    async def keep_keys(self) -> None:
        """Reads the keys again, and tells where datagrams come that are signed by none of them."""
        loop, last, before = asyncio.get_running_loop(), 0.0, 0
        while True:
            await asyncio.sleep(KEYS_PAUSE)
            self.beats.keys = self.secret.renew()
            unsigned = self.counts[Verdict.UNSIGNED.value]
            if unsigned > before and loop.time() - last >= UNSIGNED_TOLD:
                LOG.warning("%d datagrams came that no key of ours has signed", unsigned - before)
                last, before = loop.time(), unsigned

    async def keep_asking(self) -> None:
        """Asks the API server whether it answers, while that matters. Time in which this program
        didn't run isn't counted."""
        loop = asyncio.get_running_loop()
        last = loop.time()
        while True:
            pause = ASK_SELDOM if self.beats.heard() else ASK_WAIT
            await asyncio.sleep(pause)
            is_answered = await self.is_answered() if self.membership.asks() else None
            now = loop.time()
            self.membership.answer(min(now - last, pause + 2 * ASK_WAIT), is_answered)
            last = now

    async def keep_looking(self) -> None:
        """Looks at the kubelets' Leases of nodes whose speakers are ready and aren't heard."""
        while True:
            await asyncio.sleep(ASK_SELDOM)
            if names := list(self.membership.unheard_since):
                for name, renewed in (await self.kubelets.renewals(names)).items():
                    self.membership.saw(name, renewed)

    async def is_answered(self) -> bool:
        with contextlib.suppress(NotSent, Broken, TimeoutError):
            async with asyncio.timeout(ASK_WAIT):
                status, _ = await self.api.request("GET", "/version")
                return bool(status < 500)
        return False

    async def give_all(self, give: Give, is_well: Callable[[], bool]) -> None:
        """Gives the names of the members, at first and at each change, while the program runs."""
        self.is_well = is_well
        self.membership.begin()
        leases = [self.leases.keep(self.take_leased)] if self.leases else []
        await together(self.give_names(give), *leases)

    async def take_leased(self, _names: list[str]) -> None:
        self.membership.leased = dict(self.leases.seen.members) if self.leases else {}
        self.is_leased.set()

    async def give_names(self, give: Give) -> None:
        """From the first names on this node is one, while its program is well. Before that those
        that are there are to be heard, or it would announce what is theirs. It is given to the
        program first, and then told to the others, who withdraw what is this one's."""
        await self.until_heard()
        if self.leases:
            await self.is_leased.wait()
        given: list[str] | None = None
        try:
            while True:
                self.changed.clear()
                self.tell_standing()
                if (names := self.membership.names()) != given:
                    await give(names)
                    given = names
                if self.serves != (self.beats.node in names):
                    self.serves = not self.serves
                    self.beat()
                await self.changed.wait()
        finally:
            self.serves = False
            self.beat()

    async def until_heard(self) -> None:
        """Waits until all others are heard, as long as it takes to know that one is gone."""
        self.membership.look()
        loop = asyncio.get_running_loop()
        end = loop.time() + LOST * PAUSE
        while loop.time() < end and not self.membership.is_complete():
            await asyncio.sleep(TICK)
        if unheard := sorted(self.beats.others.keys() - self.beats.heard()):
            LOG.warning("not heard: %s", names_of(unheard))

    def tell_standing(self) -> None:
        if (standing := self.membership.standing()) != self.standing:
            LOG.warning("%s", standing.value)
        self.standing = standing

    def tell_many(self) -> None:
        """Tells where there are so many speakers that most are told more seldom."""
        count, was_many = len(self.beats.others), self.is_many
        self.is_many = count > MANY
        if self.is_many and not was_many:
            LOG.info("%d other speakers: %d are told each %.1f s, the others each %.1f s", count,
                     2 * SIDE, PAUSE, self.beats.pause)

    def lines(self) -> Iterator[str]:
        """Figures: the members, how this node stands, and the datagrams."""
        now = self.membership.standing()
        yield sample(MEMBERS, len(self.membership.names()))
        for standing in Standing:
            yield sample(STANDING, int(standing == now), of=standing.name.lower())
        yield sample(BEATS_PAUSE, self.beats.pause)
        for what in ("sent", "unsent", *(verdict.value for verdict in Verdict)):
            yield sample(BEATS, self.counts[what], what=what)
