"""Sessions with BGP peers (RFC 4271, section 8), each opened anew where it breaks."""
from __future__ import annotations

import asyncio
import base64
import binascii
import contextlib
import ipaddress
import logging
import random
import socket
import struct
from collections.abc import Awaitable, Callable, Iterator, Mapping, Sequence
from typing import Any

from api import Broken, NotSent
from bfd import Profile
from bfd_sessions import BfdPorts, BfdSession
from bgp import (BAD_PEER_AS, HOLD_TIME_OVER, IPV4, IPV6, KEEPALIVE, NO_KEEPALIVE_EXPECTED,
                 NO_OPEN_EXPECTED, OPEN, PATH_DOWN, REFRESH, SEND_TIME_OVER, SHUTDOWN,
                 UNEXPECTED_WHILE_UP, Family, Notice, Offer, Open, SessionEnded, family_in, message,
                 next_message, notification, open_message, read_open)
from common import together
from settings import PROFILE_SERVED, Settings, Spec, unserved
from tables import Hops, Table, family_of, told_by_hops, withdrawing

LOG = logging.getLogger("bridge")
OPEN_WAIT = 10.0  # seconds for a connection, for a peer's OPEN, and for an object of the cluster
SEND_WAIT = 480.0  # seconds, at least, in which a peer is to take what it is sent (RFC 9687)
LONGEST_KEY, MD5 = 80, getattr(socket, "TCP_MD5SIG", 14)  # Linux, tcp.h
FARTHEST = 255  # TTL of what is sent, for peers that take nothing that was routed (RFC 5082)
CONTROL = 0xC0  # IP precedence "internetwork control" (RFC 4271, appendix E)
JITTER = 0.75, 1.0  # of the time until a session is tried again (RFC 4271, section 10)
Ask = Callable[[str, str, str, str | None], Awaitable[Mapping[str, Any] | None]]


def signature(address: str, key: bytes) -> bytes:
    """What has the kernel sign the segments to and from an address (RFC 2385): its struct
    tcp_md5sig."""
    octets = ipaddress.ip_address(address).packed
    if len(octets) == 4:
        to = struct.pack("=HH4s", socket.AF_INET, 0, octets)
    else:
        to = struct.pack("=HHI16sI", socket.AF_INET6, 0, 0, octets, 0)
    return struct.pack("=128sBBHi80s", to, 0, 0, len(key), 0, key)


def mark(made: socket.socket) -> None:
    """Has what the socket sends go as far as it can, ahead of other traffic."""
    if made.family == socket.AF_INET6:
        made.setsockopt(socket.IPPROTO_IPV6, socket.IPV6_UNICAST_HOPS, FARTHEST)
        made.setsockopt(socket.IPPROTO_IPV6, socket.IPV6_TCLASS, CONTROL)
    else:
        made.setsockopt(socket.IPPROTO_IP, socket.IP_TTL, FARTHEST)
        made.setsockopt(socket.IPPROTO_IP, socket.IP_TOS, CONTROL)


def hops_of(own: str) -> Hops:
    """The next hop of routes that lead to the session's own address: of its family alone, and none
    that is valid on one link only."""
    address = ipaddress.ip_address(own.partition("%")[0])
    if address.is_link_local or address.is_unspecified:
        return {}
    return {IPV6 if address.version == 6 else IPV4: address.packed}


@contextlib.contextmanager
def within(seconds: float, text: str, notice: Notice | None = None,
           hint: str = "") -> Iterator[None]:
    """Ends the session by these words where what is inside takes too long."""
    try:
        yield
    except TimeoutError as fault:
        raise SessionEnded(f"{text} within {seconds:.0f} s{hint}", notice) from fault


class Objects:
    """Objects of the cluster that a session goes by: each as it was read last while the API server
    can't be asked."""

    def __init__(self, ask: Ask | None) -> None:
        self.ask = ask
        self.last: dict[tuple[str, ...], Mapping[str, Any]] = {}

    async def read(self, group: str, plural: str, name: str,
                   namespace: str | None = None) -> Mapping[str, Any]:
        key = (group, plural, name, namespace or "")
        with contextlib.suppress(NotSent, Broken, TimeoutError):
            async with asyncio.timeout(OPEN_WAIT):
                found = await self.ask(group, plural, name, namespace) if self.ask else None
            if found is None:
                self.last.pop(key, None)
                raise SessionEnded(f"there is no {name} in {plural}, or it can't be read")
            self.last[key] = found
        if key not in self.last:
            raise SessionEnded(f"{name} in {plural} can't be read: no API server")
        return self.last[key]


class Session:
    """The session with the peer of one BGPPeer object. It is opened anew where it breaks, and the
    new one is told the table at first. The peer is told of the families that both sides take.
    `is_own_hop`: routes lead to the session's own address, of its family."""

    def __init__(self, name: str, spec: Spec, table: Table, identifier: str,
                 families: Sequence[Family], retry: float, ask: Ask | None = None,
                 is_own_hop: bool = False, ports: BfdPorts | None = None) -> None:
        self.name, self.spec, self.table, self.families = name, spec, table, families
        self.default_identifier, self.default_retry, self.objects = identifier, retry, Objects(ask)
        self.is_own_hop, self.ports = is_own_hop, ports or BfdPorts()
        self.writer: asyncio.StreamWriter | None = None  # while it is established
        self.taken: list[Family] = []
        self.hops: Hops = {}
        self.told: str | None = None
        self.unserved: list[str] = []  # what its BFDProfile asks for and isn't done, as told
        self.is_whole = False  # whether the table has all that the program tells at first
        self.is_silent = False  # whether the peer is to keep the routes at the end
        self.is_later = False  # whether there was a session since this side started

    def send(self, octets: bytes) -> None:
        """Sends a message where the session is established. Else the table tells of it later."""
        if self.writer and family_of(octets) in self.taken:
            self.writer.write(told_by_hops(octets, self.hops))

    def go_by(self, table: Table) -> None:
        """The table is this one now, and is whole: the peer is told how it differs from what it
        has."""
        if self.writer and table is not self.table:
            for octets in table.messages(self.taken, self.hops, self.table):
                self.writer.write(octets)
        self.table = table
        if not self.is_whole:
            self.is_whole = True
            self.tell_whole()

    def tell_whole(self) -> None:
        """Tells a peer that keeps routes that it has all of them."""
        if self.writer and self.is_whole and self.spec.get("enableGracefulRestart"):
            for family in self.taken:
                self.writer.write(withdrawing(family, b""))

    async def keep(self) -> None:
        """Keeps the session until this is cancelled. Nothing else ends it."""
        while True:
            retry = self.default_retry
            try:
                settings = Settings.of(self.spec, self.default_identifier, self.default_retry)
                retry = settings.retry
                await self.once(settings)
            except (SessionEnded, OSError, ValueError, KeyError) as fault:
                self.tell(str(fault) or type(fault).__name__)
            except Exception:  # of one session, and of no other
                LOG.exception("session with %s: fault in the bridge", self.name)
            await asyncio.sleep(retry * random.uniform(*JITTER))

    def tell(self, text: str) -> None:
        """Tells what became of the session, once where that is the same each time."""
        if text != self.told:
            LOG.info("session with %s: %s", self.name, text)
        self.told = text

    async def once(self, settings: Settings) -> None:
        """One session, from its connection to its end. At an end in silence the peer keeps the
        routes, if it does such."""
        if not settings.address:
            raise SessionEnded("it has no peerAddress")
        profile = await self.profile(settings)
        key = await self.password(settings)
        hint = ": another password?" if key else ""
        with within(OPEN_WAIT, "no connection comes about", hint=hint):
            async with asyncio.timeout(OPEN_WAIT):
                made = await self.connected(settings, key)
        reader, writer = await asyncio.open_connection(sock=made)
        notice: Notice | None = SHUTDOWN
        try:
            with within(OPEN_WAIT, "no OPEN and KEEPALIVE come", HOLD_TIME_OVER):
                async with asyncio.timeout(OPEN_WAIT):
                    said = await self.greet(reader, writer, settings)
            self.begin(said, writer)
            hold = min(said.hold, settings.hold)
            parts = [self.receive(reader, hold)]
            if hold:
                parts.append(self.repeat(writer, min(settings.pause or hold, hold / 3), hold))
            if profile:
                parts.append(self.watch(settings, profile))
            await together(*parts)
        except SessionEnded as ended:
            notice = ended.notice
            raise
        finally:
            self.writer = None
            if notice and not (self.is_silent and settings.keeps):
                writer.write(notification(notice))
            writer.close()

    def begin(self, said: Open, writer: asyncio.StreamWriter) -> None:
        """The session is established: the peer is told the table."""
        self.taken = [family for family in self.families if family in said.families]
        self.hops = hops_of(writer.get_extra_info("sockname")[0]) if self.is_own_hop else {}
        fewer = ", without one family" if self.taken else ", but the peer takes no family of routes"
        self.tell("established" + fewer * (len(self.taken) < len(self.families)))
        for octets in self.table.messages(self.taken, self.hops):
            writer.write(octets)
        self.writer, self.is_later = writer, True
        self.tell_whole()

    async def connected(self, settings: Settings, key: bytes) -> socket.socket:
        """A socket that is connected to the peer, signed by the key where there is one."""
        is_wide = ":" in settings.address
        made = socket.socket(socket.AF_INET6 if is_wide else socket.AF_INET, socket.SOCK_STREAM)
        try:
            made.setblocking(False)
            mark(made)
            if key:
                made.setsockopt(socket.IPPROTO_TCP, MD5, signature(settings.address, key))
            if settings.source:
                made.bind((settings.source, 0))
            to = (settings.address, settings.port)
            await asyncio.get_running_loop().sock_connect(made, to)
        except BaseException:
            made.close()
            raise
        return made

    async def password(self, settings: Settings) -> bytes:
        """The password: that of the object, or that of a Secret."""
        key = settings.password
        if settings.secret:
            name, namespace = settings.secret
            secret = await self.objects.read("/api/v1", "secrets", name, namespace)
            with contextlib.suppress(binascii.Error):
                key = base64.b64decode((secret.get("data") or {}).get("password") or "")
            if not key:
                raise SessionEnded(f"no password is in the Secret {name}")
        if len(key) > LONGEST_KEY:
            raise SessionEnded(f"a password is of {LONGEST_KEY} octets at most")
        return key

    async def profile(self, settings: Settings) -> Profile | None:
        name = settings.profile
        if not name:
            return None
        found = await self.objects.read("/apis/metallb.io/v1beta1", "bfdprofiles", name)
        spec = found.get("spec") or {}
        asked = unserved(spec, PROFILE_SERVED)
        if asked != self.unserved:
            LOG.warning("BFDProfile %s asks for %s, which isn't done", name, ", ".join(asked))
        self.unserved = asked
        return Profile.of(spec, settings.multihop)

    async def watch(self, settings: Settings, profile: Profile) -> None:
        """Ends the session where the path to the peer is found not to be there (RFC 5882,
        section 4)."""
        async with BfdSession(self.ports, settings.address, settings.source, profile) as path:
            await path.until_down()
        raise SessionEnded("BFD finds the path down", PATH_DOWN)

    async def greet(self, reader: asyncio.StreamReader, writer: asyncio.StreamWriter,
                    settings: Settings) -> Open:
        """Exchanges OPEN and the first KEEPALIVE."""
        hold, keeps = settings.hold, settings.keeps
        if hold in (1, 2) or hold > 65535:
            raise SessionEnded(f"no hold time of {hold} s is to be had (RFC 4271, section 4.2)")
        own, identifier = settings.own_number, settings.identifier
        restarts = not self.is_later if keeps else None
        offer = Offer(own, hold, identifier, self.families, restarts)
        writer.write(open_message(offer))
        kind, body = await next_message(reader)
        if kind != OPEN:
            raise SessionEnded("no OPEN came first", NO_OPEN_EXPECTED)
        said = read_open(body, identifier, own)
        if said.number != settings.number:
            raise SessionEnded(f"the peer is of the AS {said.number}", BAD_PEER_AS)
        writer.write(message(KEEPALIVE))
        kind, _ = await next_message(reader)
        if kind != KEEPALIVE:
            raise SessionEnded("no KEEPALIVE came after OPEN", NO_KEEPALIVE_EXPECTED)
        return said

    async def receive(self, reader: asyncio.StreamReader, hold: int) -> None:
        """Reads what the peer sends, until it says nothing for the hold time. Its routes are
        ignored."""
        while True:
            with within(hold, "nothing came", HOLD_TIME_OVER):
                async with asyncio.timeout(hold or None):
                    kind, body = await next_message(reader)
            if kind == OPEN:
                raise SessionEnded("an OPEN came in the session", UNEXPECTED_WHILE_UP)
            if kind == REFRESH:
                self.refresh(family_in(body))

    def refresh(self, family: Family) -> None:
        """Tells all routes of a family again (RFC 2918, section 4)."""
        if self.writer and family in self.taken:
            for octets in self.table.messages([family], self.hops):
                self.writer.write(octets)

    async def repeat(self, writer: asyncio.StreamWriter, pause: float, hold: int) -> None:
        """Sends KEEPALIVEs. A peer that takes nothing for long has none of the routes."""
        while True:
            await asyncio.sleep(pause)
            writer.write(message(KEEPALIVE))
            wait = max(SEND_WAIT, 2 * hold)
            with within(wait, "the peer takes nothing", SEND_TIME_OVER):
                async with asyncio.timeout(wait):
                    await writer.drain()
