"""BFD over UDP: of one hop (RFC 5881, port 3784) and over routers (RFC 5883, port 4784)."""
from __future__ import annotations

import asyncio
import contextlib
import random
import socket
import struct
from types import TracebackType

from bfd import FINAL, Heard, Machine, Profile, read_packet

PORT, FAR_PORT, OWN_PORTS, TTL = 3784, 4784, range(49152, 65536), 255
RECEIVE_TTL = getattr(socket, "IP_RECVTTL", 12)
LONGEST, TRIES = 512, 100
JITTER, JITTER_OF_ONE = (0.75, 1.0), (0.75, 0.9)  # RFC 5880, section 6.8.7
CONTROL = 0xC0  # IP precedence "internetwork control"


class BfdPorts:
    """The sockets of the two ports, of each family, which all sessions of a bridge share."""

    def __init__(self) -> None:
        self.by_number: dict[int, BfdSession] = {}
        self.by_address: dict[tuple[str, int], BfdSession] = {}
        self.sockets: dict[tuple[int, int], socket.socket] = {}

    def add(self, session: BfdSession) -> None:
        if (session.family, session.port) not in self.sockets:
            self.sockets[session.family, session.port] = self.opened(session.family, session.port)
        self.by_number[session.machine.mine] = session
        self.by_address[session.address, session.port] = session

    def opened(self, family: int, port: int) -> socket.socket:
        made = socket.socket(family, socket.SOCK_DGRAM)
        try:
            if family == socket.AF_INET6:
                made.setsockopt(socket.IPPROTO_IPV6, socket.IPV6_V6ONLY, 1)
                made.setsockopt(socket.IPPROTO_IPV6, socket.IPV6_RECVHOPLIMIT, 1)
            else:
                made.setsockopt(socket.IPPROTO_IP, RECEIVE_TTL, 1)
            made.setblocking(False)
            made.bind(("", port))
        except OSError:
            made.close()
            raise
        asyncio.get_running_loop().add_reader(made, self.hear, made, port)
        return made

    def hear_all(self) -> None:
        for (_, port), made in self.sockets.items():
            self.hear(made, port)

    def hear(self, made: socket.socket, port: int) -> None:
        with contextlib.suppress(BlockingIOError):
            while True:
                octets, told, _, source = made.recvmsg(LONGEST, 64)
                ttl = next((struct.unpack("=i", value[:4])[0] for _, _, value in told), 0)
                if heard := read_packet(octets):
                    self.take(heard, ttl, source[0].partition("%")[0], port)

    def take(self, heard: Heard, ttl: int, address: str, port: int) -> None:
        """Gives a packet to the session that it is for: by its number, or at first by its address
        (RFC 5880, section 6.3)."""
        if heard.yours:
            session = self.by_number.get(heard.yours)
        else:
            session = self.by_address.get((address, port))
        if session and session.port == port and session.address == address:
            if ttl >= session.profile.least_ttl:
                session.take(heard)

    def remove(self, session: BfdSession) -> None:
        self.by_number.pop(session.machine.mine, None)
        if self.by_address.get((session.address, session.port)) is session:
            del self.by_address[session.address, session.port]
        if not self.by_number:
            self.close()

    def close(self) -> None:
        for made in self.sockets.values():
            asyncio.get_running_loop().remove_reader(made)
            made.close()
        self.sockets.clear()


class BfdSession:
    """The session with a neighbor, while it is entered."""

    def __init__(self, ports: BfdPorts, address: str, source: str, profile: Profile) -> None:
        self.ports, self.address, self.source, self.profile = ports, address, source, profile
        self.port = FAR_PORT if profile.multihop else PORT
        self.family = socket.AF_INET6 if ":" in address else socket.AF_INET
        self.machine = Machine(profile, random.randrange(1, 2 ** 32))
        self.down = asyncio.Event()
        self.ends: asyncio.TimerHandle | None = None
        self.task: asyncio.Task[None] | None = None

    async def __aenter__(self) -> BfdSession:
        self.socket = self.bound()
        try:
            self.ports.add(self)
        except OSError:
            self.socket.close()
            raise
        self.begin_repeating()
        return self

    def bound(self) -> socket.socket:
        """A socket of one of the ports that packets are sent from (RFC 5881, section 4)."""
        made = socket.socket(self.family, socket.SOCK_DGRAM)
        try:
            if self.family == socket.AF_INET6:
                made.setsockopt(socket.IPPROTO_IPV6, socket.IPV6_UNICAST_HOPS, TTL)
                made.setsockopt(socket.IPPROTO_IPV6, socket.IPV6_TCLASS, CONTROL)
            else:
                made.setsockopt(socket.IPPROTO_IP, socket.IP_TTL, TTL)
                made.setsockopt(socket.IPPROTO_IP, socket.IP_TOS, CONTROL)
            made.setblocking(False)
            for rest in reversed(range(TRIES)):
                try:
                    made.bind((self.source, random.choice(OWN_PORTS)))
                    break
                except OSError:
                    if not rest:
                        raise
        except OSError:
            made.close()
            raise
        return made

    async def __aexit__(self, kind: type[BaseException] | None, fault: BaseException | None,
                        trace: TracebackType | None) -> None:
        """The neighbor is told that this end is by order, so that it counts for no fault."""
        if self.task:
            self.task.cancel()
        if self.ends:
            self.ends.cancel()
        self.ports.remove(self)
        if self.machine.end():
            self.send()
        self.socket.close()

    async def until_down(self) -> None:
        await self.down.wait()

    def send(self, flags: int = 0) -> None:
        with contextlib.suppress(OSError):
            self.socket.sendto(self.machine.packet(flags), (self.address, self.port))

    def begin_repeating(self) -> None:
        if self.task:
            self.task.cancel()
        self.task = asyncio.create_task(self.repeat())

    async def repeat(self) -> None:
        """Sends packets, each sooner than it must by up to a quarter. A neighbor that asks for none
        is looked at again after a while."""
        jitter = JITTER_OF_ONE if self.profile.multiplier == 1 else JITTER
        while True:
            pause = self.machine.pause()
            if pause is not None:
                self.send()
            await asyncio.sleep((pause or 1.0) * random.uniform(*jitter))

    def take(self, heard: Heard) -> None:
        loop, before = asyncio.get_running_loop(), self.machine.steps
        if self.machine.take(heard, loop.time()):
            self.send(FINAL)
        self.settle(before)
        self.await_next()

    def await_next(self) -> None:
        """Looks again when a packet must have come."""
        if self.ends:
            self.ends.cancel()
        self.ends = None
        if self.machine.expires is not None:
            self.ends = asyncio.get_running_loop().call_at(self.machine.expires, self.expire)

    def expire(self) -> None:
        """Where this program itself didn't run, what came meanwhile is read first."""
        now = asyncio.get_running_loop().time()
        self.ports.hear_all()
        before = self.machine.steps
        self.machine.expire(now + 0.001)
        self.settle(before)
        self.await_next()

    def settle(self, before: int) -> None:
        """Does what follows from a change of the state since it had changed so often."""
        if self.machine.is_faulty:
            self.down.set()
        if self.machine.steps != before and self.machine.heard:
            self.begin_repeating()
