"""Connections between a process and an API server, as TCP has them: what is sent arrives once and
in order, or never; while a way is cut it is sent again ever more seldom, also for a process that
has closed its end or is gone, and so it may arrive long after that."""
import asyncio
import random
from collections import deque
from collections.abc import Callable
from typing import Any, Protocol

from loops import Made, Process

# seconds until what wasn't received is sent again, the first and at most, and until it is given up
SHORTEST, LONGEST, GIVE_UP = 0.2, 120.0, 924.0
CONNECT = (1, 2, 4, 8, 16, 32, 64)  # seconds between the tries to connect
END, RESET = "end", "reset"
What = bytes | str  # octets, or END or RESET


class End(Protocol):
    """The end of a link at a server."""

    def received(self, what: What) -> None: ...


class Server(Protocol):
    """What processes connect to."""
    name: str
    up: bool

    def begin(self, link: "Link") -> End: ...


class Way:
    """One direction of a link. `arrive` is given what was sent."""

    def __init__(self, link: "Link", name: str, arrive: Callable[[What], None]) -> None:
        self.link, self.name, self.arrive = link, name, arrive
        self.queue: deque[What] = deque()
        self.busy, self.pause, self.waited = False, SHORTEST, 0.0

    def send(self, what: What) -> None:
        self.queue.append(what)
        if not self.busy:
            self.busy = True
            self.link.world.after(self.link.latency(), self.try_now)

    def try_now(self) -> None:
        link = self.link
        if link.gone or link.is_mute:
            self.busy = False
            self.queue.clear()
        elif (link.server.name, self.name) in link.machine.cut:
            self.waited += self.pause
            if self.waited > GIVE_UP:
                link.give_up()
                return
            link.world.after(self.pause * link.random.uniform(0.9, 1.1), self.try_now)
            self.pause = min(LONGEST, 2 * self.pause)
        else:
            self.pause, self.waited = SHORTEST, 0.0
            self.busy = False
            while self.queue and not link.gone:
                self.arrive(self.queue.popleft())


class Link(asyncio.Transport):
    """A connection; for the process it is a transport of asyncio. `is_mute`: nothing gets through
    any more, as behind a hop that holds both sides' connections, and no side is ever told. `random`
    is its chance, from its request on that of the request: by the process, what is asked, and how
    often it was."""

    def __init__(self, process: Process, server: Server) -> None:
        super().__init__()
        self.process, self.machine, self.world = process, process.machine, process.world
        self.server = server
        name = f"{process.name} connects to {server.name}"
        self.random: random.Random = self.world.chance(name)
        self.protocol: Any = None
        self.gone: bool = False
        self.is_mute: bool = False
        self.closing = self.client_gone = self.is_asked = False
        self.up, self.down = Way(self, "up", self.at_server), Way(self, "down", self.at_client)
        self.exchange: End | None = None

    def latency(self) -> float:
        return self.random.uniform(1e-4, 2e-3)

    async def connect(self, factory: Callable[[], Any]) -> Made:
        await self.reach()
        return self.attach(factory)

    async def reach(self) -> None:
        """Waits until the server answers."""
        for pause in CONNECT:
            if not {(self.server.name, "up"), (self.server.name, "down")} & self.machine.cut:
                await asyncio.sleep(self.latency())
                if not self.server.up:
                    raise ConnectionRefusedError(111, "connection refused")
                return
            await asyncio.sleep(pause)
        raise TimeoutError(110, "connection timed out")

    def attach(self, factory: Callable[[], Any]) -> Made:
        """The connection is there."""
        self.protocol = factory()
        self.exchange = self.server.begin(self)
        self.process.resources.append(self)
        self.protocol.connection_made(self)
        return self, self.protocol

    # What arrives

    def at_server(self, what: What) -> None:
        if self.exchange:
            self.exchange.received(what)

    def at_client(self, what: What) -> None:
        if self.client_gone:
            return
        if what is RESET:
            self.gone = True
            self.lose(ConnectionResetError(104, "connection reset by peer"))
        elif what is END:
            self.process.call_soon(self.protocol.eof_received)
        else:
            self.process.call_soon(self.protocol.data_received, what)

    def lose(self, fault: Exception | None) -> None:
        """The process's end is no more."""
        if not self.client_gone:
            self.client_gone = True
            if self in self.process.resources:
                self.process.resources.remove(self)
            self.process.call_soon(self.protocol.connection_lost, fault)

    def give_up(self) -> None:
        self.gone = True
        if self.exchange:
            self.exchange.received(RESET)
        self.lose(TimeoutError(110, "connection timed out"))

    def owner_died(self) -> None:
        self.client_gone = True
        self.up.send(END)

    def power_off(self) -> None:
        """The machine is off: nothing that hasn't left it will."""
        self.gone = self.client_gone = True

    # A transport

    def write(self, data: bytes | bytearray | memoryview) -> None:
        if self.closing or self.client_gone:
            return
        octets = bytes(data)
        if not self.is_asked:
            self.is_asked = True
            asked = octets.partition(b" HTTP/1.1")[0].partition(b"?")[0].decode(errors="replace")
            self.random = self.world.chance(f"{self.process.name} {asked}")
        self.up.send(octets)

    def close(self) -> None:
        if not self.closing:
            self.closing = True
            if not self.client_gone:
                self.up.send(END)
                self.lose(None)

    abort = close

    def is_closing(self) -> bool:
        return self.closing

    def get_write_buffer_size(self) -> int:
        return 0

    def get_extra_info(self, name: str, default: Any = None) -> Any:
        return self if name == "socket" else default

    def setsockopt(self, *_: Any) -> None:
        pass

    def pause_reading(self) -> None:
        pass

    def resume_reading(self) -> None:
        pass
