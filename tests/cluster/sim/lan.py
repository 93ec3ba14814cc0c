"""What the nodes of a cluster send besides what they ask of the API server: the datagrams by which
speakers tell each other that they are there, frames, and messages to routers. The parts of a
speaker's bridge that have to do with the machine are handed in from here."""
import asyncio
import random
import struct
from collections import deque
from collections.abc import Callable, Iterator
from typing import Any

import speaker
from api import Api
from bgp_sessions import Session
from heartbeats import HeartbeatMembers
from host import fresh
from loops import Process
from route_readers import table_after
from settings import Settings
from stand_ins import running
from virtual import World
from wire import ROUTES, message
from wires import END, Link, What

KEPT = 500  # datagrams that the kernel keeps for a process that doesn't read
HOLD = 9  # seconds, the hold time of routers
KEY = b"the key of all nodes"
OPEN, UPDATE, NOTIFICATION, KEEPALIVE = 1, 2, 3, 4


class Lan:
    """The network of the nodes. `cut` has the ways that are cut, each as (from, to); `loss` is the
    share of datagrams that are lost."""

    def __init__(self, world: World, addresses: dict[str, str]) -> None:
        self.world, self.addresses = world, addresses
        self.nodes = {address: node for node, address in addresses.items()}
        self.cut: set[tuple[str, str]] = set()
        self.loss = 0.0
        self.ports: dict[str, BeatPort] = {}
        self.chances: dict[tuple[str, str], random.Random] = {}
        self.links: dict[str, NodeLink] = {}
        self.routers: dict[int, Router] = {}

    def send(self, sender: Process, address: str, octets: bytes) -> None:
        way = sender.machine.name, self.nodes.get(address, "")
        if way not in self.chances:
            self.chances[way] = self.world.stream(f"datagrams {way}")
        chance = self.chances[way]
        is_lost, pause = chance.random() < self.loss, chance.uniform(1e-4, 3e-3)
        if not is_lost and way not in self.cut:
            self.world.after(pause, self.arrive, way[1], octets)

    def arrive(self, node: str, octets: bytes) -> None:
        port = self.ports.get(node)
        if port and port.process.machine.since is None:
            port.arrive(octets)


class BeatPort:
    """A UDP socket of a process; it takes the place of heartbeats.Port."""

    def __init__(self, lan: Lan, process: Process) -> None:
        self.lan, self.process, self.socket = lan, process, self
        self.queue: deque[bytes] = deque(maxlen=KEPT)
        self.reader: Callable[[], object] | None = None
        lan.ports[process.machine.name] = self

    def send(self, address: str, octets: bytes) -> bool:
        self.lan.send(self.process, address, octets)
        return True

    def arrive(self, octets: bytes) -> None:
        self.queue.append(octets)
        if not self.process.dead:
            self.process.call_soon(self.read)

    def read(self) -> None:
        if self.reader and self.queue:
            self.reader()

    def received(self) -> Iterator[bytes]:
        while self.queue:
            yield self.queue.popleft()

    def close(self) -> None:
        self.reader = None


class Key:
    """A file with one key, which stays; it takes the place of heartbeats.Secret."""
    keys = [KEY]

    def renew(self) -> list[bytes]:
        return self.keys


class NodeLink:
    """An interface of a node. `sent` are the frames that went out."""

    def __init__(self, name: str, hardware: str, process: Process) -> None:
        self.name, self.hardware, self.process = name, hardware, process
        self.sent: list[bytes] = []
        self.come: deque[bytes] = deque()
        self.waiter: asyncio.Future[None] | None = None

    def arrive(self, frame: bytes) -> None:
        if not self.process.dead and not self.process.stands():
            self.come.append(frame)
            self.process.call_soon(self.wake)

    def wake(self) -> None:
        if self.waiter and not self.waiter.done():
            self.waiter.set_result(None)

    async def received(self) -> bytes:
        while not self.come:
            self.waiter = asyncio.get_running_loop().create_future()
            await self.waiter
        return self.come.popleft()

    def send(self, frame: bytes) -> None:
        self.sent.append(frame)

    def listen_to(self, addresses: list[str]) -> None:
        """All frames come."""

    def is_another(self) -> bool:
        return False

    def is_up(self) -> bool:
        return True

    def renew(self) -> None:
        """It is what it was."""

    def close(self) -> None:
        """No frames come to a process that has ended."""


class Router:
    """A BGP peer that keeps what each node's sessions say, by the identifiers of their OPENs.
    `number` tells its AS number."""

    def __init__(self, world: World, name: str, number: Callable[[], int]) -> None:
        self.world, self.name, self.number, self.up = world, name, number, True
        self.sessions: list[RouterEnd] = []

    def begin(self, link: Link) -> "RouterEnd":
        return RouterEnd(self, link)

    def tables(self, identifier: str) -> list[Any]:
        """The table of each session that the node has."""
        return [table_after(one.messages) for one in self.sessions if one.node == identifier]


class RouterEnd:
    """A session at a router. It ends where nothing comes for the hold time."""

    def __init__(self, router: Router, link: Link) -> None:
        self.router, self.link, self.data = router, link, b""
        self.node: str | None = None
        self.messages: list[bytes] = []
        self.last, self.over = router.world.now, False
        router.world.after(HOLD / 3, self.keep)

    def received(self, what: What) -> None:
        if isinstance(what, str):
            self.end()
            return
        self.data += what
        self.last = self.router.world.now
        while not self.over and len(self.data) >= 19:
            size, kind = struct.unpack(">HB", self.data[16:19])
            if len(self.data) < size:
                return
            one, self.data = self.data[:size], self.data[size:]
            self.take(kind, one)

    def take(self, kind: int, one: bytes) -> None:
        if kind == OPEN:
            self.node = ".".join(map(str, one[24:28]))
            self.router.sessions.append(self)
            capabilities = ROUTES + b"\x41\x04" + struct.pack(">I", self.router.number())
            options = struct.pack(">BB", 2, len(capabilities)) + capabilities
            body = struct.pack(">BHH4sB", 4, 23456, HOLD, b"\x7f\0\0\1", len(options)) + options
            self.link.down.send(message(OPEN, body) + message(KEEPALIVE, b""))
        elif kind == UPDATE:
            self.messages.append(one)
        elif kind == NOTIFICATION:
            self.end()

    def keep(self) -> None:
        if self.over:
            return
        if self.router.world.now - self.last > HOLD:
            self.link.down.send(message(NOTIFICATION, b"\x04\0"))
            self.end()
            return
        if self.node:
            self.link.down.send(message(KEEPALIVE, b""))
        self.router.world.after(HOLD / 3, self.keep)

    def end(self) -> None:
        if not self.over:
            self.over = True
            self.link.down.send(END)
            if self in self.router.sessions:
                self.router.sessions.remove(self)


class Quiet:
    """No interface changes; it takes the place of links.Changes."""

    async def until_next(self, patience: float) -> None:
        await asyncio.sleep(patience)

    def close(self) -> None:
        pass


def hand_in_speaker(lan: Lan) -> None:
    """The parts of a speaker's bridge that open sockets are those of this network from now on."""
    def members_of(api: Api, options: Any) -> HeartbeatMembers:
        key: Any = Key()
        port: Any = BeatPort(lan, running())
        return HeartbeatMembers(api, options.namespace, options.node_name, key, port,
                                boot=bytes.fromhex(fresh())[:8])

    def links_of(options: Any) -> dict[str, NodeLink]:
        name, _, hardware = options.interface[0].partition("=")
        link = NodeLink(name, hardware, running())
        lan.links[options.node_name] = link
        return {name: link}

    class NodeSession(Session):
        async def connected(self, settings: Settings, key: bytes) -> Any:
            link = Link(running(), lan.routers[settings.port])
            await link.reach()
            return link

    import bgp_sessions
    import peers
    vars(speaker).update(members_of=members_of, links_of=links_of, Changes=Quiet,
                         look_at=lambda links, options: ())
    vars(peers).update(Session=NodeSession)
    vars(bgp_sessions).update(random=Chance())


class Chance:
    """A process's own, in place of the module `random`."""

    def uniform(self, least: float, most: float) -> float:
        from host import Given
        return Given.host.between(least, most)
