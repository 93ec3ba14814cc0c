"""A speaker's bridge: events and frames by two lanes; frames, groups and BGP messages by what it
writes."""
from __future__ import annotations

import argparse
import asyncio
import contextlib
import json
import logging
from collections.abc import Awaitable, Callable, Iterator, Mapping
from typing import Any, Protocol

from announcements import Announcements
from api import Api, Broken
from bgp import IPV4, IPV6
from common import Stop, api_of, together
from events import Events
from figures import SpeakerFigures, figures_served
from heartbeats import HeartbeatMembers, Port, Secret
from leases import Give, LeaseMembers
from links import AnyLink, Changes, links_of, look_at
from neighbors import Neighbors
from peers import Peers
from programs import Ended, Program, forever, started
from reading import reading
from watches import SERVICE_PATHS, SPEAKER_PATHS, Watches, config_paths

LOG = logging.getLogger("bridge")
COMPONENT = "sutchebam-speaker"
LINKS_LOOK = 1.0  # seconds until the interfaces are looked at again, where the kernel tells nothing
LINKS_SETTLE = 0.1  # seconds between two looks
RECEIVE_PAUSE = 1.0  # seconds until a link that can't be read is tried again
ANEW = {"type": "ERROR", "object": {}}  # what comes ahead of lists that begin anew
STUCK = 10.0  # seconds without anything taken of a lane after which the program isn't well


class AnyMembers(Protocol):
    """What finds out which nodes are members."""

    def note(self, event: Mapping[str, Any]) -> None: ...

    async def give_all(self, give: Give, is_well: Callable[[], bool]) -> None: ...

    async def run(self, forever: Awaitable[None]) -> None: ...

    def lines(self) -> Iterator[str]: ...


class Run:
    """One run of the program."""

    def __init__(self, program: Program, links: dict[str, AnyLink], peers: Peers,
                 options: argparse.Namespace,
                 announcements: Announcements | None = None) -> None:
        self.program, self.links, self.peers, self.options = program, links, peers, options
        self.announcements = announcements
        self.neighbors = Neighbors(links)
        self.accepted = asyncio.Event()  # whether a configuration is in force
        self.before: set[str] = set()  # the members that were given last

    async def hear(self) -> None:
        """Does what the program's lines ask for."""
        async for line in self.program.written():
            self.take(line)
        await asyncio.Future()  # until the program is known to have ended

    def take(self, line: Mapping[str, Any]) -> None:
        if line["op"] in ("announce", "withdraw", "update"):
            self.look_soon()
        match line["op"]:
            case "took":
                self.neighbors.took()
                if line["lane"] == "watch":
                    self.peers.took(line["n"])
            case "config" if line["result"] == "accepted":
                self.accepted.set()
                self.peers.accepted()
            case "config":
                LOG.warning("configuration refused: %s of %s %s",
                            line["fault"], line["kind"], line["name"])
            case "announce":
                LOG.info("announces %s", line["address"])
                self.neighbors.announce(line["address"])
            case "withdraw":
                LOG.info("withdraws %s", line["address"])
                self.neighbors.withdraw(line["address"])
            case "send":
                self.neighbors.send(line["interface"], bytes.fromhex(line["bytes"]))
            case "update":
                self.peers.update(line["peer"], bytes.fromhex(line["bytes"]))

    def look_soon(self) -> None:
        """What is announced changes."""
        if self.announcements:
            self.announcements.news.set()

    def look(self) -> None:
        """Has it told what is announced, once the program has told all."""
        if self.announcements and self.peers.is_whole:
            tables = list(self.peers.tables.values())
            narrow, wide = ({prefix for table in tables for prefix in table.routes[family]}
                            for family in (IPV4, IPV6))
            self.announcements.look(self.neighbors.repeats, narrow, wide)

    async def pass_frames(self, link: AnyLink) -> None:
        """Gives the frames that a link received. Those that come while the pipe is full are lost,
        as on a wire."""
        lane = self.program.lanes["frame"]
        while True:
            try:
                frame = await link.received()
            except (OSError, ValueError) as fault:
                LOG.warning("%s: %s", link.name, fault)
                await asyncio.sleep(RECEIVE_PAUSE)
                continue
            event = {"type": "FRAME", "interface": link.name, "bytes": frame.hex()}
            lane.offer(json.dumps(event).encode() + b"\n")

    async def keep_links(self) -> None:
        """Ends the run where an interface is another one, so that the program is started with what
        it is now."""
        changes = Changes()
        with contextlib.closing(changes):
            while True:
                if found := list(look_at(self.links, self.options)):
                    LOG.warning("%s", ", ".join(found))
                    raise Ended()
                await changes.until_next(LINKS_LOOK)
                await asyncio.sleep(LINKS_SETTLE)

    def is_well(self) -> bool:
        """Whether the program takes lines, and a link is there, if there's to be one."""
        is_stuck = any(lane.is_stuck(STUCK) for lane in self.program.lanes.values())
        is_linked = not self.links or any(link.is_up() for link in self.links.values())
        return not is_stuck and is_linked

    async def pass_members(self, members: AnyMembers, watches: Watches) -> None:
        """Gives the members. The node is one from when its program has taken all first lists and
        has a configuration in force, and as long as it runs. Without one it announces nothing, and
        the others, who may go by one that was accepted before, would leave addresses to it."""
        lane = self.program.lanes["watch"]
        await watches.until_listed()
        await lane.until_taken(lane.given)
        await self.accepted.wait()
        await members.give_all(self.give, self.is_well)

    async def give(self, names: list[str]) -> None:
        """Gives the names of the members, and returns once the program took them."""
        LOG.info("members: %s", " ".join(names))
        lane = self.program.lanes["watch"]
        event = {"type": "MEMBERS", "members": names}
        number = await lane.give(json.dumps(event).encode() + b"\n")
        returned, self.before = set(names) - self.before, set(names)
        await lane.until_taken(number)
        self.peers.whole()
        self.look_soon()
        if returned:
            self.neighbors.tell_again()


def command_of(options: argparse.Namespace, links: Mapping[str, AnyLink]) -> list[str]:
    words = [options.program, f"--node-name={options.node_name}"]
    words += [f"--interface={link.name}={link.hardware}" for link in links.values()]
    words += [f"--next-hop={options.next_hop}"] if options.next_hop else []
    words += [f"--next-hop-v6={options.next_hop_v6}"] if options.next_hop_v6 else []
    words += ["--responder"] if options.responder else []
    return words + ([f"--lb-class={options.lb_class}"] if options.lb_class else [])


def peers_of(api: Api, options: argparse.Namespace) -> Peers:
    """The sessions, which go on while the program is started anew."""
    async def ask(group: str, plural: str, name: str,
                  namespace: str | None = None) -> Mapping[str, Any] | None:
        path = f"{group}/namespaces/{namespace or options.namespace}/{plural}/{name}"
        status, thing = await api.request("GET", path)
        if status >= 500 or status == 429:
            raise Broken(f"{status}")
        found: Mapping[str, Any] = thing
        return found if status == 200 else None
    families = [IPV4, IPV6] if options.next_hop_v6 else [IPV4]
    identifier = options.next_hop and (options.router_id or options.next_hop)
    return Peers(options.node_name, identifier, families, options.bgp_retry, ask,
                 options.next_hop_self)


def members_of(api: Api, options: argparse.Namespace) -> AnyMembers:
    """By heartbeats where there is a key, else by Leases."""
    node, seconds = options.node_name, options.lease_seconds
    leases = LeaseMembers(api, options.namespace, node, seconds)
    if not options.secret:
        return leases
    both = leases if options.with_leases else None
    try:
        secret, port = Secret(options.secret), Port(options.beat_port)
    except OSError as fault:
        raise Stop(2, f"--secret, port {options.beat_port}: {fault}") from fault
    return HeartbeatMembers(api, options.namespace, node, secret, port, both)


async def run_once(options: argparse.Namespace, api: Api, members: AnyMembers,
                   links: dict[str, AnyLink], peers: Peers, figures: SpeakerFigures,
                   announcements: Announcements) -> bool:
    """The program from its start to its end, and whether it took anything."""
    peers.begin()

    def note(number: int, event: Mapping[str, Any]) -> None:
        peers.note(number, event)
        members.note(event)
        announcements.note(event)

    command, lanes = command_of(options, links), ["watch", "frame"]
    async with reading(options.admit) as reader, started(command, lanes, options) as program:
        run = Run(program, links, peers, options, announcements)
        watch = program.lanes["watch"]
        figures.begin(program, run.neighbors, peers)
        paths = config_paths(options.namespace) | SERVICE_PATHS | SPEAKER_PATHS
        watches = Watches(api, watch, paths, reader.fault_of, note=note)
        members.note(ANEW)
        announcements.note(ANEW)

        async def give() -> None:
            await program.open()
            frames = (run.pass_frames(link) for link in links.values())
            await together(watches.keep(), run.pass_members(members, watches), *frames)

        with contextlib.suppress(Ended, ConnectionError), contextlib.closing(run.neighbors):
            await together(program.until_ended(), run.hear(), run.keep_links(), give(),
                           announcements.keep(run.look))
        return bool(watch.taken)


async def serve(options: argparse.Namespace) -> None:
    """Serves until it is cancelled."""
    api = api_of(options, f"bridge-speaker/{options.node_name}")
    figures = SpeakerFigures(options.node_name)
    events = Events(api, COMPONENT, options.node_name)
    announcements = Announcements(options.node_name, options.lb_class, events)
    links, peers = links_of(options), peers_of(api, options)
    try:
        members = members_of(api, options)

        def lines() -> Iterator[str]:
            yield from figures.lines()
            yield from members.lines()

        async def run() -> bool:
            return await run_once(options, api, members, links, peers, figures, announcements)

        async with figures_served(options.figures, lines):
            await together(members.run(forever(run)), events.keep())
    finally:
        peers.close()
        for link in links.values():
            link.close()
