"""A small cluster with a speaker on each of three nodes besides, whose frames and messages go over
links and to routers in this process."""
from __future__ import annotations

import functools
import subprocess
import sys
import tempfile
import time

from users import NODES
from wire import Links, Router
from wire_judge import Running, WireJudge
from world import LANES, NO_VERDICT, Bridge, World, program_of


def lease_seconds() -> int:
    """How long a Lease lasts: three seconds, and on a slow machine up to thirty, so that no node
    counts as gone for being slow."""
    begun = time.monotonic()
    subprocess.run([sys.executable, "-c", "import asyncio"], check=True)
    return max(3, min(30, round(15 * (time.monotonic() - begun))))


class SpeakerWorld(World):
    SECONDS = 2.0, 5.0

    def __init__(self, seed: int, controller: str | None = None, speaker: str | None = None,
                 trace: str | None = None) -> None:
        self.speaker = speaker or program_of("mlb_speaker")
        super().__init__(seed, controller, trace)

    def begin(self) -> None:
        self.users.speakers = True
        self.folder = tempfile.TemporaryDirectory(prefix="links-")
        self.links = Links(self.folder.name)
        self.routers = {name: Router(functools.partial(self.users.peer_number, name))
                        for name in ("q0", "q1")}
        self.users.router_ports = {name: router.port for name, router in self.routers.items()}
        self.speakers: dict[str, Bridge] = {}
        self.lease = lease_seconds()
        self.responder = ["--responder"] * self.random.choice((0, 1))
        self.wire = WireJudge(
            self.store, self.links, self.routers, self.running,
            lambda: {node: bridge.followed for node, bridge in self.speakers.items()},
            self.lb_class)
        self.users.begin_speakers()
        for node in NODES:
            self.start_speaker(node)

    @staticmethod
    def hardware(node: str) -> dict[str, bytes]:
        return {f"eth{at}": bytes.fromhex(f"02000000{at:02}0{node[1:]}") for at in range(2)}

    def running(self) -> Running:
        """The nodes with a speaker: each with its next hops, and the hardware addresses of its
        interfaces."""
        return {node: (self.hops(node), self.hardware(node)) for node in self.speakers}

    @staticmethod
    def hops(node: str) -> dict[int, str]:
        """By the version of the routes."""
        return {4: f"10.0.0.{node[1:]}", 6: f"fd00::{node[1:]}"}

    def start_speaker(self, node: str) -> None:
        hops = self.hops(node)
        words = ["speaker", "--server", self.server.url, "--program", self.speaker,
                 "--node-name", node, "--next-hop", hops[4], "--next-hop-v6", hops[6],
                 "--lease-seconds", str(self.lease), "--bgp-retry", "0.2"]
        for name, hardware in self.hardware(node).items():
            words += ["--interface", f"{name}={hardware.hex(':')}"]
            words += ["--link", f"{name}={self.folder.name}"]
        words += ["--lb-class", self.lb_class] if self.lb_class else []
        words += self.responder
        self.speakers[node] = Bridge(words, LANES["speaker"], lambda: self.links.forget(node),
                                     self.kept(node), self.ends.append)

    def harm(self) -> None:
        if self.random.random() < 0.4:
            return super().harm()
        node = self.random.choice(NODES)
        bridge = self.speakers.get(node)
        if bridge is None:
            return self.start_speaker(node)
        self.speaker_kills += bridge.kill()
        if self.random.random() < 0.15:  # the whole node goes
            bridge.end()
            del self.speakers[node]

    def heal(self) -> None:
        """A node that is gone stays so in half of the rounds."""
        for node in NODES:
            if node in self.speakers:
                continue
            if self.random.random() < 0.5 or not self.speakers:
                self.start_speaker(node)

    def slow(self) -> None:
        """Where Leases have become too short for the machine, all nodes go, and come back with
        longer ones."""
        lease = lease_seconds()
        if lease > self.lease:
            self.lease = lease
            for node, bridge in list(self.speakers.items()):
                bridge.end()
                self.start_speaker(node)

    def bridges(self) -> list[Bridge]:
        return [self.bridge, *self.speakers.values()]

    def left(self, come: bool) -> list[str]:
        """The wire is looked at once all speakers were shown all that there is, the members
        too."""
        lines = super().left(come)
        if lines or not come:
            return lines or [f"{NO_VERDICT} until all was shown"]
        deaf = self.apart() or [f"{NO_VERDICT} for {node}, which takes note of no questions"
                                for node in self.wire.ask()]
        return deaf or self.apart() or self.wire.left()

    def apart(self) -> list[str]:
        """The speakers that know of other members than there are."""
        members = {node: bridge.followed.members() for node, bridge in self.speakers.items()}
        return [f"{NO_VERDICT} for the members: to {node} they are {names}"
                for node, names in members.items() if names != sorted(members)]

    def stop(self) -> None:
        for bridge in self.speakers.values():
            bridge.stop()
        super().stop()
        self.links.close()
        for router in self.routers.values():
            router.close()
        self.folder.cleanup()
