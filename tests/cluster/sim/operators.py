"""Who starts bridges, and on which machine. `one`: a bridge that ended is started anew, and never
is there a second. `failover`: as a Deployment of one replica does, another is started elsewhere
once the first one's machine can't be reached, and a rolling update starts the new one first.
`pair`: there are always two, as with a standby; `three`: three."""
import argparse
from collections.abc import Callable, Coroutine, Sequence
from typing import Any

from lockstep import Hears, Run, spawner
from loops import Machine, Made, Process
from servers import ApiServer
from virtual import World
from wires import Link

EVICTED = 40.0  # seconds until a machine that can't be reached counts as lost
TERMINATED = 30.0  # and from SIGTERM to SIGKILL
WANTED = {"one": 1, "failover": 1, "pair": 2, "three": 3}
SERVER = "http://api:8001"


class Reaches:
    """Connects processes to API servers, by chance to one of them. `links` are the connections."""

    def __init__(self, world: World, servers: list[ApiServer]) -> None:
        self.world, self.servers = world, servers
        self.links: list[Link] = []

    async def connect(self, process: Process, factory: Callable[[], Any]) -> Made:
        chance = self.world.chance(f"server for {process.name}")
        up = [server for server in self.servers if server.up]
        server = chance.choice(up if up and chance.random() < 0.9 else self.servers)
        link = Link(process, server)
        connected = await link.connect(factory)
        self.links.append(link)
        if len(self.links) > 100:
            self.links = [one for one in self.links
                          if not one.gone and (not one.client_gone or one.up.queue)]
        return connected


class Operator(Reaches):
    def __init__(self, world: World, mode: str, machines: list[Machine], servers: list[ApiServer],
                 serve: Callable[[argparse.Namespace], Coroutine[Any, Any, None]],
                 options: dict[str, Any], hears: Hears, pauses: Sequence[float]) -> None:
        super().__init__(world, servers)
        self.pauses = pauses
        self.mode, self.machines = mode, machines
        self.serve, self.options = serve, options
        self.bridges: list[Process] = []
        self.runs: list[Run] = []
        self.spawn = spawner(self.runs, hears)
        self.off: set[str] = set()
        self.leaving: dict[Process, None] = {}  # (in their order)
        self.graves: list[Process] = []
        self.unreached = {machine.name: 0.0 for machine in machines}
        self.made = self.starting = self.ends = 0
        for _ in range(WANTED[mode]):
            self.start_elsewhere()
        world.after(1.0, self.look)

    def start(self, machine: Machine) -> None:
        self.made += 1
        # (of an event loop typeshed marks as abstract what asyncio doesn't)
        process = Process(  # type: ignore[abstract]
            self.world, machine, f"bridge{self.made}", self.connect, self.spawn)
        process.ended = lambda why: self.ended(process, why)
        self.bridges.append(process)
        process.start(self.serve(argparse.Namespace(**self.options)))

    def ended(self, process: Process, _why: str) -> None:
        self.ends += 1
        self.graves.append(process)
        if process in self.bridges:
            self.bridges.remove(process)
        replaced = process in self.leaving
        self.leaving.pop(process, None)
        if not replaced:
            self.starting += 1
            chance = self.world.chance(f"after {process.name}")
            if process.machine.name in self.off:
                self.world.after(chance.uniform(5, EVICTED * 2), self.start_again, None)
            else:
                pause = chance.choice(self.pauses) * chance.uniform(0.5, 1.5)
                self.world.after(pause, self.start_again, process.machine)

    def start_again(self, machine: Machine | None) -> None:
        self.starting -= 1
        if machine and machine.name not in self.off:
            self.start(machine)
        else:
            self.start_elsewhere()

    def start_elsewhere(self) -> None:
        used = {bridge.machine for bridge in self.bridges}
        free = [machine for machine in self.machines
                if machine.name not in self.off and not machine.cut and machine not in used]
        if free:
            self.start(self.world.chance("machine for a bridge").choice(free))
        else:
            self.starting += 1
            self.world.after(2.0, self.start_again, None)

    def staying(self) -> list[Process]:
        return [bridge for bridge in self.bridges if bridge not in self.leaving]

    def look(self) -> None:
        """Once a second: bridges on machines that are lost are replaced, and too many are ended."""
        self.world.after(1.0, self.look)
        if self.mode == "one":
            return
        for machine in self.machines:
            is_lost = len({name for name, _ in machine.cut}) == len(self.servers)
            self.unreached[machine.name] = self.unreached[machine.name] + 1 if is_lost else 0.0
        for bridge in self.staying():
            if self.unreached[bridge.machine.name] > EVICTED:
                self.replace(bridge)
        for bridge in list(self.leaving):
            chance = self.world.chance(f"end of {bridge.name}")
            if not self.unreached[bridge.machine.name] and chance.random() < 0.1:
                self.stop(bridge)

    def replace(self, bridge: Process) -> None:
        """Another one is started; this one is to end, and is told so once it can be reached."""
        self.world.note("operator", f"{bridge.name} is replaced")
        self.leaving[bridge] = None
        self.start_elsewhere()

    def roll(self) -> None:
        for bridge in self.staying()[:1]:
            if self.mode != "one":
                self.replace(bridge)

    def stop(self, bridge: Process) -> None:
        bridge.terminate()
        self.world.after(TERMINATED, bridge.kill)

    def power_off(self, machine: Machine) -> None:
        self.off.add(machine.name)
        for link in self.links:
            if link.machine is machine:
                link.power_off()
        for bridge in [bridge for bridge in self.bridges if bridge.machine is machine]:
            bridge.kill()
