"""The host that is handed in to a bridge: its time of day, chance, names and pipes are those of the
simulated process that runs."""
import asyncio
import contextlib
import datetime
import logging
import random
import uuid
from collections.abc import Iterator

from host import Host
from lockstep import Lane
from loops import Process
from virtual import World


def running() -> Process:
    loop = asyncio.get_running_loop()
    if not isinstance(loop, Process):
        raise TypeError(f"{loop} isn't simulated")
    return loop


class Simulated(Host):
    """Each process has a chance of its own."""

    def __init__(self, world: World) -> None:
        self.world = world
        self.chances: dict[str, random.Random] = {}

    def chance(self) -> random.Random:
        name = running().name
        if name not in self.chances:
            self.chances[name] = self.world.stream(f"host of {name}")
        return self.chances[name]

    def now(self) -> datetime.datetime:
        return datetime.datetime.fromtimestamp(running().machine.wall(), datetime.timezone.utc)

    def fresh(self) -> str:
        return uuid.UUID(int=self.chance().getrandbits(128), version=4).hex

    def node_name(self) -> str:
        return running().machine.name

    def between(self, least: float, most: float) -> float:
        return self.chance().uniform(least, most)

    @contextlib.contextmanager
    def folder(self) -> Iterator[str]:
        process = running()
        yield f"/simulated/{process.name}-{process.machine.next_number()}"

    def make_pipe(self, path: str) -> None:
        running().machine.pipes[path] = None

    def open_pipe(self, path: str) -> Lane | None:
        lane = running().machine.pipes.get(path)
        return lane if isinstance(lane, Lane) and lane.is_open else None


class Told(logging.Handler):
    """Notes what is logged by a process."""

    def emit(self, record: logging.LogRecord) -> None:
        process, told = running(), record.getMessage()
        process.world.told.append((process.name, told))
        process.world.note(process.name, f"tells: {told}")


def note_log() -> None:
    """What the bridge tells is noted, and nowhere else."""
    log = logging.getLogger("bridge")
    log.handlers[:], log.propagate = [Told()], False
    log.setLevel(logging.INFO)
