"""The controller's bridge: the program behind its fence, its requests, and what it is shown."""
import argparse
import asyncio
import contextlib
from collections.abc import Iterator

from api import Api, Json
from carrier import Carrier, Told
from common import Lost, api_of, tell, together, warn
from events import Events
from fenced import Fenced
from figures import Figures, figures_served
from guard import PoolGuard
from host import fresh, node_name
from lanes import Trace
from owed import Owed
from programs import IDLE_RUNS, PAUSE, Ended, Program, started
from puts import Counts
from reading import Reader, reading
from refusals import Refusals
from services import Name
from taking import Taking
from watches import ANEW, SERVICE_PATHS, Watches, config_paths

COMPONENT = "sutchebam-controller"
LAST_WAIT = 5.0  # seconds in which the Lease is given up at the end


def has_addresses(event: Json) -> bool:
    status = event["object"].get("status") or {}
    return bool((status.get("loadBalancer") or {}).get("ingress"))


class Lane:
    """The watched lines on their way to the program, each until all is done that comes of it."""
    name = "watch"

    def __init__(self, fenced: Fenced, trace: Trace) -> None:
        self.fenced, self.trace, self.given = fenced, trace, 0

    async def give(self, line: bytes) -> int:
        self.given += 1
        number = self.given
        self.trace(f"{self.name} {number}", line)
        await self.fenced.show(line)
        self.trace("took", f"{self.name} {number}\n".encode())
        return number

    async def until_taken(self, _number: int) -> None:
        """It was taken when it was given."""


class Run:
    """One run of the program, under a name of its own."""

    def __init__(self, options: argparse.Namespace, program: Program, carrier: Carrier,
                 events: Events, figures: Figures, told: dict[Name, float]) -> None:
        self.options, self.program, self.carrier = options, program, carrier
        self.events, self.figures = events, figures
        self.owed = Owed(told)
        self.fenced = Fenced(program, carrier, self.owed, self.hear)

    async def serve(self, taking: Taking, reader: Reader) -> None:
        """Takes the Lease, and serves until the program ends or the Lease is lost."""
        await taking.run()
        self.figures.begin(self.program, self.carrier.refusals, self.owed)
        await together(self.fenced.keep(), self.fenced.renew(), self.fenced.chase(),
                       self.carrier.refusals.keep(), self.until_all_fenced(), self.give(reader))

    async def give(self, reader: Reader) -> None:
        """Gives the program what is watched."""
        async def fault_of(event: Json, line: bytes) -> str | None:
            """A service that has addresses is shown in any case: were it kept back, another one
            could be given them. So one that can't be read stops the controller."""
            return None if has_addresses(event) else await reader.fault_of(event, line)

        def note(_number: int, event: Json) -> None:
            if event == ANEW:
                self.figures.anew()
                guard.begin_services()
            self.figures.note(event)
            self.events.note(event)
            self.carrier.refusals.note(event)
            guard.note(event)

        options = self.options
        guard = PoolGuard(options.namespace, options.lb_class, options.without_pools,
                          asyncio.Event(), self.carrier.giving)
        paths = config_paths(options.namespace) | SERVICE_PATHS
        watches = Watches(self.carrier.api, Lane(self.fenced, options.trace), paths, fault_of,
                          self.fenced, note, guard)
        guard.listed = watches.lists["Service"]
        await watches.keep()

    async def until_all_fenced(self) -> None:
        """`Ended`: as many puts were owed as may be, so that others weren't sent, and none is any
        more: the services are to be shown anew."""
        while not self.owed.was_full or self.owed.puts:
            await asyncio.sleep(PAUSE)
        raise Ended()

    def hear(self, line: Json) -> None:
        """Takes note of a line that is no request."""
        match line["op"]:
            case "pending":
                tell(f"{line['namespace']}/{line['name']} waits: {line['reason']}")
                self.events.pending(line)
            case "config":
                self.figures.configured(line)
                if line["result"] == "refused":
                    warn(f"configuration refused: {line['fault']} of {line['kind']} {line['name']}")


class Controller:
    """One bridge: runs its program again and again."""

    def __init__(self, options: argparse.Namespace) -> None:
        self.options = options
        self.api: Api = api_of(options, "bridge-controller")
        self.events = Events(self.api, COMPONENT)
        self.counts, self.figures = Counts(), Figures()
        self.told: tuple[Told, dict[Name, float]] = Told(), {}
        self.before: str | None = None  # the last name under which it had the Lease

    async def serve(self) -> None:
        """Serves until it is cancelled."""
        async with figures_served(self.options.figures, self.lines):
            await together(self.serve_runs(), self.events.keep())

    async def serve_runs(self) -> None:
        idle = 0
        while True:
            self.figures.begin_run()
            try:
                with contextlib.suppress(Ended):
                    await self.run(f"{node_name()}_{fresh()}")
            except Lost as lost:
                tell(lost)
            idle = 0 if self.figures.took() else idle + 1
            if idle >= IDLE_RUNS:
                await asyncio.sleep(PAUSE)

    async def run(self, name: str) -> None:
        """Runs the program once, under this name, which nobody had before. `Ended`: it ended."""
        options = self.options
        refusals = Refusals(self.api, options.refused_pause)
        carrier = Carrier(self.api, options.namespace, options.lease_seconds, refusals, self.events,
                          self.counts, self.told[0])
        command = [options.program, "--fence", name]
        command += ["--lb-class", options.lb_class] if options.lb_class else []
        try:
            async with reading(options.admit) as reader, \
                    started(command, [], options) as program:
                run = Run(options, program, carrier, self.events, self.figures, self.told[1])
                taking = Taking(program, name, self.before, carrier, run.owed, self.held)
                with contextlib.suppress(ConnectionError):
                    await together(program.until_ended(), run.serve(taking, reader))
        except asyncio.CancelledError:
            if self.before == name:
                with contextlib.suppress(TimeoutError):
                    async with asyncio.timeout(LAST_WAIT):
                        await carrier.release(name)
            raise
        raise Ended()

    def held(self, name: str) -> None:
        """The program of this name has the Lease."""
        self.before, self.figures.is_holder = name, True

    def lines(self) -> Iterator[str]:
        """What /metrics tells."""
        yield from self.figures.lines(self.counts)


async def serve(options: argparse.Namespace) -> None:
    """Serves until it is cancelled."""
    await Controller(options).serve()
