"""A program over lanes, or over its standard input alone, from its start to its end, and anew."""
import argparse
import asyncio
import contextlib
import json
from collections.abc import AsyncGenerator, AsyncIterator, Awaitable, Callable, Sequence

from api import Json
from common import Stop, tell, warn
from host import folder
from lanes import Lane

LONGEST = 2 ** 24  # octets of a line that is read
LAST_WAIT = 5.0  # seconds for a program to end once all is closed
BAD_WORDS = 2  # the status of a program whose words aren't as stated
IDLE_RUNS, PAUSE = 3, 1.0  # after so many runs in which nothing was taken, seconds before each
LOOK = 1.0  # seconds until it is looked whether the program goes on


class Ended(Exception):
    """The program ended, or is to be ended since it takes nothing more."""


class Program:
    """A run of a program, from its start to its end."""

    def __init__(self, process: asyncio.subprocess.Process, lanes: Sequence[Lane],
                 options: argparse.Namespace) -> None:
        if process.stdin is None or process.stdout is None:
            raise ValueError("the program has no pipes")
        self.process, self.stdin, self.stdout = process, process.stdin, process.stdout
        self.lanes = {lane.name: lane for lane in lanes}
        self.trace, self.patience = options.trace, options.patience

    async def open(self) -> None:
        """Opens the lanes as the program does: the first one first."""
        for lane in self.lanes.values():
            await lane.open()

    async def line(self) -> Json | None:
        """The next line that the program writes, as a value, once it is whole; none at its end."""
        line = await self.stdout.readline()
        if not line.endswith(b"\n"):
            return None
        self.trace("written", line)
        value: Json = json.loads(line)
        return value

    async def written(self) -> AsyncGenerator[Json, None]:
        """The lines that the program writes. What it has taken of a lane is noted on the way."""
        while (value := await self.line()) is not None:
            if value["op"] == "took":
                await self.lanes[value["lane"]].took(value["n"])
            yield value

    async def awaited(self) -> Json:
        """The next line, of which it is known that it comes. `Ended`: it doesn't."""
        value = None
        with contextlib.suppress(TimeoutError):
            async with asyncio.timeout(self.patience):
                value = await self.line()
        if value is None:
            raise Ended()
        return value

    async def say(self, lines: bytes) -> None:
        """Gives lines by the standard input."""
        for line in lines.splitlines(keepends=True):
            self.trace("given", line)
        self.stdin.write(lines)
        with contextlib.suppress(ConnectionError):  # its end is told by what it writes
            await self.stdin.drain()

    async def until_ended(self) -> None:
        """A program that stopped inside tells of nothing more that it takes, and ends only once
        all is closed. So it is given up then."""
        while True:
            with contextlib.suppress(TimeoutError):
                async with asyncio.timeout(LOOK):
                    if await self.process.wait() == BAD_WORDS:
                        raise Stop(BAD_WORDS, "the program doesn't take its words")
                    raise Ended()
            for lane in self.lanes.values():
                if lane.is_stuck(self.patience):
                    warn(f"nothing more is taken of the {lane.name} lane")
                    raise Ended()
                lane.probe()

    async def close(self) -> None:
        """Closes the lanes and the input, and waits until the program has ended. What it writes
        until then is passed over. One that has ended before has done so by itself."""
        if self.process.returncode is not None:
            warn(f"program ended by itself: {self.process.returncode}")
        if not all(lane.writer for lane in self.lanes.values()):
            with contextlib.suppress(ProcessLookupError):
                self.process.kill()
        for lane in self.lanes.values():
            lane.close()
        self.stdin.close()
        try:
            async with asyncio.timeout(LAST_WAIT):
                while await self.stdout.read(65536):
                    pass
        except TimeoutError:
            with contextlib.suppress(ProcessLookupError):
                self.process.kill()
        tell(f"program ended: {await self.process.wait()}")


@contextlib.asynccontextmanager
async def started(command: Sequence[str], names: Sequence[str],
                  options: argparse.Namespace) -> AsyncIterator[Program]:
    """The program over lanes of these names. Once this is left it has ended, and its pipes are
    gone."""
    with folder() if names else contextlib.nullcontext("") as path:
        lanes = [Lane(name, path, options.trace) for name in names]
        words = [word for lane in lanes for word in (f"--{lane.name}-lane", lane.path)]
        pipe = asyncio.subprocess.PIPE
        # In a session of its own it isn't ended by the terminal, but by the bridge, which is.
        process = await asyncio.create_subprocess_exec(
            *command, *words, stdin=pipe, stdout=pipe, limit=LONGEST, start_new_session=True)
        tell(f"program started: {process.pid}")
        options.trace("started", f"{process.pid}\n".encode())
        program = Program(process, lanes, options)
        try:
            yield program
        finally:
            await program.close()


async def forever(run: Callable[[], Awaitable[bool]]) -> None:
    """Runs a program anew each time that it ends. `run` tells whether it took anything."""
    idle = 0
    while True:
        idle = 0 if await run() else idle + 1
        if idle >= IDLE_RUNS:
            await asyncio.sleep(PAUSE)
