"""A lane: a named pipe that a program reads events from, and what it has told of them."""
import asyncio
import os
from collections.abc import Callable

from host import make_pipe, open_pipe

PROBE_PAUSE = 20.0  # seconds without a line, until one tries whether the program still takes lines
OPEN_PAUSE = 0.005  # seconds until it is tried again whether the program has opened the pipe
PROBES = {"frame": b'{"type":"FRAME","interface":"","bytes":""}\n'}
OTHER_PROBE = b'{"type":"BOOKMARK","object":{"kind":"Probe"}}\n'
Trace = Callable[[str, bytes], object]


class Lane:
    """One pipe. Lines are numbered from 1 in the order in which they are given."""

    def __init__(self, name: str, folder: str, trace: Trace) -> None:
        self.name, self.path, self.trace = name, os.path.join(folder, name), trace
        self.given = self.taken = 0
        self.loop = asyncio.get_running_loop()
        self.moved, self.heard = self.loop.time(), asyncio.Condition()
        self.writer: asyncio.StreamWriter | None = None
        make_pipe(self.path)

    async def open(self) -> None:
        """Waits until the program reads the pipe."""
        while (end := open_pipe(self.path)) is None:
            await asyncio.sleep(OPEN_PAUSE)
        transport, protocol = await self.loop.connect_write_pipe(
            asyncio.streams.FlowControlMixin, end)
        self.writer = asyncio.StreamWriter(transport, protocol, None, self.loop)

    async def give(self, line: bytes) -> int:
        """Gives a line, which has its line end, and waits while the pipe is full. The line is
        whole also where that wait is cut short."""
        number = self.number(line)
        if self.writer is not None:
            await self.writer.drain()
        return number

    def offer(self, line: bytes) -> None:
        """Gives a line unless the pipe is full."""
        if self.writer is not None and not self.writer.transport.get_write_buffer_size():
            self.number(line)

    def number(self, line: bytes) -> int:
        if self.writer is None:
            raise ConnectionError("the pipe isn't open")
        if self.given == self.taken:
            self.moved = self.loop.time()
        self.given += 1
        self.trace(f"{self.name} {self.given}", line)
        self.writer.write(line)
        return self.given

    async def took(self, number: int) -> None:
        async with self.heard:
            self.taken, self.moved = number, self.loop.time()
            self.heard.notify_all()

    async def until_taken(self, number: int) -> None:
        async with self.heard:
            await self.heard.wait_for(lambda: self.taken >= number)

    def probe(self) -> None:
        """Gives a line that comes to nothing, where nothing was given for a while."""
        if self.given == self.taken and self.loop.time() - self.moved > PROBE_PAUSE:
            self.offer(PROBES.get(self.name, OTHER_PROBE))

    def is_stuck(self, patience: float) -> bool:
        """Whether nothing was taken for so many seconds, though something was given."""
        return self.given > self.taken and self.loop.time() - self.moved > patience

    def close(self) -> None:
        if self.writer is not None:
            self.writer.close()
