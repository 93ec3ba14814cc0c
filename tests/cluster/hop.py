"""A hop between a bridge and the API server, such as a load balancer, that misbehaves: it holds
requests back, sends them twice, refuses them, loses answers, or says nothing any more.

What becomes of a request is told by `fate`, which is asked of each. The hop runs in a thread of its
own, and may be cut off and mended at any time.
"""
import asyncio
import contextlib
import json
import threading
from collections.abc import Callable, Coroutine
from dataclasses import dataclass, field
from typing import Any

LONGEST = 2 ** 24
WAIT = 60.0  # seconds for what another thread asks of the hop


@dataclass(frozen=True)
class Request:
    method: str
    path: str
    agent: str
    octets: bytes
    body: bytes

    @property
    def is_change(self) -> bool:
        """Whether it changes a service's status or its annotations."""
        return self.method == "PATCH" and "/services/" in self.path

    @property
    def is_put(self) -> bool:
        return self.is_change and b'"status"' in self.body

    @property
    def service(self) -> str:
        """The name of the service that it is of."""
        return self.path.partition("/services/")[2].partition("/")[0].partition("?")[0]


@dataclass(frozen=True)
class Fate:
    """What becomes of a request. `pass`: nothing wrong; `refuse`: it is answered so, and not passed
    on; `cut`: the connection ends before, `lose`: behind its being carried out; `hold`: the
    connection ends, and the request comes when it is released, or after so many seconds; `keep`:
    so too, but that the connection stays; `late`:
    it comes so late, and is answered; `twice`: it comes twice, and the second answer is given;
    `stall`: nothing comes of it, and the connection stays; `mute`: it is carried out, and nothing
    more comes."""
    what: str = "pass"
    status: int = 0
    message: str = "made up"
    seconds: float | None = None
    headers: str = ""
    body: bytes | None = None


PASS = Fate()


@dataclass
class Held:
    """A request that is held back, and what it was answered in the end."""
    request: Request
    released: asyncio.Event = field(default_factory=asyncio.Event)
    status: asyncio.Future[int] | None = None


class Hop:
    """Between whoever asks `url` and the server at a port of this host."""

    def __init__(self, port: int, fate: Callable[[Request], Fate] = lambda request: PASS) -> None:
        self.port, self.fate = port, fate
        self.held: list[Held] = []
        self.is_down = False
        self.frozen: set[asyncio.StreamWriter] = set()
        self.open: set[asyncio.StreamWriter] = set()
        self.tasks: set[asyncio.Task[None]] = set()
        self.loop = asyncio.new_event_loop()
        self.ready = threading.Event()
        self.thread = threading.Thread(target=self.run, daemon=True)
        self.thread.start()
        self.ready.wait()

    def run(self) -> None:
        asyncio.set_event_loop(self.loop)
        self.server = self.loop.run_until_complete(
            asyncio.start_server(self.serve, "127.0.0.1", 0, limit=LONGEST))
        self.url = f"http://127.0.0.1:{self.server.sockets[0].getsockname()[1]}"
        self.ready.set()
        self.loop.run_forever()
        tasks = asyncio.all_tasks(self.loop)
        for task in tasks:
            task.cancel()
        self.loop.run_until_complete(asyncio.gather(*tasks, return_exceptions=True))
        self.loop.close()

    # What other threads ask

    def wait(self, part: Coroutine[Any, Any, Any]) -> Any:
        return asyncio.run_coroutine_threadsafe(part, self.loop).result(WAIT)

    def cut(self) -> None:
        """All connections end, and none is made any more."""
        self.is_down = True
        self.loop.call_soon_threadsafe(self.close_all)

    def mend(self) -> None:
        self.is_down = False

    def freeze(self) -> None:
        """Nothing more comes by the connections that there are, though they stay."""
        async def all_of() -> None:
            self.frozen |= self.open
        self.wait(all_of())

    def end_frozen(self) -> None:
        """The connections by which nothing came any more end."""
        def all_of() -> None:
            for writer in self.frozen:
                writer.close()
        self.loop.call_soon_threadsafe(all_of)

    def release(self) -> list[int]:
        """What is held back comes now. The status of each answer."""
        async def all_of() -> list[int]:
            held, self.held = self.held, []
            for one in held:
                one.released.set()
            return [await one.status for one in held if one.status is not None]
        found: list[int] = self.wait(all_of())
        return found

    def release_soon(self, request: Request) -> None:
        """This request, where it is held back, comes now; nobody waits for it."""
        def one_of() -> None:
            for one in self.held:
                if one.request is request:
                    one.released.set()
        self.loop.call_soon_threadsafe(one_of)

    def stop(self) -> None:
        self.loop.call_soon_threadsafe(self.loop.stop)
        self.thread.join()

    # Connections

    def close_all(self) -> None:
        for writer in self.open:
            writer.close()

    async def serve(self, reader: asyncio.StreamReader, writer: asyncio.StreamWriter) -> None:
        self.open.add(writer)
        try:
            with contextlib.suppress(OSError, EOFError, asyncio.LimitOverrunError,
                                     asyncio.CancelledError):
                if not self.is_down:
                    request = await self.read(reader)
                    await self.carry(self.fate(request), request, reader, writer)
        finally:
            self.open.discard(writer)
            self.frozen.discard(writer)
            writer.close()

    @staticmethod
    async def read(reader: asyncio.StreamReader) -> Request:
        head = await reader.readuntil(b"\r\n\r\n")
        first, *lines = head.decode().split("\r\n")
        headers = {line.partition(":")[0].lower(): line.partition(":")[2].strip() for line in lines}
        body = await reader.readexactly(int(headers.get("content-length", 0)))
        method, path, _ = first.split()
        return Request(method, path, headers.get("user-agent", ""), head + body, body)

    async def carry(self, fate: Fate, request: Request, reader: asyncio.StreamReader,
                    writer: asyncio.StreamWriter) -> None:
        match fate.what:
            case "refuse":
                told = {"kind": "Status", "status": "Failure", "message": fate.message,
                        "code": fate.status}
                body = json.dumps(told).encode() if fate.body is None else fate.body
                writer.write(f"HTTP/1.1 {fate.status} -\r\nContent-Type: application/json\r\n"
                             f"{fate.headers}Content-Length: {len(body)}\r\n\r\n".encode() + body)
                await writer.drain()
            case "lose":
                await self.answered(request)
            case "hold":
                self.hold(request, fate.seconds)
            case "keep":
                self.hold(request, fate.seconds)
                await reader.read()
            case "late":
                await asyncio.sleep(fate.seconds or 0.0)
                await self.pass_on(request, writer)
            case "twice":
                await self.answered(request)
                writer.write(await self.answered(request))
                await writer.drain()
            case "stall":
                await reader.read()
            case "mute":
                await self.answered(request)
                await reader.read()
            case "pass":
                await self.pass_on(request, writer)

    def hold(self, request: Request, seconds: float | None) -> None:
        held = Held(request)
        held.status = self.loop.create_future()
        self.held.append(held)
        task = self.loop.create_task(self.come_later(held, seconds))
        self.tasks.add(task)
        task.add_done_callback(self.tasks.discard)

    async def come_later(self, held: Held, seconds: float | None) -> None:
        with contextlib.suppress(TimeoutError):
            async with asyncio.timeout(seconds):
                await held.released.wait()
        status = 0
        with contextlib.suppress(OSError, ValueError, IndexError):
            status = int((await self.answered(held.request)).split(maxsplit=2)[1])
        if held.status is not None and not held.status.done():
            held.status.set_result(status)
        if held in self.held:
            self.held.remove(held)

    async def answered(self, request: Request) -> bytes:
        """Has the server carry the request out; the answer."""
        reader, writer = await asyncio.open_connection("127.0.0.1", self.port, limit=LONGEST)
        try:
            writer.write(request.octets)
            return await reader.read()
        finally:
            writer.close()

    async def pass_on(self, request: Request, writer: asyncio.StreamWriter) -> None:
        """Passes the request on, and the answer as it comes, while both sides are there."""
        reader, server = await asyncio.open_connection("127.0.0.1", self.port, limit=LONGEST)
        self.open.add(server)
        try:
            server.write(request.octets)
            while piece := await reader.read(65536):
                if writer not in self.frozen:
                    writer.write(piece)
                    await writer.drain()
        finally:
            self.open.discard(server)
            server.close()
