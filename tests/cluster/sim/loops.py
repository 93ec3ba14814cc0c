"""Processes and their machines. Each process is an event loop of asyncio whose time is the world's,
so that it can be paused and killed between any two steps, and one that is killed does nothing more:
no `finally` runs."""
import asyncio
import inspect
import sys
from collections import deque
from collections.abc import AsyncGenerator, Awaitable, Callable, Coroutine
from contextvars import Context
from typing import Any

from virtual import World

STEP = 2e-5  # seconds that a turn of a loop takes
EPOCH = 1_780_000_000.0
Made = tuple[Any, Any]  # a transport and its protocol
Connect = Callable[["Process", Callable[[], Any]], Awaitable[Made]]
Spawn = Callable[["Process", Callable[[], Any], tuple[str, ...]], Awaitable[Made]]


class Machine:
    """`offset` is how far its clock of the day is off, `rate` how fast its clocks go, `still` for
    how long they stood, and `since` when they stand. `cut` has the servers that it can't reach,
    each with the way. `pipes` are the named pipes there, by their paths."""

    def __init__(self, world: World, name: str, offset: float = 0.0, rate: float = 1.0) -> None:
        self.world, self.name, self.offset, self.rate = world, name, offset, rate
        self.still, self.number = 0.0, 0
        self.since: float | None = None
        self.cut: set[tuple[str, str]] = set()
        self.pipes: dict[str, object] = {}

    def monotonic(self) -> float:
        moment = self.world.now if self.since is None else self.since
        return 1000.0 + (moment - self.still) * self.rate

    def suspend(self) -> None:
        if self.since is None:
            self.world.note(self.name, "suspended")
            self.since = self.world.now

    def go_on(self) -> None:
        if self.since is not None:
            self.world.note(self.name, "goes on")
            self.still += self.world.now - self.since
            self.since = None

    def wall(self) -> float:
        return EPOCH + self.world.now * self.rate + self.offset

    def next_number(self) -> int:
        self.number += 1
        return self.number


class Process(asyncio.AbstractEventLoop):
    """An event loop, which began at a time. `resources` are told when it is killed. `fuse` is after
    how many more of its steps it is."""

    def __init__(self, world: World, machine: Machine, name: str, connect: Connect,
                 spawn: Spawn) -> None:
        self.world, self.machine, self.name = world, machine, name
        self.connect, self.spawn = connect, spawn
        self.ready: deque[asyncio.Handle] = deque()
        self.waits = self.paused = self.dead = False
        self.fuse: float | None = None
        self.began = world.now
        self.resources: list[Any] = []
        self.ended: Callable[[str], None] = lambda why: None
        self.main: asyncio.Task[object] | None = None
        self.closing: list[Coroutine[Any, Any, None]] = []  # what may not have begun yet

    # What the world does with it

    def start(self, coroutine: Coroutine[Any, Any, object]) -> None:
        self.world.note(self.name, f"begins on {self.machine.name}")
        self.main = self.create_task(coroutine)
        self.main.add_done_callback(self.is_done)

    def is_done(self, task: asyncio.Task[object]) -> None:
        fault = None if task.cancelled() else task.exception()
        self.end(f"ends: {fault!r}" if fault else "ends")

    def kill(self) -> None:
        if not self.dead:
            self.world.counts["bridges killed"] += 1
        self.end("killed")

    def end(self, why: str) -> None:
        if not self.dead:
            self.dead = True
            self.world.note(self.name, why)
            for resource in list(self.resources):
                resource.owner_died()
            for closing in self.closing:
                if inspect.getcoroutinestate(closing) == inspect.CORO_CREATED:
                    closing.close()
            self.ended(why)

    def terminate(self) -> None:
        """As by SIGTERM."""
        if not self.dead and self.main:
            self.world.note(self.name, "SIGTERM")
            self.call_soon(self.main.cancel)

    def pause(self) -> None:
        self.world.note(self.name, "paused")
        self.paused = True

    def resume(self) -> None:
        if self.paused and not self.dead:
            self.world.note(self.name, "resumed")
        self.paused = False
        self.wake()

    def stands(self) -> bool:
        return self.paused or self.machine.since is not None

    # Its turns

    def wake(self) -> None:
        if self.ready and not self.waits and not self.stands() and not self.dead:
            self.waits = True
            self.world.after(STEP, self.turn)

    def turn(self) -> None:
        self.waits = False
        if self.dead or self.stands():
            return
        hooks = sys.get_asyncgen_hooks()
        asyncio._set_running_loop(self)
        sys.set_asyncgen_hooks(firstiter=None, finalizer=self.close_generator)
        try:
            for _ in range(len(self.ready)):
                handle = self.ready.popleft()
                if handle.cancelled():
                    continue
                self.burn()
                if self.dead:
                    return
                handle._run()
        finally:
            asyncio._set_running_loop(None)
            sys.set_asyncgen_hooks(*hooks)
        self.wake()

    def burn(self) -> None:
        """One step more; its fuse may end it."""
        if self.fuse is not None:
            self.fuse -= 1
            if self.fuse < 0:
                self.kill()

    def close_generator(self, generator: AsyncGenerator[Any, Any]) -> None:
        if not self.dead:
            self.call_soon(self.close_now, generator)

    def close_now(self, generator: AsyncGenerator[Any, Any]) -> None:
        """(The task begins a step later, before which this may be killed: what never began is told
        of by Python, and so it is closed then.)"""
        closing = closed(generator)
        self.closing = [one for one in self.closing
                        if inspect.getcoroutinestate(one) == inspect.CORO_CREATED] + [closing]
        self.create_task(closing)

    # What asyncio asks of a loop

    def time(self) -> float:
        return self.machine.monotonic()

    def call_soon(self, callback: Callable[..., object], *args: Any,
                  context: Context | None = None) -> asyncio.Handle:
        handle = asyncio.Handle(callback, args, self, context)
        self.ready.append(handle)
        self.wake()
        return handle

    call_soon_threadsafe = call_soon

    def call_later(self, delay: float, callback: Callable[..., object], *args: Any,
                   context: Context | None = None) -> asyncio.TimerHandle:
        return self.call_at(self.time() + delay, callback, *args, context=context)

    def call_at(self, when: float, callback: Callable[..., object], *args: Any,
                context: Context | None = None) -> asyncio.TimerHandle:
        handle = asyncio.TimerHandle(when, callback, args, self, context)
        self.world.after((when - self.time()) / self.machine.rate, self.ring, handle)
        return handle

    def ring(self, handle: asyncio.TimerHandle) -> None:
        if self.dead or handle.cancelled():
            return
        if self.machine.since is not None:
            self.world.after(1.0, self.ring, handle)
            return
        left = handle.when() - self.time()
        if left > 1e-6:  # the clock stood still meanwhile
            self.world.after(left / self.machine.rate, self.ring, handle)
        else:
            self.ready.append(handle)
            self.wake()

    def _timer_handle_cancelled(self, handle: asyncio.TimerHandle) -> None:
        pass

    def create_future(self) -> asyncio.Future[Any]:
        return asyncio.Future(loop=self)

    def create_task(self, coro: Any, *, name: str | None = None,
                    context: Context | None = None) -> asyncio.Task[Any]:
        given: dict[str, Any] = {"name": name, "context": context}
        return asyncio.Task(coro, loop=self, **given)

    def get_debug(self) -> bool:
        return False

    def is_running(self) -> bool:
        return True

    def is_closed(self) -> bool:
        return False

    def call_exception_handler(self, context: dict[str, Any]) -> None:
        if not self.dead:
            told = f"{context.get('message')} {context.get('exception')!r}"
            self.world.note(self.name, f"unhandled: {told}")

    async def create_connection(  # type: ignore[override]
            self, factory: Any, *_: Any, **words: Any) -> Made:
        if (made := words.get("sock")) is not None:  # one that is connected already
            connected: Made = made.attach(factory)
            return connected
        return await self.connect(self, factory)

    def add_reader(self, fd: Any, callback: Callable[..., object], *args: Any) -> None:
        fd.reader = lambda: callback(*args)

    def remove_reader(self, fd: Any) -> bool:
        fd.reader = None
        return True

    async def subprocess_exec(  # type: ignore[override]
            self, factory: Any, *command: str, **_: Any) -> Made:
        return await self.spawn(self, factory, command)

    async def connect_write_pipe(self, factory: Any, pipe: Any) -> Made:
        protocol = factory()
        pipe.connected(protocol)
        return pipe, protocol


async def closed(generator: AsyncGenerator[Any, Any]) -> None:
    await generator.aclose()
