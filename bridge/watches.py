"""The watches of a lane: they begin with what there is, go on where they broke, and begin anew
where they can't."""
import asyncio
import contextlib
import json
import logging
from collections.abc import AsyncGenerator, Awaitable, Callable
from contextlib import aclosing
from typing import Protocol

from api import Broken, Json, NotSent, Refused
from common import tell, together, warn
from guard import POOL, NotYet, PoolGuard
from host import Pause
from reading import read

FIRST = ("watch=1&sendInitialEvents=true&resourceVersionMatch=NotOlderThan"
         "&allowWatchBookmarks=true")
NEXT = "watch=1&resourceVersion={}&allowWatchBookmarks=true"
SECONDS = 50  # of a watch that was quiet: the server ends it, two seconds behind a bookmark
QUIET = f"&timeoutSeconds={SECONDS}"
SILENCE = 55.0  # seconds without a line, until a watch is asked for anew by another connection
ANEW: Json = {"type": "ERROR", "object": {}}  # lists begin anew
ERROR = b'{"type":"ERROR","object":{}}\n'
FIRST_PAUSE, LONGEST_PAUSE = 0.1, 30.0  # seconds before a watch that broke is asked for again
REFUSED_PAUSE, EMPTY_PAUSE = 2.0, 2.0  # and before one that was refused, or isn't to end yet
AWAITED_TOLD = 15.0  # seconds until it is told which lists are awaited and what is kept back
UNSERVED = (400, 422)  # answers of a server that doesn't begin watches with what there is
WATCHED_LABELS = ("Namespace", "Node")  # kinds of which nothing but labels is read
Key = tuple[str | None, str | None]
FaultOf = Callable[[Json, bytes], Awaitable[str | None]]
Note = Callable[[int, Json], None]


class Expired(Exception):
    """A watch can't go on from what was given of it."""


class Source(Protocol):
    """What lines are asked of: an API server (api.py)."""

    def lines(self, path: str, silence: float) -> AsyncGenerator[bytes, None]:
        """The lines of a watch, until it ends or nothing came for so many seconds."""

    def listed(self, path: str) -> AsyncGenerator[bytes, None]:
        """A list as the lines of a watch."""


class Taker(Protocol):
    """What is given lines: a lane of a program (lanes.py)."""

    @property
    def name(self) -> str:
        """What it is called."""

    @property
    def given(self) -> int:
        """How many lines it was given."""

    async def give(self, line: bytes) -> int:
        """Gives a line, and tells its number."""

    async def until_taken(self, number: int) -> object:
        """Waits until the line of this number was taken."""


def config_paths(namespace: str) -> dict[str, str]:
    own = f"/apis/metallb.io/{{}}/namespaces/{namespace}/{{}}"
    return {
        POOL: own.format("v1beta1", "ipaddresspools"),
        "L2Advertisement": own.format("v1beta1", "l2advertisements"),
        "BGPAdvertisement": own.format("v1beta1", "bgpadvertisements"),
        "Community": own.format("v1beta1", "communities"),
        "BGPPeer": own.format("v1beta2", "bgppeers"),
        "Namespace": "/api/v1/namespaces",
    }


SERVICE_PATHS = {"Service": "/api/v1/services"}
HOLD_NOTHING_BACK = (POOL, "Service", "EndpointSlice")
SPEAKER_PATHS = {"Node": "/api/v1/nodes",
                 "EndpointSlice": "/apis/discovery.k8s.io/v1/endpointslices"}


def ends_list(event: Json) -> bool:
    annotations = event["object"].get("metadata", {}).get("annotations") or {}
    return bool(event["type"] == "BOOKMARK"
                and annotations.get("k8s.io/initial-events-end") == "true")


def key_of(event: Json) -> Key:
    metadata = event["object"]["metadata"]
    return metadata.get("namespace"), metadata.get("name")


def readable(line: bytes) -> tuple[Json, bytes]:
    """An event and its line. What isn't one has come through something that broke it."""
    try:
        event, line = read(line)
        if event["type"] == "ERROR" or event["object"]["metadata"]["resourceVersion"]:
            return event, line
    except (ValueError, KeyError, TypeError, AttributeError) as fault:
        raise Broken("a line of a watch is no event") from fault
    raise Broken("a line of a watch has no version")


def hold(held: dict[Key, bytes], event: Json, line: bytes) -> None:
    """Takes a line of a list that hasn't ended into those that are held back: the last one of each
    object that is there."""
    if event["type"] == "DELETED":
        held.pop(key_of(event), None)
    elif event["type"] != "BOOKMARK":
        held[key_of(event)] = line


class Lists(Protocol):
    """When Services may be listed, and nothing is given before that list is there."""

    async def may_begin(self) -> object:
        """Waits until the list may be asked for."""

    async def came(self) -> object:
        """It is there, and is given from now on. Waits until that may be."""


class Watched:
    """One watch: the version from which it goes on, whether nothing but bookmarks came by its last
    connection, and what was told of it."""

    def __init__(self, kind: str, path: str) -> None:
        self.kind, self.path = kind, path
        self.version: str | None = None
        self.is_quiet = False
        self.pause = Pause(FIRST_PAUSE, LONGEST_PAUSE)
        self.told: int | None = None
        self.labels: dict[Key, object] = {}  # of the objects of which nothing else is read

    def changes_nothing(self, event: Json) -> bool:
        """Whether the line shows the labels that the last one of its object showed."""
        if self.kind not in WATCHED_LABELS or event["type"] == "BOOKMARK":
            return False
        labels = event["object"]["metadata"].get("labels") or {}
        if event["type"] == "DELETED":
            self.labels.pop(key_of(event), None)
            return False
        is_same = self.labels.get(key_of(event)) == labels
        self.labels[key_of(event)] = labels
        return is_same


class Watches:
    """`asking` says when Services may be listed, where that isn't free. `fault_of` tells of a line
    why it would end the program, or nothing: such a line is kept from it. `note` is told of each
    line's number and event ahead of its being given. `guard` is asked of pools. `has_services`: the
    list of Services is there; `begun`: lists may be given."""

    def __init__(self, api: Source, lane: Taker, paths: dict[str, str], fault_of: FaultOf,
                 asking: Lists | None = None, note: Note = lambda number, event: None,
                 guard: PoolGuard | None = None) -> None:
        self.api, self.lane, self.paths, self.fault_of = api, lane, paths, fault_of
        self.asking, self.note, self.guard = asking, note, guard
        self.has_services, self.begun = asyncio.Event(), asyncio.Event()
        self.lists = {kind: asyncio.Event() for kind in paths}
        self.kept: dict[tuple[str, Key], str] = {}

    async def keep(self) -> None:
        """Gives the lane its watches' lines. Where one expires all end; once the program has taken
        note of that, all begin anew."""
        is_first = True
        while True:
            for event in (*self.lists.values(), self.has_services, self.begun):
                event.clear()
            self.kept.clear()
            with contextlib.suppress(Expired):
                if self.asking:
                    await self.asking.may_begin()
                    await together(self.begin_listed(self.asking, is_first), self.follow_all())
                else:
                    await self.begin(is_first)
                    await self.follow_all()
            is_first = False

    async def begin_listed(self, asking: Lists, is_first: bool) -> None:
        """Has lists given once that of the Services is there."""
        await self.has_services.wait()
        await asking.came()
        await self.begin(is_first)

    async def begin(self, is_first: bool) -> None:
        """Has lists given. The program is told where they begin anew, and takes note of it."""
        if not is_first:
            self.note(self.lane.given + 1, ANEW)
            await self.lane.until_taken(await self.lane.give(ERROR))
        self.begun.set()

    async def follow_all(self) -> None:
        await together(self.tell_awaited(),
                       *(self.follow(Watched(kind, path)) for kind, path in self.paths.items()))

    async def tell_awaited(self) -> None:
        """Tells what is kept from the program, and which first lists haven't ended, as long as
        there are such."""
        while True:
            await asyncio.sleep(AWAITED_TOLD)
            for text in self.kept.values():
                warn(text)
            if awaited := [kind for kind, ended in self.lists.items() if not ended.is_set()]:
                tell(f"{self.lane.name} lane: no end yet of the lists of {', '.join(awaited)}")
            for event, line in self.guard.released() if self.guard else ():
                await self.give(event, line)

    async def follow(self, watched: Watched) -> None:
        """Gives the lines of one watch, over as many connections as it takes."""
        loop = asyncio.get_running_loop()
        while True:
            wait, begun = None, loop.time()
            try:
                await self.pass_all(watched)
            except (NotSent, Broken):
                pass  # it is told where all requests are made
            except NotYet:
                wait = EMPTY_PAUSE
            except Refused as fault:
                if fault.status == 410:
                    raise Expired() from fault
                wait = max(fault.retry_after or 0.0, watched.pause.next(), REFUSED_PAUSE)
                if watched.told != fault.status:
                    tell(f"no watch of {watched.path}: {fault}", logging.WARNING)
                watched.told = fault.status
            if loop.time() - begun > LONGEST_PAUSE:
                watched.pause.reset()
            await asyncio.sleep(watched.pause.next() if wait is None else wait)

    async def pass_all(self, watched: Watched) -> None:
        """Gives the lines of one connection."""
        held: dict[Key, bytes] = {}
        async with aclosing(self.asked(watched)) as lines:
            watched.is_quiet = True
            async for line in lines:
                event, line = readable(line)
                if event["type"] == "ERROR":
                    raise Expired()
                watched.told = None
                watched.pause.reset()
                if event["type"] != "BOOKMARK":
                    watched.is_quiet = False
                if not await self.keep_back(watched.kind, event, line, held):
                    await self.pass_on(watched, event, line, held)
                watched.version = event["object"]["metadata"]["resourceVersion"]

    def asked(self, watched: Watched) -> AsyncGenerator[bytes, None]:
        if not self.lists[watched.kind].is_set():
            return self.first(watched)
        return self.more(watched, watched.is_quiet)

    async def more(self, watched: Watched, is_quiet: bool) -> AsyncGenerator[bytes, None]:
        """The lines of a watch that goes on. One on which nothing but bookmarks came is asked for
        a short time only: so it is seen within a minute whether the server is there, though it
        sends a bookmark each minute and no more."""
        path = f"{watched.path}?{NEXT.format(watched.version)}"
        path += QUIET if is_quiet else ""
        async with aclosing(self.api.lines(path, SILENCE)) as lines:
            async for line in lines:
                yield line

    async def first(self, watched: Watched) -> AsyncGenerator[bytes, None]:
        """The lines of a watch that begins with what there is. A server that doesn't serve such
        (before Kubernetes 1.32, and 1.33, unasked) is asked for a list, and the lines end behind
        it; so is one that marks no end of it."""
        try:
            path = f"{watched.path}?{FIRST}"
            async with aclosing(self.api.lines(path, SILENCE)) as lines:
                is_ended = False
                async for line in lines:
                    is_ended = is_ended or b'"k8s.io/initial-events-end"' in line
                    if not is_ended and line.startswith(b'{"type":"BOOKMARK"'):
                        raise Refused(UNSERVED[0], "the end of the list isn't marked")
                    yield line
            return
        except Refused as fault:
            if fault.status not in UNSERVED:
                raise
        async with aclosing(self.api.listed(watched.path)) as lines:
            async for line in lines:
                yield line

    async def keep_back(self, kind: str, event: Json, line: bytes,
                        held: dict[Key, bytes]) -> bool:
        """Keeps a line that would end the program from it, and tells so, once more for as long as
        the object stands so."""
        fault, key = await self.fault_of(event, line), (kind, key_of(event))
        self.kept.pop(key, None)
        if not fault:
            return False
        held.pop(key_of(event), None)
        name = "/".join(part for part in key_of(event) if part)
        self.kept[key] = f"{kind} {name} is kept from the program: {fault}"
        warn(self.kept[key])
        return True

    async def pass_on(self, watched: Watched, event: Json, line: bytes,
                      held: dict[Key, bytes]) -> None:
        """Gives one line, or holds it back with the others of a list that hasn't ended: the server
        may show changes in it, and each object is to be given once. So nothing was given of a list
        that breaks. A line that changes nothing of what is read is left out."""
        kind = watched.kind
        if not self.lists[kind].is_set():
            if ends_list(event):
                await self.end_list(watched, event, line, held)
            else:
                hold(held, event, line)
        elif watched.changes_nothing(event):
            self.note(self.lane.given, event)
        elif kind == POOL and self.guard and event["type"] != "BOOKMARK":
            for one, given in self.guard.passed(event, line):
                await self.give(one, given)
        else:
            await self.give(event, line)

    async def end_list(self, watched: Watched, event: Json, line: bytes,
                       held: dict[Key, bytes]) -> None:
        """Gives what was held back, and the end of the list. That of the pools is held back until
        the first lists of the other configuration kinds have ended."""
        kind = watched.kind
        if kind == POOL and self.guard:
            self.guard.begin_pools()
            await self.guard.end_list(not held)
        watched.labels.clear()
        if kind == "Service":
            self.has_services.set()
        await self.begun.wait()
        for last in held.values():
            one = json.loads(last)
            watched.changes_nothing(one)
            if kind == POOL and self.guard:
                self.guard.passed(one, last)
            await self.give(one, last)
        held.clear()
        if kind == POOL:
            for other, ended in self.lists.items():
                if other not in HOLD_NOTHING_BACK:
                    await ended.wait()
        await self.give(event, line)
        self.lists[kind].set()

    async def give(self, event: Json, line: bytes) -> None:
        self.note(self.lane.given + 1, event)
        await self.lane.give(line)

    async def until_listed(self) -> None:
        """Waits until all first lists have been given."""
        for ended in self.lists.values():
            await ended.wait()
