"""The talk with a program behind its fence (`mlb_controller --fence NAME`) that has the Lease.
Which requests are made, and what is replied to its puts, is the program's; the bridge gives it
watched lines while none is out, and tells it the time.

Behind each line stands a probe, so that it is known what came of it: an answer that isn't awaited,
of which nothing comes but a line (`unexpected`). That the services are listed is such an answer,
but where they are being listed."""
import asyncio
import json
import logging
from collections.abc import Callable

from api import Json, line_of
from carrier import MISSING, SHORT, UNKNOWN, Carrier, at, is_gone
from common import Lost
from owed import Owed
from programs import Program
from services import Name, version_of
from taking import TICK

LOG = logging.getLogger("bridge")
RENEW, CHASE, RELIST, LISTED = (line_of({"fence": word}) for word in (
    "renew", "chase", "relist", "listed"))
PROBE = LISTED
REQUESTS = ("get", "lease", "touch", "put")
LOOK = 0.5  # seconds until it is looked again at what is owed
Turn = tuple[bytes, asyncio.Future[None]]


class Fenced:
    """`heard` is told of each line that is no request."""

    def __init__(self, program: Program, carrier: Carrier, owed: Owed,
                 heard: Callable[[Json], None]) -> None:
        self.program, self.carrier, self.owed, self.heard = program, carrier, owed, heard
        self.loop = asyncio.get_running_loop()
        self.turns: asyncio.Queue[Turn] = asyncio.Queue()
        self.is_asked = True  # for a list of the services
        self.has_come, self.is_told = asyncio.Event(), asyncio.Event()

    # What is given, one thing after the other

    async def tell(self, line: bytes) -> None:
        """Has the program told this, and waits until it has done all that comes of it."""
        done = self.loop.create_future()
        self.turns.put_nowait((line, done))
        await done

    async def keep(self) -> None:
        """Gives what is to be told. It goes on also where nobody waits for it any more."""
        await self.until_listed()
        while True:
            line, done = await self.turns.get()
            if line == RELIST:
                await self.relist(done)
            else:
                await self.pass_on(line)
            if not done.done():
                done.set_result(None)

    async def pass_on(self, line: bytes) -> None:
        """Tells the program this, and makes requests as long as it has some."""
        self.carrier.pacing.begin()
        request = await self.told(line)
        if request is None and line == CHASE:
            self.owed.puts.clear()
        while request is not None:
            request = await self.made(request, line == RENEW)

    async def told(self, line: bytes) -> Json | None:
        """Gives a line and a probe. The request that comes of the line, if one does."""
        await self.program.say(line + PROBE)
        request = None
        while (value := await self.program.awaited())["op"] != "unexpected":
            if value["op"] in REQUESTS:
                request = value
            elif value["op"] == "lost":
                raise Lost(f"{self.carrier.holder()} is the controller")
            else:
                self.heard(value)
        return request

    async def made(self, request: Json, is_renewal: bool) -> Json | None:
        """Makes a request, and the next one that comes of its answer, if one does."""
        if "namespace" in request and request["op"] != "put":
            return await self.checked(request)
        if request["op"] == "lease" and not is_renewal and self.carrier.declines(request):
            return await self.told(line_of(MISSING))
        answer = await self.carrier.answer(request)
        if answer == MISSING and request["op"] != "put":
            raise Lost("there is no Lease any more")
        return await self.told(line_of(answer))

    # Fencing

    async def checked(self, request: Json) -> Json | None:
        """Makes a request that is to fence a put. Where it is too early to try one that is owed, or
        too late now for another one, it isn't made."""
        name = Name.of(request)
        owing = self.owed.puts.get(name)
        is_early = request["op"] == "get" and not self.owed.is_due(name)
        if owing and owing.shown:
            answer = owing.shown
        elif is_early or owing is None and self.carrier.left() < 0:
            answer, self.carrier.why = UNKNOWN, ""
        else:
            answer = await self.carrier.answer(request, self.carrier.in_time(SHORT))
        following = await self.told(line_of(answer))
        if is_gone(answer, name):
            self.owed.fenced(name)
        elif not is_early and not is_check(following, name):
            self.owed.failed(name, self.carrier.why)
        return following

    async def chase(self) -> None:
        """Has what is owed fenced, at its times. The program begins with another one each time."""
        while True:
            await asyncio.sleep(LOOK)
            while self.owed.are_due():
                await self.tell(CHASE)

    async def renew(self) -> None:
        """Has the Lease changed, so that nobody else takes it."""
        while True:
            await asyncio.sleep(self.carrier.seconds / 3)
            await self.tell(RENEW)

    async def show(self, line: bytes) -> None:
        """Gives a watched line. Of a service of which a put is owed the program sends none; so that
        one is fenced first, by what the line shows."""
        if self.owed.puts:
            event = json.loads(line)
            thing = event["object"]
            if event["type"] in ("ADDED", "MODIFIED", "DELETED") and thing["kind"] == "Service":
                await self.show_owed(event["type"] == "DELETED", thing)
        await self.tell(line)

    async def show_owed(self, is_deleted: bool, service: Json) -> None:
        version = version_of(service)
        key = service["metadata"]["namespace"], service["metadata"]["name"]
        for name in self.owed.of(key, version):
            self.owed.puts[name].shown = MISSING if is_deleted else at(version)
            while name in self.owed.puts:
                await self.tell(CHASE)

    # Lists

    async def may_begin(self) -> None:
        """Waits until the services are to be listed."""
        while not self.is_asked:
            await self.tell(RELIST)
            if not self.is_asked:
                await asyncio.sleep(LOOK)

    async def came(self) -> None:
        """The list is there, and is given from now on."""
        self.is_told.clear()
        self.has_come.set()
        await self.is_told.wait()

    async def until_listed(self) -> None:
        """Waits until the list that is asked for is there, and says so."""
        await self.has_come.wait()
        self.has_come.clear()
        self.is_asked = False
        await self.pass_on(LISTED)
        self.is_told.set()

    async def relist(self, done: asyncio.Future[None]) -> None:
        """Says that the services are to be listed anew. The program asks for the list, or reads the
        Lease where it isn't time for a list: it is told both."""
        await self.program.say(RELIST + TICK)
        request = await self.program.awaited()
        if request["op"] != "list":
            self.carrier.pacing.begin()
            next_one: Json | None = request
            while next_one is not None:
                next_one = await self.made(next_one, True)
            return
        self.is_asked = True
        done.set_result(None)
        await self.until_listed()


def is_check(request: Json | None, name: Name) -> bool:
    """Whether the request is to fence that put."""
    return (request is not None and request["op"] in ("get", "touch") and "namespace" in request
            and Name.of(request) == name)
