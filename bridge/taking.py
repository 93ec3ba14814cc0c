"""A program behind its fence, from its start until it asks for the list of the services: it reads
the Lease, takes it over once that counts as given up, and fences what it names. What is asked for
is the program's; when the Lease counts as given up is told by this bridge's clock alone, and
nobody's address hangs on that.

To each answer the program writes a line, but to the Lease where another one holds it."""
import asyncio
import logging
from collections.abc import Callable

from api import Json, line_of
from carrier import Carrier, is_gone
from common import Lost
from owed import Owed
from programs import Program
from services import Name

LOG = logging.getLogger("bridge")
TICK = line_of({"fence": "tick"})
LOOK = 1.0  # seconds until the Lease is read again
TOLD = 60.0  # seconds until it is told again who has it


class Taking:
    """`before` is the holder whose program this bridge has ended; `held` is told that it has the
    Lease."""

    def __init__(self, program: Program, name: str, before: str | None, carrier: Carrier,
                 owed: Owed, held: Callable[[str], None]) -> None:
        self.program, self.name, self.before = program, name, before
        self.carrier, self.owed, self.held = carrier, owed, held
        self.loop = asyncio.get_running_loop()
        self.has_tried = False
        self.seen: tuple[int, float] = 0, 0.0  # a version of the Lease, and when it was first read
        self.fencing: tuple[Name | None, float] = None, 0.0  # a name, and since when
        self.told: tuple[str, float] = "", 0.0

    async def run(self) -> None:
        """Until the services are to be listed."""
        while (request := await self.program.awaited())["op"] != "list":
            if request["op"] == "absent":
                await self.rest()
            elif "namespace" in request:
                await self.fence(request)
            else:
                await self.ask(request)

    async def ask(self, request: Json) -> None:
        """Makes a request for the Lease."""
        answer = await self.carrier.answer(request)
        await self.program.say(line_of(answer))
        if answer["fence"] != "lease":
            return
        self.tell(f"{answer['holder'] or 'nobody'} is the controller")
        if answer["holder"] == self.name:
            self.held(self.name)
            if names := self.carrier.named():
                LOG.info("puts that may be on their way: %s", names)
        elif self.is_given_up(answer):
            await self.program.say(line_of({"fence": "lapsed", "version": answer["version"]}))
        else:
            await self.rest()

    def is_given_up(self, lease: Json) -> bool:
        """Whether the Lease is to be taken over now: nobody changed it for as long as it counts."""
        now = self.loop.time()
        if self.seen[0] != lease["version"]:
            self.seen = lease["version"], now
        is_old = now - self.seen[1] > self.carrier.seconds
        tries = not self.has_tried and (is_old or lease["holder"] in ("", self.before))
        self.has_tried = self.has_tried or tries
        return tries

    async def rest(self) -> None:
        """Has the Lease read again, a little later."""
        self.has_tried = False
        self.carrier.pacing.begin()
        await asyncio.sleep(min(LOOK, self.carrier.seconds / 3))
        await self.program.say(TICK)

    async def fence(self, request: Json) -> None:
        """Makes a request that is to fence one of the names. `Lost`: that doesn't come about for as
        long as the Lease counts, which isn't read meanwhile: another one may have it."""
        name, answer = Name.of(request), await self.carrier.answer(request)
        if name != self.fencing[0]:
            self.fencing = name, self.loop.time()
        if not is_gone(answer, name):
            self.owed.tell(name, self.carrier.why)
            if self.loop.time() - self.fencing[1] > self.carrier.seconds:
                raise Lost("what the Lease names can't be fenced; it is read again")
        await self.program.say(line_of(answer))

    def tell(self, why: str) -> None:
        if why != self.told[0] or self.loop.time() - self.told[1] > TOLD:
            self.told = why, self.loop.time()
            LOG.info("%s", why)
