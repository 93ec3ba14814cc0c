"""Makes the requests that a program behind its fence writes, one at a time, and says what each
answer is to it: one line. Which requests are made, and in which order, is the program's."""
import asyncio
import logging
from dataclasses import dataclass

from api import Answer, Api, Broken, Json, NotSent, Silent
from events import Events
from lease import Reading, Unreadable, body_of, path_of, reading_of
from pacing import Pacing
from programs import Ended
from puts import Counts, Fault, fault_of, patch_of
from refusals import Refusals
from services import PATCH, Key, Name, is_missing, version_of

LOG = logging.getLogger("bridge")
SHORT = 5.0  # seconds for an answer
PUT_WAIT, LEAST_WAIT = 35.0, 1.0  # and for that to a put at most, and at least
TOLD = 60.0  # seconds until it is told again why the Lease can't be read or changed
REFUSED: Json = {"fence": "refused"}
UNKNOWN: Json = {"fence": "unknown"}
MISSING: Json = {"fence": "missing"}


def at(version: int) -> Json:
    """The service is at this version."""
    return {"fence": "at", "version": version}


def lease_told(seen: Reading) -> Json:
    return {"fence": "lease", "version": seen.version, "holder": seen.holder,
            "named": [{"namespace": name.namespace, "name": name.name, "version": name.version}
                      for name in seen.names]}


def is_gone(answer: Json, name: Name) -> bool:
    """Whether the answer shows that no put at the version can be carried out any more."""
    return answer == MISSING or answer["fence"] == "at" and answer["version"] > name.version


@dataclass
class Told:
    """What was told last of the Lease, and when."""
    why: str = ""
    at: float = -TOLD

    def tell(self, why: str) -> None:
        now = asyncio.get_running_loop().time()
        if why != self.why or now - self.at >= TOLD:
            self.why, self.at = why, now
            LOG.warning("%s", why)


class Carrier:
    """`seconds` is the Lease's term. `seen` is the Lease as it was read last; `sent` the put whose
    answer didn't say that it is stored, with why. `giving` are services that were sent a put with
    addresses, each at its version, until they are shown at a later one: the watch may be behind."""

    def __init__(self, api: Api, namespace: str, seconds: float, refusals: Refusals,
                 events: Events, counts: Counts, told: Told) -> None:
        self.api, self.path, self.seconds = api, path_of(namespace), seconds
        self.refusals, self.events, self.counts, self.told = refusals, events, counts, told
        self.pacing = Pacing()
        self.seen: Reading | None = None
        self.asked: tuple[Json, Json] | None = None  # a request for the Lease, and its body
        self.sent: tuple[Json, Fault] | None = None
        self.giving: dict[Key, int] = {}
        self.why = ""  # the last answer about a service that wasn't one
        self.changed = 0.0  # when the Lease was last changed to be this bridge's

    async def answer(self, request: Json, wait: float = SHORT) -> Json:
        """Makes a request, and what its answer is to the program. `wait`: how many seconds one for
        a service is waited for."""
        await self.pacing.wait(request)
        match request["op"]:
            case "get" if "lease" in request:
                return await self.lease("GET")
            case "lease":
                return await self.lease("PUT", self.body(request))
            case "get":
                return await self.service(Name.of(request), "GET", wait)
            case "touch":
                self.touched(Name.of(request))
                return await self.service(Name.of(request), "PATCH", wait)
            case "put":
                self.pacing.begin()
                return await self.put(request)
        LOG.error("the program writes what isn't awaited: %s", request)
        raise Ended()

    # The Lease

    def body(self, request: Json) -> Json:
        """What is asked for; the same once more where it was asked for before."""
        if self.asked is None or self.asked[0] != request:
            if self.seen is None or self.seen.version != request["version"]:
                LOG.error("the Lease wasn't read at the version of %s", request)
                raise Ended()
            names = map(Name.of, request["named"])
            self.asked = request, body_of(self.seen, request["holder"], names, self.seconds)
        return self.asked[1]

    def declines(self, request: Json) -> bool:
        """Whether the put that is to be named isn't to be sent now. What was asked for before is
        asked for once more, whatever it names: it may be for another put's sake."""
        if not request["named"] or self.asked is not None and self.asked[0] == request:
            return False
        name = Name.of(request["named"][-1])
        if not self.refusals.holds(name):
            return False
        self.body(request)
        self.counts.unsent += 1
        return True

    def holder(self) -> str:
        return (self.seen and self.seen.holder) or "nobody"

    def named(self) -> str:
        return ", ".join(map(str, self.seen.names)) if self.seen else ""

    async def lease(self, method: str, body: Json | None = None) -> Json:
        """The Lease as it is, or as it is once it was changed."""
        begun = asyncio.get_running_loop().time()
        try:
            answer = await self.api.ask(method, self.path, body, wait=SHORT)
        except (NotSent, Broken):
            return UNKNOWN
        self.pacing.heard(answer)
        if is_missing(answer.status, answer.value):
            self.told.tell(f"there is no Lease {self.path}: the manifest makes it")
            return MISSING
        if answer.status != 200 or not version_of(answer.value):
            if answer.status != 409:
                self.told.tell(f"{self.path}: {answer.message}")
            return REFUSED if answer.status != 200 else UNKNOWN
        try:
            self.seen = reading_of(answer.value)
        except Unreadable as fault:
            self.told.tell(f"{self.path}: {fault}")
            return UNKNOWN
        if method == "PUT":
            self.changed = begun
        return lease_told(self.seen)

    def left(self) -> float:
        """Seconds in which a put and its fencing are to end, so that nobody else takes the Lease
        meanwhile, which is changed again only behind that."""
        return self.changed + self.seconds * 2 / 3 - asyncio.get_running_loop().time()

    def in_time(self, most: float) -> float:
        """Seconds for an answer: so many at most, and no more than are left."""
        return max(LEAST_WAIT, min(most, self.left()))

    # Services

    async def service(self, name: Name, method: str, wait: float) -> Json:
        """The version of the service, as it is or once it was changed."""
        try:
            if method == "GET":
                answer = await self.api.ask(method, name.path, wait=wait)
            else:
                answer = await self.api.ask(method, name.path + "/status", name.touch(), PATCH,
                                            wait)
        except (NotSent, Broken) as fault:
            self.why = str(fault)
            return UNKNOWN
        self.pacing.heard(answer)
        if is_missing(answer.status, answer.value):
            return MISSING
        if answer.status == 200 and (version := version_of(answer.value)):
            stays = method == "PATCH" and version <= name.version
            self.why = "200, but its version stays" if stays else ""
            return at(version)
        self.why = answer.message
        return REFUSED if answer.status != 200 else UNKNOWN

    def touched(self, name: Name) -> None:
        """A put that was answered, and its service still is at its version: it was refused."""
        if self.sent is None or Name.of(self.sent[0]) != name:
            return
        put, fault = self.sent
        self.sent = None
        if not fault.is_final and not fault.is_lost:
            self.refuse(put, fault)

    def refuse(self, put: Json, fault: Fault) -> None:
        self.refusals.refused(Name.of(put), fault.why, fault.is_final, fault.is_of_all)
        self.events.refusal(put, fault.why)

    async def put(self, put: Json) -> Json:
        name, patch = Name.of(put), patch_of(put)
        if put["addresses"]:
            self.giving[name.key] = name.version
        is_unsent, answer = False, Answer(0, {})
        try:
            answer = await self.api.ask("PATCH", name.path + "/status", patch, PATCH,
                                        self.in_time(PUT_WAIT))
            fault = fault_of(answer, put, patch)
        except Silent as silent:
            fault = Fault(str(silent), is_final=True, is_of_all=True)
        except Broken as broken:
            fault = Fault(str(broken), is_lost=True)
        except NotSent as unsent:
            fault, is_unsent = Fault(str(unsent), is_lost=True), True
        self.pacing.heard(answer)
        if fault is None:
            self.counts.stored += 1
            self.refusals.stored(name)
            self.events.put(put)
            return at(version_of(answer.value))
        LOG.debug("%s: %s; it is fenced", name, fault.why)
        self.counts.unknown += 1
        self.sent = put, fault
        if is_unsent:
            self.giving.pop(name.key, None)
        if fault.is_final:
            self.refuse(put, fault)
        return REFUSED if answer.status else UNKNOWN

    async def release(self, holder: str) -> None:
        """Has nobody hold the Lease where this bridge does, so that the next one needn't wait. The
        names stay. The program has ended before."""
        if await self.lease("GET") != MISSING and self.seen and self.seen.holder == holder:
            await self.lease("PUT", body_of(self.seen, "", self.seen.names, self.seconds))
