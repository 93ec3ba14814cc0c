"""Services whose puts are refused: for missing rights, by an admission policy, by a webhook that is
down. So that all others go on, no put of such a service is sent for a while, and then one again, by
itself: its version is moved, which shows the service to the program once more. The pause grows with
each refusal, and ends early where somebody else changes the service, who may have mended it.

A webhook that is down takes long for each put. So once it has refused a few puts of a namespace,
all puts of that namespace wait, but for one now and then. Nothing rests on these times."""
import asyncio
import contextlib
import logging
from dataclasses import dataclass

from api import Api, Broken, Json, NotSent
from host import Pause
from services import PATCH, Key, Name, is_missing, version_of

LOG = logging.getLogger("bridge")
LONGEST_TIMES = 150.0  # so many times as long as the first pause the longest one is
FORGIVEN = 2  # refusals of a kind that may be gone at once, until there is a pause
TOLD = 60.0  # seconds until it is told again
SHORT = 5.0  # seconds for an answer


@dataclass
class Refusal:
    """`until`: when the next put may be sent. `waits`: a put that wasn't sent meanwhile."""
    pause: Pause
    count: int = 0
    until: float = 0.0
    waits: Name | None = None
    told: float = -TOLD


def of_all(name: Name) -> Key:
    """What stands for all services of a namespace."""
    return name.namespace, ""


class Refusals:
    def __init__(self, api: Api, first_pause: float) -> None:
        self.api, self.first_pause = api, first_pause
        self.by_key: dict[Key, Refusal] = {}
        self.news = asyncio.Event()

    def entry(self, key: Key) -> Refusal:
        pause = Pause(self.first_pause, LONGEST_TIMES * self.first_pause)
        return self.by_key.setdefault(key, Refusal(pause))

    def count(self, key: Key, at_once: bool) -> Refusal:
        """One refusal more."""
        one = self.entry(key)
        one.count += 1
        if at_once or one.count > FORGIVEN:
            one.until = asyncio.get_running_loop().time() + one.pause.next()
        return one

    def refused(self, name: Name, why: str, at_once: bool, is_of_all: bool = False) -> None:
        """A put of the service was refused; `at_once`: as it would be the next time; `is_of_all`:
        by what may refuse all others of the namespace too."""
        now = asyncio.get_running_loop().time()
        if is_of_all:
            self.count(of_all(name), False)
        one = self.count(name.key, at_once)
        if now - one.told >= TOLD:
            one.told = now
            again = f"; tried again in {one.until - now:.0f} s" if one.until > now else ""
            LOG.warning("%s/%s: its addresses can't be stored: %s%s", *name.key, why, again)
        self.news.set()

    def stored(self, name: Name) -> None:
        self.by_key.pop(of_all(name), None)
        if self.by_key.pop(name.key, None):
            LOG.info("%s/%s: its addresses are stored", *name.key)

    def holds(self, name: Name) -> bool:
        """Whether the put isn't to be sent now. It waits then."""
        both = self.by_key.get(name.key), self.by_key.get(of_all(name))
        until = max((one.until for one in both if one), default=0.0)
        if asyncio.get_running_loop().time() >= until:
            return False
        one = self.entry(name.key)
        one.until, one.waits = until, name
        self.news.set()
        return True

    def services(self) -> int:
        """How many services have a put that was refused, or waits."""
        return sum(bool(name) for _, name in self.by_key)

    def note(self, event: Json) -> None:
        """A service was shown, or its deletion."""
        if event["type"] == "ERROR" or event["object"].get("kind") != "Service":
            return
        metadata = event["object"]["metadata"]
        key = metadata.get("namespace"), metadata.get("name")
        one = self.by_key.get(key)
        if one is None:
            return
        if event["type"] == "DELETED":
            del self.by_key[key]
        elif one.waits and version_of(event["object"]) > one.waits.version:
            one.until, one.waits = 0.0, None  # somebody else's change: its put comes by itself

    async def keep(self) -> None:
        """Moves the versions of services whose puts weren't sent, once their pauses are over."""
        loop = asyncio.get_running_loop()
        while True:
            self.news.clear()
            waiting = [one for one in self.by_key.values() if one.waits]
            now = loop.time()
            for one in [one for one in waiting if one.until <= now]:
                await self.touch(one)
            rest = [one.until for one in waiting if one.waits]
            try:
                async with asyncio.timeout(max(0.0, min(rest) - now) if rest else None):
                    await self.news.wait()
            except TimeoutError:
                pass

    async def touch(self, one: Refusal) -> None:
        """Moves the version of the service, as anybody may."""
        name, one.waits = one.waits, None
        if name is None:
            return
        with contextlib.suppress(NotSent, Broken):
            status, found = await self.api.request("PATCH", name.path + "/status", name.touch(),
                                                   PATCH, SHORT)
            if is_missing(status, found) or status == 200 and version_of(found) > name.version:
                return
        one.until = asyncio.get_running_loop().time() + one.pause.next()
        one.waits = one.waits or name
