"""Events of Kubernetes on Services, for whoever asks `kubectl describe service` why one has no
address, or which node announces it. They may be lost: nothing rests on them.

One that says the same of the same service has the same name, also where the bridge is started anew:
then it is counted, as the one that it is. Only so many are written a second; what would wait behind
too many is left out."""
import asyncio
import contextlib
import hashlib
import json
import logging

from api import Api, Broken, Json, NotSent
from host import now
from services import PATCH

LOG = logging.getLogger("bridge")
MANY, SHORT, SAME = 500, 5.0, 60.0  # events that wait; seconds for an answer, and without the same
AT_ONCE, A_SECOND = 50, 10.0  # so many are written at once, and so many a second from then on
Key = tuple[str, str]
WORDS = {
    "request-unreadable": "the addresses asked for can't be read",
    "request-families": "the addresses asked for aren't one of each family",
    "pool-unknown": "the pool asked for isn't in the configuration in force",
    "pool-refused": "the pool asked for doesn't serve it",
    "address-outside": "no one pool that serves it has all the addresses asked for",
    "address-unusable": "an address asked for is another's, or avoided",
    "pool-exhausted": "the pool asked for has no usable address left",
    "no-pool": "no pool serves it unasked",
    "exhausted": "no pool that serves it has a usable address left",
}


def reason_of(line: Json) -> str:
    """Why a service waits, in words."""
    return WORDS.get(line["reason"], "it has no address")


class Rate:
    """How many may be written now."""

    def __init__(self) -> None:
        self.left, self.at = float(AT_ONCE), 0.0

    async def wait(self) -> None:
        """Waits until one more may be."""
        loop = asyncio.get_running_loop()
        self.left = min(AT_ONCE, self.left + A_SECOND * (loop.time() - self.at)) - 1
        self.at = loop.time()
        if self.left < 0:
            await asyncio.sleep(-self.left / A_SECOND)


class Events:
    """Writes events one after the other, without what was just told of a service. `host` is the
    node of which they tell, where they tell of one."""

    def __init__(self, api: Api, component: str, host: str = "") -> None:
        self.api, self.rate = api, Rate()
        self.source = {"component": component} | ({"host": host} if host else {})
        self.waiting: asyncio.Queue[Json] = asyncio.Queue(MANY)
        self.ids: dict[Key, str | None] = {}
        self.told: dict[Key, tuple[str, float]] = {}
        self.refused = 0

    def note(self, event: Json) -> None:
        """Takes note of the identity of a service that is shown."""
        if event["type"] in ("ADDED", "MODIFIED", "DELETED") and \
                event["object"]["kind"] == "Service":
            metadata = event["object"]["metadata"]
            key = metadata["namespace"], metadata["name"]
            self.ids[key] = metadata.get("uid")
            if event["type"] == "DELETED":
                del self.ids[key]
                self.told.pop(key, None)

    def put(self, put: Json) -> None:
        """The put was stored."""
        if put["addresses"]:
            words = f"Assigned IP {json.dumps(put['addresses'])} of the pool {put['pool']}"
            self.tell(put, "Normal", "IPAllocated", words)
        else:
            self.tell(put, "Normal", "ClearAssignment", "It has no address any more")

    def refusal(self, put: Json, why: str) -> None:
        """The put can't be stored."""
        self.tell(put, "Warning", "AllocationFailed", f"its addresses can't be stored: {why}")

    def pending(self, line: Json) -> None:
        """The service waits."""
        words = f"{line['reason']}: {reason_of(line)}"
        self.tell(line, "Warning", "AllocationFailed", words)

    def announced(self, key: Key, node: str, protocol: str) -> None:
        """A node announces the service."""
        words = f'announcing from node "{node}" with protocol "{protocol}"'
        self.tell({"namespace": key[0], "name": key[1]}, "Normal", "nodeAssigned", words)

    def tell(self, line: Json, kind: str, reason: str, message: str) -> None:
        key, time = (line["namespace"], line["name"]), asyncio.get_running_loop().time()
        last, at = self.told.get(key, ("", 0.0))
        if last == message and time - at < SAME:
            return
        self.told[key] = message, time
        day = now().strftime("%Y-%m-%dT%H:%M:%SZ")
        involved = {"apiVersion": "v1", "kind": "Service", "namespace": key[0], "name": key[1],
                    "uid": self.ids.get(key)}
        same = json.dumps([involved, self.source, kind, reason, message], sort_keys=True)
        name = f"{key[1]}.{hashlib.sha256(same.encode()).hexdigest()[:16]}"
        with contextlib.suppress(asyncio.QueueFull):
            self.waiting.put_nowait({
                "apiVersion": "v1", "kind": "Event",
                "metadata": {"name": name, "namespace": key[0]},
                "involvedObject": involved, "type": kind, "reason": reason, "message": message,
                "count": 1, "firstTimestamp": day, "lastTimestamp": day, "source": self.source})

    async def keep(self) -> None:
        """Writes what waits, for as long as it runs."""
        while True:
            event = await self.waiting.get()
            await self.rate.wait()
            with contextlib.suppress(NotSent, Broken):
                await self.write(event)

    async def write(self, event: Json) -> None:
        """Makes the event, or counts the one that is there. Its count is read in the answer to the
        first change, so that nobody needs the right to read events."""
        path = f"/api/v1/namespaces/{event['metadata']['namespace']}/events"
        status, _ = await self.api.request("POST", path, event, wait=SHORT)
        if status == 409:
            path = f"{path}/{event['metadata']['name']}"
            last = {"lastTimestamp": event["lastTimestamp"]}
            status, found = await self.api.request("PATCH", path, last, PATCH, SHORT)
            count = found.get("count") if status == 200 else None
            if isinstance(count, int):
                more = {"count": count + 1}
                status, _ = await self.api.request("PATCH", path, more, PATCH, SHORT)
        if status in (401, 403) and not self.refused:
            LOG.warning("%s: Events can't be written: %d", path, status)
        self.refused = status if status in (401, 403) else 0
