"""Members by Leases: each node with an active speaker renews a Lease of its own, and those count
whose Leases are renewed."""
from __future__ import annotations

import asyncio
import contextlib
import datetime
import logging
import math
from collections.abc import Awaitable, Callable, Iterable, Iterator, Mapping, Sequence
from typing import Any

from api import Api, Broken, NotSent
from figures import sample
from host import DAY_FORM, now, printed

LOG = logging.getLogger("bridge")
PATCH = "application/merge-patch+json"
MEMBERS = "sutchebam_members"
LEAVE_WAIT = 10.0  # seconds for the own Lease's deletion
Give = Callable[[list[str]], Awaitable[None]]


def age_of(renewed: str, of_day: datetime.datetime) -> float:
    """How many seconds ago a Lease says that it was renewed."""
    then = datetime.datetime.strptime(renewed, DAY_FORM).replace(tzinfo=datetime.timezone.utc)
    return max(0.0, (of_day - then).total_seconds())


class Seen:
    """When each Lease was seen to change, by the own clock. Only of one that is seen for the first
    time its own time is believed. Where the server couldn't be asked meanwhile, the members before
    that count as just seen."""

    def __init__(self, seconds: float) -> None:
        self.seconds = seconds
        self.changes: dict[str, tuple[str, float]] = {}
        self.members: dict[str, str] = {}  # with when each says that it began
        self.lost = False  # whether the server couldn't be asked since the last look

    def look(self, leases: Iterable[Mapping[str, Any]], now: float,
             of_day: datetime.datetime) -> list[str]:
        """The holders of the Leases that are renewed."""
        members = {}
        for lease in leases:
            node, renewed = lease["holderIdentity"], lease["renewTime"]
            before = self.changes.get(node)
            if self.lost and node in self.members or before and before[0] != renewed:
                self.changes[node] = renewed, now
            elif not before:
                self.changes[node] = renewed, now - age_of(renewed, of_day)
            if now - self.changes[node][1] <= self.seconds:
                members[node] = str(lease.get("acquireTime"))
        self.lost, self.members = False, members
        return sorted(members)


class LeaseMembers:
    """Leases `speaker-NODE` in MetalLB's namespace (coordination.k8s.io/v1). One that isn't renewed
    for `seconds` is of no member."""

    def __init__(self, api: Api, namespace: str, node: str, seconds: float,
                 of_day: Callable[[], datetime.datetime] = now) -> None:
        self.api, self.node, self.seconds, self.of_day = api, node, seconds, of_day
        self.path = f"/apis/coordination.k8s.io/v1/namespaces/{namespace}/leases"
        self.seen, self.told = Seen(seconds), ""
        self.began: str | None = None  # the time of day at the first renewal

    async def keep(self, give: Give) -> None:
        """Renews the own Lease and gives the names of the members, at first and at each change.
        While the server can't be asked the names are those that were given last, and what time
        goes by counts for nobody's absence. At first the others are given the time to find the
        Lease, and to withdraw what is this node's then."""
        given, loop = None, asyncio.get_running_loop()
        while True:
            try:
                is_first = self.began is None
                await self.renew()
                if is_first:
                    await asyncio.sleep(self.seconds / 3)
                names = self.seen.look(await self.leases(), loop.time(), self.of_day())
                self.tell("")
                if names != given:
                    await give(names)
                given = names
            except (NotSent, Broken, PermissionError, ValueError, KeyError) as fault:
                self.seen.lost = True
                self.tell(f"{self.path}: {fault}")
            await asyncio.sleep(self.seconds / 3)

    def tell(self, text: str) -> None:
        """Tells a fault once, for as long as it is the same."""
        if text and text != self.told:
            LOG.warning("%s", text)
        self.told = text

    async def ask(self, method: str, path: str, body: dict[str, Any] | None = None,
                  kind: str = "application/json") -> tuple[int, Any]:
        status, answer = await self.api.request(method, path, body, kind, self.seconds / 3)
        return status, answer

    async def renew(self) -> None:
        name, renewed = f"speaker-{self.node}", printed(self.of_day())
        spec = {"holderIdentity": self.node, "leaseDurationSeconds": math.ceil(self.seconds),
                "acquireTime": self.began or renewed, "renewTime": renewed}
        status, answer = await self.ask("PATCH", f"{self.path}/{name}", {"spec": spec}, PATCH)
        if status == 404:
            lease = {"apiVersion": "coordination.k8s.io/v1", "kind": "Lease",
                     "metadata": {"name": name}, "spec": spec}
            status, answer = await self.ask("POST", self.path, lease)
        if status not in (200, 201):
            raise PermissionError(f"{status} {answer.get('message', '')}")
        self.began = self.began or renewed

    async def leases(self) -> list[Mapping[str, Any]]:
        status, answer = await self.ask("GET", self.path)
        if status != 200:
            raise PermissionError(f"{status} {answer.get('message', '')}")
        speakers = (lease["spec"] for lease in answer["items"]
                    if lease["metadata"]["name"].startswith("speaker-"))
        return [spec for spec in speakers if spec.get("holderIdentity") and spec.get("renewTime")]

    async def leave(self) -> None:
        """Deletes the own Lease, so that the others needn't wait."""
        with contextlib.suppress(NotSent, Broken, TimeoutError):
            async with asyncio.timeout(LEAVE_WAIT):
                await self.api.request("DELETE", f"{self.path}/speaker-{self.node}")

    # What a speaker asks of its members.

    def note(self, event: Mapping[str, Any]) -> None:
        """Leases name the nodes."""

    async def give_all(self, give: Give, _is_well: Callable[[], bool]) -> None:
        await self.keep(give)

    async def run(self, forever: Awaitable[None]) -> None:
        """Serves until it is cancelled."""
        try:
            await forever
        finally:
            await self.leave()

    def lines(self) -> Iterator[str]:
        """Figures: the members."""
        yield sample(MEMBERS, len(self.seen.members))


def names_of(nodes: Sequence[str], most: int = 9) -> str:
    """Some names, and whether there are more."""
    return " ".join(nodes[:most]) + " .." * (len(nodes) > most)
