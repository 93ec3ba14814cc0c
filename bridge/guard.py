"""Nothing is emptied by mistake. Where the configuration shows no IPAddressPool at all, each
service would lose its address: as with a wrong namespace, a wrong API server, or pools that are
made anew. So while services hold addresses, a list without any pool isn't ended, and the deletion
of the last pool isn't given. Each is told, with what to do; who means it says so."""
import asyncio
import logging
import math
from typing import Any

from api import Json
from services import Key, version_of

LOG = logging.getLogger("bridge")
TOLD = 60.0  # seconds until it is told again
POOL = "IPAddressPool"
Given = tuple[Json, bytes]  # an event and its line


class NotYet(Exception):
    """The list isn't to be ended; it is asked for again."""


def is_handled(service: Json, lb_class: str | None) -> bool:
    """Whether the service is of type LoadBalancer and of the handled class."""
    spec: Json = service.get("spec") or {}
    return spec.get("type") == "LoadBalancer" and spec.get("loadBalancerClass") == lb_class


def holds_address(service: Json, lb_class: str | None) -> bool:
    """Whether the service is handled and has an address."""
    status: Any = service.get("status") or {}
    ingress = (status.get("loadBalancer") or {}).get("ingress") or []
    has = any(one.get("ip") for one in ingress if isinstance(one, dict))
    return is_handled(service, lb_class) and has


class PoolGuard:
    """Told of each service and each pool that is shown. `listed` is set while the services' list
    has ended. `giving` are services that a put may have given addresses, each with the version that
    it was made at, which aren't shown at a later one yet."""

    def __init__(self, namespace: str, lb_class: str | None, is_meant: bool,
                 listed: asyncio.Event, giving: dict[Key, int] | None = None) -> None:
        self.namespace, self.lb_class, self.is_meant = namespace, lb_class, is_meant
        self.listed, self.giving = listed, {} if giving is None else giving
        self.holders: set[Key] = set()
        self.pools: set[str] = set()  # those that the program was shown, and not the deletion of
        self.withheld: Given | None = None  # the deletion of the last one
        self.told = -TOLD

    def note(self, event: Json) -> None:
        """A service is shown."""
        thing = event["object"]
        if event["type"] in ("ADDED", "MODIFIED", "DELETED") and thing["kind"] == "Service":
            key = thing["metadata"]["namespace"], thing["metadata"]["name"]
            self.holders.discard(key)
            if version_of(thing) > self.giving.get(key, math.inf):
                del self.giving[key]
            if event["type"] != "DELETED" and holds_address(thing, self.lb_class):
                self.holders.add(key)

    def begin_pools(self) -> None:
        """The list of pools begins anew."""
        self.pools.clear()
        self.withheld = None

    def begin_services(self) -> None:
        """The list of services begins anew, behind all puts."""
        self.holders.clear()
        self.giving.clear()

    def is_at_risk(self) -> bool:
        """Whether some service may hold an address, and nobody means it to be taken."""
        holds = bool(self.holders or self.giving) or not self.listed.is_set()
        return holds and not self.is_meant

    async def end_list(self, is_empty: bool) -> None:
        """The list of pools is to end. `NotYet`: it has none, and there are services that hold
        addresses."""
        if is_empty and not self.is_meant:
            await self.listed.wait()
            if self.is_at_risk():
                self.tell("nothing is begun")
                raise NotYet()

    def passed(self, event: Json, line: bytes) -> list[Given]:
        """What is to be given of a pool's line behind the list: itself, and what was withheld."""
        name = event["object"]["metadata"]["name"]
        if event["type"] == "DELETED":
            if self.pools == {name} and self.is_at_risk():
                self.withheld = event, line
                self.tell("its deletion is kept from the program")
                return []
            self.pools.discard(name)
            return [(event, line)]
        before, self.withheld = self.withheld, None
        self.pools.add(name)
        if before is None or before[0]["object"]["metadata"]["name"] == name:
            return [(event, line)]
        self.pools.discard(before[0]["object"]["metadata"]["name"])
        return [(event, line), before]

    def released(self) -> list[Given]:
        """What was withheld, where no service holds an address any more."""
        if self.withheld is None:
            return []
        if self.is_at_risk():
            self.tell("the deletion of the last one is kept from the program")
            return []
        before, self.withheld = self.withheld, None
        self.pools.clear()
        return [before]

    def tell(self, what: str) -> None:
        now = asyncio.get_running_loop().time()
        if now - self.told >= TOLD:
            self.told = now
            LOG.error("no IPAddressPool in the namespace %s, while %d services hold addresses, "
                      "which would be taken from them: %s. Make a pool, or name the right "
                      "namespace (--namespace); who means it says --without-pools",
                      self.namespace, len(self.holders | self.giving.keys()), what)
