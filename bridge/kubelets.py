"""Whether nodes are alive, as their kubelets tell the API server: each renews a Lease of its own
every ten seconds. No controller has a part in that, unlike in what Nodes and endpoints show."""
from __future__ import annotations

import asyncio
import contextlib
import logging
from collections.abc import Collection, Iterator, Mapping
from typing import Any

from api import Api, Broken, NotSent

LOG = logging.getLogger("bridge")
PATH = "/apis/coordination.k8s.io/v1/namespaces/kube-node-lease/leases"
FEW = 3  # nodes of which each is asked for by itself
WAIT = 2.0  # seconds for an answer


def renewal_of(lease: Mapping[str, Any]) -> str | None:
    return (lease.get("spec") or {}).get("renewTime")


class Kubelets:
    def __init__(self, api: Api) -> None:
        self.api, self.told = api, ""

    async def renewals(self, names: Collection[str]) -> dict[str, str]:
        """When each of these nodes renewed its Lease last, by its own clock; none of those of which
        it can't be read."""
        found: dict[str, str] = {}
        with contextlib.suppress(NotSent, Broken, TimeoutError):
            async with asyncio.timeout(WAIT):
                for lease in await self.leases(names):
                    if renewed := renewal_of(lease):
                        found[lease["metadata"]["name"]] = renewed
        return {name: found[name] for name in names if name in found}

    async def leases(self, names: Collection[str]) -> list[Mapping[str, Any]]:
        if len(names) > FEW:
            return list(await self.answered(f"{PATH}?resourceVersion=0", True))
        return [one for name in names for one in await self.answered(f"{PATH}/{name}", False)]

    async def answered(self, path: str, is_list: bool) -> Iterator[Mapping[str, Any]]:
        status, answer = await self.api.request("GET", path)
        refused = f"{status} {answer.get('message', '')}" if status in (401, 403) else ""
        if refused and refused != self.told:
            LOG.warning("the kubelets' Leases can't be read: %s", refused)
        self.told = refused
        if status != 200:
            return iter(())
        return iter(answer.get("items") or [] if is_list else [answer])
