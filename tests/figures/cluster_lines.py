"""The lines of large clusters, for measurements: pools, services, slices, nodes, members."""
from __future__ import annotations

import json
import random
from collections.abc import Iterator
from typing import Any

Object = dict[str, Any]
SPEC: Object = {
    "type": "LoadBalancer",
    "ipFamilies": ["IPv4"],
    "externalTrafficPolicy": "Cluster",
    "ports": [{"protocol": "TCP", "port": 80}],
}
SHARED: Object = {"metallb.io/allow-shared-ip": "one"}
MANAGER: Object = {  # what a real service carries besides: about 3.3 KB
    f"f:{at}": {"f:port": {}, "f:protocol": {}, "f:targetPort": {}, "f:name": {}, ".": {}}
    for at in range(24)
}


def line(kind: str, type_: str, version: int, metadata: Object, **members: Any) -> str:
    metadata = {"resourceVersion": str(version), **metadata}
    thing = {"kind": kind, "metadata": metadata, **members}
    return json.dumps({"type": type_, "object": thing}, separators=(",", ":")) + "\n"


def list_end(kind: str, version: int) -> str:
    return line(kind, "BOOKMARK", version, {"annotations": {"k8s.io/initial-events-end": "true"}})


def expired() -> str:
    """The watch has expired, and all lists begin again."""
    return '{"type":"ERROR","object":{"kind":"Status","code":410}}\n'


def members(names: list[str]) -> str:
    return json.dumps({"type": "MEMBERS", "members": names}, separators=(",", ":")) + "\n"


def address(at: int) -> str:
    return f"10.{at >> 16 & 255}.{at >> 8 & 255}.{at & 255}"


def pool(version: int = 1, name: str = "p", prefix: str = "10.0.0.0/8") -> str:
    return line("IPAddressPool", "ADDED", version, {"name": name}, spec={"addresses": [prefix]})


def service(at: int, version: int, *, held: int | None = None, all_held: list[str] | None = None,
            mark: str | None = "v1;;T80;C", notes: Object | None = None, spec: Object | None = None,
            labels: Object | None = None, family: str = "IPv4", spaces: int = 16,
            real: bool = False) -> str:
    """A service of one of so many namespaces, recorded with an address by its number, or with all
    these; a real one has what managers, conditions and kubectl leave in it."""
    name = {"namespace": f"n{at % spaces:02}", "name": f"s{at:06}"}
    annotations = dict(notes or {})
    recorded = [address(held)] if held is not None else all_held or []
    status: Object = {"loadBalancer": {}}
    if recorded:
        annotations["metallb.io/ip-allocated-from-pool"] = "p"
        if mark is not None:
            annotations["metallb.io/ip-held-as"] = mark
        status = {"loadBalancer": {"ingress": [{"ip": it} for it in recorded]}}
    metadata: Object = {**name, "annotations": annotations}
    if labels is not None:
        metadata["labels"] = labels
    spec = {**SPEC, "ipFamilies": [family], **(spec or {})}
    if real:
        applied = json.dumps({"apiVersion": "v1", "kind": "Service", "spec": SPEC})
        annotations["kubectl.kubernetes.io/last-applied-configuration"] = applied
        metadata["uid"] = f"00000000-0000-0000-0000-{at:012}"
        metadata["creationTimestamp"] = "2026-11-30T00:00:00Z"
        metadata["managedFields"] = [
            {"manager": "kubectl", "operation": "Update", "fieldsV1": {"f:spec": MANAGER}}
        ]
        spec.update(clusterIP=address(at + 1), sessionAffinity="None")
        spec.update(internalTrafficPolicy="Cluster")
    return line("Service", "ADDED", version, metadata, spec=spec, status=status)


def slice_of(at: int, version: int, nodes: list[str], ready: bool = True,
             name: str | None = None) -> str:
    """A slice of the service, with an endpoint on each of the nodes."""
    service_name = f"s{at:06}"
    metadata: Object = {"namespace": f"n{at % 16:02}", "name": name or service_name,
                        "labels": {"kubernetes.io/service-name": service_name}}
    ends = [{"nodeName": node, "conditions": {"ready": ready}} for node in nodes]
    return line("EndpointSlice", "ADDED", version, metadata, endpoints=ends)


def node(name: str, version: int, labels: Object | None = None) -> str:
    return line("Node", "ADDED", version, {"name": name, "labels": labels or {"zone": "a"}})


def namespace(at: int, version: int, labels: Object | None = None) -> str:
    return line("Namespace", "MODIFIED", version, {"name": f"n{at:02}", "labels": labels or {}})


def replies(first: int, count: int) -> Iterator[str]:
    """The replies to so many puts, each at a newer version."""
    for at in range(count):
        yield f'{{"reply":"ok","version":{first + at}}}\n'


def in_order(count: int) -> list[int]:
    return list(range(count))


def shuffled(count: int) -> list[int]:
    """The numbers below the count, in an order that is the same at each run."""
    order = list(range(count))
    random.Random(5).shuffle(order)
    return order
