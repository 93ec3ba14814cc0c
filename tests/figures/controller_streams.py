"""Streams of lines for the controller and the admission tool."""
from __future__ import annotations

import json
from collections.abc import Callable, Iterator

import cluster_lines as lines

Lines = Iterator[str]
PORTS = 65535
PROTOCOLS = ["TCP", "UDP", "SCTP"]
UNAVOIDED = 65536 - 512  # the addresses of a /16 that end in neither 0 nor 255
NEWER = 10 ** 7


def start(count: int, order: Callable[[int], list[int]], step: int = 1) -> Lines:
    """Held services, whose addresses are in this order."""
    yield lines.pool()
    yield lines.list_end("IPAddressPool", 1)
    places = order(count)
    for at in range(count):
        yield lines.service(at, 10 + at, held=places[at] * step)
    yield lines.list_end("Service", 10 + count)


def asking(services: Lines, count: int, puts: int | None = None) -> Lines:
    """One pool, these services, the end of the list, and a reply to each put."""
    yield lines.pool()
    yield lines.list_end("IPAddressPool", 1)
    yield from services
    yield lines.list_end("Service", 10 + count)
    yield from lines.replies(NEWER, count if puts is None else puts)


def new_services(count: int, real: bool = False) -> Lines:
    services = (lines.service(at, 10 + at, real=real) for at in range(count))
    return asking(services, count)


def unserved(count: int, real: bool = False) -> Lines:
    """The same lines, of services that want no address."""
    for line in new_services(count, real):
        if not line.startswith('{"reply"'):
            yield line.replace('"LoadBalancer"', '"ExternalName"')


def asked_addresses(count: int) -> Lines:
    def services() -> Lines:
        for at, place in enumerate(lines.shuffled(count)):
            asked = {"metallb.io/loadBalancerIPs": lines.address(3 * place)}
            yield lines.service(at, 10 + at, notes=asked)

    return asking(services(), count)


def entries(count: int) -> Lines:
    """As many entries of one address as there are services, 64 a pool."""
    pools = 0
    for first in range(0, count, 64):
        pools += 1
        ends = [lines.address(2 * at) for at in range(first, min(count, first + 64))]
        spec = {"addresses": [f"{it}-{it}" for it in ends]}
        yield lines.line("IPAddressPool", "ADDED", pools, {"name": f"p{pools:04}"}, spec=spec)
    yield lines.list_end("IPAddressPool", pools)
    for at in range(count):
        yield lines.service(at, 2000 + at)
    yield lines.list_end("Service", 2000 + count)
    yield from lines.replies(NEWER, count)


def port_of(at: int, own: bool) -> lines.Object:
    """A port of its own, of TCP, and then of UDP and SCTP; or port 80."""
    if not own:
        return {"protocol": "TCP", "port": 80}
    return {"protocol": PROTOCOLS[at // PORTS % 3], "port": at % PORTS + 1}


def sharing(count: int, own_ports: bool, selecting: bool = False) -> Lines:
    def services() -> Lines:
        for at in range(count):
            more: lines.Object = {"ports": [port_of(at, own_ports)]}
            if selecting:
                more.update(externalTrafficPolicy="Local", selector={"app": f"a{at}"})
            yield lines.service(at, 10 + at, notes=lines.SHARED, spec=more, spaces=1)

    return asking(services(), count)


def interleaved(count: int) -> Lines:
    services = (lines.service(at, 10 + at, notes=lines.SHARED if at % 2 else None, spaces=1)
                for at in range(count))
    return asking(services, count)


def avoiding(count: int) -> Lines:
    spec = {"addresses": ["10.0.0.0/16"], "avoidBuggyIPs": True}
    yield lines.line("IPAddressPool", "ADDED", 1, {"name": "p"}, spec=spec)
    yield lines.list_end("IPAddressPool", 1)
    for at in range(count):
        yield lines.service(at, 10 + at)
    yield lines.list_end("Service", 10 + count)
    yield from lines.replies(NEWER, min(count, UNAVOIDED))


def adopted(count: int) -> Lines:
    """Services with one sharing key and ports of their own, recorded with one address and no mark,
    each shown twice."""
    def services() -> Lines:
        for version in (10, 10 + count):
            for at in range(count):
                ports = {"ports": [port_of(at, True)]}
                yield lines.service(at, version + at, held=1, mark=None, notes=lines.SHARED,
                                    spec=ports, spaces=1)

    return asking(services(), 2 * count, count)


def many_pools(count: int, pools: int) -> Lines:
    """Pools with a selector each, of which every service may use a few."""
    for at in range(pools):
        wanted = {"matchLabels": {"team": f"t{at % 64}"}}
        spec = {"addresses": [f"10.{at >> 4}.{(at & 15) << 4}.0/20"],
                "serviceAllocation": {"serviceSelectors": [wanted]}}
        yield lines.line("IPAddressPool", "ADDED", 1 + at, {"name": f"p{at:04}"}, spec=spec)
    yield lines.list_end("IPAddressPool", pools)
    for at in range(count):
        yield lines.service(at, 2000 + at, labels={"team": f"t{at % 64}"})
    yield lines.list_end("Service", 2000 + count)
    yield from lines.replies(NEWER, count)


def with_namespaces() -> Lines:
    for at in range(16):
        yield lines.namespace(at, 2 + at)
    yield from start(16384, lines.in_order)


def namespaces_again() -> Lines:
    for at in range(200):
        yield lines.namespace(at % 16, NEWER + at)


def pools_again() -> Lines:
    for at in range(200):
        yield lines.pool(NEWER + at)


def waiting(count: int) -> Lines:
    """256 services have all addresses, and so many wait."""
    yield lines.pool(prefix="10.0.0.0/24")
    yield lines.list_end("IPAddressPool", 1)
    for at in range(256 + count):
        yield lines.service(at, 10 + at, held=at if at < 256 else None)
    yield lines.list_end("Service", 10 + 256 + count)


def releases() -> Lines:
    for at in range(64):
        name = {"namespace": f"n{at % 16:02}", "name": f"s{at:06}"}
        yield lines.line("Service", "DELETED", NEWER + 2 * at, name)
        yield f'{{"reply":"ok","version":{NEWER + 2 * at + 1}}}\n'


def pools_of_reviews(count: int) -> Lines:
    for at in range(count):
        spec = {"addresses": [f"10.{at >> 8}.{at & 255}.0/25"]}
        yield lines.line("IPAddressPool", "ADDED", at + 1, {"name": f"p{at:04}"}, spec=spec)


def reviews(count: int) -> Lines:
    """Each asks for the change of a pool to a prefix that is free."""
    for at in range(count):
        spec = {"addresses": [f"10.{at >> 8}.{at & 255}.128/25"]}
        changed = {"kind": "IPAddressPool", "metadata": {"name": f"p{at:04}"}, "spec": spec}
        request = {"uid": f"u{at}", "operation": "UPDATE", "object": changed}
        review = {"apiVersion": "admission.k8s.io/v1", "kind": "AdmissionReview",
                  "request": request}
        yield json.dumps(review) + "\n"
