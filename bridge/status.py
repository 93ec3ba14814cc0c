"""`bridge status`: tables of the services and their addresses, the pools, and, as the speakers tell
by /metrics, who announces each address and which BGP sessions are up."""
import argparse
import asyncio
import collections
import re
from collections.abc import Iterable, Sequence
from dataclasses import dataclass, field
from typing import Any

from api import Answer, Api, Broken, Json, NotSent
from common import Stop, api_of, warn
from figures import ANNOUNCED, PREFIXES, SESSION_UP, size_of
from lease import Unreadable, path_of, reading_of
from puts import FROM_POOL
from watches import SERVICE_PATHS, config_paths

SHORT = 10.0  # seconds for an answer
SPEAKERS = "labelSelector=app%3Dsutchebam%2Ccomponent%3Dspeaker"
PORT = 7472  # where the manifests have the speakers tell their figures
SAMPLE = re.compile(r'(\w+)\{([^}]*)\} (\S+)$')
LABEL = re.compile(r'(\w+)="([^"]*)"')


def add_words(parser: argparse.ArgumentParser) -> None:
    parser.set_defaults(serve=serve)
    parser.add_argument("--figures", action="append", default=[], metavar="NODE=ADDRESS:PORT",
                        help="where the speaker of a node tells its figures; else those of the "
                             "manifests are asked through the API server")
    parser.add_argument("--lb-class", help="the class of the services that are handled")


@dataclass
class Speakers:
    """What the speakers tell: the nodes that announce each address, and each session."""
    nodes: dict[str, set[str]] = field(default_factory=lambda: collections.defaultdict(set))
    sessions: list[tuple[str, str, str, str]] = field(default_factory=list)
    silent: list[str] = field(default_factory=list)

    def read(self, node: str, text: str) -> None:
        up, routes = {}, {}
        for line in text.splitlines():
            if found := SAMPLE.match(line):
                name, labels, value = found[1], dict(LABEL.findall(found[2])), found[3]
                if name == ANNOUNCED:
                    self.nodes[labels.get("ip", "")].add(node)
                elif name == SESSION_UP:
                    up[labels.get("peer", "")] = value
                elif name == PREFIXES:
                    routes[labels.get("peer", "")] = value
        for peer, value in sorted(up.items()):
            state = "up" if float(value) else "down"
            self.sessions.append((node, peer, state, routes.get(peer, "0")))


def table(heads: Sequence[str], rows: Iterable[Sequence[object]]) -> str:
    """Columns as wide as they need to be."""
    lines = [list(heads), *([str(cell) or "-" for cell in row] for row in rows)]
    widths = [max(map(len, column)) for column in zip(*lines)]
    return "\n".join("   ".join(cell.ljust(width) for cell, width in zip(line, widths)).rstrip()
                     for line in lines)


def addresses_of(service: Json) -> list[str]:
    status: Any = service.get("status") or {}
    ingress = (status.get("loadBalancer") or {}).get("ingress") or []
    return [str(one.get("ip") or one.get("hostname") or "") for one in ingress]


def service_rows(services: Iterable[Json], lb_class: str | None,
                 speakers: Speakers) -> list[tuple[str, str, str, str, str]]:
    """The services of the handled class: name, addresses, pool, where announced, and what stands
    against it."""
    rows = []
    for one in services:
        spec, metadata = one.get("spec") or {}, one["metadata"]
        if spec.get("type") != "LoadBalancer" or spec.get("loadBalancerClass") != lb_class:
            continue
        found = addresses_of(one)
        notes = metadata.get("annotations") or {}
        nodes = sorted({node for address in found for node in speakers.nodes.get(address, ())})
        note = "" if found else "waits"
        rows.append((f"{metadata['namespace']}/{metadata['name']}", " ".join(found),
                     str(notes.get(FROM_POOL, "")), " ".join(nodes), note))
    return sorted(rows)


def pool_rows(pools: Iterable[Json], services: Iterable[Json]) -> list[tuple[str, int, int, str]]:
    """The pools: name, addresses, how many of these are in use, and the entries."""
    used = collections.defaultdict(set)
    for one in services:
        pool = (one["metadata"].get("annotations") or {}).get(FROM_POOL)
        used[pool].update(addresses_of(one))
    rows = []
    for pool in pools:
        entries = (pool.get("spec") or {}).get("addresses") or []
        name = pool["metadata"]["name"]
        rows.append((name, sum(map(size_of, entries)), len(used[name]), ", ".join(entries)))
    return sorted(rows)


async def asked(api: Api, path: str) -> Answer:
    try:
        return await api.ask("GET", path, wait=SHORT)
    except (NotSent, Broken) as fault:
        raise Stop(1, f"{path}: {fault}") from fault


async def items_of(api: Api, path: str) -> list[Json]:
    answer = await asked(api, path)
    if answer.status != 200:
        raise Stop(1, f"{path}: {answer.message}")
    return list(answer.value.get("items") or [])


async def text_of(address: str) -> str:
    """The figures at ADDRESS:PORT."""
    host, _, port = address.rpartition(":")
    async with asyncio.timeout(SHORT):
        reader, writer = await asyncio.open_connection(host.strip("[]"), int(port))
        writer.write(f"GET /metrics HTTP/1.1\r\nHost: {host}\r\nConnection: close\r\n\r\n".encode())
        text = await reader.read()
        writer.close()
    return text.decode(errors="replace")


async def speakers_of(api: Api, options: argparse.Namespace) -> Speakers:
    speakers = Speakers()
    for word in options.figures:
        node, _, address = word.partition("=")
        try:
            speakers.read(node, await text_of(address))
        except (OSError, ValueError) as fault:
            speakers.silent.append(f"{node}: {fault or type(fault).__name__}")
    if not options.figures:
        pods = f"/api/v1/namespaces/{options.namespace}/pods"
        answer = await asked(api, f"{pods}?{SPEAKERS}")
        for pod in answer.value.get("items") or []:
            node, name = pod["spec"].get("nodeName", ""), pod["metadata"]["name"]
            told = await api.text(f"{pods}/{name}:{PORT}/proxy/metrics", SHORT)
            if told is None:
                speakers.silent.append(f"{node}: no figures")
            else:
                speakers.read(node, told)
    return speakers


async def controller_of(api: Api, options: argparse.Namespace) -> str:
    """Which controller has the Lease, and which puts it names."""
    answer = await asked(api, path_of(options.namespace))
    if answer.status != 200:
        return f"no controller's Lease: {answer.message}"
    try:
        reading = reading_of(answer.value)
    except Unreadable as fault:
        return f"the controller's Lease: {fault}"
    names = ", ".join(map(str, reading.names)) or "none"
    return f"{reading.holder or 'nobody'} is the controller; puts that may be on their way: {names}"


async def serve(options: argparse.Namespace) -> None:
    """Prints the tables."""
    api = api_of(options, "bridge-status")
    services = await items_of(api, SERVICE_PATHS["Service"])
    pools = await items_of(api, config_paths(options.namespace)["IPAddressPool"])
    speakers = await speakers_of(api, options)
    for text in speakers.silent:
        warn(text)
    rows = service_rows(services, options.lb_class, speakers)
    parts = [await controller_of(api, options),
             table(("SERVICE", "ADDRESSES", "POOL", "ANNOUNCED BY", ""), rows),
             table(("POOL", "SIZE", "IN USE", "ENTRIES"), pool_rows(pools, services))]
    if speakers.sessions:
        parts.append(table(("NODE", "PEER", "SESSION", "ROUTES"), speakers.sessions))
    print("\n\n".join(parts))
