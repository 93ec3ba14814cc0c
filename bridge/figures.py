"""What is told of a bridge by HTTP: /metrics by the names that MetalLB has for what means the same
(Prometheus, text), /healthz, and /readyz."""
import collections
import contextlib
import ipaddress
from collections.abc import AsyncIterator, Callable, Iterable, Iterator
from typing import Any

from api import Json
from guard import POOL
from owed import Owed
from programs import Program
from puts import FROM_POOL, Counts
from refusals import Refusals
from web import web

LOADED, STALE = "metallb_k8s_client_config_loaded_bool", "metallb_k8s_client_config_stale_bool"
UPDATES, ERRORS = "metallb_k8s_client_updates_total", "metallb_k8s_client_update_errors_total"
TOTAL, IN_USE = "metallb_allocator_addresses_total", "metallb_allocator_addresses_in_use_total"
UP, HOLDER = "sutchebam_program_up", "sutchebam_is_the_controller"
PUTS, OWED = "sutchebam_puts_total", "sutchebam_unfenced_puts"
REFUSED = "sutchebam_refused_services"
ANNOUNCED = "metallb_speaker_announced"
SESSION_UP, PREFIXES = "metallb_bgp_session_up", "metallb_bgp_announced_prefixes_total"


def sample(name: str, value: object, **labels: object) -> str:
    told = ",".join(f'{label}="{text}"' for label, text in labels.items())
    return f"{name}{{{told}}} {value}\n" if told else f"{name} {value}\n"


def is_alive(program: Program | None) -> bool:
    return program is not None and program.process.returncode is None


def size_of(entry: str) -> int:
    """How many addresses an entry of a pool has, or none where it can't be read."""
    with contextlib.suppress(ValueError):
        first, dash, last = entry.partition("-")
        if dash:
            low, high = ipaddress.ip_address(first.strip()), ipaddress.ip_address(last.strip())
            return int(high) - int(low) + 1
        return ipaddress.ip_network(entry.strip(), strict=False).num_addresses
    return 0


class Figures:
    """Of a controller: what its lines and the watched objects say."""

    def __init__(self) -> None:
        self.program: Program | None = None
        self.refusals: Refusals | None = None
        self.owed: Owed | None = None
        self.is_holder = False
        self.loaded = self.stale = self.updates = self.before = 0
        self.pools: dict[str, int] = {}
        self.held: dict[tuple[str, str], tuple[str, list[str]]] = {}

    def begin_run(self) -> None:
        """Another run of the program, which waits for the Lease."""
        self.program, self.is_holder, self.before = None, False, self.updates

    def begin(self, program: Program, refusals: Refusals, owed: Owed) -> None:
        """The program has the Lease, and is to be shown the services."""
        self.program, self.refusals, self.owed = program, refusals, owed
        self.loaded = self.stale = 0
        self.pools, self.held = {}, {}

    def anew(self) -> None:
        """The lists begin anew."""
        self.pools, self.held = {}, {}

    def took(self) -> bool:
        """Whether the run of the program was shown anything."""
        return self.updates > self.before

    def configured(self, line: Json) -> None:
        self.stale = int(line["result"] == "refused")
        self.loaded = self.loaded or 1 - self.stale

    def note(self, event: Json) -> None:
        if event["type"] in ("BOOKMARK", "ERROR"):
            return
        self.updates += 1
        thing: Json = event["object"]
        gone, name = event["type"] == "DELETED", thing["metadata"]["name"]
        if thing["kind"] == POOL:
            self.pools.pop(name, None)
            if not gone:
                spec = thing.get("spec") or {}
                self.pools[name] = sum(map(size_of, spec.get("addresses") or []))
        elif thing["kind"] == "Service":
            key = thing["metadata"]["namespace"], name
            self.held.pop(key, None)
            pool = (thing["metadata"].get("annotations") or {}).get(FROM_POOL)
            status: Any = thing.get("status") or {}
            ingress = (status.get("loadBalancer") or {}).get("ingress") or []
            if pool and ingress and not gone:
                self.held[key] = pool, [one.get("ip") for one in ingress]

    def lines(self, counts: Counts) -> Iterator[str]:
        yield sample(LOADED, self.loaded)
        yield sample(STALE, self.stale)
        yield sample(UPDATES, self.updates)
        yield sample(ERRORS, counts.unknown)
        used = collections.defaultdict(set)
        for pool, addresses in self.held.values():
            used[pool].update(addresses)
        for pool, size in sorted(self.pools.items()):
            yield sample(TOTAL, size, pool=pool)
            yield sample(IN_USE, len(used[pool]), pool=pool)
        yield sample(PUTS, counts.stored, came="stored")
        yield sample(PUTS, counts.unknown, came="unknown")
        yield sample(PUTS, counts.unsent, came="unsent")
        yield sample(OWED, len(self.owed.puts) if self.owed else 0)
        yield sample(REFUSED, self.refusals.services() if self.refusals else 0)
        yield sample(HOLDER, int(self.is_holder))
        yield sample(UP, int(is_alive(self.program)))


class SpeakerFigures:
    """Of a speaker: the addresses that it announces, and its sessions."""

    def __init__(self, node: str) -> None:
        self.node = node
        self.program: Program | None = None
        self.neighbors: Any = None
        self.peers: Any = None

    def begin(self, program: Program, neighbors: object, peers: object) -> None:
        self.program, self.neighbors, self.peers = program, neighbors, peers

    def lines(self) -> Iterator[str]:
        if self.neighbors:
            for address in self.neighbors.repeats:
                yield sample(ANNOUNCED, 1, protocol="layer2", node=self.node, ip=address)
            for name, table in self.peers.tables.items():
                session = self.peers.tasks.get(name)
                yield sample(SESSION_UP, int(bool(session and session[0].writer)), peer=name)
                routes = sum(map(len, table.routes.values()))
                yield sample(PREFIXES, routes, peer=name)
        yield sample(UP, int(is_alive(self.program)))


@contextlib.asynccontextmanager
async def figures_served(listen: str | None,
                         lines: Callable[[], Iterable[str]]) -> AsyncIterator[None]:
    """Answers while it is entered, where an address to listen at is given. Not ready: no program
    runs, as of a controller that waits for its turn; it is well all the same."""
    async def answer(_method: str, path: str, _body: bytes) -> tuple[int, str, bytes]:
        text = "".join(lines())
        if path == "/metrics":
            return 200, "text/plain; version=0.0.4", text.encode()
        if path == "/healthz" or path == "/readyz" and f"{UP} 1" in text:
            return 200, "text/plain", b"ok"
        return 503 if path == "/readyz" else 404, "text/plain", b"no"
    if not listen:
        yield
        return
    async with web(listen, answer):
        yield
