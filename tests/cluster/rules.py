"""The rules of the controller and of the speakers, written from the product's documents and apart
from its code; the judges go by them.

Objects are those of the API, as JSON. An address is a pair of its version (4 or 6) and its
number."""
from __future__ import annotations

import hashlib
import ipaddress
from collections.abc import Callable, Collection, Iterable, Iterator, Mapping, Sequence
from functools import lru_cache
from typing import Any, Literal, NamedTuple

HELD_AS, FROM_POOL = "metallb.io/ip-held-as", "metallb.io/ip-allocated-from-pool"
SHARED, ADDRESSES = "metallb.io/allow-shared-ip", "metallb.io/loadBalancerIPs"
POOL = "metallb.io/address-pool"
OLD, NEW = "metallb.universe.tf/", "metallb.io/"  # MetalLB's annotations, before 0.14.9 and since
EXCLUDED = "node.kubernetes.io/exclude-from-external-load-balancers"
MAPPED = (0xFFFF << 32, (0xFFFF << 32) + 0xFFFFFFFF)
Json = dict[str, Any]
Address = tuple[int, int]
Span = tuple[int, int, int]  # version, low, high
Key = tuple[str, str]
Labels = Mapping[str, str]
Fault = tuple[str, str, str]  # cause, kind, name
ByName = Mapping[str, Json]


# Addresses and entries

@lru_cache(100_000)
def read_address(text: str) -> Address | None:
    """The address of a text, or None; those of ::ffff:0:0/96 are none."""
    try:
        address = ipaddress.ip_address(text)
    except ValueError:
        return None
    if "%" in text or address.version == 6 and address.ipv4_mapped is not None:
        return None
    return address.version, int(address)


@lru_cache(100_000)
def printed(address: Address) -> str:
    version, number = address
    return str(ipaddress.IPv4Address(number) if version == 4 else ipaddress.IPv6Address(number))


@lru_cache(10_000)
def read_entry(text: str) -> Span | None:
    """The span of a pool's entry, or None where it can't be read."""
    span = read_range(text) if "-" in text else read_prefix(text)
    if span and span[0] == 6 and span[1] <= MAPPED[1] and MAPPED[0] <= span[2]:
        return None
    return span


def read_range(text: str) -> Span | None:
    low, high = (read_address(side.strip(" \t")) for side in text.split("-", 1))
    if low is None or high is None or low[0] != high[0] or low[1] > high[1]:
        return None
    return low[0], low[1], high[1]


def read_prefix(text: str) -> Span | None:
    part, slash, length = text.partition("/")
    address = read_address(part)
    if address is None or not slash or not length.isdigit() or str(int(length)) != length:
        return None
    bits = {4: 32, 6: 128}[address[0]]
    if int(length) > bits:
        return None
    size = 1 << (bits - int(length))
    low = address[1] // size * size
    return address[0], low, low + size - 1


@lru_cache(10_000)
def least_length(span: Span) -> int:
    make: Any = ipaddress.IPv4Address if span[0] == 4 else ipaddress.IPv6Address
    low, high = make(span[1]), make(span[2])
    nets: Iterable[Any] = ipaddress.summarize_address_range(low, high)
    return min(int(net.prefixlen) for net in nets)


# Labels

TESTS: dict[str, Callable[[str | None, Sequence[str]], bool]] = {
    "In": lambda has, values: has in values,
    "NotIn": lambda has, values: has is None or has not in values,
    "Exists": lambda has, _: has is not None,
    "DoesNotExist": lambda has, _: has is None}


def is_well_formed(selector: Json) -> bool:
    return all(one["operator"] in TESTS
               and (one["operator"] in ("In", "NotIn")) == bool(one.get("values"))
               for one in selector.get("matchExpressions") or [])


def matches(selector: Json, labels: Labels) -> bool:
    pairs = (selector.get("matchLabels") or {}).items()
    if any(labels.get(name) != value for name, value in pairs):
        return False
    return all(TESTS[one["operator"]](labels.get(one["key"]), one.get("values") or [])
               for one in selector.get("matchExpressions") or [])


def any_matches(selectors: Iterable[Json], labels: Labels) -> bool:
    return any(matches(selector, labels) for selector in selectors)


def labels_of(thing: Json | None) -> dict[str, str]:
    found: dict[str, str] = (thing or {}).get("metadata", {}).get("labels") or {}
    return found


# The configuration

class Pool(NamedTuple):
    name: str
    labels: dict[str, str]
    spans: tuple[Span, ...]
    auto: bool
    avoids: bool
    allocation: Json | None

    def has(self, address: Address) -> bool:
        return any(version == address[0] and low <= address[1] <= high
                   for version, low, high in self.spans)

    def addresses(self, version: int) -> Iterator[Address]:
        """The addresses of one family, entries as listed and each ascending."""
        return ((version, number) for span in self.spans if span[0] == version
                for number in range(span[1], span[2] + 1))


def by_name(objects: ByName) -> list[Json]:
    return sorted(objects.values(), key=lambda thing: name_of(thing).encode())


def name_of(thing: Json) -> str:
    return str(thing["metadata"]["name"])


def pool_of(thing: Json) -> Pool:
    """The pool of an object whose entries can be read."""
    spec = thing["spec"]
    spans = (read_entry(text) for text in spec.get("addresses") or [])
    return Pool(name_of(thing), labels_of(thing), tuple(span for span in spans if span),
                spec.get("autoAssign", True), spec.get("avoidBuggyIPs", False),
                spec.get("serviceAllocation"))


def chooses(advertisement: Json, pool: Pool) -> bool:
    spec = advertisement["spec"]
    names: Collection[str] = spec.get("ipAddressPools") or []
    selectors: list[Json] = spec.get("ipAddressPoolSelectors") or []
    return (not names and not selectors or pool.name in names
            or any_matches(selectors, pool.labels))


def selects_node(thing: Json, labels: Labels) -> bool:
    selectors = thing["spec"].get("nodeSelectors") or []
    return not selectors or any_matches(selectors, labels)


class Config(NamedTuple):
    pools: list[Pool]
    l2: list[Json]
    bgp: list[Json]
    peers: list[Json]
    communities: dict[str, str]

    def pool_of(self, address: Address) -> Pool | None:
        return next((pool for pool in self.pools if pool.has(address)), None)


def selectors_of(kind: str, thing: Json) -> list[Json]:
    spec = thing["spec"]
    names = ("ipAddressPoolSelectors", "nodeSelectors")
    if kind == "IPAddressPool":
        spec = spec.get("serviceAllocation") or {}
        names = ("namespaceSelectors", "serviceSelectors")
    return [selector for name in names for selector in spec.get(name) or []]


def numbers_in(text: str, count: int, bits: int) -> tuple[int, ...] | None:
    """So many numbers of so many bits with a colon between each two, or None."""
    parts = text.split(":")
    if len(parts) == count and all(part.isdigit() and str(int(part)) == part
                                   and int(part) < 1 << bits for part in parts):
        return tuple(int(part) for part in parts)
    return None


def read_community(text: str) -> int | tuple[int, ...] | None:
    """The number of a community (RFC 1997), the three of a large one (RFC 8092), or None."""
    if text.startswith("large:"):
        return numbers_in(text.removeprefix("large:"), 3, 32)
    numbers = numbers_in(text, 2, 16)
    return numbers and numbers[0] * 65536 + numbers[1]


def compiled(objects: Mapping[str, ByName]) -> Config | Fault:
    """The configuration of the objects (by kind, by name), or its first fault."""
    pools, l2, bgp, peers = (by_name(objects[kind]) for kind in (
        "IPAddressPool", "L2Advertisement", "BGPAdvertisement", "BGPPeer"))
    if fault := entry_fault(pools):
        return fault
    read = [pool_of(thing) for thing in pools]
    kinds = {"IPAddressPool": pools, "L2Advertisement": l2, "BGPAdvertisement": bgp,
             "BGPPeer": peers}
    return (overlap(read) or selector_fault(kinds) or route_fault(read, bgp)
            or community_fault(objects, bgp) or peer_fault(bgp, peers)
            or Config(read, l2, bgp, peers, named_communities(objects)))


def entry_fault(pools: Sequence[Json]) -> Fault | None:
    for pool in pools:
        if any(read_entry(text) is None for text in pool["spec"].get("addresses") or []):
            return "EntryUnreadable", "IPAddressPool", name_of(pool)
    for pool in pools:
        if not pool["spec"].get("addresses"):
            return "EmptyPool", "IPAddressPool", name_of(pool)
    return None


def overlap(pools: Sequence[Pool]) -> Fault | None:
    spans = [(span, pool.name) for pool in pools for span in pool.spans]
    for at, (one, _) in enumerate(spans):
        for other, name in spans[at + 1:]:
            if one[0] == other[0] and one[1] <= other[2] and other[1] <= one[2]:
                return "Overlap", "IPAddressPool", name
    return None


def selector_fault(kinds: Mapping[str, Sequence[Json]]) -> Fault | None:
    for kind, things in kinds.items():
        for thing in things:
            if not all(is_well_formed(selector) for selector in selectors_of(kind, thing)):
                return "SelectorUnreadable", kind, name_of(thing)
    return None


def route_fault(pools: Sequence[Pool], bgp: Sequence[Json]) -> Fault | None:
    for one in bgp:
        lengths = {4: one["spec"].get("aggregationLength", 32),
                   6: one["spec"].get("aggregationLengthV6", 128)}
        if any(least_length(span) > lengths[span[0]] for pool in pools if chooses(one, pool)
               for span in pool.spans):
            return "Aggregation", "BGPAdvertisement", name_of(one)
    for at, one in enumerate(bgp):
        for other in bgp[at + 1:]:
            both = [pool for pool in pools if chooses(one, pool) and chooses(other, pool)]
            if clash(one["spec"], other["spec"], both):
                return "LocalPrefClash", "BGPAdvertisement", name_of(other)
    return None


def clash(one: Json, other: Json, common: Sequence[Pool]) -> bool:
    return one.get("localPref", 0) != other.get("localPref", 0) and any(
        one.get(length, default) == other.get(length, default)
        and any(span[0] == version for pool in common for span in pool.spans)
        for version, length, default in (
            (4, "aggregationLength", 32), (6, "aggregationLengthV6", 128)))


def peer_fault(bgp: Sequence[Json], peers: Sequence[Json]) -> Fault | None:
    names = {name_of(peer) for peer in peers}
    for one in bgp:
        if any(name not in names for name in one["spec"].get("peers") or []):
            return "PeerUnknown", "BGPAdvertisement", name_of(one)
    return None


def communities_in(objects: Mapping[str, ByName]) -> list[tuple[str, list[Json]]]:
    """Of each Community its name, and the names that it gives to communities."""
    return [(name_of(thing), thing["spec"].get("communities") or [])
            for thing in by_name(objects["Community"])]


def named_communities(objects: Mapping[str, ByName]) -> dict[str, str]:
    return {item["name"]: item["value"] for _, items in communities_in(objects)
            for item in items}


def community_fault(objects: Mapping[str, ByName], bgp: Sequence[Json]) -> Fault | None:
    named, seen = named_communities(objects), set[str]()
    asked: list[tuple[str, list[str]]] = [
        (name_of(one), one["spec"].get("communities") or []) for one in bgp]
    for name, texts in asked:
        if any(":" not in text and text not in named for text in texts):
            return "CommunityUnknown", "BGPAdvertisement", name
    for name, items in communities_in(objects):
        if any(read_community(item["value"]) is None for item in items):
            return "CommunityUnreadable", "Community", name
    for name, texts in asked:
        if any(":" in text and read_community(text) is None for text in texts):
            return "CommunityUnreadable", "BGPAdvertisement", name
    for name, items in communities_in(objects):
        for item in items:
            if item["name"] in seen:
                return "CommunityTwice", "Community", name
            seen.add(item["name"])
    return None


# Services, sharing and marks

class Record(NamedTuple):
    addresses: tuple[Address, ...]
    pool: str
    mark: str


NOTHING = Record((), "", "")


def record_of(service: Json) -> Record:
    notes = service["metadata"].get("annotations") or {}
    ingress = (service.get("status") or {}).get("loadBalancer", {}).get("ingress") or []
    read = (read_address(one["ip"]) for one in ingress if "ip" in one)
    return Record(tuple(one for one in read if one), notes.get(FROM_POOL, ""),
                  notes.get(HELD_AS, ""))


def asked_by(service: Json, name: str) -> str:
    """What a service asks for by an annotation, else by that of before (docs/BRIDGE.md)."""
    notes = service["metadata"].get("annotations") or {}
    found: str = notes.get(name, notes.get(OLD + name.removeprefix(NEW), ""))
    return found


def is_balancer(service: Json) -> bool:
    return bool(service["spec"].get("type") == "LoadBalancer")


Pairs = tuple[tuple[str, ...], ...]


class Terms(NamedTuple):
    key: str
    ports: tuple[tuple[int, int], ...]
    backend: tuple[str, Pairs] | None  # None for Cluster, else namespace and selector


ORDER = {"TCP": 0, "UDP": 1, "SCTP": 2}


def terms_of(service: Json) -> Terms:
    spec, metadata = service["spec"], service["metadata"]
    ports = {(ORDER[port.get("protocol", "TCP")], port["port"]) for port in spec.get("ports") or []}
    local = spec.get("externalTrafficPolicy") == "Local"
    pairs = tuple(sorted((spec.get("selector") or {}).items()))
    backend = (metadata["namespace"], pairs) if local else None
    key = asked_by(service, SHARED)
    return Terms(key, tuple(sorted(ports)), backend)


def may_share(one: Terms, other: Terms) -> bool:
    return (bool(one.key) and one.key == other.key and not set(one.ports) & set(other.ports)
            and one.backend == other.backend)


def mark_of(terms: Terms) -> str:
    ports = ",".join("TUS"[protocol] + str(port) for protocol, port in terms.ports)
    if terms.backend is None:
        return f"v1;{terms.key.encode().hex()};{ports};C"
    pairs = "".join(f",{name.encode().hex()}={value.encode().hex()}"
                    for name, value in terms.backend[1])
    return f"v1;{terms.key.encode().hex()};{ports};L{terms.backend[0].encode().hex()}{pairs}"


@lru_cache(100_000)
def read_mark(text: str) -> Terms | None:
    """The terms whose mark the text is, or None."""
    try:
        version, key, ports, backend = text.split(";")
        listed = tuple(("TUS".index(port[0]), int(port[1:])) for port in ports.split(",") if port)
        behind: tuple[str, Pairs] | None = None
        if backend != "C":
            namespace, *pairs = backend[1:].split(",")
            read = (tuple(bytes.fromhex(part).decode() for part in pair.split("="))
                    for pair in pairs)
            behind = bytes.fromhex(namespace).decode(), tuple(read)
        terms = Terms(bytes.fromhex(key).decode(), listed, behind)
        return terms if version == "v1" and mark_of(terms) == text else None
    except (ValueError, IndexError, TypeError):
        return None


def may_not_share(mark: str, other: str) -> bool:
    """Whether services with these recorded marks may not have one address. Of a text that is no
    mark nothing is said."""
    one, two = read_mark(mark), read_mark(other)
    return one is not None and two is not None and not may_share(one, two)


# Choosing

class Claims:
    """Which services have each address, or may have it, and under which terms. A claim is a key, a
    record and the service as it is: its terms are those of the service where the record has no
    mark."""

    def __init__(self, claims: Iterable[tuple[Key, Record, Json]]) -> None:
        self.at: dict[Address, list[tuple[Key, Terms]]] = {}
        for key, record, service in claims:
            for address in record.addresses:
                terms = read_mark(record.mark) or terms_of(service)
                self.at.setdefault(address, []).append((key, terms))

    def usable(self, pool: Pool, key: Key, terms: Terms, address: Address) -> bool:
        is_avoided = pool.avoids and address[0] == 4 and address[1] % 256 in (0, 255)
        if not pool.has(address) or is_avoided:
            return False
        return all(may_share(terms, others) for other, others in self.at.get(address, ())
                   if other != key)

    def least(self, pool: Pool, key: Key, terms: Terms, version: int) -> Address | None:
        return next((address for address in pool.addresses(version)
                     if self.usable(pool, key, terms, address)), None)


def serves(pool: Pool, service: Json, namespace: Labels) -> bool:
    """Whether the pool serves the service, whose namespace has these labels."""
    if pool.allocation is None:
        return True
    names, spaces, services = (pool.allocation.get(part) or [] for part in (
        "namespaces", "namespaceSelectors", "serviceSelectors"))
    by_space = (not names and not spaces or service["metadata"]["namespace"] in names
                or any_matches(spaces, namespace))
    return by_space and (not services or any_matches(services, labels_of(service)))


def eligible(config: Config, service: Json, namespace: Labels) -> list[Pool]:
    """The pools that serve the service unasked, in their order."""
    def place(pool: Pool) -> tuple[int, int, bytes]:
        if pool.allocation is None:
            return 1, 0, pool.name.encode()
        return 0, pool.allocation.get("priority", 0) or 1 << 32, pool.name.encode()
    return sorted((pool for pool in config.pools
                   if pool.auto and serves(pool, service, namespace)), key=place)


def asked_of(service: Json) -> list[Address] | Literal[False] | None:
    """The addresses asked for: None where none are, and False where they can't be read."""
    text = asked_by(service, ADDRESSES)
    parts = [part.strip(" \t") for part in text.split(",")]
    if not text:
        parts = [service["spec"].get("loadBalancerIP") or ""]
    if parts == [""] and not text:
        return None
    read = [read_address(part) for part in parts]
    known = [one for one in read if one]
    return known if len(known) == len(read) else False


def options_of(service: Json) -> list[list[int]]:
    """The lists of families of which the service wants one, the first that can be had."""
    spec = service["spec"]
    families = [{"IPv4": 4, "IPv6": 6}[name] for name in spec.get("ipFamilies") or ["IPv4"]]
    is_free = spec.get("ipFamilyPolicy") == "PreferDualStack" and len(families) == 2
    return [families, families[:1], families[1:]] if is_free else [families]


def one_of_each(addresses: Iterable[Address], options: Iterable[list[int]]) -> bool:
    """Whether they are one address of each family of some option."""
    versions = sorted(address[0] for address in addresses)
    return any(versions == sorted(families) for families in options)


def choose(claims: Claims, config: Config, lb_class: str | None, key: Key, service: Json,
           namespace: Labels, held: Record) -> tuple[str, Record | None]:
    """What is chosen for the service as the first case that holds: the case's word, and the record,
    or None where it is left alone."""
    if is_balancer(service) and service["spec"].get("loadBalancerClass") != lb_class:
        return "foreign", None
    if not is_balancer(service):
        return "clear", NOTHING
    asked, options, terms = asked_of(service), options_of(service), terms_of(service)
    if asked is False:
        return "request-unreadable", NOTHING
    if asked is not None and not one_of_each(asked, options):
        return "request-families", NOTHING
    wanted = asked_by(service, POOL)
    pool_asked = next((pool for pool in config.pools if pool.name == wanted), None)
    if wanted and pool_asked is None:
        return "pool-unknown", NOTHING
    if pool_asked and not serves(pool_asked, service, namespace):
        return "pool-refused", NOTHING
    serving = [pool_asked] if pool_asked else [
        pool for pool in config.pools if serves(pool, service, namespace)]
    mark, home = mark_of(terms), home_of(serving, held.addresses)
    if (one_of_each(held.addresses, options) and home
            and all(claims.usable(home, key, terms, one) for one in held.addresses)
            and (asked is None or sorted(asked) == sorted(held.addresses))):
        return "keep", Record(held.addresses, home.name, mark)
    if asked is not None:
        home = home_of(serving, asked)
        if home is None:
            return "address-outside", NOTHING
        if not all(claims.usable(home, key, terms, address) for address in asked):
            return "address-unusable", NOTHING
        return "new", Record(tuple(asked), home.name, mark)
    pools = [pool_asked] if pool_asked else eligible(config, service, namespace)
    if not pools:
        return "no-pool", NOTHING
    for families in options:
        for pool in pools:
            least = (claims.least(pool, key, terms, family) for family in families)
            found = tuple(one for one in least if one)
            if len(found) == len(families):
                return "new", Record(found, pool.name, mark)
    return "pool-exhausted" if wanted else "exhausted", NOTHING


def home_of(pools: Iterable[Pool], addresses: Collection[Address]) -> Pool | None:
    """The first of the pools that has all these addresses."""
    return next((pool for pool in pools if all(map(pool.has, addresses))), None)


# Speakers

def is_usable(endpoint: Json) -> bool:
    conditions = endpoint.get("conditions") or {}
    ready, serving = conditions.get("ready"), conditions.get("serving")
    return bool(serving if serving is not None else ready if ready is not None else True)


def can_announce(service: Json, slices: Iterable[Json], node: str, labels: Labels,
                 lb_class: str | None) -> bool:
    """Whether the service can be announced from the node, which has these labels."""
    is_handled = is_balancer(service) and service["spec"].get("loadBalancerClass") == lb_class
    if not is_handled or EXCLUDED in labels:
        return False
    metadata = service["metadata"]
    of_it = (one for one in slices if one["metadata"]["namespace"] == metadata["namespace"]
             and labels_of(one).get("kubernetes.io/service-name") == metadata["name"])
    endpoints = (endpoint for one in of_it for endpoint in one.get("endpoints") or [])
    local = service["spec"].get("externalTrafficPolicy") == "Local"
    return any(is_usable(endpoint) and (not local or endpoint.get("nodeName") == node)
               for endpoint in endpoints)


class Told(NamedTuple):
    """A route as it is told: its version, communities and large ones, and the preference where both
    are of one AS."""
    version: int
    communities: set[int]
    large: set[tuple[int, ...]]
    preference: int | None


class Sight:
    """What a speaker is shown: the configuration in force, services, slices, nodes by name, and the
    members."""

    def __init__(self, config: Config, services: Sequence[Json], slices: Sequence[Json],
                 nodes: ByName, members: Sequence[str], lb_class: str | None = None) -> None:
        self.config, self.services, self.slices = config, services, slices
        self.nodes, self.members, self.lb_class = nodes, members, lb_class

    def labels(self, node: str) -> dict[str, str]:
        return labels_of(self.nodes.get(node))

    def announcing(self, address: Address, node: str) -> bool:
        return any(address in record_of(service).addresses
                   and can_announce(service, self.slices, node, self.labels(node), self.lb_class)
                   for service in self.services)

    def advertisements(self, address: Address, node: str) -> list[Json]:
        """The L2Advertisements by which the node may announce the address."""
        pool = self.config.pool_of(address)
        return [one for one in self.config.l2
                if pool and chooses(one, pool) and selects_node(one, self.labels(node))]

    def announcer(self, address: Address) -> str | None:
        """The one node that announces the address, or None."""
        def place(node: str) -> tuple[bytes, bytes]:
            text = f"{node}#{printed(address)}"
            return hashlib.sha256(text.encode()).digest(), node.encode()
        able = [node for node in self.members
                if self.advertisements(address, node) and self.announcing(address, node)]
        return min(able, key=place) if able else None

    def listens(self, address: Address, node: str, interface: str) -> bool:
        return self.announcer(address) == node and any(
            interface in (one["spec"].get("interfaces") or [interface])
            for one in self.advertisements(address, node))

    def addresses(self) -> set[Address]:
        return {address for service in self.services for address in record_of(service).addresses}

    def routes(self, node: str, peer: Json) -> dict[str, Told]:
        """The routes that the node tells the peer, by their prefixes."""
        found: dict[str, Told] = {}
        if not selects_node(peer, self.labels(node)):
            return found
        inside = peer["spec"]["myASN"] == peer["spec"]["peerASN"]
        for address in self.addresses():
            pool = self.config.pool_of(address)
            if not pool or not self.announcing(address, node):
                continue
            for one in self.config.bgp:
                peers = one["spec"].get("peers") or [name_of(peer)]
                is_selected = chooses(one, pool) and selects_node(one, self.labels(node))
                if is_selected and name_of(peer) in peers:
                    self.add(found, address, one["spec"], inside)
        return found

    def add(self, found: dict[str, Told], address: Address, spec: Json, inside: bool) -> None:
        """Takes the route of an address by an advertisement into those that were found."""
        version, number = address
        bits, name = (32, "aggregationLength") if version == 4 else (128, "aggregationLengthV6")
        length = spec.get(name, bits)
        prefix = f"{printed((version, number >> (bits - length) << (bits - length)))}/{length}"
        before = found.get(prefix, Told(version, set(), set(), None))
        told = {read_community(self.config.communities.get(text, text))
                for text in spec.get("communities") or []}
        numbers = {one for one in told if isinstance(one, int)}
        triples = {one for one in told if isinstance(one, tuple)}
        best = max(before.preference or 0, spec.get("localPref", 0)) if inside else None
        found[prefix] = Told(version, before.communities | numbers, before.large | triples, best)
