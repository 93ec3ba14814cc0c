"""Users who edit a small cluster at random: services, pools, and what speakers go by. They never
write what the controller writes."""
from __future__ import annotations

import functools
import random
from collections.abc import Callable, Sequence

from kinds import BY_NAME, Json, copied
from rules import (ADDRESSES, FROM_POOL, HELD_AS, POOL, SHARED, Config, compiled, is_balancer,
                   printed, read_entry, record_of)
from store import MERGE, Key, Refused, Store

METALLB = "metallb-system"
SPACES: dict[str, dict[str, str]] = {"default": {}, "team-a": {"tier": "front"},
                                     "team-b": {"tier": "back"}}
NAMES = ["a", "b", "c", "d"]
SPANS = ["192.0.2.0/30", "192.0.2.4-192.0.2.6", "192.0.2.6-192.0.2.9", "192.0.2.254-192.0.3.1",
         "198.51.100.8/31", "198.51.100.10/32", "2001:db8::/126", "2001:db8::8-2001:db8::a"]
ASKED = ["192.0.2.1", "192.0.2.5", "198.51.100.10", "2001:db8::9", "203.0.113.1",
         "192.0.2.1,2001:db8::1", "x"]
UNMARKED = ["192.0.2.0", "192.0.2.1", "192.0.2.5", "203.0.113.9"]
DUAL = ["RequireDualStack", "PreferDualStack"]
PORTS = [("TCP", 80), ("TCP", 443), ("UDP", 53), ("TCP", 53)]
NODES = ["n1", "n2", "n3"]
CONFIG = ["IPAddressPool", "L2Advertisement", "BGPAdvertisement", "BGPPeer", "Community"]
SERVICE = BY_NAME["Service"]
Edit = Callable[[], object]


def custom(kind: str, name: str, spec: Json, **labels: str) -> Json:
    return {"apiVersion": BY_NAME[kind].api_version, "kind": kind,
            "metadata": {"name": name, "namespace": METALLB, "labels": labels}, "spec": spec}


def space(name: str, labels: dict[str, str]) -> Json:
    return {"apiVersion": "v1", "kind": "Namespace", "metadata": {"name": name, "labels": labels}}


def node(name: str, labels: dict[str, str]) -> Json:
    return {"apiVersion": "v1", "kind": "Node", "metadata": {"name": name, "labels": labels}}


class Users:
    """Edits of a store. With `speakers` they change endpoints, nodes' labels and advertisements
    too, with `asks_for_free` services ask for addresses that nobody has more often. `lb_class` is
    the class of most services, and none where it isn't given; the others are of other classes."""

    def __init__(self, store: Store, chance: random.Random, speakers: bool = False,
                 lb_class: str | None = None) -> None:
        self.store, self.random, self.lb_class = store, chance, lb_class
        self.speakers, self.asks_for_free, self.made = speakers, False, 0
        self.router_ports: dict[str, int] = {}  # where each router listens

    def flip(self, share: float) -> bool:
        return self.random.random() < share

    def services(self) -> dict[Key, Json]:
        return self.store.objects[SERVICE]

    def any_key(self) -> Key:
        return self.random.choice(list(SPACES)), self.random.choice(NAMES)

    def begin(self) -> None:
        """The namespaces, two pools, an advertisement of each kind, and some services, of which
        some have a record as MetalLB leaves it."""
        self.begin_spaces()
        self.store.put(custom("IPAddressPool", "p0", {"addresses": SPANS[:1]}))
        self.store.put(custom("IPAddressPool", "p1", {"addresses": [SPANS[5], SPANS[6]]}))
        self.store.put(custom("L2Advertisement", "l0", {}))
        self.store.put(custom("BGPAdvertisement", "b0", {}))
        for _ in range(self.random.randrange(20)):
            self.edit()
        for at, key in enumerate(list(self.services())):
            if self.flip(0.7):
                self.make([functools.partial(self.leave_record, at, key)])

    def begin_spaces(self) -> None:
        for name, labels in SPACES.items():
            self.store.put(space(name, labels))

    def leave_record(self, at: int, key: Key) -> None:
        """The service has an address without a mark. Some others have it too, and most of these
        may share it."""
        thing = copied(self.services()[key])
        if self.flip(0.8):
            protocol, port = PORTS[at % len(PORTS)]
            thing["metadata"].setdefault("annotations", {})[SHARED] = "k1"
            thing["spec"] |= {"type": "LoadBalancer", "externalTrafficPolicy": "Cluster",
                              "ports": [{"protocol": protocol, "port": port}]}
            self.store.update(SERVICE, key, thing)
        body = {"metadata": {"annotations": {FROM_POOL: self.random.choice(["p0", "p1", None])}},
                "status": {"loadBalancer": {"ingress": [{"ip": f"192.0.2.{at // len(PORTS)}"}]}}}
        self.store.patch(SERVICE, key, body, MERGE, True)

    def leave_unmarked(self) -> None:
        """A service of ours gets a record without a mark while all runs, as a controller of
        MetalLB's leaves it that was started by mistake."""
        with self.store.lock:
            ours = [key for key, thing in self.services().items() if is_balancer(thing)
                    and thing["spec"].get("loadBalancerClass") == self.lb_class]
            if ours:
                notes = {HELD_AS: None, FROM_POOL: self.random.choice(["p0", "p1", None])}
                ingress = [{"ip": self.random.choice(UNMARKED)}]
                body = {"metadata": {"annotations": notes},
                        "status": {"loadBalancer": {"ingress": ingress}}}
                self.store.patch(SERVICE, self.random.choice(ours), body, MERGE, True)

    # Edits; each is tried, and may be refused as a user's edit is

    def edit(self) -> None:
        edits: list[Edit] = [*8 * [self.set_service], *3 * [self.delete_service],
                             *2 * [self.set_pool], self.delete_pool, self.label_space,
                             self.want_taken, self.give_up]
        edits += [self.leave_unmarked] + [self.delete_space] * self.flip(0.2)
        edits += 8 * [self.want_free] * self.asks_for_free
        if self.speakers:
            edits += [*6 * [self.set_slice], *2 * [self.delete_slice], *2 * [self.label_node]]
            edits += [self.delete_node] * self.flip(0.3)
            edits += [*2 * [self.set_advertisement], self.set_peer]
        self.make(edits)

    def edit_services(self) -> None:
        """An edit behind which a service may be left waiting: no list begins anew for it, and no
        configuration is compiled."""
        edits: list[Edit] = [self.set_service, self.delete_service, *2 * [self.want_taken],
                             *2 * [self.give_up]]
        self.make([*edits, *4 * [self.want_free]] if self.asks_for_free else edits)

    def make(self, edits: Sequence[Edit]) -> None:
        try:
            self.random.choice(edits)()
            self.made += 1
        except Refused:
            pass

    def set_service(self) -> None:
        key = self.any_key()
        with self.store.lock:
            old = self.services().get(key)
            if old is None:
                self.store.create(SERVICE, key[0], self.service(key[1]))
            else:
                thing = copied(old)
                for change in self.random.sample(self.changes(), self.random.choice([1, 1, 2])):
                    change(thing)
                self.store.update(SERVICE, key, thing)
        if self.speakers and self.flip(0.5):
            self.slice_of(*key)

    def holders(self) -> dict[Key, Json]:
        """The services that have one address, as they are stored."""
        return {key: thing for key, thing in self.services().items()
                if len(record_of(thing).addresses) == 1}

    def want_taken(self) -> None:
        """A service asks for the address that another one has."""
        with self.store.lock:
            holders = list(self.holders().values())
            if holders:
                self.want(self.random.choice(holders))

    def want(self, holder: Json) -> None:
        address, = record_of(holder).addresses
        self.ask(self.any_key(), printed(address))

    def ask(self, key: Key, address: str) -> None:
        """A service asks for this address."""
        thing = copied(self.services().get(key)) or self.service(key[1])
        thing["metadata"].setdefault("annotations", {})[ADDRESSES] = address
        if "resourceVersion" in thing["metadata"]:
            self.store.update(SERVICE, key, thing)
        else:
            self.store.create(SERVICE, key[0], thing)

    def want_free(self) -> None:
        """A service asks for an address of a pool that nobody has."""
        with self.store.lock:
            taken = {one for thing in self.services().values()
                     for one in record_of(thing).addresses}
            pools = self.store.objects[BY_NAME["IPAddressPool"]].values()
            texts = [text for pool in pools for text in pool["spec"].get("addresses") or []]
            entries = [read for text in texts if (read := read_entry(text))]
            free = [(version, number) for version, low, high in entries
                    for number in range(low, high + 1) if (version, number) not in taken]
            if free:
                self.ask(self.any_key(), printed(self.random.choice(free)))

    def rival(self, key: Key, address: str) -> Key | None:
        """A new service that comes before this one in their order asks for the address that this
        one is about to have. Its key, where that can be."""
        namespace, name = key
        inside = [(namespace, one) for one in NAMES if one < name]
        before = inside or [(one, other) for one in SPACES if one < namespace for other in NAMES]
        with self.store.lock:
            held = self.services().get(key)
            if not before or held is None:
                return None
            chosen = before[0]
            metadata: Json = {"name": chosen[1], "annotations": {ADDRESSES: address},
                              "labels": held["metadata"].get("labels") or {}}
            new: Json = {"metadata": metadata, "spec": {"type": "LoadBalancer", "ports": [{
                "port": 80}], "selector": {"app": "web"}}}
            if self.lb_class:
                new["spec"]["loadBalancerClass"] = self.lb_class
            try:
                if chosen in self.services():
                    self.store.delete(SERVICE, chosen)
                self.store.create(SERVICE, chosen[0], new)
            except Refused:
                return None
            return chosen

    def give_up(self) -> None:
        """A service that has an address asks for what it can't have, so that the controller takes
        the address away; in half of the cases others ask for it before."""
        with self.store.lock:
            holders: list[Key | None] = [*self.holders()]
            key = self.random.choice(holders or [None])
            if key is None:
                return
            for _ in range(self.random.choice([0, 0, 2, 3])):
                self.want(self.holders()[key])
            if stored := self.holders().get(key):
                thing = copied(stored)
                name, value = self.random.choice([(POOL, "p9"), (ADDRESSES, "203.0.113.1"),
                                                  (ADDRESSES, "x")])
                thing["metadata"].setdefault("annotations", {})[name] = value
                self.store.update(SERVICE, key, thing)

    def service(self, name: str) -> Json:
        thing: Json = {"metadata": {"name": name}, "spec": {
            "type": "LoadBalancer", "selector": {"app": "web"}, "ports": self.ports()}}
        for change in self.changes()[:5]:
            if self.flip(0.25):
                change(thing)
        others = ["example.com/other", "example.com/class"]
        lb_class = self.lb_class if self.flip(0.85) else self.random.choice(others)
        if lb_class:
            thing["spec"]["loadBalancerClass"] = lb_class
        if self.flip(0.25):
            families = self.random.choice([["IPv6"], ["IPv4", "IPv6"], ["IPv6", "IPv4"]])
            policy = "SingleStack" if len(families) == 1 else self.random.choice(DUAL)
            thing["spec"] |= {"ipFamilies": families, "ipFamilyPolicy": policy}
        return thing

    def ports(self) -> list[Json]:
        chosen = self.random.sample(PORTS, self.random.choice([1, 1, 1, 2]))
        return [{"name": f"x{at}", "protocol": protocol, "port": port}
                for at, (protocol, port) in enumerate(chosen)]

    def note(self, thing: Json, name: str, values: Sequence[str | None]) -> None:
        """Sets an annotation to one of the values, or takes it away."""
        notes = thing["metadata"].setdefault("annotations", {})
        value = self.random.choice(values)
        if value is None:
            notes.pop(name, None)
        else:
            notes[name] = value

    def change_key(self, thing: Json) -> None:
        self.note(thing, SHARED, ["k1", "k1", "k2", None])

    def change_policy(self, thing: Json) -> None:
        thing["spec"]["externalTrafficPolicy"] = self.random.choice(["Cluster", "Local"])

    def change_pool(self, thing: Json) -> None:
        self.note(thing, POOL, ["p0", "p1", "p2", "p3", None, None, None])

    def change_asked(self, thing: Json) -> None:
        self.note(thing, ADDRESSES, [*ASKED, *7 * [None]])

    def change_labels(self, thing: Json) -> None:
        thing["metadata"]["labels"] = self.random.choice([{}, {"team": "a"}, {"team": "b"}])

    def change_ports(self, thing: Json) -> None:
        thing["spec"]["ports"] = self.ports()

    def change_type(self, thing: Json) -> None:
        types = ["LoadBalancer", "LoadBalancer", "ClusterIP", "NodePort"]
        thing["spec"]["type"] = self.random.choice(types)
        thing["spec"].pop("externalTrafficPolicy", None)

    def change_selector(self, thing: Json) -> None:
        thing["spec"]["selector"] = {"app": self.random.choice(["web", "db"])}

    def change_families(self, thing: Json) -> None:
        if len(thing["spec"].get("ipFamilies") or []) == 2:
            thing["spec"]["ipFamilyPolicy"] = self.random.choice(DUAL)

    def changes(self) -> list[Callable[[Json], None]]:
        return [self.change_key, self.change_policy, self.change_pool, self.change_asked,
                self.change_labels, self.change_ports, self.change_ports, self.change_type,
                self.change_type, self.change_selector, self.change_families]

    def delete_service(self) -> None:
        self.store.delete(SERVICE, self.any_key())

    def any_pool(self) -> str:
        return self.random.choice(["p0", "p1", "p2", "p3"])

    def set_pool(self) -> None:
        count = self.random.choice([1, 2, 2, 3])
        spec: Json = {"addresses": self.random.sample(SPANS, count)}
        if self.flip(0.2):
            spec["autoAssign"] = self.flip(0.3)
        if self.flip(0.3):
            spec["avoidBuggyIPs"] = True
        if self.flip(0.4):
            spec["serviceAllocation"] = self.allocation()
        labels = {"zone": self.random.choice("xy")}
        self.store.put(custom("IPAddressPool", self.any_pool(), spec, **labels))

    def allocation(self) -> Json:
        """Whom a pool serves."""
        told: Json = {"priority": self.random.choice([0, 10, 20])}
        if self.flip(0.5):
            told["namespaces"] = self.random.sample(list(SPACES), 2)
        if self.flip(0.3):
            told["namespaceSelectors"] = [{"matchLabels": {"tier": "front"}}]
        if self.flip(0.3):
            terms: list[Json] = [{"key": "team", "operator": "In", "values": ["a", "b"]},
                                 {"key": "team", "operator": "DoesNotExist"}]
            told["serviceSelectors"] = [{"matchExpressions": [self.random.choice(terms)]}]
        return told

    def delete_pool(self) -> None:
        self.store.delete(BY_NAME["IPAddressPool"], (METALLB, self.any_pool()))

    def label_space(self) -> None:
        name = self.random.choice(list(SPACES))
        labels = {"tier": self.random.choice(["front", "back"])} if self.flip(0.8) else {}
        self.store.put(space(name, labels))

    def delete_space(self) -> None:
        """A namespace goes with all that is in it."""
        names = [name for name in SPACES if name != "default"]
        self.store.delete(BY_NAME["Namespace"], ("", self.random.choice(names)))

    # What speakers go by

    def delete_slice(self) -> None:
        with self.store.lock:
            kind = BY_NAME["EndpointSlice"]
            if keys := list(self.store.objects[kind]):
                self.store.delete(kind, self.random.choice(keys))

    def delete_node(self) -> None:
        self.store.delete(BY_NAME["Node"], ("", self.random.choice(NODES)))

    def set_slice(self) -> None:
        self.slice_of(*self.any_key())

    def slice_of(self, namespace: str, name: str) -> None:
        endpoints = [{"addresses": [f"10.0.0.{at}"], "nodeName": one,
                      "conditions": {"ready": self.flip(0.9)}}
                     for at, one in enumerate(NODES) if self.flip(0.6)]
        metadata = {"name": name, "namespace": namespace,
                    "labels": {"kubernetes.io/service-name": name}}
        self.store.put({"apiVersion": "discovery.k8s.io/v1", "kind": "EndpointSlice",
                        "addressType": "IPv4", "endpoints": endpoints, "metadata": metadata})

    def label_node(self) -> None:
        labels = {"rack": self.random.choice("12")}
        if self.flip(0.15):
            labels["node.kubernetes.io/exclude-from-external-load-balancers"] = ""
        self.store.put(node(self.random.choice(NODES), labels))

    def set_advertisement(self) -> None:
        spec: Json = {}
        if self.flip(0.3):
            spec["ipAddressPools"] = self.random.sample(["p0", "p1", "p2", "p3"], 2)
        if self.flip(0.3):
            spec["ipAddressPoolSelectors"] = [{"matchLabels": {"zone": "x"}}]
        if self.flip(0.3):
            spec["nodeSelectors"] = [{"matchLabels": {"rack": self.random.choice("12")}}]
        kind, name = self.random.choice([("L2Advertisement", "l0"), ("L2Advertisement", "l1"),
                                         ("BGPAdvertisement", "b0"), ("BGPAdvertisement", "b1")])
        if kind == "BGPAdvertisement":
            if self.flip(0.3):
                texts = ["65535:65281", "64512:1", "large:64512:1:2"]
                spec["communities"] = self.random.sample(texts, 2)
            if self.flip(0.3):
                spec["aggregationLength"] = self.random.choice([30, 31])
            if self.flip(0.3):
                spec["aggregationLengthV6"] = self.random.choice([126, 127])
            if self.flip(0.3):
                spec["localPref"] = self.random.choice([100, 200])
        elif self.flip(0.2):
            spec["interfaces"] = [self.random.choice(["eth0", "eth1"])]
        if self.flip(0.1) and name.endswith("1"):
            self.store.delete(BY_NAME[kind], (METALLB, name))
        else:
            self.store.put(custom(kind, name, spec))

    def begin_speakers(self) -> None:
        """The nodes, and the routers as peers."""
        for name in NODES:
            self.store.put(node(name, {"rack": "1"}))
        for name in self.router_ports:
            self.put_peer(name, {"peerASN": 64513 if name == "q0" else 64512})

    def put_peer(self, name: str, spec: Json) -> None:
        known = {"myASN": 64512, "peerAddress": "127.0.0.1", "peerPort": self.router_ports[name]}
        self.store.put(custom("BGPPeer", name, {**known, **spec}))

    def peer_number(self, name: str) -> int:
        """The AS number of the router, which is always what the peer's object says."""
        found = self.store.objects[BY_NAME["BGPPeer"]].get((METALLB, name))
        return int(found["spec"]["peerASN"]) if found else 64513

    def set_peer(self) -> None:
        name = self.random.choice(list(self.router_ports))
        spec: Json = {"peerASN": self.random.choice([64512, 64513, 64514])}
        if self.flip(0.3):
            spec["nodeSelectors"] = [{"matchLabels": {"rack": self.random.choice("12")}}]
        if self.flip(0.2):
            self.store.delete(BY_NAME["BGPPeer"], (METALLB, name))
        else:
            self.put_peer(name, spec)

    # At the end of a round

    def objects(self) -> dict[str, dict[str, Json]]:
        """The objects of the configuration as they are, by kind and name."""
        with self.store.lock:
            return {kind: {key[1]: thing for key, thing
                           in self.store.objects[BY_NAME[kind]].items()} for kind in CONFIG}

    def mend(self) -> None:
        """Makes the configuration one that compiles: what is named as its fault is taken away,
        until there is none. Namespaces that are gone come back."""
        for name, labels in SPACES.items():
            if ("", name) not in self.store.objects[BY_NAME["Namespace"]]:
                self.store.put(space(name, labels))
        while not isinstance(fault := compiled(self.objects()), Config):
            self.store.delete(BY_NAME[fault[1]], (METALLB, fault[2]))
