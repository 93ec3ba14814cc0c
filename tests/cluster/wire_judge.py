"""Judges what speakers do by the wire alone, once all is still: who answers for each address, who
told of it unasked, and each peer's routes."""
from __future__ import annotations

import time
from collections.abc import Callable, Collection, Mapping

from followed import Followed
from kinds import BY_NAME, Json
from rules import Address, Config, Sight, compiled, name_of, printed, selects_node
from store import Store
from wire import Links, Router, answer, question, unasked
from route_readers import Route, Table, route  # by the path that wire adds

CONFIG = ("IPAddressPool", "L2Advertisement", "BGPAdvertisement", "BGPPeer", "Community")
LAST_ASKED = (4, 0xC6120001)  # an address that no pool has
# Seconds in which all speakers must take note of the last question, and until it is asked once more
PATIENCE, ASKED_AGAIN = 30.0, 1.0
# Of each node its next hops by the version of the routes, and each interface's hardware address
Running = dict[str, tuple[dict[int, str], dict[str, bytes]]]


class WireJudge:
    """`nodes` tells which speakers run; `followed` how far each has come (followed.py)."""

    def __init__(self, store: Store, links: Links, routers: Mapping[str, Router],
                 nodes: Callable[[], Running], followed: Callable[[], Mapping[str, Followed]],
                 lb_class: str | None = None) -> None:
        self.store, self.links, self.routers, self.nodes = store, links, routers, nodes
        self.followed, self.lb_class, self.asked = followed, lb_class, 0
        self.seen, self.host = self.sight(), b""
        self.addresses: list[Address] = []

    def sight(self) -> Sight:
        """What each speaker must have been shown when all is still."""
        with self.store.lock:
            by_name = {kind: {key[1]: thing for key, thing
                              in self.store.objects[BY_NAME[kind]].items()}
                       for kind in (*CONFIG, "Node")}
            services, slices = (list(self.store.objects[BY_NAME[kind]].values())
                                for kind in ("Service", "EndpointSlice"))
        read = compiled(by_name)
        config = read if isinstance(read, Config) else Config([], [], [], [], {})
        return Sight(config, services, slices, by_name["Node"], sorted(self.nodes()),
                     self.lb_class)

    def left(self) -> list[str]:
        """What isn't as it must be behind `ask`, a line each."""
        return self.wrong_answers() + self.untold() + self.wrong_routes()

    def ask(self) -> list[str]:
        """A new neighbor asks each node for each address, and last for one that nobody has: who
        took note of that has answered the others. The nodes whose speakers don't take note."""
        self.seen, self.host = self.sight(), self.links.neighbor()
        self.addresses = sorted(self.seen.addresses()
                                | {(4, 0xC0000201), (6, 0x20010DB8 << 96)})
        for address in self.addresses:
            self.links.ask(question(address, self.host))
        self.asked += len(self.addresses)
        return self.deaf_to(question(LAST_ASKED, self.host))

    def wrong_answers(self) -> list[str]:
        sight, addresses, host = self.seen, self.addresses, self.host
        wanted = {(f"{node}-{interface}", answer(address, hardware, host)): address
                  for address in addresses for node, (_, interfaces) in self.nodes().items()
                  for interface, hardware in interfaces.items()
                  if sight.listens(address, node, interface)}
        self.links.flush()
        got = self.links.answered(host)
        lines = [f"ANSWERED {link}: {self.text_of(frame, addresses)} is announced by "
                 f"{self.announcer(sight, frame, addresses)}: {frame.hex()}"
                 for link, frame in got if (link, frame) not in wanted]
        lines += [f"SILENT {link} for {printed(address)}"
                  for (link, frame), address in wanted.items() if (link, frame) not in got]
        return lines + [f"TWICE {link}: {frame.hex()}" for link, frame in set(got)
                        if got.count((link, frame)) > 1]

    def deaf_to(self, last: bytes) -> list[str]:
        """Asks the last question, and waits until each speaker took note of it by each interface.
        The nodes whose speakers don't."""
        followed, until = self.followed(), time.monotonic() + PATIENCE
        deaf = list(followed)
        for one in followed.values():
            one.ask(last)
        while deaf and time.monotonic() < until:
            self.links.ask(last)
            again = time.monotonic() + ASKED_AGAIN
            for node, one in followed.items():
                interfaces = set(self.nodes()[node][1])
                with one.news:
                    one.news.wait_for(lambda: interfaces <= one.asked,
                                      max(0, again - time.monotonic()))
            deaf = [node for node, one in followed.items()
                    if not set(self.nodes()[node][1]) <= one.asked]
        return deaf

    @staticmethod
    def address_in(frame: bytes, addresses: Collection[Address]) -> Address | None:
        octets = frame[28:32] if frame[12:14] == b"\x08\x06" else frame[62:78]
        return next((one for one in addresses if one[1] == int.from_bytes(octets, "big")), None)

    def text_of(self, frame: bytes, addresses: Collection[Address]) -> str:
        found = self.address_in(frame, addresses)
        return printed(found) if found else "an address that nobody asked for"

    def announcer(self, sight: Sight, frame: bytes, addresses: Collection[Address]) -> str:
        found = self.address_in(frame, addresses)
        return (found and sight.announcer(found)) or "none"

    def untold(self) -> list[str]:
        """Addresses of which their announcer has told nobody since it began, by an interface on
        which it listens for them."""
        lines, nodes = [], self.nodes()
        for address in self.addresses:
            node = self.seen.announcer(address)
            for interface, hardware in nodes[node][1].items() if node else ():
                with self.links.lock:
                    told = self.links.told.get(f"{node}-{interface}", set())
                is_told = unasked(address, hardware) in told
                if node and self.seen.listens(address, node, interface) and not is_told:
                    lines.append(f"UNTOLD {printed(address)} by {node}-{interface}")
        return lines

    def wrong_routes(self) -> list[str]:
        lines, sight = [], self.seen
        for peer in sight.config.peers:
            name = name_of(peer)
            for node, (hops, _) in self.nodes().items():
                tables = self.routers[name].tables(hops[4])
                if not selects_node(peer, sight.labels(node)):
                    told = f"SESSION {node} with {name}, which doesn't select it"
                    lines += [told] if tables else []
                    continue
                wanted = self.table(sight, node, hops, peer)
                if tables != [wanted]:
                    lines.append(f"ROUTES {node} to {name}: {tables}, and they must be {wanted}")
        return lines

    @staticmethod
    def table(sight: Sight, node: str, hops: Mapping[int, str], peer: Json) -> Table:
        inside = peer["spec"]["myASN"] == peer["spec"]["peerASN"]
        path = [] if inside else [peer["spec"]["myASN"]]
        told: dict[str, Route] = {}
        for prefix, (version, communities, large, preference) in sight.routes(node, peer).items():
            told[prefix] = route(hops[version], path, preference, sorted(communities),
                                 sorted(large))
        return told
