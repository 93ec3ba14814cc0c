"""Judges of speakers: what stands announced at any moment, and, when all is still, who answers for
each address and what each router was told."""
import struct
from dataclasses import dataclass, field
from typing import Any

from kinds import BY_NAME
from lan import Lan
from lockstep import Run
from rules import Config, Sight, compiled, name_of, printed, selects_node
from store import Store
from users import CONFIG
from virtual import World
from wire import HOSTS, answer, question
from wire_judge import WireJudge

Json = dict[str, Any]
Way = tuple[str, str]
# Seconds for which two nodes that hear each other may both announce one address, of the same
# objects: a datagram comes each 0.3 s, two are needed to be heard again after a break, and a
# program takes its lines.
BOTH_ANNOUNCE = 2.0
# Seconds after which, of nodes that hear each other and were shown the same, while no other one
# runs, each announces what it is to: until a node is gone (1.5 s), or begins, having heard the
# others, and so many more until its program took note.
NOT_AS_MEANT = 5.0
# Seconds after which a program that stands still doesn't serve: a lane is probed after 20 s without
# a line, it is looked each second, and what isn't taken for 10 s shows it.
HANGS = 35.0
LISTS = {"IPAddressPool": CONFIG, "Service": ("Service",), "EndpointSlice": ("EndpointSlice",),
         "Node": ("Node",), "Namespace": ("Namespace",)}
SEEN = {*CONFIG, "Service", "EndpointSlice", "Node", "Namespace"}


def content_of(thing: Json) -> Json:
    """What a speaker may go by of an object: all but its version, which changes with what isn't
    shown to it."""
    metadata = {name: value for name, value in thing["metadata"].items()
                if name not in ("resourceVersion", "managedFields")}
    return {**thing, "metadata": metadata}


@dataclass
class Seen:
    """What a run was shown, and what it announces. `unlisted`: what lists that began anew haven't
    shown yet. `accepted`: the configuration that it was shown is in force; of one that is refused
    nodes may go by different ones before it."""
    node: str
    objects: dict[tuple[str, str, str], Json] = field(default_factory=dict)
    unlisted: set[tuple[str, str, str]] = field(default_factory=set)
    announced: set[str] = field(default_factory=set)
    changes: int = 0
    accepted: bool = False


class Air:
    def __init__(self, world: World, store: Store, lan: Lan, crew: Any,
                 hops: dict[str, dict[int, str]]) -> None:
        self.world, self.store, self.lan, self.crew, self.hops = world, store, lan, crew, hops
        self.seen: dict[Run, Seen] = {}
        self.since: dict[tuple[str, str, str], float] = {}
        self.group: tuple[Any, float, float] = (), 0.0, 0.0
        self.faults: list[str] = []
        self.asked = 0

    # What each run is given and writes

    def given(self, run: Run, event: Json) -> None:
        seen = self.seen.setdefault(run, Seen(run.process.machine.name))
        thing = event.get("object") or {}
        kind = thing.get("kind", "")
        if event["type"] == "ERROR":
            seen.unlisted = set(seen.objects)
        elif event["type"] == "BOOKMARK":
            notes = thing["metadata"].get("annotations") if "metadata" in thing else None
            if notes and "k8s.io/initial-events-end" in notes:
                for key in [key for key in seen.unlisted if key[0] in LISTS.get(kind, ())]:
                    seen.objects.pop(key, None)
                    seen.unlisted.discard(key)
                    seen.changes += 1
        elif kind in SEEN:
            key = kind, thing["metadata"].get("namespace", ""), thing["metadata"]["name"]
            seen.unlisted.discard(key)
            before = seen.objects.get(key)
            if event["type"] == "DELETED":
                seen.objects.pop(key, None)
            else:
                seen.objects[key] = content_of(thing)
            seen.changes += seen.objects.get(key) != before

    def written(self, run: Run, value: Json) -> None:
        seen = self.seen.setdefault(run, Seen(run.process.machine.name))
        if value["op"] == "announce":
            seen.announced.add(value["address"])
        elif value["op"] == "withdraw":
            seen.announced.discard(value["address"])
        elif value["op"] == "config":
            seen.accepted = value["result"] == "accepted"
            seen.changes += 1

    def ended(self, run: Run) -> None:
        self.seen.pop(run, None)

    # At any moment

    def look(self) -> None:
        """Notes since when two nodes that hear each other, and were shown the same, both announce
        an address."""
        runs = [(run, seen) for run, seen in self.seen.items()
                if not run.over and not run.frozen and not run.process.dead]
        self.look_at_all(runs)
        before, self.since = self.since, {}
        for at, (one, first) in enumerate(runs):
            for two, second in runs[at + 1:]:
                both = first.announced & second.announced
                if both and self.is_heard(one, two) and same(first, second):
                    for address in sorted(both):
                        key = first.node, second.node, address
                        self.since[key] = since = before.get(key, self.world.now)
                        if self.world.now - since > BOTH_ANNOUNCE:
                            self.faults.append(
                                f"BOTH {key[0]} and {key[1]} announce {address} for "
                                f"{self.world.now - since:.1f} s, though they hear each other")

    def look_at_all(self, runs: list[tuple[Run, Seen]]) -> None:
        """Where all nodes that run hear each other, and were shown the same for some time, each
        announces what it is to."""
        first = runs[0][1] if runs else None
        hang = {run.process for run in self.seen if run.frozen and not run.over
                and self.world.now - run.stands_since > HANGS}
        running = {run.process for run, _ in runs}
        all_run = running == set(self.crew.bridges) - hang and len(runs) > 1
        if first is None or not all_run or not all(
                same(first, seen) and self.is_heard(runs[0][0], run) for run, seen in runs):
            self.group = (), 0.0, 0.0
            return
        pairs = ((one, two) for at, (one, _) in enumerate(runs) for two, _ in runs[at + 1:])
        is_heard = all(self.is_heard(one, two) for one, two in pairs)
        state = tuple(run for run, _ in runs), is_heard, first.changes
        now, before = self.world.now, self.group
        since = before[1] if before[0] == state else now
        if is_heard and now - since > NOT_AS_MEANT and now >= before[2]:
            self.judge_all(runs)
            self.group = state, since, now + 1.0
        else:
            self.group = state, since, before[2]

    def judge_all(self, runs: list[tuple[Run, Seen]]) -> None:
        sight = sight_of(runs[0][1], sorted(seen.node for _, seen in runs))
        if sight is None:
            return
        for address in sorted(sight.addresses()):
            text, meant = printed(address), sight.announcer(address)
            found = sorted(seen.node for _, seen in runs if text in seen.announced)
            if found != [meant] * (meant is not None):
                self.faults.append(f"ANNOUNCED {text} by {' and '.join(found) or 'nobody'}, though "
                                   f"{meant or 'nobody'} is to for {NOT_AS_MEANT:.0f} s")

    def is_heard(self, one: Run, two: Run) -> bool:
        """Whether each of both hears the other, as far as the network goes."""
        names = one.process.machine.name, two.process.machine.name
        is_still = any(run.process.stands() for run in (one, two))
        return not is_still and not self.lan.loss and not {names, names[::-1]} & self.lan.cut

    # When all is still

    def ask(self) -> bytes:
        """A new neighbor asks each node for each address."""
        self.asked += 1
        neighbor: bytes = HOSTS + struct.pack(">I", self.asked)[1:]
        for address in sorted(self.sight().addresses()):
            for link in self.lan.links.values():
                link.arrive(question(address, neighbor))
        return neighbor

    def sight(self) -> Sight:
        """What each speaker must have been shown when all is still."""
        stored = {kind: {key[1]: thing for key, thing in self.store.objects[BY_NAME[kind]].items()}
                  for kind in (*CONFIG, "Node")}
        services, slices = (list(self.store.objects[BY_NAME[kind]].values())
                            for kind in ("Service", "EndpointSlice"))
        config = compiled(stored)
        if not isinstance(config, Config):
            raise ValueError(f"a configuration with a fault is stored: {config}")
        return Sight(config, services, slices, stored["Node"], sorted(self.hops))

    def left(self, neighbor: bytes) -> list[str]:
        """What isn't as it must be, a line each: for each address one node answers, the one that is
        to, and each router has the routes of each node."""
        sight = self.sight()
        return [*self.wrong_answers(sight, neighbor), *self.wrong_routes(sight)]

    def wrong_answers(self, sight: Sight, neighbor: bytes) -> list[str]:
        lines = []
        for address in sorted(sight.addresses()):
            for node, link in self.lan.links.items():
                hardware = bytes.fromhex(link.hardware.replace(":", ""))
                count = link.sent.count(answer(address, hardware, neighbor))
                wanted = int(sight.listens(address, node, link.name))
                if count != wanted:
                    lines.append(f"ANSWERS {node} answers {count} times for {printed(address)}, "
                                 f"which {sight.announcer(address) or 'nobody'} is to announce")
        return lines

    def wrong_routes(self, sight: Sight) -> list[str]:
        lines = []
        routers = {router.name: router for router in self.lan.routers.values()}
        for peer in sight.config.peers:
            for node, hops in self.hops.items():
                tables = routers[name_of(peer)].tables(hops[4])
                if not selects_node(peer, sight.labels(node)):
                    lines += [f"SESSION {node} with {name_of(peer)}"] if tables else []
                    continue
                wanted = WireJudge.table(sight, node, hops, peer)
                if tables != [wanted]:
                    lines.append(f"ROUTES {node} to {name_of(peer)}: {tables}, and they must be "
                                 f"{wanted}")
        return lines


def sight_of(seen: Seen, members: list[str]) -> Sight | None:
    """What a run was shown, with these members; nothing where its configuration has a fault."""
    things: dict[str, dict[str, Json]] = {kind: {} for kind in (*CONFIG, "Node")}
    services, slices = [], []
    for (kind, _, name), thing in seen.objects.items():
        if kind in things:
            things[kind][name] = thing
        elif kind == "Service":
            services.append(thing)
        elif kind == "EndpointSlice":
            slices.append(thing)
    config = compiled(things)
    return Sight(config, services, slices, things["Node"], members) \
        if isinstance(config, Config) else None


def same(one: Seen, two: Seen) -> bool:
    """Whether both were shown the same, and all of it, and go by that."""
    is_whole = one.accepted and two.accepted and not one.unlisted and not two.unlisted
    return is_whole and one.objects == two.objects
