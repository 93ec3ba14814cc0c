"""What goes wrong: each trouble has a time, a kind and a seed of its own, so that one can be left
out without changing the others; or it is written, with what it says in place of the seed."""
import contextlib
import sys
from collections.abc import Callable, Sequence
from random import Random
from typing import TYPE_CHECKING, Any, NamedTuple

from kinds import BY_NAME
from loops import Machine, Process
from rules import POOL
from servers import Fate, Plan
from store import MERGE, Refused
from users import METALLB, custom, space

if TYPE_CHECKING:
    from history import History
    from lockstep import Run

REQUESTS = ("reset", "lost", "slow", "error", "stored", "mute", "held", "resent")
LONGEST = 300.0  # seconds of a trouble
LENGTHS = (0.5, 1.5, 5.0, 15.0, 50.0, 150.0, LONGEST)
CUTS = (0.5, 1.5, 1.5, 5.0, 5.0, 15.0, 15.0, 50.0, LONGEST)  # those for which one is cut off
# Times the mean between two troubles. (No logarithm: its last bit may be another elsewhere.)
GAPS = (0.05, 0.2, 0.5, 1.0, 1.5, 2.75)
PACES, EDITS = (0.7, 2.0, 6.0, 20.0), (0.2, 0.5, 0.8, 0.95)
# Those where somebody is killed all the time: a controller lives for some seconds from when it took
# the Lease, in which it lists and puts.
DENSE, FEWER, OFTEN = (0.7, 1.5, 3.0), (0.2, 0.4, 0.6), 0.85
ENDS = ("kill", "crash", "kill", "cut", "crash")
WATCHES = ("break", "expire", "mute")
BOTH = (("up", "down"), ("up", "down"), ("up",), ("down",))
STRIKES = ("kill", "cut", "pause", "off", "crash", "expire", "leave")
KINDS = ["kill", "crash", "freeze", "pause", "suspend", "clock", "off", "roll", "cut", "down",
         "stale", "storm", "watches", "silence", "compact", "webhook", "strip", "lease", "gone",
         "pools", "contest", "rush"]
GONE = 0.85  # of a history's time, before which nobody deletes the Lease: nothing is done after
PUT_FAULTS = (*["held"] * 6, *["lost", "stored", "resent", "reset", "slow", "mute"] * 2, None)
SPACES = ("default", "team-a", "team-b")
Said = dict[str, Any]
Key = tuple[str, str]


class Trouble(NamedTuple):
    at: float
    kind: str
    how: int | Said  # the seed of what is drawn of it, or what is written of it


def drawn(random: Random, seconds: float, kinds: list[str],
          has_edits: bool = True) -> list[Trouble]:
    """The troubles of a history, in their order. Of each history some kinds are chosen, so that
    each may come in crowds, and alone; in half of them requests go wrong, in half of them services
    contend, at the last just before all ceases, and in most of them half of what isn't an edit is
    that somebody is killed or cut off."""
    chosen, is_dense = random.sample(kinds, random.randint(1, min(6, len(kinds)))), False
    if "storm" in kinds and random.random() < 0.5:
        chosen += ["storm"] * len(chosen)
    if "contest" in kinds and random.random() < 0.5:
        chosen += ["contest"] * len(chosen)
    if random.random() < OFTEN and set(ENDS) & set(kinds):
        chosen += ([kind for kind in ENDS if kind in kinds] * len(chosen))[:3 * len(chosen) // 2]
        is_dense = True
    pace = random.choice(DENSE if is_dense else PACES)
    edits = random.choice(FEWER if is_dense else EDITS) * has_edits
    at, found = 0.0, []
    while (at := at + pace * random.choice(GAPS) * random.uniform(0, 2)) < seconds:
        is_edit = random.random() < edits
        kind = random.choice(("edit", "edit", "edit", "burst") if is_edit else chosen)
        if kind != "gone" or at > GONE * seconds:
            found.append(Trouble(at, kind, random.getrandbits(32)))
    if "contest" in kinds and random.random() < 0.5:
        found.append(Trouble(max(at, seconds - random.uniform(1, 60)), "contest",
                             random.getrandbits(32)))
    return sorted(found)


def contested(number: int) -> Said:
    """A pool of one address, which those have that ask for it."""
    return custom("IPAddressPool", f"x{number}", {"addresses": [f"203.0.113.{number}/32"],
                                                  "autoAssign": False})


def balancer(key: Key, notes: dict[str, str], port: int = 80) -> Said:
    """A service of type LoadBalancer with these annotations."""
    return {"apiVersion": "v1", "kind": "Service",
            "metadata": {"namespace": key[0], "name": key[1], "annotations": notes},
            "spec": {"type": "LoadBalancer", "selector": {"app": key[1]},
                     "ports": [{"protocol": "TCP", "port": port}]}}


def key_of(said: Said) -> Key:
    """The service that a written trouble is about."""
    return said.get("namespace", SPACES[0]), said["name"]


def length(random: Random, lengths: Sequence[float] = LENGTHS) -> float:
    """Seconds, from less than one to five minutes."""
    return random.choice(lengths) * random.uniform(0.5, 1)


class Harm:
    """Does what a trouble says. `without` has the faults of requests and watches that don't come.
    """

    def __init__(self, history: "History", without: frozenset[str]) -> None:
        self.history, self.world, self.without = history, history.world, without
        self.struck: Process | None = None
        self.stretch = 1.0
        self.counts: dict[str, int] = {}
        history.weather.strike = self.strike

    def __call__(self, trouble: Trouble) -> None:
        self.counts[trouble.kind] = self.counts.get(trouble.kind, 0) + 1
        self.world.note("trouble", f"{trouble.kind} {trouble.how}")
        if isinstance(trouble.how, int):
            getattr(self, trouble.kind)(Random(trouble.how))
        else:
            getattr(self, f"said_{trouble.kind}")(trouble.how)

    def a_bridge(self, random: Random) -> Process | None:
        if self.struck and not self.struck.dead:
            return self.struck
        bridges = self.history.operator.bridges
        if (holder := self.history.holder()) and random.random() < 0.8:
            return holder
        return random.choice(bridges) if bridges else None

    def is_early(self, random: Random) -> bool:
        """Whether the next one is to be let take the Lease over first."""
        return not self.struck and self.history.is_vacant() and random.random() < 0.7

    # Users

    def edit(self, random: Random) -> None:
        users = self.history.users
        if self.history.is_calm:
            return
        users.random = random
        if random.random() < 0.5:
            users.edit_services()
        else:
            users.edit()

    def burst(self, random: Random) -> None:
        for _ in range(random.randrange(2, 12)):
            self.world.after(random.uniform(0, 1), self.edit, Random(random.getrandbits(32)))

    def pools(self, random: Random) -> None:
        """All pools are deleted, and made anew a while later; or never, where nothing is kept back
        for that."""
        if self.history.is_calm:
            return
        pools = dict(self.history.store.objects[BY_NAME["IPAddressPool"]])
        for namespace, name in pools:
            self.history.store.delete(BY_NAME["IPAddressPool"], (namespace, name))
        if not self.history.is_guarded and random.random() < 0.5:
            return
        pause = length(random) / 3
        for pool in pools.values():
            self.world.after(pause, self.make_pool, {**pool, "metadata": {
                "namespace": pool["metadata"]["namespace"], "name": pool["metadata"]["name"]}})

    def rush(self, random: Random) -> None:
        """All pools are deleted just when a service was given an address, which isn't shown yet,
        since all servers are behind."""
        number = random.randrange(6)
        self.tried(self.history.store.put, contested(number))
        for server in self.history.servers:
            server.lag = random.choice((3, 30))
            self.world.after(40.0, setattr, server, "lag", 0.0)
        key = random.choice(SPACES), f"z{number}"
        self.unmake(key)
        self.world.after(random.uniform(0, 60), self.wants, key, f"x{number}")
        self.world.after(random.uniform(0, 60), self.pools, random)

    def contest(self, random: Random) -> None:
        """Two services want one address. The put of the first one meets with a fault, and soon
        something befalls the bridge that sent it; a webhook may be down then, and somebody may edit
        the service, or delete it and make it anew."""
        number = random.randrange(6)
        one, two = random.choice(SPACES), random.choice(SPACES)
        if random.random() < 0.7:  # the second one comes before the first in their order
            one, two = max(one, two), min(one, two)
        first, second = (one, f"z{number}"), (two, random.choice((f"b{number}", f"b{number}",
                                                                  f"zz{number}")))
        for key in (first, second):
            self.unmake(key)
        self.tried(self.history.store.put, contested(number))
        self.history.weather.plans[first] = Plan(
            random.choice(PUT_FAULTS), length(random) * random.choice((1, 3)),
            random.random() < 0.8, random.choice((0.0, 0.0, 0.1, 2.0, 10.0)) * random.random(),
            lambda: self.contend(first, random))
        self.wants(first, f"x{number}")
        self.world.after(random.choice((0.0, 1.0, 20.0, 120.0)) * random.random(), self.wants,
                         second, f"x{number}")

    def contend(self, key: Key, random: Random) -> None:
        """What happens while the put of a contest is out."""
        after = self.world.after
        if random.random() < 0.25 and "webhook" not in self.without:
            after(random.uniform(0, 1), self.close_to, key[0], random.uniform(5, 200))
        if random.random() < 0.2:
            after(length(random) / 3, self.touch, key)
        elif random.random() < 0.2:
            pause = length(random) / 3
            after(pause, self.unmake, key)
            after(pause + random.choice((0.0, 1.0, 60.0)) * random.random(), self.wants, key,
                  f"x{key[1][1:]}")

    def close_to(self, namespace: str, seconds: float) -> None:
        """A webhook for the services of the namespace is down."""
        if not self.history.is_calm:
            self.world.note("trouble", f"a webhook is down for {namespace}")
            weather = self.history.weather
            weather.webhook = namespace
            self.world.after(seconds, setattr, weather, "webhook", None)

    def wants(self, key: Key, pool: str) -> None:
        """The service is there, and asks for that pool."""
        self.tried(self.history.store.put, balancer(key, {POOL: pool}))

    def unmake(self, key: Key) -> None:
        self.tried(self.history.store.delete, BY_NAME["Service"], key)

    def touch(self, key: Key) -> None:
        """A user edits the service in something that no program reads."""
        labels = {"metadata": {"labels": {"edit": str(self.history.store.version)}}}
        self.tried(self.history.store.patch, BY_NAME["Service"], key, labels, MERGE)

    def tried(self, edit: Callable[..., object], *args: object) -> None:
        """A user's edit, which may be refused."""
        if not self.history.is_calm:
            with contextlib.suppress(Refused):
                edit(*args)

    def make_pool(self, pool: Said) -> None:
        if not self.history.is_calm:
            self.history.store.put(pool)

    # Processes and machines

    def kill(self, random: Random) -> None:
        if self.is_early(random):
            return
        if bridge := self.a_bridge(random):
            bridge.fuse = random.choice((0, 10, 100, 1000)) * random.random() // 1

    def crash(self, random: Random) -> None:
        bridge = None if self.is_early(random) else self.a_bridge(random)
        runs = [run for run in self.history.operator.runs if not run.over]
        if run := next((run for run in runs if run.process is bridge), None):
            self.world.after(random.choice((0, 0.01, 1)) * random.random(), run.crash)

    def freeze(self, random: Random) -> None:
        for run in [run for run in self.history.operator.runs if not run.over]:
            run.freeze()
            self.world.after(length(random), self.thaw, run)

    def thaw(self, run: "Run") -> None:
        run.thaw()

    def pause(self, random: Random) -> None:
        if bridge := self.a_bridge(random):
            bridge.pause()
            self.world.after(min(LONGEST, length(random) * self.stretch), bridge.resume)

    def suspend(self, random: Random) -> None:
        """A machine stands still, with its clock that isn't of the day."""
        if bridge := self.a_bridge(random):
            bridge.machine.suspend()
            self.world.after(length(random), self.go_on, bridge.machine)

    def go_on(self, machine: Machine) -> None:
        machine.go_on()
        for bridge in self.history.operator.bridges:
            bridge.wake()

    def clock(self, random: Random) -> None:
        machine = random.choice(self.history.machines)
        machine.offset += random.choice((-3600, -60, -1, 1, 60, 3600)) * random.random()

    def off(self, random: Random) -> None:
        if bridge := self.a_bridge(random):
            self.turn_off(bridge, length(random))

    def turn_off(self, bridge: Process, seconds: float) -> None:
        operator, machine = self.history.operator, bridge.machine
        self.world.note(machine.name, "off")
        operator.power_off(machine)
        self.world.after(seconds, operator.off.discard, machine.name)

    def roll(self, _random: Random) -> None:
        self.history.operator.roll()

    def leave(self, random: Random) -> None:
        """A bridge is told to end."""
        if bridge := self.a_bridge(random):
            self.history.operator.stop(bridge)

    def expire(self, random: Random) -> None:
        """The watches of services that a bridge has expire, soon."""
        if bridge := self.a_bridge(random):
            pause = random.choice((0, 0.1, 10)) * random.random()
            for server in self.history.servers:
                self.world.after(pause, server.expire, bridge)

    def silence(self, random: Random) -> None:
        """No watch of a bridge tells anything more, and none ends."""
        if bridge := self.a_bridge(random):
            for server in self.history.servers:
                server.silence(bridge)

    def gone(self, _random: Random) -> None:
        """Somebody deletes the Lease, which nobody may: its names are lost. It is made anew once
        nothing is under way any more."""
        self.history.delete_lease()

    def lease(self, random: Random) -> None:
        """Somebody takes the Lease away from its holder, as a user may: its names stay."""
        self.history.take_lease("" if random.random() < 0.5 else "somebody")

    # The network and the servers

    def cut(self, random: Random) -> None:
        if self.is_early(random):
            return
        bridge = self.a_bridge(random)
        machine = bridge.machine if bridge else random.choice(self.history.machines)
        names = [server.name for server in self.history.servers]
        names = names if self.struck or random.random() < 0.8 else names[:1]
        ways = {(name, way) for name in names for way in random.choice(BOTH)}
        self.cut_off(machine, ways, min(LONGEST, length(random, CUTS) * self.stretch))

    def cut_off(self, machine: Machine, ways: set[tuple[str, str]], seconds: float) -> None:
        is_felt = any(bridge.machine is machine for bridge in self.history.operator.bridges)
        self.world.counts["cuts"] += is_felt and not ways <= machine.cut
        self.world.note(machine.name, f"cut off: {sorted(ways)}")
        machine.cut |= ways
        self.world.after(seconds, self.mend, machine, ways)

    def mend(self, machine: Machine, ways: set[tuple[str, str]]) -> None:
        self.world.note(machine.name, "reached again")
        machine.cut -= ways

    def down(self, random: Random) -> None:
        server = random.choice(self.history.servers)
        if server.up:
            server.crash()
            self.world.after(length(random), server.recover)

    def stale(self, random: Random) -> None:
        server = random.choice(self.history.servers)
        server.lag = random.choice((0.3, 3, 30))
        self.world.after(length(random), setattr, server, "lag", 0.0)

    def storm(self, random: Random) -> None:
        """Some kinds of faults of requests."""
        kinds = [kind for kind in REQUESTS if kind not in self.without]
        if kinds:
            share = random.choice((0.1, 0.3, 0.6))
            chosen = random.sample(kinds, random.randint(1, min(3, len(kinds))))
            weather = self.history.weather
            weather.shares = {kind: share / len(chosen) for kind in chosen}
            weather.strikes = random.choice((0.0, 0.5, 0.9))
            self.world.after(random.uniform(5, 150), setattr, weather, "shares", {})

    def strike(self, process: Process, random: Random) -> None:
        """Something befalls a process whose request has just gone wrong."""
        if not self.history.is_calm:
            kind = random.choice([kind for kind in STRIKES if kind not in self.without] or ["kill"])
            self.stretch = random.choice((1.0, 1.0, 100.0))  # so that some outlast every wait
            self.world.note("trouble", f"{kind} of {process.name} while its request is out")
            self.counts[f"{kind} at a request"] = self.counts.get(f"{kind} at a request", 0) + 1
            self.struck = process
            getattr(self, kind)(random)
            self.struck, self.stretch = None, 1.0

    def watches(self, random: Random) -> None:
        share = random.choice((0.02, 0.1))
        weather = self.history.weather
        weather.watches = {kind: share / len(WATCHES) for kind in WATCHES}
        self.world.after(length(random) / 3, setattr, weather, "watches", {})

    def compact(self, random: Random) -> None:
        store = self.history.store
        store.history = 3
        self.world.after(min(8.0, length(random) / 5), setattr, store, "history", 1000)

    def webhook(self, random: Random) -> None:
        """A webhook for the services of one namespace is down. In half of the cases it stays so."""
        weather = self.history.weather
        weather.webhook = random.choice(SPACES)
        if random.random() < 0.5:
            self.world.after(length(random), setattr, weather, "webhook", None)

    def strip(self, random: Random) -> None:
        """A webhook takes each change of a service of one namespace out, or the marks alone."""
        weather, what = self.history.weather, random.choice(("strips", "unmarks"))
        setattr(weather, what, random.choice(SPACES))
        self.world.after(length(random), setattr, weather, what, None)

    # What a written history says

    def named(self, said: Said) -> Process | None:
        """The bridge of that number."""
        name = f"bridge{said['bridge']}"
        return next((one for one in self.history.operator.bridges if one.name == name), None)

    def said_make(self, said: Said) -> None:
        self.history.store.put(said["object"])

    def said_space(self, said: Said) -> None:
        self.history.store.put(space(said["name"], said.get("labels", {})))

    def said_pool(self, said: Said) -> None:
        spec = {"addresses": [said["addresses"]], **said.get("spec", {})}
        self.history.store.put(custom("IPAddressPool", said["name"], spec))

    def said_service(self, said: Said) -> None:
        self.history.store.put(balancer(key_of(said), said.get("notes", {}), said.get("port", 80)))

    def said_give(self, said: Said) -> None:
        """A service has an address, as a controller of MetalLB's leaves it."""
        body = {"metadata": {"annotations": said.get("notes", {})},
                "status": {"loadBalancer": {"ingress": [{"ip": said["address"]}]}}}
        self.history.store.patch(BY_NAME["Service"], key_of(said), body, MERGE, True)

    def said_delete(self, said: Said) -> None:
        kind, namespace = BY_NAME[said["kind"]], said.get("namespace", METALLB)
        self.history.store.delete(kind, (namespace, said["name"]))

    def said_meet(self, said: Said) -> None:
        """The next requests for `what` meet with this fault, or all for as long as it `lasts`."""
        plan = Plan(said["fault"], said.get("seconds"), status=said.get("status"),
                    retry_after=said.get("retry_after"))
        times = sys.maxsize if "lasts" in said else said.get("times", 1)
        by = f"bridge{said['bridge']}" if "bridge" in said else None
        fate = Fate(said["what"], plan, times, said.get("name"), said.get("of"), by)
        self.history.weather.fates.append(fate)
        if "lasts" in said:
            self.world.after(said["lasts"], setattr, fate, "times", 0)

    # And what must be by then

    def said_has(self, said: Said) -> None:
        """The service has an address: that one, where one is named."""
        service = self.history.store.objects[BY_NAME["Service"]].get(key_of(said), {})
        ingress = ((service.get("status") or {}).get("loadBalancer") or {}).get("ingress") or []
        found = [one.get("ip") for one in ingress]
        if not found or said.get("address", found[0]) not in found:
            wanted = said.get("address", "an address")
            self.history.faults.append(f"LATE {'/'.join(key_of(said))} has {found} by "
                                       f"{self.world.now:.0f} s, and is to have {wanted}")

    def said_told(self, said: Said) -> None:
        """The bridge told the operator of it."""
        if not any(name == f"bridge{said['bridge']}" and said["text"] in text
                   for name, text in self.world.told):
            self.history.faults.append(f"UNTOLD bridge{said['bridge']} says nothing of "
                                       f"\"{said['text']}\" by {self.world.now:.0f} s")

    def said_most(self, said: Said) -> None:
        """In the next seconds no more than so many requests for `what` are made."""
        before, what = self.history.weather.asked[said["what"]], said["what"]

        def look() -> None:
            if (count := self.history.weather.asked[what] - before) > said["count"]:
                self.history.faults.append(f"LOAD {count} requests for a {what} within "
                                           f"{said['seconds']} s, and {said['count']} do")
        self.world.after(said["seconds"], look)

    def said_start(self, _said: Said) -> None:
        self.history.operator.start_elsewhere()

    def said_kill(self, said: Said) -> None:
        if bridge := self.named(said):
            bridge.fuse = said.get("steps", 0)

    def said_stop(self, said: Said) -> None:
        if bridge := self.named(said):
            self.history.operator.stop(bridge)

    def said_crash(self, said: Said) -> None:
        """The program of that bridge is killed."""
        bridge = self.named(said)
        for run in [run for run in self.history.operator.runs if not run.over]:
            if run.process is bridge:
                run.crash()

    def said_pause(self, said: Said) -> None:
        if bridge := self.named(said):
            bridge.pause()
            self.world.after(said["seconds"], bridge.resume)

    def said_off(self, said: Said) -> None:
        if bridge := self.named(said):
            self.turn_off(bridge, said["seconds"])

    def said_cut(self, said: Said) -> None:
        if bridge := self.named(said):
            ways = {(server.name, way) for server in self.history.servers
                    for way in said.get("ways", ("up", "down"))}
            self.cut_off(bridge.machine, ways, said["seconds"])

    def said_stale(self, said: Said) -> None:
        server = next(one for one in self.history.servers if one.name == said["server"])
        server.lag = said["lag"]
        self.world.after(said["seconds"], setattr, server, "lag", 0.0)

    def said_gone(self, _said: Said) -> None:
        self.history.delete_lease()

    def said_expire(self, said: Said) -> None:
        if bridge := self.named(said):
            for server in self.history.servers:
                server.expire(bridge)

    def said_silence(self, said: Said) -> None:
        if bridge := self.named(said):
            for server in self.history.servers:
                server.silence(bridge)

    def said_strip(self, said: Said) -> None:
        weather = self.history.weather
        weather.strips = said["namespace"]
        self.world.after(said["seconds"], setattr, weather, "strips", None)

    def said_unmark(self, said: Said) -> None:
        weather = self.history.weather
        weather.unmarks = said["namespace"]
        self.world.after(said["seconds"], setattr, weather, "unmarks", None)

    def said_watches(self, said: Said) -> None:
        weather = self.history.weather
        weather.watches = said["shares"]
        self.world.after(said["seconds"], setattr, weather, "watches", {})

    def said_edit(self, said: Said) -> None:
        self.touch(key_of(said))

    def said_webhook(self, said: Said) -> None:
        weather = self.history.weather
        weather.webhook = said["namespace"]
        if "seconds" in said:
            self.world.after(said["seconds"], setattr, weather, "webhook", None)
