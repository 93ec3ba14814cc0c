"""One history of a small cluster: users edit, things go wrong for some minutes, then all is well
again. What is wrong is told by the judges of the store."""
import asyncio
import contextlib
import math
import time
import types
import uuid
from collections.abc import Callable, Coroutine
from dataclasses import dataclass, field
from typing import Any, TextIO

import host
import store as stores
from judges import Judges
from kinds import BY_NAME, copied
from lockstep import Run
from loops import EPOCH, Machine, Process
from operators import Operator
from servers import HOP_SECONDS, ApiServer, Weather
from stand_ins import Simulated, note_log
from troubles import KINDS, Harm, Trouble, drawn
from users import SPANS, Users, custom
from virtual import World

Json = dict[str, Any]
Alter = Callable[[Json], Json]
SETTLED = 900.0  # seconds of calm within which nothing may be left to be done
OLD = 0.3  # the share of histories in which an API server begins no watch with what there is; of
# half of them none does
FEW = 0.15  # the share of those in which users make nothing but what troubles are about
ARRIVED = HOP_SECONDS + 60.0  # seconds of calm until nothing that was sent before still comes
STAYS = 60.0  # and in which that stays so
LOOK = 5.0
# Seconds for which a controller's Lease counts, the first as it is unasked: one that is soon taken
# over lets more happen. And until a bridge that ended is started anew.
LEASES = (15.0, 6.0, 3.0, 3.0)
PAUSES: tuple[tuple[float, ...], ...] = ((0.01, 0.5, 5.0, 60.0), (0.01, 0.5), (0.5, 5.0))
LEASE = ("metallb-system", "controller")


@dataclass
class Asked:
    """What a history is made of."""
    seed: int
    mode: str
    seconds: float
    without: frozenset[str] = frozenset()
    kinds: tuple[str, ...] | None = None
    only: tuple[int, ...] | None = None  # the troubles that come, by their numbers; all if None
    salt: int = 0
    end: float | None = None  # where it is looked no further, and nothing is asked of what is left
    troubles: list[Trouble] | None = None  # those of a written history
    # users have made nothing before, and what isn't told is as usual and not drawn
    is_bare: bool = False
    guard: bool | None = None  # whether the bridge keeps the last pool's deletion back; drawn
    name: str = ""
    nodes: int | None = None  # those of a history of speakers; drawn
    old: bool | None = None  # whether no API server begins a watch with what there is; drawn


@dataclass
class Result:
    seed: int
    wrong: list[str]
    at: float = 0.0
    hash: str = ""
    notes: int = 0
    troubles: dict[str, int] = field(default_factory=dict)
    changes: int = 0
    ends: int = 0
    surprises: list[str] = field(default_factory=list)
    drawn: int = 0
    settled: float = 0.0
    processor: float = 0.0
    befell: dict[str, int] = field(default_factory=dict)
    name: str = ""


class History:
    def __init__(self, asked: Asked, serve: Callable[[Any], Coroutine[Any, Any, None]],
                 words: dict[str, Any], trace: TextIO | None = None,
                 alter: Alter = lambda value: value) -> None:
        self.asked, self.world = asked, World(asked.seed, asked.salt, trace)
        world = self.world
        self.store = new_store(world)
        host.hand_in(Simulated(world))
        note_log()
        self.is_calm = False
        self.taken = "", 0.0  # whose node the Lease's holder is of, and since when
        self.weather = Weather()
        self.users = Users(self.store, world.stream("users", False))
        few = has_few(world) and not asked.is_bare
        if few:
            self.users.begin_spaces()
        elif not asked.is_bare:
            self.users.begin()
        self.make_lease()
        flip = world.stream("guard", False).random() < 0.5
        self.is_guarded = flip if asked.guard is None else asked.guard
        self.judges = Judges(self.store, self.is_guarded)
        self.faults = self.weather.faults = self.judges.faults
        self.alter = alter
        self.store.on_change.append(self.changed)
        old = 1.0 if asked.is_bare else world.stream("old server", False).random()
        self.servers = [ApiServer(world, self.store, name, self.weather,
                                  old < share if asked.old is None else asked.old)
                        for name, share in (("api1", OLD / 2), ("api2", OLD))]
        draw = world.stream("machines")
        self.machines = [Machine(world, f"n{at}", draw.uniform(-30, 30), draw.uniform(0.999, 1.001))
                         for at in range(1, 4)]
        self.harm = Harm(self, asked.without)
        kinds = [kind for kind in asked.kinds or KINDS if kind not in asked.without]
        plan = world.stream("plan", False)
        self.troubles = asked.troubles or drawn(plan, asked.seconds, kinds, not few)
        pace = world.stream("pace", False)
        words = {**words, "without_pools": not self.is_guarded,
                 "lease_seconds": LEASES[0] if asked.is_bare else pace.choice(LEASES)}
        pauses = PAUSES[0] if asked.is_bare else pace.choice(PAUSES)
        self.operator = Operator(world, asked.mode, self.machines, self.servers, serve, words,
                                 self, pauses)

    # What each run of a program is given and writes

    def given(self, run: Run, _lane: str, event: Json) -> None:
        self.judges.emptied.given(run, event)

    def written(self, run: Run, value: Json) -> Json:
        value = self.alter(value)
        if value["op"] == "put":
            self.world.counts["puts"] += 1
            self.judges.emptied.put(run, value)
        elif value["op"] == "config" and value["result"] == "accepted":
            self.judges.emptied.accepted(run)
        return value

    def replied(self, run: Run, reply: Json) -> None:
        self.judges.emptied.replied(run, reply)

    def ended(self, run: Run) -> None:
        self.judges.emptied.ended(run)

    def make_lease(self) -> None:
        """The Lease that the manifest makes."""
        lease = {"apiVersion": "coordination.k8s.io/v1", "kind": "Lease", "spec": {},
                 "metadata": {"namespace": LEASE[0], "name": LEASE[1]}}
        if LEASE not in self.store.objects[BY_NAME["Lease"]]:
            self.store.put(lease)

    def delete_lease(self) -> None:
        if not self.is_calm and LEASE in self.store.objects[BY_NAME["Lease"]]:
            self.store.delete(BY_NAME["Lease"], LEASE)

    def take_lease(self, holder: str) -> None:
        lease = copied(self.store.objects[BY_NAME["Lease"]].get(LEASE))
        if lease and not self.is_calm:
            lease["spec"]["holderIdentity"] = holder
            with contextlib.suppress(stores.Refused):
                self.store.update(BY_NAME["Lease"], LEASE, lease)

    def count_turn(self, change: Any) -> None:
        """Takes note of the Lease's changes of hands."""
        had, has = (((thing or {}).get("spec") or {}).get("holderIdentity") or ""
                    for thing in (change.old, change.object))
        if has != had:
            self.taken = has.partition("_")[0], self.world.now
            self.world.counts["take-overs"] += bool(has)

    def holder(self) -> Process | None:
        """The bridge that has the Lease, where it still runs."""
        node, since = self.taken
        return next((one for one in self.operator.bridges
                     if one.machine.name == node and one.began < since), None)

    def is_vacant(self) -> bool:
        """Whether the Lease is to be taken over."""
        return self.holder() is None

    def changed(self, change: Any) -> None:
        if change.kind.name == "Lease":
            self.count_turn(change)
        if change.kind.name in ("Service", "IPAddressPool", "Lease"):
            thing = change.object
            status = (thing.get("status") or {}).get("loadBalancer") or {}
            has = ",".join(one.get("ip", "") for one in status.get("ingress") or [])
            told = f"{change.type} {change.kind.name} {'/'.join(change.key)} {has}"
            self.world.note("store", f"{change.version} {told}")

    def run(self) -> Result:
        world, asked = self.world, self.asked
        for at, trouble in enumerate(self.troubles):
            if asked.only is None or at in asked.only:
                world.at(trouble.at, self.harm, trouble)
        end = asked.end or math.inf
        world.run(min(end, asked.seconds), self.judges.faults)
        wrong, settled = self.judges.faults[:1], 0.0
        if not wrong and end > asked.seconds:
            self.heal()
            healed = asked.seconds
            if LEASE not in self.store.objects[BY_NAME["Lease"]]:
                healed += ARRIVED
                world.run(min(end, healed), self.judges.faults)
                self.make_lease()
            wrong = self.judges.faults[:1] or self.settle()
            settled = world.now - healed
        operator = self.operator
        surprises = [line for process in (*operator.graves, *operator.bridges)
                     for line in surprises_of(process)]
        for run in operator.runs:
            if not run.over:
                run.finish()
        return Result(world.seed, wrong, world.now, world.hash.hexdigest()[:16], world.notes,
                      self.harm.counts, self.store.version, operator.ends, surprises,
                      len(self.troubles), settled, befell=dict(world.counts))

    def heal(self) -> None:
        """All faults cease but a webhook that stays down."""
        self.world.note("trouble", "none any more")
        self.is_calm = True
        operator = self.operator
        operator.off.clear()
        for machine in self.machines:
            machine.cut.clear()
            machine.go_on()
        for server in self.servers:
            server.lag = 0.0
            if not server.up:
                server.recover()
            server.see(self.store.version)
        self.weather.shares, self.weather.watches = {}, {}
        self.weather.strips = self.weather.unmarks = None
        self.weather.fates.clear()
        self.weather.plans.clear()
        self.store.history = 1000
        for bridge in operator.bridges:
            bridge.fuse = None
            bridge.resume()
        for run in operator.runs:
            if run.frozen:
                self.harm.thaw(run)
        self.users.mend()
        if self.is_guarded and not self.store.objects[BY_NAME["IPAddressPool"]]:
            self.store.put(custom("IPAddressPool", "p0", {"addresses": SPANS[:1]}))

    def left(self) -> list[str]:
        """What isn't as it must be. While a put can't be fenced no list of services is begun: so
        nothing is asked then where no program has one."""
        webhook, emptied = self.weather.webhook, self.judges.emptied
        serves = any(emptied.serves(run) for run in self.operator.runs if not run.over)
        if not serves and self.judges.doubted(webhook):
            return []
        return self.judges.left(webhook)

    def settle(self) -> list[str]:
        world = self.world
        since: float | None = None
        end = min(world.now + SETTLED, self.asked.end or math.inf)
        while world.now < end:
            world.run(world.now + LOOK, self.judges.faults)
            if self.judges.faults:
                return self.judges.faults[:1]
            since = None if self.left() else since or world.now
            if since and world.now - since >= STAYS:
                return []
        if self.asked.end:
            return []
        return [f"UNSETTLED within {SETTLED:.0f} s", *self.left()]


def has_few(world: World) -> bool:
    """Whether users make nothing but what troubles are about."""
    return world.stream("few", False).random() < FEW


def new_store(world: World) -> stores.Store:
    """A store whose identities and time of day are the world's."""
    identities = world.stream("identities")

    def identity() -> uuid.UUID:
        return uuid.UUID(int=identities.getrandbits(128), version=4)

    def day() -> time.struct_time:
        return time.gmtime(EPOCH + world.now)
    vars(stores).update(uuid=types.SimpleNamespace(uuid4=identity),
                        time=types.SimpleNamespace(strftime=time.strftime, gmtime=day))
    return stores.Store(history=1000)


def surprises_of(process: Process) -> list[str]:
    """A bridge that ended by itself with a failure."""
    task: asyncio.Task[object] | None = process.main
    if task and task.done() and not task.cancelled() and task.exception():
        return [f"ENDED {process.name} by itself: {task.exception()!r}"]
    return []
