"""A small cluster with several controllers, whose requests go by hops that misbehave, and what
befalls controllers there: above all that a put is on its way while another one takes over."""
from __future__ import annotations

import collections
import functools
import json
import random
import threading
import time
from collections.abc import Callable
from dataclasses import dataclass

from hop import PASS, Fate, Hop, Request
from kinds import BY_NAME, Json, Kind
from rules import ADDRESSES, printed, record_of
from store import Change, Key
from store_judge import Judge
from world import Bridge, World

LEASE = ("metallb-system", "controller")
AMBUSHES = 2  # at once, so that the one who takes over can be struck as well
AMBUSHED = 8.0  # seconds that a put is held back at most, until it comes all the same
STRUCK = (1.0, 4.0)  # seconds that a controller is away whose put is held back: others take over


class Weather:
    """What becomes of requests at a hop: that share of the changes doesn't go well."""
    OF_ALL = [Fate("cut"), *2 * [Fate("lose")], *3 * [Fate("twice")],
              *(Fate("refuse", status) for status in (500, 504, 429))]
    OF_SERVICES = [Fate("refuse", status) for status in (401, 403, 422)]

    def __init__(self, seed: int) -> None:
        self.random, self.share, self.lock = random.Random(seed), 0.0, threading.Lock()
        self.counts: collections.Counter[str] = collections.Counter()

    def is_so(self, share: float) -> bool:
        with self.lock:
            return self.random.random() < share

    def between(self, least: float, most: float) -> float:
        with self.lock:
            return self.random.uniform(least, most)

    def length(self) -> float:
        """Seconds that a trouble lasts: less or more than a Lease."""
        with self.lock:
            return self.random.choice((0.2, 1.5, 3.0)) * self.random.random()

    def choose(self, *ways: str) -> str:
        with self.lock:
            return self.random.choice(ways)

    def __call__(self, request: Request) -> Fate:
        with self.lock:
            if self.random.random() >= self.share or request.method not in ("PATCH", "PUT"):
                return PASS
            late = Fate("late", seconds=self.random.uniform(0, 1))
            held = Fate("hold", seconds=self.random.uniform(0.5, 6))
            # (a put's answer is waited for so long)
            is_silent = not request.is_put and self.random.random() < 0.1
            fate = self.random.choice([*self.OF_ALL, *self.OF_SERVICES * request.is_change, late,
                                       *4 * [held], *is_silent * [Fate("stall"), Fate("mute")]])
            self.counts[fate.what] += 1
            return fate


@dataclass(frozen=True)
class Ambush:
    """A put that is held back: of this service, to give it this address, which it asks for and
    another one besides. It comes once somebody else has the address."""
    hop: Hop
    request: Request
    service: Key
    rival: Key
    address: str
    until: float

    def release(self) -> None:
        self.hop.release_soon(self.request)


class SeveralWorld(World):
    """A cluster with several controllers, each behind a hop of its own that loses, holds back,
    resends and refuses its requests. They are cut off, stopped for a while and killed with their
    programs. What counts is the store alone: whether two services share an address, and what is
    left in the end.

    Where a put gives a service an address that it asks for, that put may be held back: a service
    that comes earlier in their order asks for the same address then, and the controller is struck.
    Whoever takes over gives the address to that one, unless the put is known to it; then the put
    comes. Nobody edits the two meanwhile."""
    SECONDS, STAYS = (2.0, 8.0), 15.0

    def __init__(self, seed: int, controller: str | None = None, trace: str | None = None,
                 count: int = 2) -> None:
        self.weather, self.timers = Weather(seed), list[threading.Timer]()
        self.ambushes: dict[Key, Ambush] = {}
        self.count, self.takeovers, self.holder = count, 0, ""
        super().__init__(seed, controller, trace)
        self.users.asks_for_free = True
        self.store.on_change.append(self.changed)

    def make_judge(self) -> Judge:
        judge = Judge(self.server, "nobody", self.lb_class)
        self.store.on_put.append(lambda *_: self.count_put(judge))
        return judge

    @staticmethod
    def count_put(judge: Judge) -> Callable[..., None]:
        judge.puts += 1
        return lambda *_: None

    def begin_controllers(self) -> None:
        self.hops = [Hop(self.server.port, functools.partial(self.fate, at))
                     for at in range(self.count)]

    def url_of(self, at: int) -> str:
        return self.hops[at].url

    def troubles(self) -> int:
        return sum(self.weather.counts.values())

    def later(self, seconds: float, call: Callable[..., object], *words: object) -> None:
        timer = threading.Timer(seconds, call, words)
        self.timers.append(timer)
        timer.start()

    # Puts that are held back while another controller takes over

    def fate(self, at: int, request: Request) -> Fate:
        """What becomes of a request at this hop."""
        fate = self.weather(request)
        if not request.is_put or not self.weather.share:
            return fate
        if self.weather.is_so(0.5) and (ambush := self.ambush(self.hops[at], request)):
            self.ambushes[ambush.service] = ambush
            return Fate(self.strike(at), seconds=AMBUSHED)
        if fate.what == "hold" and self.weather.is_so(0.7):
            self.strike(at)
        return fate

    def ambush(self, hop: Hop, request: Request) -> Ambush | None:
        """Has another service ask for what the put is to give, where that can tell something."""
        *_, namespace, _, name, _ = request.path.split("/")
        key, body = (namespace, name), json.loads(request.body)
        ingress = body["status"]["loadBalancer"]["ingress"]
        with self.store.lock:
            stored = self.store.objects[BY_NAME["Service"]].get(key)
            if stored is None or len(ingress) != 1 or len(self.laid()) >= AMBUSHES:
                return None
            notes, address = stored["metadata"].get("annotations") or {}, ingress[0]["ip"]
            is_asked = notes.get(ADDRESSES) == address
            named = body["metadata"].get("resourceVersion")
            is_new = named in (None, stored["metadata"]["resourceVersion"])
            if not is_asked or not is_new or self.is_ambushed(key):
                return None
            rival = self.users.rival(key, address)
            until = time.monotonic() + AMBUSHED
            return rival and Ambush(hop, request, key, rival, address, until)

    def laid(self) -> list[Ambush]:
        """The ambushes that there are."""
        now, known = time.monotonic(), list(self.ambushes.values())
        return [one for one in known if one.until > now]

    def is_ambushed(self, key: Key) -> bool:
        return any(key in (one.service, one.rival) for one in self.laid())

    def forbidden(self, verb: str, kind: Kind, key: Key, body: Json | None) -> str | None:
        """Nobody but a controller changes what an ambush is laid for."""
        if kind.name == "Service" and verb != "patch/status" and self.is_ambushed(key):
            return "it is looked at"
        return super().forbidden(verb, kind, key, body)

    def changed(self, change: Change) -> None:
        """Counts who takes over, and lets a put come once its address is somebody else's."""
        if change.kind.name == "Lease" and change.key == LEASE:
            holder = str(change.object["spec"].get("holderIdentity") or "")
            self.takeovers += holder not in ("", self.holder)
            self.holder = holder or self.holder
        elif change.kind.name == "Service" and change.type != "DELETED" and self.ambushes:
            held = [printed(one) for one in record_of(change.object).addresses]
            for one in self.laid():
                if one.address in held and change.key != one.service:
                    self.late += 1
                    self.spring(one)

    def spring(self, ambush: Ambush) -> None:
        self.ambushes.pop(ambush.service, None)
        ambush.release()

    def strike(self, at: int) -> str:
        """The controller whose put is held back is cut off, stands still, or is killed. What
        becomes of the put's connection."""
        hop, bridge, seconds = self.hops[at], self.controllers[at], self.weather.between(*STRUCK)
        match self.weather.choose("cut", "cut", "still", "program"):
            case "cut":
                hop.cut()
                self.cuts += 1
                self.later(seconds, hop.mend)
                return "hold"
            case "still":
                self.still_for(bridge, seconds)
                return self.weather.choose("hold", "hold", "keep")
            case _:
                self.kills += bridge.kill()
                return "keep"

    # Whatever else goes wrong

    def still_for(self, bridge: Bridge, seconds: float) -> None:
        bridge.stand_still()
        self.cuts += 1
        self.later(seconds, bridge.go_on)

    def stop_controller(self) -> None:
        """At a put: the program is killed, or the bridge, or it is cut off or stands still."""
        self.harm()

    def harm(self) -> None:
        if self.laid() and self.random.random() < 0.8:
            return  # so that somebody takes over
        at = self.random.randrange(self.count)
        bridge, hop = self.controllers[at], self.hops[at]
        for _ in range(self.random.choice((0, 0, 4, 12))):  # a rush: one put follows the other
            self.users.edit_services()
        match self.random.choice((*5 * ("program",), "bridge", "cut", "cut", "still", "freeze")):
            case "program":
                self.kills += self.bridge.kill()
            case "bridge":
                bridge.end()
                self.controllers[at] = self.start_at(at)
                self.kills += 1
            case "cut":
                hop.cut()
                self.cuts += 1
                self.later(self.weather.length(), hop.mend)
            case "still":
                self.still_for(bridge, self.weather.length())
            case "freeze":  # half-open: what comes by its watches is old then
                hop.freeze()
                self.cuts += 1
                self.later(self.weather.length(), hop.end_frozen)

    def round(self) -> list[str]:
        self.weather.share = self.random.choice((0.05, 0.2, 0.5))
        self.harms = self.random.choice((1.0, 4.0, 10.0))
        return super().round()

    def until_mended(self) -> None:
        for timer in list(self.timers):
            timer.join()
        self.timers.clear()

    def heal(self) -> None:
        self.weather.share = 0.0
        for one in self.laid():
            self.spring(one)
        self.until_mended()

    def stop(self) -> None:
        self.weather.share = 0.0
        self.until_mended()
        for bridge in self.controllers:
            bridge.stop()
        for hop in self.hops:
            hop.cut()
            hop.stop()
        self.server.stop()
