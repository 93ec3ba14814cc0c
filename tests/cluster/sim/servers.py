"""API servers over one store: each with a cache of its own that watches are served from, and with
faults of requests and watches. What a request is answered is what tests/cluster's server answers.
"""
import io
import json
import random
from collections import Counter
from collections.abc import Callable
from dataclasses import dataclass
from typing import Any

from allowed import refused
from kinds import BY_NAME
from rules import HELD_AS
from serving import END as ENDS_LIST, Faults, Handler, Selection, Stream
from store import Refused, Store
from virtual import World
from wires import END, RESET, Link, What

BOOKMARK_SECONDS = 10.0
REQUEST_SECONDS = 60.0  # in which a server may carry out a request, from when it received it
HOP_SECONDS = 600.0  # in which a hop may bring a request that it holds, though its sender is gone
PAGES, MOST_PAGES = 10.0, 0.5  # a page is of as many lines, and becomes too old at most so often
WRITES = ("PATCH", "PUT", "POST", "DELETE")
SHOWN = 100  # characters that are noted of what else is asked for
NAMES = "metallb.io/puts-in-flight"  # the annotation of the Lease (docs/BRIDGE.md, "The fence")
ALL_REQUESTS = ("reset", "slow", "error", "mute")  # what befalls requests that change nothing too
Json = dict[str, Any]
Answers = Callable[[int, Json], None]
compact = json.JSONEncoder(separators=(",", ":")).encode


@dataclass
class Plan:
    """What a request meets with: a fault, of `seconds` where that takes a time, with a `status` and
    the seconds of a Retry-After where it is a refusal, and `soon` seconds later what befalls its
    sender, if anything does."""
    fault: str | None
    seconds: float | None = None
    strikes: bool = False
    soon: float = 0.0
    then: Callable[[], None] = lambda: None
    status: int | None = None
    retry_after: int | None = None


@dataclass
class Fate:
    """What the next requests of a kind (`asked_for`) meet with, of a written history: those for the
    service of that name, for those resources, or by that process, where one is named."""
    what: str
    plan: Plan
    times: int = 1
    name: str | None = None
    of: str | None = None
    by: str | None = None

    def applies(self, what: str, place: str, process: str) -> bool:
        name = service_of(place)[1]
        return (what == self.what and self.times > 0 and self.name in (None, name)
                and self.of in (None, place.rpartition("/")[2]) and self.by in (None, process))


class Weather:
    """What goes wrong with requests and watches, each a share of the times that it could.
    `strikes` is how often something befalls the process whose request went wrong. `webhook` is the
    namespace whose services can't be changed, for a webhook that is down, `strips` that of one that
    takes each change out, and `unmarks` that of one that takes the marks out. `errors` are the
    statuses that requests are refused by, `fates` those of a written history, and `plans` those of
    the next puts of services. `asked` counts the requests of each kind, `faults` has those that no
    right allows."""

    def __init__(self) -> None:
        self.shares: dict[str, float] = {}
        self.watches: dict[str, float] = {}
        self.webhook: str | None = None
        self.strips: str | None = None
        self.unmarks: str | None = None
        self.errors, self.strikes = (500, 503, 429, 403), 0.0
        self.fates: list[Fate] = []
        self.plans: dict[tuple[str, str], Plan] = {}
        self.strike: Callable[[Any, random.Random], None] = lambda process, chance: None
        self.asked: Counter[str] = Counter()
        self.faults: list[str] = []

    def planned(self, process: str, command: str, path: str, body: str) -> Plan | None:
        """What is planned of a request of a process."""
        what, place = asked_for(command, path, body), path.partition("?")[0]
        self.asked[what] += 1
        for fate in self.fates:
            if fate.applies(what, place, process):
                fate.times -= 1
                return fate.plan
        if what != "put" or '"ip"' not in body:
            return None
        return self.plans.pop(service_of(place), None)


def asked_for(command: str, path: str, body: str) -> str:
    """What a request is for: a change of the Lease, a service's put, its fence, its reading, a
    watch, a list, a next page of one, or something else."""
    place, _, query = path.partition("?")
    if command == "PATCH" and place.endswith("/status"):
        return "put" if "ingress" in body else "fence"
    if command != "GET":
        return "lease" if "/leases/" in place else "other"
    if "watch=1" in query:
        return "watch"
    if "limit=" in query:
        return "page" if "continue=" in query else "list"
    return "get" if service_of(place)[1] else "other"


def service_of(path: str) -> tuple[str, str]:
    """The namespace and the name of the service that a path is of, else empty texts."""
    namespace, _, rest = path.partition("/namespaces/")[2].partition("/services/")
    return (namespace, rest.partition("/")[0]) if rest else ("", "")


def brief(path: str, body: str) -> str:
    """What a change asks for, as a person reads it."""
    value = json.loads(body or "{}")
    metadata = value.get("metadata") or {}
    notes, version = metadata.get("annotations") or {}, metadata.get("resourceVersion")
    if "/leases/" in path:
        holder = (value.get("spec") or {}).get("holderIdentity")
        return f"at {version}: holder {holder}, names {notes.get(NAMES, '[]')}"
    if "/services/" in path:
        status = value.get("status")
        if status is None:
            return f"at {version}: a fence"
        ingress = (status.get("loadBalancer") or {}).get("ingress") or []
        return f"at {version}: a put of {','.join(one['ip'] for one in ingress) or 'no address'}"
    return body[:SHOWN]


def drawn(shares: dict[str, float], chance: random.Random) -> str | None:
    """One of what has a share, or nothing."""
    left = chance.random()
    for name, share in shares.items():
        left -= share
        if left < 0:
            return name
    return None


class Asked(Handler):
    """A request that was received whole, as the server of serving.py handles it, but without a
    connection."""
    server: Any
    headers: Any

    def __init__(self, server: "ApiServer", command: str, path: str, headers: dict[str, str],
                 body: bytes) -> None:
        self.server, self.command, self.path, self.headers = server, command, path, headers
        self.rfile = io.BytesIO(body)
        self.answered: tuple[int, Any] | None = None
        self.watched: tuple[Any, Selection, int | None, bool] | None = None

    def body(self) -> Any:
        value, namespace = super().body(), service_of(self.path)[0]
        if namespace and namespace == self.server.weather.unmarks and isinstance(value, dict):
            notes = (value.get("metadata") or {}).get("annotations") or {}
            if notes.get(HELD_AS):
                del notes[HELD_AS]
        return value

    def answer(self, code: int, body: Any) -> None:
        self.answered = code, body

    def watch(self, kind: Any, selection: Selection, asked: dict[str, str]) -> None:
        initial, given = asked.get("sendInitialEvents"), asked.get("resourceVersion", "")
        if initial and self.server.is_old:
            raise Refused(422, "sendInitialEvents is forbidden for watch")
        begins = initial == "true" or given in ("", "0") and initial != "false"
        self.watched = kind, selection, None if begins else int(given), initial == "true"


class ApiServer:
    """`is_old`: it begins no watch with what there is, and lists in pages of `page`."""

    def __init__(self, world: World, store: Store, name: str, weather: Weather,
                 is_old: bool = False) -> None:
        self.world, self.store, self.name, self.weather = world, store, name, weather
        self.up, self.lag, self.faults, self.log = True, 0.0, Faults(), None
        self.is_old, self.page = is_old, 3
        self.seen: int = store.version
        self.exchanges: list[Exchange] = []
        self.texts: dict[str, str] = {}
        store.on_change.append(self.changed)
        world.after(world.chance(name).uniform(0, BOOKMARK_SECONDS), self.bookmarks)

    def begin(self, link: Link) -> "Exchange":
        exchange = Exchange(self, link)
        self.exchanges.append(exchange)
        return exchange

    def changed(self, change: Any) -> None:
        chance = self.world.chance(f"{self.name} {change.kind.name} {'/'.join(change.key)}")
        self.world.after(chance.uniform(1e-3, 1e-2) + self.lag, self.see, change.version)

    def text_of(self, thing: Json) -> str:
        """A stored object as it is written. No two states of objects have one version."""
        version = thing["metadata"]["resourceVersion"]
        if version not in self.texts:
            self.texts[version] = compact(thing)
        return self.texts[version]

    def see(self, version: int) -> None:
        if version > self.seen:
            self.seen = version
            self.advance()

    def advance(self) -> None:
        for exchange in list(self.exchanges):
            if exchange.stream:
                exchange.stream.advance()

    def bookmarks(self) -> None:
        self.world.after(BOOKMARK_SECONDS, self.bookmarks)
        for exchange in list(self.exchanges):
            if exchange.stream and exchange.stream.ended:
                exchange.stream.mark({})

    def expire(self, process: object) -> None:
        """The watches of services that a process has expire."""
        for exchange in list(self.exchanges):
            stream = exchange.stream
            if stream and exchange.link.process is process and stream.kind.name == "Service":
                stream.write_error()

    def silence(self, process: object) -> None:
        """Nothing more comes by the watches that a process has, though each connection stands."""
        for exchange in self.exchanges:
            if exchange.stream and exchange.link.process is process:
                exchange.link.is_mute = True

    def crash(self) -> None:
        self.world.note(self.name, "down")
        self.up = False
        for exchange in list(self.exchanges):
            exchange.break_off()

    def recover(self) -> None:
        self.world.note(self.name, "up")
        self.up, self.seen = True, self.store.version


class Exchange:
    """A connection at the server: one request, and its answer or its watch."""

    def __init__(self, server: ApiServer, link: Link) -> None:
        self.server, self.link, self.world = server, link, server.world
        self.data, self.is_asked, self.over, self.told = b"", False, False, ""
        self.stream: Watch | None = None

    def received(self, what: What) -> None:
        if isinstance(what, str):
            self.finish()
            return
        self.data += what
        head, ends, body = self.data.partition(b"\r\n\r\n")
        if self.is_asked or not ends:
            return
        first, *lines = head.decode().split("\r\n")
        headers = dict(line.split(": ", 1) for line in lines)
        if len(body) >= int(headers.get("Content-Length", 0)):
            self.is_asked = True
            command, path, _ = first.split()
            self.asked(lambda: Asked(self.server, command, path, headers, body), command, path,
                       body.decode())

    def finish(self) -> None:
        """This end is closed. What was received whole is carried out all the same."""
        self.over = True
        if self.stream:
            self.stream.over = True
        if self in self.server.exchanges:
            self.server.exchanges.remove(self)

    def break_off(self) -> None:
        if not self.over:
            self.link.down.send(RESET)
            self.finish()

    # A request

    def asked(self, make: Callable[[], Asked], command: str, path: str, body: str) -> None:
        weather, random, after = self.server.weather, self.link.random, self.world.after
        is_write = command in WRITES
        self.told = f"{self.link.process.name} {command} {path.partition('?')[0]}"
        self.told += f" {brief(path, body)}" if is_write else ""
        shares = {name: share for name, share in weather.shares.items()
                  if is_write or name in ALL_REQUESTS}
        fault, soon = drawn(shares, random), random.uniform(5e-4, 8e-3)
        plan = weather.planned(self.link.process.name, command, path, body)
        if plan:
            fault = plan.fault
        if fault:
            self.world.note(self.server.name, f"{fault}: {self.told}")
        if plan:
            self.befall(plan, random)
        elif fault and is_write and random.random() < weather.strikes:
            pause = random.choice((0.0, 0.01, 1.0)) * random.random()
            after(pause, weather.strike, self.link.process, random)
        self.meet(fault, make, soon, plan or Plan(fault))

    def befall(self, plan: Plan, random: random.Random) -> None:
        """What is planned for when a put is out."""
        if plan.strikes:
            strike = self.server.weather.strike
            self.world.after(plan.soon, strike, self.link.process, random)
        plan.then()

    def meet(self, fault: str | None, make: Callable[[], Asked], soon: float, plan: Plan) -> None:
        """The request meets with a fault, or with none."""
        random, after = self.link.random, self.world.after
        match fault:
            case "reset":
                self.break_off()
            case "slow":
                after(random.uniform(0, REQUEST_SECONDS), self.carry_out, make)
            case "held":  # its sender is told that the connection broke, or nothing
                if random.random() < 0.5:
                    self.break_off()
                else:
                    self.link.is_mute = True
                seconds = random.uniform(0, HOP_SECONDS)
                seconds = seconds if plan.seconds is None else plan.seconds
                after(min(seconds, HOP_SECONDS), self.carry_out, make, None, True)
            case "resent":  # the first answer is lost
                after(soon, self.carry_out, make, lambda *_: None)
                after(soon + random.uniform(0.001, 1), self.carry_out, make)
            case "error":
                status = plan.status or random.choice(self.server.weather.errors)
                after(soon, self.answer, status, {"kind": "Status", "message": "made up"},
                      plan.retry_after)
            case "stored":
                status = random.choice((500, 504))
                after(soon, self.carry_out, make,
                      lambda *_: self.answer(status, {"kind": "Status", "message": "timeout"}))
            case "lost":
                after(soon, self.carry_out, make, lambda *_: self.break_off())
            case "mute":
                self.link.is_mute = True
                after(soon, self.carry_out, make)
            case _:
                after(soon, self.carry_out, make)

    def by_webhook(self, command: str, path: str) -> tuple[int, Json] | None:
        """What a webhook has a change of a service answered, where it is down or takes the change
        out. Of an object that isn't there the server itself tells so."""
        weather, key = self.server.weather, service_of(path.partition("?")[0])
        service = self.server.store.objects[BY_NAME["Service"]].get(key)
        if service is None or command not in WRITES:
            return None
        if key[0] == weather.webhook:
            told = "Internal error occurred: failed calling webhook"
            return 500, {"kind": "Status", "message": told}
        return (200, service) if key[0] == weather.strips else None

    def by_rights(self, asked: Asked) -> tuple[int, Json] | None:
        """What a request is answered that its sender has no right to, which is told."""
        if why := refused(self.link.process.name, asked.command, asked.path):
            self.server.weather.faults.append(f"RIGHT {self.link.process.name}: {why}")
            return 403, Refused(403, why).status()
        return None

    def of_page(self) -> tuple[int, Json] | None:
        """What a next page of a list is answered, where that became too old."""
        share = min(MOST_PAGES, PAGES * self.server.weather.watches.get("expire", 0.0))
        if self.link.random.random() >= share:
            return None
        return 410, Refused(410, "The provided continue parameter is too old").status()

    def carry_out(self, make: Callable[[], Asked], answer: Answers | None = None,
                  held: bool = False) -> None:
        if not self.server.up and not held:
            return
        asked = make()
        answered = self.by_rights(asked) or self.by_webhook(asked.command, asked.path)
        if "&continue=" in asked.path:
            answered = self.of_page()
        if answered:
            asked.answer(*answered)
        else:
            asked.serve()
        if asked.watched:
            if not self.over:
                self.begin_watch(*asked.watched)
            return
        if asked.answered is None:
            raise ValueError(f"no answer to {self.told}")
        code, body = asked.answered
        if asked.command in WRITES:
            late = " (its sender is gone)" if self.over else ""
            version = f" -> {body['metadata'].get('resourceVersion')}" if code < 300 else ""
            self.world.note(self.server.name, f"{code} to {self.told}{late}{version}")
        (answer or self.answer)(code, body)

    def answer(self, code: int, body: Json, retry_after: int | None = None) -> None:
        if not self.over:
            data = compact(body).encode()
            later = "" if retry_after is None else f"Retry-After: {retry_after}\r\n"
            head = (f"HTTP/1.1 {code} x\r\nContent-Type: application/json\r\n{later}"
                    f"Content-Length: {len(data)}\r\n\r\n")
            self.link.down.send(head.encode() + data)
            self.link.down.send(END)
            self.finish()

    def begin_watch(self, kind: Any, selection: Selection, version: int | None,
                    marked: bool) -> None:
        self.link.down.send(b"HTTP/1.1 200 x\r\nContent-Type: application/json\r\n"
                            b"Transfer-Encoding: chunked\r\n\r\n")
        self.stream = Watch(self, kind, selection, version, marked)
        self.world.after(self.link.random.uniform(300, 1800), self.stream.close)
        self.stream.begin()


class Watch(Stream):
    """A watch as it is written. One that begins with a list begins with what the cache has; its end
    is marked once it has what the store had when it was asked for."""

    def __init__(self, exchange: Exchange, kind: Any, selection: Selection, version: int | None,
                 marked: bool) -> None:
        self.exchange, self.kind, self.selection, self.marked = exchange, kind, selection, marked
        self.server, self.store = exchange.server, exchange.server.store
        self.link = exchange.link
        self.version, self.due = version or 0, self.store.version
        self.over, self.ended = False, version is not None

    def begin(self) -> None:
        if not self.ended:
            items, self.version = self.store.list(self.kind, self.store.version - self.server.seen)
            for item in items:
                if self.selection.has(item) and not self.give("ADDED", item):
                    return
        self.advance()

    def advance(self) -> None:
        if self.over:
            return
        if self.version < self.store.oldest():
            self.write_error()
            return
        if self.server.seen > self.version:
            changes = self.store.changes[self.version:self.server.seen]
            self.version = self.server.seen
            for change in changes:
                event = self.event_of(change) if change.kind == self.kind else None
                if event and not self.give(*event):
                    return
        if not self.ended and self.version >= self.due:
            self.ended = True
            if self.marked:
                self.mark(ENDS_LIST)

    def give(self, type_: str, thing: Json) -> bool:
        fault = drawn(self.server.weather.watches, self.link.random)
        if fault == "break":
            self.exchange.break_off()
            return False
        if fault == "expire":
            self.write_error()
            return False
        if fault == "mute":
            self.link.is_mute = True
        told = self.server.text_of(thing)
        self.send_line(f'{{"type":"{type_}","object":{told}}}\n')
        return True

    def write_error(self) -> None:
        status = compact(Refused(410, "too old resource version").status())
        self.send_line(f'{{"type":"ERROR","object":{status}}}\n')
        self.close()

    def mark(self, annotations: Json) -> None:
        """A bookmark."""
        metadata: Json = {"resourceVersion": str(self.version)}
        if annotations:
            metadata["annotations"] = annotations
        thing = {"kind": self.kind.name, "apiVersion": self.kind.api_version, "metadata": metadata}
        self.send_line(f'{{"type":"BOOKMARK","object":{compact(thing)}}}\n')

    def send_line(self, line: str) -> None:
        data = line.encode()
        self.link.down.send(b"%x\r\n%s\r\n" % (len(data), data))

    def close(self) -> None:
        if not self.over:
            self.link.down.send(b"0\r\n\r\n")
            self.link.down.send(END)
            self.exchange.finish()
