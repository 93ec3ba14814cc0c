"""Judges what a controller does by the store and the requests alone, by the rules of rules.py.

- After each change of a service: two services recorded with one address share it by their recorded
  marks, where both have one.
- Each put is what is chosen at some moment, and at a version of its service none is made behind one
  that was refused for its version. A moment is how far each watch was shown: no further than was
  written to it, and never back behind the moment of an earlier put. All moments that explain a put
  are kept, so that one is refused exactly where no history of what was shown, with the replies as
  they were given, has it. What a service may have by a put whose reply was lost counts, until it is
  shown at another version. Where other kinds of the configuration changed since their lists, it
  isn't followed for which of these a configuration was refused.
- When all is still: each service has what is chosen for it by what is stored, or waits because
  nothing can be."""
from __future__ import annotations

import bisect
from collections.abc import Callable, Iterator, Mapping
from typing import Any, NamedTuple

from kinds import Json
from rules import (FROM_POOL, HELD_AS, Claims, Config, Pool, Record, choose, compiled, labels_of,
                   mark_of, may_not_share, printed, read_address, record_of)
from serving import Watch
from store import Change, Key, Store, version_of

CONFIG = ("IPAddressPool", "L2Advertisement", "BGPAdvertisement", "BGPPeer", "Community")
LANE = (*CONFIG, "Namespace")
PLACES = {"IPAddressPool": "pools", "Namespace": "spaces"}
Answer = tuple[int, Any]
State = dict[Any, Json]  # objects by their keys, or by their names alone


class Shown:
    """The states of one kind in their order, and how much of them its watch was given."""

    def __init__(self) -> None:
        self.versions = [0]
        self.states: list[State] = [{}]
        self.watches: list[Watch] = []
        self.number = 0

    def add(self, change: Change) -> None:
        state = dict(self.states[-1])
        key: Any = change.key if change.kind.name == "Service" else change.key[1]
        if change.type == "DELETED":
            state.pop(key, None)
        else:
            state[key] = change.object
        self.versions.append(change.version)
        self.states.append(state)

    def at(self, version: int) -> int:
        """The place of the state as of the version."""
        return bisect.bisect_right(self.versions, version) - 1

    def sent(self) -> int:
        return self.at(max(watch.sent for watch in self.watches))

    def ended(self) -> bool:
        return bool(self.watches) and self.watches[0].ended


class Moment(NamedTuple):
    """Places in the states of the pools and of the namespaces, and the place of the pools that are
    in force, or None. `waits` while the list of the configuration hasn't ended; `force` is then
    what was in force before."""
    pools: int
    spaces: int
    force: int | None
    waits: bool


Others = tuple[int, ...]  # places of the other kinds of the configuration


class Put(NamedTuple):
    key: Key
    version: int
    record: Record

    def told(self) -> str:
        return f"{self.key[0]}/{self.key[1]} at {self.version}: {text_of(self.record)}"


def text_of(record: Record) -> str:
    addresses = ",".join(printed(address) for address in record.addresses) or "no address"
    return f"{addresses} of {record.pool or 'no pool'} as {record.mark or 'no mark'}"


def pool_text(pool: Pool) -> str:
    entries = ", ".join(f"{printed((version, low))}-{printed((version, high))}"
                        for version, low, high in pool.spans)
    words = [] if pool.auto else ["autoAssign false"]
    words += ["avoidBuggyIPs"] if pool.avoids else []
    words += [f"serviceAllocation {pool.allocation}"] if pool.allocation is not None else []
    return "; ".join([f"  pool {pool.name}: {entries}", *words])


def put_of(key: Key, body: Json) -> Put:
    """The put that a patch of a status is; at version 0 where it names none."""
    notes = body["metadata"].get("annotations") or {}
    ingress = ((body.get("status") or {}).get("loadBalancer") or {}).get("ingress") or []
    read = (read_address(one["ip"]) for one in ingress)
    record = Record(tuple(one for one in read if one), notes.get(FROM_POOL) or "",
                    notes.get(HELD_AS) or "")
    return Put(key, int(body["metadata"].get("resourceVersion") or 0), record)


class Judge:
    """Told of each change of a store, of each watch of the controller and of each of its puts;
    `faults` are the texts of what is wrong."""

    def __init__(self, server: Any, agent: str = "bridge-controller",
                 lb_class: str | None = None) -> None:
        """`server` has a store, and tells of watches (serving.py)."""
        self.store: Store = server.store
        self.agent = agent
        self.lb_class, self.puts = lb_class, 0
        self.faults: list[str] = []
        self.shown = {kind: Shown() for kind in (*LANE, "Service")}
        self.configs: dict[tuple[int, Others | None], Config | None] = {}
        self.moments = {Moment(0, 0, None, True): 0}  # each with the least place of the services
        self.forget()
        for change in self.store.changes:
            self.changed(change)
        self.store.on_change.append(self.changed)
        self.store.on_put.append(self.put)
        server.on_watch.append(self.watched)

    def forget(self) -> None:
        """What is known of services by replies; a new list of them takes its place."""
        self.held: dict[Key, tuple[int, Record]] = {}
        self.doubts: list[Put] = []
        self.awaiting: set[tuple[Key, int]] = set()
        self.known: dict[int, tuple[dict[Key, tuple[int, Json, Record]], Claims]] = {}

    def fault(self, text: str) -> None:
        self.faults.append(text)

    # What the store tells

    def changed(self, change: Change) -> None:
        shown = self.shown.get(change.kind.name)
        if shown is None:
            return
        shown.add(change)
        if change.kind.name == "Service" and change.type != "DELETED":
            record = record_of(change.object)
            for key, other in shown.states[-1].items():
                held = record_of(other)
                both = set(held.addresses) & set(record.addresses)
                if key != change.key and both and may_not_share(held.mark, record.mark):
                    self.fault(f"SHARED version {change.version}: {'/'.join(change.key)} has "
                               f"{text_of(record)}, {'/'.join(key)} has {text_of(held)}")

    def watched(self, watch: Watch) -> None:
        kind = watch.kind.name
        if watch.agent != self.agent or kind not in self.shown:
            return
        shown = self.shown[kind]
        if watch.number < shown.number:
            return  # it was given up before the one that is there was asked for
        shown.number = watch.number
        if watch.listed is None:
            shown.watches.append(watch)
            return
        if kind != "Service" and all(self.shown[one].watches for one in LANE):
            # what was shown before this list may have put other pools in force
            self.moments = self.reached()
        shown.watches, place = [watch], shown.at(watch.listed)
        if kind == "Service":
            self.forget()
            self.moments = {moment: place for moment in self.moments}
            return
        moments: dict[Moment, int] = {}
        for moment, service in self.moments.items():
            if kind == "IPAddressPool":
                moment = moment._replace(pools=place)
            elif kind == "Namespace":
                moment = moment._replace(spaces=place)
            # the watch expired, or the controller was started anew
            for force in {None, moment.force}:
                begun = moment._replace(force=force, waits=True)
                moments[begun] = min(service, moments.get(begun, service))
        self.moments = moments

    # What each put must be

    def put(self, agent: str, key: Key, body: Json) -> Callable[..., None]:
        """A put arrives; what is returned is told what came of it."""
        if agent != self.agent:
            return lambda *_: None
        with self.store.lock:
            put = put_of(key, body)
            self.puts += 1
            self.judge(put)

        def told(what: str, answer: Answer | None = None) -> None:
            with self.store.lock:
                if what in ("answered", "lost"):
                    self.replied(put, answer or (0, None))
        return told

    def replied(self, put: Put, answer: Answer | None) -> None:
        if answer is None:
            return
        code, body = answer
        self.known = {}
        if code == 200:
            self.held[put.key] = version_of(body), put.record
        else:  # whatever was answered, the put may have been sent twice, so `unknown` is said
            self.doubts.append(put)
            if code in (404, 409):
                self.awaiting.add((put.key, put.version))

    def others(self) -> Others | None:
        """The places of the other kinds of the configuration, or None where they changed since
        their lists: then they may be anywhere between."""
        others = [self.shown[kind] for kind in CONFIG[1:]]
        places = tuple(one.at(one.watches[0].listed or 0) for one in others)
        return places if places == tuple(one.sent() for one in others) else None

    def config(self, pools: int, others: Others | None) -> Config | None:
        """The configuration with these pools, or None where it is refused. Where the others aren't
        known they are left out."""
        if (pools, others) not in self.configs:
            objects: dict[str, State] = {kind: {} for kind in CONFIG}
            for kind, at in zip(CONFIG[1:], others or ()):
                objects[kind] = self.shown[kind].states[at]
            objects[CONFIG[0]] = self.shown[CONFIG[0]].states[pools]
            read = compiled(objects)
            self.configs[pools, others] = read if isinstance(read, Config) else None
        return self.configs[pools, others]

    def reached(self) -> dict[Moment, int]:
        """All moments that what was sent allows, each with the least place of the services."""
        sent = {kind: self.shown[kind].sent() for kind in PLACES}
        ended, others = all(self.shown[kind].ended() for kind in LANE), self.others()
        found, left = dict(self.moments), list(self.moments)
        while left:
            moment = left.pop()
            for after in self.steps(moment, sent, ended, others):
                if found[moment] < found.get(after, found[moment] + 1):
                    found[after] = found[moment]
                    left.append(after)
        return found

    def steps(self, moment: Moment, sent: Mapping[str, int], ended: bool,
              others: Others | None) -> Iterator[Moment]:
        """The moments that one event more leads to. Where the other kinds aren't known, pools may
        be refused for them, and be taken later."""
        pools, spaces, force, waits = moment
        if spaces < sent["Namespace"]:
            yield moment._replace(spaces=spaces + 1)
        if pools < sent[CONFIG[0]]:
            is_taken = not waits and others is not None and self.config(pools + 1, others)
            yield Moment(pools + 1, spaces, pools + 1 if is_taken else force, waits)
        taken = self.config(pools, others)
        if waits and ended:
            yield Moment(pools, spaces, pools if taken else force, False)
            if others is None:
                yield Moment(pools, spaces, force, False)
        elif not waits and others is None and taken and force != pools:
            yield Moment(pools, spaces, pools, False)

    def services(self, place: int) -> tuple[dict[Key, tuple[int, Json, Record]], Claims]:
        """What is held of each service there: its version, itself and its record; and the claims of
        all."""
        if place not in self.known:
            held: dict[Key, tuple[int, Json, Record]] = {}
            for key, thing in self.shown["Service"].states[place].items():
                version, record = version_of(thing), record_of(thing)
                if key in self.held and self.held[key][0] > version:
                    version, record = self.held[key]
                held[key] = version, thing, record
            claims = [(key, record, thing) for key, (_, thing, record) in held.items()]
            claims += [(put.key, put.record, held[put.key][1]) for put in self.doubts
                       if put.key in held and held[put.key][0] == put.version
                       and put.record.addresses]
            self.known[place] = held, Claims(claims)
        return self.known[place]

    def chosen(self, key: Key, moment: Moment,
               place: int) -> tuple[int, Record, str, Record | None] | None:
        """What is chosen for the service then, and its version and record; or None."""
        held, claims = self.services(place)
        if key not in held or moment.waits or moment.force is None:
            return None
        version, thing, record = held[key]
        namespace = labels_of(self.shown["Namespace"].states[moment.spaces].get(key[0]))
        config = self.config(moment.force, None)
        if config is None:
            return None
        case, chosen = choose(claims, config, self.lb_class, key, thing, namespace, record)
        return version, record, case, chosen

    def explains(self, put: Put, moment: Moment, place: int, seen: dict[object, bool]) -> bool:
        """Whether the put is what is chosen then. `seen` keeps what was found of this put, by what
        it depends on."""
        held = self.services(place)[0].get(put.key)
        if moment.waits or moment.force is None or not held or held[0] != put.version:
            return False
        if (put.key, put.version) in self.awaiting:
            return False
        labels = labels_of(self.shown["Namespace"].states[moment.spaces].get(put.key[0]))
        depends = moment.force, tuple(sorted(labels.items())), place
        if depends not in seen:
            found = self.chosen(put.key, moment, place)
            seen[depends] = found is not None and found[3] == put.record != found[1]
        return seen[depends]

    def judge(self, put: Put) -> None:
        is_begun = all(self.shown[kind].watches for kind in LANE)
        if not self.shown["Service"].ended() or not is_begun:
            self.fault(f"UNLISTED put of {put.told()} before the lists had ended")
            return
        last, reached = self.shown["Service"].sent(), self.reached()
        found: dict[Moment, int] = {}
        seen: dict[object, bool] = {}
        for moment, service in reached.items():
            place = next((place for place in range(service, last + 1)
                          if self.explains(put, moment, place, seen)), None)
            if place is not None:
                found[moment] = place
        if found:
            self.moments = found
        else:
            self.fault(f"PUT of {put.told()}\n" + self.reasons(put, reached, last))

    def reasons(self, put: Put, reached: Mapping[Moment, int], last: int) -> str:
        """What would have been chosen instead at the last moment that there was, and by what."""
        moment = max(reached, key=lambda one: (not one.waits, one.force is not None, one.pools,
                                               one.spaces))
        known = (place for place in range(max(0, last - 50), last + 1)
                 if put.key in self.services(place)[0]
                 and self.services(place)[0][put.key][0] == put.version)
        last = max(known, default=last)
        found = self.chosen(put.key, moment, last)
        if not found or moment.force is None:
            return ("  at the last moment nothing is chosen for it: it isn't there, or no "
                    "configuration is in force")
        version, held, case, chosen = found
        versions = self.shown["Service"].versions
        lines = [f"  at the last moment, of services {versions[last]}: {case}, "
                 f"{text_of(chosen) if chosen else 'left alone'}",
                 f"  it is at version {version} and has {text_of(held)}"]
        touched = set(put.record.addresses) | set(chosen.addresses if chosen else ())
        lines += [f"  {'/'.join(key)} has, or may have, {printed(address)} as {mark_of(terms)}"
                  for address in touched
                  for key, terms in self.services(last)[1].at.get(address, ()) if key != put.key]
        config = self.config(moment.force, None)
        lines += [pool_text(pool) for pool in config.pools] if config else []
        if (put.key, put.version) in self.awaiting:
            lines.append("  its put of this version was answered stale or missing")
        least = versions[min(reached.values())]
        return "\n".join([*lines, f"  {len(reached)} moments, of the services from {least} on"])

    # When all is still

    def left(self) -> list[str]:
        """What isn't as it must be when all is still, a line each."""
        with self.store.lock:
            services = self.shown["Service"].states[-1]
            config = compiled({kind: self.shown[kind].states[-1] for kind in CONFIG})
            if not isinstance(config, Config):
                return [f"CONFIG {config}"]
            claims = Claims((key, record_of(thing), thing) for key, thing in services.items())
            lines = []
            for key, thing in services.items():
                held = record_of(thing)
                space = labels_of(self.shown["Namespace"].states[-1].get(key[0]))
                case, chosen = choose(claims, config, self.lb_class, key, thing, space, held)
                if chosen is not None and chosen != held:
                    lines.append(f"LEFT {'/'.join(key)} version {version_of(thing)} has "
                                 f"{text_of(held)}, and {case} would be {text_of(chosen)}")
            return lines
