"""Judges of the store: told of each change of it, and of what each program was given and wrote,
they look at no bridge."""
import json
import types
from collections import defaultdict
from dataclasses import dataclass, field
from typing import Any

from kinds import BY_NAME
from rules import Claims, Config, Record, choose, compiled, labels_of, read_address, record_of
from servers import NAMES
from store import Store, version_of
from store_judge import CONFIG, Judge, Shown, text_of

Key = tuple[str, str]
Json = dict[str, Any]
LEASE = ("metallb-system", "controller")


@dataclass
class Put:
    """A put that a program wrote. `reply` is what it was told of it; `takes` are those of the
    service's addresses that it takes away by mistake."""
    key: Key
    version: int
    record: Record
    takes: list[str]
    reply: Json | None = None


@dataclass
class View:
    """What one run of the program knows: the version up to which its lanes have shown it services
    and pools, the configuration that it took into force last, and its puts."""
    services: int = 0
    pools: int = 0
    force: Config | None = None
    puts: list[Put] = field(default_factory=list)


def put_of(value: Json) -> Put:
    """The put that a line of a program tells of."""
    read = (read_address(text) for text in value["addresses"])
    addresses = tuple(address for address in read if address)
    record = Record(addresses, value["pool"], value["mark"])
    return Put((value["namespace"], value["name"]), value["version"], record, [])


def state_at(shown: Shown, version: int) -> dict[Any, Json]:
    """The objects of a kind as they were then."""
    found: dict[Any, Json] = shown.states[shown.at(version)]
    return found


class Emptied:
    """Nobody is emptied by mistake: what takes an address from a service is a put that follows, by
    the rules, from the services and the pools that were stored at the versions up to which its
    program was shown them. So a program that is behind may move a service, for the sake of another
    one that had its address then and is gone since. What the program itself put, or may have,
    counts. Of the labels of the namespace any that were stored do. Where nobody means it
    (`is_guarded`) a configuration without pools takes no address that was there before it."""

    def __init__(self, store: Store, shown: dict[str, Shown], is_guarded: bool) -> None:
        self.store, self.shown, self.is_guarded = store, shown, is_guarded
        self.faults = list[str]()
        self.views: dict[object, View] = defaultdict(View)
        self.puts: dict[tuple[Key, int], list[Put]] = defaultdict(list)
        self.labels: dict[str, list[Json]] = defaultdict(list)
        for change in store.changes:
            self.changed(change)
        self.faults = []  # what users begin with was put by nobody
        store.on_change.append(self.changed)

    # What a run is given, and writes

    def given(self, run: object, event: Json) -> None:
        kind, view = event["object"].get("kind"), self.views[run]
        version = (event["object"].get("metadata") or {}).get("resourceVersion")
        if event["type"] == "ERROR" or version is None:
            return
        if kind == "Service":
            view.services = max(view.services, int(version))
        elif kind == "IPAddressPool":
            view.pools = max(view.pools, int(version))

    def accepted(self, run: object) -> None:
        view = self.views[run]
        stored = {kind: {key[1]: thing for key, thing in self.store.objects[BY_NAME[kind]].items()}
                  for kind in CONFIG}
        pools = state_at(self.shown["IPAddressPool"], view.pools)
        read = compiled({**stored, "IPAddressPool": pools})
        if isinstance(read, Config) and (read.pools or self.is_free(view.pools)):
            view.force = read

    def is_free(self, version: int) -> bool:
        """Whether a configuration of that version may take all addresses away: it is meant to, or
        no service had one then. What a program gives that wasn't shown it yet it takes again."""
        services = state_at(self.shown["Service"], version).values()
        return not self.is_guarded or not any(record_of(thing).addresses for thing in services)

    def put(self, run: object, value: Json) -> None:
        view, put = self.views[run], put_of(value)
        before = state_at(self.shown["Service"], put.version).get(put.key)
        if before and version_of(before) == put.version:
            lost = set(record_of(before).addresses) - set(put.record.addresses)
            if lost and self.is_mistake(view, put, before):
                put.takes = [text_of(record_of(before))]
        view.puts.append(put)
        self.puts[put.key, put.version].append(put)

    def replied(self, run: object, reply: Json) -> None:
        self.views[run].puts[-1].reply = reply

    def ended(self, run: object) -> None:
        self.views.pop(run, None)

    def serves(self, run: object) -> bool:
        """Whether it was shown services."""
        return self.views[run].services > 0

    def is_mistake(self, view: View, put: Put, service: Json) -> bool:
        """Whether the service would keep its addresses by what the run knows."""
        force, held = view.force, record_of(service)
        if force is None:
            return True
        claims = self.claims(view)
        return all(choose(claims, force, None, put.key, service, labels, held)[0] == "keep"
                   for labels in self.labels[put.key[0]] or [{}])

    def claims(self, view: View) -> Claims:
        """The addresses that services have, or may have, as the run knows."""
        known = {key: (version_of(thing), record_of(thing), thing) for key, thing
                 in state_at(self.shown["Service"], view.services).items()}
        doubts = []
        for put in view.puts:
            version, _, thing = known.get(put.key, (0, None, None))
            if thing is None or put.version < version:
                continue
            told = (put.reply or {}).get("reply")
            if told == "ok" and put.reply:
                known[put.key] = put.reply["version"], put.record, thing
            elif told != "stale":
                doubts.append((put.key, put.record, thing))
        return Claims([(key, record, thing) for key, (_, record, thing) in known.items()] + doubts)

    # What the store tells

    def changed(self, change: Any) -> None:
        if change.kind.name == "Namespace":
            gone = change.type == "DELETED"
            self.labels[change.key[1]].append({} if gone else labels_of(change.object))
        elif change.kind.name == "Service" and change.type == "MODIFIED":
            self.of_service(change)

    def of_service(self, change: Any) -> None:
        had, has = record_of(change.old), record_of(change.object)
        is_users = has.addresses and not has.mark  # as a controller of MetalLB's leaves it
        lost = set(had.addresses) - set(has.addresses)
        if not lost or is_users or change.old["spec"] != change.object["spec"]:
            return
        puts = [put for put in self.puts[change.key, version_of(change.old)] if put.record == has]
        if all(put.takes for put in puts):
            why = "by what its program was shown it would keep them" if puts else "nobody's put"
            self.faults.append(f"EMPTIED version {change.version}: {'/'.join(change.key)} had "
                               f"{text_of(had)} and has {text_of(has)}: {why}")


class Judges:
    """Both judges of the store. `faults` are the texts of what is wrong, in the order in which it
    was seen."""

    def __init__(self, store: Store, is_guarded: bool) -> None:
        self.store = store
        self.sharing = Judge(types.SimpleNamespace(store=store, on_watch=[]))
        store.on_put.clear()
        self.emptied = Emptied(store, self.sharing.shown, is_guarded)
        self.emptied.faults = self.faults = self.sharing.faults

    def doubted(self, webhook: str | None) -> list[tuple[Key, Record]]:
        """What services of the namespace of a webhook that stays down may get by puts that can't be
        fenced: the Lease names them, and their services still are at the versions of the puts."""
        lease = self.store.objects[BY_NAME["Lease"]].get(LEASE) or {"metadata": {}}
        notes = lease["metadata"].get("annotations") or {}
        services, found = self.store.objects[BY_NAME["Service"]], []
        for namespace, name, version in json.loads(notes.get(NAMES, "[]")):
            service = services.get((namespace, name))
            if namespace == webhook and service and version_of(service) == version:
                found += [(put.key, put.record) for put in self.puts_at((namespace, name), version)]
        return found

    def puts_at(self, key: Key, version: int) -> list[Put]:
        """The puts of the service at that version that may have been sent."""
        return [put for put in self.emptied.puts[key, version]
                if (put.reply or {}).get("reply") != "stale"]

    def left(self, webhook: str | None = None) -> list[str]:
        """What isn't as it must be when all is still: each service that can be changed has what is
        chosen for it by what is stored, and what others may still get. The services of the
        namespace of a webhook that stays down can't be."""
        services = self.store.objects[BY_NAME["Service"]]
        config = compiled({kind: {key[1]: thing for key, thing
                                  in self.store.objects[BY_NAME[kind]].items()} for kind in CONFIG})
        if not isinstance(config, Config):
            return [f"CONFIG {config}"]
        claims = [(key, record_of(thing), thing) for key, thing in services.items()]
        claims += [(key, record, services[key]) for key, record in self.doubted(webhook)]
        known, lines = Claims(claims), []
        for key, thing in services.items():
            held = record_of(thing)
            labels = labels_of(self.store.objects[BY_NAME["Namespace"]].get(("", key[0])))
            case, chosen = choose(known, config, None, key, thing, labels, held)
            if key[0] != webhook and chosen is not None and chosen != held:
                lines.append(f"LEFT {'/'.join(key)} version {version_of(thing)} has "
                             f"{text_of(held)}, and {case} would be {text_of(chosen)}")
        return lines
