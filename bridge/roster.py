"""Which nodes and speakers a cluster shows: the addresses that datagrams go to, and the speakers
that are ready as the API server has it. It is read off the watches that a speaker's bridge holds in
any case, and stands as it was shown last."""
from __future__ import annotations

from collections.abc import Callable, Mapping
from dataclasses import dataclass, field
from typing import Any

Event = Mapping[str, Any]
SERVICE = "speaker"  # the headless Service of the speakers, in MetalLB's namespace
SERVICE_LABEL = "kubernetes.io/service-name"
LIST_END = "k8s.io/initial-events-end"


@dataclass(frozen=True)
class Speaker:
    """An endpoint of the speakers' Service. `ready`: its pod's readiness probe is answered, and its
    node is ready, as the API server has it."""
    address: str | None
    ready: bool


def address_of(node: Event) -> str | None:
    """A node's first address in the cluster, or nothing."""
    addresses = (node.get("status") or {}).get("addresses") or []
    own = (one.get("address") for one in addresses if one.get("type") == "InternalIP")
    return next((address for address in own if address), None)


def speakers_of(piece: Event) -> dict[str, Speaker]:
    """The speakers of an EndpointSlice, by the names of their nodes."""
    found = {}
    for endpoint in piece.get("endpoints") or []:
        addresses, conditions = endpoint.get("addresses") or [None], endpoint.get("conditions")
        if name := endpoint.get("nodeName"):
            found[name] = Speaker(addresses[0], (conditions or {}).get("ready") is not False)
    return found


def ends_list(event: Event) -> bool:
    annotations = (event["object"].get("metadata") or {}).get("annotations") or {}
    return event["type"] == "BOOKMARK" and annotations.get(LIST_END) == "true"


@dataclass
class Roster:
    """The nodes with their addresses, and the EndpointSlices of the speakers' Service with their
    speakers, both by name. `unlisted`: by kind, those that a list which begins anew hasn't shown
    yet. `found` and `told`: what `speakers` and `addresses` are since the last line."""
    namespace: str
    nodes: dict[str, str] = field(default_factory=dict)
    slices: dict[str, dict[str, Speaker]] = field(default_factory=dict)
    unlisted: dict[str, set[str]] = field(default_factory=dict)
    found: dict[str, Speaker] | None = None
    told: dict[str, str] | None = None

    def note(self, event: Event) -> None:
        """Takes in a line of the watches: an event, or ERROR ahead of lists that begin anew."""
        self.found = self.told = None
        kind = (event.get("object") or {}).get("kind")
        if event["type"] == "ERROR":
            self.unlisted = {"Node": set(self.nodes), "EndpointSlice": set(self.slices)}
        elif kind == "Node":
            self.note_one(event, "Node", self.nodes, address_of)
        elif kind == "EndpointSlice":
            if event["type"] == "BOOKMARK" or self.is_of_speakers(event["object"]):
                self.note_one(event, "EndpointSlice", self.slices, speakers_of)
            elif event["object"]["metadata"].get("namespace") == self.namespace:
                self.slices.pop(event["object"]["metadata"]["name"], None)

    def is_of_speakers(self, piece: Event) -> bool:
        metadata = piece["metadata"]
        service = (metadata.get("labels") or {}).get(SERVICE_LABEL)
        return bool(metadata.get("namespace") == self.namespace and service == SERVICE)

    def note_one(self, event: Event, kind: str, shown: dict[str, Any],
                 read: Callable[[Event], Any]) -> None:
        if event["type"] == "BOOKMARK":
            if ends_list(event):
                for name in self.unlisted.pop(kind, set()):
                    shown.pop(name, None)
            return
        name = event["object"]["metadata"]["name"]
        self.unlisted.get(kind, set()).discard(name)
        if event["type"] == "DELETED":
            shown.pop(name, None)
        elif (value := read(event["object"])) is not None:
            shown[name] = value  # a Node without an address keeps the one that it had

    def speakers(self) -> dict[str, Speaker]:
        """The speakers of the Service, none where there is no such. A node that two slices show is
        ready where one says so."""
        if self.found is None:
            self.found = {}
            for piece in self.slices.values():
                for name, speaker in piece.items():
                    if speaker.ready or name not in self.found:
                        self.found[name] = speaker
        return self.found

    def addresses(self) -> dict[str, str]:
        """The nodes that are to be told: those with a speaker, or all where no Service shows
        them."""
        if self.told is None:
            speakers = self.speakers()
            told = {name: self.nodes.get(name) or speaker.address
                    for name, speaker in speakers.items()}
            self.told = {name: address for name, address in told.items() if address}
            self.told = self.told if speakers else dict(self.nodes)
        return self.told

    def ready(self) -> set[str]:
        """The nodes whose speakers are ready."""
        return {name for name, speaker in self.speakers().items() if speaker.ready}
