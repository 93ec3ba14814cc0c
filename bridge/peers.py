"""Which BGP sessions a node has: those of the BGPPeer objects of the configuration in force whose
node selectors select it."""
from __future__ import annotations

import asyncio
import collections
import logging
from collections.abc import Mapping, Sequence
from typing import Any

from bfd_sessions import BfdPorts
from bgp import Family
from bgp_sessions import Ask, Session
from settings import SERVED, Spec, unserved
from tables import Table

LOG = logging.getLogger("bridge")
LATE = 120.0  # seconds in which a program that was started anew is to tell the routes again
Event = Mapping[str, Any]
Labels = Mapping[str, str]


def matches(selector: Mapping[str, Any], labels: Labels) -> bool:
    """Whether a Kubernetes label selector selects what has these labels."""
    def holds(expression: Mapping[str, Any]) -> bool:
        key, values = expression["key"], expression.get("values") or []
        found = {"In": labels.get(key) in values, "NotIn": labels.get(key) not in values,
                 "Exists": key in labels, "DoesNotExist": key not in labels}
        return found[expression["operator"]]
    pairs = (selector.get("matchLabels") or {}).items()
    if not all(labels.get(key) == value for key, value in pairs):
        return False
    return all(map(holds, selector.get("matchExpressions") or []))


def numbers_of(spec: Spec) -> tuple[int, int]:
    return spec["myASN"], spec["peerASN"]


class Peers:
    """No line of the program names a peer that came or went. So what the watch lane is given is
    followed here, line by line as the program takes it. Without an identifier there are no
    sessions. They outlive the program: of one that is started anew they are told once it has told
    all."""

    def __init__(self, node: str, identifier: str | None, families: Sequence[Family], retry: float,
                 ask: Ask | None = None, is_own_hop: bool = False) -> None:
        self.node, self.identifier, self.families, self.retry = node, identifier, families, retry
        self.ask, self.is_own_hop, self.ports = ask, is_own_hop, BfdPorts()
        self.given: collections.deque[tuple[int, Event]] = collections.deque()
        self.shown: dict[str, Spec] = {}
        self.labels: Labels = {}
        self.is_shown = False  # the node itself, since the lists began
        self.in_force: dict[str, Spec] = {}
        self.tables: dict[str, Table] = {}
        self.tasks: dict[str, tuple[Session, asyncio.Task[None]]] = {}
        self.late: asyncio.TimerHandle | None = None
        self.is_whole = False
        self.told: dict[str, list[str]] = {}  # what each peer asks for and isn't done, as told

    def begin(self) -> None:
        """A program begins. What the peers were told by the one before stands until this one has
        told all, or for some time."""
        self.given.clear()
        self.shown, self.tables, self.is_whole, self.is_shown = {}, {}, False, False
        if self.tasks and not self.late:
            self.late = asyncio.get_running_loop().call_later(LATE, self.end_late)

    def end_late(self) -> None:
        LOG.warning("the program doesn't tell the routes again: its sessions are closed")
        self.late = None
        for name, (session, _) in list(self.tasks.items()):
            if session.table is not self.tables.get(name):
                self.end(name)
        self.settle()

    def whole(self) -> None:
        """The program has told all that there is to tell at first."""
        if self.is_whole:
            return
        self.is_whole = True
        if self.late:
            self.late.cancel()
            self.late = None
        for name, (session, _) in self.tasks.items():
            session.go_by(self.table_of(name))

    def table_of(self, name: str) -> Table:
        return self.tables.setdefault(name, Table())

    def note(self, number: int, event: Event) -> None:
        """Line `number` of the watch lane is this event."""
        if event["type"] == "ERROR" or event["object"]["kind"] in ("BGPPeer", "Node"):
            self.given.append((number, event))

    def took(self, number: int) -> None:
        while self.given and self.given[0][0] <= number:
            self.take(self.given.popleft()[1])

    def take(self, event: Event) -> None:
        if event["type"] == "ERROR":
            self.shown, self.is_shown = {}, False
            return
        if event["type"] == "BOOKMARK":
            if event["object"]["kind"] == "Node" and not self.is_shown:
                self.labels = {}  # the list had no such node any more
                self.settle()
            return
        kind, name = event["object"]["kind"], event["object"]["metadata"]["name"]
        is_gone = event["type"] == "DELETED"
        if kind == "BGPPeer" and is_gone:
            self.shown.pop(name, None)
        elif kind == "BGPPeer":
            self.shown[name] = event["object"]["spec"]
        elif name == self.node:
            self.labels = {} if is_gone else event["object"]["metadata"].get("labels") or {}
            self.is_shown = True
            self.settle()

    def accepted(self) -> None:
        """The configuration that was shown is in force. A peer that is gone has no table, and one
        whose AS numbers changed an empty one."""
        before, self.in_force = self.in_force, dict(self.shown)
        for name, spec in self.in_force.items():
            if name in before and numbers_of(before[name]) != numbers_of(spec):
                self.end(name)
                self.tables.pop(name, None)
        self.settle()

    def update(self, name: str, octets: bytes) -> None:
        """Takes in one message to a peer, and sends it where its session is established."""
        table = self.table_of(name)
        table.read(octets)
        session = self.tasks[name][0] if name in self.tasks else None
        if session and session.table is table:
            session.send(octets)

    def settle(self) -> None:
        """Ends the sessions that aren't to be any more, and begins those that are to be."""
        wanted = {name: spec for name, spec in self.in_force.items()
                  if self.identifier and self.is_selected(spec)}
        for name in list(self.tasks):
            if self.tasks[name][0].spec != wanted.get(name):
                self.end(name)
        for name, spec in wanted.items():
            if name not in self.tasks:
                self.start(name, spec)
        for name in set(self.tables) - set(self.in_force):
            del self.tables[name]
        for name in set(self.told) - set(self.in_force):
            del self.told[name]

    def is_selected(self, spec: Spec) -> bool:
        selectors = spec.get("nodeSelectors") or []
        return not selectors or any(matches(selector, self.labels) for selector in selectors)

    def start(self, name: str, spec: Spec) -> None:
        self.tell_unserved(name, spec)
        session = Session(name, spec, self.table_of(name), self.identifier or "", self.families,
                          self.retry, self.ask, self.is_own_hop, self.ports)
        session.is_whole = self.is_whole
        task = asyncio.create_task(session.keep(), name=f"session with {name}")
        task.add_done_callback(tell_end)
        self.tasks[name] = session, task

    def tell_unserved(self, name: str, spec: Spec) -> None:
        """Tells once what a peer asks for and isn't done."""
        asked = unserved(spec, SERVED)
        if asked != self.told.get(name, []):
            LOG.warning("BGPPeer %s asks for %s, which isn't done", name, ", ".join(asked))
        self.told[name] = asked

    def end(self, name: str) -> None:
        if name in self.tasks:
            LOG.info("session with %s: closed", name)
            self.tasks.pop(name)[1].cancel()

    def close(self) -> None:
        """The bridge ends. Peers that do such keep the routes for another one that starts."""
        for name, (session, _) in list(self.tasks.items()):
            session.is_silent = True
            self.end(name)


def tell_end(task: asyncio.Task[None]) -> None:
    """A session's task ends where it is cancelled, and never else."""
    if not task.cancelled():
        LOG.error("%s: its task has ended", task.get_name(), exc_info=task.exception())
