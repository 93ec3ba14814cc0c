"""A small cluster for one history: a store with its API server, hops that misbehave before it, and
the bridges of controllers."""
import json
import pathlib
import signal
import subprocess
import sys
import tempfile
import threading
import time
from collections.abc import Callable, Iterator
from dataclasses import dataclass
from typing import Any

TOP = pathlib.Path(__file__).resolve().parents[2]
sys.path.append(str(TOP / "tests/cluster"))
from hop import PASS, Fate, Hop, Request
from kinds import BY_NAME
from rules import may_not_share, printed, record_of
from serving import Server
from store import MERGE, Store

Json = dict[str, Any]
WAIT = 20.0  # seconds in which something must come about
LOOK = 0.02
LEASE = ("metallb-system", "controller")


class Failed(Exception):
    """A history didn't go as it must."""


@dataclass(frozen=True)
class Asked:
    """What the histories are tried with."""
    bridge: str
    controller: str
    words: tuple[str, ...]
    folder: pathlib.Path
    admit: str | None = None


def resource(kind: str, name: str, spec: Json, version: str = "metallb.io/v1beta1",
             namespace: str = "metallb-system", **metadata: object) -> Json:
    return {"apiVersion": version, "kind": kind, "spec": spec,
            "metadata": {"name": name, "namespace": namespace, **metadata}}


def pool(name: str, *entries: str) -> Json:
    return resource("IPAddressPool", name, {"addresses": list(entries)})


def service(name: str, annotations: dict[str, str] | None = None, port: int = 80,
            **spec: object) -> Json:
    spec = {"type": "LoadBalancer", "ports": [{"port": port}], "selector": {"app": name}, **spec}
    return resource("Service", name, spec, "v1", "default", annotations=annotations or {})


class Bridge:
    """The bridge of a controller, with what it tells."""

    def __init__(self, asked: Asked, name: str, server: str, words: tuple[str, ...]) -> None:
        self.log = asked.folder / f"{name}.log"
        command = [sys.executable, "-B", asked.bridge, "controller", "--program", asked.controller,
                   "--server", server, *asked.words, *words]
        with open(self.log, "wb") as file:
            self.process = subprocess.Popen(command, stdout=file, stderr=file)

    def text(self) -> str:
        return self.log.read_text(errors="replace")

    def pause(self) -> None:
        self.process.send_signal(signal.SIGSTOP)

    def go_on(self) -> None:
        self.process.send_signal(signal.SIGCONT)

    def programs(self) -> list[int]:
        """The processes that it has started."""
        found: list[int] = []
        for path in pathlib.Path(f"/proc/{self.process.pid}/task").glob("*/children"):
            found += map(int, path.read_text().split())
        return found

    def stop(self) -> int:
        self.go_on()
        self.process.terminate()
        try:
            return self.process.wait(20)
        except subprocess.TimeoutExpired:
            self.process.kill()
            return self.process.wait()


class Cluster:
    """`clashes` tells of each change by which two services had one address, though by their marks
    they may not share it; `emptied` of each by which one lost its addresses."""

    def __init__(self, asked: Asked) -> None:
        self.asked, self.store = asked, Store()
        self.server = Server(self.store).start()
        self.hops: list[Hop] = []
        self.bridges: list[Bridge] = []
        self.clashes: list[str] = []
        self.emptied: list[str] = []
        self.puts: list[str] = []
        self.threads: list[threading.Thread] = []
        self.store.on_change.append(self.changed)

    def changed(self, change: Any) -> None:
        if change.kind.name != "Service" or change.type == "DELETED":
            return
        record = record_of(change.object)
        if change.old and record_of(change.old).addresses and not record.addresses:
            self.emptied.append(change.key[1])
        for key, other in self.store.objects[change.kind].items():
            held = record_of(other)
            both = set(held.addresses) & set(record.addresses)
            if key != change.key and both and may_not_share(held.mark, record.mark):
                which = ", ".join(map(printed, both))
                self.clashes.append(f"{change.key[1]} and {key[1]} have {which} at version "
                                    f"{change.version}")

    # What there is

    def make(self, *things: Json) -> None:
        for thing in things:
            self.store.put(thing)

    def hop(self, fate: Callable[[Request], Fate] = lambda request: PASS) -> Hop:
        hop = Hop(self.server.server_address[1], fate)
        self.hops.append(hop)
        return hop

    def bridge(self, hop: Hop | None = None, *words: str) -> Bridge:
        name = f"c{len(self.bridges) + 1}"
        bridge = Bridge(self.asked, name, hop.url if hop else self.server.url, words)
        self.bridges.append(bridge)
        return bridge

    def get(self, kind: str, name: str, namespace: str = "default") -> Json:
        found: Json = self.store.get(BY_NAME[kind], (namespace, name))
        return found

    def lease(self) -> Json:
        return self.get("Lease", LEASE[1], LEASE[0])

    def named(self) -> list[str]:
        """The services that the Lease names."""
        notes = self.lease()["metadata"].get("annotations") or {}
        return [name for _, name, _ in json.loads(notes.get("metallb.io/puts-in-flight", "[]"))]

    def addresses(self) -> dict[str, list[str]]:
        items, _ = self.store.list(BY_NAME["Service"])
        return {one["metadata"]["name"]: [printed(each) for each in record_of(one).addresses]
                for one in items}

    def has(self, *names: str) -> bool:
        """Whether each of these services has an address."""
        found = self.addresses()
        return all(found.get(name) for name in names)

    def delete(self, kind: str, name: str, namespace: str = "default") -> None:
        self.store.delete(BY_NAME[kind], (namespace, name), {})

    def edit(self, name: str) -> None:
        """A user edits a service, in something that the controller doesn't read."""
        with self.store.lock:
            self.store.patch(BY_NAME["Service"], ("default", name),
                             {"metadata": {"labels": {"edit": str(self.store.version)}}}, MERGE)

    def give(self, name: str, address: str, notes: dict[str, str | None] | None = None) -> None:
        """The service has an address from before, as MetalLB leaves it."""
        body = {"metadata": {"annotations": notes or {}},
                "status": {"loadBalancer": {"ingress": [{"ip": address}]}}}
        self.store.patch(BY_NAME["Service"], ("default", name), body, MERGE, True)

    # What must come about

    def until(self, probe: Callable[[], object], what: str, seconds: float = WAIT) -> None:
        end = time.monotonic() + seconds
        while not probe():
            if time.monotonic() > end:
                raise Failed(f"not within {seconds:.0f} s: {what}; {self.addresses()}")
            time.sleep(LOOK)

    def while_(self, probe: Callable[[], object], seconds: float, what: str) -> None:
        """It must stay so for some time."""
        end = time.monotonic() + seconds
        while time.monotonic() < end:
            if not probe():
                raise Failed(f"not any more: {what}; {self.addresses()}")
            time.sleep(LOOK)

    def check(self, holds: object, what: str) -> None:
        if not holds:
            raise Failed(f"{what}; {self.addresses()}")

    def stop(self) -> Iterator[str]:
        """Ends all. What went wrong that no history allows."""
        for bridge in self.bridges:
            if bridge.process.poll() is not None:
                yield f"{bridge.log.name}: the bridge ended by itself: {bridge.process.poll()}"
            bridge.stop()
            if "Traceback" in bridge.text():
                yield f"{bridge.log.name}: a fault in the bridge"
        for hop in self.hops:
            hop.cut()
            hop.stop()
        self.server.stop()
        if self.clashes:
            yield f"TWO SERVICES WITH ONE ADDRESS: {self.clashes[0]}"


def folder() -> tempfile.TemporaryDirectory[str]:
    return tempfile.TemporaryDirectory(prefix="histories-")
