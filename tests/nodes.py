"""A cluster in network namespaces: the small API server, the controller beside it, and on each node
of one link a bridge with its speaker."""
from __future__ import annotations

import argparse
import json
import os
import pathlib
import subprocess
import sys
import threading
import time
import urllib.request
from collections.abc import Iterable, Iterator, Mapping, Sequence
from typing import Any

from namespaces import Host, Switch, ip

TOP = pathlib.Path(__file__).resolve().parent.parent
SERVER_ADDRESS = "192.0.2.1"
SERVER = f"http://{SERVER_ADDRESS}:8080"
REQUEST_SECONDS = 60  # for one request, which is tried again
OWN = "metallb-system"
SLICES = "/apis/discovery.k8s.io/v1/namespaces/{}/endpointslices"
KUBELETS = "kube-node-lease"  # the namespace of the kubelets' Leases
RENEWED = f"/apis/coordination.k8s.io/v1/namespaces/{KUBELETS}/leases"
RENEW_SECONDS = 10


def resource(kind: str, name: str, spec: Mapping[str, Any], version: str = "metallb.io/v1beta1",
             namespace: str = OWN, **labels: str) -> dict[str, Any]:
    metadata = {"name": name, "namespace": namespace, "labels": labels}
    return {"apiVersion": version, "kind": kind, "metadata": metadata, "spec": spec}


def node(name: str) -> dict[str, Any]:
    return {"apiVersion": "v1", "kind": "Node",
            "metadata": {"name": name, "labels": {"kubernetes.io/hostname": name}}}


def endpoints(service: str, namespace: str, at: Mapping[str, str],
              unready: Sequence[str] = ()) -> dict[str, Any]:
    """What Kubernetes makes of a service and its pods, by the names of their nodes."""
    told = [{"addresses": [address], "nodeName": name,
             "conditions": {"ready": name not in unready, "serving": name not in unready}}
            for name, address in at.items()]
    metadata = {"name": f"{service}-1", "namespace": namespace,
                "labels": {"kubernetes.io/service-name": service}}
    return {"apiVersion": "discovery.k8s.io/v1", "kind": "EndpointSlice", "addressType": "IPv4",
            "ports": [{"port": 80}], "metadata": metadata, "endpoints": told}


def asked(method: str, path: str, body: Any = None, seconds: float = REQUEST_SECONDS) -> Any:
    """The API server's answer, or None."""
    kind = "application/merge-patch+json" if method == "PATCH" else "application/json"
    data = json.dumps(body).encode() if body is not None else None
    request = urllib.request.Request(SERVER + path, data, {"Content-Type": kind}, method=method)
    try:
        with urllib.request.urlopen(request, timeout=seconds) as answer:
            return json.load(answer)
    except (OSError, ValueError):
        return None


class Cluster:
    """The nodes by their names, with their numbers on the link. `words` names the programs."""

    def __init__(self, words: argparse.Namespace, folder: str, numbers: Mapping[str, int],
                 is_wide: bool = False) -> None:
        self.words, self.folder, self.numbers = words, pathlib.Path(folder), dict(numbers)
        self.temporary = self.folder / "tmp"
        self.temporary.mkdir()
        self.interface, self.unready = "eth0", list[str]()
        self.is_told_wide = False  # whether the Nodes have their IPv6 addresses alone
        self.ends: dict[str, int] = {}  # where the last start's words begin in a node's log
        self.secrets = {name: self.folder / f"secret-{name}" for name in numbers}
        self.set_keys("first-key")
        Switch(f"{SERVER_ADDRESS}/24", *(["2001:db8::1/64"] if is_wide else []))
        self.nodes = {name: Host(name, *self.addresses_of(name, is_wide)) for name in numbers}
        self.by_hardware = {host.hardware(): name for name, host in self.nodes.items()}

    def addresses_of(self, name: str, is_wide: bool) -> list[str]:
        number = self.numbers[name]
        return [f"192.0.2.{number}/24"] + ([f"2001:db8::{number}/64"] if is_wide else [])

    def own(self, name: str) -> str:
        """The address by which a node is told of the others."""
        number = self.numbers[name]
        return f"2001:db8::{number}" if self.is_told_wide else f"192.0.2.{number}"

    def set_keys(self, *keys: str, names: Iterable[str] = ()) -> None:
        """The nodes' keys, those of all where none is named."""
        for name in names or self.numbers:
            self.secrets[name].write_text("".join(f"{key}\n" for key in keys))

    def started(self, name: str, *command: str) -> subprocess.Popen[bytes]:
        """A process in the own namespace."""
        log = open(self.folder / f"{name}.log", "ab")
        environment = {**os.environ, "TMPDIR": str(self.temporary)}
        return subprocess.Popen(command, stdout=log, stderr=log, env=environment)

    def start_server(self, things: Sequence[Mapping[str, Any]] = ()) -> None:
        place = {"apiVersion": "v1", "kind": "Namespace", "metadata": {"name": KUBELETS}}
        leases = (resource("Lease", name, {"holderIdentity": name}, "coordination.k8s.io/v1",
                           KUBELETS) for name in self.numbers)
        things = [place, *leases, *things]
        threading.Thread(target=self.renew, daemon=True).start()
        load = self.folder / "things.json"
        load.write_text(json.dumps({"kind": "List", "items": things}))
        self.run_server("--load", str(load))

    def run_server(self, *words: str) -> None:
        """Starts the server, with what was stored when it was ended last."""
        server, kept = TOP / "tests/cluster/server", str(self.folder / "stored")
        given = ["--host", SERVER_ADDRESS, "--port", "8080", "--kept", kept, *words]
        self.server = self.started("server", sys.executable, str(server), *given)

    def end_server(self) -> None:
        """Ends the server: connections end, and none comes about."""
        self.server.terminate()
        self.server.wait()

    def renew(self) -> None:
        """What the kubelets of the nodes do that are alive."""
        while True:
            for name, host in self.nodes.items():
                if host.running:
                    renewed = {"spec": {"renewTime": f"{time.time():.6f}"}}
                    asked("PATCH", f"{RENEWED}/{name}", renewed, 2)
            time.sleep(RENEW_SECONDS)

    def show_addresses(self) -> bool:
        """Whether the Nodes have the nodes' addresses."""
        done = []
        for name in self.numbers:
            told = [{"type": "Hostname", "address": name},
                    {"type": "InternalIP", "address": self.own(name)}]
            path = f"/api/v1/nodes/{name}/status"
            done.append(asked("PATCH", path, {"status": {"addresses": told}}, 5))
        return None not in done

    def show_speakers(self) -> bool:
        """Whether the Service of the speakers shows those of the nodes, ready but for some."""
        at = {name: self.own(name) for name in self.numbers}
        piece, path = endpoints("speaker", OWN, at, self.unready), SLICES.format(OWN)
        told = {"endpoints": piece["endpoints"]}
        if asked("GET", f"{path}/speaker-1", None, 5):
            return asked("PATCH", f"{path}/speaker-1", told, 5) is not None
        return asked("POST", path, piece, 5) is not None

    def set_ready(self, name: str, is_ready: bool) -> None:
        """What the kubelet, or the node's absence, does."""
        self.unready = [other for other in self.unready if other != name] + [name] * (not is_ready)
        self.show_speakers()

    def bridge(self, kind: str, program: pathlib.Path, *words: str) -> list[str]:
        return [sys.executable, str(TOP / "bridge"), kind, "--program", str(program), *words]

    def start_controller(self, *words: str) -> subprocess.Popen[bytes]:
        command = self.bridge("controller", self.words.controller, "--server", SERVER, *words)
        self.controller = self.started("controller", *command)
        return self.controller

    def start(self, name: str, *words: str, key: bool = True,
              server: str | None = SERVER) -> subprocess.Popen[bytes]:
        """A node's speaker with its bridge, by heartbeats unless there's to be no key."""
        log = self.folder / f"{name}.log"
        self.ends[name] = log.stat().st_size if log.exists() else 0
        given = ["--node-name", name, "--interface", self.interface, *words]
        given += ["--secret", str(self.secrets[name])] if key else []
        given += ["--server", server] if server else []
        command = self.bridge("speaker", self.words.speaker, *given)
        shell = f"TMPDIR={self.temporary} exec \"$@\" 2>>{log}"
        return self.nodes[name].start("sh", "-c", shell, "sh", *command)

    def told(self, name: str, word: str = "") -> list[str]:
        """The lines with the word that a node's bridge told since its last start."""
        log = self.folder / f"{name}.log"
        if not log.exists():
            return []
        lines = log.read_bytes()[self.ends.get(name, 0):].decode(errors="replace").splitlines()
        return [line for line in lines if word in line]

    def members_of(self, name: str) -> list[str]:
        """The members that a node's bridge gave last."""
        lines = self.told(name, "members:")
        return lines[-1].partition("members:")[2].split() if lines else []

    def changes(self, name: str) -> int:
        return len(self.told(name, "members:"))

    def agree(self, names: Iterable[str], among: Iterable[str] = ()) -> bool:
        """Whether these nodes, or those, know of these."""
        wanted = sorted(names)
        return all(self.members_of(name) == wanted for name in among or wanted)

    def holding(self, address: str) -> list[str]:
        """The nodes whose bridges say that they announce the address."""
        def holds(name: str) -> bool:
            words = (f"announces {address}", f"withdraws {address}")
            told = [line for line in self.told(name) if line.endswith(words)]
            return bool(told) and words[0] in told[-1]
        return [name for name in self.nodes if holds(name)]

    def programs_of(self, name: str) -> Iterator[int]:
        """The process numbers of the speaker programs of a node."""
        word = b"mlb_speaker\0--node-name=" + name.encode() + b"\0"
        for entry in pathlib.Path("/proc").iterdir():
            try:
                if entry.name.isdigit() and word in (entry / "cmdline").read_bytes():
                    yield int(entry.name)
            except OSError:
                continue

    # What happens to nodes.

    def cut(self, name: str, *addresses: str) -> None:
        for address in addresses:
            ip("-n", name, "route", "add", "blackhole", f"{address}/32")

    def mend(self, name: str, *addresses: str) -> None:
        for address in addresses:
            ip("-n", name, "route", "del", "blackhole", f"{address}/32")

    def others(self, name: str) -> list[str]:
        return [f"192.0.2.{number}" for other, number in self.numbers.items() if other != name]

    def make_anew(self, name: str, is_wide: bool = False) -> None:
        """The node's interface is taken away and made anew."""
        ip("-n", name, "link", "del", "eth0")
        ip("link", "add", f"to-{name}", "type", "veth", "peer", "name", "eth0", "netns", name)
        ip("link", "set", f"to-{name}", "master", "br0", "up")
        ip("-n", name, "link", "set", "eth0", "up")
        self.nodes[name].hold("eth0", *self.addresses_of(name, is_wide))
        self.by_hardware[self.nodes[name].hardware()] = name

    def change_hardware(self, name: str, hardware: str) -> None:
        ip("-n", name, "link", "set", "eth0", "address", hardware)
        self.by_hardware[hardware] = name


def await_that(holds: Any, seconds: float = 30.0) -> None:
    """Waits until it holds, or for so long."""
    end = time.monotonic() + seconds
    while not holds() and time.monotonic() < end:
        time.sleep(0.1)
