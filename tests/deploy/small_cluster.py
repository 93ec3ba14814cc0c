"""The small API server of tests/cluster, and objects for it."""
import contextlib
import json
import pathlib
import subprocess
import sys
import urllib.error
import urllib.parse
import urllib.request
from typing import Any

TOP = pathlib.Path(__file__).resolve().parent.parent.parent
Thing = dict[str, Any]
PATHS = {
    "Service": "/api/v1/namespaces/{}/services",
    "Secret": "/api/v1/namespaces/{}/secrets",
    "Namespace": "/api/v1/namespaces",
    "EndpointSlice": "/apis/discovery.k8s.io/v1/namespaces/{}/endpointslices",
    "Lease": "/apis/coordination.k8s.io/v1/namespaces/{}/leases",
    "IPAddressPool": "/apis/metallb.io/v1beta1/namespaces/{}/ipaddresspools",
    "L2Advertisement": "/apis/metallb.io/v1beta1/namespaces/{}/l2advertisements",
    "BGPAdvertisement": "/apis/metallb.io/v1beta1/namespaces/{}/bgpadvertisements",
    "Community": "/apis/metallb.io/v1beta1/namespaces/{}/communities",
    "BFDProfile": "/apis/metallb.io/v1beta1/namespaces/{}/bfdprofiles",
    "BGPPeer": "/apis/metallb.io/v1beta2/namespaces/{}/bgppeers",
}
VERSIONS = {"Service": "v1", "Secret": "v1", "Namespace": "v1", "Lease": "coordination.k8s.io/v1",
            "EndpointSlice": "discovery.k8s.io/v1", "BGPPeer": "metallb.io/v1beta2"}
SYSTEM = "metallb-system"


def resource(kind: str, name: str, spec: Thing, namespace: str = SYSTEM) -> Thing:
    return {"apiVersion": VERSIONS.get(kind, "metallb.io/v1beta1"), "kind": kind,
            "metadata": {"name": name, "namespace": namespace}, "spec": spec}


def pool(name: str, *entries: str) -> Thing:
    return resource("IPAddressPool", name, {"addresses": list(entries)})


def service(name: str) -> Thing:
    spec = {"type": "LoadBalancer", "ports": [{"port": 80}], "selector": {"app": name}}
    return resource("Service", name, spec, "default")


def roster(*nodes: str) -> Thing:
    """The slice of the speakers' Service, with speakers that are ready at these nodes."""
    made = resource("EndpointSlice", "speaker-1", {})
    del made["spec"]
    made["metadata"]["labels"] = {"kubernetes.io/service-name": "speaker"}
    endpoints = [{"addresses": ["127.0.0.1"], "nodeName": node, "conditions": {"ready": True}}
                 for node in nodes]
    return {**made, "addressType": "IPv4", "endpoints": endpoints}


def addresses_of(thing: Thing) -> list[str]:
    balancer = (thing.get("status") or {}).get("loadBalancer") or {}
    return [str(place["ip"]) for place in balancer.get("ingress") or []]


class Cluster:
    """The server, as a process, and requests to it."""

    def __init__(self) -> None:
        self.process = subprocess.Popen([sys.executable, TOP / "tests/cluster/server"],
                                        stdout=subprocess.PIPE, text=True)
        assert self.process.stdout
        self.url = self.process.stdout.readline().strip()
        self.port = int(urllib.parse.urlsplit(self.url).port or 0)

    def stop(self) -> None:
        self.process.terminate()
        self.process.wait(20)

    def ask(self, method: str, path: str, body: Thing | None = None) -> Thing:
        data = json.dumps(body).encode() if body is not None else None
        request = urllib.request.Request(self.url + path, data, method=method,
                                         headers={"Content-Type": "application/json"})
        with urllib.request.urlopen(request, timeout=60) as answer:
            found: Thing = json.load(answer)
            return found

    def path_of(self, thing: Thing) -> str:
        return PATHS[thing["kind"]].format(thing["metadata"].get("namespace"))

    def put(self, thing: Thing) -> None:
        """Creates the object, or puts it in the place of the one that there is."""
        path, name = self.path_of(thing), thing["metadata"]["name"]
        held = None
        with contextlib.suppress(urllib.error.HTTPError):
            held = self.ask("GET", f"{path}/{name}")
        if held is None:
            self.ask("POST", path, thing)
        else:
            version = held["metadata"]["resourceVersion"]
            metadata = {**thing["metadata"], "resourceVersion": version}
            self.ask("PUT", f"{path}/{name}", {**thing, "metadata": metadata})

    def delete(self, thing: Thing) -> None:
        self.ask("DELETE", f"{self.path_of(thing)}/{thing['metadata']['name']}")

    def addresses(self) -> dict[str, list[str]]:
        """The addresses of each service of the namespace `default`."""
        listed = self.ask("GET", PATHS["Service"].format("default"))["items"]
        return {thing["metadata"]["name"]: addresses_of(thing) for thing in listed}
