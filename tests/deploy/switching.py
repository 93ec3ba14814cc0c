"""The dry run of a switch: what can't be read, what isn't served, and which services would move."""
import json
import pathlib
import subprocess

from small_cluster import TOP, Thing, pool, resource
from judging import Tally

CLASSES = {"metallb.io/allow-shared-ip": "k"}


def held(name: str, *addresses: str, port: int = 80, annotations: Thing | None = None,
         **spec: object) -> Thing:
    """A service that has these addresses, as MetalLB leaves it."""
    wanted: Thing = {"type": "LoadBalancer", "ports": [{"port": port, "protocol": "TCP"}],
                     "ipFamilies": ["IPv4"], "selector": {"app": name}, **spec}
    thing = resource("Service", name, wanted, "default")
    thing["metadata"].update(resourceVersion="7", annotations=annotations or {})
    places = [{"ip": address} for address in addresses]
    return {**thing, "status": {"loadBalancer": {"ingress": places} if places else {}}}


def dry_run(programs: pathlib.Path, things: list[Thing], *words: str) -> tuple[int, Thing]:
    """Its status, and what it tells."""
    given = json.dumps({"kind": "List", "apiVersion": "v1", "items": things})
    made = subprocess.run([TOP / "deploy/switch", "--json", "--programs", programs, *words],
                          input=given, capture_output=True, text=True, check=False)
    return made.returncode, json.loads(made.stdout) if made.stdout else {"fault": made.stderr}


def try_switch(tally: Tally, programs: pathlib.Path) -> None:
    clean(tally, programs)
    moves(tally, programs)
    objects(tally, programs)
    text = subprocess.run([TOP / "deploy/switch", "--programs", programs], input="[]",
                          capture_output=True, text=True, check=False)
    tally.check("what is no object of Kubernetes is told", text.returncode == 2
                and "no object of Kubernetes" in text.stderr, text.stderr)


def clean(tally: Tally, programs: pathlib.Path) -> None:
    shared = [held("dns", "192.0.2.1", port=53, annotations=CLASSES),
              held("web", "192.0.2.1", port=80, annotations=CLASSES)]
    status, told = dry_run(programs, [pool("p", "192.0.2.0/24"), *shared, held("b", "192.0.2.2"),
                                      held("none", type="ClusterIP")])
    tally.check("a cluster that stays as it is has status 0, and each service its address",
                status == 0 and told["keeps"] == 3 and told["configuration"] == "accepted", told)


def moves(tally: Tally, programs: pathlib.Path) -> None:
    things = [
        pool("p", "192.0.2.0/24"),
        resource("IPAddressPool", "q", {"addresses": ["198.51.100.0/24"], "avoidBuggyIPs": True,
                                        "serviceAllocation": {"namespaces": ["other"]}}),
        held("a1", "192.0.2.1"), held("a2", "192.0.2.1"),
        held("away", "203.0.113.1"), held("buggy", "198.51.100.0"),
        held("unserved", "198.51.100.7"), held("plain", "192.0.2.9", type="NodePort"),
        held("wish", "192.0.2.20", loadBalancerIP="192.0.2.21"),
        held("two", "192.0.2.30", "192.0.2.31"),
        held("gets"), held("asks", loadBalancerIP="203.0.113.9"),
        held("old", "192.0.2.40", annotations={"metallb.universe.tf/address-pool": "q"})]
    status, told = dry_run(programs, things)
    wanted = {
        "a1": "it may not share with Service default/a2", "away": "no pool has 203.0.113.1",
        "buggy": "the pool q avoids 198.51.100.0", "unserved": "the pool q doesn't serve it",
        "wish": "it asks for 192.0.2.21", "two": "it wants one address of each of IPv4"}
    lost = ["Service default/old: 192.0.2.40: it asks for the pool q; then the pool that it asks "
            "for doesn't serve it",
            "Service default/plain: 192.0.2.9: it isn't of type LoadBalancer"]
    found = {line.split(":")[0].removeprefix("Service default/"): line for line in told["moves"]}
    wrong = [(name, found.get(name)) for name, why in wanted.items()
             if not found.get(name, "").endswith(f": {why}")]
    tally.check("each service that moves is told with why", status == 1 and not wrong
                and set(found) == set(wanted), (wrong, told))
    tally.check("and those that lose their addresses", sorted(told["loses"]) == lost, told["loses"])
    begins = [[line.split(": ")[0] for line in told[part]] for part in ("gains", "waits")]
    tally.check("one that gets one, and one that waits", begins == [
        ["Service default/gets"], ["Service default/asks"]], (told["gains"], told["waits"]))


def objects(tally: Tally, programs: pathlib.Path) -> None:
    peer = {"myASN": 64512, "peerASN": 64513, "password": "p", "vrf": "red", "holdTime": "9s"}
    things = [pool("p", "192.0.2.0/24"), resource("BGPPeer", "vrf", peer),
              resource("BGPPeer", "any", {"myASN": 64512, "dynamicASN": "external"}),
              resource("L2Advertisement", "l", {"serviceSelectors": [{"matchLabels": {"a": "b"}}]}),
              resource("L2Advertisement", "m", {"serviceSelectors": []}),
              resource("BFDProfile", "f", {"echoMode": True, "receiveInterval": 300}),
              resource("ServiceL2Status", "s", {}), resource("IPAddressPool", "x", {}, "default"),
              held("bad", externalTrafficPolicy="Both"),
              resource("BGPAdvertisement", "b", {"peers": ["nobody"]})]
    status, told = dry_run(programs, things)
    tally.check("what can't be read is told by its field", status == 1 and sorted(
        told["unreadable"]) == ["BGPPeer metallb-system/any: spec.peerASN",
                                "Service default/bad: spec.externalTrafficPolicy"], told)
    tally.check("what isn't served too", sorted(told["unserved"]) == [
        "BFDProfile metallb-system/f: spec.echoMode", "BGPPeer metallb-system/any: spec.dynamicASN",
        "BGPPeer metallb-system/vrf: spec.vrf",
        "L2Advertisement metallb-system/l: spec.serviceSelectors"], told["unserved"])
    tally.check("what nobody reads is passed by", sorted(told["passed_by"]) == [
        "IPAddressPool default/x: only what is in metallb-system counts",
        "ServiceL2Status metallb-system/s: nobody reads this kind"], told["passed_by"])
    tally.check("and the configuration's first fault", told["configuration"]
                == "refused: PeerUnknown of BGPAdvertisement b", told["configuration"])
