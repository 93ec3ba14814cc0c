"""Bridges as the manifests run them: by TLS, with a token, by lists, a Lease, and a webhook."""
import base64
import pathlib
import subprocess
import time
from typing import NamedTuple

from small_cluster import TOP, Cluster, Thing, pool, resource, roster, service
from front import Front
from judging import Tally, until
from running import Bridge, Reviews, free_port, got


class Place(NamedTuple):
    """Where a test is: its folder, the programs, the API server, and TLS and rights in front of
    it."""

    folder: pathlib.Path
    programs: pathlib.Path
    cluster: Cluster
    front: Front

    def program(self, name: str) -> pathlib.Path:
        return self.programs / name


def apart(addresses: dict[str, list[str]]) -> bool:
    given = [one for several in addresses.values() for one in several]
    return len(given) == len(set(given))


def serves(tally: Tally, place: Place) -> Bridge:
    """A controller by TLS and lists; its token changes, and the old one isn't taken any more."""
    at, cluster, front = free_port(), place.cluster, place.front
    cluster.put(resource("Lease", "controller", {}))  # as the manifests make it
    cluster.put(pool("p", "192.0.2.0/30"))
    for name in "abc":
        cluster.put(service(name))
    begun = time.monotonic()
    one = Bridge(place.folder, "one", "controller", "--program", place.program("mlb_controller"),
                 "--admit", place.program("mlb_admit"), "--lease-seconds", 3,
                 "--figures", f"127.0.0.1:{at}", *front.words("controller"))
    tally.check("three services get addresses by TLS, a token and lists in pages",
                until(lambda: all(cluster.addresses().values())),
                f"after {time.monotonic() - begun:.1f} s")
    tally.check("each its own, though the first put was sent twice",
                apart(cluster.addresses()) and not front.resends, cluster.addresses())
    tally.check("lists came in pages", front.pages > 8, front.pages)
    tally.check("it is well and ready",
                got(at, "/healthz")[0] == 200 and got(at, "/readyz")[0] == 200)
    front.take(b"second")
    front.cut()
    until(lambda: front.refused)
    front.give()
    cluster.put(service("d"))
    tally.check("with the new token a fourth one does",
                until(lambda: cluster.addresses()["d"]), cluster.addresses()["d"])
    full = 'metallb_allocator_addresses_in_use_total{pool="p"} 4'
    tally.check("figures by MetalLB's names", until(lambda: full in got(at, "/metrics")[1])
                and 'metallb_allocator_addresses_total{pool="p"} 4' in got(at, "/metrics")[1])
    cluster.put(service("e"))
    tally.check("why another waits", until(lambda: "default/e waits: exhausted" in one.told()))
    return one


def fenced(tally: Tally, place: Place, one: Bridge) -> None:
    """A put that is on its way while another controller takes over can't be stored any more."""
    cluster, front = place.cluster, place.front
    front.hold = True
    cluster.delete(service("d"))
    tally.check("the put of e is on its way", until(lambda: front.held))
    cluster.put(service("b2"))
    begun = time.monotonic()
    two = Bridge(place.folder, "two", "controller", "--program", place.program("mlb_controller"),
                 "--lease-seconds", 3, *front.beside().words("controller"))
    tally.check("another controller takes over, and gives the address to b2",
                until(lambda: cluster.addresses()["b2"]), f"after {time.monotonic() - begun:.1f} s")
    parts: list[bytes] = []
    front.pass_on(front.held[0], parts.append)
    tally.check("the put of e is refused then", b" 409 " in parts[0][:20], parts[0][:20])
    front.hold = front.down = False
    tally.check("the first one finds that its turn is over",
                until(lambda: one.told().count("is the controller") > 1))
    time.sleep(2)
    tally.check("no address is given twice", apart(cluster.addresses()), cluster.addresses())
    tally.check("both end in order", [one.stop(), two.stop()] == [0, 0])


def admits(tally: Tally, place: Place) -> None:
    """The webhook by HTTPS."""
    at, figures, folder = free_port(), free_port(), place.folder
    desk = Bridge(folder, "desk", "admit", "--program", place.program("mlb_admit"), "--services",
                  "--certificate", folder / "tls.crt", "--key", folder / "tls.key",
                  "--listen", f"127.0.0.1:{at}", "--figures", f"127.0.0.1:{figures}",
                  *place.front.words("admission"))
    ask = Reviews(at, folder / "ca.crt")
    tally.check("the webhook is ready", until(lambda: got(figures, "/readyz")[0] == 200))
    judges(tally, place, ask)
    judges_services(tally, ask)
    begun, count = time.monotonic(), 200
    for _ in range(count):
        ask.verdict("CREATE", pool("t", "203.0.113.0/24"))
    print(f"    {1000 * (time.monotonic() - begun) / count:.1f} ms a review, a connection each")
    before = (folder / "ca.crt").read_bytes()
    subprocess.run([TOP / "deploy/certificate", folder], check=True)

    def renewed() -> bool:
        try:
            return ask.verdict("CREATE", pool("t", "203.0.113.0/24")) is True
        except OSError:
            return False
    tally.check("a new certificate is shown without a new start",
                until(renewed) and before != (folder / "ca.crt").read_bytes())
    tally.check("it ends in order", desk.stop() == 0)


def judges(tally: Tally, place: Place, ask: Reviews) -> None:
    apart_pool = pool("q", "198.51.100.0/24")
    tally.check("a pool apart is allowed", ask.verdict("CREATE", apart_pool) is True)
    tally.check("an overlap isn't", ask.verdict("CREATE", pool("q", "192.0.2.3/32"))
                == "Overlap IPAddressPool q")
    tally.check("nor a field that can't be read", ask.verdict(
        "CREATE", resource("BGPPeer", "r", {"myASN": 1})) == "field spec.peerASN")
    tally.check("what is no review is no fault of the tool", [
        ask.verdict("", data=b"{}"), ask.verdict("", data=b"["),
        ask.verdict("JUMP", apart_pool)] == [400, 400, 400])
    long = pool("q", "198.51.100.0/24")
    long["metadata"]["managedFields"] = [{"manager": "m" * 2 ** 20}]
    tally.check("managed fields don't make one too long", ask.verdict("CREATE", long) is True)
    unnamed = pool("q", "192.0.2.3/32")
    unnamed["metadata"] = {"generateName": "q-", "namespace": "metallb-system"}
    tally.check("nor is one without a name yet passed over",
                str(ask.verdict("CREATE", unnamed)).startswith("Overlap IPAddressPool"))
    elsewhere = resource("IPAddressPool", "q", {"addresses": ["192.0.2.3/32"]}, "default")
    response = ask.ask("CREATE", elsewhere)
    tally.check("what is in another namespace is allowed, with a warning",
                isinstance(response, dict) and response["allowed"] and response["warnings"])
    place.cluster.put(apart_pool)
    inside = pool("s", "198.51.100.7/32")
    tally.check("it is shown what is stored",
                until(lambda: bool(ask.verdict("CREATE", inside) == "Overlap IPAddressPool s")))


def judges_services(tally: Tally, ask: Reviews) -> None:
    bad: Thing = service("x")
    bad["spec"]["externalTrafficPolicy"] = "Both"
    tally.check("a service that can be read is allowed",
                ask.verdict("CREATE", service("x")) is True)
    tally.check("one that can't isn't", ask.verdict("UPDATE", bad)
                == "field spec.externalTrafficPolicy")
    going = {**bad, "metadata": {**bad["metadata"], "deletionTimestamp": "2026-01-01T00:00:00Z"}}
    tally.check("unless it is on its way out", ask.verdict("UPDATE", going) is True
                and ask.verdict("DELETE", old=bad) is True)


def unjudged(tally: Tally, place: Place) -> None:
    """Without an API server nothing can be judged: by a word that is refused, or allowed."""
    for word, allowed in ("refuse", False), ("allow", True):
        at, folder = free_port(), place.folder
        desk = Bridge(folder, f"desk-{word}", "admit", "--program", place.program("mlb_admit"),
                      "--certificate", folder / "tls.crt", "--key", folder / "tls.key",
                      "--listen", f"127.0.0.1:{at}", "--unjudged", word,
                      "--server", f"http://127.0.0.1:{free_port()}")
        ask = Reviews(at, folder / "ca.crt")

        def told() -> Thing | int:
            try:
                return ask.ask("CREATE", pool("q", "198.51.100.0/24"))
            except OSError:
                return 0
        response = until(told)
        tally.check(f"what can't be judged: {word}", isinstance(response, dict)
                    and response["allowed"] is allowed and ("warnings" in response) is allowed,
                    response)
        response = ask.ask("CREATE", service("x"))
        tally.check("services aren't judged unasked", isinstance(response, dict)
                    and response["allowed"], response)
        tally.check("it ends in order", desk.stop() == 0)


def speaks(tally: Tally, place: Place) -> None:
    """A speaker, whose peer has a password in a Secret and a BFD profile."""
    at, cluster = free_port(), place.cluster
    (place.folder / "keys").write_text("key\n")
    secret = resource("Secret", "s", {})
    del secret["spec"]
    cluster.put({**secret, "data": {"password": base64.b64encode(b"password").decode()}})
    cluster.put(resource("BFDProfile", "f", {}))
    cluster.put(resource("BGPPeer", "r", {
        "myASN": 64512, "peerASN": 64513, "peerAddress": "127.0.0.1", "peerPort": free_port(),
        "passwordSecret": {"name": "s"}, "bfdProfile": "f"}))
    one = Bridge(place.folder, "speaker", "speaker", "--program", place.program("mlb_speaker"),
                 "--node-name", "n1", "--next-hop", "127.0.0.1", "--secret", place.folder / "keys",
                 "--beat-port", free_port(), "--figures", f"127.0.0.1:{at}",
                 *place.front.words("speaker"))
    tally.check("a speaker is a member", until(lambda: "members: n1" in one.told()))
    tally.check("it is ready", until(lambda: got(at, "/readyz")[0] == 200))
    tally.check("it tells what becomes of its session, which nobody answers",
                until(lambda: "session with r: " in one.told()))
    stands_back(tally, place, one)
    tells_where(tally, place, one)


def tells_where(tally: Tally, place: Place, one: Bridge) -> None:
    """The Event that says where a service is announced, once, and counted by the next start."""
    cluster = place.cluster
    made = roster("n1")
    made["metadata"] |= {"name": "a-1", "namespace": "default",
                         "labels": {"kubernetes.io/service-name": "a"}}
    cluster.put(made)
    cluster.put(resource("L2Advertisement", "l", {}))
    told = 'announcing from node "n1" with protocol "layer2"'

    def counts() -> list[int]:
        events = cluster.ask("GET", "/api/v1/namespaces/default/events")["items"]
        return [event["count"] for event in events if event["message"] == told]
    tally.check("an Event says which node announces a service", until(lambda: counts() == [1]),
                counts())
    tally.check("it ends in order", one.stop() == 0)
    two = Bridge(place.folder, "speaker2", "speaker", *one.words)
    tally.check("and the next start counts it", until(lambda: counts() == [2]), counts())
    tally.check("the second one ends in order too", two.stop() == 0)


def counted(tally: Tally, place: Place) -> None:
    """A controller that is started anew counts the Events that there are."""
    one = Bridge(place.folder, "third", "controller", "--program",
                 place.program("mlb_controller"), "--lease-seconds", 1,
                 *place.front.words("controller"))

    def is_counted() -> bool:
        return any(account == "controller" and method == "PATCH" and "/events/" in path
                   for account, method, path in list(place.front.asked))
    tally.check("a controller that is started anew counts its Events", until(is_counted))
    one.stop()


def stands_back(tally: Tally, place: Place, one: Bridge) -> None:
    """Other speakers are shown as ready, by the Service that the manifests have, and aren't heard:
    the kubelets of few are looked at each by itself, and of many all at once."""
    leases = "/apis/coordination.k8s.io/v1/namespaces/kube-node-lease/leases"

    def asked(path: str) -> bool:
        return ("speaker", "GET", path) in place.front.asked
    place.cluster.put(roster("n1", "n2"))
    tally.check("one that hears none of those that are ready waits",
                until(lambda: "so this one waits" in one.told()))
    tally.check("and looks at the kubelet", until(lambda: asked(f"{leases}/n2")))
    place.cluster.put(roster("n1", "n2", "n3", "n4", "n5"))
    tally.check("at those of many together", until(lambda: asked(f"{leases}?resourceVersion=0")))
    tally.check("nothing of that is refused", "can't be read" not in one.told(), [one.told()])
    place.cluster.put(roster("n1"))
    tally.check("it goes on once none is ready",
                until(lambda: one.told().rstrip().endswith("members: n1")), [one.told()])
