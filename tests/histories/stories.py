"""The histories: each a function that is given a small cluster, named for what happens in it. What
comes of none of them, ever, is two services with one address, and that a bridge ends by itself."""
import json
import os
import signal
import time
from collections.abc import Callable

from cluster import LEASE, Cluster, Failed, pool, service
from hop import PASS, Fate, Hop, Request
from kinds import BY_NAME
from serving import Faults, Watch
from store import MERGE, Refused

HELD = Fate("hold")
Fates = Callable[[Request], Fate]


class Expiring(Faults):
    """Each watch expires at its next event."""

    def of_event(self, _watch: Watch) -> str | None:
        return "expires"


def once(fate: Fate, applies: Callable[[Request], bool]) -> Fates:
    """The first request of this kind meets with this fate."""
    met: list[Request] = []

    def of(request: Request) -> Fate:
        if met or not applies(request):
            return PASS
        met.append(request)
        return fate
    return of


def is_put(request: Request) -> bool:
    return request.is_put


def held(cluster: Cluster) -> Hop:
    """A hop that holds the first put back, and lets nothing pass any more from then on."""
    hop = cluster.hop()

    def fate(request: Request) -> Fate:
        if request.is_put and not hop.is_down:
            hop.is_down = True
            hop.close_all()
            return HELD
        return PASS
    hop.fate = fate
    return hop


# Two controllers

def a_put_is_held_while_another_controller_takes_over(cluster: Cluster) -> None:
    """The first one's put is on its way, and it is cut off. Another takes over and gives the
    address to another service; then the put comes. A time-out of 65 s had it stored in the end:
    two services with one address."""
    cluster.make(pool("p", "192.0.2.10/32"), service("z"))
    hop = held(cluster)
    cluster.bridge(hop)
    cluster.until(lambda: hop.held, "the put of z is held")
    cluster.make(service("b"))
    cluster.bridge()
    cluster.until(lambda: cluster.has("b"), "the second controller serves b")
    cluster.check(hop.release() == [409], "the put of z comes too late")
    hop.mend()
    cluster.while_(lambda: not cluster.addresses()["z"], 2, "z has no address")


def a_controller_is_cut_off_and_comes_back(cluster: Cluster) -> None:
    """Cut off with a put out, it must not go on where it was once the cut ends: both gave one
    address, and then took it from each other for ever."""
    cluster.make(pool("p", "192.0.2.10/32"), service("z"))
    hop = cluster.hop()

    def cut(request: Request) -> Fate:
        if request.is_put and not hop.is_down and len(cluster.bridges) == 1:
            hop.cut()
            return Fate("cut")
        return PASS
    hop.fate = cut
    first = cluster.bridge(hop)
    cluster.until(lambda: hop.is_down, "the first controller is cut off as it puts z")
    cluster.make(service("b"))
    cluster.bridge()
    cluster.until(lambda: cluster.has("b"), "the second controller serves b")
    hop.mend()
    cluster.until(lambda: first.text().count("is the controller") > 1, "the first stands back")
    writes = cluster.store.latest_versions()
    time.sleep(2)
    cluster.check(cluster.store.latest_versions() == writes, "nobody writes any more")


def a_controller_stands_still_and_goes_on(cluster: Cluster) -> None:
    """Its process is stopped with a put that it hasn't sent, for longer than its Lease; another
    serves meanwhile, and services come and go; then it goes on."""
    cluster.make(pool("p", "192.0.2.10/32"), service("z"))
    first = cluster.bridge()
    cluster.until(lambda: cluster.has("z"), "z is served")
    first.pause()
    cluster.bridge()
    cluster.delete("Service", "z")
    cluster.make(service("b"))
    cluster.until(lambda: cluster.has("b"), "the second controller serves b")
    first.go_on()
    cluster.make(service("z"))
    cluster.while_(lambda: not cluster.addresses()["z"], 2, "z waits")
    cluster.delete("Service", "b")
    cluster.until(lambda: cluster.has("z"), "z is served then")


def a_third_takes_over_from_the_second(cluster: Cluster) -> None:
    """Puts of two controllers are held, and both come behind the third one's list."""
    cluster.make(pool("p", "192.0.2.10/32"), service("y"), service("z"))
    one, two = held(cluster), held(cluster)
    cluster.bridge(one)
    cluster.until(lambda: one.held, "the first one's put is held")
    cluster.bridge(two)
    cluster.until(lambda: two.held, "the second one's put is held")
    cluster.make(service("b"))
    cluster.delete("Service", "y")
    cluster.bridge()
    cluster.until(lambda: cluster.has("b"), "the third controller serves b")
    cluster.check(not {200} & {*one.release(), *two.release()}, "both puts come too late")


def the_lease_is_deleted_while_a_put_is_held(cluster: Cluster) -> None:
    """Who finds no Lease doesn't make one, and says so: with the old one the names are lost. A
    bridge that made a new one gave z's address to b, and then z's put came."""
    cluster.make(pool("p", "192.0.2.10/32"), service("z"))
    hop = held(cluster)
    cluster.bridge(hop)
    cluster.until(lambda: hop.held, "the put of z is held")
    cluster.delete("Lease", LEASE[1], LEASE[0])
    cluster.make(service("b"))
    second = cluster.bridge()
    cluster.until(lambda: "the manifest makes it" in second.text(), "the second one says so")
    cluster.while_(lambda: not cluster.addresses()["b"], 3, "b waits")
    cluster.check(hop.release() == [200], "the put of z comes")


def the_lease_comes_later(cluster: Cluster) -> None:
    """Without it nothing is done; once the manifest makes it, all is."""
    cluster.delete("Lease", LEASE[1], LEASE[0])
    cluster.make(pool("p", "192.0.2.10/32"), service("a"))
    bridge = cluster.bridge()
    cluster.until(lambda: "the manifest makes it" in bridge.text(), "it says that there is none")
    cluster.check(not cluster.has("a"), "a waits")
    cluster.make({"apiVersion": "coordination.k8s.io/v1", "kind": "Lease",
                  "metadata": {"name": LEASE[1], "namespace": LEASE[0]}})
    cluster.until(lambda: cluster.has("a"), "a is served")


def the_lease_is_lost_while_its_names_are_fenced(cluster: Cluster) -> None:
    """The one that takes over can't change the named service yet; a third takes the Lease from it.
    No bridge ends by that."""
    cluster.make(pool("p", "192.0.2.10/32"), service("z"))
    down = True

    def webhook(request: Request) -> Fate:
        return Fate("refuse", 500, "failed calling webhook") if down and request.is_change else PASS
    cluster.bridge(held(cluster))
    cluster.until(lambda: cluster.hops[0].held, "the put of z is held")
    second = cluster.bridge(cluster.hop(webhook))
    cluster.until(lambda: "can't be fenced" in second.text(), "the second one can't fence it")
    second.pause()
    cluster.bridge(cluster.hop(webhook))
    cluster.until(lambda: "can't be fenced" in cluster.bridges[2].text(), "nor can the third one")
    second.go_on()
    cluster.until(lambda: second.text().count("is the controller") > 1, "the second stands back")
    down = False
    cluster.until(lambda: cluster.has("z"), "z is served", 30)
    cluster.check(cluster.hops[0].release() == [409], "its first put comes too late")


def the_program_is_killed_while_its_put_is_held(cluster: Cluster) -> None:
    """One controller alone: its program is killed with a put out, which comes behind the list of
    the program that was started anew."""
    cluster.make(pool("p", "192.0.2.10/32"), service("z"))
    hop = cluster.hop(once(Fate("keep"), is_put))
    bridge = cluster.bridge(hop)
    cluster.until(lambda: hop.held, "the put of z is held")
    for pid in bridge.programs():
        os.kill(pid, signal.SIGKILL)
    cluster.make(service("b"))
    cluster.until(lambda: cluster.has("b") or cluster.has("z"), "one of both is served")
    cluster.check(hop.release() == [409], "the put of z comes too late")
    time.sleep(1)
    cluster.check(sum(map(bool, cluster.addresses().values())) == 1, "and no other one")


# Hops that send twice, and lost answers

def a_hop_sends_a_put_twice(cluster: Cluster) -> None:
    """The first answer, 200, is lost; the second is 409. `stale` was said of a put that is stored,
    and the next service got its address."""
    cluster.make(pool("p", "192.0.2.10-192.0.2.11"), service("a"), service("b"))
    cluster.bridge(cluster.hop(once(Fate("twice"), is_put)))
    cluster.until(lambda: cluster.has("a", "b"), "both are served")


def a_hop_sends_all_twice(cluster: Cluster) -> None:
    """Each put, each fence and each change of the Lease: nobody waits for ever."""
    cluster.make(pool("p", "192.0.2.10-192.0.2.19"), *(service(name) for name in "abc"))

    def twice(request: Request) -> Fate:
        return Fate("twice") if request.method in ("PATCH", "PUT") else PASS
    cluster.bridge(cluster.hop(twice))
    cluster.until(lambda: cluster.has(*"abc"), "all are served")


def answers_to_puts_are_lost(cluster: Cluster) -> None:
    """A put is stored, and its answer lost: within round trips all is served, not within 65 s."""
    cluster.make(pool("p", "192.0.2.10-192.0.2.19"), *(service(name) for name in "abc"))
    lost: list[str] = []

    def lose(request: Request) -> Fate:
        if request.is_put and lost.count(request.service) < 2:
            lost.append(request.service)
            return Fate("lose") if len(lost) % 2 else Fate("cut")
        return PASS
    begun = time.monotonic()
    cluster.bridge(cluster.hop(lose))
    cluster.until(lambda: cluster.has(*"abc"), "all are served")
    cluster.check(time.monotonic() - begun < 10, "within seconds")


def puts_never_come(cluster: Cluster) -> None:
    """Three puts of a service are lost on their way, and each is fenced: by a write that changes
    something each time, since one that changes nothing moves no version."""
    cluster.make(pool("p", "192.0.2.10-192.0.2.19"), *(service(name) for name in "ab"))
    lost = 0

    def cut(request: Request) -> Fate:
        nonlocal lost
        if request.is_put and request.service == "a" and lost < 3:
            lost += 1
            return Fate("cut")
        return PASS
    cluster.bridge(cluster.hop(cut))
    cluster.until(lambda: cluster.has("a", "b"), "both are served")


def a_change_of_the_lease_is_lost(cluster: Cluster) -> None:
    """Its answer is, or itself: it is asked for again, unchanged, until it is read."""
    cluster.make(pool("p", "192.0.2.10-192.0.2.19"), *(service(name) for name in "abc"))
    count = 0

    def lose(request: Request) -> Fate:
        nonlocal count
        if request.method == "PUT":
            count += 1
            return (PASS, Fate("lose"), Fate("cut"))[count % 3]
        return PASS
    cluster.bridge(cluster.hop(lose))
    cluster.until(lambda: cluster.has(*"abc"), "all are served")


# Refusals

def refusing(status: int, headers: str = "") -> Callable[[Cluster], None]:
    """The puts of one service are always answered so; the others are served at once."""
    def history(cluster: Cluster) -> None:
        cluster.make(pool("p", "192.0.2.10-192.0.2.19"), *(service(name) for name in "abc"))

        def refuse(request: Request) -> Fate:
            if request.is_put and request.service == "a":
                return Fate("refuse", status, "not this one", headers=headers)
            return PASS
        bridge = cluster.bridge(cluster.hop(refuse))
        cluster.until(lambda: cluster.has("b", "c"), "b and c are served", 8)
        cluster.make(service("d"))
        cluster.until(lambda: cluster.has("d"), "one that comes later too", 8)
        cluster.until(lambda: "not this one" in bridge.text(), "the server's word is told")
        cluster.hops[0].fate = lambda request: PASS
        cluster.edit("a")
        cluster.until(lambda: cluster.has("a"), "a is served once it is mended")
    history.__doc__ = f"The puts of one service are answered {status}: all others are served, " \
                      "and it too once that is mended."
    return history


def a_webhook_is_down_for_one_service(cluster: Cluster) -> None:
    """It refuses puts and fences. The others are served; the put stays named until the service's
    version has moved; mended, the service gets its address by itself, though nobody edits it."""
    cluster.make(pool("p", "192.0.2.10-192.0.2.19"), *(service(name) for name in "abc"))
    down = True

    def webhook(request: Request) -> Fate:
        if down and request.is_change and request.service == "a":
            return Fate("refuse", 500, "failed calling webhook")
        return PASS
    cluster.bridge(cluster.hop(webhook))
    cluster.until(lambda: cluster.has("b", "c"), "b and c are served", 8)
    cluster.make(service("d"))
    cluster.until(lambda: cluster.has("d"), "one that comes later too", 8)
    cluster.check("a" in cluster.named(), "the Lease names the put of a")
    down = False
    cluster.until(lambda: cluster.has("a"), "a is served, though nobody edits it")


def it_is_edited_while_its_webhook_is_down(cluster: Cluster) -> None:
    """A user's edit moves the version, which is as good as the fence's own; mended, the service
    gets its address. A bridge that waited for its own write alone waited for ever."""
    cluster.make(pool("p", "192.0.2.10-192.0.2.19"), service("a"), service("b"))
    down = True

    def webhook(request: Request) -> Fate:
        if down and request.is_change and request.service == "a":
            return Fate("refuse", 500, "failed calling webhook")
        return PASS
    cluster.bridge(cluster.hop(webhook))
    cluster.until(lambda: cluster.has("b") and "a" in cluster.named(), "the put of a is named")
    cluster.edit("a")
    cluster.make(service("c"))
    cluster.until(lambda: cluster.has("c"), "c is served")
    time.sleep(1)
    down = False
    cluster.until(lambda: cluster.has("a"), "a is served")


def services_are_listed_anew_while_a_put_is_unfenced(cluster: Cluster) -> None:
    """The watch of services expires while a put is held that can't be fenced: no list is begun
    before it is. Else the list would show its address as free."""
    cluster.make(pool("p", "192.0.2.10-192.0.2.11"), service("a"), service("b"))
    down, lists = True, 0

    def fate(request: Request) -> Fate:
        nonlocal lists
        if request.path.startswith("/api/v1/services?") and "sendInitialEvents" in request.path:
            lists += 1
        if down and request.is_change and request.service == "a":
            return HELD if request.is_put else Fate("refuse", 500, "failed calling webhook")
        return PASS
    hop = cluster.hop(fate)
    cluster.bridge(hop)
    cluster.until(lambda: cluster.has("b") and hop.held, "the put of a is held")
    before = lists
    cluster.server.faults = Expiring()
    cluster.make(service("c"))
    time.sleep(1)
    cluster.server.faults = Faults()
    cluster.while_(lambda: lists == before, 2, "no list of services is begun")
    down = False
    cluster.until(lambda: lists > before, "it is, once the put is fenced")
    cluster.check(hop.release() == [409], "the put of a comes too late")
    cluster.until(lambda: cluster.has("a"), "a is served")


def a_put_is_answered_at_the_old_version(cluster: Cluster) -> None:
    """200, and nothing was changed, as by a webhook that takes the change out. It ended the
    controller; the others are to be served."""
    cluster.make(pool("p", "192.0.2.10-192.0.2.19"), *(service(name) for name in "abc"))

    def strip(request: Request) -> Fate:
        if request.is_put and request.service == "a":
            return Fate("refuse", 200, body=json.dumps(cluster.get("Service", "a")).encode())
        return PASS
    bridge = cluster.bridge(cluster.hop(strip))
    cluster.until(lambda: cluster.has("b", "c"), "b and c are served", 8)
    cluster.until(lambda: "its version stays" in bridge.text(), "it is told")
    cluster.check(bridge.text().count("program started") == 1, "the program goes on")


def a_webhook_takes_the_mark_out(cluster: Cluster) -> None:
    """200 at a later version, but the mark isn't stored: it is no `ok`, and the others are
    served."""
    cluster.make(pool("p", "192.0.2.10-192.0.2.19"), *(service(name) for name in "abc"))

    def strip(request: Request) -> Fate:
        if not request.is_put or request.service != "a":
            return PASS
        body = json.loads(request.body)
        body["metadata"]["annotations"]["metallb.io/ip-held-as"] = None
        try:
            made = cluster.store.patch(BY_NAME["Service"], ("default", "a"), body, MERGE, True)
        except Refused as refused:
            return Fate("refuse", refused.code, str(refused))
        return Fate("refuse", 200, body=json.dumps(made).encode())
    bridge = cluster.bridge(cluster.hop(strip))
    cluster.until(lambda: cluster.has("b", "c"), "b and c are served", 8)
    cluster.until(lambda: "without what was put" in bridge.text(), "it is told")


def a_refused_put_holds_no_address(cluster: Cluster) -> None:
    """The puts of one service are refused for good: the one address that it was to have is
    another's soon, though nobody edits it."""
    cluster.make(pool("p", "192.0.2.10/32"), service("a"), service("b"))

    def refuse(request: Request) -> Fate:
        if request.is_put and request.service == "a":
            return Fate("refuse", 422, "not this one")
        return PASS
    cluster.bridge(cluster.hop(refuse))
    cluster.until(lambda: cluster.has("b"), "b is served")


def one_put_is_never_answered(cluster: Cluster) -> None:
    """The connection stays, and nothing comes: others are held up once, for as long as a put is
    waited for, and not again."""
    cluster.make(pool("p", "192.0.2.10-192.0.2.19"), *(service(name) for name in "abc"))

    def stall(request: Request) -> Fate:
        return Fate("stall") if request.is_put and request.service == "a" else PASS
    cluster.bridge(cluster.hop(stall))
    cluster.until(lambda: cluster.has("b", "c"), "b and c are served", 60)


def the_server_is_busy(cluster: Cluster) -> None:
    """429 with Retry-After for all writes, for two seconds: all is served soon behind that."""
    cluster.make(pool("p", "192.0.2.10-192.0.2.19"), *(service(name) for name in "abc"))
    end = time.monotonic() + 2

    def busy(request: Request) -> Fate:
        if request.method in ("PATCH", "PUT") and time.monotonic() < end:
            return Fate("refuse", 429, "too many requests", headers="Retry-After: 1\r\n")
        return PASS
    cluster.bridge(cluster.hop(busy))
    cluster.until(lambda: cluster.has(*"abc"), "all are served", 10)


# Nothing is emptied by mistake

def held_services(cluster: Cluster) -> None:
    cluster.make(service("a"), service("b"))
    cluster.give("a", "192.0.2.10")
    cluster.give("b", "192.0.2.11")


def the_namespace_is_wrong(cluster: Cluster) -> None:
    """No pool is there where services hold addresses: nothing is begun, and it is said."""
    cluster.make(pool("p", "192.0.2.10-192.0.2.11"))
    held_services(cluster)
    bridge = cluster.bridge(None, "--namespace", "kube-system")
    cluster.make({"apiVersion": "coordination.k8s.io/v1", "kind": "Lease",
                  "metadata": {"name": LEASE[1], "namespace": "kube-system"}})
    cluster.until(lambda: "no IPAddressPool" in bridge.text(), "it is told")
    cluster.while_(lambda: cluster.has("a", "b"), 2, "both keep their addresses")


def there_is_no_pool_at_first(cluster: Cluster) -> None:
    """Once one is made, all goes on."""
    held_services(cluster)
    bridge = cluster.bridge()
    cluster.until(lambda: "no IPAddressPool" in bridge.text(), "it is told")
    cluster.make(pool("p", "192.0.2.10-192.0.2.19"), service("c"))
    cluster.until(lambda: cluster.has("c"), "a new service is served", 10)
    cluster.check(not cluster.emptied, "no service lost its address")


def all_pools_are_made_anew(cluster: Cluster) -> None:
    """Deleted and made again within a second: nobody's address moves."""
    cluster.make(pool("p", "192.0.2.10-192.0.2.19"))
    held_services(cluster)
    bridge = cluster.bridge()
    cluster.make(service("c"))
    cluster.until(lambda: cluster.has("c"), "it serves")
    before = cluster.addresses()
    cluster.delete("IPAddressPool", "p", "metallb-system")
    cluster.until(lambda: "no IPAddressPool" in bridge.text(), "it is told")
    time.sleep(1)
    cluster.make(pool("q", "192.0.2.10-192.0.2.19"), service("d"))
    cluster.until(lambda: cluster.has("d"), "and goes on")
    cluster.check({name: cluster.addresses()[name] for name in before} == before, "as before")
    cluster.check(not cluster.emptied, "no service lost its address")


def who_means_it_says_so(cluster: Cluster) -> None:
    """With the word for it, services lose the addresses of pools that aren't there."""
    held_services(cluster)
    cluster.bridge(None, "--without-pools")
    cluster.until(lambda: not any(cluster.addresses().values()), "both lose their addresses")


def services_share_by_the_older_annotation(cluster: Cluster) -> None:
    """`metallb.universe.tf/allow-shared-ip` from before: both keep their address, and so they do
    when the controller starts anew. One of them was moved at once."""
    cluster.make(pool("p", "192.0.2.10-192.0.2.19"))
    notes = {"metallb.universe.tf/allow-shared-ip": "k"}
    cluster.make(service("a", notes, 80), service("b", notes, 81))
    for name in "ab":
        cluster.give(name, "192.0.2.10", {"metallb.universe.tf/ip-allocated-from-pool": "p"})
    cluster.make(service("c", {"metallb.universe.tf/loadBalancerIPs": "192.0.2.15"}))
    bridge = cluster.bridge()
    cluster.until(lambda: cluster.addresses()["c"] == ["192.0.2.15"], "c has what it asks for")
    for pid in bridge.programs():
        os.kill(pid, signal.SIGKILL)
    cluster.make(service("d"))
    cluster.until(lambda: cluster.has("d"), "it is started anew")
    cluster.check(cluster.addresses()["a"] == cluster.addresses()["b"] == ["192.0.2.10"], "kept")


# Reading of real API servers

def streaming_lists_are_off(cluster: Cluster) -> None:
    """The server refuses watches that begin with what there is: it is asked for lists, in pages."""
    cluster.make(pool("p", "192.0.2.0/24"), *(service(f"s{at}") for at in range(7)))

    def old(request: Request) -> Fate:
        if "sendInitialEvents" in request.path:
            return Fate("refuse", 422, "sendInitialEvents is forbidden for watch")
        return PASS
    cluster.server.page = 3
    cluster.bridge(cluster.hop(old))
    cluster.until(lambda: all(cluster.addresses().values()), "all are served")
    cluster.make(service("later"))
    cluster.until(lambda: cluster.has("later"), "one that comes later too")


def a_list_expires_between_its_pages(cluster: Cluster) -> None:
    """410 for a page: the list is begun anew."""
    cluster.make(pool("p", "192.0.2.0/24"), *(service(f"s{at}") for at in range(7)))
    gone = 0

    def old(request: Request) -> Fate:
        nonlocal gone
        if "sendInitialEvents" in request.path:
            return Fate("refuse", 422, "sendInitialEvents is forbidden for watch")
        if "continue=" in request.path and gone < 3:
            gone += 1
            return Fate("refuse", 410, "the provided continue parameter is too old")
        return PASS
    cluster.server.page = 3
    cluster.bridge(cluster.hop(old))
    cluster.until(lambda: all(cluster.addresses().values()), "all are served")


def the_server_is_lost(cluster: Cluster) -> None:
    """It is told with the first break, and that it is back."""
    cluster.make(pool("p", "192.0.2.10-192.0.2.19"), service("a"))
    hop = cluster.hop()
    bridge = cluster.bridge(hop)
    cluster.until(lambda: cluster.has("a"), "a is served")
    before = len(bridge.text())
    hop.cut()
    cluster.until(lambda: hop.url in bridge.text()[before:], "it is told")
    cluster.make(service("b"))
    time.sleep(2)
    hop.mend()
    cluster.until(lambda: cluster.has("b"), "all goes on")
    cluster.check("answers again" in bridge.text(), "and that is told")


def watches_are_refused_for_a_while(cluster: Cluster) -> None:
    """403, 429 and 504 for each watch: it is told, and asked again."""
    cluster.make(pool("p", "192.0.2.10-192.0.2.19"), service("a"))
    count = 0

    def refuse(request: Request) -> Fate:
        nonlocal count
        if "watch=1" not in request.path or count > 20:
            return PASS
        count += 1
        return (Fate("refuse", 403), Fate("refuse", 429, headers="Retry-After: 1\r\n"),
                Fate("refuse", 504))[count % 3]
    bridge = cluster.bridge(cluster.hop(refuse))
    cluster.until(lambda: cluster.has("a"), "a is served", 40)
    cluster.check("no watch of" in bridge.text(), "it is told")


def a_watch_falls_silent(cluster: Cluster) -> None:
    """Nothing more comes by any watch, though each connection stands, as behind a load balancer
    whose server is gone. The server sends a bookmark each minute; it is noticed sooner."""
    cluster.server.bookmark_seconds = 60.0
    cluster.make(pool("p", "192.0.2.10-192.0.2.19"), service("a"))
    hop = cluster.hop()
    cluster.bridge(hop)
    cluster.until(lambda: cluster.has("a"), "a is served")
    hop.freeze()
    cluster.make(service("b"))
    cluster.until(lambda: cluster.has("b"), "b is served", 60)


HISTORIES: dict[str, Callable[[Cluster], None]] = {
    function.__name__: function for function in (
        a_put_is_held_while_another_controller_takes_over,
        a_controller_is_cut_off_and_comes_back, a_controller_stands_still_and_goes_on,
        a_third_takes_over_from_the_second, the_lease_is_deleted_while_a_put_is_held,
        the_lease_comes_later, the_lease_is_lost_while_its_names_are_fenced,
        the_program_is_killed_while_its_put_is_held, a_hop_sends_a_put_twice,
        a_hop_sends_all_twice, answers_to_puts_are_lost, puts_never_come,
        a_change_of_the_lease_is_lost,
        a_webhook_is_down_for_one_service, it_is_edited_while_its_webhook_is_down,
        services_are_listed_anew_while_a_put_is_unfenced, a_put_is_answered_at_the_old_version,
        a_webhook_takes_the_mark_out, a_refused_put_holds_no_address,
        one_put_is_never_answered, the_server_is_busy, the_namespace_is_wrong,
        there_is_no_pool_at_first, all_pools_are_made_anew, who_means_it_says_so,
        services_share_by_the_older_annotation, streaming_lists_are_off,
        a_list_expires_between_its_pages, the_server_is_lost, watches_are_refused_for_a_while,
        a_watch_falls_silent)}
HISTORIES |= {f"a_put_is_answered_{status}": refusing(status)
              for status in (400, 401, 403, 422, 429, 500, 503)}


def run(cluster: Cluster, history: Callable[[Cluster], None]) -> list[str]:
    """What went wrong in a history."""
    wrong: list[str] = []
    try:
        history(cluster)
    except Failed as fault:
        wrong.append(str(fault))
    return [*wrong, *cluster.stop()]
