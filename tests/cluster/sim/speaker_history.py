"""One history of the speakers of two to four nodes: users edit, things go wrong for some minutes,
then all is well again. What is wrong is told by judges of what stands announced and of the wire."""
import math
from collections.abc import Callable, Coroutine
from random import Random
from typing import Any, TextIO

import host
from air import Air
from history import Asked, Json, Result, new_store, surprises_of
from kinds import BY_NAME
from lan import Lan, Router, hand_in_speaker
from lockstep import Run, spawner
from loops import Machine, Process
from operators import TERMINATED, Reaches
from rules import (FROM_POOL, HELD_AS, Claims, Config, choose, compiled, labels_of, printed,
                   record_of)
from servers import ApiServer, Weather
from stand_ins import Simulated, note_log
from store import MERGE, Store
from troubles import BOTH, SPACES, Harm, Said, Trouble, balancer, drawn, length
from users import METALLB, Users, custom, space
from virtual import World

SETTLED = 300.0  # seconds of calm within which all is as it must be
STAYS, LOOK, ANSWERS = 10.0, 5.0, 1.0
MOMENT = 0.1  # seconds between two looks at who announces what
# Seconds of a kubelet's pulse, of a probe, until not ready, until the node counts as gone
KUBELET, PROBE, PROBES, EVICTED = 10.0, 2.0, 6.0, 50.0
KINDS = ["kill", "crash", "freeze", "pause", "suspend", "clock", "off", "leave", "cut", "down",
         "stale", "watches", "compact", "part", "part", "alone", "alone", "router", "loss"]
SERVICES = 9  # of a bare history
ROUTERS = {"q0": 1790, "q1": 1791}
PULSES = "kube-node-lease"


class NodeUsers(Users):
    """Users who leave alone what the cluster itself writes."""

    def delete_slice(self) -> None:
        kind = BY_NAME["EndpointSlice"]
        if keys := [key for key in self.store.objects[kind] if key[0] != METALLB]:
            self.store.delete(kind, self.random.choice(keys))


class Crew:
    """A speaker on each node, started anew where it ends."""

    def __init__(self, world: World, machines: list[Machine], servers: list[ApiServer],
                 serve: Callable[[Any], Coroutine[Any, Any, None]],
                 words: Callable[[str], Any], hears: Any) -> None:
        self.world, self.machines, self.serve, self.words = world, machines, serve, words
        self.reaches = Reaches(world, servers)
        self.runs: list[Run] = []
        self.spawn = spawner(self.runs, hears)
        self.bridges: list[Process] = []
        self.graves: list[Process] = []
        self.off: set[str] = set()
        self.made = self.ends = 0
        for machine in machines:
            world.after(world.chance(f"start of {machine.name}").uniform(0, 3), self.start, machine)

    def of(self, node: str) -> Process | None:
        return next((one for one in self.bridges if one.machine.name == node), None)

    def start(self, machine: Machine) -> None:
        if machine.name in self.off:
            self.world.after(2.0, self.start, machine)
            return
        self.made += 1
        process = Process(  # type: ignore[abstract]
            self.world, machine, f"speaker{self.made}", self.reaches.connect, self.spawn)
        process.ended = lambda why: self.ended(process)
        self.bridges.append(process)
        process.start(self.serve(self.words(machine.name)))

    def ended(self, process: Process) -> None:
        self.ends += 1
        self.graves.append(process)
        self.bridges.remove(process)
        pause = self.world.chance(f"after {process.name}").choice((0.5, 3.0, 15.0))
        self.world.after(pause, self.start, process.machine)

    def stop(self, bridge: Process) -> None:
        bridge.terminate()
        self.world.after(TERMINATED, bridge.kill)

    def power_off(self, machine: Machine) -> None:
        self.off.add(machine.name)
        for link in self.reaches.links:
            if link.machine is machine:
                link.power_off()
        for bridge in [bridge for bridge in self.bridges if bridge.machine is machine]:
            bridge.kill()


class Kubelets:
    """The pulses of the nodes, and which speakers are ready, as the cluster has it."""

    def __init__(self, world: World, store: Store, crew: Crew, addresses: dict[str, str],
                 servers: list[ApiServer]) -> None:
        self.world, self.store, self.crew, self.addresses = world, store, crew, addresses
        self.names = {server.name for server in servers}
        self.well = dict.fromkeys(addresses, -math.inf)  # since when a probe is answered
        self.seen = dict.fromkeys(addresses, 0.0)  # when a probe was answered last, and a pulse
        self.pulse = dict.fromkeys(addresses, 0.0)
        self.ready: dict[str, bool] = {}
        world.after(0.0, self.look)

    def look(self) -> None:
        self.world.after(1.0, self.look)
        now, ready = self.world.now, dict(self.ready)
        for machine in self.crew.machines:
            name = machine.name
            bridge = self.crew.of(name)
            if bridge and not bridge.stands():
                self.well[name] = self.well[name] if self.well[name] > 0 else now
                self.seen[name] = now
            else:
                self.well[name] = -math.inf
            is_cut = {server for server, _ in machine.cut} >= self.names
            if name not in self.crew.off and machine.since is None and not is_cut:
                if now - self.pulse[name] >= KUBELET or not now:
                    self.pulse[name] = now
                    self.renew(name)
                    self.register(name)
                if now - self.well[name] >= PROBE:
                    ready[name] = True
                if now - self.seen[name] >= PROBES or bridge is None:
                    ready[name] = False
            elif now - self.pulse[name] >= EVICTED:
                ready[name] = False
        if ready != self.ready:
            self.ready = ready
            self.show()

    def renew(self, name: str) -> None:
        self.store.put({"kind": "Lease", "apiVersion": "coordination.k8s.io/v1",
                        "metadata": {"name": name, "namespace": PULSES},
                        "spec": {"holderIdentity": name, "renewTime": f"{self.world.now:.6f}"}})

    def register(self, name: str) -> None:
        """A Node, where it is there, has its address."""
        node = self.store.objects[BY_NAME["Node"]].get(("", name))
        if node and not (node.get("status") or {}).get("addresses"):
            status = {"addresses": [{"type": "InternalIP", "address": self.addresses[name]}]}
            self.store.patch(BY_NAME["Node"], ("", name), {"status": status}, MERGE, True)

    def show(self) -> None:
        endpoints = [{"addresses": [address], "nodeName": name,
                      "conditions": {"ready": self.ready.get(name, False)}}
                     for name, address in self.addresses.items()]
        self.store.put({"kind": "EndpointSlice", "apiVersion": "discovery.k8s.io/v1",
                        "addressType": "IPv4", "endpoints": endpoints,
                        "metadata": {"name": "speaker-x", "namespace": METALLB,
                                     "labels": {"kubernetes.io/service-name": "speaker"}}})


class NodeHarm(Harm):
    """What goes wrong with nodes: besides what does with bridges, nodes lose each other, their
    routers, or some of their datagrams."""
    history: Any

    def edit(self, random: Random) -> None:
        if not self.history.is_calm:
            super().edit(random)
            self.history.give_records()

    def part(self, random: Random) -> None:
        """Two nodes lose each other, on one way or both."""
        one, two = random.sample(sorted(self.history.lan.addresses), 2)
        ways = {(one, two), (two, one)} if random.random() < 0.7 else {(one, two)}
        self.sever(ways, length(random))

    def alone(self, random: Random) -> None:
        """A node loses all others, and perhaps the API server too."""
        node, seconds = random.choice(sorted(self.history.lan.addresses)), length(random)
        self.isolate(node, seconds, random.random() < 0.5)

    def isolate(self, node: str, seconds: float, of_servers: bool) -> None:
        names = sorted(self.history.lan.addresses)
        ways = {way for other in names if other != node for way in ((node, other), (other, node))}
        self.sever(ways, seconds)
        if of_servers:
            machine = next(one for one in self.history.machines if one.name == node)
            servers = [server.name for server in self.history.servers]
            self.cut_off(machine, {(name, way) for name in servers for way in BOTH[0]}, seconds)

    def freeze(self, random: Random) -> None:
        """The program of one node stands still, or those of all."""
        runs = [run for run in self.history.crew.runs if not run.over]
        if runs and random.random() < 0.7:
            self.hang(random.choice(runs), length(random))
        else:
            super().freeze(random)

    def hang(self, run: Run, seconds: float) -> None:
        run.freeze()
        self.world.note(run.process.name, "its program stands still")
        self.world.after(seconds, self.thaw, run)

    def said_hang(self, said: Said) -> None:
        """The program of a node stands still."""
        for run in [run for run in self.history.crew.runs if not run.over]:
            if run.process.machine.name == said["node"]:
                self.hang(run, said["seconds"])

    def said_off(self, said: Said) -> None:
        """A node is off."""
        if bridge := self.history.crew.of(said["node"]):
            self.turn_off(bridge, said["seconds"])

    def said_alone(self, said: Said) -> None:
        """A node loses all others and the API server."""
        self.isolate(said["node"], said["seconds"], True)

    def sever(self, ways: set[tuple[str, str]], seconds: float) -> None:
        lan = self.history.lan
        self.world.note("lan", f"cut: {sorted(ways)}")
        lan.cut |= ways

        def mend() -> None:
            self.world.note("lan", f"mended: {sorted(ways)}")
            lan.cut -= ways
        self.world.after(seconds, mend)

    def loss(self, random: Random) -> None:
        lan = self.history.lan
        lan.loss = random.choice((0.1, 0.3, 0.6))
        self.world.note("lan", f"{lan.loss} of the datagrams are lost")
        self.world.after(length(random), setattr, lan, "loss", 0.0)

    def router(self, random: Random) -> None:
        """A node loses a router."""
        machine, name = random.choice(self.history.machines), random.choice(list(ROUTERS))
        self.cut_off(machine, {(name, way) for way in random.choice(BOTH)}, length(random))


class SpeakerHistory:
    def __init__(self, asked: Asked, serve: Callable[[Any], Coroutine[Any, Any, None]],
                 words: Callable[[list[str]], Any], trace: TextIO | None = None) -> None:
        self.asked, self.world = asked, World(asked.seed, asked.salt, trace)
        world = self.world
        self.store = new_store(world)
        host.hand_in(Simulated(world))
        note_log()
        self.is_calm, self.is_guarded = False, True
        self.weather = Weather()
        draw = world.stream("machines", False)
        count = asked.nodes or draw.choice((2, 3, 3, 4))
        self.machines = [Machine(world, f"n{at}", draw.uniform(-30, 30), draw.uniform(0.999, 1.001))
                         for at in range(1, count + 1)]
        self.hops = {machine.name: {4: f"10.9.0.{at}", 6: f"2001:db8:9::{at}"}
                     for at, machine in enumerate(self.machines, 1)}
        addresses = {name: str(hops[4]) for name, hops in self.hops.items()}
        self.lan = Lan(world, addresses)
        hand_in_speaker(self.lan)
        self.users: Any = NodeUsers(self.store, world.stream("users", False), speakers=True)
        self.users.router_ports = dict(ROUTERS)
        self.store.put(space(PULSES, {}))
        if asked.is_bare:
            self.begin_bare()
        else:
            self.begin_cluster(addresses)
        self.show_nodes(addresses)
        self.give_records()
        self.store.on_change.append(self.changed)
        for name, port in ROUTERS.items():
            self.lan.routers[port] = Router(world, name, self.number_of(name))
        self.servers = [ApiServer(world, self.store, name, self.weather)
                        for name in ("api1", "api2")]
        self.crew = self.operator = Crew(world, self.machines, self.servers, serve,
                                         lambda node: words(self.words_for(node)), self)
        self.kubelets = Kubelets(world, self.store, self.crew, addresses, self.servers)
        self.air = Air(world, self.store, self.lan, self.crew, self.hops)
        self.faults = self.weather.faults = self.air.faults
        history: Any = self
        self.harm = NodeHarm(history, asked.without)
        kinds = [kind for kind in asked.kinds or KINDS if kind not in asked.without]
        self.troubles: list[Trouble] = asked.troubles or drawn(world.stream("plan", False),
                                                               asked.seconds, kinds)

    def words_for(self, node: str) -> list[str]:
        hops = self.hops[node]
        return ["--node-name", node, "--interface", f"eth0={hardware_of(node)}", "--next-hop",
                hops[4], "--next-hop-v6", hops[6], "--router-id", hops[4]]

    def number_of(self, name: str) -> Callable[[], int]:
        return lambda: int(self.users.peer_number(name))

    def begin_bare(self) -> None:
        """Some services with endpoints everywhere, which the nodes share out among them."""
        self.store.put(space(SPACES[0], {}))
        self.store.put(custom("IPAddressPool", "p", {"addresses": ["192.0.2.0/28"]}))
        self.store.put(custom("L2Advertisement", "l", {}))
        for at in range(SERVICES):
            self.store.put(balancer((SPACES[0], f"s{at}"), {}))
            endpoints = [{"addresses": [hops[4]], "nodeName": name, "conditions": {"ready": True}}
                         for name, hops in self.hops.items()]
            self.store.put({"kind": "EndpointSlice", "apiVersion": "discovery.k8s.io/v1",
                            "addressType": "IPv4", "endpoints": endpoints,
                            "metadata": {"name": f"s{at}", "namespace": SPACES[0],
                                         "labels": {"kubernetes.io/service-name": f"s{at}"}}})

    def begin_cluster(self, addresses: dict[str, str]) -> None:
        self.users.begin()
        self.users.begin_speakers()
        self.show_nodes(addresses)
        for _ in range(10):
            self.users.make([self.users.set_slice])

    def changed(self, change: Any) -> None:
        if change.kind.name != "Lease":
            told = f"{change.type} {change.kind.name} {'/'.join(change.key)}"
            self.world.note("store", f"{change.version} {told}")

    def holder(self) -> Process | None:
        """No speaker has a Lease of all."""
        return None

    def is_vacant(self) -> bool:
        return False

    def show_nodes(self, addresses: dict[str, str]) -> None:
        """Each node is there, with its address."""
        kind = BY_NAME["Node"]
        for name, address in addresses.items():
            if ("", name) not in self.store.objects[kind]:
                self.store.put({"apiVersion": "v1", "kind": "Node",
                                "metadata": {"name": name, "labels": {"rack": "1"}}})
            status = {"addresses": [{"type": "InternalIP", "address": address}]}
            self.store.patch(kind, ("", name), {"status": status}, MERGE, True)

    def give_records(self) -> None:
        """Each service has what is chosen for it, at once, as by a controller that is quick."""
        services = self.store.objects[BY_NAME["Service"]]
        config = compiled(self.users.objects())
        if not isinstance(config, Config):
            return
        for key in sorted(services):
            claims = Claims([(one, record_of(thing), thing) for one, thing in services.items()])
            thing = services[key]
            labels = labels_of(self.store.objects[BY_NAME["Namespace"]].get(("", key[0])))
            _, record = choose(claims, config, None, key, thing, labels, record_of(thing))
            if record is not None and record != record_of(thing):
                self.store.patch(BY_NAME["Service"], key, body_of(record), MERGE, True)

    # What each run of a program is given and writes

    def given(self, run: Run, lane: str, event: Json) -> None:
        if lane == "watch":
            self.air.given(run, event)

    def written(self, run: Run, value: Json) -> Json:
        self.air.written(run, value)
        return value

    def replied(self, run: Run, reply: Json) -> None:
        raise ValueError(f"a reply to a speaker: {reply}")

    def ended(self, run: Run) -> None:
        self.air.ended(run)

    # The history

    def run(self) -> Result:
        world, asked = self.world, self.asked
        for at, trouble in enumerate(self.troubles):
            if asked.only is None or at in asked.only:
                world.at(trouble.at, self.harm, trouble)
        self.look()
        end = asked.end or math.inf
        world.run(min(end, asked.seconds), self.air.faults)
        wrong, settled = self.air.faults[:1], 0.0
        if not wrong and end > asked.seconds:
            self.heal()
            wrong = self.settle()
            settled = world.now - asked.seconds
        crew = self.crew
        surprises = [line for process in (*crew.graves, *crew.bridges)
                     for line in surprises_of(process)]
        for run in crew.runs:
            if not run.over:
                run.finish()
        return Result(world.seed, wrong, world.now, world.hash.hexdigest()[:16], world.notes,
                      self.harm.counts, self.store.version, crew.ends, surprises,
                      len(self.troubles), settled, befell=dict(world.counts))

    def look(self) -> None:
        self.world.after(MOMENT, self.look)
        self.air.look()

    def heal(self) -> None:
        self.world.note("trouble", "none any more")
        self.is_calm = True
        self.crew.off.clear()
        self.lan.cut.clear()
        self.lan.loss = 0.0
        for machine in self.machines:
            machine.cut.clear()
            machine.go_on()
        for server in self.servers:
            server.lag = 0.0
            if not server.up:
                server.recover()
            server.see(self.store.version)
        self.weather.shares, self.weather.watches = {}, {}
        self.store.history = 1000
        for bridge in self.crew.bridges:
            bridge.fuse = None
            bridge.resume()
        for run in self.crew.runs:
            if run.frozen:
                self.harm.thaw(run)
        self.users.mend()
        self.show_nodes(self.lan.addresses)
        self.give_records()

    def settle(self) -> list[str]:
        world, since = self.world, None
        left: list[str] = []
        end = min(world.now + SETTLED, self.asked.end or math.inf)
        while world.now < end:
            world.run(world.now + LOOK, self.air.faults)
            host_asked = self.air.ask()
            world.run(world.now + ANSWERS, self.air.faults)
            if self.air.faults:
                return self.air.faults[:1]
            left = self.air.left(host_asked)
            since = None if left else since or world.now
            if since and world.now - since >= STAYS:
                return []
        return [] if self.asked.end else [f"UNSETTLED within {SETTLED:.0f} s", *left]


def hardware_of(node: str) -> str:
    return f"02:00:00:00:00:{int(node[1:]):02x}"


def body_of(record: Any) -> Json:
    """The patch that gives a service the record."""
    notes = {HELD_AS: record.mark or None, FROM_POOL: record.pool or None}
    ingress = [{"ip": printed(address)} for address in record.addresses]
    return {"metadata": {"annotations": notes}, "status": {"loadBalancer": {"ingress": ingress}}}
