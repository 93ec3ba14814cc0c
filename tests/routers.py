"""BGP routers in network namespaces, which the node's bridge opens sessions with: bird, FRR and
gobgpd, each with what it asks of a session. `spec` is the BGPPeer that meets it."""
from __future__ import annotations

import json
import pathlib
import re
import time
from collections.abc import Sequence
from typing import Any

from namespaces import Host

NODE, NODE_WIDE, OWN_AS, PEER_AS = "192.0.2.11", "2001:db8::11", 64512, 64513
FAR_BFD = "protocol bfd { multihop { interval 300 ms; multiplier 3; }; }"
BFD = ('protocol bfd { interface "*" { min rx interval 300 ms; min tx interval 300 ms;'
       ' multiplier 3; }; }')


class Router:
    """A router at the link, or at another network, by its number there. `wide`: the session is over
    IPv6. `source` is its AS number."""

    def __init__(self, folder: pathlib.Path, name: str, number: int, wide: bool = False,
                 source: int = PEER_AS, network: str = "192.0.2", **spec: Any) -> None:
        self.name, self.folder, self.number, self.source = name, folder / name, number, source
        self.host = Host(name, f"{network}.{number}/24", f"2001:db8::{number}/64")
        self.address = f"2001:db8::{number}" if wide else f"{network}.{number}"
        self.node = NODE_WIDE if wide else NODE
        self.folder.mkdir()
        self.log = folder / f"{name}.log"
        self.spec = {"myASN": OWN_AS, "peerASN": source, "peerAddress": self.address, **spec}

    def ask(self, *words: str) -> str:
        """What its own command answers."""
        raise NotImplementedError

    def routes(self) -> str:
        """What it tells of its routes."""
        raise NotImplementedError

    def is_up(self) -> bool:
        """Whether the session is established."""
        raise NotImplementedError

    def bfd(self) -> str:
        """What it tells of its BFD session, with `Up` in it where that is up."""
        raise NotImplementedError

    def has_all(self, prefixes: Sequence[str]) -> bool:
        told = self.routes()
        return all(prefix in told for prefix in prefixes)

    def start(self) -> None:
        raise NotImplementedError

    def stop(self) -> None:
        """Kills it."""
        for process in self.host.running:
            process.kill()
            process.wait()
        self.host.running.clear()


class Bird(Router):
    def __init__(self, folder: pathlib.Path, name: str, number: int, words: str = "",
                 before: str = "", **more: Any) -> None:
        super().__init__(folder, name, number, **more)
        families = "".join(f" {family} {{ import all; export none; }};"
                           for family in ("ipv4", "ipv6"))
        (self.folder / "bird.conf").write_text(
            f"router id 10.0.0.{number};\nprotocol device {{}}\n{before}\n"
            f"protocol bgp p {{ local {self.address} as {self.source};"
            f" neighbor {self.node} as {OWN_AS}; error wait time 1, 2; {words}{families} }}\n")
        self.start()

    def start(self) -> None:
        config, control = str(self.folder / "bird.conf"), str(self.folder / "ctl")
        self.host.start("bird", "-f", "-c", config, "-s", control, log=self.log)

    def ask(self, *words: str) -> str:
        return self.host.run("birdc", "-s", str(self.folder / "ctl"), *words).stdout.decode()

    def routes(self) -> str:
        return self.ask("show", "route")

    def is_up(self) -> bool:
        return "Established" in self.ask("show", "protocols", "p")

    def withdrawals(self) -> int:
        """How many withdrawals it got since the session began."""
        told = self.ask("show", "protocols", "all", "p")
        return sum(int(count) for count in re.findall(r"Import withdraws:\s+(\d+)", told))

    def bfd(self) -> str:
        told = self.ask("show", "bfd", "sessions").splitlines()
        return " ".join(word for line in told if self.node in line for word in line.split())


class Frr(Router):
    def __init__(self, folder: pathlib.Path, name: str, number: int, words: Sequence[str] = (),
                 **more: Any) -> None:
        super().__init__(folder, name, number, **more)
        self.folder.chmod(0o777)  # the daemons run as another user
        node = self.node
        told = "".join(f" {word}\n" if word.startswith("bgp ") else f" neighbor {node} {word}\n"
                       for word in words)
        families = "".join(f" address-family {family} unicast\n  neighbor {node} activate\n"
                           " exit-address-family\n" for family in ("ipv4", "ipv6"))
        (self.folder / "bgpd.conf").write_text(
            f"router bgp {self.source}\n bgp router-id 10.0.0.{number}\n"
            " no bgp ebgp-requires-policy\n"
            f" neighbor {node} remote-as {OWN_AS}\n neighbor {node} timers connect 1\n"
            f"{told}{families}")
        self.start()

    def start(self) -> None:
        control = ["--bfdctl", str(self.folder / "bfdd.sock")]
        more: dict[str, list[str]] = {"zebra": [], "bfdd": control, "bgpd": ["-S"]}
        for daemon, words in more.items():
            config = self.folder / f"{daemon}.conf"
            config.touch()
            files = ["-f", str(config), "-i", str(self.folder / f"{daemon}.pid"),
                     "-z", str(self.folder / "zserv"), "--vty_socket", str(self.folder)]
            self.host.start(f"/usr/lib/frr/{daemon}", *files, "-P", "0", *words,
                            log=self.log.with_name(f"{self.name}-{daemon}.log"))
            time.sleep(0.5)

    def ask(self, *words: str) -> str:
        return self.ask_of("bgpd", *words)

    def ask_of(self, daemon: str, *words: str) -> str:
        command = ["vtysh", "--vty_socket", str(self.folder), "-d", daemon, "-c", " ".join(words)]
        return self.host.run(*command).stdout.decode()

    def routes(self) -> str:
        return self.ask("show bgp ipv4 unicast") + self.ask("show bgp ipv6 unicast")

    def is_up(self) -> bool:
        told = self.ask(f"show bgp neighbors {self.node} json").replace(" ", "")
        return '"bgpState":"Established"' in told

    def bfd(self) -> str:
        told = self.ask_of("bfdd", "show bfd peers json").replace(" ", "")
        return "Up" if '"status":"up"' in told else "Down"


class Gobgp(Router):
    def __init__(self, folder: pathlib.Path, name: str, number: int, words: str = "",
                 **more: Any) -> None:
        super().__init__(folder, name, number, **more)
        families = "".join(f'[[neighbors.afi-safis]]\n[neighbors.afi-safis.config]\n'
                           f'afi-safi-name = "{family}-unicast"\n' for family in ("ipv4", "ipv6"))
        (self.folder / "gobgpd.conf").write_text(
            f'[global.config]\nas = {self.source}\nrouter-id = "10.0.0.{number}"\n'
            f'[[neighbors]]\n[neighbors.config]\nneighbor-address = "{self.node}"\n'
            f'peer-as = {OWN_AS}\n{words}\n'
            f'[neighbors.transport.config]\npassive-mode = true\n{families}')
        self.start()

    def start(self) -> None:
        config = str(self.folder / "gobgpd.conf")
        self.host.start("gobgpd", "-f", config, "--api-hosts", "127.0.0.1:50051", log=self.log)

    def ask(self, *words: str) -> str:
        return self.host.run("gobgp", *words).stdout.decode()

    def routes(self) -> str:
        return self.ask("global", "rib", "-a", "ipv4") + self.ask("global", "rib", "-a", "ipv6")

    def is_up(self) -> bool:
        told = self.ask("neighbor", self.node, "-j")
        return bool(told and json.loads(told).get("state", {}).get("session_state") == 6)
