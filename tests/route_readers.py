"""What other programs read in UPDATE messages: BGP daemons by sessions on the loopback, and
tshark."""
from __future__ import annotations

import contextlib
import ipaddress
import json
import os
import pathlib
import shutil
import socket
import struct
import subprocess
import tempfile
import time
from collections.abc import Iterator, Sequence
from typing import Any

Route = dict[str, Any]
Table = dict[str, Route]
Attributes = dict[int, bytes]

SPEAKER, DAEMON = "127.0.0.2", "127.0.0.1"
BIRD_PORT, GOBGP_PORT, GOBGP_API, FRR_PORT = 17900, 17901, "50061", 17902
FRR = pathlib.Path("/usr/lib/frr/bgpd")
KEEPALIVE = b"\xff" * 16 + struct.pack(">HB", 19, 4)

BIRD = """router id 192.0.2.254;
protocol device {{}}
protocol bgp p {{
    local {daemon} port {port} as {theirs};
    neighbor {speaker} as {ours};
    passive;
    multihop;
    ipv4 {{ import all; export none; }};
    ipv6 {{ import all; export none; }};
}}
"""

GOBGP = """[global.config]
as = {theirs}
router-id = "192.0.2.254"
port = {port}
local-address-list = ["{daemon}"]
[[neighbors]]
[neighbors.config]
neighbor-address = "{speaker}"
peer-as = {ours}
[neighbors.transport.config]
passive-mode = true
[neighbors.ebgp-multihop.config]
enabled = true
multihop-ttl = 255
[[neighbors.afi-safis]]
[neighbors.afi-safis.config]
afi-safi-name = "ipv4-unicast"
[[neighbors.afi-safis]]
[neighbors.afi-safis.config]
afi-safi-name = "ipv6-unicast"
"""

FRR_CONFIG = """router bgp {theirs}
 bgp router-id 192.0.2.254
 no bgp ebgp-requires-policy
 no bgp network import-check
 neighbor {speaker} remote-as {ours}
 neighbor {speaker} passive
 neighbor {speaker} disable-connected-check
 address-family ipv4 unicast
  neighbor {speaker} activate
  neighbor {speaker} soft-reconfiguration inbound
 exit-address-family
 address-family ipv6 unicast
  neighbor {speaker} activate
  neighbor {speaker} soft-reconfiguration inbound
 exit-address-family
"""


def open_message(number: int) -> bytes:
    """An OPEN message of this AS number for routes of both families (RFC 4271, section 4.2; RFC
    4760, section 8; RFC 6793, section 3)."""
    families = b"\x01\x04\x00\x01\x00\x01\x01\x04\x00\x02\x00\x01"
    capabilities = families + b"\x41\x04" + struct.pack(">I", number)
    options = bytes([2, len(capabilities)]) + capabilities
    short = number if number < 65536 else 23456
    own = socket.inet_aton("192.0.2.1")
    body = struct.pack(">BHH4sB", 4, short, 90, own, len(options)) + options
    return b"\xff" * 16 + struct.pack(">HB", 19 + len(body), 1) + body


def connected(port: int) -> socket.socket:
    """A connection to the daemon, once it listens, or after 10 seconds a fault."""
    until = time.monotonic() + 10
    while True:
        try:
            own = (SPEAKER, 0)
            return socket.create_connection((DAEMON, port), timeout=5, source_address=own)
        except OSError:
            if time.monotonic() > until:
                raise
            time.sleep(0.2)


@contextlib.contextmanager
def session(command: list[str], port: int, ours: int, messages: list[bytes],
            settles: float) -> Iterator[None]:
    """The daemon, with a session over which it was sent the messages, so many seconds later."""
    nowhere = subprocess.DEVNULL
    with subprocess.Popen(command, stdout=nowhere, stderr=nowhere) as daemon:
        try:
            with connected(port) as peer:
                peer.sendall(open_message(ours) + KEEPALIVE)
                time.sleep(settles)
                for message in messages:
                    peer.sendall(message)
                time.sleep(settles)
                yield
        finally:
            daemon.terminate()


def asked(*command: str) -> str:
    return subprocess.run(command, capture_output=True, timeout=10, check=True).stdout.decode()


def route(hop: str, path: list[int], preference: int | None, communities: list[int],
          large: Sequence[tuple[int, ...]]) -> Route:
    """A route's attributes: large communities are triples of numbers."""
    return {
        "next hop": str(ipaddress.ip_address(hop)),
        "path": path,
        "preference": preference,
        "communities": sorted(communities),
        "large": sorted(large),
    }


def prefix_of(text: str) -> str:
    """The prefix in its canonical text, whatever octets stand behind its length."""
    address, _, length = text.partition("/")
    return f"{ipaddress.ip_address(address)}/{length}"


def by_bird(ours: int, theirs: int, messages: list[bytes], settles: float) -> Table | None:
    """The table of bird after the messages, or None where it isn't installed."""
    if not shutil.which("bird"):
        return None
    with tempfile.TemporaryDirectory() as folder:
        config, control = pathlib.Path(folder, "bird.conf"), str(pathlib.Path(folder, "control"))
        ends = {"daemon": DAEMON, "speaker": SPEAKER, "port": BIRD_PORT}
        config.write_text(BIRD.format(**ends, ours=ours, theirs=theirs))
        command = ["bird", "-f", "-c", str(config), "-s", control]
        with session(command, BIRD_PORT, ours, messages, settles):
            told = asked("birdc", "-s", control, "show", "route", "all")
    return dict(read_bird(lines, ours == theirs) for lines in routes_in(told))


def routes_in(told: str) -> list[list[str]]:
    """The routes in bird's words: each begins with its prefix, and its attributes are indented."""
    routes: list[list[str]] = []
    for line in told.splitlines():
        if line and not line[0].isspace() and "/" in line.split()[0]:
            routes.append([line])
        elif line.startswith("\t") and routes:
            routes[-1].append(line.strip())
    return routes


def numbers_in(text: str) -> list[tuple[int, ...]]:
    """The tuples of a list of bird's, such as `(64512,1) (64512,2)`."""
    parts = [part.strip("( ").split(",") for part in text.split(")") if part.strip()]
    return [tuple(int(number) for number in part) for part in parts]


def read_bird(lines: list[str], inside: bool) -> tuple[str, Route]:
    attributes: dict[str, str] = {}
    for line in lines[1:]:
        name, colon, value = line.partition(": ")
        if colon:
            attributes[name] = value
    pairs = numbers_in(attributes.get("BGP.community", ""))
    communities = [high * 65536 + low for high, low in pairs]
    path = [int(number) for number in attributes.get("BGP.as_path", "").split()]
    preference = int(attributes["BGP.local_pref"]) if inside else None
    large = numbers_in(attributes.get("BGP.large_community", ""))
    hop = attributes["BGP.next_hop"].split()[0]
    return prefix_of(lines[0].split()[0]), route(hop, path, preference, communities, large)


def by_gobgp(ours: int, theirs: int, messages: list[bytes], settles: float) -> Table | None:
    """The table of gobgpd after the messages, or None where it isn't installed."""
    if not (shutil.which("gobgpd") and shutil.which("gobgp")):
        return None
    with tempfile.TemporaryDirectory() as folder:
        config = pathlib.Path(folder, "gobgp.toml")
        ends = {"daemon": DAEMON, "speaker": SPEAKER, "port": GOBGP_PORT}
        config.write_text(GOBGP.format(**ends, ours=ours, theirs=theirs))
        api = f"{DAEMON}:{GOBGP_API}"
        command = ["gobgpd", "-f", str(config), "-t", "toml", "--api-hosts", api]
        ask = ["gobgp", "-u", DAEMON, "-p", GOBGP_API, "neighbor", SPEAKER, "adj-in", "-j", "-a"]
        with session(command, GOBGP_PORT, ours, messages, settles):
            told = [json.loads(asked(*ask, family)) for family in ("ipv4", "ipv6")]
    routes = [it for part in told for it in part.items()]
    return {prefix_of(prefix): read_gobgp(paths[0]["attrs"]) for prefix, paths in routes}


def read_gobgp(attributes: list[Route]) -> Route:
    by_type = {attribute["type"]: attribute for attribute in attributes}
    path = [number for part in by_type[2]["as_paths"] or [] for number in part["asns"]]
    hop = by_type[3]["nexthop"] if 3 in by_type else by_type[14]["nexthop"]
    triples = by_type[32]["value"] if 32 in by_type else []
    large = [(one["ASN"], one["LocalData1"], one["LocalData2"]) for one in triples]
    preference = by_type[5]["value"] if 5 in by_type else None
    communities = by_type[8]["communities"] if 8 in by_type else []
    return route(hop, path, preference, communities, large)


def by_frr(ours: int, theirs: int, messages: list[bytes], settles: float) -> Table | None:
    """The table of FRR's bgpd after the messages, or None where it isn't there or can't be run."""
    if not FRR.exists() or os.geteuid():
        return None
    with tempfile.TemporaryDirectory() as folder:
        config = pathlib.Path(folder, "bgpd.conf")
        config.write_text(FRR_CONFIG.format(speaker=SPEAKER, ours=ours, theirs=theirs))
        command = [
            str(FRR), "-f", str(config), "-l", DAEMON, "-p", str(FRR_PORT), "-i", f"{folder}/pid",
            "--vty_socket", folder, "-S", "-n", "-Z", "-P", "0",
        ]

        def show(words: str) -> Any:
            told = asked("vtysh", "--vty_socket", folder, "-c", f"show bgp {words} json")
            return json.loads(told)

        routes: Table = {}
        with session(command, FRR_PORT, ours, messages, settles):
            for family in ("ipv4", "ipv6"):
                told = show(f"{family} unicast neighbors {SPEAKER} received-routes")
                for prefix in told.get("receivedRoutes", {}):
                    path = show(f"{family} unicast {prefix}")["paths"][0]
                    routes[prefix_of(prefix)] = read_frr(path, ours == theirs)
    return routes


def read_frr(path: Route, inside: bool) -> Route:
    numbers = [int(it) for part in path["aspath"]["segments"] for it in part["list"]]
    texts = path.get("community", {}).get("list", [])
    larges = path.get("largeCommunity", {}).get("list", [])
    large = [tuple(int(number) for number in text.split(":")) for text in larges]
    preference = path.get("locPrf", path.get("localPref")) if inside else None
    hop = path["nexthops"][0]["ip"]
    return route(hop, numbers, preference, [community_number(it) for it in texts], large)


KNOWN = {  # the well-known communities by FRR's names (RFC 1997; RFC 7999; RFC 3765; RFC 8326)
    "noExport": 0xFFFFFF01,
    "noAdvertise": 0xFFFFFF02,
    "localAs": 0xFFFFFF03,
    "noPeer": 0xFFFFFF04,
    "blackhole": 0xFFFF029A,
    "gracefulShutdown": 0xFFFF0000,
}


def community_number(text: str) -> int:
    """The number of a community in FRR's words."""
    if text in KNOWN:
        return KNOWN[text]
    high, low = text.split(":")
    return int(high) * 65536 + int(low)


def by_tshark(messages: list[bytes]) -> list[str] | None:
    """What tshark has to object to in the messages, or None where it isn't installed."""
    if not shutil.which("tshark"):
        return None
    with tempfile.NamedTemporaryFile(suffix=".pcap") as file:
        # each message is the payload of a TCP segment to port 179 of its own connection
        file.write(struct.pack("<IHHIIII", 0xA1B2C3D4, 2, 4, 0, 0, 65535, 101))
        for at, message in enumerate(messages):
            ports = (20000 + at % 40000, 179)
            tcp = struct.pack(">HHIIHHHH", *ports, 1, 1, 0x5018, 65535, 0, 0) + message
            address = struct.pack(">I", 0x7F000000 + 2 + at // 40000)
            size, own = 20 + len(tcp), socket.inet_aton(DAEMON)
            head = struct.pack(">BBHHHBBH4s4s", 0x45, 0, size, 0, 0, 64, 6, 0, address, own)
            packet = head + tcp
            file.write(struct.pack("<IIII", 0, 0, len(packet), len(packet)) + packet)
        file.flush()
        words = [word for name in FIELDS for word in ("-e", name)]
        command = ["tshark", "-r", file.name, "-T", "fields", "-E", "separator=|", *words]
        ran = subprocess.run(command, capture_output=True, timeout=120, check=True)
    lines = ran.stdout.decode().splitlines()
    return [
        objections(dict(zip(FIELDS, line.split("|"))), message)
        for line, message in zip(lines, messages, strict=True)
    ]


FIELDS = ["bgp.type", "_ws.malformed", "_ws.expert.severity", "_ws.expert.message", "bgp.length"]
# tshark's notices of an UPDATE message are no faults of it: 1048576 is a remark on the
# conversation, 2097152 a note
FAULTS = {"4194304", "6291456", "8388608"}


def objections(told: dict[str, str], message: bytes) -> str:
    """What is wrong with the message by tshark, or an empty text."""
    if told["bgp.type"] != "2" or told["bgp.length"] != str(len(message)):
        return f"no one UPDATE message: {told}"
    if told["_ws.malformed"] or FAULTS & set(told["_ws.expert.severity"].split(",")):
        return f"malformed: {told}"
    return ""


def table_after(messages: list[bytes]) -> Table:
    """The table that the messages say, by RFC 4271, section 4.3, and RFC 4760, sections 3, 4."""
    table: Table = {}
    for message in messages:
        gone = int.from_bytes(message[19:21])
        size = int.from_bytes(message[21 + gone:23 + gone])
        attributes = attributes_in(message[23 + gone:23 + gone + size])
        unreached = attributes.get(15, b"\0\2\1")
        reached = attributes.get(14, b"\0\2\1\0\0")
        hop_end = 4 + reached[3]
        withdrawn = prefixes_in(message[21:21 + gone], 4) + prefixes_in(unreached[3:], 16)
        for prefix in withdrawn:
            table.pop(prefix, None)
        for prefix in prefixes_in(message[23 + gone + size:], 4):
            table[prefix] = told_by(attributes, str(ipaddress.ip_address(attributes[3])))
        for prefix in prefixes_in(reached[hop_end + 1:], 16):
            table[prefix] = told_by(attributes, str(ipaddress.ip_address(reached[4:hop_end])))
    return table


def prefixes_in(octets: bytes, size: int) -> list[str]:
    """The prefixes of addresses of so many octets."""
    prefixes: list[str] = []
    while octets:
        length, count = octets[0], (octets[0] + 7) // 8
        address = ipaddress.ip_address(octets[1:1 + count].ljust(size, bytes(1)))
        prefixes.append(f"{address}/{length}")
        octets = octets[1 + count:]
    return prefixes


def attributes_in(octets: bytes) -> Attributes:
    attributes: Attributes = {}
    while octets:
        wide = octets[0] & 0x10
        size, start = (int.from_bytes(octets[2:4]), 4) if wide else (octets[2], 3)
        attributes[octets[1]] = octets[start:start + size]
        octets = octets[start + size:]
    return attributes


def words_in(octets: bytes) -> list[int]:
    return [int.from_bytes(octets[at:at + 4]) for at in range(0, len(octets), 4)]


def told_by(attributes: Attributes, hop: str) -> Route:
    large = words_in(attributes.get(32, b""))
    preference = int.from_bytes(attributes[5]) if 5 in attributes else None
    triples = [tuple(large[at:at + 3]) for at in range(0, len(large), 3)]
    communities = words_in(attributes.get(8, b""))
    return route(hop, words_in(attributes[2][2:]), preference, communities, triples)
