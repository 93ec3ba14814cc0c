"""What tshark and scapy read in Ethernet frames."""
from __future__ import annotations

import ipaddress
import shutil
import struct
import subprocess
import tempfile

Parts = dict[str, str]
FIELDS = [
    "eth.dst", "eth.src", "arp.opcode", "arp.src.hw_mac", "arp.src.proto_ipv4", "icmpv6.type",
    "icmpv6.checksum.status", "icmpv6.nd.na.target_address", "icmpv6.opt.linkaddr",
    "_ws.malformed",
]


def parts_of(frame: bytes) -> Parts:
    """What the bytes of a frame say: the hardware addresses of the frame and of its sender, and
    the address that it tells of."""
    target: ipaddress.IPv4Address | ipaddress.IPv6Address
    if frame[12:14] == b"\x08\x06":
        target = ipaddress.IPv4Address(frame[28:32])
    else:
        target = ipaddress.IPv6Address(frame[62:78])
    return {"to": frame[0:6].hex(":"), "from": frame[6:12].hex(":"), "address": str(target)}


def address_of(text: str) -> str:
    """An address that a reader tells in the one text that it has here: programs write one address
    in several ways (::192.0.2.1 and ::c000:201). What is none stays."""
    try:
        return str(ipaddress.ip_address(text))
    except ValueError:
        return text


def by_tshark(frames: list[bytes]) -> list[Parts | str] | None:
    """What tshark reads in each frame, or None where it isn't installed."""
    if not shutil.which("tshark"):
        return None
    with tempfile.NamedTemporaryFile(suffix=".pcap") as file:
        file.write(struct.pack("<IHHIIII", 0xA1B2C3D4, 2, 4, 0, 0, 65535, 1))
        for frame in frames:
            file.write(struct.pack("<IIII", 0, 0, len(frame), len(frame)) + frame)
        file.flush()
        words = [word for name in FIELDS for word in ("-e", name)]
        command = ["tshark", "-r", file.name, "-T", "fields", "-E", "separator=|", *words]
        ran = subprocess.run(command, capture_output=True, timeout=120, check=True)
    lines = ran.stdout.decode().splitlines()
    return [read_fields(dict(zip(FIELDS, line.split("|")))) for line in lines]


def read_fields(told: Parts) -> Parts | str:
    """A reading of tshark's fields in the form of `parts_of`, or what is wrong."""
    if told["_ws.malformed"]:
        return "malformed"
    if told["arp.opcode"] == "2":
        sender, address = told["arp.src.hw_mac"], told["arp.src.proto_ipv4"]
    elif told["icmpv6.type"] == "136" and told["icmpv6.checksum.status"] == "1":
        sender, address = told["icmpv6.opt.linkaddr"], told["icmpv6.nd.na.target_address"]
    else:
        return f"neither a reply nor an advertisement with a right checksum: {told}"
    if sender != told["eth.src"]:
        return f"another sender: {told}"
    return {"to": told["eth.dst"], "from": sender, "address": address_of(address)}


def by_scapy(frames: list[bytes]) -> list[Parts | str] | None:
    """What scapy reads in each frame, or None where it isn't installed. It is for Debian's own
    Python."""
    reader = """
import sys
from scapy.all import ARP, Ether, ICMPv6ND_NA, ICMPv6NDOptDstLLAddr
for line in sys.stdin:
    frame = Ether(bytes.fromhex(line.strip()))
    if ARP in frame and frame[ARP].op == 2:
        sender, address = frame[ARP].hwsrc, frame[ARP].psrc
    elif ICMPv6ND_NA in frame:
        sender, address = frame[ICMPv6NDOptDstLLAddr].lladdr, frame[ICMPv6ND_NA].tgt
        again = frame.copy()
        del again[ICMPv6ND_NA].cksum
        if bytes(again) != bytes(frame):
            sender = 'a wrong checksum'
    else:
        sender = address = 'another frame'
    print(frame.dst, frame.src, sender, address, sep='|')
"""
    lines = "".join(frame.hex() + "\n" for frame in frames)
    command = ["/usr/bin/python3", "-c", reader]
    ran = subprocess.run(command, input=lines.encode(), capture_output=True, timeout=120)
    if ran.returncode:
        return None
    read: list[Parts | str] = []
    for line in ran.stdout.decode().splitlines():
        to, source, sender, address = line.split("|")
        parts = {"to": to, "from": source, "address": address_of(address)}
        read.append(parts if sender == source else f"another sender: {sender}")
    return read
