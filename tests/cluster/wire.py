"""The wire of a small cluster: the links over which the speakers' bridges send and receive frames,
and routers as their BGP peers."""
from __future__ import annotations

import os
import pathlib
import socket
import struct
import sys
import threading
from collections.abc import Callable

sys.path.append(str(pathlib.Path(__file__).resolve().parents[1]))
from route_readers import Table, table_after
from rules import Address

HOSTS = bytes.fromhex("0200ff")  # the beginning of the hardware addresses of the neighbors that ask
HOST_V4 = socket.inet_aton("192.0.2.250")
HOST_V6 = socket.inet_pton(socket.AF_INET6, "2001:db8::99")
ALL_NODES = socket.inet_pton(socket.AF_INET6, "ff02::1")
SEND_SECONDS = 10


def checksum(source: bytes, target: bytes, message: bytes) -> int:
    """The ICMPv6 checksum over the pseudo header (RFC 4443, section 2.3)."""
    data = source + target + struct.pack(">II", len(message), 58) + message
    total: int = sum(struct.unpack(f">{len(data) // 2}H", data))
    while total >> 16:
        total = (total & 0xFFFF) + (total >> 16)
    return total ^ 0xFFFF


def icmp_frame(to: bytes, hardware: bytes, source: bytes, target: bytes,
               message: bytes) -> bytes:
    message = message[:2] + struct.pack(">H", checksum(source, target, message)) + message[4:]
    header = bytes.fromhex("86dd60000000") + struct.pack(">HBB", len(message), 58, 255)
    return to + hardware + header + source + target + message


def octets_of(address: Address) -> bytes:
    return address[1].to_bytes(4 if address[0] == 4 else 16, "big")


def question(address: Address, host: bytes) -> bytes:
    """The ARP request (RFC 826) or the neighbor solicitation (RFC 4861, section 4.3) for the
    address, by a neighbor of this hardware address."""
    octets = octets_of(address)
    if address[0] == 4:
        head = b"\xff" * 6 + host + bytes.fromhex("08060001080006040001")
        return head + host + HOST_V4 + bytes(6) + octets
    group = bytes.fromhex("ff0200000000000000000001ff") + octets[13:]
    asked = b"\x87" + bytes(7) + octets + b"\x01\x01" + host
    return icmp_frame(b"\x33\x33" + group[12:], host, HOST_V6, group, asked)


def answer(address: Address, hardware: bytes, host: bytes) -> bytes:
    """The one frame that answers the neighbor's question: the address is at this hardware
    address."""
    octets = octets_of(address)
    if address[0] == 4:
        head = host + hardware + bytes.fromhex("08060001080006040002")
        return head + hardware + octets + host + HOST_V4
    told = b"\x88" + bytes(3) + bytes.fromhex("40000000") + octets + b"\x02\x01" + hardware
    return icmp_frame(host, hardware, octets, HOST_V6, told)


def unasked(address: Address, hardware: bytes) -> bytes:
    """The frame that tells all neighbors unasked (RFC 5227, section 2.3; RFC 4861, section
    7.2.6)."""
    octets = octets_of(address)
    if address[0] == 4:
        head = b"\xff" * 6 + hardware + bytes.fromhex("08060001080006040002")
        return head + hardware + octets + b"\xff" * 6 + octets
    told = b"\x88" + bytes(3) + bytes.fromhex("20000000") + octets + b"\x02\x01" + hardware
    return icmp_frame(bytes.fromhex("333300000001"), hardware, octets, ALL_NODES, told)


class Links:
    """The datagram sockets of a folder: each frame that is sent comes to `hub`, and is given with
    the link (NODE-INTERFACE) that sent it. None is lost."""

    def __init__(self, folder: str) -> None:
        self.folder, self.asked, self.lock = folder, 0, threading.Lock()
        self.answers: dict[bytes, list[tuple[str, bytes]]] = {}
        self.told: dict[str, set[bytes]] = {}
        self.hub, self.own = (socket.socket(socket.AF_UNIX, socket.SOCK_DGRAM) for _ in range(2))
        self.path, self.flushed = os.path.join(folder, "hub"), threading.Event()
        self.hub.bind(self.path)
        wait = struct.pack("ll", SEND_SECONDS, 0)
        self.own.setsockopt(socket.SOL_SOCKET, socket.SO_SNDTIMEO, wait)
        threading.Thread(target=self.listen, daemon=True).start()

    def listen(self) -> None:
        while True:
            try:
                frame, sender = self.hub.recvfrom(65536)
            except OSError:
                return
            if not sender:
                self.flushed.set()
                continue
            link = os.path.basename(sender).removesuffix(".out")
            with self.lock:
                if frame[:3] == HOSTS:
                    self.answers.setdefault(frame[:6], []).append((link, frame))
                else:
                    self.told.setdefault(link, set()).add(frame)

    def flush(self) -> None:
        """Waits until all frames that were sent so far were read."""
        self.flushed.clear()
        self.own.sendto(b"", self.path)
        self.flushed.wait(SEND_SECONDS)

    def forget(self, node: str) -> None:
        """What the node told unasked so far."""
        with self.lock:
            for link in [link for link in self.told if link.startswith(node + "-")]:
                del self.told[link]

    def neighbor(self) -> bytes:
        """The hardware address of a neighbor that hasn't asked yet."""
        self.asked += 1
        return HOSTS + struct.pack(">I", self.asked)[1:]

    def ask(self, frame: bytes) -> None:
        """Gives the frame to each link that there is, and waits while one has too many that weren't
        read."""
        for link in os.listdir(self.folder):
            if link != "hub" and not link.endswith(".out"):
                try:
                    self.own.sendto(frame, os.path.join(self.folder, link))
                except OSError:
                    pass

    def answered(self, host: bytes) -> list[tuple[str, bytes]]:
        with self.lock:
            return list(self.answers.get(host, ()))

    def close(self) -> None:
        self.hub.close()
        self.own.close()


def message(kind: int, body: bytes) -> bytes:
    return b"\xff" * 16 + struct.pack(">HB", 19 + len(body), kind) + body


# The capabilities of routes of IPv4 and of IPv6 (RFC 4760, section 8)
ROUTES = b"\1\4\0\1\0\1\1\4\0\2\0\1"


class Router:
    """A BGP peer (RFC 4271) that listens, and keeps what each node's session says, by the
    identifier of its OPEN. `number` tells its AS number."""

    def __init__(self, number: Callable[[], int]) -> None:
        self.number, self.lock = number, threading.Lock()
        self.sessions: dict[str, list[list[bytes]]] = {}
        self.server = socket.create_server(("127.0.0.1", 0))
        self.port: int = self.server.getsockname()[1]
        threading.Thread(target=self.accept, daemon=True).start()

    def accept(self) -> None:
        while True:
            try:
                connection, _ = self.server.accept()
            except OSError:
                return
            threading.Thread(target=self.serve, args=(connection,), daemon=True).start()

    def open_message(self) -> bytes:
        capabilities = ROUTES + b"\x41\x04" + struct.pack(">I", self.number())
        options = struct.pack(">BB", 2, len(capabilities)) + capabilities
        head = struct.pack(">BHH4sB", 4, 23456, 0, b"\x7f\0\0\1", len(options))
        return message(1, head + options)

    def serve(self, connection: socket.socket) -> None:
        messages: list[bytes] = []
        node: str | None = None
        stream = connection.makefile("rb")
        try:
            while head := stream.read(19):
                body = stream.read(struct.unpack(">H", head[16:18])[0] - 19)
                if head[18] == 1:
                    node = socket.inet_ntoa(body[5:9])
                    connection.sendall(self.open_message() + message(4, b""))
                    with self.lock:
                        self.sessions.setdefault(node, []).append(messages)
                elif head[18] == 2:
                    with self.lock:
                        messages.append(head + body)
                elif head[18] == 3:
                    break
        except (OSError, struct.error):
            pass
        finally:
            connection.close()
            with self.lock:
                if node is not None:
                    self.sessions[node] = [one for one in self.sessions[node]
                                           if one is not messages]

    def tables(self, node: str) -> list[Table]:
        """The table of each session that the node has."""
        with self.lock:
            return [table_after(messages) for messages in self.sessions.get(node, [])]

    def close(self) -> None:
        self.server.close()
