"""A server that speaks TLS in front of the small API server: it wants a token that changes, refuses
what the token's account has no right to, gives lists in pages of two, and no watch that begins with
what there is."""
from __future__ import annotations

import contextlib
import json
import pathlib
import re
import socket
import ssl
import threading
from collections.abc import Callable
from typing import Any

from rights import Asked, Rights, refusal

ACCOUNTS = ("controller", "speaker", "admission")
TOKEN = re.compile(rb"Authorization: Bearer (\w+)\.(\w+)\r\n")
PAGE = re.compile(r"\?limit=500(?:&continue=(\d+))?")


class Front:
    """`hold`: the next put isn't passed on but kept in `held`, and nothing is answered any more.
    `resends`: the next put is sent twice, and the second answer passed on. `asked` are the requests
    that came with a token, `denied` those that were refused for want of a right, with why."""

    def __init__(self, port: int, folder: pathlib.Path, rights: Rights) -> None:
        self.port, self.folder, self.rights = port, folder, rights
        self.token = b"first"
        self.hold = self.down = False
        self.resends = True
        self.held: list[bytes] = []
        self.refused = self.pages = 0
        self.open: set[socket.socket] = set()
        self.asked: set[Asked] = set()
        self.denied: list[str] = []
        context = ssl.SSLContext(ssl.PROTOCOL_TLS_SERVER)
        context.load_cert_chain(folder / "tls.crt", folder / "tls.key")
        self.listen = context.wrap_socket(socket.create_server(("127.0.0.1", 0)), server_side=True)
        self.url = f"https://localhost:{self.listen.getsockname()[1]}"
        threading.Thread(target=self.run, daemon=True).start()

    def beside(self) -> Front:
        """Another one, which judges by the same and notes it at the same place."""
        other = Front(self.port, self.folder, self.rights)
        other.token, other.asked, other.denied = self.token, self.asked, self.denied
        other.resends = False
        return other

    def words(self, account: str) -> list[object]:
        """How a bridge with this account asks here."""
        return ["--server", self.url, "--trust", self.folder / "first.crt",
                "--token", self.folder / f"{account}.token"]

    def take(self, token: bytes) -> None:
        """No other tokens are taken from now on than those that `give` gives."""
        self.token = token

    def give(self) -> None:
        """Each account gets a token that is taken now."""
        for account in ACCOUNTS:
            (self.folder / f"{account}.token").write_bytes(account.encode() + b"." + self.token)

    def run(self) -> None:
        while True:
            with contextlib.suppress(OSError):
                asker, _ = self.listen.accept()
                threading.Thread(target=self.serve, args=(asker,), daemon=True).start()

    def serve(self, asker: socket.socket) -> None:
        with contextlib.suppress(OSError), asker:
            while not self.down and self.take_one(asker):
                pass

    def take_one(self, asker: socket.socket) -> bool:
        """Answers one request; whether another one may come by the connection."""
        data = b""
        while b"\r\n\r\n" not in data:
            if not (more := asker.recv(65536)):
                return False
            data += more
        head, _, body = data.partition(b"\r\n\r\n")
        size = re.search(rb"(?i)content-length: (\d+)", head)
        while size and len(body) < int(size[1]):
            if not (more := asker.recv(65536)):
                return False
            body += more
        if not self.down:
            self.answer(asker, head, body)
        return not self.down and b"watch=1" not in head

    def answer(self, asker: socket.socket, head: bytes, body: bytes) -> None:
        shown = TOKEN.search(head)
        if not shown or shown[2] != self.token:
            self.refused += 1
            self.say(asker, 401, {"kind": "Status", "message": "Unauthorized"})
            return
        line, whole = head.split(b"\r\n")[0].decode(), head + b"\r\n\r\n" + body
        account, (method, target, _) = shown[1].decode(), line.split()
        self.asked.add((account, method, target))
        if why := refusal(self.rights, account, method, target):
            self.denied.append(why)
            self.say(asker, 403, {"kind": "Status", "reason": "Forbidden", "message": why})
            return
        is_put = method == "PATCH" and b'"status"' in body
        if "sendInitialEvents" in target:
            told = "sendInitialEvents: Forbidden"
            self.say(asker, 422, {"kind": "Status", "message": told})
        elif is_put and self.hold:
            self.held.append(whole)
            self.down = True
        elif page := PAGE.search(target):
            self.page(asker, head, int(page[1] or 0))
        else:
            if is_put and self.resends:
                self.resends = False
                self.pass_on(whole, lambda piece: None)
            self.pass_on(whole, asker.sendall)

    def say(self, asker: socket.socket, status: int, body: dict[str, Any]) -> None:
        data = json.dumps(body).encode()
        asker.sendall(b"HTTP/1.1 %d -\r\nContent-Type: application/json\r\nContent-Length: %d\r\n"
                      b"\r\n" % (status, len(data)) + data)

    def page(self, asker: socket.socket, head: bytes, begin: int) -> None:
        parts: list[bytes] = []
        self.pass_on(re.sub(rb"\?limit=\S+", b"", head) + b"\r\n\r\n", parts.append)
        whole = json.loads(b"".join(parts).partition(b"\r\n\r\n")[2])
        self.pages += 1
        # An API server's lists of kinds that are built in don't say the kind of each item.
        items = [{key: value for key, value in item.items() if key not in ("kind", "apiVersion")}
                 for item in whole["items"]]
        if begin + 2 < len(items):
            whole["metadata"]["continue"] = str(begin + 2)
        self.say(asker, 200, {**whole, "items": items[begin:begin + 2]})

    def pass_on(self, request: bytes, give: Callable[[bytes], object]) -> None:
        """Has the server answer by a connection of its own, which it ends."""
        request = request.replace(b"Connection: keep-alive", b"Connection: close", 1)
        with socket.create_connection(("127.0.0.1", self.port)) as server:
            self.open |= {server}
            server.sendall(request)
            while piece := server.recv(65536):
                give(piece)

    def cut(self) -> None:
        """Ends all connections behind it."""
        for server in list(self.open):
            with contextlib.suppress(OSError):
                server.shutdown(socket.SHUT_RDWR)
