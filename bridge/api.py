"""Requests to an API server: HTTP/1.1, by TLS with a token or a client's certificate, or plainly
as `kubectl proxy` takes them. Each request has a connection of its own, but that by TLS one is kept
for the next, since to make it costs more than to ask.

Whether an answer is whole is told by its form alone (RFC 9112, section 6). What isn't answered
whole may have been carried out or not, or may be later; who asks for a change finds out by
reading, not by waiting."""
import asyncio
import contextlib
import json
import logging
import os
import pathlib
import socket
import ssl
import urllib.parse
from collections.abc import AsyncGenerator, AsyncIterator, Iterator
from dataclasses import dataclass
from typing import Any

LOG = logging.getLogger("bridge")
LONGEST = 2 ** 24  # octets of a line of a head or a chunk's size
PAGE = 500  # objects of a page of a list
CONNECT_WAIT = 10.0  # seconds for a connection
STALLED = 20_000  # milliseconds in which the other side must take note of what was sent
USER_TIMEOUT = 18  # TCP_USER_TIMEOUT of Linux (RFC 5482), which not every Python names
IDLE = 15  # seconds without a segment until the other side is probed
PROBE, PROBES = 5, 3  # seconds between probes, and probes without answer until it counts as gone
ANSWER_WAIT = 120.0  # seconds for an answer
LOST_TOLD = 60.0  # seconds until a server that can't be reached is told of again
KEPT, KEPT_SECONDS = 4, 20.0  # connections that are kept, and for how long without a request
Ends = tuple[asyncio.StreamReader, asyncio.StreamWriter]
Json = dict[str, Any]


class NotSent(Exception):
    """No connection was made, so nothing was asked."""


class Broken(Exception):
    """The connection ended before its answer was whole."""


class Silent(Broken):
    """No whole answer came in the time for it."""


class Refused(Exception):
    """The answer has another status than 200. `retry_after`: the seconds in which the server
    wants to be left alone."""

    def __init__(self, status: int, message: str, retry_after: float | None = None) -> None:
        super().__init__(f"{status} {message}")
        self.status, self.retry_after = status, retry_after


@dataclass(frozen=True)
class Answer:
    """A whole answer."""
    status: int
    value: Json
    retry_after: float | None = None

    @property
    def message(self) -> str:
        """What the server says of a refusal."""
        return f"{self.status} {self.value.get('message', '')}".strip()


class Reach:
    """Tells the operator that the server can't be reached: with the first break, and each minute
    while it lasts."""

    def __init__(self, server: str) -> None:
        self.server, self.told = server, 0.0
        self.since: float | None = None

    def lost(self, why: str) -> None:
        now = asyncio.get_running_loop().time()
        if self.since is None:
            self.since = now
        elif now - self.told < LOST_TOLD:
            return
        self.told = now
        lasts = f", for {now - self.since:.0f} s" if now > self.since else ""
        LOG.warning("%s: %s%s", self.server, why, lasts)

    def answered(self) -> None:
        if self.since is not None:
            lasted = asyncio.get_running_loop().time() - self.since
            LOG.info("%s answers again, after %.0f s", self.server, lasted)
        self.since = None


class Api:
    """`trust` is the file of the certificates that the server is known by, `token` the file of a
    token, `certificate` and `key` are the files of a client's certificate. Each file is read anew
    when it changes, the token at each request, since they are written anew while this runs."""

    def __init__(self, server: str, agent: str, trust: str | None = None,
                 token: str | None = None, certificate: str | None = None,
                 key: str | None = None) -> None:
        parts = urllib.parse.urlsplit(server)
        self.is_tls = parts.scheme == "https"
        self.host, self.port = parts.hostname or "", parts.port or (443 if self.is_tls else 80)
        self.agent, self.token = agent, token
        self.prefix = parts.path.rstrip("/")
        self.files = trust, certificate, key
        self.reach = Reach(server)
        self.contexts: tuple[list[int], ssl.SSLContext] | None = None
        self.kept: list[tuple[float, Ends]] = []

    def tls(self) -> ssl.SSLContext | None:
        """The context of a connection, made anew where one of its files was written anew."""
        if not self.is_tls:
            return None
        trust, certificate, key = self.files
        seen = [os.stat(path).st_mtime_ns for path in self.files if path]
        if self.contexts is None or self.contexts[0] != seen:
            context = ssl.create_default_context(cafile=trust)
            if certificate:
                context.load_cert_chain(certificate, key)
            self.contexts = seen, context
        return self.contexts[1]

    async def ask(self, method: str, path: str, body: Json | None = None,
                  kind: str = "application/json", wait: float = ANSWER_WAIT) -> Answer:
        """A request and its answer, which must be whole within so many seconds."""
        sent = b"" if body is None else json.dumps(body).encode()
        async with self.exchange(method, path, sent, kind, wait, self.is_tls) as (
                status, headers, pieces):
            with whole():
                async with asyncio.timeout(wait):
                    text = b"".join([piece async for piece in pieces])
                value = json.loads(text or b"{}")
            told = value if isinstance(value, dict) else {}
            return Answer(status, told, seconds_of(headers))

    async def request(self, method: str, path: str, body: Json | None = None,
                      kind: str = "application/json",
                      wait: float = ANSWER_WAIT) -> tuple[int, Json]:
        """The status and the value of the answer."""
        answer = await self.ask(method, path, body, kind, wait)
        return answer.status, answer.value

    async def text(self, path: str, wait: float = ANSWER_WAIT) -> str | None:
        """The body of a page that isn't JSON, or nothing where it can't be had."""
        with contextlib.suppress(NotSent, Broken):
            async with self.exchange("GET", path, wait=wait) as (status, _, pieces):
                with whole():
                    async with asyncio.timeout(wait):
                        octets = b"".join([piece async for piece in pieces])
                return octets.decode(errors="replace") if status == 200 else None
        return None

    async def lines(self, path: str, silence: float) -> AsyncGenerator[bytes, None]:
        """The lines of a watch as they come, until it ends, or nothing came for so many
        seconds."""
        async with self.exchange("GET", path) as (status, headers, pieces):
            if status != 200:
                with whole():
                    async with asyncio.timeout(ANSWER_WAIT):
                        text = b"".join([piece async for piece in pieces])
                raise Refused(status, message_of(text), seconds_of(headers))
            rest = b""
            while piece := await next_of(pieces, silence):
                *lines, rest = (rest + piece).split(b"\n")
                for line in lines:
                    yield line + b"\n"

    async def listed(self, path: str) -> AsyncGenerator[bytes, None]:
        """What there is as the lines of a watch, with the end of the list behind them: of a
        server that has no such watches. Each page is of the state of the first, which is read
        from the store."""
        ask: str | None = f"limit={PAGE}"
        while ask:
            answer = await self.ask("GET", f"{path}?{ask}")
            if answer.status == 410:
                raise Broken("a list became too old between two of its pages")
            if answer.status != 200:
                message = str(answer.value.get("message", ""))
                raise Refused(answer.status, message, answer.retry_after)
            page = answer.value
            if not {"kind", "apiVersion", "metadata"} <= set(page):
                raise Broken("what came is no list")
            kind = {"kind": page["kind"].removesuffix("List"), "apiVersion": page["apiVersion"]}
            for item in page.get("items") or []:
                yield line_of({"type": "ADDED", "object": {**kind, **item}})
            more = page["metadata"].get("continue")
            ask = more and f"limit={PAGE}&continue={urllib.parse.quote(more, safe='')}"
        end = {"resourceVersion": page["metadata"]["resourceVersion"],
               "annotations": {"k8s.io/initial-events-end": "true"}}
        yield line_of({"type": "BOOKMARK", "object": {**kind, "metadata": end}})

    @contextlib.asynccontextmanager
    async def exchange(
            self, method: str, path: str, body: bytes = b"", kind: str = "application/json",
            wait: float = ANSWER_WAIT, keeps: bool = False
    ) -> AsyncIterator[tuple[int, dict[str, str], AsyncIterator[bytes]]]:
        """The status and the headers of the answer, and the pieces of its body. `keeps`: these are
        read to their end, and another request may come by the connection."""
        headers: dict[str, str] = {}
        is_whole = False
        try:
            head = self.head(method, path, body, kind, keeps)
            reader, writer = keeps and self.found() or await self.connected()
        except OSError as fault:
            self.reach.lost(str(fault) or "no connection came about")
            raise NotSent(str(fault) or "no connection came about") from fault
        try:
            with whole():
                async with asyncio.timeout(wait):
                    writer.write(head + body)
                    await writer.drain()
                    status = int((await reader.readline()).split()[1])
                    while line := (await reader.readline()).strip():
                        name, _, value = line.decode().partition(":")
                        headers[name.lower()] = value.strip()
            if status < 500:
                self.reach.answered()
            yield status, headers, pieces_of(reader, headers)
            is_whole = keeps and goes_on(headers)
        except Broken as fault:
            self.reach.lost(str(fault))
            if isinstance(fault.__cause__, ConnectionError):  # it is over, and this was told of it
                with contextlib.suppress(OSError):
                    await writer.wait_closed()
            raise
        finally:
            if is_whole and len(self.kept) < KEPT:
                self.kept.append((asyncio.get_running_loop().time(), (reader, writer)))
            else:
                writer.close()

    def found(self) -> Ends | None:
        """A connection that was kept, where the server hasn't ended it and its files are those of
        now."""
        now, context = asyncio.get_running_loop().time(), self.tls()
        while self.kept:
            since, (reader, writer) = self.kept.pop()
            is_open = not reader.at_eof() and not writer.is_closing()
            is_same = writer.get_extra_info("sslcontext") is context
            if is_open and is_same and now - since < KEPT_SECONDS:
                return reader, writer
            writer.close()
        return None

    async def connected(self) -> Ends:
        """A connection on which the other side is probed while nothing comes, and which ends
        where what was sent isn't taken note of."""
        async with asyncio.timeout(CONNECT_WAIT):
            reader, writer = await asyncio.open_connection(self.host, self.port, limit=LONGEST,
                                                           ssl=self.tls())
        end = writer.get_extra_info("socket")
        end.setsockopt(socket.IPPROTO_TCP, USER_TIMEOUT, STALLED)
        end.setsockopt(socket.SOL_SOCKET, socket.SO_KEEPALIVE, 1)
        for option, value in ((socket.TCP_KEEPIDLE, IDLE), (socket.TCP_KEEPINTVL, PROBE),
                              (socket.TCP_KEEPCNT, PROBES)):
            end.setsockopt(socket.IPPROTO_TCP, option, value)
        return reader, writer

    def head(self, method: str, path: str, body: bytes, kind: str, keeps: bool) -> bytes:
        """The head of a request. Its number grows with the time, so that a server's log shows
        which of two came first, whichever is read first."""
        host = f"[{self.host}]" if ":" in self.host else self.host
        token = pathlib.Path(self.token).read_text().strip() if self.token else None
        known = [f"Authorization: Bearer {token}"] if token else []
        number = round(asyncio.get_running_loop().time() * 1e9)
        lines = [f"{method} {self.prefix}{path} HTTP/1.1", f"Host: {host}:{self.port}", *known,
                 f"User-Agent: {self.agent}", f"X-Request-Id: {number}",
                 "Accept: application/json", f"Content-Type: {kind}",
                 f"Content-Length: {len(body)}",
                 f"Connection: {'keep-alive' if keeps else 'close'}", "", ""]
        return "\r\n".join(lines).encode()


def line_of(value: Json) -> bytes:
    return json.dumps(value, separators=(",", ":")).encode() + b"\n"


def message_of(text: bytes) -> str:
    """What a refusal says: the message of a Status, or the beginning of the body."""
    with contextlib.suppress(ValueError):
        value = json.loads(text)
        if isinstance(value, dict) and isinstance(value.get("message"), str):
            return str(value["message"])
    return text.decode(errors="replace").strip()[:200]


def seconds_of(headers: dict[str, str]) -> float | None:
    """The seconds that a `Retry-After` names; its form with a date is passed over (RFC 9110,
    section 10.2.3)."""
    text = headers.get("retry-after", "")
    return float(text) if text.isdigit() else None


@contextlib.contextmanager
def whole() -> Iterator[None]:
    """What is read inside was cut off, where it isn't an answer."""
    try:
        yield
    except TimeoutError as fault:
        raise Silent("no whole answer came in time") from fault
    except (OSError, EOFError, ValueError, IndexError) as fault:
        raise Broken("the connection ended without a whole answer") from fault


async def next_of(pieces: AsyncIterator[bytes], silence: float) -> bytes:
    """The next piece, or none where there is none for so many seconds."""
    with contextlib.suppress(Silent), whole():
        async with asyncio.timeout(silence):
            return await anext(pieces, b"")
    return b""


def goes_on(headers: dict[str, str]) -> bool:
    """Whether the server takes another request by the connection of this answer."""
    ends = "content-length" in headers or headers.get("transfer-encoding") == "chunked"
    return ends and headers.get("connection", "").lower() != "close"


async def pieces_of(reader: asyncio.StreamReader, headers: dict[str, str]) -> AsyncIterator[bytes]:
    """The pieces of an answer's body: its chunks, so many octets, or all until the connection
    ends (RFC 9112, section 6)."""
    if headers.get("transfer-encoding") == "chunked":
        while size := int((await reader.readline()).split(b";")[0], 16):
            yield await reader.readexactly(size)
            await reader.readline()
        while (await reader.readline()).strip():
            pass  # trailers
    elif "content-length" in headers:
        yield await reader.readexactly(int(headers["content-length"]))
    else:
        while piece := await reader.read(65536):
            yield piece
