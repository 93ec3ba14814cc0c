"""A small HTTP server: GET and POST, one answer each, by TLS where a context is given."""
import asyncio
import contextlib
import ssl
from collections.abc import AsyncIterator, Awaitable, Callable

LONGEST, WAIT = 8 * 2 ** 20, 30.0  # octets of a body; seconds for a request, and for its answer
Answers = Callable[[str, str, bytes], Awaitable[tuple[int, str, bytes]]]


async def talk(reader: asyncio.StreamReader, writer: asyncio.StreamWriter,
               answer: Answers) -> None:
    """Answers the requests of one connection: of each method, path and body the status, the type
    and the body."""
    with contextlib.suppress(OSError, EOFError, ValueError, IndexError):
        while True:
            async with asyncio.timeout(WAIT):
                method, path, _ = (await reader.readline()).decode().split()
                headers = {}
                while line := (await reader.readline()).strip():
                    name, _, value = line.decode().partition(":")
                    headers[name.lower()] = value.strip()
                size = int(headers.get("content-length", 0))
                if not 0 <= size <= LONGEST or "transfer-encoding" in headers:
                    break
                asked = await reader.readexactly(size)
                status, kind, body = await answer(method, path.partition("?")[0], asked)
                head = (f"HTTP/1.1 {status} -\r\nContent-Type: {kind}\r\n"
                        f"Content-Length: {len(body)}\r\n\r\n")
                writer.write(head.encode() + body)
                await writer.drain()
            if headers.get("connection", "").lower() == "close":
                break
    writer.close()


@contextlib.asynccontextmanager
async def web(listen: str, answer: Answers,
              tls: ssl.SSLContext | None = None) -> AsyncIterator[asyncio.Server]:
    """Serves at ADDRESS:PORT while it is entered."""
    host, _, port = listen.rpartition(":")
    server = await asyncio.start_server(lambda reader, writer: talk(reader, writer, answer),
                                        host.strip("[]") or None, int(port), ssl=tls)
    async with server:
        yield server
