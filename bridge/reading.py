"""Lines are read before a program is given them: what no program reads is left out, what older
clusters call otherwise is given by today's names, and what would end a program is found."""
import asyncio
import contextlib
import json
from collections.abc import AsyncIterator

from api import Json, line_of

LONGEST = 2 ** 20  # octets of a line that a program takes, without its end
OLD, NEW = "metallb.universe.tf/", "metallb.io/"  # MetalLB's annotations, before 0.14.9 and since
ASKED = ("address-pool", "allow-shared-ip", "loadBalancerIPs")  # those by which a service asks


class Gone(ConnectionError):
    """The tool that reads lines has ended."""


def renamed(thing: Json) -> bool:
    """Gives what a service asks for by MetalLB's older annotations by today's, where these aren't
    there. Whether there was such."""
    notes = thing.get("metadata", {}).get("annotations")
    if thing.get("kind") != "Service" or not isinstance(notes, dict):
        return False
    older = [name for name in ASKED if OLD + name in notes and NEW + name not in notes]
    for name in older:
        notes[NEW + name] = notes[OLD + name]
    return bool(older)


def read(line: bytes) -> tuple[Json, bytes]:
    """The event of a line, and the line to give: without `metadata.managedFields`, which no program
    reads, and which may make it too long."""
    event: Json = json.loads(line)
    managed = event["object"].get("metadata", {}).pop("managedFields", None) is not None
    if renamed(event["object"]) or managed:
        line = line_of(event)
    return event, line


class Reader:
    """`process` is `mlb_admit --explain`, which tells of each line what it is read as; without it
    each line of a length that is taken passes."""

    def __init__(self, process: asyncio.subprocess.Process | None) -> None:
        self.process, self.given, self.turn = process, 0, asyncio.Lock()

    async def fault_of(self, _event: Json | None, line: bytes) -> str | None:
        """Why the line would end a program, or nothing. The answer to a line whose wait was cut
        short is passed over."""
        if len(line) > LONGEST + 1:
            return "the line is too long"
        if self.process is None or self.process.stdin is None or self.process.stdout is None:
            return None
        async with self.turn:
            self.given += 1
            self.process.stdin.write(line)
            await self.process.stdin.drain()
            told: Json = {"line": 0}
            while told["line"] < self.given:
                answer = await self.process.stdout.readline()
                if not answer.endswith(b"\n"):
                    raise Gone()
                told = json.loads(answer)
        return str(told.get("path") or told["reason"]) if told["op"] == "refused" else None


@contextlib.asynccontextmanager
async def reading(program: str | None) -> AsyncIterator[Reader]:
    """A reader by this program, or by none. Once this is left the program has ended."""
    if not program:
        yield Reader(None)
        return
    pipe = asyncio.subprocess.PIPE
    process = await asyncio.create_subprocess_exec(program, "--explain", stdin=pipe, stdout=pipe,
                                                   start_new_session=True)
    try:
        yield Reader(process)
    finally:
        if process.stdin is not None:
            process.stdin.close()
        await process.communicate()
