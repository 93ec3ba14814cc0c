"""The webhook: reviews of changes are taken by HTTPS. The admission tool answers them, which is
shown the configuration as it is watched; of Services, by a word, the fields alone are looked at."""
import argparse
import asyncio
import contextlib
import dataclasses
import json
import os
import ssl
from collections.abc import Iterator
from typing import Any

from api import Api
from common import api_of, tell, together
from figures import figures_served
from programs import forever
from reading import LONGEST, Reader, reading
from watches import Watches, config_paths
from web import web

LIST_WAIT = 8.0  # seconds that a review waits for the first lists: the API server itself waits 10
LOOK = 10.0  # seconds until the certificate is looked at again
KINDS = ("IPAddressPool", "L2Advertisement", "BGPAdvertisement", "Community", "BGPPeer")
FIELDS_ALONE = ("Service", "EndpointSlice")
Json = dict[str, Any]


class Unjudged(Exception):
    """The tool can't tell now."""


@dataclasses.dataclass(frozen=True)
class Verdict:
    """What is answered; without a message the change may be made."""

    message: str | None = None
    code: int = 403
    warning: str | None = None

    def response(self, uid: str) -> Json:
        told: Json = {"uid": uid, "allowed": self.message is None}
        if self.message is not None:
            told["status"] = {"code": self.code, "message": self.message}
        if self.warning is not None:
            told["warnings"] = [self.warning]
        return {"apiVersion": "admission.k8s.io/v1", "kind": "AdmissionReview", "response": told}


def request_of(body: bytes) -> Json:
    """The request of a review, without what no program reads and may make it too long. ValueError
    where it is none."""
    review = json.loads(body)
    request = review.get("request") if isinstance(review, dict) else None
    if not isinstance(request, dict) or review.get("kind") != "AdmissionReview":
        raise ValueError("no review")
    if not isinstance(request.get("uid"), str) or not request["uid"]:
        raise ValueError("a review without a uid")
    for part in ("object", "oldObject"):
        metadata = (request.get(part) or {}).get("metadata")
        if isinstance(metadata, dict):
            metadata.pop("managedFields", None)
            if metadata.get("generateName") and not metadata.get("name"):
                metadata["name"] = f"{metadata['generateName']}00000"
    return request


def line_of(value: Json) -> bytes:
    return json.dumps(value, separators=(",", ":")).encode() + b"\n"


def shown(thing: Json) -> bytes:
    """The line of a watch that would show the object once it is stored."""
    metadata = {**(thing.get("metadata") or {}), "resourceVersion": "1"}
    return line_of({"type": "ADDED", "object": {**thing, "metadata": metadata}})


class Desk:
    """The tool's input, which a watch sees as a lane: what is written first is taken first."""

    name = "admission"

    def __init__(self, process: asyncio.subprocess.Process, reader: Reader) -> None:
        assert process.stdin and process.stdout
        self.input, self.output = process.stdin, process.stdout
        self.reader, self.given, self.turn = reader, 0, asyncio.Lock()
        self.reviews = 0
        self.watches: Watches | None = None

    async def give(self, line: bytes) -> int:
        async with self.turn:
            self.given += 1
            self.input.write(line)
            await self.input.drain()
        return self.given

    async def until_taken(self, _number: int) -> None:
        """A review that comes later is answered by what was given before."""

    def is_ready(self) -> bool:
        watches = self.watches
        return watches is not None and all(ended.is_set() for ended in watches.lists.values())

    async def judged(self, request: Json) -> Verdict:
        """What the tool says of a change of the configuration. Each review that it is given has a
        number of its own, so that the answer to one whose wait was cut short is passed over."""
        async with self.turn:
            self.reviews += 1
            number = str(self.reviews)
        review = {"apiVersion": "admission.k8s.io/v1", "kind": "AdmissionReview",
                  "request": {**request, "uid": number}}
        line = line_of(review)
        if len(line) > LONGEST + 1:
            return Verdict("the object is too long", 413)
        if fault := await self.reader.fault_of(None, line):
            raise ValueError(fault)
        if not self.watches:
            raise Unjudged("no list has ended")
        try:
            async with asyncio.timeout(LIST_WAIT):
                await self.watches.until_listed()
        except TimeoutError:
            raise Unjudged("the lists haven't ended") from None
        async with self.turn:
            self.input.write(line)
            await self.input.drain()
            while (answer := await self.output.readline()).endswith(b"\n"):
                response = json.loads(answer)["response"]
                if response["uid"] == number:
                    allowed = response["allowed"]
                    return Verdict(None if allowed else response["status"]["message"])
        raise Unjudged("the tool has ended")

    async def read(self, request: Json) -> Verdict:
        """Whether the object could be read, once it is stored. One that is being deleted may."""
        thing = request.get("object")
        if not isinstance(thing, dict) or (thing.get("metadata") or {}).get("deletionTimestamp"):
            return Verdict()
        fault = await self.reader.fault_of(None, shown(thing))
        return Verdict(f"field {fault}") if fault else Verdict()


class Webhook:
    """Answers reviews by the tool that runs now."""

    def __init__(self, options: argparse.Namespace) -> None:
        self.namespace, self.services = options.namespace, options.services
        self.allows = options.unjudged == "allow"
        self.desk: Desk | None = None

    def lines(self) -> Iterator[str]:
        yield f"sutchebam_program_up {int(bool(self.desk and self.desk.is_ready()))}\n"

    async def verdict(self, request: Json) -> Verdict:
        thing = request.get("object") or request.get("oldObject")
        kind = thing.get("kind") if isinstance(thing, dict) else None
        if kind in KINDS and request.get("namespace", self.namespace) != self.namespace:
            return Verdict(warning=f"only what is in {self.namespace} counts")
        if kind in FIELDS_ALONE and not self.services:
            return Verdict()
        if not self.desk:
            raise Unjudged("the tool is being started")
        return await (self.desk.read if kind in FIELDS_ALONE else self.desk.judged)(request)

    async def answer(self, method: str, _path: str, body: bytes) -> tuple[int, str, bytes]:
        if method != "POST":
            return 404, "text/plain", b"reviews are posted"
        try:
            request = request_of(body)
            verdict = await self.verdict(request)
        except ValueError as fault:
            return 400, "text/plain", str(fault).encode()
        except (Unjudged, ConnectionError) as fault:
            told = f"not reviewed: {fault}"
            tell(told)
            verdict = Verdict(warning=told) if self.allows else Verdict(told, 503)
        return 200, "application/json", line_of(verdict.response(request["uid"]))


async def keep_certificate(context: ssl.SSLContext, options: argparse.Namespace) -> None:
    """Has new connections shown the certificate that stands in the file. One that doesn't fit its
    key yet is left alone until it does."""
    loaded = None
    while True:
        with contextlib.suppress(OSError):
            found = os.stat(options.certificate).st_mtime_ns, os.stat(options.key).st_mtime_ns
            if found != loaded:
                ssl.SSLContext(ssl.PROTOCOL_TLS_SERVER).load_cert_chain(
                    options.certificate, options.key)
                context.load_cert_chain(options.certificate, options.key)
                loaded = found
        await asyncio.sleep(LOOK)


async def until_ended(process: asyncio.subprocess.Process) -> None:
    raise ConnectionError(await process.wait())


async def run_once(options: argparse.Namespace, api: Api, webhook: Webhook) -> bool:
    """The tool from its start to its end, and whether it was given anything."""
    process = await asyncio.create_subprocess_exec(
        options.program, stdin=asyncio.subprocess.PIPE, stdout=asyncio.subprocess.PIPE,
        limit=2 ** 24, start_new_session=True)
    async with reading(options.program) as reader:
        desk = Desk(process, reader)
        paths = {kind: path for kind, path in config_paths(options.namespace).items()
                 if kind in KINDS}
        desk.watches = Watches(api, desk, paths, reader.fault_of)
        webhook.desk = desk
        try:
            with contextlib.suppress(ConnectionError):
                await together(desk.watches.keep(), until_ended(process))
        finally:
            webhook.desk = None
            desk.input.close()
            tell(f"tool ended: {await process.wait()}")
        return bool(desk.given)


def add_words(words: argparse.ArgumentParser) -> None:
    words.add_argument("--certificate", required=True,
                       help="the certificates that are shown, a file; it may be replaced meanwhile")
    words.add_argument("--key", required=True, help="the key of the first")
    words.add_argument("--listen", default="[::]:8443", metavar="ADDRESS:PORT",
                       help="where reviews are taken (%(default)s)")
    words.add_argument("--unjudged", choices=("refuse", "allow"), default="refuse",
                       help="what becomes of a change that can't be judged now (%(default)s)")
    words.add_argument("--services", action="store_true",
                       help="Services and EndpointSlices that can't be read are refused too")


async def serve(options: argparse.Namespace) -> None:
    """Serves until it is cancelled."""
    api, webhook = api_of(options, "bridge-admission"), Webhook(options)
    context = ssl.SSLContext(ssl.PROTOCOL_TLS_SERVER)
    context.load_cert_chain(options.certificate, options.key)
    async with (figures_served(options.figures, webhook.lines),
                web(options.listen, webhook.answer, context)):
        await together(keep_certificate(context, options),
                       forever(lambda: run_once(options, api, webhook)))
