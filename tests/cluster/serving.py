"""HTTP over the store: the paths of an API server, watches, and faults drawn from a seed."""
from __future__ import annotations

import base64
import json
import random
import re
import select
import socket
import threading
import sys
import time
from collections.abc import Callable, Iterable
from http.server import BaseHTTPRequestHandler, ThreadingHTTPServer
from typing import Any, TextIO
from urllib.parse import parse_qs, unquote, urlsplit

from kinds import BY_PLURAL, Json, Kind, discovery
from store import Change, Key, Refused, Store

PATH = re.compile(r"/(?:api|apis/(?P<group>[^/]+))/(?P<version>[^/]+)"
                  r"(?:/namespaces/(?P<namespace>[^/]+)(?=/[^/]))?"
                  r"/(?P<plural>[^/]+)(?:/(?P<name>[^/]+))?(?:/(?P<sub>status))?$")
BOOKMARK_SECONDS = 10.0  # until a bookmark is sent unasked
LAST_BOOKMARK = 2.0  # seconds ahead of the end of a watch that is asked for some time
LOOK_SECONDS, LATE_SECONDS = 1.0, 0.03  # until a client that went is noticed; of a late event
END = {"k8s.io/initial-events-end": "true"}
BEHIND = 2, 10, 50  # changes that a list doesn't have at first
TRUE = ("1", "t", "T", "true", "True", "TRUE")  # what Go reads as true
APPLY = "application/apply-patch+yaml"


class Faults:
    """What goes wrong, each a share of the times that it could: replies to changes of a status that
    are lost, or are 504, carried out or not; watches that break, expire or are late, and lists that
    show the last changes as such before their ends."""

    def __init__(self, seed: int = 0, puts: float = 0.0, events: float = 0.0,
                 lists: float = 0.0) -> None:
        self.random, self.lock = random.Random(seed), threading.Lock()
        self.puts, self.events, self.lists = puts, events, lists

    def draw(self, share: float, *kinds: Any) -> Any:
        with self.lock:
            return self.random.choice(kinds) if self.random.random() < share else None

    def of_put(self, agent: str, key: Key) -> str | None:
        found: str | None = self.draw(self.puts, "lost before", "lost behind", "timed out before",
                                      "timed out behind")
        return found

    def of_event(self, _watch: Watch) -> str | None:
        found: str | None = self.draw(self.events, "breaks", "expires", "is late")
        return found

    def of_list(self, _kind: Kind) -> int:
        return self.draw(self.lists, *BEHIND) or 0


class Watch:
    """What a watch was given so far. `listed` is the version of its list, where it began with one,
    `sent` the version up to which its changes were written, or are about to be. Of two of an agent
    the one that was asked for later has the greater `number`; a server that is slow may read them
    the other way round."""

    def __init__(self, agent: str, kind: Kind, listed: int | None, number: int = 0) -> None:
        self.agent, self.kind, self.listed, self.number = agent, kind, listed, number
        self.sent, self.ended, self.began = listed or 0, listed is None, time.monotonic()


class Selection:
    """The objects that a request is of: those of a namespace and a name, and that its selectors
    select."""

    def __init__(self, namespace: str | None, name: str | None, labels: str, fields: str) -> None:
        self.namespace, self.name = namespace, name
        self.labels = [term for term in labels.split(",") if term]
        for term in filter(None, fields.split(",")):
            field, _, value = term.replace("==", "=").partition("=")
            if field == "metadata.name":
                self.name = value
            elif field == "metadata.namespace":
                self.namespace = value
            else:
                raise Refused(400, f"field label not supported: {field}")

    def has(self, thing: Json | None) -> bool:
        if thing is None:
            return False
        metadata = thing["metadata"]
        if self.namespace not in (None, metadata.get("namespace", "")):
            return False
        if self.name not in (None, metadata["name"]):
            return False
        labels = metadata.get("labels") or {}
        return all(self.selects(term, labels) for term in self.labels)

    @staticmethod
    def selects(term: str, labels: dict[str, str]) -> bool:
        if "!=" in term:
            name, value = term.split("!=", 1)
            return labels.get(name) != value
        name, equals, value = term.replace("==", "=").partition("=")
        if equals:
            return labels.get(name) == value
        return (name.lstrip("!") in labels) != name.startswith("!")


class Server(ThreadingHTTPServer):
    daemon_threads, allow_reuse_address, request_queue_size = True, True, 64

    def __init__(self, store: Store, port: int = 0, faults: Faults | None = None,
                 log: TextIO | None = None, host: str = "127.0.0.1") -> None:
        super().__init__((host, port), Handler)
        self.store, self.faults, self.log, self.stopping = store, faults or Faults(), log, False
        self.watches: list[Watch] = []
        # told of each watch as it begins, the store locked
        self.on_watch: list[Callable[[Watch], object]] = []
        self.calls, self.bookmark_seconds = 0, BOOKMARK_SECONDS
        # at most so many objects of a list in one answer, whatever is asked for
        self.page: int | None = None

    @property
    def port(self) -> int:
        return int(self.server_address[1])

    @property
    def url(self) -> str:
        return f"http://{str(self.server_address[0])}:{self.port}"

    def start(self) -> Server:
        threading.Thread(target=self.serve_forever, args=(0.05,), daemon=True).start()
        return self

    def call(self) -> None:
        """Has each watch that wants bookmarks send one now."""
        with self.store.lock:
            self.calls += 1
            for news in self.store.news.values():
                news.notify_all()

    def stop(self) -> None:
        self.stopping = True
        self.call()
        self.shutdown()
        self.server_close()

    def handle_error(self, request: Any, client_address: Any) -> None:
        """A client that went away is no fault of the server."""
        if not isinstance(sys.exc_info()[1], (ConnectionError, TimeoutError)):
            super().handle_error(request, client_address)


class Handler(BaseHTTPRequestHandler):
    server: Server
    protocol_version = "HTTP/1.1"
    disable_nagle_algorithm = True
    wbufsize = -1

    # Answers

    def log_message(self, *_: object) -> None:
        pass

    def log_request(self, code: int | str = "-", _size: int | str = "-") -> None:
        if self.server.log:
            print(self.command, self.path, int(code), file=self.server.log, flush=True)

    def answer(self, code: int, body: Any) -> None:
        data = json.dumps(body, separators=(",", ":")).encode()
        self.send_response(code)
        self.send_header("Content-Type", "application/json")
        self.send_header("Content-Length", str(len(data)))
        self.end_headers()
        self.wfile.write(data)
        self.wfile.flush()

    def body(self) -> Any:
        data = self.rfile.read(int(self.headers.get("Content-Length") or 0))
        if not data:
            return {}
        form = self.headers.get("Content-Type") or "json"
        if "json" not in form and form != APPLY:  # what clients apply is JSON too
            raise Refused(415, "the body of the request was in an unknown format - accepted media "
                               "types include: application/json")
        try:
            return json.loads(data)
        except ValueError as error:
            raise Refused(400, f"the body is no JSON: {error}") from error

    def serve(self) -> None:
        url = urlsplit(self.path)
        queries = parse_qs(url.query, keep_blank_values=True)
        asked = {name: values[-1] for name, values in queries.items()}
        try:
            told = discovery(url.path) if self.command == "GET" else None
            if told is not None:
                return self.answer(200, told)
            if url.path in ("/healthz", "/readyz", "/livez"):
                return self.answer(200, "ok")
            return self.resource(url.path, asked)
        except Refused as refused:
            return self.answer(refused.code, refused.status())
        except (BrokenPipeError, ConnectionError):
            self.close_connection = True

    do_GET = do_POST = do_PUT = do_PATCH = do_DELETE = serve

    def resource(self, path: str, asked: dict[str, str]) -> None:
        found = PATH.match(path)
        kind = found and BY_PLURAL.get(found["plural"])
        version = (found["group"] or "", found["version"]) if found else None
        if not found or not kind or version != (kind.group, kind.version):
            self.body()
            raise Refused(404, "the server could not find the requested resource")
        namespace, name = (unquote(found[part]) if found[part] else None
                           for part in ("namespace", "name"))
        status = found["sub"] == "status"
        if status and not kind.status:
            raise Refused(404, "the server could not find the requested resource")
        inside = namespace or "" if kind.namespaced else ""
        store = self.server.store
        if self.command == "GET":
            if name and asked.get("watch") not in TRUE:
                return self.answer(200, store.get(kind, (inside, name)))
            selection = Selection(namespace if kind.namespaced else None, name,
                                  asked.get("labelSelector", ""), asked.get("fieldSelector", ""))
            return self.listed(kind, selection, asked)
        body = self.body()
        if self.command == "POST" and not name:
            return self.answer(201, store.create(kind, namespace, body))
        if name:
            return self.change(kind, (inside, name), body, status, asked)
        raise Refused(405, "the server does not allow this method on the requested resource")

    def change(self, kind: Kind, key: Key, body: Any, status: bool,
               asked: dict[str, str]) -> None:
        """A change of an object, or of its status."""
        store = self.server.store
        if self.command == "DELETE":
            return self.answer(200, store.delete(kind, key, body))
        if self.command == "PUT":
            return self.answer(200, store.update(kind, key, body, status))
        if self.command != "PATCH":
            raise Refused(405, "the server does not allow this method on the requested resource")
        form = (self.headers.get("Content-Type") or "").split(";")[0]
        if form == APPLY and not status:
            applied, is_new = store.apply(kind, key, body, asked.get("fieldManager", ""),
                                          asked.get("force") in TRUE)
            return self.answer(201 if is_new else 200, applied)
        if status and kind.name == "Service" and "status" in body:
            return self.put(kind, key, body, form)
        return self.answer(200, store.patch(kind, key, body, form, status))

    def put(self, kind: Kind, key: Key, body: Json, form: str) -> None:
        """A patch of a service's status, whose reply may be lost, or be that it took too long.
        Whoever listens is told of it ahead, and of what came of it."""
        store, agent = self.server.store, self.headers.get("User-Agent", "")
        fault = self.server.faults.of_put(agent, key)
        told = [judge(agent, key, body) for judge in store.on_put]
        answer: tuple[int, Json] | None = None
        if fault not in ("lost before", "timed out before"):
            with store.lock:
                for tell in told:
                    tell("arrives")
                try:
                    answer = 200, store.patch(kind, key, body, form, True)
                except Refused as refused:
                    answer = refused.code, refused.status()
                for tell in told:
                    tell("applied" if answer[0] == 200 else "refused")
        if fault is None and answer is not None:
            for tell in told:
                tell("answered", answer)
            return self.answer(*answer)
        if fault is not None and "timed out" in fault:
            why = "request did not complete within the allotted timeout"
            late = 504, Refused(504, why, "Timeout").status()
            for tell in told:
                tell("answered", late)
            return self.answer(*late)
        for tell in told:
            tell("lost")
        return self.cut()

    def cut(self) -> None:
        """Ends the connection without an answer."""
        self.close_connection = True
        try:
            self.connection.shutdown(socket.SHUT_RDWR)
        except OSError:
            pass

    # Lists and watches

    def listed(self, kind: Kind, selection: Selection, asked: dict[str, str]) -> None:
        store = self.server.store
        if asked.get("watch") in TRUE:
            return self.watch(kind, selection, asked)
        if asked.get("sendInitialEvents"):
            raise Refused(422, "ListOptions.meta.k8s.io is invalid: sendInitialEvents: Forbidden: "
                               "sendInitialEvents is forbidden for list")
        begin, first = self.begun(asked.get("continue"))
        with store.lock:
            items, version = store.list(kind, 0 if first is None else store.version - first)
        items = [item for item in items if selection.has(item)]
        size = min(int(asked.get("limit") or 0) or len(items), self.server.page or len(items))
        metadata: Json = {"resourceVersion": str(version)}
        if begin + size < len(items):
            token = json.dumps({"at": begin + size, "version": version}).encode()
            metadata |= {"continue": base64.urlsafe_b64encode(token).decode(),
                         "remainingItemCount": len(items) - begin - size}
        told = {"kind": kind.name + "List", "apiVersion": kind.api_version, "metadata": metadata}
        page = items[begin:begin + size]
        if not kind.custom:  # the items of built-in kinds don't say what they are
            page = [{name: value for name, value in item.items()
                     if name not in ("kind", "apiVersion")} for item in page]
        return self.answer(200, {**told, "items": page})

    def begun(self, token: str | None) -> tuple[int, int | None]:
        """Where a page begins, and the version of its list's first page."""
        if not token:
            return 0, None
        try:
            told = json.loads(base64.urlsafe_b64decode(token))
            at, version = int(told["at"]), int(told["version"])
        except (ValueError, KeyError, TypeError) as error:
            raise Refused(400, f"continue key is not valid: {error}") from error
        if version < self.server.store.oldest():
            raise Refused(410, "The provided continue parameter is too old to display a consistent "
                               "list result.")
        return at, version

    def watch(self, kind: Kind, selection: Selection, asked: dict[str, str]) -> None:
        initial, given = asked.get("sendInitialEvents"), asked.get("resourceVersion", "")
        if initial and asked.get("resourceVersionMatch") != "NotOlderThan":
            raise Refused(422, "ListOptions.meta.k8s.io is invalid: resourceVersionMatch: "
                               "Forbidden: sendInitialEvents requires setting resourceVersionMatch "
                               "to NotOlderThan")
        if not initial and asked.get("resourceVersionMatch"):
            raise Refused(422, "ListOptions.meta.k8s.io is invalid: resourceVersionMatch: "
                               "Forbidden: resourceVersionMatch is forbidden for watch unless "
                               "sendInitialEvents is provided")
        if given and not given.isdigit():
            raise Refused(400, f"Invalid resource version: {given}")
        begins = initial == "true" or given in ("", "0") and initial != "false"
        self.send_response(200)
        self.send_header("Content-Type", "application/json")
        self.send_header("Transfer-Encoding", "chunked")
        self.end_headers()
        self.wfile.flush()
        stream = Stream(self, kind, selection, asked.get("allowWatchBookmarks") in TRUE)
        until = time.monotonic() + float(asked.get("timeoutSeconds") or 3600)
        version = None if begins else int(given or self.server.store.version)
        try:
            if stream.run(version, initial == "true", until):
                self.wfile.write(b"0\r\n\r\n")
                self.wfile.flush()
            else:
                self.cut()
        except (BrokenPipeError, ConnectionError, ValueError):
            self.close_connection = True


class Stream:
    """One watch as it is written."""

    def __init__(self, handler: Handler, kind: Kind, selection: Selection,
                 bookmarks: bool) -> None:
        self.handler, self.kind, self.selection = handler, kind, selection
        self.bookmarks, self.store = bookmarks, handler.server.store
        self.server: Any = handler.server  # or what stands for it in a simulation

    def run(self, version: int | None, marked: bool, until: float) -> bool:
        """Goes on from the version, or begins with what there is. True where it ends as it should,
        False where it breaks. A list whose end is marked may begin with what there was a few
        changes ago, as that of a server whose cache is behind; these changes come then before its
        end."""
        store = self.store
        with store.lock:
            behind = self.server.faults.of_list(self.kind) if marked else 0
            items, begun = store.list(self.kind, behind)
            listed, missing = store.version, store.since(begun)
            headers = self.handler.headers
            number = headers.get("X-Request-Id", "")
            self.watch = Watch(headers.get("User-Agent", ""), self.kind,
                               listed if version is None else None,
                               int(number) if number.isdigit() else 0)
            self.watch.sent = listed if version is None else version
            self.server.watches.append(self.watch)
            for told in self.server.on_watch:
                told(self.watch)
            too_old = version is not None and version < store.oldest()
        try:
            if too_old:
                return self.expire(f"too old resource version: {version} ({store.oldest()})")
            if version is None:
                version = listed
                selected = (item for item in items if self.selection.has(item))
                if not all(self.give("ADDED", item) for item in selected):
                    return False
                if not self.give_changes(missing):
                    return False
                self.watch.ended = True
                if marked and self.bookmarks:
                    self.bookmark(version, END)
            return self.follow(version, until)
        finally:
            with store.lock:
                self.server.watches.remove(self.watch)

    def follow(self, version: int, until: float) -> bool:
        """Gives changes as they come. A last bookmark comes a while ahead of the end."""
        store, answered, pause = self.store, self.server.calls, self.server.bookmark_seconds
        now = time.monotonic()
        quiet, look = min(now + pause, until - LAST_BOOKMARK), now + LOOK_SECONDS
        while not self.server.stopping and time.monotonic() < until:
            with store.lock:
                if store.latest[self.kind] <= version and answered == self.server.calls:
                    rest = min(quiet, look, until) - time.monotonic()
                    store.news[self.kind].wait(max(0, rest))
                changes, old = store.since(version), version < store.oldest()
                is_called, answered = answered != self.server.calls, self.server.calls
                version = store.version
                if not old:
                    self.watch.sent = version
            if old:
                return self.expire("too old resource version")
            if not self.give_changes(changes):
                return False
            if time.monotonic() > look:
                if self.gone():
                    return False
                look = time.monotonic() + LOOK_SECONDS
            if self.bookmarks and (is_called or time.monotonic() > quiet):
                self.bookmark(version, {})
                now = time.monotonic()
                last = until - LAST_BOOKMARK
                quiet = min(now + pause, last) if now < last else until + pause
        return True

    def give_changes(self, changes: Iterable[Change]) -> bool:
        """Writes those of the changes that are to be shown. False where the watch breaks or expires
        ahead of one."""
        events = (self.event_of(change) for change in changes if change.kind == self.kind)
        return all(self.give(*event) for event in events if event)

    def event_of(self, change: Change) -> tuple[str, Json] | None:
        """The change as one of the objects selected: one that isn't selected any more is told as
        deleted."""
        was = self.selection.has(change.old)
        if change.type != "DELETED" and self.selection.has(change.object):
            return "MODIFIED" if was else "ADDED", change.object
        if was and change.old and change.type != "DELETED":
            metadata = {**change.old["metadata"], "resourceVersion": str(change.version)}
            return "DELETED", {**change.old, "metadata": metadata}
        return ("DELETED", change.object) if was else None

    def give(self, type_: str, thing: Json) -> bool:
        """Writes an event, unless the watch breaks or expires ahead of it."""
        fault = self.server.faults.of_event(self.watch)
        if fault == "is late":
            time.sleep(LATE_SECONDS)
        if fault == "breaks":
            return False
        if fault == "expires":
            self.expire("the watch expired")
            return False
        self.write({"type": type_, "object": thing})
        return True

    def bookmark(self, version: int, annotations: Json) -> None:
        metadata: Json = {"resourceVersion": str(version)}
        metadata |= {"annotations": annotations} if annotations else {}
        self.write({"type": "BOOKMARK", "object": {
            "kind": self.kind.name, "apiVersion": self.kind.api_version, "metadata": metadata}})

    def expire(self, why: str) -> bool:
        self.write({"type": "ERROR", "object": Refused(410, why).status()})
        return True

    def write(self, event: Json) -> None:
        data = json.dumps(event, separators=(",", ":")).encode() + b"\n"
        self.handler.wfile.write(b"%x\r\n%s\r\n" % (len(data), data))
        self.handler.wfile.flush()

    def gone(self) -> bool:
        """Whether the client closed the connection."""
        connection = self.handler.connection
        is_readable = bool(select.select([connection], [], [], 0)[0])
        return is_readable and not connection.recv(1, socket.MSG_PEEK)
