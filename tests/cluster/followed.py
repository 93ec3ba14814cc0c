"""How far a program has come: what the trace of its bridge tells of the lines that it was given and
took.

Before all that a line leads to a program over lanes tells that it took the line, and of one behind
its fence the bridge tells it once all of that is done. So once a line was taken all that those
before it led to is done: written, and each put answered."""
from __future__ import annotations

import bisect
import collections
import json
import threading
from typing import IO

from kinds import Json

ENDS_LIST = "k8s.io/initial-events-end"


class Lane:
    """What was taken since the lane's lists began: the versions of each kind's bookmarks that end
    no list, and the last members."""

    def __init__(self) -> None:
        self.given: collections.deque[tuple[int, Json]] = collections.deque()
        self.members: list[str] | None = None
        self.bookmarks: dict[str, list[int]] = collections.defaultdict(list)


class Followed:
    """Reads a trace (bridge, --trace) as it grows. `news` is told of each line of note that was
    taken; `pid` is the program of which that is."""

    def __init__(self) -> None:
        self.news = threading.Condition()
        self.pid: int | None = None
        self.lanes: dict[str, Lane] = {}
        self.question: bytes | None = None
        self.asked: set[str] = set()

    def listen(self, file: IO[bytes], copy: IO[bytes] | None = None) -> None:
        for line in file:
            if copy:
                copy.write(line)
            head, _, text = line.partition(b": ")
            _, name, *number = head.split()
            if number:
                self.given(name.decode(), int(number[0]), text)
            elif name == b"written" and b'"took"' in text:
                told = json.loads(text)
                self.took(told["lane"], told["n"])
            elif name == b"took":
                lane, at = text.split()
                self.took(lane.decode(), int(at))
            elif name == b"started":
                with self.news:
                    self.pid, self.lanes, self.asked = int(text), {}, set()

    def given(self, name: str, number: int, text: bytes) -> None:
        lane = self.lanes.setdefault(name, Lane())
        if name == "frame":
            if self.question and self.question in text:
                lane.given.append((number, json.loads(text)))
        elif (b'"BOOKMARK"' in text or b'"MEMBERS"' in text
              or text.startswith(b'{"type":"ERROR"')):
            lane.given.append((number, json.loads(text)))

    def took(self, name: str, number: int) -> None:
        lane = self.lanes[name]
        while lane.given and lane.given[0][0] <= number:
            with self.news:
                self.take(lane, lane.given.popleft()[1])
                self.news.notify_all()

    def take(self, lane: Lane, event: Json) -> None:
        if event["type"] == "ERROR":
            lane.bookmarks.clear()
        elif event["type"] == "MEMBERS":
            lane.members = event["members"]
        elif event["type"] == "FRAME":
            self.asked.add(event["interface"])
        else:
            metadata = event["object"].get("metadata") or {}
            is_end = ENDS_LIST in (metadata.get("annotations") or {})
            if "resourceVersion" in metadata and not is_end:
                version = int(metadata["resourceVersion"])
                lane.bookmarks[event["object"]["kind"]].append(version)

    def is_shown(self, pid: int) -> bool:
        """Whether this program was given a line of note."""
        with self.news:
            return self.pid == pid and bool(self.lanes)

    def turns(self, name: str, kind: str, version: int) -> int:
        """How many bookmarks of the kind, at the version or later, the program took."""
        with self.news:
            taken: list[int] = self.lanes[name].bookmarks[kind] if name in self.lanes else []
            return len(taken) - bisect.bisect_left(taken, version)

    def members(self) -> list[str] | None:
        """The members that a speaker took last."""
        with self.news:
            return self.lanes["watch"].members if "watch" in self.lanes else None

    def ask(self, question: bytes) -> None:
        """From now on `asked` has the interfaces by which the speaker took this frame."""
        with self.news:
            self.question, self.asked = question.hex().encode(), set()
