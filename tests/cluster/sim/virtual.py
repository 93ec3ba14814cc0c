"""Virtual time: what is to happen, in its order, and a record of what did. Nothing here waits, and
all that is drawn follows from the seed."""
import collections
import hashlib
import heapq
import random
from collections.abc import Callable, Sequence
from typing import Any, TextIO


class World:
    """`note` is told of all that can be seen from outside. The hash of these notes is that of the
    run: two runs of one seed have the same."""

    def __init__(self, seed: int, salt: int = 0, trace: TextIO | None = None) -> None:
        self.seed, self.salt, self.trace = seed, salt, trace
        self.now, self.count = 0.0, 0
        self.heap: list[tuple[float, int, Callable[..., object], tuple[Any, ...]]] = []
        self.drawn: collections.Counter[str] = collections.Counter()
        self.counts: collections.Counter[str] = collections.Counter()  # of what befell whom
        self.hash, self.notes = hashlib.sha256(), 0
        self.told: list[tuple[str, str]] = []  # who told the operator what

    def stream(self, name: str, salted: bool = True) -> random.Random:
        """A source of chance of its own, so that what is drawn in one place doesn't change what is
        drawn in another. With another salt all is drawn anew but what isn't salted: so the same
        troubles come to other ends."""
        return random.Random(f"{self.seed}/{self.salt * salted}/{name}")

    def chance(self, name: str) -> random.Random:
        """A source of chance for one thing that happens: by its name, and how many of that name
        there were. So what else happens, or is left out, changes nothing of it."""
        self.drawn[name] += 1
        return self.stream(f"{name}/{self.drawn[name]}")

    def at(self, when: float, call: Callable[..., object], *args: Any) -> None:
        """Calls at a time, after what was to be called then before."""
        self.count += 1
        heapq.heappush(self.heap, (max(when, self.now), self.count, call, args))

    def after(self, delay: float, call: Callable[..., object], *args: Any) -> None:
        self.at(self.now + delay, call, *args)

    def note(self, who: str, what: str) -> None:
        line = f"{self.now:13.6f} {who:12} {what}\n"
        self.hash.update(line.encode())
        self.notes += 1
        if self.trace:
            self.trace.write(line)

    def run(self, until: float, faults: Sequence[str] = ()) -> None:
        """Lets all happen that is to happen up to a time, or until there is a fault."""
        heap, pop = self.heap, heapq.heappop
        while heap and heap[0][0] <= until and not faults:
            self.now, _, call, args = pop(heap)
            call(*args)
        if not faults:
            self.now = max(self.now, until)
