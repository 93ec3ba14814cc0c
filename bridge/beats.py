"""Which other nodes are there, by what they say of themselves several times a second. Nothing here
knows of sockets or of the time.

What the receiver finds of itself in a datagram shows that this is of now and was meant for it,
without a clock: one that was recorded before names another boot, or a number of long ago. So a node
is heard where it hears us too.

To MANY others each tells all of them each PAUSE. Among more, a node tells those next to it on a
ring so, and the rest more seldom. Those next to one that falls silent say so to all, and whoever
hears that from two of them asks the silent one itself, which is gone where it gives no answer. So
nobody is dropped on others' word alone, and where no such word comes the seldom datagrams tell."""
from __future__ import annotations

import enum
import hashlib
import math
from collections import deque
from collections.abc import Iterable, Mapping, Sequence
from dataclasses import dataclass, field

from datagrams import BOOT, Datagram, as_many_as_fit, read, written

PAUSE = 0.3  # seconds between two datagrams to a node
LOST = 5  # datagrams in a row that don't come, after which a node is gone
MANY = 200  # others that are told each PAUSE; of more, most are told more seldom
SIDE = 8  # nodes on each side of the ring that are told each PAUSE all the same
SILENT = 3  # datagrams in a row that don't come, after which those next to a node say so
TOLD = 1.0  # seconds for which they do
WITNESSES = 2  # nodes that say so, from which on the silent one is asked
BELIEVED = 2.0  # seconds for which what one says counts
ASKED, ASK_PAUSE = 3, 0.2  # how often it is asked, and seconds for each answer
CALM = 0.6  # seconds after an answer in which nobody's word counts
HASTE = 2  # beats in which all are told of news, since a datagram may be lost


class Verdict(enum.Enum):
    """What became of a datagram that came."""
    TAKEN = "taken"
    OLD = "old"  # signed, but not of now: replayed, or of a node that doesn't hear us yet
    UNKNOWN = "unknown"  # signed, of a node that the cluster doesn't show
    UNSIGNED = "unsigned"


@dataclass
class Other:
    """What was heard of another node. `silent`: for how many seconds nothing of now came of it, and
    `unsigned`: nothing that was signed. `told`: the numbers of the last datagrams to it, one of
    which goes out each `turns` beats, the next after `rest`."""
    address: str
    boot: bytes = bytes(BOOT)
    number: int = 0
    pause: float = PAUSE
    silent: float = math.inf
    unsigned: float = math.inf
    serves: bool = False
    told: deque[int] = field(default_factory=lambda: deque(maxlen=LOST + 1))
    turns: int = 1
    rest: int = 0
    is_answered: bool = False  # whether it was just now

    @property
    def is_heard(self) -> bool:
        return self.silent < LOST * self.pause

    @property
    def is_there(self) -> bool:
        """Whether something came of it lately, if only what was meant for an earlier start."""
        return self.unsigned < LOST * self.pause

    @property
    def is_new(self) -> bool:
        """Whether it was told few times only, of which none may have come."""
        return len(self.told) <= LOST

    @property
    def falls_silent(self) -> bool:
        """Whether it serves, tells us each PAUSE, and came to miss several datagrams just now."""
        silence = self.silent - SILENT * PAUSE
        return self.serves and self.pause <= PAUSE and 0 <= silence < TOLD


@dataclass
class Doubt:
    """Whether another node is there. `by`: who says that it is silent, with the seconds since.
    `first`: the number of the first datagram that asked it, one of `asked`, and `waited` the
    seconds since. `calm`: seconds for which nobody's word counts, as it answered."""
    by: dict[str, float] = field(default_factory=dict)
    first: int | None = None
    asked: int = 0
    waited: float = 0.0
    calm: float = 0.0

    @property
    def is_due(self) -> bool:
        """Whether the node is to be asked, or asked once more."""
        is_said = self.first is not None or len(self.by) >= WITNESSES
        return is_said and self.asked < ASKED and self.waited >= self.asked * ASK_PAUSE

    @property
    def is_over(self) -> bool:
        """Whether it gave no answer."""
        return self.first is not None and self.waited >= ASKED * ASK_PAUSE

    @property
    def is_nothing(self) -> bool:
        return self.first is None and not self.by and self.calm <= 0

    def pass_time(self, seconds: float) -> None:
        self.by = {node: age + seconds for node, age in self.by.items()
                   if age + seconds < BELIEVED}
        self.waited += seconds if self.first is not None else 0.0
        self.calm -= seconds


def ring_of(node: str, others: Iterable[str]) -> list[str]:
    """The other nodes in the order in which they follow one on the ring, which is the same for
    all."""
    def place(name: str) -> bytes:
        return hashlib.sha256(name.encode()).digest()
    own = place(node)
    return sorted(others, key=lambda name: (place(name) < own, place(name)))


@dataclass
class Beats:
    """The datagrams of one node: those to the others, and what was heard of them. The first key
    signs, each is taken. `told` and `known`: what was shown last. `changes`: how often another node
    came to be heard, or to serve, or ceased to serve. `many`: as many others as are told in each
    beat. `served` and `lost`: what was said last, and `haste`: in how many beats all are told.
    `doubts`: which nodes may be gone; `asking`: those who await an answer."""
    node: str
    boot: bytes
    keys: Sequence[bytes]
    number: int = 0
    others: dict[str, Other] = field(default_factory=dict)
    told: Mapping[str, str] = field(default_factory=dict)
    known: Mapping[str, str] = field(default_factory=dict)
    changes: int = 0
    many: int = MANY
    ring: list[str] = field(default_factory=list)
    served: bool = False
    haste: int = 0
    lost: tuple[str, ...] = ()
    doubts: dict[str, Doubt] = field(default_factory=dict)
    asking: set[str] = field(default_factory=set)

    def show(self, told: Mapping[str, str], known: Mapping[str, str]) -> None:
        """`told` are the nodes to tell, with their addresses; `known` are all that there are, of
        which one of which something comes is told too."""
        for name in self.others.keys() - told.keys():
            if self.others[name].is_there and name in known:
                self.others[name].address = known[name]
            else:
                del self.others[name]
        if told is not self.told:
            for name, address in told.items():
                if name != self.node:
                    self.others.setdefault(name, Other(address)).address = address
        self.told, self.known = told, known

    def met(self, name: str) -> Other | None:
        """The node of that name, if there is such a one."""
        if name != self.node and name not in self.others and name in self.known:
            self.others[name] = Other(self.known[name])
        return self.others.get(name)

    @property
    def turns(self) -> int:
        """In how many beats a node is told once that isn't next to this one."""
        return max(1, math.ceil(len(self.others) / self.many))

    @property
    def pause(self) -> float:
        """Seconds between two datagrams to a node that isn't next to this one."""
        return PAUSE * self.turns

    def near(self) -> set[str]:
        """The nodes that are told in each beat: the next on each side of the ring of those that are
        heard, or all where they aren't many."""
        if self.turns == 1:
            return set(self.others)
        if len(self.ring) != len(self.others) or any(name not in self.others for name in self.ring):
            self.ring = ring_of(self.node, self.others)
        heard = [name for name in self.ring if self.others[name].is_heard]
        return {*heard[:SIDE], *heard[-SIDE:]}

    def beat(self, serves: bool) -> list[tuple[str, bytes]]:
        """The datagrams that are due, each with its address: to all where there is news."""
        lost = self.silent()
        if serves != self.served or set(lost) - set(self.lost):
            self.haste = max(self.haste, HASTE)
        self.served, self.lost = serves, lost
        near, most, due = self.near(), self.turns, []
        for name, other in self.others.items():
            other.rest -= 1
            if other.rest <= 0 or self.haste > 0:
                turns = 1 if name in near or other.is_new else most
                # Those that come to be told more seldom are spread over the beats.
                is_as_before = turns == other.turns and self.haste <= 0
                other.rest = turns if is_as_before else 1 + self.number % turns
                other.turns = turns
                due.append((other.address, self.said_to(name, other)))
        self.haste = max(0, self.haste - 1)
        return due

    def silent(self) -> tuple[str, ...]:
        """The nodes that fell silent, of which the others are to know."""
        if self.turns == 1:
            return ()
        return as_many_as_fit([name for name, other in self.others.items() if other.falls_silent])

    @property
    def has_news(self) -> bool:
        """Whether a node fell silent of which the others weren't told yet."""
        return bool(set(self.silent()) - set(self.lost))

    def said_to(self, name: str, other: Other) -> bytes:
        """The next datagram to that node, which is asked for an answer where it isn't heard, or
        where it is doubtful."""
        self.number += 1
        other.told.append(self.number)
        doubt = self.doubts.get(name)
        asks = not other.is_heard or doubt is not None and doubt.first is not None
        said = Datagram(self.boot, self.number, other.boot, other.number, PAUSE * other.turns,
                        self.served, self.node, asks, self.lost)
        return written(said, self.keys[0])

    def answers(self) -> list[tuple[str, bytes]]:
        """The datagrams to those that asked for one, each with its address."""
        asking, self.asking = self.asking, set()
        due = []
        for name in sorted(asking & self.others.keys()):
            other = self.others[name]
            other.is_answered = True
            due.append((other.address, self.said_to(name, other)))
        return due

    def questions(self) -> list[tuple[str, bytes]]:
        """The datagrams that ask those who are said to be silent, each with its address."""
        due = []
        for name, doubt in self.doubts.items():
            other = self.others.get(name)
            if other and doubt.is_due:
                if doubt.first is None:
                    doubt.first = self.number + 1
                doubt.asked += 1
                due.append((other.address, self.said_to(name, other)))
        return due

    def take(self, octets: bytes) -> Verdict:
        """Takes in a datagram that came."""
        said = read(octets, self.keys)
        if not said:
            return Verdict.UNSIGNED
        other = self.met(said.node)
        if not other:
            return Verdict.UNKNOWN
        other.unsigned = 0.0
        if said.boot == other.boot and said.number <= other.number:
            return Verdict.OLD
        if said.asks and not other.is_answered:
            self.asking.add(said.node)
        is_of_now = said.heard_boot == self.boot and said.heard_number in other.told
        if not is_of_now and said.boot != other.boot and other.is_heard:
            return Verdict.OLD  # an earlier start's doesn't take the place of what is heard
        other.boot, other.number = said.boot, said.number
        if not is_of_now:
            return Verdict.OLD
        self.changes += (other.is_heard, other.serves) != (True, said.serves)
        other.silent, other.serves, other.pause = 0.0, said.serves, max(PAUSE, said.pause)
        self.weigh(said)
        return Verdict.TAKEN

    def weigh(self, said: Datagram) -> None:
        """Takes in an answer of one that was asked, and which nodes are said to be silent."""
        doubt = self.doubts.get(said.node)
        if doubt and doubt.first is not None and said.heard_number >= doubt.first:
            self.doubts[said.node] = Doubt(calm=CALM)
        for name in said.lost:
            if name in self.others and name != said.node and self.others[name].is_heard:
                doubt = self.doubts.setdefault(name, Doubt())
                if doubt.calm <= 0:
                    doubt.by[said.node] = 0.0

    def pass_time(self, seconds: float) -> None:
        for other in self.others.values():
            other.silent += seconds
            other.unsigned += seconds
            other.is_answered = False
        for name, doubt in list(self.doubts.items()):
            doubt.pass_time(seconds)
            if name not in self.others or doubt.is_nothing:
                del self.doubts[name]
            elif doubt.is_over:
                self.others[name].silent = math.inf
                del self.doubts[name]

    def heard(self) -> set[str]:
        return {name for name, other in self.others.items() if other.is_heard}

    def serving(self) -> set[str]:
        """The others that are heard and serve."""
        return {name for name, other in self.others.items() if other.is_heard and other.serves}
