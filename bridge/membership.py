"""Which nodes are members, those among which each address finds the one that announces it: the
rules, without sockets or time.

A node is a member that is heard and says that it serves. What a node can't hear it takes from the
API server, which all see alike, but late: a speaker that is ready there, on a node whose kubelet is
alive, and that isn't heard for SETTLE seconds, is one that others can't hear either, as behind a
closed port or with another key. So it counts, and it holds itself back for as long. Where neither
the others nor the API server are there, this node is the one that is cut off, and it names nobody,
not itself either."""
from __future__ import annotations

import enum
from collections import deque
from dataclasses import dataclass, field

from beats import Beats
from roster import Roster

TICK = 0.1  # seconds between two looks
CUT_OFF = 5.0  # seconds without others and without API server
# Seconds of being ready and unheard until a node counts for the others, and so many more until it
# goes by that itself. A speaker that hangs isn't ready any more after three probes, each 2 s.
SETTLE, MORE = 15.0, 10.0
# Seconds in which a kubelet that is alive is seen to renew its Lease, which it does each 10; and
# those for which one that is looked at first may be alive.
PULSE, DOUBT = 25.0, 16.0
LATE = 5.0  # seconds by which a list of Leases may be late: what it shows before is no sign of life


class Standing(enum.Enum):
    """How a node is placed, as it sees it itself."""
    AMONG_OTHERS = "other nodes are heard"
    ALONE = "no other node is heard"
    WAITING = ("no other node is heard, but the API server shows others that are ready, so this one"
               " waits: has it another key, or is a port closed?")
    CUT_OFF = "no other node is heard, and no API server: all is withdrawn"


@dataclass
class Pulse:
    """What was seen of a kubelet's Lease. `since` and `changed`: when it was looked at first, and
    seen to change last."""
    since: float
    renewed: str | None = None
    changed: float | None = None

    def is_alive(self, now: float) -> bool:
        return self.changed is not None and now - self.changed <= PULSE

    def outlives(self, silence: float) -> bool:
        """Whether it was seen to be renewed since a silence that began then."""
        return self.changed is not None and self.changed - silence >= LATE

    def may_be(self, now: float) -> bool:
        """Whether it is alive as far as is known."""
        return self.is_alive(now) or self.changed is None and now - self.since <= DOUBT


@dataclass
class Membership:
    """What is known at a node of which nodes are members.

    `leased`: members by Leases, where those are looked at too, with when each says that it began,
    and `heard_leased`: that of those that were heard. `answered`: the seconds for which the API
    server was asked and answered, all in all, by which `unheard_since` (of the speakers that are
    ready and not heard), `pulses` (of their kubelets) and `ready_since` (of this one) are told.
    `unanswered`: the seconds since it answered last. `lately`: how many others were heard at the
    last looks at which there was one. `was_heard`: whether there was one since the program
    began."""
    beats: Beats
    roster: Roster
    leased: dict[str, str] = field(default_factory=dict)
    heard_leased: dict[str, str] = field(default_factory=dict)
    answered: float = 0.0
    unanswered: float = 0.0
    lately: deque[int] = field(default_factory=lambda: deque([0], maxlen=round(CUT_OFF / TICK)))
    unheard_since: dict[str, float] = field(default_factory=dict)
    pulses: dict[str, Pulse] = field(default_factory=dict)
    was_heard: bool = False
    ready_since: float | None = None
    is_cut_off: bool = False

    @property
    def node(self) -> str:
        return self.beats.node

    def begin(self) -> None:
        """A program begins, which announces nothing yet."""
        self.was_heard = False

    def look(self) -> None:
        """Takes note, once each TICK, of what is heard."""
        self.beats.show(self.roster.addresses(), self.roster.nodes)
        heard, ready = self.beats.heard(), self.roster.ready()
        self.was_heard |= bool(heard)
        self.heard_leased |= {name: began for name, began in self.leased.items() if name in heard}
        unheard = ready - heard - {self.node}
        self.unheard_since = {name: self.unheard_since.get(name, self.answered) for name in unheard}
        self.pulses = {name: self.pulses.get(name) or Pulse(self.answered) for name in unheard}
        if self.node not in ready:
            self.ready_since = None
        elif self.ready_since is None:
            self.ready_since = self.answered
        if heard:
            self.lately.append(len(heard))
            self.is_cut_off = False
        elif self.unanswered == 0:
            self.is_cut_off = False
        elif max(self.lately) > 1 and self.unanswered >= CUT_OFF:
            self.is_cut_off = True

    def asks(self) -> bool:
        """Whether it matters just now that the API server answers."""
        return bool(self.unheard_since) or max(self.lately) > 1 and not self.beats.heard()

    def answer(self, seconds: float, is_answered: bool | None) -> None:
        """So many seconds went by, after which the API server answered, didn't, or wasn't
        asked."""
        if is_answered is False:
            self.unanswered += seconds
            return
        if is_answered and self.unanswered == 0:
            self.answered += seconds
        self.unanswered = 0.0

    def saw(self, name: str, renewed: str) -> None:
        """A kubelet's Lease says that it was renewed then, by whatever clock."""
        if pulse := self.pulses.get(name):
            if pulse.renewed not in (None, renewed):
                pulse.changed = self.answered
            pulse.renewed = renewed

    def vouched(self) -> set[str]:
        """Those that aren't heard, and count all the same: those that are alive and ready for long,
        and those with a Lease, but for one that was heard while it had that: it is gone."""
        now = self.answered
        settled = {name for name, since in self.unheard_since.items()
                   if now - since >= SETTLE and self.pulses[name].is_alive(now)
                   and self.pulses[name].outlives(since)}
        leased = {name for name, began in self.leased.items()
                  if self.heard_leased.get(name) != began}
        named = settled | leased
        return named - self.beats.heard() - {self.node} if named else named

    def standing(self) -> Standing:
        if self.beats.heard():
            return Standing.AMONG_OTHERS
        if self.is_cut_off:
            return Standing.CUT_OFF
        begins = not self.was_heard and not self.leased and not self.is_settled()
        if begins and any(pulse.may_be(self.answered) for pulse in self.pulses.values()):
            return Standing.WAITING
        return Standing.ALONE

    def is_settled(self) -> bool:
        """Whether this node counts for those that can't hear it."""
        since = self.ready_since
        return since is not None and self.answered - since >= SETTLE + MORE

    def names(self) -> list[str]:
        """The members, as this node sees them."""
        standing = self.standing()
        if standing in (Standing.CUT_OFF, Standing.WAITING):
            return []
        return sorted({self.node} | self.beats.serving() | self.vouched())

    def is_complete(self) -> bool:
        """Whether all that are told are heard."""
        return self.beats.heard() == self.beats.others.keys()
