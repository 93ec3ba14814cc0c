"""One small cluster in this process: its store and server, the bridge of a controller with its
program, and what goes wrong with them."""
from __future__ import annotations

import contextlib
import os
import pathlib
import random
import re
import signal
import subprocess
import sys
import threading
import time
from collections.abc import Callable, Mapping, Sequence

from followed import Followed
from kinds import BY_NAME, Json, Kind
from rules import record_of
from serving import Faults, Server
from store import Key, Store
from store_judge import Judge
from users import Users

TOP = pathlib.Path(__file__).resolve().parents[2]
PATIENCE = 600.0  # seconds in which all must be still; else there is no verdict
SLOW = 30.0  # seconds without stillness behind which the machine is looked at anew, again and again
# What is left is a difference once all programs took note so many times, and in so many seconds,
# that nothing changes any more.
TURNS, STAYS = 20, 3.0
SHORTEST_PAUSE, LONGEST_PAUSE = 0.02, 0.2  # seconds between two looks
FIRST_PAUSE = 0.1  # seconds until bookmarks are called for again where nothing came of it
LONGEST_ROUND = 60.0  # seconds in which users edit
STARTED = 60.0  # seconds for the first program to start
BARRED = 0.3  # of the rounds have a service whose puts are all refused
LAST_EDITS = 20  # at most so many of services alone, behind all others
# The statuses of a program that was killed, and of one whose lanes and input were closed: all was
# driven, a put had no reply, or it was killed for not ending.
KILLED, CLOSED = "-9", ("0", "8", "-9")
WORTH_TELLING = ("for good", "nothing more is taken")
NOT_STILL = "NOT STILL"
NO_VERDICT = "WAITS"  # begins a line that tells why it can't be judged yet

CONFIG_KINDS = ("IPAddressPool", "L2Advertisement", "BGPAdvertisement", "Community", "BGPPeer",
                "Namespace")
LANES: dict[str, dict[str, tuple[str, ...]]] = {
    "controller": {"watch": (*CONFIG_KINDS, "Service")},
    "speaker": {"watch": (*CONFIG_KINDS, "Node", "Service", "EndpointSlice")}}
Latest = Mapping[Kind, int]  # the version of each kind's last change


class Made:
    """What clusters are made of: the folder of the bridge."""
    bridge = str(TOP / "bridge")


def program_of(name: str) -> str:
    return str(TOP / "crates" / name / "out" / name)


def text_of(line: str) -> str:
    """The line without the frame in it, which tells of another neighbor each time."""
    return re.sub("[0-9a-f]{40,}", "", line)


class Bridge:
    """A bridge, and which process is its program now. `program` is None from the end of one until
    the next has begun; `kinds` are those that its lanes carry, by the lanes' names. Its trace is
    followed, and kept in a file where that is asked for. `ended` is told where it or its program
    ends though nobody ended it."""

    def __init__(self, words: Sequence[str], kinds: Mapping[str, Sequence[str]],
                 started: Callable[[], None] = lambda: None, kept: str | None = None,
                 ended: Callable[[str], object] = lambda text: None) -> None:
        self.kinds, self.started, self.followed = kinds, started, Followed()
        self.name, self.ended, self.is_to_end = words[0], ended, False
        trace, traced = os.pipe()
        words = [*words, "--trace", f"/dev/fd/{traced}"]
        self.process = subprocess.Popen(
            [sys.executable, Made.bridge, *words], stdin=subprocess.DEVNULL,
            stdout=subprocess.DEVNULL, stderr=subprocess.PIPE, text=True, pass_fds=[traced])
        os.close(traced)
        self.program: int | None = None
        self.killed: int | None = None
        self.runs = 0
        self.told: list[str] = []
        self.changed = threading.Lock()
        copy = open(kept, "ab") if kept else None
        threading.Thread(target=self.followed.listen, args=(open(trace, "rb"), copy),
                         daemon=True).start()
        self.listener = threading.Thread(target=self.listen, daemon=True)
        self.listener.start()

    def serves(self) -> bool:
        """Whether its program is shown the cluster."""
        with self.changed:
            return self.program is not None and self.followed.is_shown(self.program)

    def turns(self, latest: Latest) -> int:
        """How many times the program took note, of each kind, that nothing comes behind the
        versions."""
        with self.changed:
            if self.program is None or self.program != self.followed.pid:
                return 0
        return min(self.followed.turns(lane, kind, latest[BY_NAME[kind]])
                   for lane, kinds in self.kinds.items() for kind in kinds)

    def listen(self) -> None:
        assert self.process.stderr is not None
        run: int | None = None
        for line in self.process.stderr:
            with self.changed:
                word, _, rest = line.strip().partition(": ")
                if word == "program started":
                    run = self.program = int(rest)
                    self.runs += 1
                    self.started()
                elif word == "program ended by itself":
                    self.program = None
                    if (run, rest) != (self.killed, KILLED):
                        self.ended(f"ENDED the {self.name}'s program by itself: {rest}")
                    run = None
                elif word == "program ended":
                    self.program = None
                    if run is not None and rest not in CLOSED:
                        self.ended(f"ENDED the {self.name}'s program, once all was closed: {rest}")
                elif "Error" in line or any(text in line for text in WORTH_TELLING):
                    self.told.append(line.strip())
        self.process.stderr.close()
        status = self.process.wait()
        with self.changed:
            if not self.is_to_end:
                self.ended(f"ENDED the bridge of the {self.name} by itself: {status}")

    def kill(self) -> bool:
        """kill -9 of the program, if there is one that wasn't killed yet."""
        with self.changed:
            if self.program is None:
                return False
            pid, self.program = self.program, None
            self.killed = pid
        try:
            os.kill(pid, signal.SIGKILL)
        except ProcessLookupError:
            return False
        return True

    def stand_still(self) -> None:
        """SIGSTOP of the bridge; its program waits for it then."""
        self.process.send_signal(signal.SIGSTOP)

    def go_on(self) -> None:
        self.process.send_signal(signal.SIGCONT)

    def end_soon(self) -> None:
        """From now on it is no fault that it ends."""
        with self.changed:
            self.is_to_end = True

    def stop(self) -> None:
        self.end_soon()
        self.process.send_signal(signal.SIGTERM)
        try:
            self.process.wait(30)
        except subprocess.TimeoutExpired:
            self.end()

    def end(self) -> None:
        """kill -9 of the bridge and of what it started."""
        self.end_soon()
        started: list[int] = []
        for path in pathlib.Path(f"/proc/{self.process.pid}/task").glob("*/children"):
            # (a thread may end meanwhile)
            with contextlib.suppress(OSError):
                started += map(int, path.read_text().split())
        self.process.kill()
        self.process.wait()
        for pid in started:
            with contextlib.suppress(ProcessLookupError):
                os.kill(pid, signal.SIGKILL)


class Calls:
    """Has the watches send bookmarks: at once where the programs took note of the last ones or
    something changed, else ever less often, so that a program that is slow catches up."""

    def __init__(self, server: Server) -> None:
        self.server, self.at, self.pause = server, 0.0, FIRST_PAUSE
        self.known: tuple[int, Latest] | None = None

    def call(self, turns: int, latest: Latest) -> None:
        now, is_known = time.monotonic(), self.known == (turns, latest)
        if not is_known or now > self.at:
            self.pause = 2 * self.pause if is_known else FIRST_PAUSE
            self.known, self.at = (turns, latest), now + self.pause
            self.server.call()


class Plague(Faults):
    """Faults of requests and watches, changes of statuses that are forbidden, and stops of the
    controller at the worst moments of its puts."""

    def __init__(self, seed: int) -> None:
        super().__init__(seed)
        self.stops = self.forbidden = 0.0
        self.stop: Callable[[], None] = lambda: None

    def of_change(self, verb: str, kind: Kind, _key: Key, _body: Json | None) -> str | None:
        is_put = verb == "patch/status" and kind.name == "Service"
        return "made up" if is_put and self.draw(self.forbidden, True) else None

    def of_put(self, agent: str, key: Key) -> str | None:
        if self.draw(self.stops, True):
            self.stop()
            found: str | None = self.draw(1, "lost before", "lost behind", "timed out before",
                                          "timed out behind", None)
            return found
        return super().of_put(agent, key)

    def rage(self) -> None:
        self.puts, self.events, self.lists, self.stops = 0.2, 0.03, 0.5, 0.15
        self.forbidden = 0.05

    def calm(self) -> None:
        self.puts = self.events = self.lists = self.stops = self.forbidden = 0.0


class World:
    """A cluster with a controller. `round` lets users edit and things go wrong for a while, and
    judges what is left once all is still. A round has as many edits as would come in so many
    seconds if they took no time; on a slow machine it takes longer."""
    SECONDS, STAYS = (0.5, 2.0), STAYS
    count = 1  # of controllers
    harms = 3.0  # how often something goes wrong beside the requests, in a second

    def __init__(self, seed: int, controller: str | None = None, trace: str | None = None) -> None:
        self.seed, self.random, self.patience = seed, random.Random(seed), PATIENCE
        self.ends: list[str] = []  # of programs and bridges that nobody ended
        self.barred: Key | None = None  # a service of which each put is refused
        self.trace = trace
        self.lb_class = self.random.choice((None, None, "example.com/class"))
        self.store = Store(history=200)
        self.faults = Plague(seed)
        self.server = Server(self.store, faults=self.faults).start()
        self.judge = self.make_judge()
        self.users = Users(self.store, self.random, lb_class=self.lb_class)
        self.store.forbidden = self.forbidden
        self.kills = self.speaker_kills = self.rounds = self.cuts = self.late = 0
        self.begin()
        self.users.begin()
        self.words = ["--program", controller or program_of("mlb_controller"),
                      "--lease-seconds", "0.5", "--refused-pause", "0.01", "--without-pools"]
        self.words += ["--lb-class", self.lb_class] if self.lb_class else []
        self.begin_controllers()
        self.controllers = [self.start_at(at) for at in range(self.count)]
        self.until_started()
        self.faults.stop = self.stop_controller

    def make_judge(self) -> Judge:
        return Judge(self.server, lb_class=self.lb_class)

    def forbidden(self, verb: str, kind: Kind, key: Key, body: Json | None) -> str | None:
        """Why a change is forbidden, or nothing."""
        if key == self.barred and verb == "patch/status" and self.is_put(key, body):
            return "its addresses are no controller's to change"
        return self.faults.of_change(verb, kind, key, body)

    def is_put(self, key: Key, body: Json | None) -> bool:
        """Whether a service that is about to be stored has another record than it had."""
        stored = self.store.objects[BY_NAME["Service"]].get(key)
        return body is not None and stored is not None and record_of(body) != record_of(stored)

    def begin(self) -> None:
        """What a cluster has besides."""

    def begin_controllers(self) -> None:
        """What there is before there are controllers."""

    def url_of(self, _at: int) -> str:
        """Where a controller asks the API server."""
        return self.server.url

    def start_at(self, at: int) -> Bridge:
        words = ["controller", "--server", self.url_of(at), *self.words]
        return Bridge(words, LANES["controller"], kept=self.kept(f"controller{at}"),
                      ended=self.ends.append)

    def until_started(self) -> None:
        """Waits until there was a program, for a while at most."""
        until = time.monotonic() + STARTED
        while not any(one.runs for one in self.controllers) and time.monotonic() < until:
            time.sleep(SHORTEST_PAUSE)

    @property
    def bridge(self) -> Bridge:
        """The one that serves, where one does; else one whose program waits for the Lease."""
        return next((one for one in self.controllers if one.serves()),
                    next((one for one in self.controllers if one.program is not None),
                         self.controllers[0]))

    def kept(self, name: str) -> str | None:
        """The file that keeps the lines which a bridge gives and hears, where that is asked
        for."""
        return os.path.join(self.trace, f"{self.seed}-{name}") if self.trace else None

    def stop_controller(self) -> None:
        self.kills += self.bridge.kill()

    def harm(self) -> None:
        """Something that goes wrong beside the requests."""
        self.stop_controller()

    def heal(self) -> None:
        """What must be there again before all can be still."""

    def round(self) -> list[str]:
        """One round; the lines of what is wrong."""
        self.faults.rage()
        self.barred = self.users.any_key() if self.random.random() < BARRED else None
        until, pace = time.monotonic() + LONGEST_ROUND, self.random.choice([0.01, 0.03, 0.1])
        for _ in range(round(self.random.uniform(*self.SECONDS) / pace)):
            if time.monotonic() > until or self.wrong():
                break
            self.users.edit()
            if self.random.random() < pace * self.harms:
                self.harm()
            time.sleep(self.random.uniform(0, 2 * pace))
        self.users.mend()
        self.faults.calm()
        self.barred = None
        self.heal()
        self.rounds += 1
        self.last_edits()
        return self.still()

    def last_edits(self) -> None:
        """Once the controller was shown all, services alone are edited, and replies are lost.
        Nothing wakes behind it who isn't woken as an address comes free."""
        until, calls = time.monotonic() + self.patience, Calls(self.server)
        while not self.wrong() and time.monotonic() < until:
            latest = self.store.latest_versions()
            if self.bridge.turns(latest):
                break
            calls.call(0, latest)
            time.sleep(SHORTEST_PAUSE)
        self.faults.puts = 0.2
        for _ in range(self.random.randrange(LAST_EDITS)):
            self.users.edit_services()
            time.sleep(self.random.uniform(0, 0.02))
        self.faults.calm()

    def troubles(self) -> int:
        """How many requests went wrong on their way."""
        return 0

    def slow(self) -> None:
        """What is done where it takes long until all is still."""

    def bridges(self) -> list[Bridge]:
        """Those whose programs are to take note of all."""
        return [self.bridge]

    def wrong(self) -> list[str]:
        """What is wrong whatever comes."""
        return [*self.judge.faults, *self.ends]

    def left(self, come: bool) -> list[str]:
        """What is left to be done. `come`: whether all programs were shown all that there is."""
        return self.judge.left()

    def still(self) -> list[str]:
        """Waits until nothing is left to be done; what is wrong. Of what is left that counts as
        wrong which stays while the programs take note, over and over, that nothing comes any more:
        how fast they are doesn't matter."""
        begun, since, looked = time.monotonic(), (0.0, 0), 0
        left: list[str] = []
        stays: set[str] = set()
        calls, slow_at = Calls(self.server), begun + SLOW
        while not self.wrong():
            now, latest = time.monotonic(), self.store.latest_versions()
            if now > slow_at:
                self.slow()
                slow_at = now + SLOW
            turns = min(bridge.turns(latest) for bridge in self.bridges())
            calls.call(turns, latest)
            if not turns or turns != looked:
                left = self.left(turns > 0)
                if not left:
                    return []
                stays &= set(map(text_of, left))
                if turns <= looked or left[0].startswith(NO_VERDICT) or not stays:
                    since, stays = (now, turns), set(map(text_of, left))
                looked = turns
                if now > since[0] + self.STAYS and turns >= since[1] + TURNS:
                    lasting = [line for line in left if text_of(line) in stays]
                    return [*lasting, *self.bridge.told]
            if now > begun + self.patience:
                why = f"{NOT_STILL} after {self.patience} s, and so without a verdict"
                return [why, *left, *self.bridge.told]
            time.sleep(min(LONGEST_PAUSE, SHORTEST_PAUSE + (now - begun) / 20))
        return self.wrong()

    def stop(self) -> None:
        for bridge in self.controllers:
            bridge.stop()
        self.server.stop()
