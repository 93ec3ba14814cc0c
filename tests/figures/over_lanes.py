"""Runs over two lanes: idle, a line in turn, lines whose output isn't read, and a flood of slices
beside requests."""
from __future__ import annotations

import contextlib
import json
import os
import pathlib
import subprocess
import tempfile
import threading
import time
from collections.abc import Callable, Iterator, Sequence
from dataclasses import dataclass
from typing import IO

import cluster_lines as lines
import speaker_streams as speaker
from runs import program_of

IDLE = 3.0  # seconds
TURNS = 20000
UNREAD = 100000
SLICES = 65536
HELD = 2048


@dataclass(frozen=True)
class Lane:
    """The word that names the lane's file, and what makes its lines."""

    name: str
    line: Callable[[int], str]


@dataclass(frozen=True)
class Lanes:
    """A program with its words, and its two lanes."""

    program: str
    words: list[str]
    lanes: list[Lane]


def ignored(at: int) -> str:
    return lines.line("ConfigMap", "ADDED", at + 1, {"name": f"c{at:06}"})


def shown(at: int) -> str:
    return lines.service(at % 65535, at + 1)


CONTROLLER = Lanes("mlb_controller", [], [Lane("config", ignored), Lane("service", shown)])
SPEAKER = Lanes("mlb_speaker", ["--node-name", speaker.OWN, "--interface",
                                "eth0=02:00:00:00:00:0a"],
                [Lane("watch", ignored), Lane("frame", lambda at: speaker.request(2 * at + 1))])


@contextlib.contextmanager
def started(over: Lanes, folder: pathlib.Path,
            more: list[str] | None = None) -> Iterator[subprocess.Popen[str]]:
    """The program over the lanes of the folder, whose output is a pipe."""
    files = [word for it in over.lanes for word in (f"--{it.name}-lane", str(folder / it.name))]
    words = [str(program_of(over.program)), *over.words, *(more or []), *files]
    with subprocess.Popen(words, stdin=subprocess.DEVNULL, stdout=subprocess.PIPE,
                          text=True) as ran:
        yield ran


def output(ran: subprocess.Popen[str]) -> IO[str]:
    if ran.stdout is None:
        raise ValueError("its output is no pipe")
    return ran.stdout


def used(pid: int) -> tuple[float, float]:
    """The processor seconds of the process, and the megabytes that it had at most."""
    fields = pathlib.Path(f"/proc/{pid}/stat").read_text().rpartition(")")[2].split()
    status = pathlib.Path(f"/proc/{pid}/status").read_text()
    at_most = int(status.partition("VmHWM:")[2].split()[0]) / 1024
    return (int(fields[11]) + int(fields[12])) / os.sysconf("SC_CLK_TCK"), at_most


def in_turn(over: Lanes) -> bool:
    """Nothing is given for a while, and then lines, each once the one before is told of."""
    with tempfile.TemporaryDirectory() as made:
        folder = pathlib.Path(made)
        for lane in over.lanes:
            os.mkfifo(folder / lane.name)
        with started(over, folder) as ran:
            pipes = [open(folder / lane.name, "w") for lane in over.lanes]
            before, _ = used(ran.pid)
            time.sleep(IDLE)
            idle, _ = used(ran.pid)
            begun = time.monotonic()
            for at in range(TURNS):
                lane, pipe = over.lanes[at % 2], pipes[at % 2]
                pipe.write(lane.line(at // 2))
                pipe.flush()
                while (told := json.loads(output(ran).readline()))["op"] != "took":
                    pass
                if (told["lane"], told["n"]) != (lane.name, at // 2 + 1):
                    raise ValueError(f"line {at // 2 + 1} of {lane.name}: {told}")
            took, (busy, _) = time.monotonic() - begun, used(ran.pid)
            for pipe in pipes:
                pipe.close()
            output(ran).read()
    within = idle - before <= 0.02 and ran.returncode == 0
    print(f"turns ({over.program}): idle for {IDLE:g} s {idle - before:.2f} s of processor; "
          f"{TURNS} lines in turn {took / TURNS * 1e6:.0f} us each, "
          f"{(busy - idle) / TURNS * 1e6:.0f} us of processor, status {ran.returncode}"
          f"{'' if within else '  PASSED ITS LIMIT'}", flush=True)
    return within


def at_most_unread(ran: subprocess.Popen[str]) -> float:
    """The megabytes of the process once it stands still, since nobody reads what it writes."""
    seen, now = -1.0, 0.0
    while seen != now:
        time.sleep(2)
        seen, (_, now) = now, used(ran.pid)
    return now


def give(pipe: IO[str], texts: list[str]) -> None:
    pipe.writelines(texts)
    pipe.flush()


def unread(what: str, over: Lanes, given: Sequence[Iterator[str]], limit: float) -> bool:
    """The megabytes while nothing that is written is read; then all is."""
    with tempfile.TemporaryDirectory() as made:
        folder = pathlib.Path(made)
        count = 0
        for lane, texts in zip(over.lanes, given):
            with open(folder / lane.name, "w") as file:
                for text in texts:
                    file.write(text)
                    count += 1
        with started(over, folder) as ran:
            megabytes = at_most_unread(ran)
            took = sum(json.loads(text)["op"] == "took" for text in output(ran))
    within = megabytes <= limit and (ran.returncode, took) == (0, count)
    print(f"mail ({what}, output unread): {megabytes:.0f} MB ({limit:g}), then {took} of {count} "
          f"lines are told of, status {ran.returncode}{'' if within else '  PASSED ITS LIMIT'}",
          flush=True)
    return within


def mail() -> bool:
    """A service of 100 KB that is shown 8,000 times; and many small lines in both lanes."""
    large = {f"l{at}": "x" * 63 for at in range(1400)}
    config = iter([lines.pool(), lines.list_end("IPAddressPool", 1)])
    services = (lines.line("Service", "MODIFIED", 10 + at,
                           {"namespace": "n", "name": "s", "labels": large}, spec=lines.SPEC)
                for at in range(8000))
    within = unread("8,000 lines of 100 KB", CONTROLLER, [config, services], 300)
    for over in (CONTROLLER, SPEAKER):
        small = [(lane.line(at) for at in range(UNREAD)) for lane in over.lanes]
        within &= unread(f"{over.program}, {UNREAD} lines a lane", over, small, 300)
    return within


def begun_speaker() -> Iterator[str]:
    yield from speaker.configuration()
    yield lines.list_end("IPAddressPool", 4)
    yield lines.members([speaker.OWN])
    for at in range(HELD):
        yield lines.service(at, 2 * at + 5, held=at)
        yield lines.slice_of(at, 2 * at + 6, [speaker.OWN])


def flood(words: list[str]) -> bool:
    """Requests by ARP, one after the other, while many newer slices are taken."""
    first = list(begun_speaker())
    newer = [lines.slice_of(at % HELD, at + 10 ** 6, [speaker.OWN]) for at in range(SLICES)]
    last: dict[str, object] = {"lane": "watch", "n": len(first) + SLICES, "op": "took"}
    with tempfile.TemporaryDirectory() as made:
        folder = pathlib.Path(made)
        for lane in SPEAKER.lanes:
            os.mkfifo(folder / lane.name)
        with started(SPEAKER, folder, words) as ran:
            watch, frame = (open(folder / lane.name, "w") for lane in SPEAKER.lanes)
            shows = threading.Thread(target=give, args=(watch, first))
            shows.start()
            shown_first: dict[str, object] = {**last, "n": len(first)}
            while json.loads(output(ran).readline()) != shown_first:
                pass
            shows.join()
            feeds = threading.Thread(target=give, args=(watch, newer))
            begun = given = time.monotonic()
            feeds.start()
            answered, longest, taken = 0, 0.0, False
            frame.write(speaker.request(0))
            frame.flush()
            while not taken:
                told = json.loads(output(ran).readline())
                taken = told == last
                if told["op"] == "send":
                    now = time.monotonic()
                    answered, longest, given = answered + 1, max(longest, now - given), now
                    frame.write(speaker.request(0))
                    frame.flush()
            took = time.monotonic() - begun
            feeds.join()
            watch.close()
            frame.close()
            output(ran).read()
    within = longest <= 0.1 and ran.returncode == 0
    print(f"flood ({SLICES} newer slices, {'a' if words else 'no'} responder): "
          f"{answered / took:.0f} requests answered a second for {took:.1f} s, the longest wait "
          f"{longest:.3f} s (0.1), status {ran.returncode}"
          f"{'' if within else '  PASSED ITS LIMIT'}", flush=True)
    return within


KINDS: dict[str, Callable[[], bool]] = {
    "turns": lambda: all([in_turn(CONTROLLER), in_turn(SPEAKER)]),
    "mail": mail,
    "flood": lambda: all([flood([]), flood(["--responder"])]),
}
