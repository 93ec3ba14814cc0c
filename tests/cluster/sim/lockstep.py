"""The real program in lock-step. What the bridge writes to it waits here. A line is given to the
program only once all that the one before led to was written. Of a lane a line after it that is
passed over tells when. A program without lanes, which has one thread, is done once it has read all
and sleeps; where the bridge itself probes it, once it answers that. So what the program writes is a
function of the lines given, in their order, and that is drawn."""
import asyncio
import contextlib
import fcntl
import json
import os
import random
import select
import shutil
import struct
import subprocess
import tempfile
import termios
import time
from collections import deque
from collections.abc import Callable
from typing import Any, Protocol

from loops import Made, Process, Spawn

PROBES = {"frame": b'{"type":"FRAME","interface":"","bytes":""}\n'}
PROBE = b'{"type":"BOOKMARK","object":{"kind":"Probe"}}\n'  # of the other lanes
TOOK = b'{"lane":"%s","n":%d,"op":"took"}\n'
# octets that a pipe holds, and at which a writer is told to wait and to go on
PIPE, HIGH, LOW = 65536, 65536, 16384
REAL_SECONDS = 600.0  # of the real clock in which a program must write
LOOKS = (5e-5, 5e-3)  # and until it is looked again whether it sleeps, at first and at most
PROBED = b'{"fence":"listed"}\n'  # what a bridge probes by, behind another line
ANSWERED = b'"op":"unexpected"}'  # and the end of the line that answers it
ANSWERS = ("at", "refused", "unknown", "missing")  # to a put of a program without lanes
PASSED_OVER = ("unexpected", "took")  # lines that aren't noted
Json = dict[str, Any]


class Stuck(Exception):
    """The program doesn't tell that it took a line."""


class Hears(Protocol):
    """Is told of what a run is given and writes."""

    def given(self, run: "Run", lane: str, event: Json) -> None: ...

    def written(self, run: "Run", value: Json) -> Json:
        """What counts in place of a line that is written."""

    def replied(self, run: "Run", reply: Json) -> None: ...

    def ended(self, run: "Run") -> None: ...


class Lane(asyncio.Transport):
    """A named pipe: for the bridge the transport of its writer, and the lines that wait."""

    def __init__(self, run: "Run", name: str) -> None:
        super().__init__()
        self.run, self.name, self.rest, self.size, self.number = run, name, b"", 0, 0
        self.lines: deque[bytes] = deque()
        self.is_open = self.is_connected = self.closed = self.is_full = False
        self.protocol: Any = None
        self.real = -1

    def connected(self, protocol: Any) -> None:
        self.protocol, self.is_connected = protocol, True
        self.run.opened()

    def write(self, data: bytes | bytearray | memoryview) -> None:
        if self.closed or self.run.over:
            return
        *lines, self.rest = (self.rest + bytes(data)).split(b"\n")
        self.lines.extend(line + b"\n" for line in lines)
        self.size += len(data)
        if self.size > PIPE + HIGH and not self.is_full:
            self.is_full = True
            self.protocol.pause_writing()
        self.run.step_soon()

    def take(self) -> bytes:
        line = self.lines.popleft()
        self.size -= len(line)
        self.number += 1
        if self.is_full and self.size < PIPE + LOW:
            self.is_full = False
            self.run.process.call_soon(self.protocol.resume_writing)
        return line

    def close(self) -> None:
        if not self.closed:
            self.closed = True
            self.run.closed()

    abort = close

    def is_closing(self) -> bool:
        return self.closed

    def get_write_buffer_size(self) -> int:
        return max(0, self.size - PIPE)

    def get_extra_info(self, name: str, default: Any = None) -> Any:
        return default


class Input(asyncio.Transport):
    """The program's standard input as the bridge has it, and its standard output."""

    def __init__(self, run: "Run") -> None:
        super().__init__()
        self.run, self.closed, self.rest = run, False, b""

    def write(self, data: bytes | bytearray | memoryview) -> None:
        *lines, self.rest = (self.rest + bytes(data)).split(b"\n")
        if self.run.over:
            return
        if not self.run.lanes:
            self.run.said.append([line + b"\n" for line in lines])
            self.run.step_soon()
        else:
            for line in lines:
                self.run.world.after(self.run.delay(), self.run.reply, line + b"\n")

    def close(self) -> None:
        if not self.closed:
            self.closed = True
            self.run.closed()

    def is_closing(self) -> bool:
        return self.closed

    def get_extra_info(self, name: str, default: Any = None) -> Any:
        return default

    def pause_reading(self) -> None:
        pass

    def resume_reading(self) -> None:
        pass


class Run(asyncio.SubprocessTransport):
    """A run of the program; for the bridge the transport of a process."""

    def __init__(self, process: Process, protocol: Any, command: tuple[str, ...],
                 hears: Hears) -> None:
        super().__init__()
        self.process, self.world, self.protocol = process, process.world, protocol
        self.hears = hears
        self.random: random.Random = process.world.chance(f"program of {process.name}")
        self.pid, self.input, self.last = process.machine.next_number(), Input(self), 0.0
        self.returncode: int | None = None
        self.over = self.frozen = self.awaits_reply = self.stepping = self.has_put_out = False
        self.stands_since = 0.0  # when it was frozen last
        self.said = deque[list[bytes]]()  # what is to be given by the standard input
        self.waiters: list[asyncio.Future[int]] = []
        self.awaited: tuple[str, int] | None = None
        self.lanes: list[Lane] = []
        words, at = [], 0
        while at < len(command):
            if command[at].endswith("-lane"):
                self.lanes.append(Lane(self, command[at][2:-5]))
                process.machine.pipes[command[at + 1]] = self.lanes[-1]
                at += 1
            else:
                words.append(command[at])
            at += 1
        self.begin(words)
        process.resources.append(self)
        self.world.after(self.random.uniform(0.002, 0.03), self.begin_talk)

    def delay(self) -> float:
        return self.random.uniform(1e-4, 2e-3)

    # The real process

    def begin(self, words: list[str]) -> None:
        folder = tempfile.mkdtemp(prefix="mlb-sim-") if self.lanes else ""
        for lane in self.lanes:
            words += [f"--{lane.name}-lane", f"{folder}/{lane.name}"]
            os.mkfifo(words[-1])
        pipe = subprocess.PIPE
        self.real = subprocess.Popen(words, stdin=pipe, stdout=pipe, stderr=subprocess.DEVNULL,
                                     bufsize=0)
        if self.real.stdin is None or self.real.stdout is None:
            raise Stuck("the program has no pipes")
        self.stdin, self.stdout = self.real.stdin, self.real.stdout
        self.read = b""
        if self.lanes:
            self.open_lanes(folder)
        else:
            self.state = os.open(f"/proc/{self.real.pid}/stat", os.O_RDONLY)
            self.first = self.line()  # it writes one before it is given any

    def open_lanes(self, folder: str) -> None:
        for lane in self.lanes:
            while lane.real < 0:
                try:
                    lane.real = os.open(f"{folder}/{lane.name}", os.O_WRONLY | os.O_NONBLOCK)
                except OSError as fault:
                    if self.real.poll() is not None:
                        status = self.real.returncode
                        raise Stuck(f"the program ended at once: {status}") from fault
                    time.sleep(0.0002)
            os.set_blocking(lane.real, True)
        shutil.rmtree(folder)

    def line(self) -> bytes:
        """The next line that the program writes."""
        while b"\n" not in self.read:
            if not select.select([self.stdout], [], [], REAL_SECONDS)[0]:
                raise Stuck(f"nothing was written for {REAL_SECONDS} s after {self.awaited}")
            more = os.read(self.stdout.fileno(), 65536)
            if not more:
                status = self.real.wait()
                raise Stuck(f"ended by itself at {self.world.now:.1f} s, after {self.awaited}: "
                            f"{status}")
            self.read += more
        line, _, self.read = self.read.partition(b"\n")
        return line + b"\n"

    def sleeps(self) -> bool:
        """Whether the program has read all that it was given, and sleeps."""
        count, = struct.unpack("i", fcntl.ioctl(self.stdin.fileno(), termios.FIONREAD, bytes(4)))
        return not count and os.pread(self.state, 512, 0).rpartition(b") ")[2][:1] == b"S"

    def all_lines(self, is_probed: bool) -> list[bytes]:
        """The lines that a program without lanes writes until it waits for another one, or until
        it answers a probe."""
        out, end = self.stdout.fileno(), time.monotonic() + REAL_SECONDS
        is_done, pause = False, LOOKS[0]
        while True:
            if is_probed and ANSWERED in self.read:
                told, answer, rest = self.read.partition(ANSWERED + b"\n")
                if answer:
                    self.read = rest
                    return [line + b"\n" for line in (told + ANSWERED).split(b"\n")]
            if select.select([out], [], [], 0 if is_done else pause)[0]:
                more = os.read(out, 65536)
                if not more:
                    raise Stuck(f"ended by itself at {self.world.now:.1f} s: {self.real.wait()}")
                self.read += more
                pause = LOOKS[0]
                if is_probed and ANSWERED in self.read:
                    continue
            elif is_done:
                *lines, self.read = self.read.split(b"\n")
                return [line + b"\n" for line in lines]
            elif time.monotonic() > end:
                raise Stuck(f"it doesn't wait for a line after {REAL_SECONDS} s")
            else:
                pause = min(LOOKS[1], 2 * pause)
            is_done = self.sleeps()

    def finish(self) -> None:
        self.real.kill()
        self.real.wait()
        for lane in self.lanes:
            os.close(lane.real)
        if not self.lanes:
            os.close(self.state)
        self.stdin.close()
        self.stdout.close()

    # Its steps

    def begin_talk(self) -> None:
        if self.lanes:
            self.open_next()
        else:
            self.pass_all()

    def open_next(self) -> None:
        """Opens the first pipe that isn't open; the next one only once the bridge has opened it."""
        for lane in self.lanes:
            if not lane.is_open:
                lane.is_open = True
                return
            if not lane.is_connected:
                return

    def opened(self) -> None:
        self.world.after(self.delay(), self.open_next)
        self.step_soon()

    def step_soon(self) -> None:
        if not self.stepping and not self.over and not self.awaits_reply and not self.frozen:
            self.stepping = True
            self.world.after(self.random.uniform(2e-5, 1e-3), self.step)

    def step(self) -> None:
        self.stepping = False
        if not self.lanes:
            if self.said and not self.over and not self.frozen:
                self.give(self.said.popleft())
            return
        lanes = [lane for lane in self.lanes if lane.lines]
        is_ready = lanes and all(lane.is_connected for lane in self.lanes)
        if self.over or self.awaits_reply or self.frozen or not is_ready:
            return
        lane = self.random.choice(lanes)
        line = lane.take()
        self.awaited = lane.name, 2 * lane.number
        self.hears.given(self, lane.name, json.loads(line))
        os.write(lane.real, line + PROBES.get(lane.name, PROBE))
        self.listen()

    def listen(self) -> None:
        """Passes on what is written until the line is done with, or until a reply is awaited."""
        while True:
            line = self.line()
            read = json.loads(line)
            value = self.hears.written(self, read)
            if value["op"] == "took":
                if (value["lane"], value["n"]) == self.awaited:
                    break
                line = TOOK % (value["lane"].encode(), (value["n"] + 1) // 2)
            elif value is not read:
                line = json.dumps(value, separators=(",", ":")).encode() + b"\n"
            self.pass_line(value["op"], line)
            if value["op"] == "put":
                self.awaits_reply = True
                return
        self.step_soon()

    def pass_line(self, op: str, line: bytes) -> None:
        if op not in PASSED_OVER:
            self.world.note(self.process.name, f"program: {line.decode().strip()}")
        self.has_put_out = self.has_put_out or op == "put"
        self.last = max(self.last, self.world.now) + self.random.uniform(1e-5, 5e-4)
        self.world.at(self.last, self.arrive, line)

    def pass_all(self, is_probed: bool = False) -> None:
        """Passes on what a program without lanes writes until it waits for another line."""
        if self.over:
            return
        first, self.first = self.first, b""
        for line in filter(None, (first, *self.all_lines(is_probed))):
            read = json.loads(line)
            value = self.hears.written(self, read)
            if value is not read:
                line = json.dumps(value, separators=(",", ":")).encode() + b"\n"
            self.pass_line(value["op"], line)
        self.step_soon()

    def give(self, lines: list[bytes]) -> None:
        """Gives a program without lanes lines by its standard input, as the bridge did."""
        for line in lines:
            self.note_given(line)
        with contextlib.suppress(BrokenPipeError):  # what it wrote last tells of its end
            os.write(self.stdin.fileno(), b"".join(lines))
        self.pass_all(len(lines) > 1 and lines[-1] == PROBED)

    def note_given(self, line: bytes) -> None:
        value = json.loads(line)
        told = value.get("fence")
        if told is None:
            self.hears.given(self, "watch", value)
        elif told != "listed":
            self.world.note(self.process.name, f"told: {line.decode().strip()}")
        if self.has_put_out and told in ANSWERS:
            self.has_put_out = False
            version = value.get("version")
            self.hears.replied(self, {"reply": "unknown"} if told != "at" else
                               {"reply": "ok", "version": version})

    def arrive(self, line: bytes) -> None:
        if not self.over:
            self.process.call_soon(self.protocol.pipe_data_received, 1, line)

    def reply(self, line: bytes) -> None:
        if not self.over:
            self.world.note(self.process.name, f"reply: {line.decode().strip()}")
            self.hears.replied(self, json.loads(line))
            os.write(self.stdin.fileno(), line)
            self.awaits_reply = self.has_put_out = False
            self.listen()

    # Its end

    def closed(self) -> None:
        if self.input.closed and all(lane.closed for lane in self.lanes):
            self.world.after(self.random.uniform(0.001, 0.05), self.exit, 0)

    def exit(self, status: int) -> None:
        if self.over:
            return
        self.over, self.returncode = True, status
        self.world.counts["ends with a put out"] += self.has_put_out
        self.hears.ended(self)
        self.finish()
        if self in self.process.resources:
            self.process.resources.remove(self)
        if self.process.dead:
            return
        soon = self.process.call_soon
        for lane in self.lanes:
            if lane.is_connected and not lane.closed:
                soon(lane.protocol.connection_lost, BrokenPipeError(32, "broken pipe"))
        soon(self.protocol.pipe_connection_lost, 1, None)
        broken = None if self.input.closed else BrokenPipeError(32, "broken pipe")
        soon(self.protocol.pipe_connection_lost, 0, broken)
        soon(self.protocol.process_exited)
        for waiter in self.waiters:
            soon(set_unless_cancelled, waiter, status)

    def freeze(self) -> None:
        """It stands still."""
        if not self.frozen:
            self.frozen, self.stands_since = True, self.world.now

    def thaw(self) -> None:
        self.frozen = False
        self.step_soon()

    def crash(self) -> None:
        """kill -9; what it has written and wasn't read yet is lost."""
        if not self.over:
            self.world.counts["programs killed"] += 1
        self.world.note(self.process.name, "its program is killed")
        self.exit(-9)

    def owner_died(self) -> None:
        self.exit(-9)

    # A transport

    def get_pid(self) -> int:
        return self.pid

    def get_returncode(self) -> int | None:
        return self.returncode

    def get_pipe_transport(self, fd: int) -> Input | None:
        return self.input if fd in (0, 1) else None

    async def _wait(self) -> int:
        if self.returncode is not None:
            return self.returncode
        waiter: asyncio.Future[int] = self.process.create_future()
        self.waiters.append(waiter)
        return await waiter

    def kill(self) -> None:
        self.exit(-9)

    terminate = kill

    def close(self) -> None:
        pass

    def is_closing(self) -> bool:
        return self.over


def set_unless_cancelled(waiter: asyncio.Future[int], status: int) -> None:
    if not waiter.cancelled():
        waiter.set_result(status)


def spawner(runs: list[Run], hears: Hears) -> Spawn:
    """How a process starts programs."""
    async def spawn(process: Process, factory: Callable[[], Any],
                    command: tuple[str, ...]) -> Made:
        chance = process.world.chance(f"start by {process.name}")
        await asyncio.sleep(chance.uniform(1e-3, 5e-3))
        protocol = factory()
        run = Run(process, protocol, command, hears)
        runs.append(run)
        protocol.connection_made(run)
        return run, protocol
    return spawn
