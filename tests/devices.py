"""Devices that come in pieces and fail, and the table of rows over them: each read and each write
fails in turn.

A row is in the table where its `comes` says of each line of its output how many lines of the
input, or of each lane, must have been taken: it is written with the last of these, and where it
has an `at`, only if that one came by this lane. So the text of the lines that were read whole
before a fault follows from the row alone. Over two lanes any order is right that keeps each
lane's own, and so is the text of each such order."""
from __future__ import annotations

import array
import contextlib
import ctypes
import fcntl
import os
import pathlib
import resource
import select
import signal
import socket
import subprocess
import termios
import time
import tty
from collections.abc import Callable, Iterable, Iterator
from typing import IO, Any, Protocol

Row = dict[str, Any]
Program = subprocess.Popen[bytes]

PIECES = (1, 7, 4096)
PATIENCE = 60  # seconds for which a program may do nothing, as beside other work

# Linux's own numbers, which Python doesn't name.
PIDFD_GETFD, TIOCSPTLCK, TIOCGPTPEER = 438, 0x40045431, 0x5441


def orders_of(counts: dict[str, int]) -> Iterator[list[str]]:
    """Each order in which so many lines of each lane can be taken, as the lanes of the lines."""
    if not any(counts.values()):
        yield []
    for lane, count in counts.items():
        if count:
            for rest in orders_of({**counts, lane: count - 1}):
                yield [lane, *rest]


def text_of_order(row: Row, order: list[str], replies: int) -> str:
    """What is written where lines are taken in this order, with so many replies beside lanes."""
    text = ""
    taken = {"input": replies, **dict.fromkeys(order, 0)}

    def are_taken(needs: dict[str, Any]) -> bool:
        return all(taken.get(lane, 0) >= count for lane, count in needs.items() if lane != "at")

    for lane in order:
        awaited = [not are_taken(needs) for needs in row["comes"]]
        taken[lane] += 1
        if lane != "input":
            text += f'{{"lane":"{lane}","n":{taken[lane]},"op":"took"}}\n'
        lines = row["stdout"].splitlines(keepends=True)
        for line, needs, is_awaited in zip(lines, row["comes"], awaited, strict=True):
            if is_awaited and are_taken(needs) and needs.get("at", lane) == lane:
                text += line
    return text


def texts_of(row: Row, whole: dict[str, int]) -> list[str]:
    """The texts that are right where so many lines of each device were read whole."""
    lanes = {lane: whole[lane] for lane in row.get("files", ["input"])}
    replies = 0 if "input" in lanes else whole["input"]
    return sorted({text_of_order(row, order, replies) for order in orders_of(lanes)})


def broken(row: Row, piece: int, device: str, after: int) -> Row:
    """The row with a device whose reads fail after so many bytes. Nothing of the line that they
    stand in is taken."""
    given = {**row.get("files", {}), "input": row["stdin"]}
    whole = {name: text.count("\n") for name, text in given.items()}
    read = {**whole, device: given[device][:after].count("\n")}
    name = f"{row['name']}, in pieces of {piece}, {device} fails after {after} bytes"
    case: Row = {**row, "name": name}
    case["device"] = {"piece": piece, "breaks": device, "after": after}
    case["answers"] = [(text, 4, f"read fault on {device}\n") for text in texts_of(row, read)]
    if any(read[lane] < whole[lane] for lane in row.get("files", {})):
        # No put comes. A reply that were there all the same would be a bad one, and be told
        # before the lane's fault.
        case["stdin"] = ""
    return case


def full(row: Row, piece: int, size: int, texts: list[str]) -> Row:
    """The row with an output that holds so many bytes."""
    name = f"{row['name']}, in pieces of {piece}, the output fails after {size} bytes"
    case: Row = {**row, "name": name, "device": {"piece": piece, "output": size}}
    case["answers"] = [
        (text[:size], 5, "write fault\n") if size < len(text) else (text, 0, "") for text in texts
    ]
    return case


def written_at(texts: list[str], piece: int) -> list[int]:
    """How many bytes stand written at each write, where a line is written in such pieces."""
    places: set[int] = set()
    for text in texts:
        end = 0
        for line in text.splitlines(keepends=True):
            places |= {*range(end, end + len(line), piece)}
            end += len(line)
    return sorted(places)


def cases_of(row: Row) -> Iterator[Row]:
    """The row as it is, and in pieces with each read and each write failing in turn, each with
    the answers that are right."""
    given = {**row.get("files", {}), "input": row["stdin"]}
    texts = texts_of(row, {name: text.count("\n") for name, text in given.items()})
    read = [name for name in given if any(name in needs for needs in row["comes"])]
    yield {**row, "answers": [(text, row["status"], row["stderr"]) for text in texts]}
    for piece in PIECES:
        for name in read:
            for after in sorted({*range(0, len(given[name]), piece), len(given[name])}):
                yield broken(row, piece, name, after)
        for size in written_at(texts, piece):
            yield full(row, piece, size, texts)


# The devices themselves.


class Closable(Protocol):
    def fileno(self) -> int: ...
    def close(self) -> None: ...


class End:
    """Our end of a device, by which the program is given bytes, with what else is to be closed."""

    def __init__(
        self, is_unread: Callable[[], object], file: Closable, *others: Closable
    ) -> None:
        self.is_unread, self.file, self.others = is_unread, file, others

    def write(self, piece: bytes) -> None:
        os.write(self.file.fileno(), piece)

    def give(self, ran: Program, piece: bytes) -> None:
        """Gives the bytes, and waits until they were read or the program has ended, but not for
        ever."""
        until = time.monotonic() + PATIENCE
        with contextlib.suppress(BrokenPipeError, ConnectionResetError):
            self.write(piece)
            while self.is_unread() and ran.poll() is None and time.monotonic() < until:
                os.sched_yield()

    def close(self) -> None:
        for file in (self.file, *self.others):
            file.close()


def count_of(file: Closable, request: int) -> int:
    """The number that the device tells of itself."""
    count = array.array("i", [0])
    fcntl.ioctl(file.fileno(), request, count)
    return count[0]


def pipe_to(path: pathlib.Path) -> End:
    """The end of the named pipe that is written. It is open for reading too, so that the program
    needn't have opened the pipe yet."""
    file = os.fdopen(os.open(path, os.O_RDWR), "wb", buffering=0)
    return End(lambda: count_of(file, termios.FIONREAD), file)


def open_file(ran: Program, name: str) -> int | None:
    """The program's number of the file that it has opened and whose path ends so, or None."""
    for number in os.listdir(f"/proc/{ran.pid}/fd"):
        with contextlib.suppress(FileNotFoundError):
            if os.readlink(f"/proc/{ran.pid}/fd/{number}").endswith(name):
                return int(number)
    return None


def await_open(ran: Program, names: Iterable[str]) -> None:
    """Waits until the program has opened each of the files or has ended, but not for ever: a pipe
    that we closed before would wait for us."""
    until, paths = time.monotonic() + PATIENCE, [f"/{name}" for name in names]
    while ran.poll() is None and time.monotonic() < until:
        if all(open_file(ran, path) is not None for path in paths):
            return
        os.sched_yield()


def terminal_of(ran: Program) -> End:
    """The terminal whose other side the program has opened as /dev/ptmx: the program reads what
    is written to it, and once it is closed reading fails. Of what a path leads to hardly anything
    else can be read for a while and then fails."""
    number, until = open_file(ran, "/ptmx"), time.monotonic() + PATIENCE
    while number is None:
        if ran.poll() is not None or time.monotonic() > until:
            raise OSError("it doesn't open /dev/ptmx")
        number = open_file(ran, "/ptmx")
    process = os.pidfd_open(ran.pid)
    libc = ctypes.CDLL(None, use_errno=True)
    other_side: int = libc.syscall(PIDFD_GETFD, process, number, 0)
    os.close(process)
    if other_side < 0:
        raise OSError(ctypes.get_errno(), "its side of the terminal can't be had")
    fcntl.ioctl(other_side, TIOCSPTLCK, array.array("i", [0]))
    ours = fcntl.ioctl(other_side, TIOCGPTPEER, os.O_RDWR | os.O_NOCTTY)
    file = os.fdopen(ours, "wb", buffering=0)
    tty.setraw(file.fileno())
    is_unread = lambda: select.select([other_side], [], [], 0)[0]  # noqa: E731
    return End(is_unread, file, os.fdopen(other_side, "rb"))


def hold(size: int) -> None:
    """Has each write to a file that would grow past so many bytes fail, after a short one, with
    an error and no signal."""
    signal.signal(signal.SIGXFSZ, signal.SIG_IGN)
    resource.setrlimit(resource.RLIMIT_FSIZE, (size, size))


def output_to(
    kind: str | int | None, path: pathlib.Path
) -> contextlib.AbstractContextManager[IO[bytes] | int]:
    """A pipe, or what fails: a disk that is full, a pipe that nobody reads, a file that can't
    grow past so many bytes."""
    if kind is None:
        return contextlib.nullcontext(subprocess.PIPE)
    if kind == "full":
        return open("/dev/full", "wb")
    if kind == "closed":
        reads, writes = os.pipe()
        os.close(reads)
        return os.fdopen(writes, "wb")
    return open(path, "wb")


def give_all(ran: Program, ends: dict[str, End], given: dict[str, bytes], piece: int) -> None:
    """Gives each device its bytes in pieces, one device after the other by turns, and closes each
    after its last."""
    for at in range(0, max(len(given[name]) for name in ends) + piece, piece):
        for name, end in ends.items():
            if at < len(given[name]):
                end.give(ran, given[name][at:at + piece])
            else:
                end.close()


def lanes_in(folder: pathlib.Path, names: Iterable[str], breaks: str | None) -> dict[str, End]:
    """Named pipes in place of the files, by name, and a terminal in place of the one that
    breaks."""
    lanes: dict[str, End] = {}
    for name in names:
        (folder / name).unlink()
        if name == breaks:
            (folder / name).symlink_to("/dev/ptmx")
        else:
            os.mkfifo(folder / name)
            lanes[name] = pipe_to(folder / name)
    return lanes


def run_device(
    command: list[str], row: Row, folder: pathlib.Path
) -> tuple[bytes, int | None, bytes]:
    """Gives the files, as pipes, and then the input in pieces, each once the one before was read.
    The device that breaks has its reads fail then."""
    device, files = row["device"], row.get("files", {})
    breaks, kind, piece = device.get("breaks"), device.get("output"), device["piece"]
    given = {name: text.encode() for name, text in {**files, "input": row["stdin"]}.items()}
    if breaks:
        given[breaks] = given[breaks][:device["after"]]
    ours, theirs = socket.socketpair()
    if breaks == "input":
        # A socket that is closed with something unread on our side breaks the other side's reads.
        theirs.send(b"unread")
    lanes = lanes_in(folder, files, breaks)
    first = (lambda: hold(kind)) if isinstance(kind, int) else None
    with output_to(kind, folder / "output") as out, subprocess.Popen(
        command,
        cwd=folder,
        stdin=theirs.fileno(),
        stdout=out,
        stderr=subprocess.PIPE,
        preexec_fn=first,
    ) as ran:
        theirs.close()
        try:
            await_open(ran, lanes)
            if breaks in files:
                lanes[breaks] = terminal_of(ran)
            if lanes:
                give_all(ran, lanes, given, piece)
            end = End(lambda: count_of(ours, termios.TIOCOUTQ), ours)
            give_all(ran, {"input": end}, given, piece)
            stdout, stderr = ran.communicate(timeout=PATIENCE)
        finally:
            ran.kill()
    if isinstance(kind, int):
        stdout = (folder / "output").read_bytes()
    return stdout or b"", ran.returncode, stderr
