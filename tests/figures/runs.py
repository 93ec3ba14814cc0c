"""Runs of a program over a file of lines, with what they cost."""
from __future__ import annotations

import collections
import contextlib
import json
import os
import pathlib
import signal
import subprocess
import sys
import tempfile
from collections.abc import Iterable, Iterator
from dataclasses import dataclass
from typing import IO

TOP = pathlib.Path(__file__).resolve().parents[2]

# Runs a program and writes its processor seconds, the kilobytes that it had at most, and its
# status: by itself, since what a process is told to have had at most counts that of the process
# which starts it.
WAITER = """import os, sys
told = int(sys.argv[1])
os.set_inheritable(told, False)
_, status, usage = os.wait4(os.posix_spawn(sys.argv[2], sys.argv[2:], os.environ), 0)
seconds = usage.ru_utime + usage.ru_stime
os.write(told, f"{seconds} {usage.ru_maxrss} {os.waitstatus_to_exitcode(status)}".encode())
"""


@dataclass(frozen=True)
class Cost:
    """What a run took: processor seconds, megabytes at most, its status (-9: it was ended), and
    how many lines of each `op` it wrote."""

    seconds: float
    megabytes: float
    status: int
    ops: collections.Counter[str]


def program_of(name: str) -> pathlib.Path:
    """The program of this name: of the folder that PROGRAMS names, or of a gate."""
    folder = os.environ.get("PROGRAMS")
    return pathlib.Path(folder) / name if folder else TOP / "crates" / name / "out" / name


@contextlib.contextmanager
def file_of(lines: Iterable[str]) -> Iterator[IO[str]]:
    """A file of these lines, each of which ends with its line end."""
    with tempfile.TemporaryFile("w+") as file:
        file.writelines(lines)
        file.flush()
        yield file


def op_of(line: bytes) -> str:
    """What the line tells of: its `op`, or `response` of one that answers a review."""
    told = json.loads(line)
    if not isinstance(told, dict):
        return "count"
    if "response" in told:
        return "allowed" if told["response"]["allowed"] else "refused"
    return str(told.get("op"))


def run(program: pathlib.Path, words: list[str], file: IO[str], within: float) -> Cost:
    """Runs it over the file, and ends it after so many seconds."""
    os.lseek(file.fileno(), 0, os.SEEK_SET)
    reading, writing = os.pipe()
    with tempfile.TemporaryFile("w+b") as output, open(reading) as figures:
        command = [sys.executable, "-c", WAITER, str(writing), str(program), *words]
        ran = subprocess.Popen(
            command, stdin=file, stdout=output, pass_fds=[writing], start_new_session=True
        )
        os.close(writing)
        try:
            ran.wait(within)
        except subprocess.TimeoutExpired:
            os.killpg(ran.pid, signal.SIGKILL)
            ran.wait()
        seconds, kilobytes, status = (figures.read() or f"{within} 0 -9").split()
        output.seek(0)
        ops = collections.Counter(map(op_of, output) if int(status) >= 0 else ())
    return Cost(float(seconds), int(kilobytes) / 1024, int(status), ops)
