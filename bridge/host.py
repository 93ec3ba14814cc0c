"""What a bridge has of the machine that it runs on besides its event loop. The time that passes,
connections and processes are the loop's; the time of day, chance, names and pipes come from here
alone. A simulation hands in its own (`hand_in`)."""
import contextlib
import datetime
import errno
import os
import random
import tempfile
import uuid
from typing import Any

DAY_FORM = "%Y-%m-%dT%H:%M:%S.%fZ"


class Host:
    """The machine itself."""

    def now(self) -> datetime.datetime:
        return datetime.datetime.now(datetime.timezone.utc)

    def fresh(self) -> str:
        return uuid.uuid4().hex

    def node_name(self) -> str:
        return os.uname().nodename

    def between(self, least: float, most: float) -> float:
        """A number by chance."""
        return random.uniform(least, most)

    def folder(self) -> contextlib.AbstractContextManager[str]:
        """A new folder, until it is left."""
        return tempfile.TemporaryDirectory(prefix="mlb-bridge-")

    def make_pipe(self, path: str) -> None:
        os.mkfifo(path)

    def open_pipe(self, path: str) -> Any:
        """The end to write to, as a file; nothing while nobody reads the pipe."""
        try:
            return os.fdopen(os.open(path, os.O_WRONLY | os.O_NONBLOCK), "wb", 0)
        except OSError as fault:
            if fault.errno != errno.ENXIO:
                raise
            return None


class Given:
    """The host that counts."""
    host = Host()


def hand_in(host: Host) -> None:
    """Takes this host from now on."""
    Given.host = host


def now() -> datetime.datetime:
    """The time of day."""
    return Given.host.now()


def printed(moment: datetime.datetime) -> str:
    """A time of day as Kubernetes writes it (MicroTime)."""
    return moment.strftime(DAY_FORM)


def fresh() -> str:
    """A text that was never made before."""
    return Given.host.fresh()


def node_name() -> str:
    return Given.host.node_name()


def folder() -> contextlib.AbstractContextManager[str]:
    """A new folder, until it is left."""
    return Given.host.folder()


def make_pipe(path: str) -> None:
    Given.host.make_pipe(path)


def open_pipe(path: str) -> Any:
    """The end of a pipe to write to, as a file; nothing while nobody reads it."""
    return Given.host.open_pipe(path)


class Pause:
    """Ever longer pauses between tries, from `first` to `longest` seconds, each by chance up to a
    third shorter, so that many who wait for one server don't come at the same time."""

    def __init__(self, first: float, longest: float) -> None:
        self.first, self.longest, self.count = first, longest, 0

    def next(self) -> float:
        length = min(self.longest, self.first * 2.0 ** min(self.count, 30))
        self.count += 1
        return length * Given.host.between(2 / 3, 1)

    def reset(self) -> None:
        self.count = 0
