"""Network namespaces on one link, and what runs in them. All of it ends with the process that made
it."""
from __future__ import annotations

import json
import os
import pathlib
import shutil
import signal
import subprocess
import sys
import time
from collections.abc import Callable, Iterator
from typing import Any

INSIDE = "DAY_INSIDE"
PATIENCE = 300  # seconds for a command


def alone() -> None:
    """Starts this program anew with namespaces of its own (network, mounts, processes), so that
    nothing of it stays behind."""
    if os.environ.get(INSIDE):
        subprocess.run(["mount", "-t", "tmpfs", "tmpfs", "/run"], check=True)
        signal.signal(signal.SIGTERM, lambda *_: sys.exit("ended"))
        return
    if os.geteuid() or not shutil.which("unshare") or not shutil.which("ip"):
        sys.exit("this needs root, unshare (util-linux) and ip (iproute2)")
    words = ["unshare", "--net", "--mount", "--pid", "--fork", "--kill-child", "--mount-proc"]
    command = [*words, sys.executable, *sys.argv]
    os.execvpe(words[0], command, {**os.environ, INSIDE: "1"})


def ip(*words: str) -> str:
    return subprocess.run(["ip", *words], capture_output=True, check=True).stdout.decode()


class Switch:
    """The link: a bridge device in the own namespace, with an address there."""

    def __init__(self, *addresses: str) -> None:
        ip("link", "set", "lo", "up")
        ip("link", "add", "br0", "type", "bridge")
        ip("link", "set", "br0", "up")
        for address in addresses:
            ip("addr", "add", address, "dev", "br0", *(["nodad"] if ":" in address else []))


class Host:
    """A namespace with the interface eth0 on the link."""

    def __init__(self, name: str, *addresses: str) -> None:
        self.name = name
        self.running: list[subprocess.Popen[bytes]] = []
        ip("netns", "add", name)
        ip("link", "add", f"to-{name}", "type", "veth", "peer", "name", "eth0", "netns", name)
        ip("link", "set", f"to-{name}", "master", "br0", "up")
        for interface in ("lo", "eth0"):
            ip("-n", name, "link", "set", interface, "up")
        self.hold("eth0", *addresses)

    def hold(self, interface: str, *addresses: str) -> None:
        for address in addresses:
            words = ["nodad"] if ":" in address else []
            ip("-n", self.name, "addr", "add", address, "dev", interface, *words)

    def tune(self, *settings: str) -> None:
        self.run("sysctl", "-q", "-w", *settings)

    def hardware(self) -> str:
        told = json.loads(ip("-n", self.name, "-j", "link", "show", "eth0"))
        return str(told[0]["address"])

    def neighbor(self, address: str) -> str | None:
        """The hardware address by which this host knows an address, or None."""
        found = json.loads(ip("-n", self.name, "-j", "neigh", "show", address) or "[]")
        return found[0].get("lladdr") if found else None

    def forget(self) -> None:
        ip("-n", self.name, "neigh", "flush", "dev", "eth0")

    def start(self, *words: str, log: pathlib.Path | None = None,
              talks: bool = False) -> subprocess.Popen[bytes]:
        """Starts a program here that goes on, with pipes where one talks with it."""
        command = ["ip", "netns", "exec", self.name, *words]
        output: Any = open(log, "ab") if log else subprocess.DEVNULL
        pipe = subprocess.PIPE if talks else None
        process = subprocess.Popen(command, stdin=pipe, stdout=pipe or output, stderr=output,
                                   start_new_session=True)
        self.running.append(process)
        return process

    def run(self, *words: str) -> subprocess.CompletedProcess[bytes]:
        command = ["ip", "netns", "exec", self.name, *words]
        return subprocess.run(command, capture_output=True, timeout=PATIENCE)

    def kill(self) -> None:
        """What happens to a host whose power goes: the link is down, and nothing ends in order."""
        ip("-n", self.name, "link", "set", "eth0", "down")
        for process in self.running:
            os.killpg(process.pid, signal.SIGKILL)
            process.wait()
        self.running = []

    def plug_in(self) -> None:
        ip("-n", self.name, "link", "set", "eth0", "up")


class Talk:
    """A program that answers each line by one."""

    def __init__(self, process: subprocess.Popen[bytes]) -> None:
        if process.stdin is None or process.stdout is None:
            raise ValueError("it has no pipes")
        self.input, self.output = process.stdin, process.stdout

    def tell(self, *words: str) -> None:
        self.input.write((" ".join(words) + "\n").encode())
        self.input.flush()

    def hear(self) -> Any:
        return json.loads(self.output.readline())

    def ask(self, *words: str) -> Any:
        self.tell(*words)
        return self.hear()


class Steps:
    """The steps of a day, each printed with its time and counted."""

    def __init__(self, patience: float) -> None:
        self.patience, self.begun = patience, time.monotonic()
        self.passed = self.failed = 0

    def until(self, what: str, probe: Callable[[], Any]) -> Any:
        """Waits until `probe` gives what counts as true, and gives that."""
        end = time.monotonic() + self.patience
        while not (found := probe()) and time.monotonic() < end:
            time.sleep(0.2)
        self.check(what, found)
        return found

    def check(self, what: str, holds: Any) -> None:
        self.passed, self.failed = self.passed + bool(holds), self.failed + (not holds)
        told = f": {holds}" if holds and holds is not True else ""
        spent = time.monotonic() - self.begun
        print(f"{spent:6.1f} s  {'ok' if holds else 'FAILED'}  {what}{told}", flush=True)


def logs_in(folder: str) -> Iterator[str]:
    """What the programs told, each file under its name."""
    for path in sorted(pathlib.Path(folder).glob("*.log")):
        lines = path.read_text(errors="replace").splitlines()
        yield from (f"{path.stem}: {line}" for line in lines)
