"""The times that the bridge goes by, as its modules have them, and copies of it in which those of a
controller are so many times as long."""
from __future__ import annotations

import pathlib
import re
import shutil

# A line that gives names in capitals their values, and its comment
LINE = re.compile(r"^([A-Z][A-Z_]*(?:, [A-Z][A-Z_]*)*) = ([^#\n\"]*[0-9][^#\n\"]*?)( +#.*)?$", re.M)
NUMBER = re.compile(r"(?<![\w.])(\d[\d_]*\.\d+|\d[\d_]*)(?![\w.])")
NAMED = re.compile(r"(?:_|^)(?:PAUSE|WAIT|SECONDS|SELDOM)$")
# Their comment stands above them.
BESIDE = {"membership.py": {"SETTLE", "MORE", "PULSE", "DOUBT"}}
# They stand in a line with times.
COUNTS = {"ARP_TURNS", "IDLE_RUNS", "KEPT", "LONGEST", "MANY", "NEIGHBOR_TURNS", "PROBES"}
# Which node answers is told by time, so the times of speakers stay; so do those of the webhook.
OF_OTHERS = {"admit.py", "announcements.py", "beats.py", "bfd.py", "bfd_sessions.py", "bgp.py",
             "bgp_sessions.py", "heartbeats.py", "kubelets.py", "leases.py", "membership.py",
             "neighbors.py", "peers.py", "speaker.py", "status.py", "web.py"}


def is_time(file: str, name: str, names: list[str], comment: str) -> bool:
    """Whether one of the names of a line is that of a time."""
    of_line = "seconds" in comment or any(map(NAMED.search, names))
    return name not in COUNTS and (of_line or name in BESIDE.get(file, set()))


def times_of(bridge: pathlib.Path) -> dict[str, set[str]]:
    """The names of the times, by their files."""
    found: dict[str, set[str]] = {}
    for file in sorted(bridge.glob("*.py")):
        for words, _, comment in LINE.findall(file.read_text()):
            names = words.split(", ")
            if times := {name for name in names if is_time(file.name, name, names, comment)}:
                found.setdefault(file.name, set()).update(times)
    return found


def scaled(number: str, factor: float) -> str:
    value = float(number) * factor
    return repr(value) if "." in number else str(max(1, round(value)))


def scaled_copy(bridge: str, factor: float, folder: str) -> str:
    """A copy of the bridge in the folder, with times so many times as long."""
    copy = pathlib.Path(folder, "bridge")
    shutil.copytree(bridge, copy, ignore=shutil.ignore_patterns("__pycache__"))

    def line(file: str, found: re.Match[str]) -> str:
        names, values, comment = found[1].split(", "), found[2].split(", "), found[3] or ""
        for at, name in enumerate(names):
            if is_time(file, name, names, comment):
                values[at] = NUMBER.sub(lambda number: scaled(number[1], factor), values[at])
        return f"{found[1]} = {', '.join(values)}{comment}"
    for path in copy.glob("*.py"):
        if path.name not in OF_OTHERS:
            name = path.name
            path.write_text(LINE.sub(lambda found: line(name, found), path.read_text()))
    return str(copy)
