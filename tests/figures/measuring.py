"""What a kind's stream takes, and whether that is within its limits."""
from __future__ import annotations

import pathlib
import statistics
from collections.abc import Callable, Iterator
from dataclasses import dataclass

from runs import Cost, file_of, program_of, run
from stream_kinds import Kind, Lines


@dataclass(frozen=True)
class Asked:
    """How often each stream is run, how long a run may take, and the floor where there is one."""

    runs: int
    seconds: float
    floor: pathlib.Path | None


@dataclass(frozen=True)
class Measured:
    """The run in the middle, or one that didn't end well; and the floor's seconds."""

    cost: Cost
    floor: float | None


def measure(kind: Kind, stream: Callable[[], Lines], asked: Asked, floored: bool) -> Measured:
    """The medians over the stream, turn by turn with the floor."""
    costs: list[Cost] = []
    floors: list[float] = []
    with file_of(stream()) as file:
        for _ in range(asked.runs):
            costs.append(run(program_of(kind.program), kind.words, file, asked.seconds))
            if floored and asked.floor is not None:
                floors.append(run(asked.floor, [], file, asked.seconds).seconds)
    worst = next((it for it in costs if it.status != 0), None)
    middle = sorted(costs, key=lambda it: it.seconds)[len(costs) // 2]
    return Measured(worst or middle, statistics.median(floors) if floors else None)


def after(kind: Kind, events: Callable[[], Lines]) -> Callable[[], Lines]:
    """The first part of the kind, and these events."""
    def whole() -> Iterator[str]:
        yield from kind.before()
        yield from events()

    return whole


def per_line(seconds: float, count: int) -> str:
    return f"{seconds / count * 1e6:.1f} us a line"


def judge(name: str, kind: Kind, asked: Asked) -> bool:
    """Tells the figures of the kind. Whether all are within its limits."""
    floored = kind.of_floor is not None
    first = measure(kind, kind.before, asked, floored)
    both = measure(kind, after(kind, kind.events), asked, floored)
    seconds = both.cost.seconds - first.cost.seconds
    count = sum(1 for _ in kind.events())
    told = [f"{seconds:.3f} s", per_line(seconds, count), f"{both.cost.megabytes:.0f} MB"]
    within = both.cost.status == 0
    if kind.of_floor is not None:
        if both.floor is None or first.floor is None:
            told.append("no floor, no verdict")
        else:
            times = seconds / max(both.floor - first.floor, 1e-6)
            told.append(f"{times:.2f} times the floor ({kind.of_floor:g})")
            within = within and times <= kind.of_floor
    if kind.other is not None:
        other = measure(kind, after(kind, kind.other), asked, False).cost
        times = seconds / max(other.seconds - first.cost.seconds, 1e-6)
        told.append(f"{times:.1f} times the other stream ({kind.of_other:g})")
        within = within and other.status == 0 and times <= kind.of_other
    if kind.micros is not None:
        told.append(f"limit {kind.micros:g} us")
        within = within and seconds <= kind.micros * count / 1e6
    if kind.seconds is not None:
        told.append(f"limit {kind.seconds:g} s")
        within = within and seconds <= kind.seconds
    for op, wanted in kind.told.items():
        seen = both.cost.ops[op] - first.cost.ops[op]
        if seen != wanted:
            told.append(f"{seen} lines of {op}, not {wanted}")
            within = False
    verdict = "" if within else "  PASSED ITS LIMIT"
    print(f"{name} ({kind.what}): {', '.join(told)}, status {both.cost.status}{verdict}",
          flush=True)
    return within
