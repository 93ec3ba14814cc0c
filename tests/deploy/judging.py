"""What is checked, and how it came out."""
import time
from collections.abc import Callable
from typing import TypeVar

Found = TypeVar("Found")


class Tally:
    """Counts what holds and what doesn't, and prints each; what was found where it doesn't."""

    def __init__(self) -> None:
        self.passed = self.failed = 0

    def check(self, what: str, holds: object, told: object = "") -> None:
        self.passed += bool(holds)
        self.failed += not holds
        is_told = not holds or isinstance(told, str)
        print(f"{'ok' if holds else 'FAILED'}  {what} {told if is_told else ''}", flush=True)

    def skip(self, what: str, why: str) -> None:
        print(f"--  {what}: not tried, {why}", flush=True)


def until(probe: Callable[[], Found], seconds: float = 30) -> Found:
    """What the probe gives once that is something, or at the end of the time."""
    end = time.monotonic() + seconds
    while not (found := probe()) and time.monotonic() < end:
        time.sleep(0.05)
    return found
