"""The puts that may still be carried out though the program heard of them: those that couldn't be
fenced. The program keeps them itself, names each in the Lease, and fences them when it is told to;
here is when that is, and what the operator is told of it."""
import asyncio
import logging
from dataclasses import dataclass, field

from api import Json
from host import Pause
from services import Key, Name

LOG = logging.getLogger("bridge")
FIRST_PAUSE, LONGEST_PAUSE = 0.5, 60.0  # seconds between tries
TOLD = 60.0  # seconds until it is told again what can't be fenced
MANY = 1000  # so many are owed at most: then the program wants no put sent


@dataclass
class Owing:
    """One of them: when it is tried again, and what the watch has shown of its service since."""
    pause: Pause = field(default_factory=lambda: Pause(FIRST_PAUSE, LONGEST_PAUSE))
    due: float = 0.0
    shown: Json | None = None


class Owed:
    """`told` is when it was last told of each that it can't be fenced."""

    def __init__(self, told: dict[Name, float]) -> None:
        self.puts: dict[Name, Owing] = {}
        self.told = told
        self.was_full = False

    def failed(self, name: Name, why: str) -> None:
        """The put can't be fenced now, for what is said, or since it isn't tried yet."""
        now = asyncio.get_running_loop().time()
        one = self.puts.setdefault(name, Owing())
        one.due = now + one.pause.next()
        self.was_full = self.was_full or len(self.puts) >= MANY
        self.tell(name, why)

    def tell(self, name: Name, why: str) -> None:
        now = asyncio.get_running_loop().time()
        if why and now - self.told.get(name, -TOLD) >= TOLD:
            self.told[name] = now
            LOG.warning("a put of %s can't be fenced, so services aren't listed anew: %s",
                        name, why)

    def fenced(self, name: Name) -> None:
        """The put can't be carried out any more."""
        self.puts.pop(name, None)
        self.told.pop(name, None)

    def of(self, key: Key, version: int) -> list[Name]:
        """Those of the service at earlier versions."""
        return [name for name in self.puts if name.key == key and name.version < version]

    def is_due(self, name: Name) -> bool:
        """Whether it is to be tried now."""
        one = self.puts.get(name)
        return one is None or one.due <= asyncio.get_running_loop().time()

    def are_due(self) -> bool:
        """Whether one is to be tried now."""
        return any(map(self.is_due, self.puts))
