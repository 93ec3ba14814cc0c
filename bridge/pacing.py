"""How fast a program's requests are made, of which it asks for the next one as soon as one is
answered: one that was made before waits, ever longer, and a server that says when it wants to be
asked again is left alone. Nothing but promptness rests on it."""
import asyncio
import json
from collections import Counter

from api import Answer, Json
from host import Pause
from puts import BUSY

FIRST_PAUSE, LONGEST_PAUSE = 0.1, 5.0  # seconds before a request is made once more
SHORTEST_WAIT, LONGEST_WAIT = 1.0, 30.0  # seconds that a server that is busy is left alone


class Pacing:
    def __init__(self) -> None:
        self.made: Counter[str] = Counter()
        self.until = 0.0

    def begin(self) -> None:
        """What was made before doesn't count any more: something came of it."""
        self.made.clear()

    async def wait(self, request: Json) -> None:
        """Waits until the request may be made."""
        text = json.dumps(request, sort_keys=True)
        pause = Pause(FIRST_PAUSE, LONGEST_PAUSE)
        pause.count = self.made[text] - 1
        least = pause.next() if self.made[text] else 0.0
        self.made[text] += 1
        await asyncio.sleep(max(least, self.until - asyncio.get_running_loop().time()))

    def heard(self, answer: Answer) -> None:
        """Takes note of an answer that says when to ask again."""
        if answer.status in BUSY:
            wait = min(LONGEST_WAIT, max(SHORTEST_WAIT, answer.retry_after or 0.0))
            self.until = asyncio.get_running_loop().time() + wait
