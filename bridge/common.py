"""What all parts use: a word to the operator, a reason to stop, and tasks that end together."""
import argparse
import asyncio
import logging
from collections.abc import Awaitable

from api import Api

LOG = logging.getLogger("bridge")


class Lost(Exception):
    """Another one has the controller's Lease, or it is gone."""


class Stop(Exception):
    """The bridge is to end, with this status."""

    def __init__(self, status: int, text: str) -> None:
        super().__init__(text)
        self.status = status


def api_of(options: argparse.Namespace, agent: str) -> Api:
    """The API server of the command's words."""
    return Api(options.server, agent, options.trust, options.token, options.client_certificate,
               options.client_key)


def tell(text: object, level: int = logging.INFO) -> None:
    """A word to the operator."""
    LOG.log(level, "%s", text)


def warn(text: object) -> None:
    """A word to the operator, who is to look after something."""
    LOG.warning("%s", text)


async def together(*parts: Awaitable[object]) -> None:
    """Runs the parts until all have ended or one fails, whose failure is raised as it is. The
    others are cancelled then. Where this is cancelled while a part fails, it ends as cancelled:
    of a TaskGroup (Python 3.11) only the failure is heard then, and what is to end goes on."""
    tasks = [asyncio.ensure_future(part) for part in parts]
    try:
        await asyncio.wait(tasks, return_when=asyncio.FIRST_EXCEPTION)
        failed = [task for task in tasks
                  if task.done() and not task.cancelled() and task.exception()]
    finally:
        for task in tasks:
            task.cancel()
        await asyncio.gather(*tasks, return_exceptions=True)
    for task in failed:
        fault = task.exception()
        if fault is not None:
            raise fault
