"""Server-side apply, in small: each manager's last applied object says which fields are its own.
What it doesn't name any more is taken away, and what another one has set to something else is a
conflict, unless that is forced."""
from collections.abc import Iterator
from typing import Any

from kinds import copied
from patches import strategic

Json = dict[str, Any]
NOT_OWNED = ("apiVersion", "kind")
NOT_OWNED_METADATA = ("name", "namespace", "resourceVersion", "uid", "creationTimestamp")


class Conflict(Exception):
    """Another manager has set a field to something else."""


def fields(thing: Any, path: tuple[str, ...] = ()) -> Iterator[tuple[tuple[str, ...], Any]]:
    """The fields that a manager sets, each with its value; lists count as one value."""
    for name, value in thing.items():
        if not path and name in NOT_OWNED or path == ("metadata",) and name in NOT_OWNED_METADATA:
            continue
        if isinstance(value, dict) and value:
            yield from fields(value, (*path, name))
        else:
            yield (*path, name), value


def value_at(thing: Any, path: tuple[str, ...]) -> Any:
    for name in path:
        if not isinstance(thing, dict) or name not in thing:
            return None
        thing = thing[name]
    return thing


def without(thing: Any, path: tuple[str, ...]) -> None:
    """Takes a field away, if it is there."""
    inside = value_at(thing, path[:-1])
    if isinstance(inside, dict):
        inside.pop(path[-1], None)


class Applied:
    """What each manager applied last, of each object."""

    def __init__(self) -> None:
        self.last: dict[tuple[Any, Any], dict[str, Json]] = {}

    def keep(self, kind: Any, key: Any, manager: str, body: Json) -> None:
        self.last.setdefault((kind, key), {})[manager] = copied(body)

    def merged(self, kind: Any, key: Any, manager: str, old: Json, body: Json,
               force: bool) -> Json:
        """The object as it is to be then."""
        managers = self.last.get((kind, key), {})
        wanted = dict(fields(body))
        for other, applied in managers.items():
            owned = dict(fields(applied))
            clash = [path for path, value in wanted.items()
                     if other != manager and path in owned and value_at(old, path) != value]
            if clash and not force:
                raise Conflict(f'Apply failed with 1 conflict: conflict with "{other}": '
                               f'.{".".join(clash[0])}')
            if other != manager and clash:
                for path in clash:
                    without(applied, path)
        thing = copied(old)
        for path, _ in fields(managers.get(manager, {})):
            owners = [other for other, applied in managers.items()
                      if other != manager and value_at(applied, path) is not None]
            if path not in wanted and not owners:
                without(thing, path)
        merged: Json = strategic(thing, body)
        merged["metadata"]["resourceVersion"] = old["metadata"]["resourceVersion"]
        return merged
