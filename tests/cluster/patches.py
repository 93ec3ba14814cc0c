"""The patches that an API server takes: JSON merge patches (RFC 7386), JSON patches (RFC 6902), and
Kubernetes' strategic merge patches."""
from __future__ import annotations

from collections.abc import Iterable
from typing import Any

from kinds import copied

# The lists that a strategic patch merges item by item, with the member that names an item; other
# lists are replaced whole.
MERGED_LISTS: dict[tuple[str, ...], str | None] = {
    ("spec", "ports"): "port", ("status", "conditions"): "type", ("status", "addresses"): "type",
    ("metadata", "ownerReferences"): "uid", ("metadata", "finalizers"): None}


class BadPatch(Exception):
    """The patch can't be read, or can't be applied."""


def merge(target: Any, patch: Any) -> Any:
    """RFC 7386, section 2."""
    if not isinstance(patch, dict):
        return copied(patch)
    result = dict(target) if isinstance(target, dict) else {}
    for name, value in patch.items():
        if value is None:
            result.pop(name, None)
        else:
            result[name] = merge(result.get(name), value)
    return result


def strategic(target: Any, patch: Any, path: tuple[str, ...] = ()) -> Any:
    """A strategic merge patch: as a merge patch, but that some lists are merged by a key, and that
    `$patch`, `$retainKeys`, `$setElementOrder/L` and `$deleteFromPrimitiveList/L` direct it."""
    if not isinstance(patch, dict):
        return copied(patch)
    if patch.get("$patch") == "replace":
        return {name: value for name, value in patch.items() if name != "$patch"}
    result = dict(target) if isinstance(target, dict) else {}
    if "$retainKeys" in patch:
        result = {name: value for name, value in result.items() if name in patch["$retainKeys"]}
    for name, value in patch.items():
        if name.startswith("$deleteFromPrimitiveList/"):
            listed = name.split("/", 1)[1]
            kept = [item for item in result.get(listed) or [] if item not in value]
            result[listed] = kept
        elif name in ("$patch", "$retainKeys") or name.startswith("$setElementOrder/"):
            continue
        elif value is None:
            result.pop(name, None)
        elif isinstance(value, list) and (*path, name) in MERGED_LISTS:
            key = MERGED_LISTS[(*path, name)]
            result[name] = merged_list(result.get(name) or [], value, key)
        elif isinstance(value, dict):
            result[name] = strategic(result.get(name), value, (*path, name))
        else:
            result[name] = copied(value)
    for name, value in patch.items():
        if name.startswith("$setElementOrder/"):
            listed = name.split("/", 1)[1]
            order_list(result, listed, value, MERGED_LISTS.get((*path, listed)))
    return result


def merged_list(items: list[Any], patch: list[Any], key: str | None) -> list[Any]:
    if key is None:
        return items + [item for item in patch if item not in items]
    if any(item.get("$patch") == "replace" for item in patch):
        return [item for item in patch if "$patch" not in item]
    result = list(items)
    for item in patch:
        at = next((at for at, other in enumerate(result)
                   if other.get(key) == item.get(key)), None)
        if item.get("$patch") == "delete":
            result = [other for other in result if other.get(key) != item.get(key)]
        elif at is None:
            result.append(copied(item))
        else:
            result[at] = strategic(result[at], item)
    return result


def order_list(target: dict[str, Any], name: str, order: Iterable[Any],
               key: str | None) -> None:
    """Puts the items that the order names in its order, and the others behind them."""
    names = [item if key is None else item.get(key) for item in order]
    place = {named: at for at, named in enumerate(names)}
    if name in target:
        target[name] = sorted(target[name], key=lambda item: place.get(
            item if key is None else item.get(key), len(place)))


def json_patch(target: Any, steps: Iterable[Any]) -> Any:
    """RFC 6902: add, remove, replace and test."""
    result = copied(target)
    for step in steps:
        parts = [part.replace("~1", "/").replace("~0", "~")
                 for part in step["path"].split("/")[1:]]
        try:
            at = result
            for part in parts[:-1]:
                at = at[int(part)] if isinstance(at, list) else at[part]
            change(at, parts[-1], step)
        except (KeyError, IndexError, ValueError, TypeError) as error:
            raise BadPatch(f"{step['op']} {step['path']}: {error}") from error
    return result


def change(at: Any, last: str, step: Any) -> None:
    place: Any = last if isinstance(at, dict) else len(at) if last == "-" else int(last)
    if step["op"] == "test":
        if at[place] != step["value"]:
            raise ValueError("the test failed")
    elif step["op"] == "remove":
        del at[place]
    elif step["op"] == "add" and isinstance(at, list):
        at.insert(place, step["value"])
    elif step["op"] in ("add", "replace"):
        if step["op"] == "replace":
            at[place]  # it must be there
        at[place] = step["value"]
    else:
        raise BadPatch(f"the operation {step['op']} isn't known")
