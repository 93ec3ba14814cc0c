"""The Lease `controller`, as the API server has it: who holds it, and which puts may be on their
way. When it is changed, and to what, the program says (its fence). It is made by the manifest, and
never by a bridge: with one that was deleted the names are lost."""
import copy
import json
import math
from collections.abc import Iterable
from dataclasses import dataclass
from typing import Any

from api import Json
from host import fresh, now, printed
from services import LAST, Name, version_of

LEASE = "controller"
NAMES = "metallb.io/puts-in-flight"  # the annotation of the Lease that names the puts
ASKED = "metallb.io/asked"  # and one with a fresh text, so that each change is one


class Unreadable(Exception):
    """The Lease names puts in a form that no bridge writes, so nobody knows which may come."""


@dataclass(frozen=True)
class Reading:
    """The Lease as it was read."""
    version: int
    holder: str
    names: tuple[Name, ...]
    whole: Json


def path_of(namespace: str) -> str:
    return f"/apis/coordination.k8s.io/v1/namespaces/{namespace}/leases/{LEASE}"


def reading_of(lease: Json) -> Reading:
    text = ((lease.get("metadata") or {}).get("annotations") or {}).get(NAMES, "[]")
    try:
        names = tuple(Name(str(namespace), str(name), int(version))
                      for namespace, name, version in json.loads(text))
        if not all(name.namespace and name.name and 0 < name.version <= LAST for name in names):
            raise ValueError(text)
    except (ValueError, TypeError) as fault:
        raise Unreadable(f"its annotation {NAMES} can't be read: {text[:100]}") from fault
    holder = (lease.get("spec") or {}).get("holderIdentity") or ""
    return Reading(version_of(lease), str(holder), names, lease)


def named(names: Iterable[Name]) -> str:
    """The names as the Lease has them."""
    return json.dumps([[name.namespace, name.name, name.version] for name in names],
                      separators=(",", ":"))


def body_of(seen: Reading, holder: str, names: Iterable[Name], seconds: float) -> Json:
    """The Lease as it was read, but for its holder and the names. It is taken at the version that
    it was read at alone."""
    lease = copy.deepcopy(seen.whole)
    notes: dict[str, Any] = lease["metadata"].setdefault("annotations", {})
    notes |= {NAMES: named(names), ASKED: fresh()}
    lease["metadata"].pop("managedFields", None)
    lease["metadata"]["resourceVersion"] = str(seen.version)
    spec = lease.get("spec") or {}
    lease["spec"] = {**spec, "holderIdentity": holder, "renewTime": printed(now()),
                     "leaseDurationSeconds": math.ceil(seconds)}
    if holder != seen.holder:
        changes = int(spec.get("leaseTransitions") or 0) + 1
        lease["spec"] |= {"acquireTime": printed(now()), "leaseTransitions": changes}
    return lease
