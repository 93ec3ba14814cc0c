"""A put: the controller's write of a service's status as one patch, and what an answer tells of it.

The answer 200 at a later version, with what was put and its fresh text, says that it is stored.
Whatever else becomes of a put that was sent, an answer that it wasn't stored too, leaves open
whether it was or will be: something between may have sent it twice. The fence finds out."""
from dataclasses import dataclass
from typing import Any

from api import Answer, Json
from host import fresh
from services import FENCE, version_of

HELD_AS, FROM_POOL = "metallb.io/ip-held-as", "metallb.io/ip-allocated-from-pool"
BUSY = (429, 503)
FINAL = (400, 401, 403, 413, 415, 422)  # a put that is answered so would be the next time too


def patch_of(put: Json) -> Json:
    """The patch that makes the status and the annotations of a service those of the put, where its
    version is the put's. It changes the service in any case, so that its version moves."""
    notes = {HELD_AS: put["mark"] or None, FROM_POOL: put["pool"] or None, FENCE: fresh()}
    ingress = [{"ip": address} for address in put["addresses"]]
    return {"metadata": {"resourceVersion": str(put["version"]), "annotations": notes},
            "status": {"loadBalancer": {"ingress": ingress}}}


@dataclass
class Counts:
    """How many puts came to what, since the bridge was started."""
    stored: int = 0
    unknown: int = 0
    unsent: int = 0


@dataclass(frozen=True)
class Fault:
    """Why a put wasn't answered 200 at a later version. `is_final`: it would be so the next time
    too. `is_of_all`: it may be that of all services of the namespace. `is_lost`: the connection
    ended, or there was none, which is no refusal."""
    why: str
    is_final: bool = False
    is_of_all: bool = False
    is_lost: bool = False


def shows(service: Json, patch: Json) -> bool:
    """Whether a service has what a patch of it says: so an answer is that of this patch, whatever
    came between, and nothing was taken out."""
    notes = service["metadata"].get("annotations") or {}
    status: Any = service.get("status") or {}
    ingress = (status.get("loadBalancer") or {}).get("ingress") or []
    wanted: Json = patch["metadata"]["annotations"]
    return ({name: notes.get(name) for name in wanted} == wanted
            and [one.get("ip") for one in ingress]
            == [one["ip"] for one in patch["status"]["loadBalancer"]["ingress"]])


def fault_of(answer: Answer, put: Json, patch: Json) -> Fault | None:
    """Why the answer isn't that the put is stored, or nothing."""
    if answer.status == 200:
        if version_of(answer.value) <= put["version"]:
            return Fault("200, but its version stays: something takes the change out",
                         is_final=True)
        if not shows(answer.value, patch):
            return Fault("200, but without what was put: something takes it out", is_final=True)
        return None
    is_of_all = answer.status >= 500 and answer.status not in BUSY
    return Fault(answer.message, answer.status in FINAL, is_of_all)
