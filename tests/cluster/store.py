"""The objects of a small cluster, with the rules by which an API server takes changes of them.

Each change takes the next version of one counter and is kept, so that a watch can go on at any
version that isn't too old. Stored objects are never changed in place, so whoever was given one may
keep it. `on_change` is called after each change while the store is locked, `on_put` ahead of each
change of a service's status; what that returns is told what came of it, step by step."""
from __future__ import annotations

import threading
import time
import uuid
from collections.abc import Callable
from typing import Any, NamedTuple

import service_rules
from applying import Applied, Conflict
from kinds import BY_NAME, BY_PLURAL, KINDS, Json, Kind, copied
from patches import BadPatch, json_patch, merge, strategic

MERGE, STRATEGIC, JSON_PATCH = (f"application/{name}+json" for name in (
    "merge-patch", "strategic-merge-patch", "json-patch"))
Key = tuple[str, str]  # namespace, name
Tell = Callable[..., None]


class Refused(Exception):
    """An answer other than success, by its HTTP status."""
    REASONS = {400: "BadRequest", 403: "Forbidden", 404: "NotFound", 405: "MethodNotAllowed",
               409: "Conflict", 410: "Expired", 415: "UnsupportedMediaType", 422: "Invalid",
               500: "InternalError"}

    def __init__(self, code: int, message: str, reason: str | None = None) -> None:
        super().__init__(message)
        self.code, self.reason = code, reason or self.REASONS.get(code, "InternalError")

    def status(self) -> Json:
        told = {"kind": "Status", "apiVersion": "v1", "metadata": {}, "status": "Failure",
                "message": str(self), "reason": self.reason}
        if self.code == 422:
            told["details"] = {"causes": [{"message": str(self)}]}
        return {**told, "code": self.code}


class Change(NamedTuple):
    version: int
    type: str  # ADDED, MODIFIED or DELETED
    kind: Kind
    key: Key
    object: Json  # after the change, or as it last was
    old: Json | None  # before the change


def version_of(thing: Json) -> int:
    return int(thing["metadata"]["resourceVersion"])


def list_order(key: Key) -> str:
    """The order of a list: by namespace/name as text, as the keys of etcd go."""
    return "/".join(part for part in key if part)


def now() -> str:
    return time.strftime("%Y-%m-%dT%H:%M:%SZ", time.gmtime())


Changes = list[Change]  # (in the store `list` is what it gives)


class Store:
    def __init__(self, history: int = 1000) -> None:
        self.lock = threading.RLock()  # held by whoever looks at the store or changes it
        self.news = {kind: threading.Condition(self.lock) for kind in KINDS}
        self.latest = dict.fromkeys(KINDS, 0)  # the version of each kind's last change
        self.objects: dict[Kind, dict[Key, Json]] = {kind: {} for kind in KINDS}
        self.version, self.history = 0, history
        self.changes: list[Change] = []
        self.on_change: list[Callable[[Change], object]] = []
        self.on_put: list[Callable[[str, Key, Json], Tell]] = []
        self.applied = Applied()
        # a text refuses the request (403)
        self.forbidden: Callable[[str, Kind, Key, Json | None], str | None] = lambda *_: None
        for name in ("default", "kube-system", "metallb-system"):
            labels = {"kubernetes.io/metadata.name": name}
            self.create(BY_PLURAL["namespaces"], None,
                        {"metadata": {"name": name, "labels": labels}})
        lease = {"metadata": {"name": "controller"}, "spec": {}}  # as the manifest makes it
        self.create(BY_PLURAL["leases"], "metallb-system", lease)

    # What there is

    def get(self, kind: Kind, key: Key) -> Json:
        with self.lock:
            found = self.objects[kind].get(key)
            if found is None:
                raise Refused(404, f'{kind.plural} "{key[1]}" not found')
            return found

    def list(self, kind: Kind, behind: int = 0) -> tuple[list[Json], int]:
        """The objects in the order of a list as they were so many changes ago, and the version at
        which they were so."""
        with self.lock:
            objects: dict[Key, Json | None] = {**self.objects[kind]}
            version = max(0, self.version - behind)
            for change in reversed(self.since(version)):
                if change.kind == kind:
                    objects[change.key] = change.old
            found = (objects[key] for key in sorted(objects, key=list_order))
            return [thing for thing in found if thing], version

    def oldest(self) -> int:
        """The least version at which a watch can go on."""
        return max(0, self.version - self.history)

    def since(self, version: int) -> Changes:
        """The changes after the version."""
        return self.changes[version:]  # each change takes one version

    def latest_versions(self) -> dict[Kind, int]:
        """The version of the last change of each kind but Leases and Events, which change all the
        time, and which no program reads."""
        with self.lock:
            return {kind: version for kind, version in self.latest.items()
                    if kind.name not in ("Lease", "Event")}

    # What changes it

    def record(self, type_: str, kind: Kind, key: Key, thing: Json) -> Json:
        """Makes the change, at the next version. What is handed in belongs to the store from now
        on."""
        old = self.objects[kind].get(key)
        self.version += 1
        thing["metadata"]["resourceVersion"] = str(self.version)
        if type_ == "DELETED":
            del self.objects[kind][key]
        else:
            self.objects[kind][key] = thing
        change = Change(self.version, type_, kind, key, thing, old)
        self.changes.append(change)
        for told in self.on_change:
            told(change)
        self.latest[kind] = self.version
        self.news[kind].notify_all()
        return thing

    def create(self, kind: Kind, namespace: str | None, body: Json) -> Json:
        with self.lock:
            thing = self.named(kind, namespace, body)
            metadata = thing["metadata"]
            key = (metadata.get("namespace", ""), metadata["name"])
            if kind.namespaced and ("", key[0]) not in self.objects[BY_PLURAL["namespaces"]]:
                raise Refused(404, f'namespaces "{key[0]}" not found')
            self.may("create", kind, key, thing)
            if key in self.objects[kind]:
                raise Refused(409, f'{kind.plural} "{key[1]}" already exists', "AlreadyExists")
            if metadata.get("resourceVersion"):
                raise Refused(400, "resourceVersion should not be set on objects to be created")
            metadata.update(uid=str(uuid.uuid4()), creationTimestamp=now())
            if kind.status:
                thing.pop("status", None)
            self.settle(kind, thing, None)
            return self.record("ADDED", kind, key, thing)

    def named(self, kind: Kind, namespace: str | None, body: Any) -> Json:
        """A copy of the body with the kind and the namespace of the request."""
        if not isinstance(body, dict) or not isinstance(body.get("metadata"), dict):
            raise Refused(400, "the body is no object with metadata")
        thing: Json = copied(body)
        told = thing.get("kind", kind.name), thing.get("apiVersion", kind.api_version)
        if told != (kind.name, kind.api_version):
            raise Refused(400, f"the object is no {kind.name} of {kind.api_version}")
        thing = {"kind": kind.name, "apiVersion": kind.api_version, **thing}
        metadata = thing["metadata"]
        if not metadata.get("name") and metadata.get("generateName"):
            metadata["name"] = metadata["generateName"] + uuid.uuid4().hex[:5]
        if not metadata.get("name"):
            raise Refused(422, f"{kind.name} is invalid: metadata.name: Required value: name or "
                               "generateName is required")
        if kind.namespaced:
            inside = metadata.setdefault("namespace", namespace or "default")
            if inside != (namespace or inside):
                raise Refused(400, "the namespace of the object does not match the namespace of "
                                   "the request")
        else:
            metadata.pop("namespace", None)
        return thing

    def may(self, verb: str, kind: Kind, key: Key, body: Json | None) -> None:
        why = self.forbidden(verb, kind, key, body)
        if why:
            raise Refused(403, f'{kind.plural} "{key[1]}" is forbidden: {why}')

    def settle(self, kind: Kind, thing: Json, old: Json | None) -> None:
        """Gives defaults and refuses what isn't valid."""
        for name in ("labels", "annotations"):
            texts = thing["metadata"].get(name) or {}
            is_map = isinstance(texts, dict)
            if not is_map or any(not isinstance(text, str) for text in texts.values()):
                raise Refused(422 if is_map else 400,
                              f"{kind.name} is invalid: metadata.{name}: Invalid value")
        if kind.name == "Service":
            fault = service_rules.settle(thing, old)
            if fault:
                name = thing["metadata"]["name"]
                raise Refused(422, f'Service "{name}" is invalid: {fault}')

    def update(self, kind: Kind, key: Key, body: Json, status: bool = False) -> Json:
        """A PUT of the object, or of its status."""
        with self.lock:
            thing = self.named(kind, key[0], body)
            if thing["metadata"]["name"] != key[1]:
                raise Refused(400, "the name of the object does not match the name on the URL")
            is_strict = (kind.custom or kind.name == "Lease") and not status
            if is_strict and not thing["metadata"].get("resourceVersion"):
                raise Refused(422, f"{kind.name} is invalid: metadata.resourceVersion: Invalid "
                                   "value: 0: must be specified for an update")
            return self.replace(kind, key, self.get(kind, key), thing, status, "update")

    def patch(self, kind: Kind, key: Key, body: Any, form: str, status: bool = False) -> Json:
        """A PATCH of the object, or of its status, in one of three forms."""
        with self.lock:
            old = self.get(kind, key)
            if form == STRATEGIC and kind.custom:
                raise Refused(415, "the body of the request was in an unknown format - accepted "
                                   "media types include: application/json-patch+json, "
                                   "application/merge-patch+json")
            if form not in (MERGE, STRATEGIC, JSON_PATCH):
                raise Refused(415, f"the patch type {form} isn't served")
            try:
                forms: dict[str, Callable[[Any, Any], Any]] = {
                    MERGE: merge, STRATEGIC: strategic, JSON_PATCH: json_patch}
                thing: Json = copied(forms[form](old, body))
            except (BadPatch, KeyError, AttributeError, TypeError) as error:
                raise Refused(422 if form == JSON_PATCH else 400,
                              f"the patch can't be applied: {error}") from error
            if (thing.get("kind"), thing.get("metadata", {}).get("name")) != (kind.name, key[1]):
                raise Refused(422, f"{kind.name} is invalid: metadata.name: Invalid value: field "
                                   "is immutable")
            return self.replace(kind, key, old, thing, status, "patch")

    def apply(self, kind: Kind, key: Key, body: Json, manager: str,
              force: bool) -> tuple[Json, bool]:
        """A server-side apply: the object, and whether it was created by it."""
        if not manager:
            raise Refused(422, "PatchOptions.meta.k8s.io is invalid: fieldManager: Required value: "
                               "is required for apply patch")
        with self.lock:
            metadata = {**(body.get("metadata") or {}), "name": key[1]}
            body = self.named(kind, key[0], {**body, "metadata": metadata})
            old = self.objects[kind].get(key)
            if old is None:
                made = self.create(kind, key[0], body)
                self.applied.keep(kind, key, manager, body)
                return made, True
            try:
                thing = self.applied.merged(kind, key, manager, old, body, force)
            except Conflict as error:
                raise Refused(409, str(error), "Conflict") from error
            made = self.replace(kind, key, old, thing, False, "patch")
            self.applied.keep(kind, key, manager, body)
            return made, False

    def replace(self, kind: Kind, key: Key, old: Json, thing: Json, status: bool,
                verb: str) -> Json:
        """Puts the thing in the old one's place: its status and annotations, or all but its
        status."""
        metadata = thing["metadata"]
        if metadata.get("resourceVersion") not in (None, "", old["metadata"]["resourceVersion"]):
            raise Refused(409, f'Operation cannot be fulfilled on {kind.plural} "{key[1]}": the '
                               "object has been modified; please apply your changes to the latest "
                               "version and try again")
        if metadata.get("uid") not in (None, "", old["metadata"]["uid"]):
            raise Refused(409, f"Precondition failed: UID in precondition: {metadata['uid']}, UID "
                               f"in object meta: {old['metadata']['uid']}")
        self.may(verb + ("/status" if status else ""), kind, key, thing)
        for name in ("uid", "creationTimestamp", "namespace", "name", "deletionTimestamp"):
            if name in old["metadata"]:
                metadata[name] = old["metadata"][name]
        if status:
            texts = metadata if not kind.custom else old["metadata"]
            kept: Json = copied(old["metadata"])
            for name in ("labels", "annotations"):
                kept.pop(name, None)
                if texts.get(name):
                    kept[name] = copied(texts[name])
            status_told = thing.get("status") or {}
            thing = {**copied(old), "metadata": kept, "status": status_told}
            if kind.name == "Service":
                fault = service_rules.status_fault(thing)
                if fault:
                    raise Refused(422, f'Service "{key[1]}" is invalid: {fault}')
        else:
            if kind.status and "status" in old:
                thing["status"] = copied(old["status"])
            self.settle(kind, thing, old)
        metadata = thing["metadata"]
        for name in ("labels", "annotations"):
            if not metadata.get(name):
                metadata.pop(name, None)
        metadata["resourceVersion"] = old["metadata"]["resourceVersion"]
        if thing == old:
            return old
        if metadata.get("deletionTimestamp") and not metadata.get("finalizers"):
            return self.record("DELETED", kind, key, thing)
        return self.record("MODIFIED", kind, key, thing)

    def delete(self, kind: Kind, key: Key, asked: Json | None = None) -> Json:
        """A DELETE, at most of the version and the uid that it asks for. One with finalizers is
        marked, and goes with the last of them."""
        with self.lock:
            old = self.get(kind, key)
            for name, value in ((asked or {}).get("preconditions") or {}).items():
                if old["metadata"].get(name) != value:
                    raise Refused(409, f"Precondition failed: {name} in precondition: {value}, "
                                       f"in object meta: {old['metadata'].get(name)}")
            self.may("delete", kind, key, None)
            thing = copied(old)
            if old["metadata"].get("finalizers"):
                thing["metadata"].setdefault("deletionTimestamp", now())
                return old if thing == old else self.record("MODIFIED", kind, key, thing)
            if kind.name == "Namespace":
                for other in KINDS:
                    for inside in [one for one in self.objects[other] if one[0] == key[1]]:
                        self.delete(other, inside)
            return self.record("DELETED", kind, key, thing)

    def put(self, body: Json) -> Json:
        """Creates the object, or puts it in place of the one of its name, whatever that one's
        version. For users of the store in this process."""
        kind = BY_NAME[body["kind"]]
        metadata = body["metadata"]
        namespace = metadata.get("namespace", "default") if kind.namespaced else ""
        key = namespace, metadata["name"]
        with self.lock:
            if key not in self.objects[kind]:
                return self.create(kind, key[0], body)
            version = self.objects[kind][key]["metadata"]["resourceVersion"]
            known = {**body, "metadata": {**metadata, "resourceVersion": version}}
            return self.update(kind, key, known)
