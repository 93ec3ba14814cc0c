"""A service at a version: what a put is made at, and what the Lease names."""
from __future__ import annotations

from dataclasses import dataclass

from api import Json
from host import fresh

PATCH = "application/merge-patch+json"
FENCE = "metallb.io/put-fence"  # the annotation that moves a service's version
LAST = 2 ** 64 - 1  # the last version that a program reads
Key = tuple[str, str]


@dataclass(frozen=True, order=True)
class Name:
    """A put that may be on its way: of this service, at this version."""
    namespace: str
    name: str
    version: int

    @classmethod
    def of(cls, line: Json) -> Name:
        """What a line of the program is about."""
        return cls(line["namespace"], line["name"], line["version"])

    @property
    def key(self) -> Key:
        return self.namespace, self.name

    @property
    def path(self) -> str:
        return f"/api/v1/namespaces/{self.namespace}/services/{self.name}"

    def touch(self) -> Json:
        """The patch that changes the service at this version alone, in something that nobody reads;
        with a fresh text, since a write that changes nothing moves no version."""
        return {"metadata": {"resourceVersion": str(self.version),
                             "annotations": {FENCE: fresh()}}}

    def __str__(self) -> str:
        return f"{self.namespace}/{self.name} at version {self.version}"


def version_of(thing: Json) -> int:
    """The version of an object, 0 where none can be read."""
    text = (thing.get("metadata") or {}).get("resourceVersion")
    version = int(text) if isinstance(text, str) and text.isdecimal() else 0
    return version if version <= LAST else 0


def is_missing(status: int, answer: Json) -> bool:
    """Whether the API server itself says that the object isn't there."""
    return status == 404 and answer.get("kind") == "Status" and answer.get("reason") == "NotFound"
