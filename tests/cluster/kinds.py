"""The kinds of objects that the small API server has, their paths, and what it tells of them
(discovery)."""
from typing import Any, NamedTuple

Json = dict[str, Any]


def copied(value: Any) -> Any:
    """A copy of a JSON value: of what copy.deepcopy gives, in a fifth of the time."""
    if isinstance(value, dict):
        return {name: copied(one) for name, one in value.items()}
    return [copied(one) for one in value] if isinstance(value, list) else value


class Kind(NamedTuple):
    group: str
    version: str
    plural: str
    name: str
    namespaced: bool
    status: bool  # whether it has the status subresource
    # a custom resource: no strategic patches, and an update names its version
    custom: bool = False
    short: tuple[str, ...] = ()

    @property
    def api_version(self) -> str:
        return f"{self.group}/{self.version}" if self.group else self.version


KINDS = [
    Kind("", "v1", "namespaces", "Namespace", False, True, short=("ns",)),
    Kind("", "v1", "nodes", "Node", False, True, short=("no",)),
    Kind("", "v1", "secrets", "Secret", True, False),
    Kind("", "v1", "events", "Event", True, False, short=("ev",)),
    Kind("", "v1", "services", "Service", True, True, short=("svc",)),
    Kind("discovery.k8s.io", "v1", "endpointslices", "EndpointSlice", True, False),
    Kind("coordination.k8s.io", "v1", "leases", "Lease", True, False),
    Kind("metallb.io", "v1beta1", "ipaddresspools", "IPAddressPool", True, True, True),
    Kind("metallb.io", "v1beta1", "l2advertisements", "L2Advertisement", True, True, True),
    Kind("metallb.io", "v1beta1", "bgpadvertisements", "BGPAdvertisement", True, True, True),
    Kind("metallb.io", "v1beta1", "communities", "Community", True, True, True),
    Kind("metallb.io", "v1beta1", "bfdprofiles", "BFDProfile", True, True, True),
    Kind("metallb.io", "v1beta2", "bgppeers", "BGPPeer", True, True, True),
]
BY_PLURAL = {kind.plural: kind for kind in KINDS}
BY_NAME = {kind.name: kind for kind in KINDS}
VERBS = ["create", "delete", "get", "list", "patch", "update", "watch"]


def groups() -> dict[str, list[str]]:
    """Each group with its versions, the preferred one last in the order of KINDS."""
    found: dict[str, list[str]] = {}
    for kind in KINDS:
        if kind.group:
            versions = found.setdefault(kind.group, [])
            if kind.version not in versions:
                versions.append(kind.version)
    return found


def group_told(name: str, versions: list[str]) -> Json:
    told = [{"groupVersion": f"{name}/{version}", "version": version} for version in versions]
    return {"name": name, "versions": told, "preferredVersion": told[-1]}


def resources(group: str, version: str) -> list[Json]:
    """What an APIResourceList says of a group's version."""
    told: list[Json] = []
    for kind in KINDS:
        if (kind.group, kind.version) != (group, version):
            continue
        named = {"name": kind.plural, "singularName": kind.name.lower(),
                 "namespaced": kind.namespaced, "kind": kind.name}
        told.append({**named, "verbs": VERBS, "shortNames": list(kind.short)})
        if kind.status:
            told.append({**named, "name": kind.plural + "/status", "singularName": "",
                         "verbs": ["get", "patch", "update"]})
    return told


def path_of(kind: Kind, namespace: str = "{namespace}") -> str:
    top = f"/apis/{kind.group}/{kind.version}" if kind.group else f"/api/{kind.version}"
    inside = f"/namespaces/{namespace}" if kind.namespaced else ""
    return f"{top}{inside}/{kind.plural}"


def openapi_of(group: str, version: str) -> Json:
    """So much of the OpenAPI document of a group's version that kubectl leaves the check of fields
    to the server."""
    paths: Json = {}
    for kind in KINDS:
        if (kind.group, kind.version) == (group, version):
            gvk = {"group": kind.group, "version": kind.version, "kind": kind.name}
            asked = [{"name": "fieldValidation", "in": "query", "schema": {"type": "string"}}]
            one = {"x-kubernetes-group-version-kind": gvk, "x-kubernetes-action": "patch",
                   "parameters": asked, "responses": {}}
            paths[path_of(kind) + "/{name}"] = {"patch": one}
    return {"openapi": "3.0.0", "info": {"title": "a small cluster", "version": "v1"},
            "paths": paths, "components": {"schemas": {}}}


def discovery(path: str) -> Json | None:
    """The document at a discovery path, or nothing."""
    parts = [part for part in path.split("/") if part]
    found = groups()
    if parts == ["version"]:
        return {"major": "1", "minor": "32", "gitVersion": "v1.32.0-small",
                "platform": "linux/amd64"}
    if parts == ["api"]:
        return {"kind": "APIVersions", "versions": ["v1"], "serverAddressByClientCIDRs": []}
    if parts == ["apis"]:
        return {"kind": "APIGroupList", "apiVersion": "v1",
                "groups": [group_told(name, versions) for name, versions in found.items()]}
    if len(parts) == 2 and parts[0] == "apis" and parts[1] in found:
        return {"kind": "APIGroup", "apiVersion": "v1", **group_told(parts[1], found[parts[1]])}
    told = None
    if parts == ["api", "v1"]:
        told = "", "v1"
    elif len(parts) == 3 and parts[0] == "apis" and parts[2] in found.get(parts[1], []):
        told = parts[1], parts[2]
    if told:
        name = "/".join(part for part in told if part)
        return {"kind": "APIResourceList", "apiVersion": "v1", "groupVersion": name,
                "resources": resources(*told)}
    if parts == ["openapi", "v3"]:
        names = ["api/v1", *(f"apis/{group}/{version}" for group, versions in found.items()
                             for version in versions)]
        return {"paths": {name: {"serverRelativeURL": f"/openapi/v3/{name}"} for name in names}}
    if parts[:2] == ["openapi", "v3"]:
        if parts[2:] == ["api", "v1"]:
            return openapi_of("", "v1")
        if len(parts) == 5 and parts[4] in found.get(parts[3], []):
            return openapi_of(parts[3], parts[4])
    return None
