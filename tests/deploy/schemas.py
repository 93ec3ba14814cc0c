"""The schemas of deploy/crds.yaml against the reader, field by field; what they refuse by name."""
import importlib.util
import json
import pathlib
import subprocess
import sys
from collections.abc import Iterator
from typing import Any

from small_cluster import TOP, Thing, resource
from judging import Tally

PEER = {"myASN": 64512, "peerASN": 64513}
VALUES: list[Any] = [
    None, True, False, 0, 1, -1, 33, 129, 2 ** 31, 2 ** 32, 1.5, "", "x", "7", [], {}, [1], ["x"],
    [{}], [{"name": "n"}], [{"name": "n", "value": "1:2"}], [{"matchLabels": {"a": "b"}}],
    [{"matchLabels": {"a": 1}}], [{"matchExpressions": [{"key": "a", "operator": "In"}]}],
    [{"matchExpressions": [{"key": "a"}]}], {"priority": -1}, {"priority": 3},
    {"namespaces": "x"}, {"namespaces": ["x"]}]
TEXTS = {"string": str, "boolean": bool, "array": list, "object": dict}


def definitions() -> dict[str, Thing]:
    """The schema of each kind's objects."""
    import yaml
    text = (TOP / "deploy/crds.yaml").read_text()
    return {made["spec"]["names"]["kind"]: made["spec"]["versions"][0]["schema"]["openAPIV3Schema"]
            for made in yaml.safe_load_all(text) if made}


def is_of(kind: str, value: Any) -> bool:
    if kind == "integer":
        return isinstance(value, int) and not isinstance(value, bool)
    return isinstance(value, TEXTS[kind])


def faults(schema: Thing, value: Any, path: str = "") -> Iterator[tuple[str, str]]:
    """Where a value isn't as its schema says, and why, as an API server finds it in what `kubectl`
    sends it. A member that is null is dropped where it isn't wanted as such."""
    if not is_of(schema["type"], value):
        yield path, "type"
        return
    if "enum" in schema and value not in schema["enum"]:
        yield path, "enum"
    if schema["type"] == "integer":
        if value < schema.get("minimum", value) or value > schema.get("maximum", value):
            yield path, "bounds"
    elif schema["type"] == "string":
        if len(value) > schema.get("maxLength", len(value)):
            yield path, "length"
    elif schema["type"] == "array":
        if len(value) > schema.get("maxItems", len(value)):
            yield path, "items"
        for index, item in enumerate(value):
            yield from faults(schema["items"], item, f"{path}[{index}]")
    elif schema["type"] == "object":
        yield from member_faults(schema, value, path)


def member_faults(schema: Thing, value: Thing, path: str) -> Iterator[tuple[str, str]]:
    there = {name: item for name, item in value.items() if item is not None}
    for name in schema.get("required", []):
        if name not in there:
            yield f"{path}.{name}".lstrip("."), "required"
    if schema.get("x-kubernetes-preserve-unknown-fields"):
        return
    for name, item in there.items():
        part = schema.get("properties", {}).get(name) or schema.get("additionalProperties")
        inner = f"{path}.{name}".lstrip(".")
        if part:
            yield from faults(part, item, inner)
        else:
            yield inner, "unknown"


def object_faults(schema: Thing, thing: Thing) -> list[tuple[str, str]]:
    """Those of an object; its metadata the API server has its own rules for."""
    parts = {name: thing[name] for name in ("spec", "status") if name in thing}
    return list(faults(schema, parts))


def explained(admit: pathlib.Path, things: list[Thing]) -> list[Thing]:
    """What `mlb_admit --explain` says of each object."""
    lines = []
    for thing in things:
        metadata = {"resourceVersion": "1", **thing["metadata"]}
        lines.append(json.dumps({"type": "ADDED", "object": {**thing, "metadata": metadata}}))
    made = subprocess.run([admit, "--explain"], input="\n".join(lines).encode(),
                          capture_output=True, check=True)
    return [json.loads(line) for line in made.stdout.decode().splitlines()]


def read_alike(tally: Tally, admit: pathlib.Path, schemas: dict[str, Thing],
               unread: dict[str, set[str]]) -> None:
    """Each field that a program reads, with each value: both take it, or neither does. What is
    unknown is dropped."""
    things, verdicts = [], []
    for kind, schema in schemas.items():
        fields = set(schema["properties"]["spec"]["properties"]) - unread.get(kind, set())
        for field in sorted(fields) if kind != "BFDProfile" else []:
            for value in VALUES:
                base = PEER if kind == "BGPPeer" else {}
                things.append(resource(kind, "x", {**base, field: value}))
                verdicts.append(not any(why != "unknown" for _, why in
                                        object_faults(schema, things[-1])))
    told = explained(admit, things)
    wrong = [(thing["kind"], thing["spec"], answer)
             for thing, verdict, answer in zip(things, verdicts, told, strict=True)
             if (answer["op"] == "event") != verdict]
    tally.check(f"{len(things)} objects are taken or refused by schemas and reader alike, "
                f"{sum(verdicts)} taken", not wrong and any(verdicts), wrong[:5])


def refused_by_name(tally: Tally, schemas: dict[str, Thing],
                    not_served: dict[str, dict[str, str]]) -> None:
    """What nobody serves is refused under its own name, and taken where it is empty; so is what no
    one knows."""
    asked = {"text": "x", "list": [{}], "switch": True}
    empty = {"text": "", "list": [], "switch": False}
    for kind, fields in not_served.items():
        base = PEER if kind == "BGPPeer" else {}
        for field, form in fields.items():
            full = resource(kind, "x", {**base, field: asked[form]})
            named = {path for path, _ in object_faults(schemas[kind], full)}
            bare = object_faults(schemas[kind], resource(kind, "x", {**base, field: empty[form]}))
            tally.check(f"{kind} spec.{field} is refused by its name", named == {f"spec.{field}"}
                        and not bare, (named, bare))
    for kind, schema in schemas.items():
        base = PEER if kind == "BGPPeer" else {}
        found = object_faults(schema, resource(kind, "x", {**base, "nobodyKnows": 1}))
        tally.check(f"{kind} has no fields but those", found == [("spec.nobodyKnows", "unknown")])


def is_structural(schema: Thing) -> bool:
    """Whether a schema is as Kubernetes wants them: each part has a type, and no object members of
    both kinds."""
    if "type" not in schema:
        return False
    parts = [*schema.get("properties", {}).values()]
    for name in ("items", "additionalProperties"):
        if name in schema:
            parts.append(schema[name])
    is_whole = schema["type"] != "array" or "items" in schema
    return is_whole and all(map(is_structural, parts)) and not (
        "properties" in schema and "additionalProperties" in schema)


def try_schemas(tally: Tally, admit: pathlib.Path) -> None:
    made = subprocess.run([TOP / "deploy/crds"], capture_output=True, check=True).stdout.decode()
    tally.check("deploy/crds.yaml is what deploy/crds makes",
                made == (TOP / "deploy/crds.yaml").read_text())
    schemas, tables = definitions(), served()
    tally.check("the schemas are structural", all(map(is_structural, schemas.values())))
    unread = {kind: set(tables.SERVED.get(kind, {})) | set(tables.NOT_SERVED.get(kind, {}))
              for kind in schemas}
    read_alike(tally, admit, schemas, unread)
    refused_by_name(tally, schemas, tables.NOT_SERVED)
    unused_is_known(tally, admit, schemas, unread)
    served_by_bridge(tally, tables, unread)


def unused_is_known(tally: Tally, admit: pathlib.Path, schemas: dict[str, Thing],
                    unread: dict[str, set[str]]) -> None:
    """What the schemas have beside what is read is what the reader tells as unused."""
    for kind in ("IPAddressPool", "L2Advertisement", "BGPAdvertisement", "BGPPeer", "Community"):
        base = PEER if kind == "BGPPeer" else {}
        spec = {**dict.fromkeys(schemas[kind]["properties"]["spec"]["properties"]), **base,
                **dict.fromkeys(unread[kind], "x")}
        told = explained(admit, [resource(kind, "x", spec)])[0]
        wanted = [f"spec.{name}" for name in sorted(unread[kind])]
        tally.check(f"what nobody reads of {kind} is told", told.get("unused", []) == wanted,
                    (told, wanted))


def served() -> Any:
    """deploy/served.py."""
    return loaded("served", TOP / "deploy/served.py")


def loaded(name: str, path: pathlib.Path) -> Any:
    spec = importlib.util.spec_from_file_location(name, path)
    assert spec and spec.loader
    module = importlib.util.module_from_spec(spec)
    sys.modules[name] = module
    spec.loader.exec_module(module)
    return module


def served_by_bridge(tally: Tally, tables: Any, unread: dict[str, set[str]]) -> None:
    """What the schemas take, the sessions serve, and nothing else of what the programs don't."""
    settings = loaded("settings", TOP / "bridge/settings.py")
    for kind, done in ("BGPPeer", settings.SERVED), ("BFDProfile", settings.PROFILE_SERVED):
        refused = set(tables.NOT_SERVED[kind])
        tally.check(f"sessions do what a {kind} may ask for", not refused & done
                    and unread[kind] - refused - done <= {"echoInterval"},
                    (refused & done, unread[kind] - refused - done))
