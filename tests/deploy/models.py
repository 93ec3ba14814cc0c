"""Each object of the manifests against the types of Kubernetes, as its Python client has them."""
import json
import subprocess
import sys

from small_cluster import SYSTEM, TOP, Thing
from judging import Tally

NODES = "kube-node-lease"  # the namespace of the kubelets' Leases
# Run by a Python that has the client: it reads objects, and tells what doesn't fit their types.
JUDGE = '''
import json, re, sys
from kubernetes import client

MODELS = {"apps/v1 Deployment": "V1Deployment", "apps/v1 DaemonSet": "V1DaemonSet",
          "v1 Service": "V1Service", "v1 ServiceAccount": "V1ServiceAccount",
          "v1 Namespace": "V1Namespace", "coordination.k8s.io/v1 Lease": "V1Lease",
          "policy/v1 PodDisruptionBudget": "V1PodDisruptionBudget",
          "networking.k8s.io/v1 NetworkPolicy": "V1NetworkPolicy",
          "rbac.authorization.k8s.io/v1 Role": "V1Role",
          "rbac.authorization.k8s.io/v1 RoleBinding": "V1RoleBinding",
          "rbac.authorization.k8s.io/v1 ClusterRole": "V1ClusterRole",
          "rbac.authorization.k8s.io/v1 ClusterRoleBinding": "V1ClusterRoleBinding",
          "apiextensions.k8s.io/v1 CustomResourceDefinition": "V1CustomResourceDefinition",
          "admissionregistration.k8s.io/v1 ValidatingWebhookConfiguration":
          "V1ValidatingWebhookConfiguration"}
PLAIN = {"str": str, "bool": bool, "int": int}


def faults(value, type_, path):
    """Where a value isn't of a type of the client: what that hasn't, and what it wants."""
    if found := re.fullmatch(r"list\\[(.*)\\]", type_):
        if not isinstance(value, list):
            return [f"{path}: no list"]
        return [told for index, item in enumerate(value)
                for told in faults(item, found[1], f"{path}[{index}]")]
    if found := re.fullmatch(r"dict\\(str, (.*)\\)", type_):
        if not isinstance(value, dict):
            return [f"{path}: no map"]
        return [told for name, item in value.items()
                for told in faults(item, found[1], f"{path}.{name}")]
    if type_ in PLAIN:
        fits = isinstance(value, PLAIN[type_]) and isinstance(value, bool) == (type_ == "bool")
        return [] if fits else [f"{path}: no {type_}"]
    model = getattr(client, type_, None)
    if model is None or not hasattr(model, "openapi_types"):
        return []
    if not isinstance(value, dict):
        return [f"{path}: no object"]
    names = {told: name for name, told in model.attribute_map.items()}
    told = [f"{path}.{name}: unknown" for name in value if name not in names]
    parts = {names[name]: item for name, item in value.items() if name in names}
    try:
        model(**parts)
    except ValueError as fault:
        told.append(f"{path}: {fault}")
    return told + [each for name, item in parts.items() for each in
                   faults(item, model.openapi_types[name], f"{path}.{model.attribute_map[name]}")]


told = []
for thing in json.load(sys.stdin):
    model = MODELS.get(f"{thing['apiVersion']} {thing['kind']}")
    name = f"{thing['kind']} {thing['metadata']['name']}"
    told += faults(thing, model, name) if model else [f"{name}: no such kind"]
json.dump(told, sys.stdout)
'''


def judged(things: list[Thing]) -> list[str] | None:
    """What doesn't fit, or nothing where no Python here has the client."""
    for python in dict.fromkeys((sys.executable, "/usr/bin/python3")):
        made = subprocess.run([python, "-c", JUDGE], input=json.dumps(things).encode(),
                              capture_output=True, check=False)
        if not made.returncode:
            found: list[str] = json.loads(made.stdout)
            return found
        if b"No module named 'kubernetes'" not in made.stderr:
            raise RuntimeError(made.stderr.decode())
    return None


def built(folder: str) -> list[Thing]:
    """The objects that `kubectl kustomize` makes of a folder."""
    import yaml
    made = subprocess.run(["kubectl", "kustomize", folder], capture_output=True, check=True)
    return [thing for thing in yaml.safe_load_all(made.stdout) if thing]


def try_places(tally: Tally, things: list[Thing]) -> None:
    """Where the objects stand, and that the speakers' Service shows the speakers."""
    elsewhere = {f"{thing['kind']} {where}" for thing in things
                 if (where := thing["metadata"].get("namespace")) not in (None, SYSTEM)}
    tally.check("all stand in MetalLB's namespace but the right to read the kubelets' Leases",
                elsewhere == {f"{kind} {NODES}" for kind in ("Role", "RoleBinding")}, elsewhere)
    shown = {thing["kind"]: thing["spec"] for thing in things
             if thing["metadata"]["name"] == "speaker" and "spec" in thing}
    roster, pods = shown["Service"], shown["DaemonSet"]["template"]
    tally.check("the speakers' Service is their roster: headless, of their pods, the ready ones",
                roster["clusterIP"] == "None" and "publishNotReadyAddresses" not in roster
                and roster["selector"] == pods["metadata"]["labels"]
                and pods["spec"]["containers"][0]["readinessProbe"], roster)


def try_models(tally: Tally, folder: str) -> None:
    things = built(str(TOP / "deploy"))
    with_services = built(folder)
    tally.check("kubectl puts the manifests together", len(things) > 25, len(things))
    try_places(tally, things)
    hooks = [thing for thing in with_services if thing["kind"] == "ValidatingWebhookConfiguration"]
    tally.check("the component has Services reviewed", len(hooks[0]["webhooks"]) == 2)
    found = judged(things + with_services)
    if found is None:
        tally.skip("types of Kubernetes", "python3-kubernetes isn't there")
        return
    tally.check(f"{len(things)} objects fit the types of Kubernetes", not found, found[:9])
    bent = json.loads(json.dumps(things))
    for thing in bent:
        thing["specs"] = thing.pop("spec", {})
    tally.check("which takes no others", len(judged(bent) or []) >= len(bent))
