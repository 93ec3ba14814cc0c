"""The rights of the bridges, as deploy/rights.yaml gives them to their accounts."""
import functools
import importlib.util
import pathlib

from rights import Rights, given, refusal
from users import METALLB

GIVEN = pathlib.Path(__file__).resolve().parents[3] / "deploy/rights.yaml"
ACCOUNTS = {"bridge": "controller", "speaker": "speaker"}  # by the names of processes


@functools.cache
def rights() -> Rights | None:
    """Those of each account; nothing where this Python reads no YAML. Objects without a namespace
    get MetalLB's, as by kustomization.yaml."""
    if importlib.util.find_spec("yaml") is None:
        return None
    import yaml
    things = list(yaml.safe_load_all(GIVEN.read_text()))
    for thing in things:
        if thing["kind"] in ("Role", "RoleBinding"):
            thing["metadata"].setdefault("namespace", METALLB)
    return given(things)


def refused(process: str, method: str, target: str) -> str | None:
    """What is said to a request of a process that its account has no right to, or nothing."""
    found = rights()
    if found is None:
        return None
    return refusal(found, ACCOUNTS[process.rstrip("0123456789")], method, target)
