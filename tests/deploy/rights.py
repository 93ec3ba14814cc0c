"""The rights that the manifests give: they judge each request, and each is needed."""
import itertools
import re
from typing import NamedTuple

from small_cluster import SYSTEM, TOP, Thing
from judging import Tally
from models import built

TARGET = re.compile(r"/(?:api|apis/(?P<group>[^/]+))/[^/]+(?:/namespaces/(?P<where>[^/]+)(?=/.))?/"
                    r"(?P<plural>[^/?]+)(?:/(?P<name>[^/?]+))?(?:/(?P<part>[^/?]+))?"
                    r"(?:\?(?P<query>.*))?$")
VERBS = {"POST": "create", "PATCH": "patch", "PUT": "update", "DELETE": "delete"}
FREE = ("/version",)  # what each account may ask


class Right(NamedTuple):
    """`namespace`, `name`: nothing is each of them."""
    group: str
    resource: str
    verb: str
    namespace: str | None
    name: str | None


Rights = dict[str, set[Right]]  # of each account
Asked = tuple[str, str, str]  # account, method, target


def rules_of(things: list[Thing], binding: Thing) -> list[Thing]:
    """The rules of the role that a binding names, which is of the binding's namespace if it isn't
    the cluster's."""
    role, where = binding["roleRef"], binding["metadata"].get("namespace")
    at = (role["kind"], role["name"], where if role["kind"] == "Role" else None)
    found: list[Thing] = next(
        thing["rules"] for thing in things if "rules" in thing and at == (
            thing["kind"], thing["metadata"]["name"], thing["metadata"].get("namespace")))
    return found


def given(things: list[Thing]) -> Rights:
    """What each account may do."""
    found: Rights = {}
    for thing in things:
        if "subjects" not in thing:
            continue
        rights = {Right(group, plural, verb, thing["metadata"].get("namespace"), name)
                  for rule in rules_of(things, thing) for group in rule["apiGroups"]
                  for plural in rule["resources"] for verb in rule["verbs"]
                  for name in rule.get("resourceNames", [None])}
        for account in thing["subjects"]:
            found.setdefault(account["name"], set()).update(rights)
    return found


def manifests() -> Rights:
    """What deploy/ gives."""
    return given([thing for thing in built(str(TOP / "deploy")) if isinstance(thing, dict)])


def wanted(method: str, target: str) -> Right:
    """The right that a request needs."""
    found = TARGET.match(target)
    assert found, target
    group, plural, name, part, query, where = found.group(
        "group", "plural", "name", "part", "query", "where")
    reads = "watch" if "watch=1" in (query or "") else "get" if name else "list"
    resource = f"{plural}/{part}" if part else plural
    return Right(group or "", resource, VERBS.get(method, reads), where, name)


def allowing(right: Right) -> set[Right]:
    """The rights by which it is had: for its namespace or all, for its name or each."""
    wheres, names = {right.namespace, None}, {right.name, None}
    return {right._replace(namespace=where, name=name)
            for where, name in itertools.product(wheres, names)}


def refusal(rights: Rights, account: str, method: str, target: str) -> str | None:
    """What an API server says to a request that the account's rights don't allow, or nothing."""
    if target in FREE:
        return None
    right = wanted(method, target)
    if allowing(right) & rights.get(account, set()):
        return None
    where = f'in the namespace "{right.namespace}"' if right.namespace else "at the cluster scope"
    return (f'User "system:serviceaccount:{SYSTEM}:{account}" cannot {right.verb} resource '
            f'"{right.resource}" in API group "{right.group}" {where}')


def without(rights: Rights, account: str, right: Right) -> Rights:
    return {**rights, account: rights[account] - {right}}


def try_rights(tally: Tally, rights: Rights, asked: set[Asked], denied: list[str]) -> None:
    """`asked`: which account made which request, each judged by the rights as it came; `denied`:
    those that were refused."""
    tally.check("each request is allowed by its account's rights", asked and not denied, denied)
    spare = [(account, right) for account, all_ in rights.items() for right in all_
             if not any(refusal(without(rights, account, right), *one) for one in asked)]
    tally.check("and each right is needed: without it one of them is refused", not spare,
                sorted(spare, key=str))
    changing = {(account, each.resource, each.verb, each.namespace, each.name)
                for account, all_ in rights.items() for each in all_
                if each.verb not in ("get", "list", "watch")}
    least = {("controller", "services/status", "patch", None, None),
             ("controller", "leases", "update", SYSTEM, "controller"),
             *((account, "events", verb, None, None) for account in ("controller", "speaker")
               for verb in ("create", "patch"))}
    tally.check("the controller alone may change something but Events: statuses and its Lease",
                changing == least, sorted(changing ^ least, key=str))
