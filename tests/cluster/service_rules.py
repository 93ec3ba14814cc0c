"""What an API server makes of a Service: defaults, what it refuses, and the status that goes with
the type."""
import ipaddress

from kinds import Json, copied

TYPES = ("ClusterIP", "NodePort", "LoadBalancer", "ExternalName")
PROTOCOLS = ("TCP", "UDP", "SCTP")
FAMILIES = ("IPv4", "IPv6")


def settle(thing: Json, old: Json | None) -> str | None:
    """Gives the service its defaults; the first fault, or nothing."""
    spec = thing.setdefault("spec", {})
    before = (old or {}).get("spec", {})
    spec.setdefault("type", "ClusterIP")
    if spec["type"] not in TYPES:
        return f'spec.type: Unsupported value: "{spec["type"]}"'
    outside = spec["type"] in ("LoadBalancer", "NodePort")
    old_only = ["externalTrafficPolicy"] * (not outside)  # a change of the type drops these
    if spec["type"] != "LoadBalancer":
        old_only += ["loadBalancerClass", "allocateLoadBalancerNodePorts", "loadBalancerIP"]
    for name in old_only if old else ():
        if spec.get(name) == before.get(name):
            spec.pop(name, None)
    fault = ports_fault(spec) or families_fault(spec, before) or type_fault(spec, before, outside)
    if fault:
        return fault
    spec.setdefault("sessionAffinity", "None")
    spec.setdefault("internalTrafficPolicy", "Cluster")
    if outside:
        spec.setdefault("externalTrafficPolicy", "Cluster")
    if spec["type"] == "LoadBalancer":
        spec.setdefault("allocateLoadBalancerNodePorts", True)
    status = copied(thing.get("status") or {})
    status.setdefault("loadBalancer", {})
    if spec["type"] != "LoadBalancer":
        status["loadBalancer"] = {}  # the API server itself takes the addresses away
    thing["status"] = status
    return None


def ports_fault(spec: Json) -> str | None:
    ports = spec.get("ports") or []
    if not isinstance(ports, list) or any(not isinstance(port, dict) for port in ports):
        return "spec.ports: Invalid value"
    if not ports and spec["type"] != "ExternalName" and spec.get("clusterIP") != "None":
        return "spec.ports: Required value"
    pairs, names = set[tuple[str, int]](), set[str | None]()
    for at, port in enumerate(ports):
        port.setdefault("protocol", "TCP")
        number = port.get("port")
        if not isinstance(number, int) or isinstance(number, bool) or not 1 <= number <= 65535:
            return (f"spec.ports[{at}].port: Invalid value: {number}: must be between 1 and 65535, "
                    "inclusive")
        port.setdefault("targetPort", number)
        if port["protocol"] not in PROTOCOLS:
            return f'spec.ports[{at}].protocol: Unsupported value: "{port["protocol"]}"'
        if (port["protocol"], number) in pairs:
            return f"spec.ports[{at}]: Duplicate value"
        if len(ports) > 1 and not port.get("name"):
            return f"spec.ports[{at}].name: Required value"
        if port.get("name") and port["name"] in names:
            return f"spec.ports[{at}].name: Duplicate value"
        pairs.add((port["protocol"], number))
        names.add(port.get("name"))
    return None


def families_fault(spec: Json, before: Json) -> str | None:
    families = spec.get("ipFamilies") or before.get("ipFamilies") or ["IPv4"]
    policy = spec.get("ipFamilyPolicy") or before.get("ipFamilyPolicy") or "SingleStack"
    is_known = all(one in FAMILIES for one in families)
    if not is_known or not 1 <= len(families) <= 2 or len(set(families)) != len(families):
        return "spec.ipFamilies: Invalid value"
    if policy not in ("SingleStack", "PreferDualStack", "RequireDualStack"):
        return "spec.ipFamilyPolicy: Unsupported value"
    if before.get("ipFamilies") and families[0] != before["ipFamilies"][0]:
        return "spec.ipFamilies[0]: Invalid value: primary ipFamily can not be changed"
    if len(families) == 2 and policy == "SingleStack":
        return ("spec.ipFamilyPolicy: Invalid value: must be RequireDualStack or PreferDualStack "
                "when multiple 'ipFamilies' are specified")
    spec["ipFamilies"], spec["ipFamilyPolicy"] = list(families), policy
    return None


def type_fault(spec: Json, before: Json, outside: bool) -> str | None:
    if spec.get("externalTrafficPolicy") and not outside:
        return ("spec.externalTrafficPolicy: Invalid value: may only be set for "
                "externally-accessible services")
    if spec.get("externalTrafficPolicy", "Cluster") not in ("Cluster", "Local"):
        return "spec.externalTrafficPolicy: Unsupported value"
    if spec.get("loadBalancerClass") and spec["type"] != "LoadBalancer":
        return "spec.loadBalancerClass: Forbidden: may only be used when `type` is 'LoadBalancer'"
    is_same = spec.get("loadBalancerClass") == before.get("loadBalancerClass")
    if before.get("type") == spec["type"] == "LoadBalancer" and not is_same:
        return "spec.loadBalancerClass: Invalid value: may not change once set"
    selector = spec.get("selector") or {}
    texts = selector.values() if isinstance(selector, dict) else [None]
    if any(not isinstance(text, str) for text in texts):
        return "spec.selector: Invalid value"
    return None


def status_fault(thing: Json) -> str | None:
    """What is wrong with the status that a service is given."""
    ingress = (thing.get("status") or {}).get("loadBalancer", {}).get("ingress") or []
    if ingress and thing["spec"]["type"] != "LoadBalancer":
        return ("status.loadBalancer.ingress: Forbidden: may only be used when `spec.type` is "
                "\"LoadBalancer\"")
    for at, one in enumerate(ingress):
        try:
            ipaddress.ip_address(one.get("ip", "0.0.0.0"))
        except ValueError:
            return (f"status.loadBalancer.ingress[{at}].ip: Invalid value: must be a valid IP "
                    "address")
    return None
