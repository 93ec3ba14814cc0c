"""The fields of MetalLB's API reference that no program reads: those that the bridge serves, and
those that nobody does. The others stand in the tables of docs/OPERATING.md."""
from typing import Any

Schema = dict[str, Any]


def told(description: str, **schema: Any) -> Schema:
    """A field's schema and what is said of it."""
    return {"type": "string", **schema, "description": description}


def switch(description: str) -> Schema:
    return told(description, type="boolean")


def number(low: int, high: int, description: str) -> Schema:
    return told(description, type="integer", minimum=low, maximum=high)


def duration(description: str) -> Schema:
    return told(description, pattern=r"^([0-9]+(\.[0-9]+)?(h|m|s|ms))+$")


SECRET = {"name": {"type": "string"}, "namespace": {"type": "string"}}
# What no program reads and the bridge serves.
SERVED: dict[str, dict[str, Schema]] = {
    "BGPPeer": {
        "peerAddress": told("the peer's address"),
        "peerPort": number(0, 65535, "its port; 0: 179"),
        "sourceAddress": told("the own address of the session"),
        "routerID": told("the own BGP identifier"),
        "holdTime": duration("90s, where it isn't there"),
        "keepaliveTime": duration("a third of the hold time, where it isn't there"),
        "connectTime": duration("until a session is tried again"),
        "password": told("by which the kernel signs segments (RFC 2385)", maxLength=80),
        "passwordSecret": told("a Secret that has it", type="object", properties=SECRET),
        "bfdProfile": told("the BFDProfile by which the path is watched"),
        "ebgpMultiHop": switch("the peer may be behind routers"),
        "dualStackAddressFamily": switch("nothing: sessions have both families in any case"),
        "enableGracefulRestart": switch("the peer is to keep routes over a restart"),
    },
    "BFDProfile": {
        "receiveInterval": number(10, 60000, "milliseconds; 300, where it isn't there"),
        "transmitInterval": number(10, 60000, "milliseconds; 300, where it isn't there"),
        "detectMultiplier": number(2, 255, "3, where it isn't there"),
        "passiveMode": switch("packets are sent once one came"),
        "echoInterval": number(10, 60000, "nothing: there is no echo"),
        "minimumTtl": number(1, 254, "the least TTL of what comes over routers"),
    },
}

# What MetalLB's API reference has and nobody serves. Were it passed by, more would be announced
# than was asked for, or to others.
NOT_SERVED = {
    "L2Advertisement": {"serviceSelectors": "list"},
    "BGPAdvertisement": {"serviceSelectors": "list"},
    "BGPPeer": {"disableMP": "switch", "dynamicASN": "text", "interface": "text", "vrf": "text"},
    "BFDProfile": {"echoMode": "switch"},
}
