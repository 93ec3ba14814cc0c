"""What a BGPPeer and a BFDProfile ask of a session, and what of it isn't done."""
from __future__ import annotations

import re
from collections.abc import Mapping
from dataclasses import dataclass
from typing import Any

Spec = Mapping[str, Any]
PORT, HOLD = 179, 90
# What a BGPPeer may say that is done: by the session, by the program, or by what holds anyway.
# ebgpMultiHop: what is sent has a TTL of 255 in any case. dualStackAddressFamily: each session has
# both families where the peer takes both.
SERVED = frozenset({
    "bfdProfile", "connectTime", "dualStackAddressFamily", "ebgpMultiHop", "enableGracefulRestart",
    "holdTime", "keepaliveTime", "myASN", "nodeSelectors", "password", "passwordSecret", "peerASN",
    "peerAddress", "peerPort", "routerID", "sourceAddress"})
PROFILE_SERVED = frozenset({
    "detectMultiplier", "minimumTtl", "passiveMode", "receiveInterval", "transmitInterval"})
UNITS = {"h": 3600.0, "m": 60.0, "s": 1.0, "ms": 1e-3, "us": 1e-6, "µs": 1e-6, "ns": 1e-9}
TERM = re.compile(r"([0-9]*\.?[0-9]+)(h|ms|m|s|us|µs|ns)")


def seconds_of(text: object) -> float:
    """A duration as Kubernetes writes it (Go's time.ParseDuration), such as 90s or 1m30s. Another
    text raises ValueError."""
    if text in ("0", 0):
        return 0.0
    if not isinstance(text, str) or not text or TERM.sub("", text):
        raise ValueError(f"{text!r} is no duration")
    return sum(float(number) * UNITS[unit] for number, unit in TERM.findall(text))


def unserved(spec: Spec, served: frozenset[str]) -> list[str]:
    """The names of what is asked for and isn't done."""
    return sorted(name for name, value in spec.items() if value and name not in served)


@dataclass(frozen=True)
class Settings:
    """A session as a BGPPeer asks for it, with times in seconds. `pause`: between two KEEPALIVEs,
    a third of the hold time where none is asked for. `retry`: until it is tried again."""
    address: str
    port: int
    source: str
    own_number: int
    number: int
    identifier: str
    hold: int
    pause: float | None
    retry: float
    password: bytes
    secret: tuple[str, str | None] | None
    profile: str
    keeps: bool  # the peer is to keep the routes while there's no session (RFC 4724)
    multihop: bool

    @classmethod
    def of(cls, spec: Spec, identifier: str, retry: float) -> Settings:
        """`identifier` and `retry` are those of a peer that asks for none."""
        secret = spec.get("passwordSecret") or {}
        pause, connect = spec.get("keepaliveTime"), spec.get("connectTime")
        hold = spec.get("holdTime")
        return cls(
            address=str(spec.get("peerAddress") or ""),
            port=int(spec.get("peerPort") or PORT),
            source=str(spec.get("sourceAddress") or ""),
            own_number=int(spec["myASN"]),
            number=int(spec["peerASN"]),
            identifier=str(spec.get("routerID") or identifier),
            hold=HOLD if hold is None else int(seconds_of(hold)),
            pause=seconds_of(pause) or None if pause else None,
            retry=seconds_of(connect) or retry if connect else retry,
            password=str(spec.get("password") or "").encode(),
            secret=(secret["name"], secret.get("namespace")) if secret.get("name") else None,
            profile=str(spec.get("bfdProfile") or ""),
            keeps=bool(spec.get("enableGracefulRestart")),
            multihop=bool(spec.get("ebgpMultiHop")))
