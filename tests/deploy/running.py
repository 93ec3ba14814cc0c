"""Bridges as processes, and what they answer by HTTP."""
import http.client
import json
import pathlib
import socket
import ssl
import subprocess
import sys
from typing import Any

from small_cluster import TOP, Thing


class Bridge:
    """A bridge with its log; `inside`: a root that it runs in."""

    def __init__(self, folder: pathlib.Path, name: str, *words: object,
                 inside: pathlib.Path | None = None) -> None:
        self.log, self.words = folder / f"{name}.log", words[1:]
        command: list[object] = [sys.executable, "-B", TOP / "bridge"]
        if inside:
            command = ["chroot", inside, "/usr/bin/python3.11", "-B", "/bridge"]
        with self.log.open("wb") as log:
            self.process = subprocess.Popen([str(word) for word in (*command, *words)], stderr=log)

    def told(self) -> str:
        return self.log.read_text(errors="replace")

    def stop(self) -> int:
        self.process.terminate()
        return self.process.wait(20)


def free_port() -> int:
    with socket.create_server(("127.0.0.1", 0)) as made:
        return int(made.getsockname()[1])


def got(port: int, path: str) -> tuple[int, str]:
    """The status and the text at a path, or 0 where nobody answers."""
    try:
        asked = http.client.HTTPConnection("127.0.0.1", port, timeout=5)
        asked.request("GET", path)
        answer = asked.getresponse()
        return answer.status, answer.read().decode()
    except OSError:
        return 0, ""


class Reviews:
    """Reviews of changes, asked for by HTTPS."""

    def __init__(self, port: int, trust: pathlib.Path) -> None:
        self.port, self.trust = port, trust

    def ask(self, operation: str, thing: Thing | None = None, old: Thing | None = None,
            data: bytes | None = None) -> Thing | int:
        """The response, or the status where it isn't 200."""
        namespace = ((thing or old or {}).get("metadata") or {}).get("namespace")
        request: Thing = {"uid": "u", "operation": operation, "object": thing, "oldObject": old,
                          **({"namespace": namespace} if namespace else {})}
        body = {"apiVersion": "admission.k8s.io/v1", "kind": "AdmissionReview", "request": request}
        context = ssl.create_default_context(cafile=str(self.trust))
        asked = http.client.HTTPSConnection("localhost", self.port, timeout=15, context=context)
        asked.request("POST", "/?timeout=10s", data or json.dumps(body),
                      {"Content-Type": "application/json"})
        answer = asked.getresponse()
        text = answer.read()
        if answer.status != 200:
            return answer.status
        response: Thing = json.loads(text)["response"]
        return response

    def verdict(self, operation: str, thing: Thing | None = None, **named: Any) -> Any:
        """True, or why the change isn't allowed."""
        response = self.ask(operation, thing, **named)
        if isinstance(response, int):
            return response
        assert response["uid"] == "u"
        return bool(response["allowed"]) or response["status"]["message"]
