"""Where the API server is and how it is known: by the words, a kubeconfig, or as a pod is told."""
import base64
import json
import os
import re
import tempfile
from dataclasses import dataclass
from typing import Any

ACCOUNT = "/var/run/secrets/kubernetes.io/serviceaccount"
PROXY = "http://127.0.0.1:8001"  # as `kubectl proxy` serves it
SCALAR = re.compile(r"""(?:"((?:[^"\\]|\\.)*)"|'((?:[^']|'')*)'"""
                    r"""|([^\s"'\[{&*!|>%@`#-].*?|-\S.*?))?(?:\s+#.*)?$""")
ENTRY = re.compile(r"""(?:"([^"\\]*)"|'([^']*)'|([^\s"'\[{&*!|>%@`#?-][^:#]*?)):(?:\s+(.*))?$""")


class NotRead(ValueError):
    """A kubeconfig that isn't read, and why."""


@dataclass
class Reached:
    """The files are those of the certificates that the server is known by, of a token, and of a
    client's certificate and its key."""
    server: str
    trust: str | None = None
    token: str | None = None
    certificate: str | None = None
    key: str | None = None


def in_pod() -> Reached | None:
    """As a pod is told it."""
    host = os.environ.get("KUBERNETES_SERVICE_HOST")
    port = os.environ.get("KUBERNETES_SERVICE_PORT")
    if not host:
        return None
    host = f"[{host}]" if ":" in host else host
    return Reached(f"https://{host}:{port or 443}", f"{ACCOUNT}/ca.crt", f"{ACCOUNT}/token")


# So much of YAML as kubeconfigs are written in: mappings and lists, each entry on a line of its own

def scalar(text: str) -> object:
    found = SCALAR.match(text.strip())
    if not found:
        raise NotRead(f"{text.strip()[:60]!r} isn't read")
    double, single, plain = found.groups()
    if double is not None:
        return json.loads(f'"{double}"')
    if single is not None:
        return single.replace("''", "'")
    words: dict[str | None, object] = {None: None, "null": None, "~": None, "true": True,
                                       "false": False, "{}": {}, "[]": []}
    return words.get(plain, plain)


class Block:
    """The lines of a text, each with its indentation, without comments and empty ones."""

    def __init__(self, text: str) -> None:
        lines = [line.rstrip() for line in text.splitlines()]
        if any("\t" in line for line in lines):
            raise NotRead("a tab isn't read")
        self.lines = [(len(line) - len(line.lstrip()), line.lstrip()) for line in lines
                      if line.strip() and not line.lstrip().startswith("#") and line != "---"]
        self.at = 0

    def indent(self) -> int:
        return self.lines[self.at][0] if self.at < len(self.lines) else -1

    def value(self, least: int) -> object:
        """The value that begins on the next line, which is indented so far at least."""
        indent = self.indent()
        if indent < least:
            return None
        return self.items(indent) if self.lines[self.at][1].startswith("- ") else self.map(indent)

    def items(self, indent: int) -> list[object]:
        found: list[object] = []
        while self.indent() == indent and self.lines[self.at][1].startswith("- "):
            text = self.lines[self.at][1][2:]
            inside = indent + 2 + len(text) - len(text.lstrip())
            if ENTRY.match(text.lstrip()):
                self.lines[self.at] = inside, text.lstrip()
                found.append(self.map(inside))
            else:
                self.at += 1
                found.append(scalar(text))
        return found

    def map(self, indent: int) -> dict[str, object]:
        found: dict[str, object] = {}
        while self.indent() == indent and not self.lines[self.at][1].startswith("- "):
            entry = ENTRY.match(self.lines[self.at][1])
            if not entry:
                raise NotRead(f"{self.lines[self.at][1][:60]!r} isn't read")
            double, single, plain, rest = entry.groups()
            name = next(part for part in (double, single, plain) if part is not None)
            self.at += 1
            if rest and rest.strip() in ("{}", "[]"):
                found[name] = {} if rest.strip() == "{}" else []
            elif rest and not rest.startswith("#"):
                found[name] = scalar(rest)
            else:  # a list may stand as far to the left as its name
                is_list = self.indent() == indent and self.lines[self.at][1].startswith("- ")
                found[name] = self.value(indent if is_list else indent + 1)
        if self.indent() > indent:
            raise NotRead(f"{self.lines[self.at][1][:60]!r} isn't read")
        return found


def yaml_of(text: str) -> object:
    """The value of a text in JSON, or in so much of YAML as kubeconfigs are written in."""
    if text.lstrip().startswith("{"):
        return json.loads(text)
    block = Block(text)
    value = block.value(0)
    if block.at < len(block.lines):
        raise NotRead(f"{block.lines[block.at][1][:60]!r} isn't read")
    return value


class Kubeconfig:
    """A file as kubectl has it. Data that stands in it goes to files of this folder."""

    def __init__(self, path: str) -> None:
        self.path, self.folder = path, os.path.dirname(os.path.abspath(path))
        with open(path, encoding="utf-8") as file:
            value = yaml_of(file.read())
        if not isinstance(value, dict):
            raise NotRead("it is no mapping")
        self.value: dict[str, Any] = value

    def named(self, plural: str, singular: str, name: object) -> dict[str, Any]:
        for one in self.value.get(plural) or []:
            if one.get("name") == name:
                return dict(one.get(singular) or {})
        raise NotRead(f"no {singular} is called {name}")

    def file_of(self, part: dict[str, Any], name: str, kept: str) -> str | None:
        """The file of a member, or one with the member's data."""
        if part.get(name + "-data"):
            octets = base64.b64decode(part[name + "-data"])
        elif part.get(name):
            return os.path.join(self.folder, str(part[name]))
        else:
            return None
        return written(kept, name, octets)

    def reached(self, kept: str, context: str | None = None) -> Reached:
        """How the server of a context is reached, of the current one where none is named. `kept`
        is a folder for data of the file."""
        chosen = self.named("contexts", "context", context or self.value.get("current-context"))
        cluster = self.named("clusters", "cluster", chosen.get("cluster"))
        user = self.named("users", "user", chosen.get("user")) if chosen.get("user") else {}
        for part, names in ((cluster, ("insecure-skip-tls-verify", "proxy-url", "tls-server-name")),
                            (user, ("exec", "auth-provider", "username"))):
            for name in names:
                if part.get(name):
                    raise NotRead(f"{name} isn't served; `kubectl proxy` serves it, at {PROXY}")
        token = user.get("tokenFile") and os.path.join(self.folder, str(user["tokenFile"]))
        if user.get("token"):
            token = written(kept, "token", str(user["token"]).encode())
        trust = self.file_of(cluster, "certificate-authority", kept)
        return Reached(str(cluster["server"]), trust, token,
                       self.file_of(user, "client-certificate", kept),
                       self.file_of(user, "client-key", kept))


def written(folder: str, name: str, octets: bytes) -> str:
    """A file with these octets, which nobody else reads."""
    end, path = tempfile.mkstemp(prefix=name + "-", dir=folder)
    with open(end, "wb") as file:
        file.write(octets)
    return path
