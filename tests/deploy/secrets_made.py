"""deploy/secrets, by a kubectl that keeps what it is asked for."""
import base64
import json
import os
import pathlib
import subprocess

from judging import Tally
from small_cluster import TOP

KUBECTL = '''#!/bin/sh
printf '%s\\n' "$*" >> "$KEPT/asked"
case "$*" in
    *"get secret memberlist"*) test -e "$KEPT/key" ;;
    *"create secret generic memberlist"*) touch "$KEPT/key" ;;
    *"caBundle}"*) cat "$KEPT/bundle" 2>/dev/null ;;
    *"name}"*) printf 'one two' ;;
    *"patch "*) for word; do last=$word; done; printf '%s' "$last" > "$KEPT/patch" ;;
    *"create secret tls"*) cat tls.crt tls.key ;;
    *"apply -f secret.yaml"*) cp secret.yaml "$KEPT/secret" ;;
    *) exit 9 ;;
esac
'''


def authorities(text: str) -> int:
    return text.count("BEGIN CERTIFICATE")


def made(folder: pathlib.Path) -> tuple[int, list[str]]:
    """The status of deploy/secrets, and what it asked of kubectl."""
    path = f"{folder}:{os.environ['PATH']}"
    (folder / "asked").write_text("")
    ran = subprocess.run([TOP / "deploy/secrets"], capture_output=True, check=False,
                         env={**os.environ, "PATH": path, "KEPT": str(folder)})
    return ran.returncode, (folder / "asked").read_text().splitlines()


def bundles(folder: pathlib.Path) -> list[str]:
    return [base64.b64decode(part["value"]).decode()
            for part in json.loads((folder / "patch").read_text())]


def try_secrets(tally: Tally, folder: pathlib.Path) -> None:
    folder = folder / "secrets"
    folder.mkdir()
    (folder / "kubectl").write_text(KUBECTL)
    (folder / "kubectl").chmod(0o755)
    status, asked = made(folder)
    first = bundles(folder)
    tally.check("the secrets are made", status == 0 and (folder / "key").exists(), asked)
    tally.check("each webhook is told the authority", len(first) == 2 and len(set(first)) == 1
                and authorities(first[0]) == 1, first)
    patched, applied = ([at for at, line in enumerate(asked) if word in line][0]
                        for word in ("patch ", "apply -f"))
    tally.check("ahead of its certificate being shown", patched < applied, asked)
    (folder / "bundle").write_text(base64.b64encode(first[0].encode()).decode())
    status, asked = made(folder)
    second = bundles(folder)
    tally.check("again, the heartbeats' key stays", status == 0 and not any(
        "create secret generic" in line for line in asked), asked)
    tally.check("and both authorities count", authorities(second[0]) == 2
                and second[0].endswith(first[0]), second)
    (folder / "bundle").write_text(base64.b64encode(second[0].encode()).decode())
    made(folder)
    third = bundles(folder)[0]
    tally.check("but none before those", authorities(third) == 2 and first[0] not in third)
