"""The floor that programs are measured against: a Rust program that reads each line by serde_json
(Debian packages cargo and librust-serde-json-dev), built into the folder that is named."""
from __future__ import annotations

import pathlib
import shutil
import subprocess

SOURCE = pathlib.Path(__file__).resolve().parent / "floor/main.rs"
REGISTRY = pathlib.Path("/usr/share/cargo/registry")
MANIFEST = """[package]
name = "floor"
version = "0.0.0"
edition = "2021"

[dependencies]
serde_json = "1"

[profile.release]
opt-level = 3
"""
CONFIG = f"""[source.crates-io]
replace-with = "debian"

[source.debian]
directory = "{REGISTRY}"
"""


def build(folder: pathlib.Path) -> pathlib.Path | None:
    """The program, or None where cargo or the packages aren't there."""
    if shutil.which("cargo") is None or not list(REGISTRY.glob("serde_json-*")):
        return None
    (folder / "src").mkdir(parents=True, exist_ok=True)
    (folder / ".cargo").mkdir(exist_ok=True)
    shutil.copy(SOURCE, folder / "src/main.rs")
    (folder / "Cargo.toml").write_text(MANIFEST)
    (folder / ".cargo/config.toml").write_text(CONFIG)
    ran = subprocess.run(
        ["cargo", "build", "--release", "--offline", "--quiet"],
        cwd=folder, capture_output=True, text=True,
    )
    if ran.returncode:
        raise RuntimeError(ran.stderr)
    return folder / "target/release/floor"
