"""Places to try edits in: some crates have their text there, and those below them their libraries.

`rt ci` leaves the library of each crate that it proved in crates/CRATE/out/rlib, without the stamp
by which other commands of rt know that a library is of its crate's text: to them it is none, and
they prove all below a crate once more. In a place the libraries have stamps. For that one must be
no older than the files of its crate and of those below, as it is after a gate that passed."""
from __future__ import annotations

import os
import shutil
import subprocess
import sys
from collections.abc import Iterable, Mapping, Sequence
from dataclasses import dataclass
from functools import cache
from pathlib import Path

from across_edits import ROW, below, crates_in
from edit_records import PARTS, checksum_of, files_of

LIST = "crates.txt"
# Writes beside each library the stamp that rt looks for. A crate of which there is a library alone
# has no text in the place, so its stamp is one of no text.
STAMPING = """import os, sys
sys.path.insert(0, sys.argv[1])
import rtlib
for crate in rtlib.crates_below(sys.argv[2]):
    if os.path.isdir(crate.rlib):
        with open(os.path.join(os.path.dirname(crate.rlib), "stamp"), "w") as file:
            file.write(crate.stamp())
"""


class NoLibrary(Exception):
    """A library isn't there, or older than a text that it is made of."""


@dataclass(frozen=True)
class Checkout:
    """A checkout of the repository; `uses` has each crate, with the libraries that it names. The
    libraries stand in `gate`: in the same checkout, or in another one where a gate ran."""

    top: Path
    gate: Path
    uses: Mapping[str, Sequence[str]]

    def library(self, crate: str) -> Path:
        return library_in(self.gate, crate)

    def require(self, crates: Iterable[str]) -> None:
        """Raises NoLibrary where one of these crates has no library of its text."""
        for crate in sorted(crates):
            made = self.library(crate) / "format"
            if not made.is_file():
                raise NoLibrary(f"{crate} has no library: a gate that passed leaves one")
            for low in sorted({crate, *below(crate, self.uses)}):
                if last_change(self.gate, low) > made.stat().st_mtime:
                    raise NoLibrary(f"{low} changed after the library of {crate} was made")
                if not is_same(self.top, self.gate, low):
                    raise NoLibrary(f"{low} isn't as where the library of {crate} was made")


def library_in(top: Path, crate: str) -> Path:
    """Where rt has the crate's library."""
    return top / "crates" / crate / "out/rlib" / f"{crate}.rlib"


@cache
def last_change(top: Path, crate: str) -> float:
    """When a file of the crate changed last, in seconds."""
    return max(file.stat().st_mtime for file in files_of(top / "crates" / crate))


@cache
def is_same(top: Path, other: Path, crate: str) -> bool:
    """Whether both checkouts have the same text of the crate."""
    return top == other or checksum_of(top, [crate]) == checksum_of(other, [crate])


def checkout_of(top: Path, gate: Path) -> Checkout:
    return Checkout(top, gate, crates_in((top / LIST).read_text()))


def kit() -> Path:
    """The folder of rt and of the module that it is made of."""
    found = shutil.which("rt")
    if found is None:
        raise NoLibrary("rt isn't installed")
    return Path(found).resolve().parent


def link(source: str, target: str) -> None:
    """The same file once more, or a copy where the folders are of two file systems."""
    try:
        os.link(source, target)
    except OSError:
        shutil.copy2(source, target)


def lay_out(checkout: Checkout, crates: set[str], place: Path) -> None:
    """Makes a place of the folder, in which these crates have their text."""
    low = {it for crate in crates for it in below(crate, checkout.uses)} - crates
    checkout.require(crates | low)
    for crate in crates:
        for part in PARTS:
            if (checkout.top / "crates" / crate / part).is_dir():
                shutil.copytree(checkout.top / "crates" / crate / part,
                                place / "crates" / crate / part)
    for crate in low:
        (place / "crates" / crate / "src").mkdir(parents=True)
        shutil.copytree(checkout.library(crate), library_in(place, crate), copy_function=link)
    rows = ROW.finditer((checkout.top / LIST).read_text())
    (place / LIST).write_text("".join(f"{it[0]}\n" for it in rows if it[1] in crates | low))
    words = [sys.executable, "-B", "-c", STAMPING, str(kit()), str(place)]
    ran = subprocess.run(words, capture_output=True, text=True, check=False)
    if ran.returncode:
        raise NoLibrary(f"no stamps: {ran.stderr.strip()}")
