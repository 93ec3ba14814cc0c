"""Which edits there are, and when each was last seen refused."""
from __future__ import annotations

import hashlib
from collections.abc import Iterable, Iterator, Mapping
from dataclasses import dataclass
from functools import cache
from pathlib import Path

import across_edits

HEAD = "crate\tedit\tchecksum\tday"
PARTS = ("src", "specs", "proofs")


@dataclass(frozen=True, order=True)
class Edit:
    """An edit of a crate, by their names; `across` stands for the crate of one of several."""

    crate: str
    name: str

    @property
    def is_across(self) -> bool:
        return self.crate == across_edits.FOLDER

    def __str__(self) -> str:
        return f"{self.crate}/{self.name}"


@dataclass(frozen=True)
class Refusal:
    """The checksum of the edit and of what it is tried on when it was last refused, and the day
    (UTC, as 2026-12-01)."""

    checksum: str
    day: str


def edits_below(top: Path) -> dict[Edit, Path]:
    """The edits of the gate and those beside it, with their files, in order."""
    files = [*top.glob("crates/*/must-fail/*.edit"), *top.glob("tests/edits.d/*/*.edit")]
    return dict(sorted((edit_of(top, file), file) for file in files))


def edit_of(top: Path, file: Path) -> Edit:
    """The edit that the file holds."""
    parts = file.relative_to(top).parts
    return Edit(parts[1] if parts[0] == "crates" else parts[2], file.stem)


def crates_of(top: Path, edit: Edit) -> set[str]:
    """The crates that the edit turns, and the one that refuses it."""
    if not edit.is_across:
        return {edit.crate}
    file = top / "tests/edits.d" / across_edits.FOLDER / f"{edit.name}.edit"
    across = across_edits.read_across(file.read_text())
    return across.crates() | {across.refused_by}


def checksum_of(top: Path, crates: Iterable[str]) -> str:
    """A checksum of the crates' code, definitions and proofs."""
    total = hashlib.sha256()
    for file in sorted(it for crate in crates for it in files_of(top / "crates" / crate)):
        total.update(f"{file.relative_to(top).as_posix()}\0".encode())
        total.update(sum_of(file).encode())
    return total.hexdigest()[:16]


@cache
def sum_of(file: Path) -> str:
    return hashlib.sha256(file.read_bytes()).hexdigest()


def checksum_with(top: Path, edit: Edit, file: Path) -> str:
    """A checksum of the edit, which is in this file, and of the crates that it is tried on."""
    sums = (sum_of(file), checksum_of(top, crates_of(top, edit)))
    return hashlib.sha256("".join(sums).encode()).hexdigest()[:16]


def files_of(crate: Path) -> Iterator[Path]:
    for part in PARTS:
        yield from (file for file in (crate / part).rglob("*") if file.is_file())


def read_refusals(file: Path) -> dict[Edit, Refusal]:
    """What the file tells; nothing where there is none. A line that can't be read is left out."""
    if not file.exists():
        return {}
    rows = [line.split("\t") for line in file.read_text().splitlines()[1:]]
    return {Edit(row[0], row[1]): Refusal(row[2], row[3]) for row in rows if len(row) == 4}


def write_refusals(file: Path, refusals: dict[Edit, Refusal]) -> None:
    """Writes them in the order of the edits. The file is replaced as a whole."""
    rows = [
        "\t".join((edit.crate, edit.name, refusal.checksum, refusal.day))
        for edit, refusal in sorted(refusals.items(), key=lambda pair: pair[0])
    ]
    new = file.with_suffix(".new")
    new.write_text("\n".join([HEAD, *rows]) + "\n")
    new.replace(file)


def stale_edits(
    top: Path, edits: Mapping[Edit, Path], refusals: Mapping[Edit, Refusal]
) -> dict[Edit, str]:
    """The edits that weren't seen refused since they or their crates changed, each with the day of
    the last refusal, or `never`."""
    found: dict[Edit, str] = {}
    for edit, file in edits.items():
        refusal = refusals.get(edit)
        if refusal is None:
            found[edit] = "never"
        elif refusal.checksum != checksum_with(top, edit, file):
            found[edit] = refusal.day
    return found
