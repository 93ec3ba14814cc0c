"""Edits across crates: rules of several crates turned together, and the crate that refuses them.

Such an edit is a file of tests/edits.d/across. It names the crate that must refuse it and the law
that it makes false, and then, as the edits of one crate do, the files that it turns and pairs of an
old text and a new one, each on one line and in its file once:

    refused-by: CRATE
    law: LAW
    file: crates/CRATE/specs/File.antt
    old: TEXT
    new: TEXT

Every other crate that it turns must be proved with it: what is refused lower says nothing of the
law. So it turns no crate that stands on the one that refuses it."""
from __future__ import annotations

import re
from collections.abc import Callable, Mapping, Sequence
from dataclasses import dataclass
from pathlib import Path

FOLDER = "across"
ROW = re.compile(r"(?m)^(\w+)[^:\n]*:(.*)$")
STATED = re.compile(r"(?m)^(refused-by|law): (\w+)$")
UNREAD = re.compile(r"(?:\./)?specs/\S+:\d+:\d+: error")
PLACED = re.compile(r"(?m)^(file|old|new):(?: (.*))?$")


class BadEdit(Exception):
    """The edit says something that isn't so."""


@dataclass(frozen=True)
class Replacement:
    """A text that stands once in a file, and what takes its place."""

    file: Path
    old: str
    new: str

    def in_place(self, text: str) -> str:
        if text.count(self.old) != 1:
            raise BadEdit(f"the old text doesn't stand once in {self.file}: {self.old.strip()}")
        return text.replace(self.old, self.new)


@dataclass(frozen=True)
class AcrossEdit:
    """An edit of several crates, as its file states it."""

    refused_by: str
    law: str
    replacements: tuple[Replacement, ...]

    def crates(self) -> set[str]:
        """Those that it turns."""
        return {it.file.parts[1] for it in self.replacements}

    def texts(self, read: Callable[[Path], str]) -> dict[Path, str]:
        """The files that it turns, each as it is then."""
        texts: dict[Path, str] = {}
        for it in self.replacements:
            texts[it.file] = it.in_place(texts[it.file] if it.file in texts else read(it.file))
        return texts


def read_across(text: str) -> AcrossEdit:
    """The edit that the text of a file states."""
    stated = dict(STATED.findall(text))
    if set(stated) != {"refused-by", "law"}:
        raise BadEdit("it doesn't say which crate refuses it and which law")
    replacements: list[Replacement] = []
    file, old = None, None
    for word, said in PLACED.findall(text):
        if word == "file":
            file = Path(said)
        elif word == "old":
            old = said
        elif file is None or not old:
            raise BadEdit("a new text stands behind no file and old text")
        else:
            replacements.append(Replacement(file, old, said))
            old = None
    if not replacements:
        raise BadEdit("it turns nothing")
    return AcrossEdit(stated["refused-by"], stated["law"], tuple(replacements))


def crates_in(text: str) -> dict[str, list[str]]:
    """What crates.txt says: each crate, with those that it names."""
    return {name: low.split() for name, low in ROW.findall(text)}


def below(crate: str, crates: Mapping[str, Sequence[str]]) -> set[str]:
    """The crates that it stands on, directly or through others."""
    found: set[str] = set()
    left = [crate]
    while left:
        more = {low for low in crates[left.pop()] if low in crates} - found
        found |= more
        left += more
    return found


def in_turn(some: set[str], crates: Mapping[str, Sequence[str]]) -> list[str]:
    """These crates, each after those of them that it stands on."""
    return sorted(some, key=lambda it: (len(below(it, crates)), it))


def in_order(edit: AcrossEdit, crates: Mapping[str, Sequence[str]]) -> list[str]:
    """The crates that are checked with the edit, each after those below it; the last refuses.
    Those that stand between the ones that are turned and that one are proved anew over these."""
    turned, last = edit.crates(), edit.refused_by
    for crate in sorted({*turned, last}):
        if crate not in crates:
            raise BadEdit(f"there is no crate {crate}")
        if last in below(crate, crates):
            raise BadEdit(f"{crate} stands on {last}, which refuses the edit")
    low = below(last, crates)
    if last not in turned and not turned & low:
        raise BadEdit(f"{last} stands on nothing that is turned")
    checked = turned | {it for it in low if turned & below(it, crates)}
    return [*in_turn(checked - {last}, crates), last]


def is_proved(lines: Sequence[str]) -> bool:
    """Whether a check of a crate says that it is proved."""
    return any(line.startswith("logic=proved ") for line in lines)


def is_refused(lines: Sequence[str]) -> bool:
    """Whether it says that the crate isn't; one that didn't come so far says neither."""
    return any(line.startswith("logic=not-proved") for line in lines)


def unread(lines: Sequence[str]) -> str | None:
    """The first definition that can't be read: then no law was tried."""
    return next((line for line in lines if UNREAD.match(line)), None)


def first_error(lines: Sequence[str]) -> str:
    """The first error that is told, or its beginning."""
    return next((line[:160] for line in lines if ": error" in line), "no error is told")
