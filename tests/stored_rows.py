"""The worked rows as they are stored: tests/rows.d/PROGRAM/ROW, a folder a row.

row.json    the row's `name` and `words`, the `status` and `stderr` that the program must give,
            and what else tests/rows tells of; a text that is given many times stands here too
stdin       the standard input, as it is given; stdout: the standard output that is wanted
files/NAME  a file that lies where the program runs
talk        in place of both: `->` begins what is given (to the input, or `-> NAME` to that pipe;
            with `closes` it is closed then), `<-` what is wanted before more is given

A byte of an input that is no UTF-8 stands as it is."""
from __future__ import annotations

import json
import pathlib
from collections.abc import Iterator
from typing import Any

ROWS = pathlib.Path(__file__).resolve().parent / "rows.d"
Row = dict[str, Any]


def text_in(file: pathlib.Path) -> str:
    return file.read_bytes().decode(errors="surrogateescape")


def talk_in(text: str) -> list[Row]:
    """The parts of a talk."""
    parts: list[Row] = []
    at = ""
    for line in text.splitlines(keepends=True):
        mark, *rest = line.split()
        if mark == "->" and line.startswith("->"):
            at = "gives"
            parts.append({"gives": "", "wants": ""})
            if rest and rest[-1] == "closes":
                parts[-1]["closes"] = True
                rest.pop()
            if rest:
                parts[-1]["to"] = rest[0]
        elif mark == "<-" and line.startswith("<-"):
            at = "wants"
        else:
            parts[-1][at] += line
    return parts


def row_in(folder: pathlib.Path) -> Row:
    """The row that stands in the folder."""
    row: Row = json.loads((folder / "row.json").read_text())
    for name in ("stdin", "stdout"):
        if (folder / name).exists():
            row[name] = text_in(folder / name)
    if (folder / "talk").exists():
        row["talk"] = talk_in(text_in(folder / "talk"))
    for file in sorted((folder / "files").glob("*")):
        row["files"][file.name] = text_in(file)
    return row


def rows_of(program: str) -> Iterator[Row]:
    """The rows of a program, by the names of their folders."""
    for folder in sorted((ROWS / program).iterdir()):
        yield row_in(folder)


def programs() -> list[str]:
    return sorted(folder.name for folder in ROWS.iterdir() if folder.is_dir())
