"""The command line: which kinds are measured, and the verdict."""
from __future__ import annotations

import argparse
import pathlib
import tempfile

import floor_program
import over_lanes as lanes
from measuring import Asked, judge
from stream_kinds import KINDS


def main(words: list[str], about: str) -> int:
    ask = argparse.ArgumentParser(prog="python3 tests/figures", description=about,
                                  formatter_class=argparse.RawDescriptionHelpFormatter)
    ask.add_argument("--kind", choices=[*KINDS, *lanes.KINDS], action="append")
    ask.add_argument("--runs", type=int, default=3)
    ask.add_argument("--seconds", type=float, default=600)
    ask.add_argument("--list", action="store_true", help="tell the kinds, and run none")
    asked = ask.parse_args(words)
    if asked.list:
        for name, kind in KINDS.items():
            print(f"{name}: {kind.what}")
        print(*lanes.KINDS, sep="\n")
        return 0
    with tempfile.TemporaryDirectory() as folder:
        floor = floor_program.build(pathlib.Path(folder))
        if floor is None:
            print("no floor: cargo or librust-serde-json-dev isn't there", flush=True)
        how = Asked(asked.runs, asked.seconds, floor)
        within = True
        for name in asked.kind or [*KINDS, *lanes.KINDS]:
            ok = lanes.KINDS[name]() if name in lanes.KINDS else judge(name, KINDS[name], how)
            within = within and ok
    return 0 if within else 1
