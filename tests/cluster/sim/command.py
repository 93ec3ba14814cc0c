"""What the words of `python3 tests/cluster/sim` ask for: seeds, a history, a shrunk one, planted
faults, or the checks of hashes."""
import argparse
import collections
import gc
import importlib
import importlib.util
import itertools
import json
import os
import pathlib
import select
import signal
import sys
import tempfile
import time
import traceback
from collections.abc import Callable, Iterable, Iterator, Sequence
from dataclasses import asdict, replace
from functools import partial
from typing import IO, TYPE_CHECKING, Any, TextIO

HERE = pathlib.Path(__file__).resolve().parent
TOP = HERE.parents[2]
if TYPE_CHECKING:
    from history import Asked, Result

SALTS, FEW = 6, 40  # with how many salts a history of fewer troubles than so many is tried
HASHES, SEEDS = HERE / "hashes.json", HERE / "planted.json"
PYTHON = f"{sys.version_info.major}.{sys.version_info.minor}"  # another's asyncio has other steps
WRITTEN = sorted((HERE / "histories.d").glob("*.json"))
CHECKED = (("one", 1), ("failover", 2), ("pair", 3), ("three", 4), ("speakers", 5), ("speakers", 6))
CHECKED_SECONDS = 60.0
HANGS = 150.0  # seconds of the processor after which a history counts as one that never ends
AT_THE_END = ("UNSETTLED", "ENDED")  # what is told once a history is over
BEHIND = 200.0  # seconds after a difference up to which a history is shrunk
MODES = ("failover", "pair", "one", "three")
VIRTUAL, SHORT = 15.0, 5.0  # minutes of a history's troubles
LEAST = 1e-9  # minutes of the processor for one history
EACH = 300.0  # seconds of the clock, until it is told again how far it came


def names(text: str) -> tuple[str, ...]:
    return tuple(one for one in text.split(",") if one)


def words(given: Sequence[str]) -> argparse.Namespace:
    ask = argparse.ArgumentParser(description="Histories of a small cluster in virtual time.")
    ask.add_argument("--seed", type=int, default=1)
    ask.add_argument("--minutes", type=float, default=1.0, help="of the clock (%(default)s)")
    ask.add_argument("--processor", type=float, metavar="MINUTES",
                     help="so many minutes of the processor in place of those of the clock")
    ask.add_argument("--histories", type=int, help="so many in place of so many minutes")
    ask.add_argument("--jobs", type=int, default=1, help="processes at a time (%(default)s)")
    ask.add_argument("--mode", choices=(*MODES, "all", "speakers"), default="all",
                     help="who starts controllers' bridges, see operators.py; of `all` by the "
                          "seed; `speakers`: nodes with speakers in their place")
    ask.add_argument("--kinds", type=names, help="the kinds of troubles (all); see troubles.py")
    ask.add_argument("--without", type=names, default=(), help="faults of requests that don't come")
    ask.add_argument("--virtual", type=float, metavar="MINUTES",
                     help=f"minutes of troubles ({VIRTUAL:.0f}; with --planted {SHORT:.0f})")
    ask.add_argument("--controller", default=str(TOP / "crates/mlb_controller/out/mlb_controller"))
    ask.add_argument("--speaker", default=str(TOP / "crates/mlb_speaker/out/mlb_speaker"))
    ask.add_argument("--bridge", default=str(TOP / "bridge"))
    ask.add_argument("--trace", metavar="FILE", help="keeps what is noted")
    ask.add_argument("--only", type=names, help="the numbers of the troubles that come")
    ask.add_argument("--salt", type=int, default=0,
                     help="another one has the same troubles come to other ends")
    ask.add_argument("--shrink", metavar="FILE", help="writes the shortest history found")
    ask.add_argument("--history", metavar="FILE", help="runs that one")
    ask.add_argument("--planted", nargs="?", const="all", type=names, metavar="NAME,..")
    ask.add_argument("--built", metavar="FOLDER", help="programs that tests/cluster/faults/build "
                     "made, with an edit of their own code: planted too")
    ask.add_argument("--check", action="store_true", help="compares hashes")
    ask.add_argument("--renew", action="store_true", help="writes them anew")
    ask.add_argument("--verbose", action="store_true")
    ask.add_argument("--stop", action="store_true", help="end at the first difference")
    options = ask.parse_args(given)
    options.virtual = options.virtual or (SHORT if options.planted else VIRTUAL)
    return options


def begun(work: Callable[[], object]) -> tuple[int, IO[str]]:
    """A process of its own that does the work, and where its outcome is read, as JSON."""
    ours, theirs = os.pipe()
    sys.stdout.flush()
    if child := os.fork():
        os.close(theirs)
        return child, open(ours)
    os.close(ours)
    status = 1
    try:
        outcome = work()
        with open(theirs, "w") as file:
            json.dump(outcome, file)
        status = 0
    except BaseException:
        traceback.print_exc()
    finally:
        sys.stderr.flush()
        os._exit(status)


def outcome_of(pid: int, file: IO[str]) -> Any:
    with file:
        outcome = json.load(file)
    os.waitpid(pid, 0)
    return outcome


class Runner:
    """Runs histories with one bridge and the programs of a folder, each in a process of its own, so
    that nothing is left of the one before. `plant` is the name of a fault."""

    def __init__(self, options: argparse.Namespace, bridge: str, plant: str | None = None) -> None:
        self.bridge, self.plant = bridge, plant
        self.controller, self.speaker = options.controller, options.speaker
        for module in ("controller", "speaker", "history", "operators", "planted",
                       "speaker_history", "allowed"):
            importlib.import_module(module)

    def each(self, asked: Iterable["Asked"], jobs: int = 1,
             trace: str | None = None) -> Iterator["Result"]:
        """What came of each, in the order in which they end."""
        from history import Result
        left, running = iter(asked), dict[IO[str], int]()
        try:
            while True:
                while len(running) < jobs and (one := next(left, None)):
                    pid, file = begun(partial(self.outcome, one, trace))
                    running[file] = pid
                if not running:
                    return
                for file in select.select(list(running), [], [])[0]:
                    yield Result(**outcome_of(running.pop(file), file))
        finally:
            for file, pid in running.items():
                file.close()
                os.waitpid(pid, 0)

    def one(self, asked: "Asked", trace: str | None = None) -> "Result":
        return next(self.each([asked], 1, trace))

    def outcome(self, asked: "Asked", trace: str | None) -> dict[str, Any]:
        from history import Result
        from lockstep import Stuck
        signal.signal(signal.SIGVTALRM, hangs)
        signal.setitimer(signal.ITIMER_VIRTUAL, HANGS)
        try:
            told = self.run(asked, trace)
        except Stuck as fault:
            told = Result(asked.seed, [f"PROGRAM {fault}"])
        except BaseException as fault:
            wrong = [f"SIMULATION {fault!r}", traceback.format_exc()]
            told = Result(asked.seed, wrong)
        told.processor, told.name = sum(os.times()[:4]), asked.name
        return asdict(told)

    def run(self, asked: "Asked", trace: str | None) -> "Result":
        gc.disable()
        with open(trace or os.devnull, "w") as file:
            keeps = file if trace else None
            if asked.mode == "speakers":
                return self.of_speakers(asked, keeps)
            from history import History
            from planted import PROGRAMS, Wrong
            controller = importlib.import_module("controller")
            given = vars(self.read(["controller", "--program", self.controller]))
            alter = Wrong(self.plant).line if self.plant in PROGRAMS and self.plant else same
            return History(asked, controller.serve, given, keeps, alter).run()

    def of_speakers(self, asked: "Asked", keeps: TextIO | None) -> "Result":
        from speaker_history import SpeakerHistory
        speaker = importlib.import_module("speaker")

        def words_for(given: list[str]) -> argparse.Namespace:
            return self.read(["speaker", "--program", self.speaker, "--secret", "key", *given])
        return SpeakerHistory(asked, speaker.serve, words_for, keeps).run()

    def read(self, words: list[str]) -> argparse.Namespace:
        """The bridge's words, as it reads them."""
        from operators import SERVER
        given = words_of(self.bridge).parse_args([*words, "--server", SERVER])
        given.client_certificate = given.client_key = None
        return given


def hangs(*_: object) -> None:
    raise RuntimeError(f"no end within {HANGS:.0f} s of the processor")


def same(value: dict[str, Any]) -> dict[str, Any]:
    return value


def words_of(bridge: str) -> argparse.ArgumentParser:
    """The bridge's words, so that what counts where they aren't given is said in one place."""
    spec = importlib.util.spec_from_file_location("bridge_words", f"{bridge}/__main__.py")
    if spec is None or spec.loader is None:
        raise FileNotFoundError(bridge)
    module = importlib.util.module_from_spec(spec)
    spec.loader.exec_module(module)
    parser: argparse.ArgumentParser = module.words()
    return parser


def asked_of(options: argparse.Namespace, seed: int) -> "Asked":
    from history import Asked
    only = None if options.only is None else tuple(map(int, options.only))
    mode = MODES[seed % len(MODES)] if options.mode == "all" else options.mode
    return Asked(seed, mode, options.virtual * 60, frozenset(options.without),
                 options.kinds, only, options.salt)


def read_history(path: str | pathlib.Path) -> "Asked":
    """A history that is written: its members but for the troubles are those of Asked."""
    from history import Asked
    from troubles import Trouble
    said = json.loads(pathlib.Path(path).read_text())
    said.pop("what", None)
    said.setdefault("seed", 1)
    said["troubles"] = [Trouble(*one) for one in said["troubles"]]
    said["without"] = frozenset(said.get("without", ()))
    return Asked(**said)


def write_history(path: str, asked: "Asked", troubles: list[Any], what: str) -> None:
    said = {"what": what, "seed": asked.seed, "salt": asked.salt, "mode": asked.mode,
            "seconds": asked.seconds, "without": sorted(asked.without), "troubles": []}
    lines = ",\n  ".join(json.dumps(one) for one in troubles)
    text = json.dumps(said, indent=1).replace('"troubles": []', f'"troubles": [\n  {lines}]')
    pathlib.Path(path).write_text(text + "\n")


def kind_of(told: "Result") -> str:
    """The kind of what is wrong, or nothing."""
    wrong = [*told.wrong, *told.surprises]
    return wrong[0].split()[0] if wrong else ""


def planned(asked: "Asked") -> list[Any]:
    """All troubles of a history."""
    import history
    import speaker_history
    import troubles
    from virtual import World
    if asked.troubles is not None:
        return asked.troubles
    is_of_speakers, world = asked.mode == "speakers", World(asked.seed)
    all_kinds = speaker_history.KINDS if is_of_speakers else troubles.KINDS
    kinds = [kind for kind in asked.kinds or all_kinds if kind not in asked.without]
    has_few = not is_of_speakers and history.has_few(world)
    return troubles.drawn(world.stream("plan", False), asked.seconds, kinds, not has_few)


def shrunk(runner: Runner, asked: "Asked") -> "Asked":
    """The history with as few troubles as still lead to the same kind of difference: parts are left
    out, ever smaller ones."""
    first = runner.one(asked)
    kind, kept = kind_of(first), list(asked.only or range(first.drawn))
    print(f"{len(kept)} troubles: {[*first.wrong, *first.surprises][:1]}", flush=True)
    best = replace(asked, end=None if kind in AT_THE_END else first.at + BEHIND)
    size = len(kept) // 2
    while kind and size:
        at, found = 0, False
        while at < len(kept):
            fewer = kept[:at] + kept[at + size:]
            salts = (best.salt, *range(best.salt + 1, best.salt + SALTS * (len(fewer) < FEW)))
            for salt in salts:
                told = runner.one(replace(best, only=tuple(fewer), salt=salt))
                if kind_of(told) == kind:
                    end = best.end and min(best.end, told.at + BEHIND)
                    best = replace(best, only=tuple(fewer), salt=salt, end=end)
                    kept, found = fewer, True
                    break
            else:
                at += size
        print(f"{len(kept)} troubles, salt {best.salt}", flush=True)
        if size > 1 or not found:
            size //= 2
    return replace(best, only=tuple(kept), end=None)


class Report:
    """Counts what came of the histories, and tells of differences, and now and then how far it
    came."""

    def __init__(self) -> None:
        self.begun = self.told = time.monotonic()
        self.found = collections.Counter[str]()
        self.troubles = collections.Counter[str]()
        self.befell = collections.Counter[str]()
        self.histories = self.ends = self.changes = 0
        self.hours = 0.0

    def add(self, told: "Result") -> None:
        self.histories += 1
        self.hours += told.at / 3600
        self.ends += told.ends
        self.changes += told.changes
        self.troubles.update(told.troubles)
        self.befell.update(told.befell)
        for line in told.surprises:
            print(f"seed {told.seed}: {line}", flush=True)
        if told.surprises and not told.wrong:
            self.found["ENDED"] += 1
        if told.wrong:
            self.found[kind_of(told)] += 1
            at = f"at {told.at:.1f} s, {told.processor:.1f} s of processor, hash {told.hash}"
            print(f"seed {told.seed} {at}:", *told.wrong, sep="\n  ", flush=True)
        if time.monotonic() >= self.told + EACH:
            self.told = time.monotonic()
            self.tell()

    def tell(self) -> None:
        """A line of figures, as docs/MEASURED.md has them. The seconds of the processor are those
        of all processes that have ended, the programs too."""
        befell, spent = self.befell, spent_so_far()
        kills, cuts = befell["bridges killed"] + befell["programs killed"], befell["cuts"]
        wrong = ", ".join(f"{count} {kind}" for kind, count in self.found.items())
        print(f"{(time.monotonic() - self.begun) / 60:.0f} min: {self.histories} histories, "
              f"{self.hours:.1f} virtual hours, {kills:,} kills ({befell['bridges killed']:,} of "
              f"bridges, {befell['programs killed']:,} of programs; "
              f"{befell['ends with a put out']:,} with a put out), {cuts:,} cuts, {self.ends:,} "
              f"ends of bridges, {befell['take-overs']:,} take-overs, {befell['puts']:,} puts, "
              f"{self.changes:,} changes; {spent:,.0f} s of processor, "
              f"{60 * (kills + cuts) / max(1.0, spent):,.0f} kills and cuts a minute of it: "
              f"{wrong or 'no difference'}", flush=True)


def spent_so_far() -> float:
    """Seconds of the processor of this process, and of those that it waited for, with theirs."""
    return sum(os.times()[:4])


def seeds(options: argparse.Namespace) -> Iterator[int]:
    """One after the other, for as long as is asked."""
    until, begun = time.monotonic() + 60 * options.minutes, spent_so_far()
    for seed in itertools.count(options.seed):
        if options.histories:
            is_over = seed >= options.seed + options.histories
        elif options.processor:
            is_over = spent_so_far() - begun >= 60 * options.processor
        else:
            is_over = time.monotonic() >= until
        if is_over:
            return
        yield seed


def run_seeds(options: argparse.Namespace, runner: Runner) -> int:
    report = Report()
    asked = (asked_of(options, seed) for seed in seeds(options))
    for told in runner.each(asked, options.jobs, options.trace):
        report.add(told)
        if options.verbose:
            print(told.seed, told.hash, f"{told.processor:.1f} s, settled after "
                  f"{told.settled:.0f} s", flush=True)
        if options.stop and report.found:
            break
    print("troubles:", ", ".join(f"{count} {kind}" for kind, count in report.troubles.items()))
    report.tell()
    return 1 if report.found else 0


def run_shrunk(options: argparse.Namespace, runner: Runner) -> int:
    asked = shrunk(runner, asked_of(options, options.seed))
    told = runner.one(asked, options.trace)
    troubles = [one for at, one in enumerate(planned(asked)) if at in (asked.only or ())]
    write_history(options.shrink, asked, troubles, "; ".join(told.wrong[:1]))
    print(f"{len(troubles)} troubles in {options.shrink}:", *told.wrong, sep="\n  ")
    return 1 if told.wrong else 0


def run_written(options: argparse.Namespace, runner: Runner) -> int:
    told = runner.one(read_history(options.history), options.trace)
    print(f"at {told.at:.1f} s, hash {told.hash}, settled after {told.settled:.0f} s:",
          *(told.wrong or ["no difference"]), *told.surprises, sep="\n  ")
    return 1 if told.wrong or told.surprises else 0


def tried_by(options: argparse.Namespace, first: int | str | None) -> Iterator["Asked"]:
    """The histories that may find a planted fault: a written one, by its name, or seeds from
    `first` on; where none is given all written ones, and then seeds."""
    if not isinstance(first, int):
        for path in WRITTEN:
            asked = replace(read_history(path), name=path.stem)
            is_of_them = (asked.mode == "speakers") == (options.mode == "speakers")
            if first == path.stem or first is None and is_of_them:
                yield asked
    if not isinstance(first, str):
        for seed in itertools.count(options.seed if first is None else first):
            yield asked_of(options, seed)


def found_by(options: argparse.Namespace, name: str, first: int | str | None, spent: float,
             folder: str) -> dict[str, Any]:
    """The next history from `first` on by which a planted fault is found, before so many seconds of
    the processor are spent."""
    from planted import BUILT, FAULTS, folder_of
    bridge = folder_of(name, options.bridge, folder)
    sys.path.insert(0, bridge)
    if name in BUILT:
        options.controller = str(pathlib.Path(options.built, name))
    runner = Runner(options, bridge, name)
    if name in FAULTS and FAULTS[name].of_speakers:
        options.mode = "speakers"
    for asked in tried_by(options, first):
        if spent >= 60 * options.minutes:
            break
        told = runner.one(asked)
        spent += told.processor
        if told.wrong or told.surprises:
            return {"seed": asked.name or asked.seed, "spent": spent, "at": told.at,
                    "how": [*told.wrong, *told.surprises][0]}
    return {"seed": None, "spent": spent}


def is_well(options: argparse.Namespace, name: str, seed: int) -> bool:
    """Whether nothing is found with the right bridge and program."""
    from planted import FAULTS
    if name in FAULTS and FAULTS[name].of_speakers:
        options.mode = "speakers"
    sys.path.insert(0, options.bridge)
    told = Runner(options, options.bridge).one(asked_of(options, seed))
    return not told.wrong and not told.surprises


def seed_of(options: argparse.Namespace, name: str, first: int | str | None) -> dict[str, Any]:
    """The first history that finds the fault, and nothing without it (as is checked of the written
    ones)."""
    spent = 0.0
    while True:
        with tempfile.TemporaryDirectory(prefix="mlb-planted-") as folder:
            found: dict[str, Any] = outcome_of(*begun(partial(found_by, options, name, first, spent,
                                                              folder)))
        seed = found["seed"]
        if not isinstance(seed, int) or outcome_of(*begun(partial(is_well, options, name, seed))):
            return found
        first, spent = seed + 1, found["spent"]


def run_planted(options: argparse.Namespace) -> int:
    """The table of docs/MEASURED.md."""
    from planted import BUILT, NAMES, stories_of
    known = (*NAMES, *(BUILT if options.built else ()))
    wanted = list(known if options.planted == ("all",) else options.planted)
    print("| Planted | Seed or history | Told at | As | Processor | Stored histories about it |\n"
          "|---|---|---|---|---|---|", flush=True)
    missed, running = 0, dict[IO[str], tuple[int, str]]()
    kept = json.loads(SEEDS.read_text())
    while wanted or running:
        while wanted and len(running) < options.jobs:
            name = wanted.pop(0)
            asked = kept_only(options, name in kept) if options.check else options
            first = kept.get(name) if options.check else None
            pid, file = begun(partial(seed_of, asked, name, first))
            running[file] = pid, name
        for file in select.select(list(running), [], [])[0]:
            pid, name = running.pop(file)
            found = outcome_of(pid, file)
            missed += found["seed"] is None
            told = ["NOT FOUND", "", ""]
            if found["seed"] is not None:
                kept[name] = found["seed"]
                told = [found["seed"], f"{found['at']:.0f} s", found["how"].split()[0]]
            stories = ", ".join(f"`{one}`" for one in stories_of(name))
            row = [name, *told, f"{found['spent']:.0f} s", stories]
            print(f"| {' | '.join(map(str, row))} |", flush=True)
    if options.renew:
        all_kept = {name: kept[name] for name in (*NAMES, *BUILT) if name in kept}
        SEEDS.write_text(json.dumps(all_kept, indent=1) + "\n")
    count = sum(name in kept for name in known)
    print(f"{count} of {len(known)} planted faults have a seed or a history; {missed} not found")
    return 1 if missed else 0


def kept_only(options: argparse.Namespace, is_kept: bool) -> argparse.Namespace:
    """Asks for the one history that is kept of a fault; for none where none is."""
    return argparse.Namespace(**{**vars(options), "minutes": LEAST * is_kept})


def run_checks(options: argparse.Namespace, runner: Runner) -> int:
    """The last line is 'N passed, M failed'."""
    from history import Asked
    asked = [Asked(seed, mode, CHECKED_SECONDS, name=f"{mode} {seed}") for mode, seed in CHECKED]
    asked += [replace(read_history(path), name=path.stem) for path in WRITTEN]
    told = {one.name: one for one in runner.each(asked, options.jobs)}
    if options.renew:
        hashes = {"python": PYTHON, **{one.name: told[one.name].hash for one in asked}}
        HASHES.write_text(json.dumps(hashes, indent=1) + "\n")
    kept, failed = json.loads(HASHES.read_text()), 0
    if kept["python"] != PYTHON:
        print(f"the hashes are of Python {kept['python']}, and this is {PYTHON}: all is run twice")
        kept = {one.name: one.hash for one in runner.each(asked, options.jobs)}
    for name, one in told.items():
        if options.verbose:
            print(f"{name}: {one.processor:.1f} s of processor")
        wrong = [*one.wrong, *one.surprises]
        if one.hash != kept.get(name):
            wrong.append(f"its hash is {one.hash} and was {kept.get(name)}")
        failed += bool(wrong)
        if wrong:
            print(f"FAILED {name}", *wrong, sep="\n  ")
    print(f"{sum(one.processor for one in told.values()):.0f} s of processor")
    print(f"{len(told) - failed} passed, {failed} failed")
    return 1 if failed else 0


def main(given: Sequence[str]) -> int:
    options = words(given)
    if options.planted and (options.shrink or options.trace or options.history):
        with tempfile.TemporaryDirectory(prefix="mlb-planted-") as folder:
            return run_with(options, options.planted[0], folder)
    sys.path.insert(0, options.bridge)
    if options.planted:
        return run_planted(options)
    return run_asked(options, Runner(options, options.bridge))


def run_with(options: argparse.Namespace, name: str, folder: str) -> int:
    """What is asked for, with that fault planted."""
    from planted import folder_of
    bridge = folder_of(name, options.bridge, folder)
    sys.path.insert(0, bridge)
    return run_asked(options, Runner(options, bridge, name))


def run_asked(options: argparse.Namespace, runner: Runner) -> int:
    if options.check or options.renew:
        return run_checks(options, runner)
    if options.history:
        return run_written(options, runner)
    return run_shrunk(options, runner) if options.shrink else run_seeds(options, runner)
