"""Objects as MetalLB's documentation has them: each is judged as docs/SWITCHING.md says."""
import pathlib
import re
import sys

from small_cluster import TOP, Thing
from judging import Tally
from schemas import definitions, explained, object_faults

sys.path.append(str(TOP / "bridge"))
from settings import PROFILE_SERVED, SERVED

ROW = re.compile(r"^\| `(?P<field>\w+)` \| (?P<word>taken|refused|passed by) \|", re.MULTILINE)
OWN = ("IPAddressPool", "L2Advertisement", "BGPAdvertisement", "BGPPeer", "Community", "BFDProfile")


def page() -> dict[str, dict[str, str]]:
    """What the page says of each field of each kind."""
    text = (TOP / "docs/SWITCHING.md").read_text()
    found = {}
    for kind in OWN:
        table = text[text.index(f"**{kind}**"):]
        end = table.find("\n\n**", 1)
        found[kind] = {row["field"]: row["word"] for row in ROW.finditer(table[:end])}
    return found


def objects() -> dict[str, Thing]:
    import yaml
    folder = pathlib.Path(__file__).parent / "objects"
    return {path.stem: yaml.safe_load(path.read_text()) for path in sorted(folder.glob("*.yaml"))}


def try_documented(tally: Tally, admit: pathlib.Path) -> None:
    said, schemas = page(), definitions()
    for kind, fields in said.items():
        known = set(schemas[kind]["properties"]["spec"]["properties"])
        tally.check(f"the page has the fields of {kind}", set(fields) == known, set(fields) ^ known)
    for kind, served in {"BGPPeer": SERVED, "BFDProfile": PROFILE_SERVED}.items():
        taken = {field for field, word in said[kind].items() if word == "taken"}
        tally.check(f"of {kind} those are taken that the bridge serves", taken == served,
                    taken ^ served)
    found = objects()
    told = dict(zip(found, explained(admit, list(found.values())), strict=True))
    for name, thing in found.items():
        judge(tally, name, thing, told[name], said, schemas)
    modes = {(thing["kind"], field) for thing in found.values() for field in thing.get("spec", {})}
    lacking = {(kind, field) for kind in said for field in said[kind]} - modes
    rare = {("BGPPeer", "disableMP"), ("BGPPeer", "dualStackAddressFamily")}
    tally.check(f"{len(found)} objects have each field of each kind", lacking <= rare, lacking)


def judge(tally: Tally, name: str, thing: Thing, told: Thing, said: dict[str, dict[str, str]],
          schemas: dict[str, Thing]) -> None:
    """An object is refused exactly for its fields that the page refuses, or what it must have; and
    the reader passes by what it says that no program reads."""
    kind, spec = thing["kind"], thing.get("spec") or {}
    if kind == "Service":
        tally.check(f"{name} is read", told["op"] == "event" and "unused" not in told, told)
        return
    wanted = {f"spec.{field}" for field, value in spec.items()
              if said[kind][field] == "refused" and value}
    wanted |= {"spec.peerASN"} if kind == "BGPPeer" and "peerASN" not in spec else set()
    named = {path for path, _ in object_faults(schemas[kind], thing)}
    tally.check(f"{name} is {'refused' if wanted else 'taken'}", named == wanted, (named, wanted))
    if kind == "BFDProfile":
        tally.check(f"{name} is no program's", told["op"] == "ignored", told)
    elif "peerASN" in spec or kind != "BGPPeer":
        unread = set(told.get("unused", []))
        lost = {path for path in wanted if path not in unread}
        tally.check(f"{name} is read, and what nobody serves is told", told["op"] == "event"
                    and not lost, told)
    else:
        tally.check(f"{name} can't be read", told.get("path") == "spec.peerASN", told)
