"""Faults that are planted, one at a time, to see that the judges see: in a copy of the bridge, or
in what the program writes. Each of those of the bridge can come to a shared address, to one that is
taken away by mistake, to a service that waits for ever, or to a bridge that ends."""
import pathlib
import shutil
from collections.abc import Callable
from typing import Any, NamedTuple

Json = dict[str, Any]


class Edit(NamedTuple):
    """A line of the bridge, there once, and what takes its place."""
    file: str
    old: str
    new: str


class Fault(NamedTuple):
    """What is wrong, by edits of the bridge, and which stored histories (tests/histories) are about
    that. `of_speakers`: of a speaker's bridge."""
    edits: tuple[Edit, ...]
    stories: tuple[str, ...] = ()
    of_speakers: bool = False


FAULTS = {
    "no-fence-at-takeover": Fault(
        (Edit("taking.py", "name, answer = Name.of(request), await self.carrier.answer(request)",
              "name, answer = Name.of(request), {\"fence\": \"missing\"}"),),
        ("a_put_is_held_while_another_controller_takes_over",
         "a_controller_stands_still_and_goes_on", "the_program_is_killed_while_its_put_is_held")),
    "unnamed-put": Fault(
        (Edit("lease.py", "{NAMES: named(names), ASKED: fresh()}",
              "{NAMES: \"[]\", ASKED: fresh()}"),
         Edit("carrier.py", "return lease_told(self.seen)",
              "return lease_told(self.seen) | ({\"named\": self.asked[0][\"named\"]} "
              "if method == \"PUT\" and self.asked else {})"))),
    "names-dropped-at-takeover": Fault(
        (Edit("lease.py", "{NAMES: named(names), ASKED: fresh()}",
              "{NAMES: named(names if holder == seen.holder else ()), ASKED: fresh()}"),),
        ("a_third_takes_over_from_the_second",)),
    "names-dropped-at-release": Fault((Edit(
        "carrier.py", 'body_of(self.seen, "", self.seen.names, self.seconds)',
        'body_of(self.seen, "", (), self.seconds)'),)),
    "lost-lease-is-passed-over": Fault((Edit(
        "fenced.py", 'raise Lost(f"{self.carrier.holder()} is the controller")', "pass"),)),
    "lease-conflict-is-told-changed": Fault(
        (Edit("carrier.py", "                self.told.tell(f\"{self.path}: {answer.message}\")\n",
              "                self.told.tell(f\"{self.path}: {answer.message}\")\n"
              "            elif self.asked:\n                wants = self.asked[0]\n"
              "                return {\"fence\": \"lease\", \"version\": wants[\"version\"] + 1,"
              " \"holder\": wants[\"holder\"], \"named\": wants[\"named\"]}\n"),),
        ("a_controller_is_cut_off_and_comes_back",)),
    "lease-made-by-a-bridge": Fault(
        (Edit("carrier.py",
              'self.told.tell(f"there is no Lease {self.path}: the manifest makes it")',
              'await self.api.request("POST", self.path.rpartition("/")[0], '
              '{"kind": "Lease", "apiVersion": "coordination.k8s.io/v1", '
              '"metadata": {"name": "controller"}, "spec": {}}, wait=SHORT)'),),
        ("the_lease_is_deleted_while_a_put_is_held",)),
    "ends-without-a-lease": Fault(
        (Edit("taking.py", "                await self.rest()\n            elif",
              "                raise ValueError(\"there is no Lease\")\n            elif"),),
        ("the_lease_comes_later",)),
    "ends-with-its-lease": Fault(
        (Edit("controller.py", "tell(lost)", "raise"),),
        ("the_lease_is_lost_while_its_names_are_fenced",)),
    "lease-asked-for-once": Fault(
        (Edit("carrier.py", "                return await self.lease(\"PUT\", self.body(request))",
              "                if self.asked and self.asked[0] == request:\n"
              "                    return UNKNOWN\n"
              "                return await self.lease(\"PUT\", self.body(request))"),),
        ("a_change_of_the_lease_is_lost",)),
    "lease-not-read-again": Fault(
        (Edit("carrier.py", "            return REFUSED if answer.status != 200 else UNKNOWN\n"
              "        try:", "            return UNKNOWN\n        try:"),),
        ("a_hop_sends_all_twice",)),
    "put-at-any-version": Fault((Edit(
        "puts.py", 'return {"metadata": {"resourceVersion": str(put["version"]), '
        '"annotations": notes},', 'return {"metadata": {"annotations": notes},'),)),
    "lost-put-is-told-stored": Fault(
        (Edit("carrier.py", "return REFUSED if answer.status else UNKNOWN",
              "return REFUSED if answer.status else at(name.version + 1)"),),
        ("puts_never_come",)),
    "refused-put-is-told-stored": Fault(
        (Edit("carrier.py", "return REFUSED if answer.status else UNKNOWN",
              "return at(name.version + 1) if answer.status else UNKNOWN"),),
        ("a_put_is_answered_422",)),
    "unreached-service-is-told-missing": Fault((Edit(
        "carrier.py", "            self.why = str(fault)\n            return UNKNOWN",
        "            self.why = str(fault)\n            return MISSING"),)),
    "service-is-told-at-a-later-version": Fault((Edit(
        "carrier.py", "            return at(version)\n        self.why",
        "            return at(max(version, name.version + 1))\n        self.why"),)),
    "no-fence-of-a-put": Fault((Edit(
        "fenced.py", "answer = await self.carrier.answer(request, self.carrier.in_time(SHORT))",
        "answer = MISSING"),)),
    "fence-changes-nothing": Fault(
        (Edit("services.py", '"annotations": {FENCE: fresh()}}}',
              '"annotations": {FENCE: None}}}'),),
        ("puts_never_come",)),
    "fence-is-its-own-write": Fault(
        (Edit("carrier.py", "            return at(version)\n        self.why",
              "            return at(version if method == \"PATCH\" else min(version, "
              "name.version))\n        self.why"),
         Edit("fenced.py", "for name in self.owed.of(key, version):", "for name in ():")),
        ("it_is_edited_while_its_webhook_is_down",)),
    "list-with-puts-out": Fault(
        (Edit("fenced.py", "        while not self.is_asked:\n            await self.tell(RELIST)",
              "        while False:\n            await self.tell(RELIST)"),
         Edit("fenced.py", "        self.is_told.clear()\n",
              "        if not self.is_asked:\n            return\n        self.is_told.clear()\n")),
        ("services_are_listed_anew_while_a_put_is_unfenced",)),
    "owed-put-is-not-chased": Fault(
        (Edit("fenced.py", "            while self.owed.are_due():", "            while False:"),),
        ("a_webhook_is_down_for_one_service",)),
    "a-declined-put-is-sent": Fault(
        (Edit("carrier.py", "        if not self.refusals.holds(name):", "        if True:"),),
        ("a_refused_put_holds_no_address",)),
    "asked-again-is-declined": Fault((Edit(
        "carrier.py",
        "if not request[\"named\"] or self.asked is not None and self.asked[0] == request:",
        "if not request[\"named\"]:"),)),
    "shown-while-owed": Fault(
        (Edit("fenced.py", "                await self.show_owed(event[\"type\"] == \"DELETED\", "
              "thing)", "                pass"),),
        ("it_is_edited_while_its_webhook_is_down",)),
    "unchanged-is-told-ok": Fault(
        (Edit("puts.py", 'if version_of(answer.value) <= put["version"]:', "if False:"),
         Edit("puts.py", "if not shows(answer.value, patch):", "if False:")),
        ("a_put_is_answered_at_the_old_version",)),
    "unshown-put-is-told-ok": Fault(
        (Edit("puts.py", "if not shows(answer.value, patch):", "if False:"),),
        ("a_webhook_takes_the_mark_out",)),
    "no-time-for-an-answer": Fault(
        (Edit("carrier.py", "PUT_WAIT, LEAST_WAIT = 35.0, 1.0", "PUT_WAIT, LEAST_WAIT = 1e9, 1e9"
              ),),
        ("one_put_is_never_answered",)),
    "refused-put-never-again": Fault(
        (Edit("refusals.py", "await self.touch(one)", "one.waits = None"),),
        ("a_webhook_is_down_for_one_service", "a_put_is_answered_500", "a_put_is_answered_403")),
    "refused-put-is-sent-on-and-on": Fault(
        (Edit("carrier.py", "            fault = fault_of(answer, put, patch)\n",
              "            while answer.status not in (200, 404, 409):\n"
              "                await asyncio.sleep(1.0)\n"
              "                answer = await self.api.ask(\"PATCH\", name.path + \"/status\", "
              "patch, PATCH, SHORT)\n"
              "            fault = fault_of(answer, put, patch)\n"),),
        tuple(f"a_put_is_answered_{status}" for status in (400, 401, 403, 422, 429, 500, 503))),
    "a-lost-answer-is-waited-out": Fault(
        (Edit("carrier.py", "            fault = Fault(str(broken), is_lost=True)\n",
              "            fault = Fault(str(broken), is_lost=True)\n"
              "            await asyncio.sleep(65.0)\n"),),
        ("answers_to_puts_are_lost",)),
    "busy-server-is-asked-at-once": Fault(
        (Edit("pacing.py", "        if answer.status in BUSY:", "        if False:"),),
        ("the_server_is_busy",)),
    "lost-server-is-not-told": Fault(
        (Edit("api.py", 'LOG.warning("%s: %s%s", self.server, why, lasts)', "pass"),),
        ("the_server_is_lost",)),
    "older-annotations-are-passed-over": Fault(
        (Edit("reading.py", "    older = [name for name in ASKED if OLD + name in notes and "
              "NEW + name not in notes]", "    older: list[str] = []"),),
        ("services_share_by_the_older_annotation",)),
    "no-guard-of-pools": Fault(
        (Edit("guard.py", "return holds and not self.is_meant", "return False"),),
        ("all_pools_are_made_anew",)),
    "empty-list-of-pools": Fault(
        (Edit("guard.py", "if is_empty and not self.is_meant:", "if False:"),),
        ("the_namespace_is_wrong", "there_is_no_pool_at_first")),
    "pools-kept-for-ever": Fault(
        (Edit("guard.py", "return holds and not self.is_meant", "return holds"),),
        ("who_means_it_says_so",)),
    "guard-by-the-watch-alone": Fault((Edit(
        "guard.py", "bool(self.holders or self.giving)", "bool(self.holders)"),)),
    "a-deletion-is-lost": Fault((Edit(
        "watches.py", "elif watched.changes_nothing(event):",
        'elif event["type"] == "DELETED" or watched.changes_nothing(event):'),)),
    "list-not-held": Fault((Edit(
        "watches.py", "                hold(held, event, line)\n",
        "                await self.give(event, line)\n"),)),
    "pools-end-first": Fault((Edit(
        "watches.py", "if other not in HOLD_NOTHING_BACK:", "if False:"),)),
    "resources-of-all-namespaces": Fault((Edit(
        "watches.py", 'own = f"/apis/metallb.io/{{}}/namespaces/{namespace}/{{}}"',
        'own = "/apis/metallb.io/{}/{}"'),)),
    "no-list-in-pages": Fault(
        (Edit("watches.py", "if fault.status not in UNSERVED:", "if True:"),),
        ("streaming_lists_are_off",)),
    "a-list-without-its-rest": Fault(
        (Edit("api.py", 'raise Broken("a list became too old between two of its pages")',
              "break"),),
        ("a_list_expires_between_its_pages",)),
    "refused-watch-never-again": Fault(
        (Edit("watches.py", "watched.told = fault.status", "return"),),
        ("watches_are_refused_for_a_while",)),
    "silence-is-not-noticed": Fault(
        (Edit("watches.py", "SILENCE = 55.0", "SILENCE = 1e9"),), ("a_watch_falls_silent",)),
    "absent-node-stays": Fault((Edit(
        "beats.py", "return self.silent < LOST * self.pause\n\n    @property\n    def is_there",
        "return self.silent < math.inf\n\n    @property\n    def is_there"),), of_speakers=True),
    "members-given-once": Fault((Edit(
        "heartbeats.py", "if (names := self.membership.names()) != given:",
        "names = self.membership.names()\n                if given is None:"),), of_speakers=True),
    "who-doesn't-serve-counts": Fault((Edit(
        "beats.py", "if other.is_heard and other.serves}", "if other.is_heard}"),),
        of_speakers=True),
    "nodes-not-noted": Fault((Edit(
        "heartbeats.py", "self.membership.roster.note(event)", "pass"),), of_speakers=True),
    "cut-off-for-ever": Fault((Edit(
        "membership.py", "            self.lately.append(len(heard))\n"
        "            self.is_cut_off = False\n", "            self.lately.append(len(heard))\n"),
        Edit("membership.py", "        elif self.unanswered == 0:\n"
             "            self.is_cut_off = False\n", ""),
        Edit("membership.py", "        if self.beats.heard():\n"
             "            return Standing.AMONG_OTHERS\n        if self.is_cut_off:\n"
             "            return Standing.CUT_OFF\n", "        if self.is_cut_off:\n"
             "            return Standing.CUT_OFF\n        if self.beats.heard():\n"
             "            return Standing.AMONG_OTHERS\n")), of_speakers=True),
    "routes-not-told-anew": Fault((Edit(
        "bgp_sessions.py", "for octets in self.table.messages(self.taken, self.hops):\n"
        "            writer.write(octets)", "pass"),), of_speakers=True),
    "session-not-tried-again": Fault((Edit(
        "bgp_sessions.py", "await asyncio.sleep(retry * random.uniform(*JITTER))",
        "await asyncio.Future()"),), of_speakers=True),
    "table-of-the-program-before": Fault((Edit(
        "peers.py", "session.go_by(self.table_of(name))", "pass"),), of_speakers=True),
}


# What was planted and is no fault, each with why.
HARMLESS = {
    "conflict-is-told-missing": "A put that is answered 409 was told as one whose service is gone. "
    "Whatever but a later version is said of a put, the program fences it all the same, and the "
    "address stays taken until the service is shown anew.",
}
# Programs with an edit of their own code (tests/cluster/faults/build), with the stored histories
# about it, where what mends these is the program's.
BUILT = {"doubt-forgotten": ("a_hop_sends_a_put_twice", "answers_to_puts_are_lost")}


def stories_of(name: str) -> tuple[str, ...]:
    """The stored histories that are about a fault."""
    return FAULTS[name].stories if name in FAULTS else BUILT.get(name, ())


def folder_of(name: str, bridge: str, beside: str) -> str:
    """The folder of the bridge with that fault: a copy in a folder where it may be made."""
    if name not in FAULTS:
        return bridge
    copy = pathlib.Path(beside, name)
    shutil.copytree(bridge, copy, ignore=shutil.ignore_patterns("__pycache__"))
    for edit in FAULTS[name].edits:
        path = copy / edit.file
        text = path.read_text()
        if text.count(edit.old) != 1:
            raise ValueError(f"{name}: {edit.old!r} isn't once in {edit.file}")
        path.write_text(text.replace(edit.old, edit.new))
    return str(copy)


def key_of(put: Json) -> tuple[str, str]:
    return put["namespace"], put["name"]


class Wrong:
    """What a wrong program writes in place of a right one's lines. `puts` counts them."""

    def __init__(self, kind: str) -> None:
        self.kind, self.puts = kind, 0
        self.before: Json | None = None  # a put that gave an address

    def line(self, value: Json) -> Json:
        if value["op"] != "put":
            return value
        self.puts += 1
        return PROGRAMS[self.kind](self, value)

    def other_address(self, put: Json) -> Json:
        """From the fourth put on one that gives addresses gives those of the one before."""
        before = self.before
        if put["addresses"]:
            self.before = put
        is_other = before and key_of(before) != key_of(put)
        if before and is_other and put["addresses"] and self.puts > 3:
            return {**put, "addresses": before["addresses"], "pool": before["pool"]}
        return put

    def empties(self, put: Json) -> Json:
        """Each fifth put takes all away."""
        return {**put, "addresses": [], "pool": "", "mark": ""} if self.puts % 5 == 0 else put

    def swaps_services(self, put: Json) -> Json:
        """What one service is to have is put for another, at that one's version."""
        before, self.before = self.before, put
        if before and self.puts % 2 == 0:
            return {**before, "addresses": put["addresses"], "pool": put["pool"]}
        return put

    def foreign_address(self, put: Json) -> Json:
        """An address of no pool is given."""
        return {**put, "addresses": ["192.0.2.77"]} if put["addresses"] else put

    def no_mark(self, put: Json) -> Json:
        """What services may share their addresses with isn't told."""
        return {**put, "mark": ""}

    def keeps_address(self, put: Json) -> Json:
        """Addresses are never taken away: the service keeps those of its put before."""
        if put["addresses"]:
            self.before = put
        elif self.before:
            return {**put, "addresses": self.before["addresses"], "mark": self.before["mark"]}
        return put


PROGRAMS: dict[str, Callable[[Wrong, Json], Json]] = {
    "another-ones-address": Wrong.other_address,
    "emptied-by-the-program": Wrong.empties,
    "services-swapped": Wrong.swaps_services,
    "foreign-address": Wrong.foreign_address,
    "no-mark": Wrong.no_mark,
    "never-taken-away": Wrong.keeps_address,
}
NAMES = (*FAULTS, *PROGRAMS)
