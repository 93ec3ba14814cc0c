"""Histories of a small cluster in virtual time, each a function of its seed. Needs the built
controller, and the built speaker for those of speakers.

    python3 tests/cluster/sim [--seed S] [--minutes M | --processor M | --histories N] [--jobs N]
        [--mode one|failover|pair|three|all|speakers] [--kinds KIND,..] [--without FAULT,..]
        [--virtual MINUTES]
    python3 tests/cluster/sim --seed S --trace FILE
    python3 tests/cluster/sim --seed S --shrink FILE
    python3 tests/cluster/sim --history FILE [--trace FILE]
    python3 tests/cluster/sim --planted [NAME,..] [--built FOLDER] [--minutes M | --check] [--renew]
    python3 tests/cluster/sim --check [--renew]

The bridge's own code runs on an event loop whose time is the history's, against the API server of
tests/cluster, and with it the real controller in lock-step (lockstep.py). With `--mode speakers`
it is the speakers' bridges of two to four nodes with the real speakers: their datagrams, frames and
BGP sessions go over a network of the history (lan.py). One seed after the other is run for M
minutes, of the clock or of the processor, by N processes. Each five minutes, and at the end, a line
tells how far it came: what all processes took is counted, the programs too. A difference is told
with its seed, and ends nothing; the status is 1 then.

What is judged: which addresses services get, lose and wait for; which requests are made, by the
rights of deploy/; what a written history says must be by a time: who has an address, what the
operator was told, how many requests were made.

`--trace` keeps what is noted. `--shrink` leaves out troubles of the one seed as long as the same
kind of difference stays, and writes what is left as a history to FILE. `--history` runs such a
file, or one that is written by hand (histories.d). `--planted` plants faults (planted.py), and
prints a table of the first histories that find them within M minutes of a processor, of the written
ones and then of seeds, and that find nothing without them. These `--renew` keeps in planted.json,
and with `--check` they alone are tried. With --shrink, --trace or --history the fault that is named
is planted for that.

`--check` alone runs some seeds and all written histories and compares the hashes of what was noted
with those in hashes.json, which `--renew` writes anew: after a change of the bridge, of the
programs or of these tests. Nothing in a run hangs on the machine or its load, but on the Python:
where that is another one all is run twice, and compared with itself."""
import os
import pathlib
import sys

sys.dont_write_bytecode = True
if os.environ.get("PYTHONHASHSEED") != "0":
    os.execve(sys.executable, [sys.executable, *sys.orig_argv[1:]],
              {**os.environ, "PYTHONHASHSEED": "0"})
HERE = pathlib.Path(__file__).resolve().parent
sys.path[:0] = [str(HERE), str(HERE.parent), str(HERE.parents[1]), str(HERE.parents[1] / "deploy")]
import command

sys.exit(command.main(sys.argv[1:]))
