"""The bridge between the programs and a cluster (docs/BRIDGE.md).

    kubectl proxy &
    python3 bridge controller --program PATH
    python3 bridge speaker --program PATH --node-name NODE --interface eth0 --next-hop ADDRESS

    python3 bridge admit --program PATH --certificate FILE --key FILE
    python3 bridge status

PATH is the built program. In a pod the API server is asked by TLS with the token of the pod's
service account; elsewhere as the words say, at first as `kubectl proxy` gives it on 127.0.0.1. A
program that ends is started anew; SIGTERM and SIGINT end all. `status` prints a table of what the
cluster has. The status is 2 where the words aren't as stated.
"""
import argparse
import asyncio
import logging
import os
import signal
import sys
import tempfile
import time
from collections.abc import Sequence

sys.dont_write_bytecode = True
import admit
import controller
import speaker
import status
from common import Stop, warn
from lanes import Trace
from reached import PROXY, Kubeconfig, NotRead, Reached, in_pod
from refusals import LONGEST_TIMES

FORMS = {"plain": "%(message)s", "full": "%(asctime)s %(levelname)s %(message)s"}


def nothing(_name: str, _line: bytes) -> None:
    """Keeps no trace."""


def trace_to(path: str) -> Trace:
    """What is called with each line that is given or written."""
    file = open(path, "ab", buffering=0)
    return lambda name, line: file.write(f"{time.time():.3f} {name}: ".encode() + line)


def server_words() -> argparse.ArgumentParser:
    """Where the API server is, and what is told."""
    words = argparse.ArgumentParser(add_help=False, allow_abbrev=False)
    words.add_argument("--server", help="the API server, http://.. or https://.. (in a pod its "
                                        f"own, else {PROXY})")
    words.add_argument("--trust", metavar="FILE",
                       help="the certificates by which an https server is known")
    words.add_argument("--token", metavar="FILE",
                       help="the token to show to it, read at each request")
    words.add_argument("--client-certificate", metavar="FILE", help="the certificate to show to it")
    words.add_argument("--client-key", metavar="FILE", help="the key of that")
    words.add_argument("--kubeconfig", metavar="FILE",
                       help="a file as kubectl has it, for all of these")
    words.add_argument("--context", help="the context in it (its current one)")
    words.add_argument("--namespace", default="metallb-system",
                       help="the namespace of MetalLB's resources (%(default)s)")
    words.add_argument("--log-level", default="info", choices=("debug", "info", "warning", "error"),
                       help="how much is told on standard error (%(default)s)")
    words.add_argument("--log-form", default="plain", choices=FORMS,
                       help="`full` has the time and the level in each line (%(default)s)")
    return words


def program_words() -> argparse.ArgumentParser:
    """What the programs' bridges have in common."""
    words = argparse.ArgumentParser(add_help=False, allow_abbrev=False)
    words.add_argument("--program", required=True, help="the built program")
    words.add_argument("--admit", metavar="PROGRAM",
                       help="the built mlb_admit, which tells of each line ahead whether it would "
                            "end the program; such a one is kept from it")
    words.add_argument("--figures", metavar="ADDRESS:PORT",
                       help="where /metrics, /healthz and /readyz are answered by HTTP")
    words.add_argument("--lb-class", help="the class of the services that are handled")
    words.add_argument("--patience", type=float, default=120.0,
                       help="seconds without anything taken of a lane after which the program is "
                            "ended (%(default)s)")
    words.add_argument("--trace", metavar="FILE", type=trace_to, default=nothing,
                       help="a file to which each line is added that is given or written, with the "
                            "time in seconds")
    return words


def add_controller(one: argparse.ArgumentParser) -> None:
    one.set_defaults(serve=controller.serve)
    one.add_argument("--lease-seconds", type=float, default=15.0,
                     help="how long a controller's Lease counts after its last change "
                          "(%(default)s)")
    one.add_argument("--refused-pause", type=float, default=2.0,
                     help="seconds until a put that was refused is made again, at first; ever more "
                          f"from then on, up to {LONGEST_TIMES:.0f} times that (%(default)s)")
    one.add_argument("--without-pools", action="store_true",
                     help="services lose their addresses where no IPAddressPool is there; else "
                          "nothing is begun then")


def add_speaker(one: argparse.ArgumentParser) -> None:
    one.set_defaults(serve=speaker.serve)
    one.add_argument("--node-name", required=True, help="the node on which it runs")
    one.add_argument("--interface", action="append", default=[], metavar="NAME[=MAC]",
                     help="an interface on which addresses are answered for; `auto`: all that are "
                          "up, but for those of pods")
    one.add_argument("--link", action="append", default=[], metavar="NAME=FOLDER",
                     help="that interface is the datagram socket FOLDER/NODE-NAME, and what it "
                          "sends goes to FOLDER/hub (for tests)")
    one.add_argument("--responder", action="store_true",
                     help="frames are answered on a thread of their own")
    one.add_argument("--next-hop", help="the IPv4 address that routes lead to")
    one.add_argument("--next-hop-v6",
                     help="the IPv6 address that IPv6 routes lead to, beside a next hop of IPv4")
    one.add_argument("--router-id", help="the BGP identifier (the next hop)")
    one.add_argument("--bgp-retry", type=float, default=5.0,
                     help="seconds before a session is opened anew (%(default)s)")
    one.add_argument("--secret", metavar="FILE",
                     help="a key in each line, the same at all nodes; by it they tell each other "
                          "that they are there, and none is asked for a Lease")
    one.add_argument("--with-leases", action="store_true",
                     help="beside a key: those that go by Leases count too, and this node has a "
                          "Lease for them")
    one.add_argument("--next-hop-self", action="store_true",
                     help="routes lead to each session's own address, of its family")
    one.add_argument("--beat-port", type=int, default=7946,
                     help="the UDP port for that (%(default)s)")
    one.add_argument("--lease-seconds", type=float, default=9.0,
                     help="how long a node counts as a member after its lease was renewed "
                          "(%(default)s)")


def add_admit(one: argparse.ArgumentParser) -> None:
    one.set_defaults(serve=admit.serve)
    admit.add_words(one)


def words() -> argparse.ArgumentParser:
    """The words of each command, with what counts where they aren't given."""
    parser = argparse.ArgumentParser(prog="bridge", allow_abbrev=False,
                                     description="The bridge between the programs and a cluster.")
    server, program = server_words(), program_words()
    kinds = parser.add_subparsers(required=True)
    add_controller(kinds.add_parser("controller", parents=[server, program], allow_abbrev=False))
    add_speaker(kinds.add_parser("speaker", parents=[server, program], allow_abbrev=False))
    add_admit(kinds.add_parser("admit", parents=[server, program], allow_abbrev=False))
    status.add_words(kinds.add_parser("status", parents=[server], allow_abbrev=False))
    return parser


def reached(options: argparse.Namespace, kept: str) -> Reached:
    """How the API server is reached. What the words say of it goes before the rest."""
    found = in_pod() or Reached(PROXY)
    if options.kubeconfig:
        found = Kubeconfig(options.kubeconfig).reached(kept, options.context)
    elif options.server:
        found = Reached(options.server)
    return Reached(options.server or found.server, options.trust or found.trust,
                   options.token or found.token, options.client_certificate or found.certificate,
                   options.client_key or found.key)


def read_words(given: Sequence[str] | None, kept: str) -> argparse.Namespace:
    """The words, and how the API server is reached."""
    parser = words()
    options = parser.parse_args(given)
    named: list[str | None] = [getattr(options, "program", None), getattr(options, "admit", None)]
    for program in named:
        if program is not None and not os.access(program, os.X_OK):
            parser.error(f"no program {program}")
    try:
        found = reached(options, kept)
    except (OSError, ValueError, KeyError, AttributeError) as fault:
        shown = "" if isinstance(fault, NotRead) else f"{type(fault).__name__} "
        parser.error(f"--kubeconfig {options.kubeconfig}: {shown}{fault}")
    if not found.server.startswith(("http://", "https://")):
        parser.error("the API server is asked by http://.. or https://..")
    options.server, options.trust, options.token = found.server, found.trust, found.token
    options.client_certificate, options.client_key = found.certificate, found.key
    return options


async def run(options: argparse.Namespace) -> int:
    task = asyncio.create_task(options.serve(options))
    for number in (signal.SIGTERM, signal.SIGINT):
        asyncio.get_running_loop().add_signal_handler(number, task.cancel)
    try:
        await task
    except asyncio.CancelledError:
        return 0
    except Stop as stop:
        warn(stop)
        return stop.status
    return 0


def main() -> int:
    with tempfile.TemporaryDirectory(prefix="mlb-known-") as kept:
        options = read_words(None, kept)
        logging.basicConfig(level=options.log_level.upper(), format=FORMS[options.log_form])
        return asyncio.run(run(options))


if __name__ == "__main__":
    sys.exit(main())
