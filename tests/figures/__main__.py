"""What events cost the programs in large clusters, each kind held to its limit; no part of the
gate.

    python3 tests/figures [--kind KIND]... [--runs N] [--seconds N]
    python3 tests/figures --list

A kind is a stream of lines in two parts (stream_kinds.py), or a run over lanes (over_lanes.py). The
processor seconds of the second part are those of the whole stream less those of the first, the
medians of N runs (3), turn by turn with the floor, a Rust program that reads each line by
serde_json (Debian packages cargo and librust-serde-json-dev; without them what is held to the floor
has no verdict, and that is told). A limit is microseconds a line, a multiple of the floor, seconds,
megabytes, or a multiple of the seconds of another stream, mostly of one with a fourth as many; what
was written is counted too. A run that takes longer than N seconds (600) is ended. The exit status
is 1 where a limit is passed, something else was written, or a run didn't end well. Run it on a
quiet machine; the programs are those that `rt ci` leaves, or those in the folder that PROGRAMS
names."""
import pathlib
import sys

sys.dont_write_bytecode = True
sys.path.insert(0, str(pathlib.Path(__file__).resolve().parent))
import figure_words

sys.exit(figure_words.main(sys.argv[1:], str(__doc__)))
