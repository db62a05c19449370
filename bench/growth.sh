#!/usr/bin/env bash
# How the cost of each command grows: nanoseconds of processor time a packet, in captures of so many packets, of ten
# times and of a hundred times as many, and the last as a ratio to the first. Cost that grows as the packets do has a
# ratio of 1. What a capture of one packet takes is subtracted. It prints a table in Markdown.
#
# Makes its inputs in a folder of its own that is removed again: 64-byte packets of 1,000 conversations in turn; two
# packets a conversation; fragments of 8 bytes, each of which opens a group, at offset 0 and at 65,504.
#
# Use: bench/growth.sh [PROGRAM] [PACKETS] [RUNS]
set -eu
top=$(cd "$(dirname "$0")/.." && pwd)
program=$(realpath "${1:-$top/crates/capt/out/capt}")
packets=${2:-20000}
runs=${3:-5}
work=$(mktemp -d "${TMPDIR:-/tmp}/capt-growth.XXXXXX")
trap 'rm -rf "$work"' EXIT

cd "$work"
PYTHONPATH="$top/bench" PYTHONDONTWRITEBYTECODE=1 python3 - "$program" "$packets" "$runs" <<'PY'
import sys
from captures import far, frame, make
from measure import measure

program, packets, runs = sys.argv[1], int(sys.argv[2]), int(sys.argv[3])
SIZES = [packets, packets * 10, packets * 100]


def costs(files, *words):
    """Processor seconds of a command over each file, the best of several runs, which come in turn."""
    taken = [[measure([program, *words, file], ["out"])[0] for file in files] for _ in range(runs)]
    return [min(column) for column in zip(*taken)]


def row(label, names, *words):
    one, *sizes = costs(["one.pcap", *names], *words)
    each = [(cost - one) * 1e9 / size for cost, size in zip(sizes, SIZES)]
    print(f"| {label} | " + " | ".join(f"{cost:,.0f}" for cost in each) + f" | {each[2] / each[0]:.2f} |", flush=True)


def files(name, frame_at):
    """A capture of each size, whose packets may depend on how many there are."""
    names = [f"{name}{size}.pcap" for size in SIZES]
    for file, size in zip(names, SIZES):
        make(file, size, lambda i: frame_at(i, size))
    return names


turns = [frame(i, i % 3 == 0, 64) for i in range(1000)]
make("one.pcap", 1, lambda i: turns[i])
small = files("small", lambda i, size: turns[i % 1000])
print("| command | " + " | ".join(f"{size:,} packets" for size in SIZES) + " | ratio |")
print("|---|---|---|---|---|")
row("`info`", small, "info")
row("`list`", small, "list")
row("`report`, 1,000 conversations", small, "report")
many = files("many", lambda i, size: frame(i * 617 % (size // 2), i >= size // 2, 64))
row("`report`, two packets a conversation", many, "report")
row("`convert`", small, "convert", "--to", "pcapng", "-o", "out")
row("`merge`", small, "merge", "-o", "out")
row("`merge --to pcap`", small, "merge", "--to", "pcap", "-o", "out")
row("`join`", small, "join", "-o", "out")
high = files("high", lambda i, size: far(i))
row("`join`, groups of 65,512 bytes", high, "join", "-o", "out")
row("`report`, groups of 65,512 bytes", high, "report")
PY
