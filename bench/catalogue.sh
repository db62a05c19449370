#!/usr/bin/env bash
# What the catalogue of an archive costs: `capt check --digest --names --files0-from` of many captures in one run, beside `cat` of
# all of them and `sha256sum` of all of them, which read the same bytes and hash as many.
#
# Makes the captures (deterministic, in a folder of its own that is removed again) in 50 folders: pcap files of mixed sizes, most of
# them small, a few large, every fiftieth of them cut. Prints the processor seconds of each (user and system, the best of several runs in turn),
# and what the catalogue takes of the other two together. Aim: at most 2.
#
# Use: bench/catalogue.sh [PROGRAM] [CAPTURES] [RUNS]
set -eu
top=$(cd "$(dirname "$0")/.." && pwd)
program=${1:-$top/crates/capt/out/capt}
captures=${2:-5500}
runs=${3:-5}
if [ ! -x "$program" ]; then
    (cd "$top/crates/capt" && rt run > /dev/null)
fi
work=$(mktemp -d "${TMPDIR:-/tmp}/capt-catalogue.XXXXXX")
trap 'rm -rf "$work"' EXIT

PYTHONPATH="$top/bench" PYTHONDONTWRITEBYTECODE=1 python3 - "$program" "$work" "$captures" "$runs" <<'PY'
import os, subprocess, sys
from captures import SIZES, frame, make
from measure import measure

program, work, captures, runs = sys.argv[1], sys.argv[2], int(sys.argv[3]), int(sys.argv[4])


def packets_of(number):
    """How many packets a capture has: 8 to 56, of every tenth 400, of every hundredth 4,000."""
    return 4000 if number % 100 == 99 else 400 if number % 10 == 9 else 8 + number % 49


names, size = [], 0
for number in range(captures):
    folder = f"{work}/{number % 50:02}"
    os.makedirs(folder, exist_ok=True)
    names.append(f"{folder}/{number:05}.pcap")
    make(names[-1], packets_of(number), lambda i: frame(number * 7 + i % 20, i % 2, SIZES[(number + i) % 8]), first=number * 1000)
    if number % 50 == 49:
        os.truncate(names[-1], os.path.getsize(names[-1]) - 5)
    size += os.path.getsize(names[-1])
with open(f"{work}/list", "wb") as out:
    out.write(b"".join(os.fsencode(name) + b"\0" for name in names))

check = [program, "check", "--allow-cut", "--digest", "--names", "--files0-from", f"{work}/list"]
many = lambda *words: ["xargs", "-0", "-a", f"{work}/list", *words]
lines = subprocess.run(check, stdout=subprocess.PIPE).stdout.count(b"\n")
if lines != captures:
    sys.exit(f"catalogue.sh: {lines} lines of {captures} captures")
costs = {}
for _ in range(runs):
    for what, words in (("check", check), ("cat", many("cat")), ("sha256sum", many("sha256sum"))):
        costs.setdefault(what, []).append(measure(words))
best = {what: min(cost, key=lambda it: it[0]) for what, cost in costs.items()}
for what, (processor, user, system, seconds, peak) in best.items():
    print(f"{what}: {processor:.2f} processor seconds ({user:.2f} user, {system:.2f} system), {seconds:.2f} seconds, {peak:.1f} MiB")
print(f"{captures} captures of {size / 1e6:.0f} MB: check takes {best['check'][0] / (best['cat'][0] + best['sha256sum'][0]):.2f} of cat and sha256sum together")
PY
