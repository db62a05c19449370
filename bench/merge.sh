#!/usr/bin/env bash
# What `capt merge` costs by the number of files, beside `cat` and, where it is installed, `mergecap`.
#
# Makes pcap files of together 5 million packets and 1 GB, whose packets come in turn, for each number of
# files (deterministic, in a folder of its own that is removed again), and prints for each program: processor
# seconds (user and system, the best of several runs), packets per processor second, and the peak of resident
# memory; then the ratios. Aims: at 8 files at least twice mergecap's packets per processor second, under 24 MiB
# resident, and a cost that grows no faster than the number of files.
#
# Use: bench/merge.sh [PROGRAM] [THOUSANDS OF PACKETS] [RUNS] [NUMBERS OF FILES..]
set -eu
top=$(cd "$(dirname "$0")/.." && pwd)
program=${1:-$top/crates/capt/out/capt}
thousands=${2:-5000}
runs=${3:-5}
shift $(($# < 3 ? $# : 3))
if [ ! -x "$program" ]; then
    (cd "$top/crates/capt" && rt run > /dev/null)
fi
work=$(mktemp -d "${TMPDIR:-/tmp}/capt-merge.XXXXXX")
trap 'rm -rf "$work"' EXIT

PYTHONPATH="$top/bench" PYTHONDONTWRITEBYTECODE=1 python3 - "$program" "$work" "$thousands" "$runs" "${@:-2 4 8 16 32}" <<'PY'
import os, shutil, struct, subprocess, sys
from measure import measure

program, work, packets, runs = sys.argv[1], sys.argv[2], int(sys.argv[3]) * 1000, int(sys.argv[4])
numbers = [int(word) for words in sys.argv[5:] for word in words.split()]
HEADER = bytes.fromhex("d4c3b2a1" "02000400" "00000000" "00000000" "00000400" "01000000")
FRAME = bytes((place * 13) % 256 for place in range(1024))
# 184 bytes on average, and 16 of a record's header
SIZES = [64, 90, 64, 576, 64, 128, 64, 422]

def make(files):
    names = []
    for n in range(files):
        names.append(f"{work}/{files}-{n}.pcap")
        with open(names[-1], "wb") as out:
            out.write(HEADER)
            for first in range(0, packets // files, 1000):
                part = []
                for i in range(first, min(first + 1000, packets // files)):
                    micros, length = (n + i * files) * 10, SIZES[i % 8]
                    part.append(struct.pack("<IIII", 1000 + micros // 1000000, micros % 1000000, length, length) + FRAME[:length])
                out.write(b"".join(part))
    return names

def run(words):
    return measure(words, [f"{work}/out"])

costs = {}
for files in numbers:
    names = make(files)
    rows = {"cat": ["sh", "-c", 'out=$1; shift; cat "$@" > "$out"', "sh", f"{work}/out"] + names,
            "capt merge": [program, "merge", "-o", f"{work}/out"] + names}
    if shutil.which("mergecap"):
        rows["mergecap"] = ["mergecap", "-I", "none", "-F", "pcapng", "-w", f"{work}/out"] + names
    subprocess.run(rows["cat"], check=True)
    best = {}
    # in turn, so that what else runs on the machine meets each alike
    for _ in range(runs):
        for name, words in rows.items():
            taken = run(words)
            if taken:
                best[name] = min(taken, best.get(name, taken))
    for name, (total, user, system, _, peak) in best.items():
        print(f"{files:3} files  {name:11} {total:6.2f} processor s (user {user:.2f}, system {system:.2f})  {packets / total / 1e6:6.2f} M packets/s  {peak:6.1f} MiB", flush=True)
    for name in best:
        costs[name, files] = best[name][0]
    for name in names:
        os.remove(name)

for files in numbers:
    for name in ("mergecap", "cat"):
        if (name, files) in costs and ("capt merge", files) in costs:
            print(f"{files:3} files  capt merge / {name}: {costs['capt merge', files] / costs[name, files]:.2f}")
PY
