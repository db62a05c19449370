#!/usr/bin/env bash
# What a sender can make dear: keys that collide in capt's tables, beside plain ones, in `capt report` of conversations and
# `capt join` of fragments of 1,023 open groups, which are found by keys.c, since the table's hash has a fixed seed; and
# groups without a time, which are never too old, before groups that each are; and fragments that open groups of 65,512
# bytes, beside the same that open groups of 8.
#
# Makes the files in a folder of its own that is removed again, and prints the seconds of the search, the processor seconds
# of each run and their ratio. No aim: with a seed of its own a table would have a ratio of 1.
#
# Use: bench/keys.sh [PROGRAM] [CONVERSATIONS] [RUNS]
set -eu
top=$(cd "$(dirname "$0")/.." && pwd)
program=${1:-$top/crates/capt/out/capt}
conversations=${2:-200000}
runs=${3:-1}
if [ ! -x "$program" ]; then
    (cd "$top/crates/capt" && rt run > /dev/null)
fi
work=$(mktemp -d "${TMPDIR:-/tmp}/capt-keys.XXXXXX")
trap 'rm -rf "$work"' EXIT
cc -O2 -o "$work/keys" "$top/bench/keys.c"

PYTHONPATH="$top/bench" PYTHONDONTWRITEBYTECODE=1 python3 - "$program" "$work" "$conversations" "$runs" <<'PY'
import struct, sys
from measure import measure

program, work, conversations, runs = sys.argv[1], sys.argv[2], int(sys.argv[3]), int(sys.argv[4])

def make(kind, packets, bits):
    """A file, and the seconds that the search took."""
    name = f"{work}/{kind}-{packets}-{bits}"
    search = ["sh", "-c", '"$0" "$1" "$2" "$3" > "$4"', f"{work}/keys", kind, str(packets), str(bits), name]
    return name, measure(search)[3]

def best(words):
    return min(measure(words)[0] for _ in range(runs))

# the table has as many places as the least power of two above a ninth of its rows
bits = max(((conversations + 8) // 9 - 1).bit_length(), 0)
for count in (conversations // 2, conversations):
    plain, _ = make("talks", count, 0)
    chosen, searched = make("talks", count, bits)
    costs = [best([program, "report", name]) for name in (plain, chosen)]
    print(f"report, {count} conversations: plain {costs[0]:.2f} processor s, chosen {costs[1]:.2f}: {costs[1] / costs[0]:.0f} times "
          f"(found in {searched:.0f} s)", flush=True)
def block(kind, body):
    total = struct.pack("<I", len(body) + 12)
    return struct.pack("<I", kind) + total + body + total

def groups(untimed):
    """A pcapng file of first fragments: so many in simple packets, and 200,000 that are 40 seconds apart."""
    name = f"{work}/untimed-{untimed}"
    with open(name, "wb") as out:
        out.write(block(0x0A0D0D0A, struct.pack("<IHHq", 0x1A2B3C4D, 1, 0, -1)) + block(1, struct.pack("<HHI", 101, 0, 0)))
        for n in range(untimed + 200_000):
            packet = struct.pack(">BBHHHBBHII", 0x45, 0, 28, n % 65536, 0x2000, 64, 17, 0, 0x0A000001 + n // 65536, 0x0A000002) + bytes(8)
            units = n * 40_000_000
            head = struct.pack("<I", 28) if n < untimed else struct.pack("<IIIII", 0, units >> 32, units & 0xFFFFFFFF, 28, 28)
            out.write(block(3 if n < untimed else 6, head + packet))
    return name

def opened(first, others, keys, step):
    """A pcap file of fragments of 8 bytes that are so many microseconds apart, of so many keys in turn, after some others
    at once."""
    name = f"{work}/opened"
    with open(name, "wb") as out:
        out.write(bytes.fromhex("d4c3b2a1" "02000400" "00000000" "00000000" "00000400" "65000000"))
        for n in range(others + 800_000):
            key = n if n < others else others + (n - others) % keys
            time = max(n - others, 0) * step
            packet = struct.pack(">BBHHHBBHII", 0x45, 0, 28, key % 65536, 0x2000 + first, 64, 17, 0, 0x0A000001 + key // 65536, 0x0A000002)
            out.write(struct.pack("<IIII", 1000 + time // 1_000_000, time % 1_000_000, 28, 28) + packet + bytes(8))
    return name

APART = 31_000_000
for row, others, keys, step in (("new keys", 0, 800_000, 1), ("new keys beside 1,024 open groups", 1_024, 800_000, 0),
                                ("each too old at the next", 0, 800_000, APART), ("one key, too old at the next", 0, 1, APART)):
    costs = {}
    for first in (0, 8_188):
        name = opened(first, others, keys, step)
        costs[first] = best([program, "report", name]), best([program, "join", "-o", f"{work}/out", name])
    for n, command in enumerate(("report", "join")):
        low, high = costs[0][n], costs[8_188][n]
        print(f"{command}, 800000 fragments, {row}: at 0 {low:.2f} processor s, at 65504 {high:.2f}: {high / low:.1f} times", flush=True)

costs = [best([program, "join", "-o", f"{work}/out", make("groups", 1_000_000, bits)[0]]) for bits in (0, 20)]
print(f"join, 1000000 fragments of 1,023 open groups: plain {costs[0]:.2f} processor s, chosen {costs[1]:.2f}: {costs[1] / costs[0]:.1f} times")
costs = [best([program, "report", groups(untimed)]) for untimed in (0, 1_023)]
print(f"report, 200000 groups, each too old at the next: {costs[0]:.2f} processor s, after 1,023 groups without a time "
      f"{costs[1]:.2f}: {costs[1] / costs[0]:.0f} times")
PY
