#!/usr/bin/env bash
# What `capt join` costs on fragments that a sender may choose, beside a plain C program of the same rules (join.c).
#
# Makes a pcap file for each row (deterministic, in a folder of its own that is removed again), runs both programs on
# it, sees that both join as many datagrams of the same bytes, and prints the processor seconds of each (user and
# system, the best of several runs) and their ratio. The fragments have 8 bytes each. Aims: in the rows of groups and of
# offsets at most 5 times plain C, and within a tenth of one another with one group open and with 1,023 others; in the
# rows of holes, whose list must be walked, at most 60 times.
#
# Use: bench/join.sh [PROGRAM] [PERCENT OF THE ROWS' SIZES] [RUNS] [WORDS OF THE ROWS..]
set -eu
top=$(cd "$(dirname "$0")/.." && pwd)
program=${1:-$top/crates/capt/out/capt}
percent=${2:-100}
runs=${3:-3}
shift $(($# < 3 ? $# : 3))
if [ ! -x "$program" ]; then
    (cd "$top/crates/capt" && rt run > /dev/null)
fi
work=$(mktemp -d "${TMPDIR:-/tmp}/capt-join.XXXXXX")
trap 'rm -rf "$work"' EXIT
cc -O2 -o "$work/plain" "$top/bench/join.c"

PYTHONPATH="$top/bench" PYTHONDONTWRITEBYTECODE=1 python3 - "$program" "$work" "$percent" "$runs" "$@" <<'PY'
import random, struct, subprocess, sys
from measure import measure

program, work, percent, runs, words = sys.argv[1], sys.argv[2], int(sys.argv[3]), int(sys.argv[4]), sys.argv[5:]
HEADER = bytes.fromhex("d4c3b2a1" "02000400" "00000000" "00000000" "00000400" "65000000")
LAST = 8188     # the last block of a datagram of 8,189 fragments

def some(number):
    return max(number * percent // 100, 1)

def fragment(key, block, more, micros, data=None):
    """A fragment of 8 bytes, or of the bytes given, of protocol 253; `key` is its datagram's number."""
    data = struct.pack("<II", block, key) if data is None else data
    packet = struct.pack(">BBHHHBBHII", 0x45, 0, 20 + len(data), key % 65536, block + 0x2000 * more, 64, 253, 0, 0x0a000000 + key // 65536, 0x0a000002) + data
    return struct.pack("<IIII", 1000 + micros // 1000000, micros % 1000000, len(packet), len(packet)) + packet

def last(key, micros):
    return fragment(key, LAST, 0, micros, b"last")

def one_group(others):
    for key in range(others):
        yield fragment(1000 + key, 0, 1, 0)
    for i in range(some(1000000)):
        yield fragment(7, i % 64, 1, i % 10)

def new_keys(step):
    for i in range(some(1000000)):
        yield fragment(i, 0, 1, i * step)

def far(others, keys, step):
    """Fragments of the block 8,188, each of which opens a group of 65,512 bytes."""
    for key in range(others):
        yield fragment(5000000 + key, 8188, 1, 0)
    for i in range(some(800000)):
        yield fragment(i % keys, 8188, 1, i * step)

def pairs(others):
    for key in range(others):
        yield fragment(5000000 + key, 0, 1, 0)
    for i in range(some(500000)):
        yield fragment(i, 0, 1, 1)
        yield fragment(i, 1, 0, 1)

def copies(holes):
    for block in range(1, 2 * holes, 2):
        yield fragment(7, block, 1, 0)
    for _ in range(some(200000)):
        yield last(7, 1)

def ordered(order):
    for key in range(some(40)):
        for block in order(list(range(LAST + 1))):
            yield last(key, key) if block == LAST else fragment(key, block, 1, key)

def shuffled(blocks):
    random.Random(8189).shuffle(blocks)
    return blocks

ROWS = {
    "groups: one open": lambda: one_group(0),
    "groups: 1,023 others open": lambda: one_group(1023),
    "groups: pairs": lambda: pairs(0),
    "groups: pairs, 1,022 others open": lambda: pairs(1022),
    "groups: new keys, the oldest given up": lambda: new_keys(1),
    "groups: new keys, the oldest too old": lambda: new_keys(40000),
    "offsets: new keys, the oldest given up": lambda: far(0, 800000, 1),
    "offsets: new keys, 1,024 others open": lambda: far(1024, 800000, 0),
    "offsets: new keys, each too old at the next": lambda: far(0, 800000, 31000000),
    "offsets: one key, too old at the next": lambda: far(0, 1, 31000000),
    "holes: copies of the last block, no hole": lambda: copies(0),
    "holes: copies of the last block, 4,094 holes": lambda: copies(4094),
    "holes: rising": lambda: ordered(lambda blocks: blocks),
    "holes: falling": lambda: ordered(lambda blocks: blocks[::-1]),
    "holes: even, then odd": lambda: ordered(lambda blocks: blocks[::2] + blocks[1::2]),
    "holes: even, then odd falling": lambda: ordered(lambda blocks: blocks[::2] + blocks[1::2][::-1]),
    "holes: random": lambda: ordered(shuffled),
}

def data_of(name):
    """What a file's packets hold, as `capt list` tells it."""
    lines = subprocess.run([program, "list", name], check=True, capture_output=True, text=True).stdout.splitlines()
    return [line.partition(" data ")[2] for line in lines]

for row, packets in ROWS.items():
    if words and not any(word in row for word in words):
        continue
    name, ours, theirs = f"{work}/in.pcap", f"{work}/ours", f"{work}/theirs"
    with open(name, "wb") as out:
        out.write(HEADER)
        for packet in packets():
            out.write(packet)
    commands = {"capt": [program, "join", "-o", ours, name], "C": [f"{work}/plain", name, theirs]}
    best = {}
    for _ in range(runs):
        for who, command in commands.items():
            taken = measure(command, [command[3] if who == "capt" else command[2]])
            if taken:
                best[who] = min(taken, best.get(who, taken))
    joined = data_of(ours)
    if joined != data_of(theirs):
        sys.exit(f"{row}: the programs differ")
    capt, plain = best["capt"][0], max(best["C"][0], 0.001)
    print(f"{row:46} {len(joined):7} joined  capt {capt:6.3f} s  C {plain:6.3f} s  ratio {capt / plain:6.1f}  peak {best['capt'][4]:5.1f} MiB", flush=True)
PY
