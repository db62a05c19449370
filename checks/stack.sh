#!/usr/bin/env bash
# That joining needs little stack, whatever the order of the fragments: `capt join` with a stack of 128 KiB over
# datagrams of 8,189 fragments, whose buffer has 4,094 holes at once.
#
# Use: checks/stack.sh [PROGRAM]     (as after `rt run` or `rt ci` in crates/capt)
set -u
top=$(cd "$(dirname "$0")/.." && pwd)
program=${1:-$top/crates/capt/out/capt}
work=$(mktemp -d)
trap 'rm -rf "$work"' EXIT

python3 - > "$work/holes.pcap" <<'PY'
import struct, sys
LAST = 8188
blocks = list(range(LAST + 1))
orders = [
    blocks[1::2] + blocks[::2],
    blocks[::2] + blocks[1::2],
    blocks[::2] + blocks[1::2][::-1],
    blocks[::2][::-1] + blocks[1::2],
    blocks[::2] + [0, LAST] * 50 + blocks[1::2],
]
out = sys.stdout.buffer
out.write(struct.pack("<IHHIIII", 0xa1b2c3d4, 2, 4, 0, 0, 0x40000, 101))
for key, order in enumerate(orders):
    for block in order:
        place = block + 0x2000 * (block != LAST)
        packet = struct.pack(">BBHHHBBHII", 0x45, 0, 28, key, place, 64, 253, 0, 0x0a000001, 0x0a000002) + bytes(8)
        out.write(struct.pack("<IIII", 1000 + key, 0, 28, 28) + packet)
PY

(ulimit -s 128 && "$program" join -o "$work/joined.pcapng" "$work/holes.pcap")
status=$?
count=$("$program" list "$work/joined.pcapng" | wc -l)
if [ "$status" = 0 ] && [ "$count" = 5 ]; then
    echo '1 passed, 0 failed'
else
    echo "joined with a stack of 128 KiB: status $status, $count datagrams of 5"
    echo '0 passed, 1 failed'
    exit 1
fi
