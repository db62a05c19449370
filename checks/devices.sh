#!/usr/bin/env bash
# Which file an output is goes by the device and by the number there: a file on another device with an input's number is written, and the
# input itself, under another name, is refused. Two file systems in memory that are mounted for this alone number their files alike.
#
# Use: checks/devices.sh [PROGRAM]     (as after `rt run` or `rt ci` in crates/capt; a second)
set -u
top=$(cd "$(dirname "$0")/.." && pwd)
program=$(realpath "${1:-$top/crates/capt/out/capt}")
work=$(mktemp -d)
trap 'rm -rf "$work"' EXIT
mkdir "$work/a" "$work/b"
cp "$top/examples/trace.pcap" "$work/trace.pcap"

# In a process whose mounts nobody else sees: the first file of each of two file systems. Where no mount is allowed it has no output.
tried() {
    unshare "$1" bash -c '
        cd "$1" && mount -t tmpfs a a && mount -t tmpfs b b || exit 1
        cp trace.pcap a/in.pcap && : > b/out.pcap && ln a/in.pcap a/same.pcap && ln -s ../a/in.pcap b/link.pcap
        stat -c %i a/in.pcap b/out.pcap | uniq | wc -l
        for out in b/out.pcap a/same.pcap b/link.pcap; do "$2" convert --to pcap -o "$out" a/in.pcap 2>&1; echo "$out $?"; done
        "$2" merge -o a/same.pcap trace.pcap trace.pcap a/in.pcap 2>&1; echo "the third $?"
        cmp a/in.pcap trace.pcap && echo "the input stays"
        "$2" list b/out.pcap
    ' devices "$work" "$program" 2> /dev/null
}
shown=$(tried -m) || shown=$(tried -Urm) || { echo "no mount is allowed here, so nothing was tried"; echo "0 passed, 0 failed"; exit 0; }
want="1
b/out.pcap 0
fault: create output
a/same.pcap 1
fault: create output
b/link.pcap 1
fault: create output
the third 1
the input stays
packet 1 offset 24 time 2+500000/1000000 captured 4 original 4 link 1 data 01020304"
if [ "$shown" = "$want" ]; then echo "1 passed, 0 failed"; exit 0; fi
echo "$shown"
echo "0 passed, 1 failed"
exit 1
