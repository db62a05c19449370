#!/usr/bin/env bash
# What a walk by libcapt costs beside libpcap's, and by the binding for Python beside dpkt's and scapy's readers, where they
# are installed: processor seconds (user and system, the best of several runs that come in turn) as ratios.
#
# libpcap reads its file by read(2) and gives times in nanoseconds; libcapt walks a mapped file and gives exact times, of pcapng
# files with several units too. Both look at the last byte of each packet. Inputs of 200 MB each: packets of 64 bytes, and of 64
# to 1,514, as pcap and as pcapng.
#
# Use: bench/clib.sh LIBRARY-FOLDER [PROGRAM] [RUNS]     (LIBRARY-FOLDER as ./build.sh lib leaves it)
set -eu
top=$(cd "$(dirname "$0")/.." && pwd)
library=$(realpath "$1")
program=$(realpath "${2:-$top/crates/capt/out/capt}")
runs=${3:-7}
work=$(mktemp -d "${TMPDIR:-/tmp}/capt-clib.XXXXXX")
trap 'rm -rf "$work"' EXIT
if echo '#include <pcap.h>' | cc -E - > /dev/null 2>&1; then words=(-DLIBPCAP); link=(-lpcap); else words=(); link=(); fi
cc -O2 "${words[@]}" -I "$library" -o "$work/clib" "$top/bench/clib.c" "$library/libcapt.a" "${link[@]}"
cd "$work"
CAPT_LIBRARY=$library/libcapt.so PYTHONPATH="$top/bench:$top/bindings/python" PYTHONDONTWRITEBYTECODE=1 python3 - "$program" "$runs" "${words[*]-}" <<'PY'
import importlib.util, struct, subprocess, sys
from measure import measure

program, runs, has_libpcap = sys.argv[1], int(sys.argv[2]), bool(sys.argv[3])
HEADER = bytes.fromhex("d4c3b2a1" "02000400" "00000000" "00000000" "00000400" "01000000")

def make(name, sizes, least):
    with open(name, "wb") as out:
        out.write(HEADER)
        number = 0
        while out.tell() < least:
            part = []
            for _ in range(1000):
                size = sizes[number % len(sizes)]
                part.append(struct.pack("<IIII", number // 1000, number % 1000 * 1000, size, size) + bytes([number & 255]) * size)
                number += 1
            out.write(b"".join(part))

def compare(title, commands, times=runs):
    """The best of each command's runs, which come in turn, and its ratio to the first's."""
    seconds = {name: [] for name in commands}
    for _ in range(times):
        for name, words in commands.items():
            seconds[name].append(measure(words)[0])
    least = {name: min(of) for name, of in seconds.items()}
    other = list(least)[-1]
    print(f"| {title} | " + " | ".join(f"{name} {of:.3f} s" for name, of in least.items()) + " | "
          + ", ".join(f"{name} {of / least[other]:.2f} of {other}" for name, of in least.items() if name != other) + " |", flush=True)

make("small.pcap", [64], 200_000_000)
make("mixed.pcap", [64, 1514, 90, 1514, 576, 1514, 128, 1000], 200_000_000)
for name in ("small", "mixed"):
    subprocess.run([program, "convert", "--to", "pcapng", "-o", f"{name}.pcapng", f"{name}.pcap"], check=True)
    for kind in ("pcap", "pcapng"):
        file = f"{name}.{kind}"
        ways = ["next", "many"] + ["libpcap"] * has_libpcap
        told = {subprocess.run(["./clib", way, file], stdout=subprocess.PIPE, check=True).stdout for way in ways}
        assert len(told) == 1, told
        compare(file, {way: ["./clib", way, file] for way in ways})

make("part.pcap", [64, 1514, 90, 1514, 576, 1514, 128, 1000], 20_000_000)
WALKS = {
    "capt": "import capt, sys; print(sum(len(packet.data) for packet in capt.Capture(sys.argv[1])))",
    "dpkt": "import dpkt, sys; print(sum(len(data) for time, data in dpkt.pcap.Reader(open(sys.argv[1], 'rb'))))",
    "scapy": "import sys\nfrom scapy.utils import RawPcapReader\nprint(sum(len(data) for data, meta in RawPcapReader(sys.argv[1])))",
}
there = {name: [sys.executable, "-c", walk, "part.pcap"] for name, walk in WALKS.items() if importlib.util.find_spec(name)}
compare("part.pcap, Python", there, 3)
PY
