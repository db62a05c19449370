#!/usr/bin/env bash
# What each command of capt costs, beside `cat`, `dd`, plain C programs (count.c, info.c, a loop that copies text) and
# its peers where they are installed. One table of ratios.
#
# A peer gets the options with which its work is nearest to capt's. What it does besides, and what it leaves out:
#   tshark -n -q -z conv,udp -z conv,tcp   each packet goes through all dissectors; no other protocols' conversations
#   capinfos -Tmtcdae                      type, packets, bytes, first and last time: without options it also computes
#                                          three hashes of the file; no truncated packets, no skipped blocks
#   tcpdump -nn -tt -q                     looks into the headers, and prints no place and no bytes of a packet; without
#                                          -tt it also calculates local times
#   sha256sum                              hashes the file's bytes: 16 of each record besides its data, a digest 42
#   editcap -F, mergecap -I none -F        carry on comments and other options; -I none keeps all files' interfaces
# A plain C program checks no more than the lengths that it reads past: count.c knows neither tags nor fragments. What
# writes files is compared with a `dd` by 64 KiB, which reads and writes the bytes of its inputs: in `cat FILE > OUT`
# of coreutils the kernel copies them, which is no floor for a program that looks at packets.
#
# Makes its inputs (deterministic, in a folder of its own that is removed again; sizes at 100 percent):
#   mixed.pcap   1,470,000 packets of 64 to 1,514 bytes in 1,000 conversations, 1.2 GB
#   small.pcap   5,000,000 packets of 64 bytes in 1,000 conversations, in random order, 0.4 GB
#   turns.pcap   as many, one of each conversation in turn, which a processor learns to foresee
#   many.pcap    2,000,000 packets of 64 bytes in 1,000,000 conversations, 0.16 GB
#   far.pcap     800,000 fragments of 8 bytes, each of which opens a group of 65,512 bytes, 47 MB
#   part1 to 8   1,200,000 packets of 64 to 1,514 bytes, whose times come in turn, 1 GB together
# and mixed.pcapng and small.pcapng, which capt makes of the first two. tshark, which takes a hundred times as long,
# reads a twentieth of each, and so does capt beside it. Holds the conversations that capt prints to those of count.c,
# and what it prints of a file to what info.c counts: `info` all of it, `check` the packets and how many of them are
# truncated.
#
# Prints a table in Markdown. Its ratios are processor seconds of capt (user and system, the best of several runs) by
# those of another program in the same run, whose runs come in turn; where a row has two inputs, one for each. The
# last column is the greatest peak of capt's resident memory. Plain C is count.c for report, info.c for info and
# check, and for list and blocks a loop that copies their text. The peer is the program above; for diff it is info of
# both files, and for --json the same command's text. Aims: report at most 1.4 of count.c in random order, 1.6 in
# turn, 1.05 on mixed sizes (2 on many), info 1.5 of info.c, diff 1.5 of info of both files, convert and merge 1.8 of
# `dd`, a third of editcap and half of mergecap on small packets.
#
# Use: bench/all.sh [PROGRAM] [PERCENT OF THE SIZES] [RUNS]
set -eu
top=$(cd "$(dirname "$0")/.." && pwd)
program=$(realpath "${1:-$top/crates/capt/out/capt}")
percent=${2:-100}
runs=${3:-5}
if [ ! -x "$program" ]; then
    (cd "$top/crates/capt" && rt run -- --help > /dev/null)
fi
work=$(mktemp -d "${TMPDIR:-/tmp}/capt-all.XXXXXX")
trap 'rm -rf "$work"' EXIT
cc -O2 -o "$work/count" "$top/bench/count.c"
cc -O2 -o "$work/info" "$top/bench/info.c"
cat > "$work/copy.c" <<'C'
#include <stdio.h>
int main(int count, char **words) {
    FILE *text = count > 1 ? fopen(words[1], "rb") : NULL;
    if (!text) return 1;
    for (int byte; (byte = getc_unlocked(text)) != EOF;) putc_unlocked(byte, stdout);
    return fflush(stdout) != 0;
}
C
cc -O2 -o "$work/copy" "$work/copy.c"

cd "$work"
PYTHONPATH="$top/bench" PYTHONDONTWRITEBYTECODE=1 python3 - "$program" "$percent" "$runs" <<'PY'
import os, platform, random, shutil, subprocess, sys
from captures import SIZES, far, frame, make
from measure import measure

program, percent, runs = sys.argv[1], int(sys.argv[2]), int(sys.argv[3])
mixed = [frame(i * 37 % 1000, i % 3 == 0, SIZES[i % 8]) for i in range(8000)]
small = [frame(i, back, 64) for i in range(1000) for back in (False, True)]
turns = [frame(i, i % 3 == 0, 64) for i in range(1000)]
choice = random.Random(1)
talks = max(1, 10_000 * percent)
make("mixed.pcap", 14_700 * percent, lambda i: mixed[i % 8000])
make("small.pcap", 50_000 * percent, lambda i: small[choice.randrange(2000)])
make("turns.pcap", 50_000 * percent, lambda i: turns[i % 1000])
make("many.pcap", 2 * talks, lambda i: frame(i * 617 % talks, i >= talks, 64))
make("far.pcap", 8_000 * percent, far)
some = max(1, talks // 20)
make("part_of_mixed.pcap", 735 * percent, lambda i: mixed[i % 8000])
make("part_of_small.pcap", 2_500 * percent, lambda i: small[choice.randrange(2000)])
make("part_of_turns.pcap", 2_500 * percent, lambda i: turns[i % 1000])
make("part_of_many.pcap", 2 * some, lambda i: frame(i * 617 % some, i >= some, 64))
parts = [f"part{n}.pcap" for n in range(1, 9)]
for n, part in enumerate(parts):
    make(part, 1_500 * percent, lambda i: mixed[i % 8000], n, 8)
for name in ("mixed", "small"):
    subprocess.run([program, "convert", "--to", "pcapng", "-o", f"{name}.pcapng", f"{name}.pcap"], check=True)

def lines(words, start):
    """What a program prints from the first line that begins so."""
    text = subprocess.run(words, check=True, capture_output=True).stdout
    return text[text.index(start):]

for name in ("mixed", "small", "turns", "many"):
    assert lines([program, "report", f"{name}.pcap"], b"talks ") == lines(["./count", f"{name}.pcap"], b"talks "), name
for name in ("mixed.pcap", "small.pcap", "mixed.pcapng", "small.pcapng"):
    told = lines([program, "info", name], b"file 1").replace(b" skipped 0", b"")
    assert told == lines(["./info", name], b"file 1"), name
    counted, checked = lines(["./info", name], b"file 1").split(), lines([program, "check", name], b"check 1").split()
    assert [checked[place] for place in (4, 16, -1)] == [counted[4], counted[8], b"whole"], name

def ratios_of(own, beside):
    """How capt's processor seconds compare with those of others, which run in turn with it; and its peak of memory."""
    best = {}
    for _ in range(runs):
        for name, words in {"capt": own, **beside}.items():
            if shutil.which(words[0]) and (taken := measure(words, ["out"])):
                best[name] = min(taken, best.get(name, taken))
    peak = max([taken[4] for name, taken in best.items() if name == "capt"])
    return {name: best["capt"][0] / max(taken[0], 0.001) for name, taken in best.items() if name != "capt"}, peak

def row(command, source, *variants):
    """Prints how capt compares with others. Each variant has capt's words, and those of the others by column."""
    cells, peaks = {"C": [], "peer": [], "copy": []}, []
    for own, beside in variants:
        apart = beside.pop("apart", None)
        ratios, peak = ratios_of(own, beside)
        if apart:
            ratios["peer"] = ratios_of(*apart)[0].get("peer", 0)
        peaks.append(peak)
        for name, ratio in ratios.items():
            cells[name].append(f"{ratio:.2f}")
    columns = [command, source, *(", ".join(it) for it in cells.values()), f"{max(peaks):.1f}"]
    print("| " + " | ".join(columns) + " |", flush=True)
    return max(peaks)

def copy(*names):
    return ["sh", "-c", 'for name; do dd if="$name" bs=64K status=none; done > out', "sh", *names]

with open("/proc/cpuinfo") as info:
    model = next((line.split(":")[1].strip() for line in info if line.startswith("model name")), platform.machine())
load = os.getloadavg()[0]
print(f"{model}, {os.cpu_count()} processors, load {load:.1f}; {percent} percent of the sizes, best of {runs} runs\n")
print("| command | input | plain C | peer | `cat`, `dd` | MiB |")
print("|---|---|---|---|---|---|")
KINDS = {
    "mixed": "mixed sizes",
    "small": "small packets in random order",
    "turns": "small packets in turn",
    "many": "two small packets a conversation",
}
FORMS = ("pcap", "pcapng")
peaks = {}
for name, kind in KINDS.items():
    file, part = f"{name}.pcap", f"part_of_{name}.pcap"
    tshark = ["tshark", "-n", "-q", "-z", "conv,udp", "-z", "conv,tcp", "-r", part]
    apart = ([program, "report", part], {"peer": tshark})
    beside = {"C": ["./count", file], "apart": apart, "copy": ["cat", file]}
    peaks[name] = row("`report`", kind, ([program, "report", file], beside))

def beside_info(command, file):
    peer = {"peer": ["capinfos", "-Tmtcdae", file], "copy": ["cat", file]} if command == "info" else {}
    return [program, command, file], {"C": ["./info", file], **peer}

for command in ("info", "check"):
    for name, kind in (("mixed", "mixed sizes"), ("small", "small packets")):
        row(f"`{command}`", f"{kind}, pcap and pcapng", *(beside_info(command, f"{name}.{form}") for form in FORMS))
files = ("mixed.pcap", "small.pcap")
row("`digest`", "mixed sizes, small packets", *(([program, "digest", it], {"peer": ["sha256sum", it]}) for it in files))

def beside_text(command, file):
    text = f"text of {command} {file}"
    with open(text, "wb") as out:
        subprocess.run([program, command, file], check=True, stdout=out)
    peer = {"peer": ["tcpdump", "-nn", "-tt", "-q", "-r", file]} if command == "list" else {}
    return [program, command, file], {"C": ["./copy", text], **peer}

row("`list`", "small packets, pcap and pcapng", *(beside_text("list", f"small.{form}") for form in FORMS))
row("`blocks`", "small packets", beside_text("blocks", "small.pcapng"))
for text in [it for it in os.listdir() if it.startswith("text of ")]:
    os.remove(text)
json = [("list", "small.pcap"), ("blocks", "small.pcapng"), ("report", "many.pcap")]
with_json = (([program, it, "--json", file], {"peer": [program, it, file]}) for it, file in json)
row("`list`, `blocks`, `report` `--json`", "small packets", *with_json)
pairs = [(f"{name}.pcap", f"{name}.pcapng") for name in ("mixed", "small")]
compared = (([program, "diff", *it], {"peer": [program, "info", *it], "copy": ["cat", *it]}) for it in pairs)
row("`diff`", "mixed sizes, small packets", *compared)

def converted(source, target):
    words = [program, "convert", "--to", target, "-o", "out", source]
    return words, {"peer": ["editcap", "-F", target, source, "out"], "copy": copy(source)}

for name, kind in (("mixed", "mixed sizes"), ("small", "small packets")):
    both = converted(f"{name}.pcap", "pcapng"), converted(f"{name}.pcapng", "pcap")
    row("`convert`", f"{kind}, to pcapng and to pcap", *both)
small = ["small.pcap", "small.pcapng"]
for kind, files in (("8 files of mixed sizes", parts), ("small packets, a file of each format", small)):
    mergecap = ["mergecap", "-I", "none", "-F", "pcapng", "-w", "out", *files]
    row("`merge`", kind, ([program, "merge", "-o", "out", *files], {"peer": mergecap, "copy": copy(*files)}))
row("`join`", "small packets", ([program, "join", "-o", "out", "small.pcap"], {"copy": copy("small.pcap")}))
commands = (["report"], ["join", "-o", "out"])
far = (([program, *it, "far.pcap"], {"copy": ["cat", "far.pcap"]}) for it in commands)
row("`report`, `join`", "fragments that each open a group", *far)
more = (peaks["many"] - peaks["small"]) * 2**20 / max(1, talks - 1000)
print(f"\nEach further conversation takes {more:.0f} bytes of memory.")
PY
