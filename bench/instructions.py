#!/usr/bin/env python3
"""What a 64-byte packet costs each command, in instructions: what 200,000 packets cost more than 100,000, by callgrind.

The packets are of 1,000 conversations, in random order; of 32 files, each packet is in a file at random. Instructions
don't depend on what else the machine does, and say little of memory and of branches. It prints a table in Markdown.

Use: bench/instructions.py PROGRAM [WORD]..     of the rows that have one of the words (it needs valgrind and a C
                                                compiler)
"""
import sys

sys.dont_write_bytecode = True

import os, pathlib, random, re, struct, subprocess, tempfile
from concurrent.futures import ThreadPoolExecutor

from captures import HEADER, frame

LESS, MORE = 100_000, 200_000
FRAMES = [frame(i, back, 64) for i in range(1000) for back in (False, True)]
# Resolutions of interfaces, as if_tsresol has them: micro- and nanoseconds, 2^-20 and 10^-7 of a second.
RESOLUTIONS = {6: 10**6, 9: 10**9, 0x80 | 20: 2**20, 7: 10**7}


def pcap(packets):
    """A pcap file of frames with times in milliseconds."""

    def record(ms, data):
        return struct.pack("<IIII", 1000 + ms // 1000, ms % 1000 * 1000, len(data), len(data)) + data

    return HEADER + b"".join(record(*it) for it in packets)


def pcapng(packets, resolution):
    """A pcapng file of the same, with times in units of a resolution, rounded down."""

    def block(kind, body):
        size = struct.pack("<I", len(body) + 12)
        return struct.pack("<I", kind) + size + body + size

    def packet(ms, data):
        high, low = divmod((1_000_000 + ms) * RESOLUTIONS[resolution] // 1000, 2**32)
        return block(6, struct.pack("<IIIII", 0, high, low, len(data), len(data)) + data)

    options = struct.pack("<HHB3xHH", 9, 1, resolution, 0, 0)
    section = block(0x0A0D0D0A, struct.pack("<IHHq", 0x1A2B3C4D, 1, 0, -1))
    interface = block(1, struct.pack("<HHI", 1, 0, 262144) + options)
    return section + interface + b"".join(packet(*it) for it in packets)


def make(folder, count):
    """Writes the captures of so many packets: the names of small.pcap, of small.pcapng, and twice of 32 files."""
    choice = random.Random(1)
    packets = [(i, FRAMES[choice.randrange(len(FRAMES))]) for i in range(count)]
    parts = [[] for _ in range(32)]
    for packet in packets:
        parts[choice.randrange(32)].append(packet)
    files = {"small.pcap": pcap(packets), "small.pcapng": pcapng(packets, 6)}
    files |= {f"alike{n}.pcap": pcap(part) for n, part in enumerate(parts)}
    files |= {f"unlike{n}.pcapng": pcapng(part, list(RESOLUTIONS)[n % 4]) for n, part in enumerate(parts)}
    for name, content in files.items():
        pathlib.Path(folder, name).write_bytes(content)


ALIKE, UNLIKE = [f"alike{n}.pcap" for n in range(32)], [f"unlike{n}.pcapng" for n in range(32)]
OUT = ["-o", "/dev/null"]
# What a row names, and the commands of its figures.
ROWS = {
    "report, of pcapng": [["report", "small.pcap"], ["report", "small.pcapng"]],
    "info, of pcapng": [["info", "small.pcap"], ["info", "small.pcapng"]],
    "check, of pcapng": [["check", "small.pcap"], ["check", "small.pcapng"]],
    "list": [["list", "small.pcap"]],
    "blocks": [["blocks", "small.pcapng"]],
    "diff": [["diff", "small.pcap", "small.pcapng"]],
    "digest": [["digest", "small.pcap"]],
    "convert to pcapng, to pcap": [
        ["convert", "--to", "pcapng", *OUT, "small.pcap"],
        ["convert", "--to", "pcap", *OUT, "small.pcapng"],
    ],
    "merge": [["merge", *OUT, "small.pcap"]],
    "merge of 32 files, of four resolutions": [["merge", *OUT, *ALIKE], ["merge", *OUT, *UNLIKE]],
    "join": [["join", *OUT, "small.pcap"]],
}


def instructions(words, folder):
    """How many instructions a run takes."""
    words = ["valgrind", "--tool=callgrind", "--callgrind-out-file=/dev/null", *words]
    run = subprocess.run(words, cwd=folder, capture_output=True, text=True)
    counted = re.search(r"Collected : (\d+)", run.stderr)
    if run.returncode != 0 or not counted:
        sys.exit(f"{' '.join(words)}: status {run.returncode}: {run.stderr[-300:]}")
    return int(counted[1])


def main(words):
    if not words:
        sys.exit(__doc__)
    program, here = os.path.realpath(words[0]), os.path.dirname(os.path.realpath(__file__))
    with tempfile.TemporaryDirectory(prefix="capt-instructions-") as folder:
        for count in (LESS, MORE):
            os.mkdir(f"{folder}/{count}")
            make(f"{folder}/{count}", count)
        subprocess.run(["cc", "-O2", "-o", f"{folder}/count", f"{here}/count.c"], check=True)
        rows = {name: [[program, *words] for words in row] for name, row in ROWS.items()}
        rows["plain C that counts conversations"] = [[f"{folder}/count", "small.pcap"]]
        rows = {name: row for name, row in rows.items() if not words[1:] or any(word in name for word in words[1:])}

        def cost(row):
            more, less = (instructions(row, f"{folder}/{count}") for count in (MORE, LESS))
            return (more - less) / (MORE - LESS)

        with ThreadPoolExecutor(os.cpu_count()) as pool:
            print("| command | instructions |\n|---|---|")
            costs = pool.map(cost, [words for row in rows.values() for words in row])
            for name, row in rows.items():
                print(f"| {name} | {', '.join(f'{next(costs):,.0f}' for _ in row)} |", flush=True)


if __name__ == "__main__":
    main(sys.argv[1:])
