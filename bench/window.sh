#!/usr/bin/env bash
# What reading through a window costs, beside `cat FILE > /dev/null` in the same run.
#
# Makes 1 GB of bytes (deterministic, in a folder of its own that is removed again), builds a small
# program over cap_bytes, and prints, for each way of reading, the processor seconds (user and
# system) and their ratio to cat's. Aim: at most 1.2.
#
# Use: bench/window.sh [MEGABYTES]
set -eu
megabytes=${1:-1000}
top=$(cd "$(dirname "$0")/.." && pwd)
work=$(mktemp -d "${TMPDIR:-/tmp}/capt-window.XXXXXX")
trap 'rm -rf "$work"' EXIT

mkdir -p "$work/crates/window_bench/src"
cp -r "$top/crates/cap_bytes" "$work/crates/"
cp "$top/HANDLES" "$work/"
printf 'cap_bytes: byteorder thiserror\nwindow_bench: cap_bytes anyhow\n' > "$work/crates.txt"
cat > "$work/crates/window_bench/src/main.rt" <<'RT'
#![tactic(auto)]

use anyhow::{Result, anyhow};
use cap_bytes::{Source, Tracked, Window};
use std::env;
use std::fs::File;

const LIMIT: u64 = 1 << 39;

// Shows and drops `piece` bytes at a time, as many as a record has.
fn by_need<R: Source>(window: &mut Window<R>, piece: u16) -> Result<u64> {
    let piece = usize::from(piece);
    for _ in 0..LIMIT {
        if !window.need(piece).map_err(|fault| anyhow!("{fault}"))? {
            break;
        }
        if window.offset() > LIMIT || window.bytes().len() < piece {
            break;
        }
        window.pass(piece);
    }
    Ok(window.offset())
}

// Drops all at once.
fn by_skip<R: Source>(window: &mut Window<R>) -> Result<u64> {
    if window.offset() <= LIMIT {
        window.skip(LIMIT).map_err(|fault| anyhow!("{fault}"))?;
    }
    Ok(window.offset())
}

fn main(rt: HostRuntime) -> Result<()> {
    let mut words = env::args(&rt)?;
    let _program = words.next();
    let how = words.next().ok_or(anyhow!("how many bytes at a time, or skip?"))?;
    let name = words.next().ok_or(anyhow!("which file?"))?;
    let mut window = Window::new(rt.alloc(), Tracked::new(File::open(&rt, &name)?), 1);
    let read = match how.as_str() {
        "skip" => by_skip(&mut window)?,
        piece => by_need(&mut window, piece.parse()?)?,
    };
    println!(rt; "{read}")?;
    Ok(())
}
RT
touch "$work/empty"
(cd "$work/crates/window_bench" && rt run -- 80 "$work/empty" > "$work/log" 2>&1) || { tail -20 "$work/log" >&2; exit 1; }
program=$work/crates/window_bench/out/window_bench
[ -x "$program" ] || { echo "no program was built" >&2; exit 1; }

python3 - "$work/input" "$megabytes" <<'PY'
import sys
block = bytes((i * 131 + (i >> 8) * 17) % 256 for i in range(1 << 20))
with open(sys.argv[1], "wb") as out:
    for _ in range(int(sys.argv[2])):
        out.write(block)
PY
cat "$work/input" > /dev/null

python3 - "$program" "$work/input" <<'PY'
import os, resource, subprocess, sys

program, name = sys.argv[1:]

def seconds(words):
    best = None
    for _ in range(5):
        before = resource.getrusage(resource.RUSAGE_CHILDREN)
        with open(os.devnull, "wb") as out:
            subprocess.run(words, stdout=out, check=True)
        after = resource.getrusage(resource.RUSAGE_CHILDREN)
        used = (after.ru_utime - before.ru_utime) + (after.ru_stime - before.ru_stime)
        best = used if best is None else min(best, used)
    return best

cat = seconds(["cat", name])
print(f"cat FILE > /dev/null         {cat:7.3f} s")
ways = [
    ("80", "need and pass, by 80 bytes"),
    ("1516", "need and pass, by 1,516"),
    ("16400", "need and pass, by 16,400"),
    ("skip", "skip, all at once"),
]
for how, what in ways:
    used = seconds([program, how, name])
    print(f"{what:28} {used:7.3f} s   {used / cat:5.2f} times cat")
PY
