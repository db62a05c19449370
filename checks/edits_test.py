#!/usr/bin/env python3
"""Tries frontend.py and edits.py on a small crate of their own, whose edits show what each counts as passed and as failed.

Use: checks/edits_test.py
"""
import sys

sys.dont_write_bytecode = True

import os, subprocess, tempfile, time

CHECKS = os.path.dirname(os.path.abspath(__file__))
FILES = {
    "crates.txt": "small:\n",
    "crates/small/src/lib.rt": """//! Small functions, whose edits are tried.
#![tactic(auto)]

ghost use Rattle.small.specs.Laws.{IsMore};
ghost use Rattle.std.specs.Prelude.{◌≡◌, ◌+◌, ◌*◌, ◌<◌, ◌≤◌, length};

const STEP: usize = 1;

pub fn next(count: usize) -> usize
    requires { count < 1000 }
    ensures { result ≡ count + 1 }
{
    count + STEP
}

pub fn second(count: usize) -> usize
    requires { count < 1000 }
    ensures { result ≡ count + 2 }
{
    count + 2
}

pub fn total(bytes: &[u8]) -> usize
    requires { length bytes.now ≤ 65536 }
    ensures { result ≤ 255 * length bytes.now }
{
    let mut sum: usize = 0;
    for byte in bytes {
        sum += *byte as usize;
    }
    sum
}

pub fn law()
    ensures { IsMore }
{
}
""",
    "crates/small/specs/Lib.antt": "pub mod Laws\n",
    "crates/small/specs/Laws.antt": """use Rattle.std.specs.Prelude.{◌+◌, ◌≤◌, ℕ}

abbrev pub IsMore : Type 0
IsMore = (n : ℕ) → n ≤ n + 1
""",
    "crates/small/proofs/total/Invariants.antt": """use Rattle.std.proofs.Common.{◌*◌, ◌≤◌}
use Rattle.small.proofs.total.Given as goal

abbrev pub invariant-loop-byte : goal.invariant-loop-byte
invariant-loop-byte l = l.sum ≤ 255 * l.byte-index
""",
}
# an edit, its text, what frontend.py says of it, and what edits.py says: nothing if it passes
EDITS = [
    ("next-by-three", "file: src/lib.rt\nold:     count + STEP\nnew:     count + 3\n", None, None),
    ("second-by-three", "file: src/lib.rt\nold:     count + 2\nnew:     count + 3\n", None, None),
    ("step-of-two", "of: next\nfile: src/lib.rt\nold: const STEP: usize = 1;\nnew: const STEP: usize = 2;\n", None, None),
    ("nothing-is-more", "of: law\nfile: specs/Laws.antt\nold: n ≤ n + 1\nnew: n + 1 ≤ n\n", None, None),
    ("text-gone", "file: src/lib.rt\nold:     count + 7\nnew:     count\n", "isn't in its file once", "isn't in its file once"),
    ("step-of-nobody", "file: src/lib.rt\nold: const STEP: usize = 1;\nnew: const STEP: usize = 2;\n", None, "nobody tries it"),
    ("next-the-same", "file: src/lib.rt\nold:     count + STEP\nnew:     STEP + count\n", None, "NOT REFUSED at a goal of next: proved"),
    (
        "sum-renamed",
        "file: src/lib.rt\nold:     let mut sum: usize = 0;\nnew:     let mut all: usize = 0;\nold:         sum += *byte as usize;\n"
        "new:         all += *byte as usize;\nold:     sum\nnew:     all\n",
        None,
        "only because a proof file names what the edit took away",
    ),
    ("total-of-a-word", 'file: src/lib.rt\nold:     let mut sum: usize = 0;\nnew:     let mut sum: usize = "";\n', "the front end refuses it", "not tried"),
    ("clause-unread", "file: src/lib.rt\nold: 255 * length bytes.now\nnew: 255 * lengths bytes.now\n", None, "did not admit its contract"),
    ("law-unread", "of: law\nfile: specs/Laws.antt\nold: n ≤ n + 1\nnew: (n ≤ n + 1\n", "doesn't parse", "did not admit its contract"),
]


# a crate that stands on it, which `rt ci` doesn't prove
ABOVE = {
    "crates.txt": "small:\nlarge: small\n",
    "crates/large/src/lib.rt": FILES["crates/small/src/lib.rt"],
    "crates/large/edits/next-by-three.edit": EDITS[0][1],
}
# the crate with a function that isn't what it promises, and two edits of another, which are tried by two checks
UNPROVED = {
    "crates/small/src/lib.rt": FILES["crates/small/src/lib.rt"].replace("    count + 2\n", "    count + 3\n"),
    "crates/small/edits/again-by-three.edit": EDITS[0][1],
    "crates/small/edits/next-by-three.edit": EDITS[0][1],
}


def write_tree(tree, files):
    for path, text in files.items():
        os.makedirs(os.path.dirname(f"{tree}/{path}"), exist_ok=True)
        with open(f"{tree}/{path}", "w", encoding="utf-8") as file:
            file.write(text)


def judged(script, tree, wanted):
    """Runs a script over all edits, and yields what it says otherwise than it should: of an edit, or all in all."""
    ran = subprocess.run([f"{CHECKS}/{script}", "--tree", tree], capture_output=True, text=True)
    for name, part in wanted.items():
        said = [line for line in ran.stdout.splitlines() if line.startswith(f"{script}: small/{name}: ")]
        is_so = len(said) == 1 and part in said[0] if part else not said
        yield None if is_so else f"{script} of {name}: wants {part or 'that it passes'}, says {said}"
    failed = sum(part is not None for part in wanted.values())
    counts = f"{len(wanted) - failed} passed, {failed} failed"
    is_so = ran.stdout.endswith(f"\n{counts}\n") and ran.returncode == 1
    yield None if is_so else f"{script}: wants {counts} and status 1, says {ran.returncode}, {ran.stdout[-200:]}{ran.stderr}"


def waits(tree):
    """Whether edits.py waits for a library as long as `rt ci` runs beside it, and then counts what it couldn't try as failed."""
    log = f"{tree}/log"
    with open(log, "w", encoding="utf-8") as file:
        run = subprocess.Popen([f"{CHECKS}/edits.py", "--tree", tree, "--beside", log], stdout=subprocess.PIPE, text=True)
        time.sleep(5)
        is_waiting = run.poll() is None
        file.write("rt: small NOT PROVED\n0 passed, 2 failed\n")
    said, _ = run.communicate()
    wanted = "edits.py: large/next-by-three: not tried, since small isn't built\n"
    is_so = is_waiting and said.startswith(wanted) and said.endswith("\n0 passed, 1 failed\n") and run.returncode == 1
    return None if is_so else f"edits.py beside `rt ci`: {is_waiting}, {run.returncode}, {said}"


def doubts(tree):
    """Whether edits.py counts each edit of a crate that isn't proved as failed, and the crate too."""
    run = subprocess.run([f"{CHECKS}/edits.py", "--tree", tree], capture_output=True, text=True)
    why = "not tried, since small isn't proved as it stands"
    wanted = [f"edits.py: small/{name}: {why}" for name in ("again-by-three", "next-by-three")]
    said = run.stdout.splitlines()
    is_so = all(it in said for it in wanted) and said[-1] == "0 passed, 3 failed" and run.returncode == 1
    return None if is_so else f"edits.py over what isn't proved: {run.returncode}, {run.stdout}"


def main():
    with tempfile.TemporaryDirectory(prefix="capt-edits-test-") as tree:
        write_tree(tree, FILES | {f"crates/small/edits/{name}.edit": text for name, text, _, _ in EDITS})
        told = [*judged("frontend.py", tree, {it[0]: it[2] for it in EDITS}), *judged("edits.py", tree, {it[0]: it[3] for it in EDITS})]
    with tempfile.TemporaryDirectory(prefix="capt-edits-test-") as tree:
        write_tree(tree, FILES | ABOVE)
        told.append(waits(tree))
    with tempfile.TemporaryDirectory(prefix="capt-edits-test-") as tree:
        write_tree(tree, FILES | UNPROVED)
        told.append(doubts(tree))
    wrong = [it for it in told if it]
    print(*wrong, sep="\n", end="\n" * bool(wrong))
    print(f"{len(told) - len(wrong)} passed, {len(wrong)} failed")
    return bool(wrong)


if __name__ == "__main__":
    sys.exit(main())
