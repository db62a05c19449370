#!/usr/bin/env python3
"""Counts the files whose lines have at most 120 columns: code, clauses, definitions, proofs and pages.

A struct's ghost field whose proof stands beside it is one line, since `rt fmt` joins it. A row of a table in a page is one line, and so is
what a block of a page shows.

Use: checks/columns.py
"""
import pathlib, re, subprocess, sys

TOP = pathlib.Path(__file__).resolve().parent.parent
COLUMNS = 120
passed = failed = 0
files = subprocess.run(["git", "ls-files", "*.rt", "*.antt", "*.md"], cwd=TOP, capture_output=True, text=True, check=True).stdout.split("\n")
for name in filter(None, files):
    in_block, wide = False, []
    for number, line in enumerate((TOP / name).read_text(encoding="utf-8").split("\n"), 1):
        in_block ^= line.startswith("```")
        is_row = name.endswith(".md") and (in_block or line.startswith("|"))
        is_joined = name.endswith(".rt") and re.match(r"\s*ghost .* by \{", line)
        if len(line) > COLUMNS and not is_row and not is_joined:
            wide.append(number)
    if wide:
        failed += 1
        print(f"{name}: above {COLUMNS} columns: {', '.join(map(str, wide[:8]))}")
    else:
        passed += 1
print(f"{passed} passed, {failed} failed")
sys.exit(failed != 0)
