#!/usr/bin/env python3
"""Prints the page DEFINITIONS.md of the packages from the comments of specs/: each definition read aloud, file by file,
in the order of crates.txt.

What stands in specs/inner/ isn't listed. A file's comment heads its table; a row has the definitions that stand under
one comment, with the comment. A file without a comment, or a definition above the first comment of its file, is named
and makes the status 1: checks/papers.sh sees to that.

Use: checks/definitions.py
"""
import pathlib, re, sys, textwrap

TOP = pathlib.Path(__file__).resolve().parent.parent
HEAD = """# Definitions

For verifiers: the definitions of `specs/`, read aloud. In capt's repository `checks/definitions.py` prints this page
from the comments there. Whole numbers are unlimited in a definition; a list counts from place 0.
[TRUSTED.md](TRUSTED.md) lists the definitions on which each command depends. What stands in `specs/inner/`, what one
crate promises another, need not be believed and isn't listed.
"""
NAME = re.compile(r"^(?:(?:abbrev|unfoldable) )*pub (?:record |data )?([^\s:({]+)", re.M)


def comment_of(lines):
    """The comment at the front of some lines, as one text, and the lines after it."""
    count = next((n for n, line in enumerate(lines) if not line.startswith("--")), len(lines))
    return " ".join(line[2:].strip() for line in lines[:count]), lines[count:]


def sentence(text):
    """A comment as a sentence of a table: with a capital and a full stop."""
    text = text.replace("|", "\\|").rstrip(".")
    if text[:1].islower():
        text = text[0].upper() + text[1:]
    return text + "."


def rows_of(path):
    """A file's comment, and its rows: the names of some definitions, and their comment."""
    head, rest = comment_of(path.read_text(encoding="utf-8").split("\n"))
    rows = []
    for part in re.split(r"\n\s*\n", "\n".join(rest)):
        comment, code = comment_of(part.strip("\n").split("\n"))
        names = NAME.findall("\n".join(code))
        if not names or names[0] == "mod" or code[0].startswith("use "):
            continue
        if comment or not rows:
            rows.append(([], comment))
        rows[-1][0].extend(names)
    return head, rows


crates = [line.split(":")[0].split()[0] for line in (TOP / "crates.txt").read_text(encoding="utf-8").split("\n") if line.startswith("cap")]
bare = []
print(HEAD)
for crate in crates:
    specs = TOP / "crates" / crate / "specs"
    files = [path for path in sorted(specs.glob("**/*.antt")) if "inner" not in path.relative_to(specs).parts]
    listed = [(path, *rows_of(path)) for path in files]
    listed = [it for it in listed if it[2]]
    if listed:
        print(f"## {crate}\n")
    for path, head, rows in listed:
        name = path.relative_to(specs)
        if not head:
            bare.append(f"{crate}/specs/{name}: no comment")
        bare += [f"{crate}/specs/{name}: {names[0]} has no comment" for names, comment in rows if not comment]
        told = textwrap.fill(sentence(head), 120, break_long_words=False, break_on_hyphens=False)
        print(f"### `{name}`\n\n{told}\n\n| definition | read aloud |\n|---|---|")
        for names, comment in rows:
            print(f"| {', '.join(f'`{it}`' for it in names)} | {sentence(comment) if comment else ''} |")
        print()
for line in bare:
    print(line, file=sys.stderr)
sys.exit(1 if bare else 0)
