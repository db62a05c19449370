#!/usr/bin/env python3
"""Looks whether every edit reaches the prover. The compiler's front end reads it; nothing is proved, nothing need be built.

An edit passes if each of its `old:` texts is in its file once, if the .antt files that it changes parse, and if the
crate with it parses, resolves its names and has its types. What an edit writes into a clause or a definition is only
parsed: a wrong name there is found by `rt ci` and by edits.py.

Edits that are lines apart are made at once, in all crates, in one copy of the tree. One call reads that copy: an empty
crate over all others as source, which is asked for the proof of a function that can't be, so that it ends right behind
the front end. An error belongs to the edit on whose lines it is.

Use: checks/frontend.py [CRATE | CRATE/EDIT]..     RT_JOBS=N calls side by side, of 1.4 GB each
"""
import sys

sys.dont_write_bytecode = True

import os, re, shutil, subprocess, tempfile
from concurrent.futures import ThreadPoolExecutor

import edit_files
from edit_files import PARTS, crates_of, edits_of, kit, label_of

# the answer once the front end has read everything: only the function is lacking
READ = re.compile(r"^rattle: error: `\w+` has no function `no function`", re.M)
ERROR = re.compile(r"^(\S+?\.(?:rt|antt)):(\d+):\d+: error(?:\[[\w-]+\])?: (.*)", re.M)


def parse_statements(edit):
    """Says of an edit which of the .antt files that it changes doesn't parse. (A file's layout is only given of one that parses.)"""
    for path, text in edit.made().items():
        if path.endswith(".antt"):
            with tempfile.TemporaryDirectory(prefix="capt-front-") as room:
                file = f"{room}/{os.path.basename(path)}"
                with open(file, "w", encoding="utf-8") as it:
                    it.write(text)
                words = [f"{kit()}/bin/rattle", "fmt", file]
                ran = subprocess.run(words, stdin=subprocess.DEVNULL, capture_output=True, text=True, errors="replace")
                if ran.returncode:
                    edit.wrong = f"{path} doesn't parse: {(ran.stderr or ran.stdout).partition(': ')[2].strip()[:200]}"


def groups_of(edits):
    """The edits in groups in which no two change the same lines or lines side by side."""
    groups = []
    for edit in edits:
        lines = {(edit.crate, path, line) for path, start, end, _ in edit.hunks() for line in range(start - 1, end + 1)}
        for used, group in groups:
            if not used & lines:
                break
        else:
            used, group = set(), []
            groups.append((used, group))
        used |= lines
        group.append(edit)
    return [group for _, group in groups]


def write_edited(edits, room):
    """Copies the crates of these edits with the edits made. Returns the edit of each changed line, by crate, path and line from 1."""
    for crate in {edit.crate for edit in edits}:
        for part in PARTS:
            if os.path.isdir(f"{crate.folder}/{part}"):
                shutil.copytree(f"{crate.folder}/{part}", f"{room}/{crate.name}/{part}")
    hunks, edit_at = {}, {}
    for edit in edits:
        for path, start, end, lines in edit.hunks():
            hunks.setdefault((edit.crate, path), []).append((start, end, lines, edit))
    for (crate, path), found in hunks.items():
        old, new, at = crate.text(path).split("\n"), [], 0
        for start, end, lines, edit in sorted(found, key=lambda it: it[:2]):
            new += [*old[at:start], *lines]
            for line in range(len(new) - len(lines), len(new) + 1):
                edit_at[crate.name, path, line + 1] = edit
            at = end
        with open(f"{room}/{crate.name}/{path}", "w", encoding="utf-8") as it:
            it.write("\n".join([*new, *old[at:]]))
    return edit_at


def words_of(crates, edited, room):
    """The call that reads these crates; those with edits are in the room."""
    words = [f"{kit()}/bin/rattle", "check", "--crate-name", "none_of_these", "src/lib.rt"]
    names = {crate.name for crate in crates}
    for library in sorted({"core", "std"}.union(*(crate.libraries for crate in crates)) - names):
        words += ["--extern", f"{library}={kit()}/rlibs/{library}.rlib"]
    words += ["-L", f"dependency={kit()}/rlibs"]
    for crate in crates:
        uses = dict.fromkeys(["core", "std", *crate.libraries])
        folder = f"{room}/{crate.name}" if crate in edited else crate.folder
        words += ["--lib", f"{crate.name}:{','.join(uses)}={folder}/{crate.root}"]
    words += ["--antt-project", f"{kit()}/rattle/logic/antt-project.json", "--logic-built", f"{kit()}/logic_built"]
    return [*words, "--jobs", "1", "--start", "no function"]


def errors_with(edits):
    """What the front end says of the edits' crates, and of those below, with these edits made: each error's edit, if it
    is on the lines of one, the crate, and the text."""
    crates = {it: None for edit in edits for it in [*edit.crate.below, edit.crate]}
    crates = sorted(crates, key=lambda it: len(it.below))
    with tempfile.TemporaryDirectory(prefix="capt-front-") as room:
        edit_at = write_edited(edits, room)
        os.makedirs(f"{room}/none/src")
        with open(f"{room}/none/src/lib.rt", "w", encoding="utf-8") as it:
            it.write("#![tactic(auto)]\n")
        words = words_of(crates, {edit.crate for edit in edits}, room)
        how = {"stdin": subprocess.DEVNULL, "stdout": subprocess.PIPE, "stderr": subprocess.STDOUT, "errors": "replace"}
        said = subprocess.run(["nice", "-n", "10", *words], cwd=f"{room}/none", **how).stdout
    found = []
    for file, line, text in ERROR.findall(said):
        inside = re.search(r"(\w+)/((?:src|specs)/.*)", file)
        name, path = inside.groups() if inside else ("", file)
        found.append((edit_at.get((name, path, int(line))), name, f"{name}/{path}: {text}"))
    if not found and not READ.search(said):
        found.append((None, "", f"it ended otherwise: {said[-300:]}"))
    return found


def look(edits):
    """Says of each of these edits, which are lines apart, whether the front end refuses it."""
    errors = errors_with(edits) if edits else []
    blamed = {edit for edit, _, _ in errors if edit}
    if len(edits) == 1:
        edits[0].wrong = f"the front end refuses it: {errors[0][2][:250]}" if errors else ""
    elif blamed:
        for edit in blamed:
            look([edit])
        look([it for it in edits if it not in blamed])
    elif errors:
        # An edit may change what a crate above sees, which is no fault. Each is judged by its own crate alone, so those
        # of the crates below the one with the error are looked at apart.
        under = {crate for edit in edits if edit.crate.name == errors[0][1] for crate in edit.crate.below}
        apart = [it for it in edits if it.crate in under]
        if not 0 < len(apart) < len(edits):
            apart = edits[: len(edits) // 2]
        look(apart)
        look([it for it in edits if it not in apart])


def main(words):
    tree = edit_files.TOP
    if words[:1] == ["--tree"]:
        tree, words = os.path.abspath(words[1]), words[2:]
    wanted = {label_of(word) for word in words}
    edits = [edit for crate in crates_of(tree).values() for edit in edits_of(crate)]
    edits = [edit for edit in edits if not wanted or wanted & {edit.crate.name, edit.label}]
    lost = sorted(wanted - {it for edit in edits for it in (edit.crate.name, edit.label)})
    with ThreadPoolExecutor(int(os.environ.get("RT_JOBS") or os.cpu_count())) as pool:
        list(pool.map(parse_statements, [it for it in edits if not it.wrong]))
        list(pool.map(look, groups_of([it for it in edits if not it.wrong and any(path.endswith(".rt") for path in it.paths)])))
    bad = [f"{edit.label}: {edit.wrong}" for edit in edits if edit.wrong] + [f"{it}: there is no such edit" for it in lost]
    for it in bad:
        print(f"frontend.py: {it}")
    print(f"{len(edits) + len(lost) - len(bad)} passed, {len(bad)} failed")
    return bool(bad)


if __name__ == "__main__":
    sys.exit(main(sys.argv[1:]))
