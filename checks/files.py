#!/usr/bin/env python3
"""The map of files: what each file of code, of definitions and of scripts says of itself at its head.

That is the `//!` lines of a file of code, the comment that heads a file of definitions, and what heads a script. With
words it prints the files whose path or head has all of them, in small or capital letters. A file without a head is
named at the end, and makes the status 1.

Use: checks/files.py [WORD]..     as in `checks/files.py fragments holes`
"""
import ast, pathlib, re, signal, sys, textwrap

TOP = pathlib.Path(__file__).resolve().parent.parent
# files of definitions that only name others
LISTS = re.compile(r"(?:pub mod \w+\n)+")


def head_of(path):
    """What a file says of itself; none if it says nothing, and a blank if it needn't."""
    text = path.read_text(encoding="utf-8")
    if path.suffix == ".rt" or path.suffix == ".rs":
        lines = re.match(r"(?://!.*\n)*", text)[0].split("\n//!\n")[0].split("\n")
        said = " ".join(line[3:].strip() for line in lines)
    elif path.suffix == ".antt":
        lines = re.match(r"(?:--.*\n)*", text)[0].split("\n")
        said = " ".join(line[2:].strip() for line in lines)
        if not said.strip() and LISTS.fullmatch(text):
            return ""
    elif path.suffix == ".py":
        said = (ast.get_docstring(ast.parse(text)) or "").split("\n\n")[0]
    elif path.suffix == ".sh":
        lines = re.match(r"(?:#.*\n)*", text)[0].split("\n")
        said = " ".join(line[1:].strip() for line in lines[1:]).split("  ")[0].split(" Use: ")[0]
    else:
        comment = re.match(r"/\*.*?\*/", text, re.S) or re.match(r"(?://.*\n)*", text)
        said = " ".join(line.strip(" /*") for line in comment[0].split("\n"))
    return " ".join(said.split()) or None


def files():
    """The files that have a head, by folder: the crates in the order of crates.txt, then the rest."""
    lines = (TOP / "crates.txt").read_text(encoding="utf-8").split("\n")
    crates = [line.split(":")[0].split()[0] for line in lines if line.startswith(("cap", "lib"))]
    for crate in crates:
        folder = TOP / "crates" / crate
        yield from sorted(folder.glob("src/**/*.rt"), key=lambda it: (it.name not in ("lib.rt", "main.rt"), it))
        yield from sorted(folder.glob("specs/**/*.antt"))
        yield from sorted(folder.glob("include/*.h"))
    for folder in ("checks", "bench", "packaging", "examples", "bindings"):
        found = [it for it in (TOP / folder).glob("**/*") if it.suffix in (".py", ".sh", ".c", ".rs")]
        left_out = {"out", "corpus", "target", "build"}
        yield from sorted(it for it in found if not left_out & set(it.relative_to(TOP).parts))
    yield TOP / "build.sh"


def main(words):
    signal.signal(signal.SIGPIPE, signal.SIG_DFL)
    bare = []
    for path in files():
        name, said = str(path.relative_to(TOP)), head_of(path)
        if said is None:
            bare.append(name)
        elif said and all(word.lower() in f"{name} {said}".lower() for word in words):
            how = {"subsequent_indent": "    ", "break_long_words": False, "break_on_hyphens": False}
            print(textwrap.fill(f"{name}: {said}", 120, **how))
    for name in bare:
        print(f"{name}: says nothing of itself", file=sys.stderr)
    sys.exit(1 if bare else 0)


if __name__ == "__main__":
    main(sys.argv[1:])
