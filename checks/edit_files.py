"""The edits of the crates: what each one changes, and in which function. edits.py and frontend.py use it.

An edit makes a function's answer wrong, and the prover must refuse it. It is a file in `crates/NAME/must-fail/` or
`crates/NAME/edits/`, with lines `file: PATH`, `old: TEXT` and `new: TEXT`. Each `old:` text is in the file once, also
after the pairs before it. The changed function is the one that encloses all changed lines. Where the text doesn't tell
it, a line `of: MODULE::FUNCTION` does.
"""
import difflib
import os
import re
import subprocess
from dataclasses import dataclass, field
from functools import cache

TOP = os.path.dirname(os.path.dirname(os.path.abspath(__file__)))
FOLDERS = ("must-fail", "edits")
PARTS = ("src", "specs", "proofs")


@cache
def kit():
    """The folder of the toolchain's kit."""
    said = subprocess.run(["rt", "doc"], capture_output=True, text=True, check=True).stdout
    return os.path.dirname(said.strip())


@cache
def read_text(path):
    with open(path, encoding="utf-8") as file:
        return file.read()


@dataclass(eq=False)
class Crate:
    tree: str
    name: str
    # the libraries that crates.txt names for it, of the kit and of the tree
    libraries: list
    is_static: bool
    # the crates of the tree among them, and those that these depend on, the lowest first
    below: list = field(default_factory=list)

    @property
    def folder(self):
        return f"{self.tree}/crates/{self.name}"

    @property
    def root(self):
        """The file with which the crate's code begins."""
        return "src/main.rt" if os.path.isfile(f"{self.folder}/src/main.rt") else "src/lib.rt"

    def text(self, path):
        return read_text(f"{self.folder}/{path}")

    def code(self):
        """The paths of its files of code."""
        for at, _, names in os.walk(f"{self.folder}/src"):
            yield from (os.path.relpath(f"{at}/{name}", self.folder) for name in sorted(names) if name.endswith(".rt"))


def crates_of(tree):
    """The crates that crates.txt names, by name, each after those that it depends on."""
    found = {}
    for line in read_text(f"{tree}/crates.txt").splitlines():
        head, _, names = line.partition("#")[0].partition(":")
        if head.strip():
            name, *words = head.split()
            found[name] = Crate(tree, name, names.split(), "staticlib" in words)
    for crate in found.values():
        crate.below = below(crate, found)
    return dict(sorted(found.items(), key=lambda it: len(it[1].below)))


def below(crate, crates):
    found = []
    for name in crate.libraries:
        if name in crates:
            found += [it for it in [*below(crates[name], crates), crates[name]] if it not in found]
    return found


@dataclass(eq=False)
class Edit:
    crate: Crate
    name: str
    file: str
    # the path, what it has and what is written in its place, one after another
    changes: list = field(default_factory=list)
    # the function that it changes, as a check prints it after the crate's name; none if that can't be said
    function: str = ""
    # whether a line `of:` says so
    is_told: bool = False
    # why it can't be made
    wrong: str = ""

    @property
    def label(self):
        return f"{self.crate.name}/{self.name}"

    @property
    def paths(self):
        return list(dict.fromkeys(path for path, _, _ in self.changes))

    @property
    def is_of_statements(self):
        """Whether it changes more than code. What it changes then reaches other functions."""
        return any(not path.startswith("src/") for path in self.paths)

    def applied(self, texts):
        """What the edit makes of these texts of the crate's files, by path; none if an `old:` isn't there once."""
        texts = dict(texts)
        for path, old, new in self.changes:
            if texts.get(path, "").count(old) != 1:
                return None
            texts[path] = texts[path].replace(old, new)
        return texts

    def made(self):
        """The texts of the files that it changes, as it makes them; none if it can't be made."""
        return self.applied({path: self.crate.text(path) for path in self.paths})

    def hunks(self):
        """The lines that it changes: the path, the first, the one behind the last, and the lines in their place."""
        for path, text in (self.made() or {}).items():
            old, new = self.crate.text(path).split("\n"), text.split("\n")
            for tag, start, end, begin, stop in difflib.SequenceMatcher(None, old, new, False).get_opcodes():
                if tag != "equal":
                    yield path, start, end, new[begin:stop]


def edit_of(crate, folder, name):
    """Reads an edit, and finds the function that it changes or why it can't be made."""
    edit, path, old, said = Edit(crate, name.removesuffix(".edit"), f"{crate.folder}/{folder}/{name}"), "", None, ""
    for line in read_text(edit.file).splitlines():
        word, _, rest = line.partition(":")
        if word == "file":
            path = rest.strip()
            is_inside = os.path.normpath(path) == path and path.startswith(tuple(f"{part}/" for part in PARTS))
            if not is_inside or not os.path.isfile(f"{crate.folder}/{path}"):
                edit.wrong = f"there is no file {path}"
                return edit
        elif word == "old":
            old = rest.removeprefix(" ")
        elif word == "of":
            said = rest.strip()
        elif word == "new":
            if not path or not old:
                edit.wrong = "a 'new:' stands before any 'file:' or 'old:'"
                return edit
            edit.changes.append((path, old, rest.removeprefix(" ")))
            old = None
    made = edit.made()
    if not edit.changes:
        edit.wrong = "it has no 'old:' and 'new:'"
    elif made is None:
        edit.wrong = "an 'old:' isn't in its file once"
    elif all(text == crate.text(path) for path, text in made.items()):
        edit.wrong = "it changes nothing"
    else:
        edit.function, edit.is_told = said or function_of(edit), bool(said)
    return edit


def edits_of(crate, folders=FOLDERS):
    """The edits of a crate, by name."""
    found = []
    for folder in folders:
        at = f"{crate.folder}/{folder}"
        names = os.listdir(at) if os.path.isdir(at) else []
        found += [edit_of(crate, folder, name) for name in sorted(names) if name.endswith(".edit")]
    return found


def label_of(word):
    """CRATE or CRATE/EDIT, also of a path."""
    return re.sub(r"(.*\bcrates/|^)(\w+)(/must-fail|/edits)?(/[^/]+?)?(\.edit)?/?$", r"\2\4", word)


# What follows finds functions by the layout that `rt fmt` gives: a `fn` and its `}` have one indentation, which is
# none, or 4 spaces in an `impl` or a `trait`.

QUALIFIERS = r'(?:pub(?:\([^)]*\))? )?(?:const )?(?:unsafe )?(?:extern "C" )?'
FN = re.compile(rf"( *){QUALIFIERS}fn (\w+)")
HEAD = re.compile(r"(?:pub(?:\([^)]*\))? )?(?:unsafe )?(impl|trait|mod)\b(.*)")
TYPE = re.compile(r"(?m)^(?:pub(?:\([^)]*\))? )?(?:struct|enum) (\w+)")


def module_of(path):
    module = re.sub(r"^src/|(/mod)?\.rt$", "", path).replace("/", "::")
    return "" if module in ("lib", "main") else module


def last_name(text):
    """The last name of a type's path, without its parameters and references."""
    text = re.sub(r"\bwhere\b.*|<.*", "", text.strip().lstrip("&").removeprefix("mut ")).strip(" {")
    return text.split("::")[-1].strip()


def parameters_end(text):
    """Where the `<..>` ends with which the text begins; 0 if it begins with none."""
    depth = 0
    for at, letter in enumerate(text):
        depth += (letter == "<") - (letter == ">" and text[at - 1] not in "-=")
        if not depth:
            return at + 1 if at else 0
    return 0


def owner_of(kind, text):
    """How a check names what has the methods: `impl T` is T, `impl Tr for T` is TTr, `impl Tr for u8` is U8Tr."""
    if kind != "impl":
        return last_name(text.split(":")[0])
    text, depth = text.strip(), 0
    text = text[parameters_end(text) :].strip()
    for found in re.finditer(r"<|(?<![-=])>| for ", text):
        depth += (found[0] == "<") - (found[0] == ">")
        if found[0] == " for " and not depth:
            name = last_name(text[found.end() :])
            return name[:1].upper() + name[1:] + last_name(text[: found.start()])
    return last_name(text)


def owners(lines):
    """For each line, what has the methods there."""
    name, found = "", []
    for at, line in enumerate(lines):
        head = HEAD.match(line)
        if head:
            # a head goes on up to the line that ends in a brace
            whole, more = head[2], at
            while not lines[more].rstrip().endswith(("{", "}")) and more < min(at + 8, len(lines) - 1):
                more += 1
                whole += " " + lines[more].strip()
            name = owner_of(head[1], whole)
        found.append(name)
        if line == "}":
            name = ""
    return found


def end_of_function(lines, begin, indent):
    """The last line of the function that begins there; none of a trait's method without a body."""
    has_body = lines[begin].endswith("{")
    for at in range(begin, len(lines)):
        line = lines[at]
        if line == f"{indent}}}" or line.startswith(f"{indent}{{") and line.endswith("}"):
            return at
        if at == begin and line.endswith("}") and "{" in line:
            return at
        has_body = has_body or line == f"{indent}{{"
        if not has_body and (at == begin and line.endswith(";") or line.endswith("};")):
            return None
    return None


@cache
def functions_in(crate, path):
    """Each function of a file: its first line, its last, and its name as a check prints it."""
    lines, found, last = crate.text(path).split("\n"), [], -1
    methods_of = owners(lines)
    for at, line in enumerate(lines):
        head = FN.match(line)
        if not head or at <= last or len(head[1]) not in (0, 4):
            continue
        end = end_of_function(lines, at, head[1])
        if end is not None:
            last = end
            owner = methods_of[at] if head[1] else ""
            module = modules(crate).get(owner, module_of(path)) if owner else module_of(path)
            found.append((at, end, "::".join(filter(None, [module, owner, head[2]]))))
    return found


@cache
def modules(crate):
    """Where each type of a crate is defined, since an `impl` in another file is named by the type's module."""
    found = {}
    for path in crate.code():
        for name in TYPE.findall(crate.text(path)):
            found.setdefault(name, module_of(path))
    return found


def function_of(edit):
    """The one function that encloses all lines that the edit changes, apart from `use` lines."""
    names = set()
    for path, start, end, _ in edit.hunks():
        if not path.endswith(".rt"):
            return ""
        inside = [it[2] for it in functions_in(edit.crate, path) if it[0] <= start and end <= it[1] + 1]
        lines = edit.crate.text(path).split("\n")[start:end]
        if inside:
            names.add(inside[0])
        elif not lines or not all(line.lstrip().startswith(("use ", "ghost use ")) for line in lines):
            return ""
    return names.pop() if len(names) == 1 else ""
