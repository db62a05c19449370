#!/usr/bin/env python3
"""What watches each claim of docs/CLAIMS.md: the tests, the edits, and the definitions that must be read.

A claim of the page ends with the functions that carry it and the scripts of this folder that try it, as in
`(`Window::need`, `skip`; faults)`. A `*` stands for any letters, and then only for public functions. What is found for
a claim:

- edits: those of `crates/*/must-fail` and `crates/*/edits` that change one of its functions, or a function of the crate
  that one of them calls, or what a line `of:` says of one of them;
- tests: those of the crates of tests that call a function of such a name, also by functions of the tests;
- definitions: those that the clauses of its functions need; a method of a trait has the clauses of the trait.

Calls are found by names, so a test of another function of the same name may be among them.

Use: checks/claims.py              for each claim, how many these are
     checks/claims.py NAME         the clauses of a function, as `need` or `Window::need`, and its tests, edits and
                                   definitions
     checks/claims.py --faults     functions and scripts that a claim names and that aren't there, functions without an
                                   edit, claims without a test or script, and what no claim names: papers.sh calls this
"""
import sys

sys.dont_write_bytecode = True

import os, pathlib, re, signal, textwrap
from functools import cache

import edit_files, trusted

TOP = pathlib.Path(__file__).resolve().parent.parent
PAGE = TOP / "docs/CLAIMS.md"
TEST_CRATES = ("cap_layer_tests", "cap_tests", "cap_tool_tests")
# what carries a claim: functions in backquotes, then scripts
CARRIED = re.compile(r"\s*\(((?:`[\w:*]+`(?:,\s+)?)+)(?:;\s+([\w,\s]+))?\)")
# functions without code of their own that can be turned: they only lend what a value holds, or call one function
BARE = re.compile(r"::(window|into_inner)$")


class Function:
    def __init__(self, crate, path, first, last, name):
        self.crate, self.path, self.name = crate, path, name
        lines = crate.text(path).split("\n")
        self.lines = lines[first : last + 1]
        self.is_public = self.lines[0].lstrip().startswith("pub")
        above = lines[max(0, first - 3) : first]
        self.is_test = "#[test]" in above

    @property
    def last_name(self):
        return self.name.split("::")[-1]

    @property
    def owner(self):
        return self.name.split("::")[-2] if self.name.count("::") else ""

    @property
    def clauses(self):
        """Its head, with what it requires and ensures; a method of a trait has what the trait says."""
        head = head_of(self.lines)
        if "ensures" in head or self.is_public:
            return head, self.crate.text(self.path)
        for trait, (text, heads) in traits().items():
            if self.owner.endswith(trait) and self.last_name in heads:
                return heads[self.last_name], text
        return head, self.crate.text(self.path)


def head_of(lines):
    """The lines of a function up to its body."""
    found = []
    for line in lines:
        if re.match(r" *\{", line):
            break
        found.append(line)
        if line.endswith((" {", "};")) and "ensures" not in line and "requires" not in line:
            break
    return "\n".join(found)


@cache
def crates():
    return edit_files.crates_of(str(TOP))


@cache
def functions(crate):
    """The functions of a crate, by name."""
    found = {}
    for path in crate.code():
        for first, last, name in edit_files.functions_in(crate, path):
            found.setdefault(name, Function(crate, path, first, last, name))
        # (a function whose head goes over several lines without a clause)
        text, module = crate.text(path), edit_files.module_of(path)
        for it in re.finditer(r"^(?:pub )?fn (\w+)[^{}]*\{$.*?^\}$", text, re.M | re.S):
            first, name = text.count("\n", 0, it.start()), "::".join(filter(None, [module, it[1]]))
            found.setdefault(name, Function(crate, path, first, first + it[0].count("\n"), name))
    return found


@cache
def traits():
    """The traits of the crates: the text of the file of each, and the heads of its methods by name."""
    found = {}
    for crate in crates().values():
        for path in crate.code():
            text = crate.text(path)
            for trait, body in re.findall(r"^pub trait (\w+).*?\{\n(.*?)^\}", text, re.M | re.S):
                heads = {}
                for part in re.findall(r"^    (?:ghost )?fn \w+.*?(?=^    ///|\Z|^    fn)", body, re.M | re.S):
                    heads[re.search(r"fn (\w+)", part)[1]] = part.rstrip()
                found[trait] = text, heads
    return found


@cache
def reached(function):
    """A function, and those of its crate that it calls: of a name that is there once, or once in its file."""
    by_name, found, waiting = called_by_name(function.crate), [function], [function]
    while waiting:
        caller = waiting.pop()
        for name in set(re.findall(r"\b([a-z_]\w*)\b(?=(?:::<[^()]*>)?\()", "\n".join(caller.lines[1:]))):
            known = by_name.get(name, [])
            near = [it for it in known if it.path == caller.path]
            for callee in known if len(known) == 1 else near if len(near) == 1 else []:
                if callee not in found:
                    found.append(callee)
                    waiting.append(callee)
    return found


@cache
def called_by_name(crate):
    found = {}
    for function in functions(crate).values():
        found.setdefault(function.last_name, []).append(function)
    return found


@cache
def edits(crate):
    """The edits of a crate by the function that each must make fail."""
    found = {}
    for edit in edit_files.edits_of(crate):
        found.setdefault(edit.function, []).append(edit)
    return found


@cache
def tests():
    """Each test by name: what it calls, and the crates that its files name."""
    found = {}
    for name in TEST_CRATES:
        crate = crates()[name]
        for function in functions(crate).values():
            if function.is_test:
                parts = reached(function)
                called = set(re.findall(r"\b([a-z_]\w*)\b", "\n".join("\n".join(it.lines) for it in parts)))
                files = {it.path for it in parts} | {function.path}
                named = set(re.findall(r"\b(cap\w+)::|\b([A-Z]\w+)\b", "\n".join(crate.text(path) for path in files)))
                named = {word for pair in named for word in pair if word}
                # libcapt has public names of the crates below it
                is_by_subject = any("libcapt::" in crate.text(path) for path in files)
                found[f"{name}: {function.name}"] = called, named | (set(crates()) if is_by_subject else set())
    return found


class Claim:
    def __init__(self, heading, text, names, scripts):
        named = [it for it in re.findall(r"\w+", heading) if it in crates()]
        self.crates = named or [it for it in crates() if it not in TEST_CRATES]
        self.heading = heading
        self.text, self.names, self.has_edit = text, names, "no edit" not in scripts
        self.scripts = [it for it in scripts if it != "no edit"]

    @property
    def functions(self):
        return [it for name in self.names for it in self.named(name)]

    def named(self, name):
        """The functions that a name stands for."""
        crate, _, rest = name.partition("::")
        among, rest = ([crate], rest) if crate in crates() else (self.crates, name)
        wanted = re.compile(r"(?:^|::)" + re.sub(r"\*", r"\\w*", rest) + "$")
        has_star = "*" in rest.split("::")[-1]
        return [
            it
            for crate in among
            for it in functions(crates()[crate]).values()
            if wanted.search(it.name) and (it.is_public or not has_star)
        ]

    @property
    def edits(self):
        return edits_of(self.functions)

    @property
    def tests(self):
        return tests_of(self.functions)

    @property
    def definitions(self):
        return definitions_of(self.functions)


def edits_of(some):
    found = {}
    for function in some:
        for it in reached(function):
            found |= {edit.label: edit for edit in edits(it.crate).get(it.name, [])}
    return list(found)


def tests_of(some):
    wanted = [(it.crate.name, type_of(it), it.last_name) for it in some]
    return [
        name
        for name, (called, named) in tests().items()
        if any(last in called and crate in named and (not owner or owner in named) for crate, owner, last in wanted)
    ]


def type_of(function):
    """The type that has a method, also one of a trait; none of a function."""
    names = [it for it in edit_files.modules(function.crate) if function.owner.startswith(it)]
    return max(names, key=len, default="") if function.owner[:1].isupper() else ""


def definitions_of(some):
    roots = [root for it in some for root in trusted.named_in(*it.clauses)]
    return trusted.parts_of(trusted.closure(list(dict.fromkeys(roots)), trusted.files))


@cache
def claims():
    """The claims of the page, in its order."""
    found, heading = [], ""
    text = PAGE.read_text(encoding="utf-8")
    for part in re.findall(r"^## .*$|^- .*\n(?:  .*\n)*", text, re.M):
        if part.startswith("## "):
            heading = part[3:]
            continue
        words, at = " ".join(part[2:].split()), 0
        for it in CARRIED.finditer(words):
            scripts = re.split(r",\s+", it[2] or "") if it[2] else []
            text = words[at : it.start()].strip(" ;.,")
            found.append(Claim(heading, text, re.findall(r"`([\w:*]+)`", it[1]), scripts))
            at = it.end()
    return found


def script(name):
    """The file of a script that a claim names by its first part."""
    return next((it for it in (f"{name}.py", f"{name}.sh") if (TOP / "checks" / it).is_file()), None)


def print_faults():
    for part in re.findall(r"^- .*\n(?:  .*\n)*", PAGE.read_text(encoding="utf-8"), re.M):
        if not CARRIED.search(part):
            print(f"nothing carries: {part}")
    for claim in claims():
        for name in claim.names:
            if not claim.named(name):
                print(f"`{name}` is no function of {', '.join(claim.crates)}")
        for name in claim.scripts:
            if not script(name):
                print(f"there is no script {name}")
        if bool(claim.edits) != claim.has_edit:
            print(f"{len(claim.edits)} edits watch: {claim.text} {claim.names}")
        is_of_laws = claim.crates == ["cap_laws"] or all(is_law(it) for it in claim.functions)
        if not claim.scripts and not claim.tests and not is_of_laws:
            print(f"no test or script watches: {claim.text} {claim.names}")
    named = {it.name: it for claim in claims() for it in claim.functions}
    watching = {test for claim in claims() for test in claim.tests}
    for test in tests():
        if test not in watching:
            print(f"no claim names what the test {test} calls")
    for crate in crates().values():
        for it in functions(crate).values():
            is_claimed = it.name in named or crate.name in TEST_CRATES or it.last_name.startswith("worked")
            if is_law(it) and it.is_public and not is_claimed:
                print(f"no claim names the law {crate.name}::{it.name}")


def is_law(function):
    return bool(re.match(r"pub fn \w+\(\)$", function.lines[0])) and "ensures" in head_of(function.lines)


def print_counts():
    heading = None
    for claim in claims():
        if claim.heading != heading:
            heading = claim.heading
            print(f"\n## {heading}")
        print(textwrap.fill(f"- {claim.text} ({', '.join(claim.names)})", 120, subsequent_indent="  "))
        parts = claim.definitions
        tried = ", ".join(script(it) for it in claim.scripts)
        print(
            f"  tests {len(claim.tests)}, edits {len(claim.edits)}, "
            f"definitions {len(parts)} of {sum(map(len, parts))} lines"
            + (f", tried by {tried}" if tried else "")
        )


def print_function(name):
    asked = re.compile(rf"(^|::){re.escape(name)}$")
    some = [it for claim in claims() for it in claim.functions if asked.search(f"{it.crate.name}::{it.name}")]
    some = list(dict.fromkeys(some))
    if not some:
        sys.exit(f"no claim names a function {name}")
    for claim in claims():
        if any(it in some for it in claim.functions):
            print(textwrap.fill(f"- {claim.text}", 120, subsequent_indent="  "))
            print("".join(f"  tried by checks/{script(it)}\n" for it in claim.scripts), end="")
    for function in some:
        print(f"\ncrates/{function.crate.name}/{function.path}: {function.name}\n{function.clauses[0]}")
    for kind, names in (("edits", sorted(edits_of(some))), ("tests", sorted(tests_of(some)))):
        print(f"\n{kind} {len(names)}")
        print("".join(f"  {it}\n" for it in names), end="")
    parts = definitions_of(some)
    print(f"\ndefinitions {len(parts)}, lines {sum(map(len, parts))}")
    trusted.print_definitions(parts)


if __name__ == "__main__":
    signal.signal(signal.SIGPIPE, signal.SIG_DFL)
    if sys.argv[1:] == ["--faults"]:
        print_faults()
    elif sys.argv[1:]:
        print_function(sys.argv[1])
    else:
        print_counts()
