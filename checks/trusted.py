#!/usr/bin/env python3
"""Which definitions must be read to trust a command: those of its text, of its refusal, and of what is written by each answer.

The texts of `report` and `join` are those by places (the laws `report_by_places` and `joined_by_places` of cap_laws),
which name no step of the machine that the calls cite.

It prints, for each command, how many definitions and lines these are, by crate. With a command's name it prints the
definitions themselves, what depends on nothing first, under the comments that head their files. With --page it prints
the page TRUSTED.md of the packages: their names by file. Words of the toolchain's library and the fields of the types
in src/ aren't listed.

With the name of a law, as `merge_sorts`, it prints the law's clauses and the definitions that they need beside those of
the commands; with --laws, how many these are for each law.

Use: checks/trusted.py [COMMAND | LAW | --laws | --page]
"""
import pathlib, re, signal, sys

TOP = pathlib.Path(__file__).resolve().parent.parent
PRINTS, TELLS = "cap_bytes.Printing.Prints", "cap_talks.talks.Telling.Tells"
ROOTS = {
    "list": ["cap_commands.ListText.list_text", "cap_commands.ListText.list_json", "cap_commands.ListText.list_refusal", PRINTS],
    "list --class": ["cap_commands.ClassText.list_by", "cap_commands.ListText.list_refusal", PRINTS],
    "blocks": ["cap_commands.BlockText.block_list", "cap_commands.BlockText.block_list_json", "cap_commands.BlockText.block_refusal", PRINTS],
    "diff": ["cap_commands.DiffText.comparison_of", "cap_commands.DiffText.diff_text_in", "cap_commands.DiffText.diff_refusal", "cap_commands.DiffText.is_same", TELLS],
    "info": ["cap_talks.talks.InfoText.info_text_in", "cap_talks.talks.InfoText.first_refusal", TELLS],
    "info --skip-refused": [
        "cap_commands.Skipping.refusals_from", "cap_commands.Skipping.kept_of", "cap_commands.Skipping.left_out_lines",
        "cap_talks.talks.InfoText.info_text_in", TELLS,
    ],
    "report": [
        "cap_laws.InOrder.text_by_places_in", "cap_laws.InOrder.top_by_places_in", "cap_laws.InOrder.refusal_by_places",
        "cap_merge.Files.clocked_run", "cap_merge.Files.endings_of_files", TELLS,
    ],
    "report --ipv6": [
        "cap_talks.talks.ReportText.report_for", "cap_talks.talks.ReportText.report_refusal_for",
        "cap_merge.Files.clocked_run",
        "cap_merge.Files.endings_of_files", TELLS,
    ],
    "digest": ["cap_tool.CheckedNames.ChecksNames"],
    "check": ["cap_tool.CheckedNames.ChecksNames"],
    "convert": ["cap_commands.Converted.convert_text", "cap_commands.Converted.convert_refusal", PRINTS],
    "merge": ["cap_commands.MergeText.merge_text_in", "cap_commands.MergeText.merge_refusal_in", PRINTS],
    "join": [
        "cap_laws.JoinedByPlaces.bytes_by_places", "cap_laws.JoinedByPlaces.refusal_by_places", "cap_laws.JoinedByPlaces.pcap_by_places",
        "cap_laws.JoinedByPlaces.pcap_refusal_by_places", "cap_merge.Files.clocked_run", PRINTS,
    ],
}


def parsed(path):
    """A file's imports (name to its full name), its definitions (name to its lines, comment first), and the comment that heads it."""
    text = path.read_text(encoding="utf-8")
    head_comment = re.match(r"(?:--.*\n)*", text)[0]
    crate, _, *inner = path.relative_to(TOP / "crates").with_suffix("").parts
    module = ".".join([crate, *inner])
    imports, wide = {}, {}
    for crate, inner, names in re.findall(r"^use Rattle\.(\w+)\.specs\.([\w.]+)\.\{([^}]*)\}", text, re.M):
        for name in re.split(r",\s*", names):
            imports[name.strip()] = f"{crate}.{inner}.{name.strip()}"
    for crate, inner, name in re.findall(r"^use Rattle\.(\w+)\.specs\.([\w.]+) as (\w+)", text, re.M):
        wide[name] = f"{crate}.{inner}"
    definitions = {}
    for part in re.split(r"\n\s*\n", text):
        lines = part.strip("\n").split("\n")
        code = [line for line in lines if not line.startswith("--")]
        head = next((line for line in code if re.match(r"(?:(?:abbrev|unfoldable|pub|data|record|ghost) )*([^\s:]+) ?[:(]|(?:pub )?(?:record|data) (\S+)", line)), "")
        if not head or head.startswith("use "):
            continue
        name = re.match(r"(?:(?:abbrev|unfoldable|pub|ghost) )*(?:record |data )?([^\s:(]+)", head)[1]
        definitions[f"{module}.{name}"] = lines
        # the cases of a data type belong to it; a field of a record comes with its type, and its name may be a variable's
        if re.search(r"\bdata ", head):
            for case in re.findall(r"^  (?:pub )?([\w-]+) :", part, re.M):
                definitions.setdefault(f"{module}.{case}", lines)
    return module, imports, wide, definitions, head_comment


def closure(roots, files):
    """The definitions that some stand on, by file, files that stand on no other first, in each in its order."""
    done, order = set(), []

    def visit(name):
        crate_module, _, word = name.rpartition(".")
        if name in done or crate_module not in files or name not in files[crate_module][2]:
            return
        done.add(name)
        imports, wide, definitions = files[crate_module]
        body = "\n".join(line for line in definitions[name] if not line.startswith("--"))
        for used in re.findall(r"[\w◌≡≤<>&|+*/-]*\w[\w◌-]*(?:\.\w+)?", body):
            first, _, rest = used.partition(".")
            within = f"{wide[first]}.{rest}" if first in wide else None
            for target in (within, imports.get(used), imports.get(first), f"{crate_module}.{used}", f"{crate_module}.{first}"):
                if target and target != name:
                    visit(target)
        order.append(name)

    for root in roots:
        if root.rpartition(".")[0] not in files or root not in files[root.rpartition(".")[0]][2]:
            sys.exit(f"no definition {root}")
        visit(root)
    modules = []

    def place(module):
        if module in modules or module in on_the_way:
            return
        on_the_way.add(module)
        imports, wide, _ = files[module]
        for target in [*(name.rpartition(".")[0] for name in imports.values()), *wide.values()]:
            if target in reached:
                place(target)
        modules.append(module)

    on_the_way, reached = set(), {name.rpartition(".")[0] for name in done}
    for module in sorted(reached):
        place(module)
    return [name for module in modules for name in files[module][2] if name in done]


files, heads = {}, {}
for path in sorted(TOP.glob("crates/*/specs/**/*.antt")):
    module, imports, wide, definitions, heads[module] = parsed(path)
    files[module] = imports, wide, definitions

# a law: a public function without parameters, whose clauses say something of no call
LAW = re.compile(r"^pub fn (\w+)\(\)\n((?:    ensures .*\n(?:        .*\n)*)+)", re.M)


def named_in(clauses, text):
    """The definitions that the clauses of a file of code name, by what the file imports."""
    imports, wide = {}, {}
    for crate, inner, names in re.findall(r"^ *ghost use Rattle\.(\w+)\.specs\.([\w.]+)\.\{([^}]*)\}", text, re.M):
        imports |= {name.strip(): f"{crate}.{inner}.{name.strip()}" for name in names.split(",")}
    named = [imports[word] for word in re.findall(r"[\w-]+", clauses) if word in imports]
    return [it for it in dict.fromkeys(named) if it in files.get(it.rpartition(".")[0], ((), (), ()))[2]]


def laws():
    """The laws by name: the clauses of each, and the definitions that they name."""
    found = {}
    for path in sorted(TOP.glob("crates/*/src/**/*.rt")):
        text = path.read_text(encoding="utf-8")
        for name, clauses in LAW.findall(text):
            # (two crates may each have a law of one name)
            known, roots = found.get(name, ("", []))
            found[name] = known + clauses, roots + named_in(clauses, text)
    return found


def print_definitions(parts):
    """Prints definitions under the comments that head their files."""
    module = ""
    for lines, (where, _) in parts.items():
        if where != module:
            crate, *inner = where.split(".")
            print(f"\n-- crates/{crate}/specs/{'/'.join(inner)}.antt\n{heads[where]}")
            module = where
        print("\n".join(lines) + "\n")


def parts_of(names):
    """Definitions by their lines, since a type of several cases stands under each of their names."""
    parts = {}
    for name in names:
        module = name.rpartition(".")[0]
        parts.setdefault(tuple(files[module][2][name]), (module, name))
    return parts


PAGE = """# What must be read

For verifiers: the definitions on which the text of each command depends, by file. What depends on nothing comes first,
and a type of several cases is listed by its first one. In capt's repository `checks/trusted.py --page` prints this
page, and `checks/trusted.py merge` the definitions of `capt merge` themselves. [VERIFYING.md](VERIFYING.md) says how to
read them, and [DEFINITIONS.md](DEFINITIONS.md) reads each one aloud."""


def print_page():
    """The names of the definitions behind each command, by file."""
    print(PAGE)
    for command, roots in ROOTS.items():
        parts = parts_of(closure(roots, files))
        count = sum(len(lines) for lines in parts)
        print(f"\n## capt {command}\n\n{len(parts)} definitions, {count} lines.\n\n| file | definitions |\n|---|---|")
        for module in dict.fromkeys(where for where, _ in parts.values()):
            crate, *inner = module.split(".")
            names = ", ".join(f"`{name.rpartition('.')[2]}`" for where, name in parts.values() if where == module)
            print(f"| `{crate}/specs/{'/'.join(inner)}.antt` | {names} |")


def print_counts():
    """How many definitions and lines each command needs, by crate."""
    for command, roots in ROOTS.items():
        parts, crates = parts_of(closure(roots, files)), {}
        for lines, (where, _) in parts.items():
            crates[where.split(".")[0]] = crates.get(where.split(".")[0], 0) + len(lines)
        told = ", ".join(f"{crate} {count}" for crate, count in crates.items())
        print(f"{command}: {len(parts)} definitions, {sum(crates.values())} lines ({told})")


def beside_commands(roots):
    """The definitions that some need beside those of the commands."""
    of_commands = set(closure([root for named in ROOTS.values() for root in named], files))
    return parts_of(it for it in closure(roots, files) if it not in of_commands)


def main(words):
    if not words:
        print_counts()
    elif words[0] == "--page":
        print_page()
    elif words[0] in ROOTS:
        print_definitions(parts_of(closure(ROOTS[words[0]], files)))
    elif words[0] == "--laws":
        for law, (_, roots) in laws().items():
            parts = beside_commands(roots)
            print(f"{law}: {len(parts)} definitions, {sum(map(len, parts))} lines")
    elif words[0] in laws():
        clauses, roots = laws()[words[0]]
        parts = beside_commands(roots)
        print(f"{clauses}\n{len(parts)} definitions beside those of the commands")
        print_definitions(parts)
    else:
        sys.exit(f"no command or law {words[0]}")


if __name__ == "__main__":
    # a reader of what is printed may stop, as `head` does
    signal.signal(signal.SIGPIPE, signal.SIG_DFL)
    main(sys.argv[1:])
