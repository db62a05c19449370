#!/usr/bin/env bash
# What the pages show is so:
# - each line that begins with `$ ` in a block of README.md, docs/GUIDE.md or docs/RECIPES.md is run over a copy of
#   examples/, with the lines that go on with it, and prints what stands under it, on both streams; the captures are
#   made anew by examples/make.py. Those of docs/VERIFYING.md are run in the top folder;
# - docs/RULES.md and the manual page have the numbers and names of the rules, whose definitions stand where the first
#   says; the manual page has what checks/manual.py prints from the helps, and the lines that they show;
# - what docs/CLAIMS.md claims is carried by functions that are there, and watched by edits and tests
#   (checks/claims.py); each definition has a comment (checks/definitions.py), each file says what it is
#   (checks/files.py), and the definitions behind a command and a law are as many as the pages say (checks/trusted.py);
# - each file that a page names or links to is there, and so is each heading; a block that names a file is a part of it;
# - a page says for whom it is, has lines of 120 columns, and is as short as it is to be;
# - the version, the kits and what the program needs are as README and others say; the manual page and the completions
#   are read without a complaint, if the programs for them are there.
#
# Use: checks/papers.sh [PROGRAM]
set -u
top=$(cd "$(dirname "$0")/.." && pwd)
program=$(realpath "${1:-$top/crates/capt/out/capt}")
work=$(mktemp -d)
trap 'rm -rf "$work"' EXIT
mkdir "$work/bin" "$work/files"
ln -s "$program" "$work/bin/capt"
python3 "$top/examples/make.py" "$work/files"

PATH="$work/bin:$PATH" python3 - "$top" "$work/files" <<'PY'
import os, re, shutil, subprocess, sys, tempfile

top, folder = sys.argv[1], sys.argv[2]
passed = failed = 0

def judged(name, is_so, told=""):
    global passed, failed
    if is_so:
        passed += 1
    else:
        failed += 1
        print(f"{name}: {told}")

for name in sorted(os.listdir(folder)):
    with open(f"{folder}/{name}", "rb") as made, open(f"{top}/examples/{name}", "rb") as kept:
        judged(f"examples/{name}", made.read() == kept.read(), "isn't what examples/make.py makes")

def text_of(name):
    with open(f"{top}/{name}", encoding="utf-8") as file:
        return file.read()

def kept_in(folder):
    return os.listdir(folder) if os.path.isdir(folder) else []

def status_after(text):
    refused = text.startswith(("refused: ", '{"type":"refused"', "left out ", '{"type":"left out"'))
    checked = [line for line in text.split("\n") if line.startswith(("check ", '{"type":"check"'))]
    refused = refused or any(" whole" not in line and '"whole":true' not in line for line in checked)
    digested = [line for line in text.split("\n") if line.startswith(("digest ", '{"type":"digest"'))]
    refused = refused or any(" sha256 " not in line and '"sha256":' not in line for line in digested)
    return 1 if refused else 3 if text.startswith(("differ ", '{"type":"differ"')) else 0

# how many words a page has at most
LENGTHS = {
    "README.md": 1_400,
    "CONTRIBUTING.md": 1_500,
    "docs/ARCHITECTURE.md": 1_300,
    "docs/CHANGING.md": 1_800,
    "docs/CLAIMS.md": 3_000,
    "docs/DECISIONS.md": 1_800,
    "docs/GUIDE.md": 3_200,
    "docs/LIBRARY.md": 1_800,
    "docs/PROOFS.md": 1_600,
    "docs/RECIPES.md": 1_300,
    "docs/RULES.md": 1_000,
    "docs/VERIFYING.md": 2_300,
    "man/capt.1": 2_900,
}

# A command goes on in the lines after it that begin with two spaces.
for page in ("README.md", "docs/GUIDE.md", "docs/RECIPES.md", "docs/VERIFYING.md"):
    place = top
    if page != "docs/VERIFYING.md":
        place = tempfile.mkdtemp(dir=os.path.dirname(folder))
        shutil.copytree(f"{top}/examples", place, dirs_exist_ok=True)
    for block in re.findall(r"^```\w*\n(.*?)^```$", text_of(page), re.M | re.S):
        for line, wanted in re.findall(r"^\$ (.*\n(?:  .*\n)*)((?:(?!\$ ).*\n)*)", block, re.M):
            if "jq " in line and not shutil.which("jq"):
                print(f"{page}: a recipe is left out, since jq isn't installed")
                continue
            ran = subprocess.run(["bash", "-c", line], cwd=place, capture_output=True, text=True, timeout=60)
            is_so = ran.stdout + ran.stderr == wanted and ran.returncode == status_after(wanted)
            judged(line, is_so, f"status {ran.returncode}, printed:\n{ran.stdout}{ran.stderr}")

kept = text_of("crates/cap_bytes/src/faults.rt")
numbers = dict(re.findall(r"Rule::(\w+) => (\d+),", kept))
names = dict(re.findall(r'Rule::(\w+) => "([\w-]+)",', kept))
rules = {(int(numbers[rule]), names[rule]) for rule in numbers}
told = {(int(number), name) for number, name in re.findall(r"^\| (\d+) `([\w-]+)` \|", text_of("docs/RULES.md"), re.M)}
judged("docs/RULES.md", len(rules) == 21 and told == rules, f"other rules: {sorted(told ^ rules)}")

page = text_of("man/capt.1")
heads = [head.replace("\\-", "-") for head in re.findall(r"^\.TP\n(.*)$", page, re.M)]
told = {(int(it[1]), it[2]) for it in (re.fullmatch(r"\\fB(\d+) ([\w-]+)\\fR", head) for head in heads) if it}
judged("man/capt.1, rules", told == rules, f"other rules: {sorted(told ^ rules)}")
# the lines that the helps show, one of them on two, are lines of the manual page, letter by letter
lines = set(re.sub(r"\\f.", "", page).replace("\\-", "-").split("\n"))
whole = re.sub(r"\n    (?=\w)", " ", text_of("checks/says.txt"))
shown = set(re.findall(r"^  ((?:left out|files?|total|frames|joined|talks?|packet|block|same|differ|digest|check) \S.*)$", whole, re.M))
judged("man/capt.1, lines", len(shown) == 17 and shown <= lines, f"{len(shown)} lines, lacks {sorted(shown - lines)}")
# the manual page has the options of the helps
options = set(re.findall(r"^ +(?:-\w, )?(--[\w-]+)(?: |$)", text_of("checks/says.txt"), re.M))
told = {it[1] for it in (re.match(r"(?:\\fB-\w\\fR, )?\\fB(--[\w-]+)\\fR", head) for head in heads) if it}
judged("man/capt.1, options", options and told == options, f"other options: {sorted(told ^ options)}")

# a pipe into or out of capt fails if any of its programs does
TASK = "(?:report|info|list|blocks|diff|digest|check|convert|merge|join)"
for page in ("README.md", "docs/GUIDE.md", "docs/RULES.md", "docs/RECIPES.md", "man/capt.1", "checks/says.txt"):
    lines = text_of(page).split("\n")
    pipes = [n for n, line in enumerate(lines) if re.search(rf"\| capt {TASK} |\bcapt {TASK} [^|`]*\|(?!\|)", line)]
    lost = [lines[n] for n in pipes if "pipefail" not in " ".join(lines[max(0, n - 2):n + 1])]
    judged(f"{page}, pipes", pipes and not lost, f"without pipefail: {lost}")

def ran_check(*words):
    return subprocess.run([f"{top}/checks/{words[0]}", *words[1:]], capture_output=True, text=True)

# what the scripts that read the sources find
ran = ran_check("manual.py", "--check")
judged("checks/manual.py", ran.returncode == 0, ran.stderr)
ran = ran_check("claims.py", "--faults")
judged("docs/CLAIMS.md", ran.returncode == 0 and not ran.stdout, ran.stdout + ran.stderr)
ran = ran_check("definitions.py")
judged("checks/definitions.py", ran.returncode == 0 and ran.stdout.startswith("# Definitions"), ran.stderr)
ran = ran_check("files.py")
judged("checks/files.py", ran.returncode == 0, ran.stderr)
told = re.findall(r"^(\w[\w -]*): (\d+) definitions, (\d+) lines", ran_check("trusted.py").stdout, re.M)
page = ran_check("trusted.py", "--page").stdout
lost = [it for it in told if f"\n## capt {it[0]}\n\n{it[1]} definitions, {it[2]} lines.\n\n| file " not in page]
judged("checks/trusted.py --page", len(told) >= 13 and not lost, f"lacks {lost} of {len(told)} commands")
laws = re.findall(r"^(\w+): (\d+) definitions, (\d+) lines", ran_check("trusted.py", "--laws").stdout, re.M)
counts = {law: (int(count), int(lines)) for law, count, lines in laws}
for law, count in re.findall(r"`(\w+)`(?: needs)? (\d+)\b", text_of("docs/VERIFYING.md")):
    judged(f"docs/VERIFYING.md, {law}", counts.get(law, (None,))[0] == int(count), f"it needs {counts.get(law)}")
readme = text_of("README.md")
folders = [f"crates/{crate}/{part}" for crate in os.listdir(f"{top}/crates") for part in ("must-fail", "edits")]
edits = [text_of(f"{folder}/{name}") for folder in folders for name in kept_in(f"{top}/{folder}")]
judged("README.md, edits", f"{len(edits)} edits in" in readme, f"there are {len(edits)}")
turned = len([edit for edit in edits if re.search(r"^file: specs/", edit, re.M)])
judged("README.md, laws", f"statement of a law ({turned} of them)" in " ".join(readme.split()), f"there are {turned}")
for number in dict((it[0], it[1:]) for it in told)["merge"]:
    judged("README.md, merge", f" {number} " in readme, f"wants {number}")

# The files that a page names: by a path from `crates/`, or, after one in the same line, by a path from that crate or
# from the folder of the file before.
def files_named(line):
    crate = folder = None
    for named in re.findall(r"[\w/.-]+\.(?:rt|antt)\b", line):
        path = re.sub(r"^(?=cap_\w+/)", "crates/", named)
        if path.startswith("crates/"):
            crate = "/".join(path.split("/")[:2])
        elif crate is None:
            continue
        elif path.startswith(("src/", "specs/", "proofs/")):
            path = f"{crate}/{path}"
        else:
            path = f"{folder}/{path}"
        if not os.path.exists(f"{top}/{path}") and folder and os.path.exists(f"{top}/{crate}/specs/{named}"):
            path = f"{crate}/specs/{named}"
        folder = os.path.dirname(path)
        yield named, path

docs = [f"docs/{name}" for name in sorted(os.listdir(f"{top}/docs")) if name.endswith(".md")]
pages = ["README.md", "SECURITY.md", "CONTRIBUTING.md", "CHANGELOG.md", "bench/RESULTS.md"] + docs
for page in pages:
    lost = [named for line in text_of(page).split("\n") for named, path in files_named(line) if not os.path.exists(f"{top}/{path}")]
    judged(f"{page}, files", not lost, f"names files that aren't there: {lost}")

# A name that a page has is a word of the sources, if it has `_` or a capital and a small letter.
words = set()
for folder in ("crates", "checks", "bench", "bindings", "packaging", "examples"):
    for place, folders, names in os.walk(f"{top}/{folder}"):
        folders[:] = [name for name in folders if name not in ("out", "corpus", "__pycache__")]
        for name in names:
            if not name.endswith((".pcap", ".pcapng")):
                with open(f"{place}/{name}", encoding="utf-8", errors="replace") as file:
                    words.update(re.findall(r"\w+", file.read()))
for page in pages:
    named = set(re.findall(r"`(\w+)`", text_of(page)))
    lost = sorted(name for name in named - words if re.search(r"\w_\w|[a-z][A-Z]|^[A-Z][a-z]", name))
    judged(f"{page}, names", not lost, f"names what the sources don't have: {lost}")

# A rule's definitions stand in the file that is named after them, and so do the functions.
for number, cell in re.findall(r"^\| (\d+) `[\w-]+` \|.*\|([^|]*)\|$", text_of("docs/RULES.md"), re.M):
    crate, waiting, lost = None, [], []
    for word, path in re.findall(r"`([\w:]+)`|([\w/]+\.(?:rt|antt))", cell):
        if word:
            waiting.append(word.split("::")[-1])
            continue
        crate = path.split("/")[0] if path.startswith("cap_") else crate
        told = text_of(f"crates/{path}" if path.startswith("cap_") else f"crates/{crate}/{path}")
        lost += [name for name in waiting if not re.search(rf"^(?:unfoldable |abbrev )?(?:pub )?{name} |\bfn {name}\b", told, re.M)]
        waiting = []
    judged(f"docs/RULES.md, rule {number}", not lost, f"not where it says: {lost}")

# A link's place is a heading of its page, spelled as a place: small letters, dashes for spaces, no other marks.
def places_of(path):
    with open(path, encoding="utf-8") as file:
        headings = re.findall(r"^#+ (.*)$", file.read(), re.M)
    return {re.sub(r"[^\w -]", "", heading).replace(" ", "-").lower() for heading in headings}

for page in pages:
    lost = []
    for link, place in re.findall(r"\]\(([^)#:]*)(?:#([^)]*))?\)", text_of(page)):
        path = os.path.join(top, os.path.dirname(page), link) if link else f"{top}/{page}"
        if not os.path.exists(path) or place and place not in places_of(path):
            lost.append(f"{link}#{place}" if place else link)
    judged(page, not lost, f"links to nothing: {lost}")

# how a page begins and how long it is: but for README, its first words say for whom it is
for page in pages[1:]:
    judged(f"{page}, its readers", text_of(page).split("\n\n")[1].startswith("For "), "doesn't begin with whom it is for")
for page in pages:
    prose = re.sub(r"^```.*?^```$", lambda block: "\n" * block[0].count("\n"), text_of(page), flags=re.M | re.S)
    # a block that names a file after its language is a part of that file
    for path, part in re.findall(r"^```\w+ (\S+)\n(.*?)^```$", text_of(page), re.M | re.S):
        judged(f"{page}, {path}", part in text_of(path), f"shows what {path} doesn't have:\n{part}")
    long = [n for n, line in enumerate(prose.split("\n"), 1) if len(line) > 120 and not line.startswith("|")]
    judged(f"{page}, columns", not long, f"lines of more than 120 columns: {long}")
judged("README.md, lines", readme.count("\n") <= 130, f"{readme.count(chr(10))} lines, at most 130")
for page, most in LENGTHS.items():
    words = len(text_of(page).split())
    judged(f"{page}, words", words <= most, f"{words} words, at most {most:,}")

# the version, and the kit that proves it, where they are told
version = re.search(r'VERSION: &str =\s+"([^"]*)";', text_of("crates/cap_line/src/texts.rt"))[1]
number = version.split()[0]
for page, told in [
    ("crates/capt_c/src/names.rt", f'VERSION: &str = "{number}";'),
    ("bindings/rust/Cargo.toml", f'\nversion = "{number}"\n'),
    ("bindings/python/pyproject.toml", f'\nversion = "{number}"\n'),
    ("man/capt.1", f'"capt {number}" "User commands"'),
    ("CHANGELOG.md", f"\n## [{number}] - 20"),
]:
    judged(f"{page}, version", told in text_of(page), f"wants {told}")
kits, logic = re.search(r"\((.*), (logic \w+)\)", version).groups()
judged("README.md, kits", all(part in readme for part in [*kits.split(" or "), logic]), f"wants {kits}, {logic}")
if shutil.which("rt"):
    kit, _, present = subprocess.run(["rt", "version"], capture_output=True, text=True).stdout.strip().partition(" ")
    names = [name if name.startswith("rattle-kit-") else f"rattle-kit-{name}" for name in kits.split(" or ")]
    judged("crates/cap_line/src/texts.rt, kit", kit in names and present == logic, f"rt is {kit} {present}")

if shutil.which("objdump") and shutil.which("capt"):
    told = subprocess.run(["objdump", "-Tx", os.path.realpath(shutil.which("capt"))], capture_output=True, text=True).stdout
    newest = max(re.findall(r"GLIBC_([\d.]+)", told), key=lambda version: [int(part) for part in version.split(".")])
    wanted = re.findall(r"^  NEEDED +(\S+)$", told, re.M)
    is_so = wanted == ["libc.so.6"] and f"the GNU C library from version {newest} on, no other library" in " ".join(readme.split())
    judged("README.md, what the program needs", is_so, f"it needs {wanted} of {newest}")

for tool, words in [
    ("man", ["man", "--warnings", "-l", "man/capt.1"]),
    ("bash", ["bash", "-n", "completions/capt.bash"]),
    ("fish", ["fish", "--no-execute", "completions/capt.fish"]),
    ("zsh", ["zsh", "-n", "completions/_capt"]),
]:
    if shutil.which(tool):
        ran = subprocess.run(words, cwd=top, stdout=subprocess.DEVNULL, stderr=subprocess.PIPE, text=True)
        judged(words[-1], ran.returncode == 0 and not ran.stderr, ran.stderr)
print(f"{passed} passed, {failed} failed")
sys.exit(failed != 0)
PY
