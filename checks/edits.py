#!/usr/bin/env python3
"""Tries the edits of crates/*/must-fail and crates/*/edits, many in one check: the prover must refuse each.

The proof of a function rests on the contracts of others, never on their bodies. So edits of different functions are made
at once in a copy of the crate, and one check asks for all these functions. It says of each whether it is proved, and
at which of its goals it isn't. An edit is refused if its function fails at a goal of its own. It doesn't count that a
function which it calls isn't proved, or that a proof file names what the edit took away. And no function may fail that
no edit names, which shows that the edits are apart. So this is stricter than `rt ci`, where it is enough that the crate
isn't proved.

An edit with a line `of: MODULE::FUNCTION` may reach more than that function: a constant, a definition, the statement
of a law. It is tried by itself, by a check of that function.

A check of a function is one of all that it calls. So a crate whose edits take several checks is first checked as it
stands. That must prove it, and what it proved is where the crate's other checks begin: they prove what an edit reached.

Use: checks/edits.py [CRATE | CRATE/EDIT]..     over the libraries that `rt ci` or `rt check` left in crates/*/out; of an
                                                edit that is named, it prints the goals at which it is refused
     checks/edits.py --beside LOG               those of crates/*/edits alone, beside a `rt ci` that writes to LOG, and that
                                                tries those of must-fail: a crate's begin once all crates below it are proved
     checks/edits.py --rlibs FOLDER ..          over libraries elsewhere
     RT_JOBS=N                                  checks side by side, of up to 2 GB each
"""
import sys

sys.dont_write_bytecode = True

import collections, os, re, shutil, signal, subprocess, tempfile, threading, time
from concurrent.futures import FIRST_COMPLETED, ThreadPoolExecutor, wait
from dataclasses import dataclass, field

import edit_files
from edit_files import FOLDERS, PARTS, crates_of, edits_of, kit, label_of

# The crates whose checks take longer than their code is long: they begin first.
LONG = ["cap_line", "cap_commands", "cap_tool", "cap_talks", "cap_write"]
# What `rt ci` prints of a crate that it proved, and when it ends.
PROVED = re.compile(r"^rt: (\w+) proved$", re.M)
ENDED = re.compile(r"^\d+ passed, \d+ failed", re.M)
# After how many seconds it looks again at what is built.
LOOK = 2
# How many edits a check has at most, so that a crate's edits are shared by the processors.
MOST = 24
# What a check says of a proof file that names what an edit took away, or of what rests on such a line.
LOST = re.compile(r"has no field|is not in scope|has no `|was not admitted|that depends? on ")


@dataclass
class Group:
    """Edits of one crate that one check can try."""

    crate: object
    edits: list = field(default_factory=list)
    texts: dict = field(default_factory=dict)

    @property
    def functions(self):
        return {edit.function for edit in self.edits}

    def takes(self, edit):
        """Makes an edit in the texts too, if it can be made beside the others."""
        if self.edits and (len(self.edits) == MOST or edit.is_told or self.edits[0].is_told or edit.function in self.functions):
            return False
        texts = edit.applied({path: edit.crate.text(path) for path in edit.paths} | self.texts)
        if texts is None:
            return False
        self.texts = texts
        self.edits.append(edit)
        return True

    def parts(self, refused):
        """The edits that are still to be refused, in smaller groups: by themselves if some of the group were refused."""
        left = [edit for edit in self.edits if edit not in refused]
        size = 1 if refused else (len(left) + 1) // 2
        return [group for at in range(0, len(left), size) for group in groups_of(left[at : at + size])]


def groups_of(edits):
    """The edits of a crate in groups, each as full as can be."""
    groups = []
    for edit in edits:
        if not any(group.takes(edit) for group in groups):
            groups.append(Group(edit.crate))
            groups[-1].takes(edit)
    return groups


def turn(crate):
    """What puts crates in order: the longest first, by the bytes of their code, since others fill what they leave at the end."""
    return crate.name not in LONG, -sum(os.path.getsize(f"{crate.folder}/{path}") for path in crate.code())


def checked(group, room, rlibs):
    """What a check of the group's functions says. The room keeps what it proved for the next check of the crate."""
    crate = group.crate
    copy = f"{room}/{crate.name}"
    shutil.rmtree(copy, ignore_errors=True)
    for part in PARTS:
        if os.path.isdir(f"{crate.folder}/{part}"):
            shutil.copytree(f"{crate.folder}/{part}", f"{copy}/{part}")
    for path, text in group.texts.items():
        with open(f"{copy}/{path}", "w", encoding="utf-8") as file:
            file.write(text)
    only = [word for function in sorted(group.functions) for word in ("--only", function)]
    return check(crate, copy, room, rlibs, only)[1]


def proved(crate, room, rlibs):
    """Checks a crate as it stands: the room keeps what it proved. Returns what is to be said if it isn't proved."""
    status, said = check(crate, crate.folder, room, rlibs, [])
    if status == 0:
        return []
    first = next((it for it in said.splitlines() if "error" in it or "not proved" in it), said[-200:])
    return [f"{crate.name}: isn't proved as it stands: {first[:200]}"]


def check(crate, folder, room, rlibs, only):
    """A check of a crate, or of the functions that are named: its status, and what it says."""
    words = [f"{kit()}/bin/rattle", "check", "--crate-name", crate.name, crate.root]
    words += ["--crate-type", "staticlib"] * crate.is_static
    here = {it.name for it in crate.below}
    for library in dict.fromkeys(["std", *crate.libraries]):
        words += ["--extern", f"{library}={rlibs[library] if library in here else f'{kit()}/rlibs/{library}.rlib'}"]
    for found in {os.path.dirname(rlibs[library]) for library in here} | {f"{kit()}/rlibs"}:
        words += ["-L", f"dependency={found}"]
    words += ["--links", f"{crate.name}=", "--jobs", "1", "--incremental", f"{room}/kept"]
    words += ["--antt-project", f"{kit()}/rattle/logic/antt-project.json", "--logic-built", f"{kit()}/logic_built"]
    words += only
    for is_last in (False, True):
        status, said = run(words, folder, crate.name)
        # (most likely for memory)
        if status != -signal.SIGKILL or is_last:
            return status, said


# how many checks each crate had, and their processor seconds
costs, counting = collections.defaultdict(lambda: [0, 0.0]), threading.Lock()


def run(words, folder, crate):
    """Runs a check in a folder: its status and what it says. What it cost is the crate's."""
    how = {"cwd": folder, "stdin": subprocess.DEVNULL, "stdout": subprocess.PIPE, "stderr": subprocess.STDOUT}
    with subprocess.Popen(words, text=True, errors="replace", **how) as child:
        said = child.stdout.read()
        status, used = os.wait4(child.pid, 0)[1:]
        child.returncode = os.waitstatus_to_exitcode(status)
    with counting:
        costs[crate] = [costs[crate][0] + 1, costs[crate][1] + used.ru_utime + used.ru_stime]
    return child.returncode, said


def failures(crate, said):
    """What the check says of each of its functions, and of those that fail by themselves, at which goals of theirs, or of lemmas that they cite."""
    told, notes, errors, last = {}, {}, {}, []
    # (a long message goes on in lines that begin with two spaces)
    for line in re.sub(r"\n {2,}", " ", said).splitlines():
        function = re.match(rf"fn {crate}::(\S+): (.*)", line)
        error = re.match(r"(?:\./)?proofs/(?:(\S+)/)?\w+\.antt:\S+ error: ", line)
        if re.match(r"note: \S+: it is not proved that ", line):
            last.append(line.removeprefix("note: "))
        elif function:
            told[function[1]], notes[function[1]], last = function[2], last, []
        elif error:
            errors.setdefault((error[1] or "").replace("/", "::"), []).append(line)
    goals_in = lambda lines: [it for it in lines if not LOST.search(it)]
    lemmas = goals_in(it for file, lines in errors.items() if file not in told for it in lines)
    failed = {}
    for function, words in told.items():
        own = errors.get(function, [])
        goals = goals_in(own) + notes[function] + [words] * ("did not prove" in words)
        if any("which was not admitted" in it for it in own):
            goals += lemmas
        if own or goals:
            failed[function] = goals
    return told, failed


def judge(group, said):
    """The goals at which each edit was refused, and what is to be said of the others; none if the check came to no end."""
    told, failed = failures(group.crate.name, said)
    if not told:
        return None
    wrong = []
    for edit in group.edits:
        if not failed.get(edit.function):
            why = "only because a proof file names what the edit took away" if edit.function in failed else told.get(edit.function, "it is no function of the check")
            wrong.append(f"{edit.label}: NOT REFUSED at a goal of {edit.function}: {why}")
    if not group.edits[0].is_told:
        for function in failed.keys() - group.functions:
            wrong.append(f"{group.crate.name}: {function} fails too, which no edit names: {failed[function][:1]}")
    return {it: failed[it.function] for it in group.edits if failed.get(it.function)}, wrong


# where each thread keeps what its checks of a crate proved
own = threading.local()


def room_of(crate, rooms):
    """The thread's room for a crate. It begins with what a check of the crate as it stands proved, if there was one."""
    if not hasattr(own, "rooms"):
        own.rooms = {}
    if crate.name not in own.rooms:
        own.rooms[crate.name] = tempfile.mkdtemp(dir=rooms)
        seed = f"{rooms}/{crate.name}/kept"
        if os.path.isdir(seed):
            shutil.copytree(seed, f"{own.rooms[crate.name]}/kept", copy_function=link_if_proved)
    return own.rooms[crate.name]


def link_if_proved(one, other):
    """Copies a file that a check kept: what it proved by a link, since a later check replaces such a file, and changes
    none."""
    (link_or_copy if one.endswith(".oantt") else shutil.copy2)(one, other)


def tried(group, rooms, rlibs):
    """Tries a group of edits: the goals at which each was refused, and what is to be said of the others."""
    lost = sorted(it.name for it in group.crate.below if it.name not in rlibs)
    if lost:
        return {}, [f"{edit.label}: not tried, since {lost[0]} isn't built" for edit in group.edits]
    said = checked(group, room_of(group.crate, rooms), rlibs)
    found = judge(group, said)
    if found and (not found[1] or len(group.edits) == 1):
        return found
    if len(group.edits) == 1:
        first = next((it for it in said.splitlines() if "error" in it), said[-200:])
        return {}, [f"{group.edits[0].label}: not tried, since the check came to no end: {first[:200]}"]
    # One of them can't be read, or reaches another function; or a function isn't judged, since one that it calls is edited
    # too. By themselves, each tells. If every failure has its edit, those that were refused aren't tried again.
    refused = found[0] if found and len(found[1]) == len(group.edits) - len(found[0]) else {}
    parts = [tried(part, rooms, rlibs) for part in group.parts(refused)]
    return refused | {edit: goals for more, _ in parts for edit, goals in more.items()}, [it for _, wrong in parts for it in wrong]


class Libraries(dict):
    """The built libraries of the crates, by name: of a folder, or else of each crate's out/, under second names, which stay
    if `rt ci` puts back what was there before. With a log of `rt ci`, a library is taken once the log says that its crate is
    proved."""

    def __init__(self, crates, folder, room, log):
        super().__init__()
        self.left = {
            it.name: f"{folder}/{it.name}.rlib" if folder else f"{it.folder}/out/rlib/{it.name}.rlib" for it in crates.values()
        }
        self.room, self.log, self.is_whole = room, log, False

    def look(self):
        """Takes what is built by now."""
        said = read_log(self.log) if self.log else ""
        self.is_whole = not self.log or bool(ENDED.search(said))
        built = list(self.left) if self.is_whole else PROVED.findall(said)
        for name in [it for it in built if it in self.left]:
            rlib, link = self.left.pop(name), f"{self.room}/{name}.rlib"
            if os.path.isdir(rlib):
                shutil.copytree(rlib, link, copy_function=link_or_copy)
            elif os.path.exists(rlib):
                link_or_copy(rlib, link)
            else:
                continue
            self[name] = link

    def are_below(self, crate):
        """Whether the crate's edits can be tried, or never will be."""
        return self.is_whole or all(it.name in self for it in crate.below)


def read_log(path):
    with open(path, encoding="utf-8", errors="replace") as file:
        return file.read()


def link_or_copy(one, other):
    try:
        os.link(one, other)
    except OSError:
        shutil.copy2(one, other)


class Turns:
    """The groups that are still to be tried, each once the libraries below its crate are built, and once the crate was
    checked as it stands, if it has several groups."""

    def __init__(self, groups, room, rlibs):
        self.left, self.room, self.rlibs = list(groups), room, rlibs
        self.counts = collections.Counter(it.crate.name for it in groups)
        # of the crates whose check as they stand has begun: what it has to say, once it has ended
        self.begun = {}

    def task(self):
        """What can be done next, if anything can: a function, which yields what was found."""
        for group in self.left:
            crate = group.crate
            if not self.rlibs.are_below(crate):
                continue
            is_due = self.counts[crate.name] > 1 and crate.name not in self.begun
            if is_due and all(it.name in self.rlibs for it in crate.below):
                self.begun[crate.name] = None
                return lambda: self.begin(crate)
            if self.begun.get(crate.name, []) is not None:
                self.left.remove(group)
                return lambda: self.tried(group)
        return None

    def begin(self, crate):
        """Checks a crate as it stands."""
        wrong = proved(crate, f"{self.room}/{crate.name}", self.rlibs)
        self.begun[crate.name] = wrong
        return {}, wrong

    def tried(self, group):
        """Tries a group of a crate, unless it isn't proved as it stands."""
        if self.begun.get(group.crate.name):
            why = f"not tried, since {group.crate.name} isn't proved as it stands"
            return {}, [f"{edit.label}: {why}" for edit in group.edits]
        return tried(group, self.room, self.rlibs)


def in_turn(groups, room, rlibs):
    """Tries groups side by side, and yields what was found."""
    lanes = int(os.environ.get("RT_JOBS") or os.cpu_count())
    turns, running = Turns(groups, room, rlibs), set()
    with ThreadPoolExecutor(lanes) as pool:
        while turns.left or running:
            rlibs.look()
            while len(running) < lanes and (task := turns.task()):
                running.add(pool.submit(task))
            if running:
                done, running = wait(running, timeout=LOOK, return_when=FIRST_COMPLETED)
                yield from (it.result() for it in done)
            elif turns.left:
                time.sleep(LOOK)


def main(words):
    options = {"--tree": edit_files.TOP, "--rlibs": None, "--beside": None}
    while words and words[0] in options:
        options[words[0]], words = words[1], words[2:]
    tree, folder, log = options.values()
    folders = ("edits",) if log else FOLDERS
    crates = crates_of(os.path.abspath(tree))
    wanted = {label_of(word) for word in words}
    edits = [edit for crate in sorted(crates.values(), key=turn) for edit in edits_of(crate, folders)]
    edits = [edit for edit in edits if not wanted or wanted & {edit.crate.name, edit.label}]
    wrong = [f"{it}: there is no such edit" for it in sorted(wanted - {it for edit in edits for it in (edit.crate.name, edit.label)})]
    wrong += [f"{edit.label}: {edit.wrong}" for edit in edits if edit.wrong]
    wrong += [f"{edit.label}: nobody tries it, since no `of:` says which function it changes" for edit in edits if not edit.wrong and not edit.function]
    groups = []
    for crate in dict.fromkeys(edit.crate for edit in edits):
        groups += groups_of([edit for edit in edits if edit.crate is crate and edit.function])
    refused = {}
    with tempfile.TemporaryDirectory(prefix="capt-edits-") as room:
        for goals, said in in_turn(groups, room, Libraries(crates, folder, room, log)):
            refused, wrong = refused | goals, wrong + said
    for edit, goals in refused.items():
        if edit.label in wanted:
            print(*(f"{edit.label}: refused at {goal[:250]}" for goal in goals), sep="\n")
    for it in wrong:
        print(f"edits.py: {it}")
    for crate, (checks, seconds) in sorted(costs.items(), key=lambda it: -it[1][1]):
        tried_here = sum(edit.crate.name == crate for group in groups for edit in group.edits)
        print(f"{crate}: {tried_here} edits in {checks} checks, {seconds:.0f} processor seconds")
    laws = sum(edit.is_of_statements for edit in refused)
    print(f"of the edits that are refused {laws} change a statement or a definition, and no code")
    print(f"{len(refused)} passed, {len(wrong)} failed")
    return bool(wrong)


if __name__ == "__main__":
    sys.exit(main(sys.argv[1:]))
