#!/usr/bin/env python3
"""The captures of checks/corpus/: small files, each with a name that says why it is there. What answers.txt has of them is what the model
beside this file answers, and what the built program does, read whole and by one byte at a time (faults.c); and every other command, with
--allow-cut and without, does over each file what the model has.

Use: checks/corpus.py [PROGRAM]     (as after `rt run` or `rt ci` in crates/capt; some seconds)
     checks/corpus.py --print       (answers.txt as the model has it, for a new file's lines: what is expected there is worked out first)"""
import sys

sys.dont_write_bytecode = True

import os, re, tempfile
from concurrent.futures import ThreadPoolExecutor

from captures import PROGRAM, TOP, WRITING, Bench, Count, make_shim, wanted_of

FOLDER = os.path.join(TOP, "checks", "corpus")
TASKS = ("list", "classed", "blocks", "info", "report", "top", "info-skipping", "report-skipping", "report-ipv6",
         "classed-ipv6", "digest", "check", "check-digest", "pcap", "pcapng", "merge", "join")
MOST_BYTES = 300 * 1024
ANSWERED = re.compile(r"^\$ (capt .*)\n((?:(?!\$ |# ).+\n)*)", re.M)      # a command line of answers.txt, and what follows it


def read(name):
    with open(os.path.join(FOLDER, name), "rb") as file:
        return file.read()


def hex_lines(data):
    """Bytes as answers.txt has them: 32 in a line, by four."""
    words = [data[at:at + 4].hex() for at in range(0, len(data), 4)]
    return "".join(f"> {' '.join(words[at:at + 8])}\n" for at in range(0, len(words), 8))


def told(task, seen):
    """A status, what was written and standard error, as answers.txt has them."""
    status, written, error = seen
    line = f"! {error.decode()}" if error else ""
    return f"status {status}\n{line}{hex_lines(written) if task in WRITING else written.decode()}"


class Case:
    """A command line of answers.txt, and what it has of it."""

    def __init__(self, line, answer):
        words = line.split()
        self.line, self.answer, self.allow_cut = line, answer, "--allow-cut" in words
        self.order = ">" if "--order" in words and words[words.index("--order") + 1] == "big" else "<"
        self.task = words[words.index("--to") + 1] if "--to" in words else "classed" if "--class" in words else words[1]
        self.task += "-ipv6" * ("--ipv6" in words)
        options = {"--allow-cut": 1, "--class": 1, "--ipv6": 1, "--order": 2, "--to": 2, "-o": 2}
        at = 2
        while words[at] in options:
            at += options[words[at]]
        self.names = words[at:]
        self.contents = [read(name) for name in self.names]

    def wanted(self):
        return wanted_of(self.task, self.contents, self.allow_cut, self.order)


def told_by_model(case):
    return told(case.task, case.wanted())


def main():
    text = read("answers.txt").decode()
    if sys.argv[1:] == ["--print"]:
        sys.stdout.write(ANSWERED.sub(lambda found: f"$ {found[1]}\n{told_by_model(Case(found[1], found[2]))}", text))
        return
    count, program = Count(), sys.argv[1] if len(sys.argv) > 1 else PROGRAM
    names = sorted(set(os.listdir(FOLDER)) - {"answers.txt"})
    count.check("names", names == sorted(re.findall(r"^# ([\w.-]+): \S", text, re.M)), "answers.txt doesn't say of each file, once, why it is there")
    size = sum(os.path.getsize(os.path.join(FOLDER, name)) for name in os.listdir(FOLDER))
    count.check("size", size < MOST_BYTES, size)
    with tempfile.TemporaryDirectory() as folder:
        shim = make_shim(folder)

        def by(place):
            return (shim, {"PIECE": 1}) if place % 2 else None

        def answers(numbered):
            number, case = numbered
            bench, out = Bench(tempfile.mkdtemp(dir=folder), program), os.path.join(folder, f"out{number}")
            count.check(f"the model's {case.line}", told_by_model(case) == case.answer, told_by_model(case))
            for faults in (None, (shim, {"PIECE": 1})):
                seen = bench.run(case.task, case.contents, case.allow_cut, case.order, out, faults)[:3]
                count.check(case.line, told(case.task, seen) == case.answer, told(case.task, seen))

        def does(numbered):
            number, name = numbered
            bench, content, out = Bench(tempfile.mkdtemp(dir=folder), program), read(name), os.path.join(folder, f"does{number}")
            for place, task in enumerate(TASKS):
                for allow_cut in (False, True):
                    order = "<>"[(number + place) % 2]
                    differs = bench.differs(task, [content], allow_cut, order, out, by(number + place // 2))
                    count.check(f"{task} of {name}{', --allow-cut' if allow_cut else ''}", not differs, differs)
            for contents in ([content, content], [content, read(names[number - 1])]):
                differs = bench.differs("diff", contents, number % 2 == 0, faults=by(number))
                count.check(f"diff of {name}", not differs, differs)

        with ThreadPoolExecutor(2 * (os.cpu_count() or 2)) as pool:
            list(pool.map(answers, enumerate(Case(*found) for found in ANSWERED.findall(text))))
            list(pool.map(does, enumerate(names)))
    count.end()


main()
