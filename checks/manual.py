#!/usr/bin/env python3
"""Prints what man/capt.1 takes from the helps, as troff: the commands and the options.

The helps are those of checks/says.txt, which program.sh compares with what the program prints. An option has the text
of its commands' helps, after the names of these commands. The options of FULLER, and those that no command has, have
the text of `capt --help`.

Use: checks/manual.py            prints it
     checks/manual.py --write    writes it between the marks of man/capt.1
     checks/manual.py --check    fails unless it is there: papers.sh calls this
"""
import pathlib, re, sys, textwrap

TOP = pathlib.Path(__file__).resolve().parent.parent
PAGE = TOP / "man/capt.1"
MARKS = ('.\\" BEGIN checks/manual.py --write\n', '.\\" END\n')
# `capt --help` says more about these options than the commands' helps
FULLER = ("explain", "help", "ignore", "ipv6", "time", "unit")
EVERY = "each command"
HEAD = """.SH OPTIONS
\\fIFILE\\fR, \\fIA\\fR and \\fIB\\fR are captures; \\fB\\-\\fR is standard input, at most once. Parentheses name the commands
of an option, if not all have it.
"""


def helps():
    """What `capt --help` prints, and what the help of each command prints, by the command's name."""
    parts = re.split(r"^\$ capt (.*)\nstatus \d\n", (TOP / "checks/says.txt").read_text(encoding="utf-8"), flags=re.M)
    texts = dict(zip(parts[1::2], parts[2::2]))
    commands = dict.fromkeys(re.findall(r"^(?:Usage:)? +capt (\w+)", texts["--help"], re.M))
    return texts["--help"], {command: texts[f"{command} --help"] for command in commands}


def entries(text, heading):
    """The entries below a heading of a help: each head with its text, which may go on in the next lines."""
    below = re.search(rf"^{heading}:\n((?: .*\n)*)", text, re.M)
    found = []
    for line in below[1].splitlines() if below else []:
        head = re.match(r" {2,6}(\S+(?: \S+)*)(?:  +|$)", line)
        if head:
            found.append((re.sub("[<>]", "", head[1]), line[head.end() :]))
        else:
            found[-1] = found[-1][0], f"{found[-1][1]} {line.strip()}".strip()
    return found


def name_of(head):
    """The long name of an option, without dashes."""
    return re.search(r"--([\w-]+)", head)[1]


def marked(text, bold, italic):
    """A text as troff, with what matches one of the patterns in bold or in italics."""
    fonts = {1: "\\fB", 2: "\\fI"}
    text = re.sub(rf"(?<![\w-])(?:({bold})|({italic}))(?![\w-])", lambda it: f"{fonts[it.lastindex]}{it[0]}\\fR", text)
    return text.replace("-", "\\-")


def filled(text):
    """A text in lines of at most 120 columns."""
    return textwrap.fill(text, 120, break_long_words=False, break_on_hyphens=False)


def entry(head, text):
    """A paragraph with a head, whose text becomes a sentence. In a text `A` is the article, and no placeholder."""
    text = marked(text, r"--[\w-]+|capt [a-z]+ --[\w-]+|-", r"FILE|FORM|FORMAT|KIND|LIST|N|ORDER|OUT|UNIT")
    head = marked(head, r"--?[\w-]+|[a-z]+", r"[A-Z]+")
    return f".TP\n{head}\n{filled(text + '.')}\n"


def description(program, commands):
    """What the program does, and each of its commands, with what must follow its name."""
    about = " ".join(program.partition("\n\n")[0].split())
    text = f".SH DESCRIPTION\n{filled(f'capt {about[0].lower()}{about[1:]}')}\n"
    for heading in re.findall(r"^(Commands .*):$", program, re.M):
        for command, does in entries(program, heading):
            takes = re.search(r"^Usage: capt (.*)$", commands[command], re.M)[1]
            text += entry(re.sub(r"[<>]|\[OPTIONS\] ", "", takes), does)
    return text


def options(program, commands):
    """The options, in the order of their names, each with the commands that take it, if not every command does."""
    found = {}
    for command, text in commands.items():
        for head, said in entries(text, "Options"):
            found.setdefault(head, {}).setdefault(said, []).append(command)
    for head, said in entries(program, "Options"):
        takers, said = re.match(r"(?:Of (.*?): )?(.*)", said).groups(default=EVERY)
        if head not in found or name_of(head) in FULLER:
            said = said[0].upper() + said[1:]
            found[head] = {said: [takers.replace(", and of ", ", ") if head in found else "in place of a command"]}

    def text_of(said, takers):
        if takers in ([EVERY], list(commands)):
            return said
        return f"({' and '.join(filter(None, [', '.join(takers[:-1]), takers[-1]]))}) {said}"

    heads = sorted(found, key=name_of)
    return HEAD + "".join(entry(head, ". ".join(text_of(*it) for it in found[head].items())) for head in heads)


def main(words):
    program, commands = helps()
    part = description(program, commands) + options(program, commands)
    page = PAGE.read_text(encoding="utf-8")
    before, after = page.index(MARKS[0]) + len(MARKS[0]), page.index(MARKS[1])
    if words == ["--write"]:
        PAGE.write_text(page[:before] + part + page[after:], encoding="utf-8")
    elif words == ["--check"]:
        if page[before:after] != part:
            sys.exit("man/capt.1 hasn't what the helps say: run checks/manual.py --write")
    elif words:
        sys.exit(__doc__)
    else:
        print(part, end="")


if __name__ == "__main__":
    main(sys.argv[1:])
