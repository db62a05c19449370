"""The command line: `python -m capt.archive index | find | top | duplicates | verify | totals | merge`."""
import argparse
import os
import re
import shutil
import signal
import sqlite3
import sys
from collections import Counter
from contextlib import contextmanager
from datetime import datetime, timezone
from fractions import Fraction
from itertools import groupby
from typing import Any, Iterable, Iterator, List, Optional, Tuple

from . import catalogue, ends, engines, indexing, lines, merging
from .errors import ArchiveError
from .program import JOINED, classes, is_whole

_NAME = "python -m capt.archive"
_EPOCH = datetime(1970, 1, 1, tzinfo=timezone.utc)


def end_of(text: str) -> Tuple[str, Optional[int]]:
    """ADDRESS or ADDRESS:PORT of IPv4, ADDRESS or [ADDRESS]:PORT of IPv6; the address as capt prints it."""
    bracketed = re.fullmatch(r"\[(.*)\]:([^:]*)", text)
    found = bracketed or re.fullmatch("([^:]*):([^:]*)", text)
    address, port = found.groups() if found else (text, None)
    try:
        if bracketed and ":" not in address:
            raise ValueError(text)
        address = ends.address_of(address)
    except ValueError:
        raise argparse.ArgumentTypeError(f"{text}: an address is one of IPv4 or IPv6, as 10.0.0.1 or 2001:db8::1")
    if port is not None and not (re.fullmatch("[0-9]{1,5}", port) and int(port) < 65536):
        raise argparse.ArgumentTypeError(f"{text}: a port is a number from 0 to 65535")
    return address, None if port is None else int(port)


def instant(text: str) -> Fraction:
    """A time: as capt prints it, in seconds since 1970, or a date of ISO 8601, in UTC if it says no zone."""
    try:
        if re.fullmatch(r"-?\d+\+\d+/\d+", text):
            return catalogue.exact(text) or Fraction(0)
        if re.fullmatch(r"-?\d+(\.\d+)?", text):
            return Fraction(text)
        date = datetime.fromisoformat(re.sub("Z$", "+00:00", text))
        date = date if date.tzinfo else date.replace(tzinfo=timezone.utc)
        since = date - _EPOCH
        return since.days * 86400 + since.seconds + Fraction(since.microseconds, 10**6)
    except (ValueError, ZeroDivisionError):
        raise argparse.ArgumentTypeError(f"{text}: a time is 1700000000.5, 1700000000+1/2 or 2023-11-14T22:13:20Z")


def at_least_one(text: str) -> int:
    """A number from 1 on."""
    if not re.fullmatch("[0-9]{1,9}", text) or int(text) < 1:
        raise argparse.ArgumentTypeError(f"{text}: a number from 1 on is wanted")
    return int(text)


class Words:
    """The words that a command takes."""

    def __init__(self, command: str, text: str):
        self.parser = argparse.ArgumentParser(prog=f"{_NAME} {command}", description=text, allow_abbrev=False)
        self.add = self.parser.add_argument

    def archive(self) -> "Words":
        self.add("archive", metavar="ARCHIVE.db")
        return self

    def reads(self) -> "Words":
        self.add("--json", action="store_true", help="print JSON Lines")
        return self

    def works(self) -> "Words":
        self.add("--jobs", type=at_least_one, metavar="N", help="how many processes work (one for each processor)")
        self.add("--dask", metavar="ADDRESS", help="the workers are those of this scheduler of dask")
        self.add("--program", default=os.environ.get("CAPT") or "capt", help="the program (capt, or what CAPT names)")
        return self

    def tells(self) -> "Words":
        self.add("--progress", action="store_true", help="say how far it is, even if standard error is no terminal")
        return self

    def files(self) -> "Words":
        self.add("files", nargs="*", metavar="FILE")
        self.add("--files0-from", metavar="LIST",
                 help="read the names from LIST, in which a NUL ends each; - is standard input")
        self.add("--allow-cut", action="store_true", help="accept a file whose last record or block is cut off")
        return self


COMMANDS = {
    "index": "Reads captures into the catalogue, but those that are unchanged since.",
    "find": "Which captures have an address, and when.",
    "top": "The greatest conversations over all captures.",
    "duplicates": "The captures that have the same packets.",
    "verify": "Reads the captures again: are their packets those that were indexed?",
    "totals": "The reports over each capture, added up.",
    "merge": "Merges any number of captures into one, in rounds of 32.",
}


def words_of(command: str) -> argparse.ArgumentParser:
    """What the words of a command are."""
    words = Words(command, COMMANDS[command])
    if command == "merge":
        words.add("out", metavar="OUT")
        words.files().works().add("--order", choices=("little", "big"), help="the order of bytes of OUT (little)")
        words.add("--to", choices=("pcap", "pcapng"), help="the format of OUT (pcapng)")
        words.add("--temporary", metavar="FOLDER", help="where the files of the rounds are (beside OUT)")
        return words.parser
    words.archive().reads()
    if command == "index":
        words.files().works().tells().add("--again", action="store_true", help="read unchanged captures too")
        words.add("--ipv6", action="store_true", help="make a catalogue that has conversations of IPv6 too")
    if command == "verify":
        words.works().tells()
    if command == "find":
        words.add("end", type=end_of, metavar="ADDRESS[:PORT]", help="an IPv6 address with a port is [ADDRESS]:PORT")
        words.add("--from", dest="since", type=instant, metavar="TIME", help="only conversations that last until then")
        words.add("--to", dest="until", type=instant, metavar="TIME", help="only conversations that have begun then")
    if command == "top":
        words.add("--count", type=at_least_one, default=10, metavar="N", help="how many (10)")
        words.add("--by", choices=("bytes", "packets"), default="bytes", help="what is compared (bytes)")
    if command in ("find", "totals"):
        words.add("--talks", action="store_true", help="print each conversation too")
    return words.parser


def parsed(words: List[str]) -> argparse.Namespace:
    """The command line, read; a wrong one ends the run with status 2."""
    whole = argparse.ArgumentParser(
        prog=_NAME, description="The catalogue of an archive of captures, in an SQLite database.",
        epilog="\n".join(f"  {name:11} {text}" for name, text in COMMANDS.items()),
        formatter_class=argparse.RawDescriptionHelpFormatter)
    whole.add_argument("command", choices=COMMANDS, metavar="COMMAND",
                       help="one of the commands below; COMMAND --help says more")
    command = whole.parse_args(words[:1]).command
    # FILE may stand between options
    read = words_of(command).parse_intermixed_args(words[1:])
    read.command = command
    return read


def paths_of(words: argparse.Namespace) -> List[str]:
    """The captures that the command line names, or a list."""
    if words.files0_from is None:
        if not words.files:
            raise ArchiveError("FILE is missing, or --files0-from", 2)
        return words.files
    if words.files:
        raise ArchiveError("the names are either FILEs or in the list of --files0-from", 2)
    try:
        if words.files0_from == "-":
            text = sys.stdin.buffer.read()
        else:
            with open(words.files0_from, "rb") as file:
                text = file.read()
    except OSError as error:
        raise ArchiveError(f"{words.files0_from}: {error.strerror}")
    names = text.split(b"\0")
    if names[-1] == b"":
        names.pop()
    if b"" in names:
        raise ArchiveError(f"{words.files0_from}: an empty name")
    return list(map(os.fsdecode, names))


@contextmanager
def engine_of(words: argparse.Namespace) -> Iterator[engines.Engine]:
    """The engine that the command line asks for."""
    if words.dask:
        with engines.cluster(words.dask) as engine:
            yield engine
        return
    if not shutil.which(words.program):
        raise ArchiveError(f"no program {words.program}: install capt, or name it with --program", 2)
    with engines.local(words.jobs or len(os.sched_getaffinity(0))) as engine:
        yield engine


def index(words: argparse.Namespace) -> int:
    """Reads captures into the catalogue."""
    paths, counts, progress = paths_of(words), Counter(), lines.Progress(words.progress)
    with catalogue.writing(words.archive, words.ipv6 or None) as archive, engine_of(words) as engine:
        how = {"program": words.program, "allow_cut": words.allow_cut, "again": words.again}
        for found, is_new in indexing.index(archive, paths, engine, **how):
            counts["read" if is_new else "unchanged"] += 1
            if not is_whole(found.outcome):
                counts["not whole"] += 1
                progress.end()
                put_not_whole(found.outcome, found.path, words.json)
            done = counts["read"] + counts["unchanged"]
            progress.tell(f"{done} of {len(paths)} files, {counts['not whole']} not whole")
    progress.end()
    lines.put("indexed", {"files": counts["read"] + counts["unchanged"], "read": counts["read"],
                          "unchanged": counts["unchanged"], "not_whole": counts["not whole"]}, words.json)
    return 1 if counts["not whole"] else 0


def put_not_whole(outcome: str, path: str, as_json: bool) -> None:
    """Prints how a capture ended that isn't whole."""
    lines.put("not-whole", {"outcome": outcome, "path": path}, as_json)


def answered(archive: catalogue.Catalogue) -> int:
    """Says how many captures aren't whole, of which an answer knows nothing; the status."""
    missing = sum(1 for _ in archive.not_whole())
    sys.stdout.flush()
    if missing:
        print(f"captures that aren't whole: {missing}; they aren't in the answer", file=sys.stderr)
    return 1 if missing else 0


def find(words: argparse.Namespace) -> int:
    """Which captures have an address, and when."""
    with catalogue.reading(words.archive) as archive:
        rows = archive.find(*words.end, words.since, words.until)
        for path, found in groupby(rows, key=lambda row: row.path):
            if words.talks:
                for row in found:
                    lines.put_talk(row.talk, words.json, path=path)
            else:
                lines.put("capture", {**_together(found), "path": path}, words.json)
        return answered(archive)


def _together(rows: Iterable[catalogue.TalkRow]) -> Any:
    """What some conversations of a capture are together."""
    talks = [row.talk for row in rows]
    first, last = catalogue.spanned((talk.first, talk.last) for talk in talks)
    packets, size = (sum(talk[at] + talk[at + 2] for talk in talks) for at in (5, 6))
    return {"talks": len(talks), "packets": packets, "bytes": size, "first": first, "last": last}


def top(words: argparse.Namespace) -> int:
    """The greatest conversations."""
    with catalogue.reading(words.archive) as archive:
        for talk in archive.top(words.count, words.by):
            lines.put_talk(talk, words.json)
        return answered(archive)


def duplicates(words: argparse.Namespace) -> int:
    """The captures that have the same packets."""
    with catalogue.reading(words.archive) as archive:
        for it in archive.duplicates():
            lines.put("duplicate", {"sha256": it.digest, "packets": it.packets, "path": it.path}, words.json)
        return answered(archive)


def verify(words: argparse.Namespace) -> int:
    """Whether the captures have the packets that were indexed."""
    counts, progress = Counter(), lines.Progress(words.progress)
    with catalogue.reading(words.archive) as archive, engine_of(words) as engine:
        for it in indexing.verify(archive, engine, program=words.program):
            counts[it.verdict == "same"] += 1
            if it.verdict != "same":
                progress.end()
                lines.put("changed", {"outcome": it.verdict, "path": it.path}, words.json)
            progress.tell(f"{sum(counts.values())} files, {counts[False]} changed")
        progress.end()
        facts = {"files": sum(counts.values()), "same": counts[True], "changed": counts[False]}
        lines.put("verified", facts, words.json)
        return answered(archive) or (1 if counts[False] else 0)


def totals(words: argparse.Namespace) -> int:
    """The reports over each capture, added up, as `report` prints one; and whether that is the report over them."""
    with catalogue.reading(words.archive) as archive:
        found = archive.totals()
        put_counts(found, classes(archive.ipv6), words.json)
        for talk in archive.talks() if words.talks else ():
            lines.put_talk(talk, words.json)
        is_report = not found.fragments
        lines.put("sums", {"is_report": is_report if words.json else "yes" if is_report else "no"}, words.json)
        for path in found.fragments:
            lines.put("fragments", {"path": path}, words.json)
        missing = list(archive.not_whole())
        for it in missing:
            put_not_whole(it.outcome, it.path, words.json)
        return 1 if missing else 0


def put_counts(found: catalogue.Totals, frames: Tuple[str, ...], as_json: bool) -> None:
    """Prints the counts of a report, line by line, where the line `frames` has these classes."""
    counts = {"files": found.files, **found.counts}
    kinds = {"files": ("files",), "total": ("packets", "bytes", "truncated"), "frames": frames, "joined": JOINED,
             "talks": ("talks",)}
    for kind, names in kinds.items():
        facts = {name: counts[name] for name in names}
        # three lines begin with the name of their first count
        lines.put(kind if as_json or kind not in facts else "", facts, as_json)


def merge(words: argparse.Namespace) -> int:
    """Merges captures in rounds."""
    how = {"allow_cut": words.allow_cut, "order": words.order, "to": words.to, "folder": words.temporary}
    with engine_of(words) as engine:
        merging.merge(words.out, paths_of(words), engine, program=words.program, **how)
    return 0


class Ended(BaseException):
    """The run is to end, as a scheduler asks for by SIGTERM."""


def end_now(number: int, _: Any) -> None:
    """Ends the run, and what it began."""
    raise Ended(128 + number)


def main() -> int:
    """Does what the command line says, and says why if it can't."""
    words = parsed(sys.argv[1:])
    for number in (signal.SIGINT, signal.SIGTERM):
        signal.signal(number, end_now)
    try:
        status = globals()[words.command](words)
        sys.stdout.flush()
        return status
    except ArchiveError as error:
        print(f"{_NAME}: {error}", file=sys.stderr)
        return error.status
    except sqlite3.Error as error:
        print(f"{_NAME}: {words.archive}: {error}", file=sys.stderr)
        return 1
    except BrokenPipeError:
        os.dup2(os.open(os.devnull, os.O_WRONLY), 1)
        return 1
    except Ended as ended:
        print(f"{_NAME}: interrupted; what is in the catalogue stays, and the same command goes on", file=sys.stderr,
              flush=True)
        # the workers end with this process, which doesn't wait for them
        os._exit(ended.args[0])


if __name__ == "__main__":
    sys.exit(main())
