"""The program `capt` over one capture, and what its JSON says: this runs in the workers."""
import json
import os
import stat
import subprocess
from contextlib import contextmanager
from typing import IO, Any, Dict, Iterator, List, NamedTuple, Optional, Tuple, cast

from .errors import ArchiveError

MOST = 2**63 - 1
# how a capture ended that was read to its end; a cut end was dropped then, if that was allowed
WHOLE = ("whole", "whole cut")
# the counts of `check` and of the line `frames` and `joined` of `report`, by the columns of the table `totals`
CHECKED = ("truncated", "backward", "untimed", "skipped", "interfaces")
JOINED = ("joined", "given_up")


def classes(ipv6: bool) -> Tuple[str, ...]:
    """The classes of packets in the line `frames`, with conversations of IPv6 or without."""
    return ("other_link", "not_ip" if ipv6 else "not_ipv4", "short", "cut", "bad", "unjoined", "counted")


class Task(NamedTuple):
    """A capture to be read: by which program, under which name, whether a cut end is dropped, and whether conversations
    of IPv6 are read. `run` is another number in each run, so that no engine returns what it kept of an earlier one."""
    program: str
    path: str
    allow_cut: bool
    run: int
    ipv6: bool = False


class Talk(NamedTuple):
    """A conversation of a capture, as the table `talks` has it."""
    protocol: int
    a: str
    a_port: Optional[int]
    b: str
    b_port: Optional[int]
    forward_packets: int
    forward_bytes: int
    backward_packets: int
    backward_bytes: int
    first: Optional[str]
    last: Optional[str]
    first_ns: Optional[int]
    last_ns: Optional[int]


class Found(NamedTuple):
    """What was found of a capture: `outcome` says how it ended, `facts` are columns of the table `files`, and `counts`
    those of the table `totals`, if it is whole."""
    path: str
    size: Optional[int]
    mtime_ns: Optional[int]
    outcome: str
    facts: Dict[str, Any]
    counts: Dict[str, int]
    talks: List[Talk]


def is_whole(outcome: str) -> bool:
    """Whether a capture was read to its end."""
    return outcome in WHOLE


def look(task: Task) -> Found:
    """Reads a capture: its digest and its span, and then its conversations."""
    before = _stamp(task.path)
    if isinstance(before, str):
        return _without(task, None, before)
    facts, counts, outcome = _checked(task)
    talks: List[Talk] = []
    if is_whole(outcome):
        told, outcome = _reported(task, outcome, talks)
        counts = {**counts, **told}
    if _stamp(task.path) != before:
        return _without(task, before, "changed")
    numbers = [*counts.values(), facts.get("packets") or 0, facts.get("bytes") or 0]
    if max([*numbers, *(max(talk[5:9]) for talk in talks)]) > MOST:
        return _without(task, before, "fault count")
    if not is_whole(outcome):
        counts, talks = {}, []
    return Found(task.path, *before, outcome, facts, counts, talks)


def digest(task: Task) -> Tuple[Optional[str], str]:
    """The digest of a capture, if it is whole, and how it ended."""
    before = _stamp(task.path)
    if isinstance(before, str):
        return None, before
    facts, _, outcome = _checked(task)
    return facts.get("digest"), outcome


def _without(task: Task, stamp: Optional[Tuple[int, int]], outcome: str) -> Found:
    size, mtime_ns = stamp or (None, None)
    return Found(task.path, size, mtime_ns, outcome, {}, {}, [])


def _stamp(path: str) -> Any:
    """The size of a file and the time of its last change, or why it isn't read."""
    try:
        path.encode()
        found = os.stat(path)
    except (OSError, ValueError):
        # the program opens no name that isn't UTF-8
        return "open"
    return (found.st_size, found.st_mtime_ns) if stat.S_ISREG(found.st_mode) else "no file"


def _words(task: Task, *words: str) -> List[str]:
    return [task.program, *words, "--json", *["--allow-cut"] * task.allow_cut, "--", task.path]


@contextmanager
def _running(command: List[str]) -> Iterator[IO[bytes]]:
    """A run of the program: the lines that it prints."""
    try:
        process = subprocess.Popen(command, stdin=subprocess.DEVNULL, stdout=subprocess.PIPE, stderr=subprocess.PIPE)
    except OSError as error:
        raise ArchiveError(f"{command[0]} can't be run: {error.strerror}")
    with process:
        with cast(IO[bytes], process.stdout) as lines:
            yield lines
        # what wasn't read isn't waited for
        said = cast(IO[bytes], process.stderr).read().decode(errors="replace").strip()
    if process.returncode == 2:
        why = said.split("\n")[0]
        raise ArchiveError(f"{command[0]} refuses the command line, it may be too old for this package: {why}")
    if process.returncode not in (0, 1):
        raise _Fault({"type": "fault", "fault": f"status {process.returncode}"})
    if said.startswith("{"):
        raise _Fault(json.loads(said.split("\n")[0]))


class _Fault(Exception):
    """A run of the program ended with this object on standard error, or didn't end by itself."""

    @property
    def told(self) -> Dict[str, Any]:
        return self.args[0]


def objects(command: List[str]) -> Iterator[Dict[str, Any]]:
    """The objects that a run of the program prints, the last of them the one on standard error, if there is one."""
    try:
        with _running(command) as lines:
            yield from map(json.loads, lines)
    except _Fault as fault:
        yield fault.told
    except ValueError:
        raise ArchiveError(f"{command[0]} prints no JSON: is it capt?")


def fault_of(told: Dict[str, Any]) -> str:
    """How a capture ended, if what the program says of it isn't a line of a report."""
    if told["type"] == "refused":
        return "refused offset {offset} rule {rule} {name}".format(**told)
    if told.get("fault") in ("read", "open"):
        return f"read offset {told['offset']}" if told["fault"] == "read" else "open"
    return f"fault {told['fault']}"


def _ending(told: Dict[str, Any]) -> str:
    """How a file ended that was checked, as its line says it."""
    if told.get("whole"):
        return "whole cut" if told["cut"] else "whole"
    if "refused" in told:
        return fault_of({"type": "refused", **told["refused"]})
    return f"read offset {told['read']['offset']}" if "read" in told else "open"


def _checked(task: Task) -> Tuple[Dict[str, Any], Dict[str, int], str]:
    """What `check --digest` says: the facts, the counts, and how the capture ended."""
    facts: Dict[str, Any] = {}
    counts: Dict[str, int] = {}
    outcome = "fault no line"
    for told in objects(_words(task, "check", "--digest")):
        if told["type"] != "check":
            return {}, {}, fault_of(told)
        outcome = _ending(told)
        facts = {"digest": told["sha256"], "format": told["format"], "packets": told["packets"], "bytes": told["bytes"]}
        facts.update(_span(told))
        counts = {name: told[name] for name in CHECKED}
    return facts, counts, outcome


def _reported(task: Task, outcome: str, talks: List[Talk]) -> Tuple[Dict[str, int], str]:
    """What `report` counts, and how the capture ended; puts its conversations in a list."""
    counts: Dict[str, int] = {}
    for told in objects(_words(task, "report", *["--ipv6"] * task.ipv6)):
        kind = told.pop("type")
        if kind == "talk":
            talks.append(_talk(told))
        elif kind in ("frames", "joined"):
            counts.update(told)
        elif kind in ("refused", "fault"):
            return {}, fault_of({"type": kind, **told})
    if not all(name in counts for name in classes(task.ipv6) + JOINED):
        return {}, "fault no report"
    counts["fragments"] = int(_has_fragments(task, counts))
    return counts, outcome


def _has_fragments(task: Task, counts: Dict[str, int]) -> bool:
    """Whether a packet of a capture is a fragment of IPv4. If one is, its datagram is joined, or it is unjoined, or its
    datagram is bad. Packets are also bad for other reasons, and fragments of IPv6 are unjoined, but never joined: so
    these two counts don't always tell, and then the packets are listed, without IPv6."""
    if counts["joined"] or counts["unjoined"] and not task.ipv6:
        return True
    if not counts["unjoined"] and not counts["bad"]:
        return False
    try:
        with _running(_words(task, "list", "--class", "--data", "0")) as lines:
            # any line is looked at, but one of a fragment ends the run
            return any(b'"class":"fragment"' in line for line in lines)
    except _Fault:
        return True


def _talk(told: Dict[str, Any]) -> Talk:
    a, b, forward, backward, span = told["a"], told["b"], told["forward"], told["backward"], _span(told)
    return Talk(told["protocol"], a["address"], a.get("port"), b["address"], b.get("port"), forward["packets"],
                forward["bytes"], backward["packets"], backward["bytes"], span["first"], span["last"], span["first_ns"],
                span["last_ns"])


def _span(told: Dict[str, Any]) -> Dict[str, Any]:
    """The first and the last time, exact as a text, and in nanoseconds, rounded down."""
    span: Dict[str, Any] = {}
    for name in ("first", "last"):
        time = told[name]
        span[name] = time and "{}+{}/{}".format(*time)
        span[f"{name}_ns"] = time and nanoseconds(*time)
    return span


def nanoseconds(seconds: int, numerator: int = 0, denominator: int = 1) -> int:
    """A time in nanoseconds since 1970, rounded down; one that 64 bits don't hold is the nearest that they hold."""
    return min(max(seconds * 10**9 + numerator * 10**9 // denominator, -MOST), MOST)
