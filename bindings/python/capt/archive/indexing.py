"""Captures are read into a catalogue, and their digests are compared with it."""
import os
import time
from typing import Dict, Iterable, Iterator, NamedTuple, Optional, Tuple

from .catalogue import Catalogue, Entry
from .engines import Engine, results
from .program import Found, Task, digest, is_whole, look

# how a file ended that wasn't read, or whose run failed: it is read again, even if it is unchanged
_PASSING = ("open", "read ", "no file", "changed", "fault ")


class Verdict(NamedTuple):
    """What became of a capture since it was indexed: "same", "differs", or how it ends now."""
    path: str
    verdict: str


def index(catalogue: Catalogue, paths: Iterable[str], engine: Engine, *, program: str = "capt", allow_cut: bool = False,
          again: bool = False) -> Iterator[Tuple[Found, bool]]:
    """Reads captures and puts each into the catalogue, as soon as it comes. Gives what was found of each, and True; or,
    if its size and the time of its last change are those that the catalogue has, what the catalogue has, and False.
    With `again` each is read. Conversations of IPv6 are read if the catalogue has such ones."""
    known = {} if again else catalogue.known()
    waiting: Dict[str, int] = {}
    for path in dict.fromkeys(map(os.path.abspath, paths)):
        had = _unchanged(path, known, allow_cut)
        if had is None:
            waiting[path] = _size(path)
        else:
            yield Found(path, *had, {}, {}, []), False
    # the largest first, so that none of them is begun when the others are done
    ordered = sorted(waiting, key=lambda path: -waiting[path])
    run = time.time_ns()
    catalogue.begin(len(ordered))
    tasks = (Task(program, path, allow_cut, run, catalogue.ipv6) for path in ordered)
    for found in results(engine, look, tasks):
        catalogue.put(found)
        yield found, True
    catalogue.end()


def _size(path: str) -> int:
    try:
        return os.stat(path).st_size
    except (OSError, ValueError):
        return 0


def _unchanged(path: str, known: Dict[str, Tuple[Optional[int], Optional[int], str]],
               allow_cut: bool) -> Optional[Tuple[int, int, str]]:
    """What the catalogue has of a capture that needn't be read."""
    size, mtime_ns, outcome = known.get(path, (None, None, ""))
    if size is None or mtime_ns is None or outcome.startswith(_PASSING):
        return None
    if allow_cut and outcome.endswith(" rule 3 cut"):
        return None
    try:
        found = os.stat(path)
    except OSError:
        return None
    return (size, mtime_ns, outcome) if (found.st_size, found.st_mtime_ns) == (size, mtime_ns) else None


def verify(catalogue: Catalogue, engine: Engine, *, program: str = "capt") -> Iterator[Verdict]:
    """Reads each whole capture again, and says whether its packets have the digest that the catalogue has."""
    entries = [it for it in catalogue.entries() if it.digest is not None and is_whole(it.outcome)]
    run = time.time_ns()
    tasks = (Task(program, it.path, it.outcome == "whole cut", run) for it in entries)
    for entry, (found, outcome) in zip(entries, results(engine, digest, tasks)):
        yield Verdict(entry.path, _verdict(entry, found, outcome))


def _verdict(entry: Entry, found: Optional[str], outcome: str) -> str:
    if not is_whole(outcome):
        return outcome
    return "same" if found == entry.digest and outcome == entry.outcome else "differs"
