"""Any number of captures are merged into one, in rounds of 32 over an engine.

By the law of rounds (`rounds_bytes` of capt's crate cap_laws) the bytes are those of a single merge, if nothing is
refused and no file of a round has more than 2^40 bytes."""
import os
import re
import shutil
import subprocess
import tempfile
from typing import Iterator, List, NamedTuple, Optional, Sequence, Tuple

from .engines import Engine, results
from .errors import ArchiveError

MOST = 32


class Group(NamedTuple):
    """Files that are merged into one, at most 32 of them."""
    command: Tuple[str, ...]
    out: str
    files: Tuple[str, ...]


def merge(out: str, paths: Sequence[str], engine: Engine, *, program: str = "capt", allow_cut: bool = False,
          order: Optional[str] = None, to: Optional[str] = None, folder: Optional[str] = None) -> None:
    """Merges captures into the file `out`, which is as it was if this fails. The files of the rounds are in a folder
    beside it, or in one in `folder`, which each worker has to see under the same name."""
    _check(out, paths)
    out = os.path.realpath(out)
    work = _folder(folder and os.path.abspath(folder) or os.path.dirname(out), out)
    beside = _folder(os.path.dirname(out), out)
    try:
        command = (program, "merge", *(("--order", order) if order else ()))
        cut = ("--allow-cut",) if allow_cut else ()
        files, each, number = list(map(os.path.abspath, paths)), 1, 0
        while number == 0 or len(files) > 1:
            is_last = len(files) <= MOST
            words = (*command, *cut, *(("--to", to) if to and is_last else ()))
            groups = list(_groups(words, files, beside if is_last else work, number))
            _merged(groups, engine, each, paths)
            if number:
                for file in files:
                    os.remove(file)
            files, each, number, cut = [it.out for it in groups], each * MOST, number + 1, ()
        if os.path.exists(out):
            shutil.copymode(out, files[0])
        os.replace(files[0], out)
    finally:
        for it in (work, beside):
            shutil.rmtree(it, ignore_errors=True)


def _folder(place: str, out: str) -> str:
    try:
        return tempfile.mkdtemp(prefix=f"{os.path.basename(out)}.", dir=place)
    except OSError as error:
        raise ArchiveError(f"{place}: {error.strerror}")


def _check(out: str, paths: Sequence[str]) -> None:
    """Before anything is written: each capture is a file that is there, and none is OUT."""
    for path in paths:
        if not os.path.isfile(path):
            raise ArchiveError(f"{path}: there is no such file")
        if os.path.exists(out) and os.path.samefile(out, path):
            raise ArchiveError(f"{path}: it is a capture and OUT", 2)
    if os.path.exists(out) and not os.path.isfile(out):
        raise ArchiveError(f"{out}: it is no file")


def _groups(words: Tuple[str, ...], files: List[str], folder: str, number: int) -> Iterator[Group]:
    for first in range(0, len(files), MOST):
        yield Group(words, os.path.join(folder, f"{number}-{first}.pcapng"), tuple(files[first:first + MOST]))


def _merge_one(group: Group) -> str:
    """Merges a group, and gives the line that the program says if it fails."""
    command = [*group.command, "-o", group.out, "--", *group.files]
    try:
        done = subprocess.run(command, stdin=subprocess.DEVNULL, stdout=subprocess.DEVNULL, stderr=subprocess.PIPE)
    except OSError as error:
        raise ArchiveError(f"{command[0]} can't be run: {error.strerror}")
    said = done.stderr.decode(errors="replace").strip().split("\n")[0]
    return (said or f"fault: status {done.returncode}") if done.returncode else ""


def _merged(groups: Sequence[Group], engine: Engine, each: int, paths: Sequence[str]) -> None:
    """Merges each group, of files that are the merge of so many captures; the first failure ends it."""
    for place, said in enumerate(list(results(engine, _merge_one, groups))):
        if said:
            raise ArchiveError(_told(said, place * MOST, each, paths))


def _told(said: str, before: int, each: int, paths: Sequence[str]) -> str:
    """A line that the program says, with the captures in place of the files of a round."""
    found = re.fullmatch("(.* )?file ([0-9]+)(.*)", said)
    if found is None:
        return said
    number = before + int(found[2])
    if each == 1:
        return f"{found[1]}file {number}{found[3]}: {paths[number - 1]}"
    last = min(number * each, len(paths))
    return f"{said}, where that file is the merge of files {(number - 1) * each + 1} to {last}"
