"""The catalogue: an SQLite database with the tables `files`, `talks` and `totals`."""
import fcntl
import os
import sqlite3
from contextlib import closing, contextmanager, suppress
from fractions import Fraction
from typing import Any, Dict, Iterable, Iterator, List, NamedTuple, Optional, Tuple, Union
from urllib.parse import quote

from . import ends
from .errors import ArchiveError
from .program import CHECKED, JOINED, WHOLE, Found, Talk, classes, nanoseconds

# `application_id` marks a database as a catalogue. `user_version` is that of its tables: those of version 2 have
# conversations of IPv6 too, and the column `not_ip` in place of `not_ipv4`.
_MARK = 0x63617074
_VERSIONS = {1: False, 2: True}
_FACTS = ("digest", "format", "packets", "bytes", "first", "last", "first_ns", "last_ns")
_TABLES = """
CREATE TABLE files (
    id INTEGER PRIMARY KEY, path NOT NULL UNIQUE, size INTEGER, mtime_ns INTEGER, digest TEXT, format TEXT,
    packets INTEGER, bytes INTEGER, first TEXT, last TEXT, first_ns INTEGER, last_ns INTEGER, outcome TEXT NOT NULL);
CREATE INDEX files_digest ON files (digest);
CREATE TABLE talks (
    file INTEGER NOT NULL REFERENCES files, protocol INTEGER NOT NULL, a TEXT NOT NULL, a_port INTEGER, b TEXT NOT NULL,
    b_port INTEGER, forward_packets INTEGER NOT NULL, forward_bytes INTEGER NOT NULL,
    backward_packets INTEGER NOT NULL, backward_bytes INTEGER NOT NULL, first TEXT, last TEXT, first_ns INTEGER,
    last_ns INTEGER);
CREATE INDEX talks_file ON talks (file);
"""
# the indexes by ends, whose pages are written all over: many captures are put in first, and then all is indexed at once
_BY_ENDS = ("a", "b")
_MANY = 32
_BY = {"bytes": "forward_bytes + backward_bytes", "packets": "forward_packets + backward_packets"}

Time = Optional[Fraction]


class Entry(NamedTuple):
    """A capture in the catalogue."""
    path: str
    digest: Optional[str]
    packets: Optional[int]
    outcome: str


class NotWhole(NamedTuple):
    """A capture of which the catalogue has no conversations, and how it ended."""
    path: str
    outcome: str


class TalkRow(NamedTuple):
    """A conversation in a capture."""
    path: str
    talk: Talk

    @property
    def first(self) -> Time:
        """The exact time of its first packet, in seconds since 1970."""
        return exact(self.talk.first)

    @property
    def last(self) -> Time:
        """The exact time of its last packet."""
        return exact(self.talk.last)


class Totals(NamedTuple):
    """What the reports over the whole captures count together: `counts` has the lines `total`, `frames` and `joined`.
    They are the report over all these captures if `fragments` names none of them."""
    files: int
    counts: Dict[str, int]
    fragments: List[str]


def exact(time: Optional[str]) -> Time:
    """A time that is printed, as a fraction."""
    if time is None:
        return None
    seconds, fraction = time.split("+")
    numerator, denominator = map(int, fraction.split("/"))
    return int(seconds) + Fraction(numerator, denominator)


def _column(path: str) -> Union[str, bytes]:
    """A path as it is kept: its bytes, if they aren't UTF-8."""
    try:
        path.encode()
        return path
    except UnicodeEncodeError:
        return os.fsencode(path)


def _path(column: Union[str, bytes]) -> str:
    return os.fsdecode(column) if isinstance(column, bytes) else column


def _counted(ipv6: bool) -> Tuple[str, ...]:
    """The columns of the table `totals`, with conversations of IPv6 or without."""
    return (*CHECKED, *classes(ipv6), *JOINED, "fragments")


def _tables(ipv6: bool) -> str:
    """What makes the tables, with conversations of IPv6 or without."""
    columns = ", ".join(f"{name} INTEGER NOT NULL" for name in _counted(ipv6))
    version, = (version for version, has_ipv6 in _VERSIONS.items() if has_ipv6 == ipv6)
    return f"""{_TABLES}
CREATE TABLE totals (file INTEGER PRIMARY KEY REFERENCES files, {columns});
PRAGMA application_id = {_MARK};
PRAGMA user_version = {version};
"""


class Catalogue:
    """The catalogue of an open database. `reading` and `writing` open one. `ipv6` says whether it has conversations of
    IPv6 too."""

    def __init__(self, connection: sqlite3.Connection, path: str, ipv6: bool):
        self._database, self._path, self.ipv6 = connection, path, ipv6

    def known(self) -> Dict[str, Tuple[Optional[int], Optional[int], str]]:
        """The size, the time of the last change, and the outcome of each capture when it was read."""
        rows = self._database.execute("SELECT path, size, mtime_ns, outcome FROM files")
        return {_path(path): (size, mtime_ns, outcome) for path, size, mtime_ns, outcome in rows}

    def begin(self, captures: int) -> None:
        """So many captures are to be put in: if these are most of them, the indexes by ends are made by `end`."""
        had, = self._database.execute("SELECT COUNT(*) FROM files").fetchone()
        for end in _BY_ENDS if captures > max(_MANY, had / 2) else ():
            self._database.execute(f"DROP INDEX IF EXISTS talks_{end}")

    def end(self) -> None:
        """Makes the indexes by ends that aren't there. Without them `find` is slow, and finds the same."""
        for end in _BY_ENDS:
            self._database.execute(f"CREATE INDEX IF NOT EXISTS talks_{end} ON talks ({end}, {end}_port)")

    def put(self, found: Found) -> None:
        """Puts in what was found of a capture, in place of what was there of it, in one transaction."""
        columns = ("size", "mtime_ns", *_FACTS, "outcome")
        facts = (found.size, found.mtime_ns, *map(found.facts.get, _FACTS), found.outcome)
        with self._database as database:
            path = _column(found.path)
            database.execute("INSERT OR IGNORE INTO files (path, outcome) VALUES (?, '')", (path,))
            file, = database.execute("SELECT id FROM files WHERE path = ?", (path,)).fetchone()
            marks = ", ".join(f"{name} = ?" for name in columns)
            database.execute(f"UPDATE files SET {marks} WHERE id = ?", (*facts, file))
            for table in ("talks", "totals"):
                database.execute(f"DELETE FROM {table} WHERE file = ?", (file,))
            if found.counts:
                counts = [found.counts[name] for name in _counted(self.ipv6)]
                database.execute(f"INSERT INTO totals VALUES (?{', ?' * len(counts)})", (file, *counts))
            marks = ", ?" * len(Talk._fields)
            database.executemany(f"INSERT INTO talks VALUES (?{marks})", ((file, *talk) for talk in found.talks))

    def entries(self) -> Iterator[Entry]:
        """The captures, in the order of their paths."""
        for path, *rest in self._database.execute("SELECT path, digest, packets, outcome FROM files ORDER BY path"):
            yield Entry(_path(path), *rest)

    def not_whole(self) -> Iterator[NotWhole]:
        """The captures that aren't whole."""
        marks = ", ".join("?" * len(WHOLE))
        query = f"SELECT path, outcome FROM files WHERE outcome NOT IN ({marks}) ORDER BY path"
        for path, outcome in self._database.execute(query, WHOLE):
            yield NotWhole(_path(path), outcome)

    def find(self, address: str, port: Optional[int] = None, since: Time = None,
             until: Time = None) -> Iterator[TalkRow]:
        """The conversations of an address, or of a port of it, in the order of the captures' paths. With `since` or
        `until` those whose span, from their first packet to their last, meets the time between; none without a time.
        An address of IPv6 is looked for only in a catalogue that has such ones: elsewhere this is an ArchiveError."""
        address = ends.address_of(address)
        if ":" in address and not self.ipv6:
            raise ArchiveError(f"{self._path}: it has no conversations of IPv6; `index --ipv6` makes a new catalogue "
                               "that has")
        is_end = "{0} = :address" + (" AND {0}_port = :port" if port is not None else "")
        span = " AND last_ns >= :since" * (since is not None) + " AND first_ns <= :until" * (until is not None)
        query = f"""SELECT files.path, {", ".join(f"talks.{name}" for name in Talk._fields)}
            FROM talks JOIN files ON files.id = talks.file WHERE talks.rowid IN (
                SELECT rowid FROM talks WHERE {is_end.format("a")}{span}
                UNION SELECT rowid FROM talks WHERE {is_end.format("b")}{span})
            ORDER BY files.path, talks.rowid"""
        words = {"address": address, "port": port, "since": _floor(since), "until": _floor(until)}
        for path, *talk in self._database.execute(query, words):
            row = TalkRow(_path(path), Talk(*talk))
            if _meets(row, since, until):
                yield row

    def top(self, count: int, by: str = "bytes") -> Iterator[Talk]:
        """The greatest conversations over all captures, by their bytes or their packets in both directions."""
        keys = ("protocol", "a", "a_port", "b", "b_port")
        sums = ", ".join(f"SUM({name})" for name in Talk._fields[5:9])
        query = f"""SELECT {", ".join(keys)}, {sums} FROM talks GROUP BY {", ".join(keys)}
            ORDER BY SUM({_BY[by]}) DESC, {", ".join(keys)} LIMIT ?"""
        spans = f"SELECT first, last FROM talks WHERE {' AND '.join(f'{key} IS ?' for key in keys)}"
        for row in self._database.execute(query, (count,)).fetchall():
            yield Talk(*row, *_timed(*spanned(self._database.execute(spans, row[:5]))))

    def talks(self) -> Iterator[Talk]:
        """The conversations over all captures, each once, with the sums of its counts and its whole span."""
        held: List[Tuple[Any, ...]] = []
        query = f"SELECT {', '.join(Talk._fields)} FROM talks ORDER BY protocol, a, a_port, b, b_port"
        for row in self._database.execute(query):
            if held and held[0][:5] != row[:5]:
                yield _summed(held)
                held = []
            held.append(row)
        if held:
            yield _summed(held)

    def duplicates(self) -> Iterator[Entry]:
        """The captures whose packets another capture has as well: those of one digest one after another."""
        query = """SELECT path, digest, packets, outcome FROM files
            WHERE digest IN (SELECT digest FROM files WHERE digest IS NOT NULL GROUP BY digest HAVING COUNT(*) > 1)
            ORDER BY digest, path"""
        for path, *rest in self._database.execute(query):
            yield Entry(_path(path), *rest)

    def totals(self) -> Totals:
        """The reports over each whole capture, added up."""
        names = ("packets", "bytes", *_counted(self.ipv6)[:-1])
        counts, files, fragments = dict.fromkeys(names, 0), 0, []
        query = f"SELECT path, fragments, {', '.join(names)} FROM files JOIN totals ON file = id ORDER BY path"
        for path, has_fragments, *numbers in self._database.execute(query):
            files += 1
            fragments += [_path(path)] * has_fragments
            for name, number in zip(names, numbers):
                counts[name] += number
        talks = "SELECT COUNT(*) FROM (SELECT 1 FROM talks GROUP BY protocol, a, a_port, b, b_port)"
        counts["talks"], = self._database.execute(talks).fetchone()
        return Totals(files, counts, fragments)


def _floor(time: Time) -> Optional[int]:
    return None if time is None else nanoseconds(time.numerator // time.denominator, time.numerator % time.denominator,
                                                 time.denominator)


def _meets(row: TalkRow, since: Time, until: Time) -> bool:
    """Whether a conversation's span meets the time between; the nanoseconds of its row are rounded down."""
    first, last = row.first, row.last
    if first is None or last is None:
        return since is None and until is None
    return (since is None or last >= since) and (until is None or first <= until)


def spanned(spans: Iterable[Tuple[Optional[str], Optional[str]]]) -> Tuple[Optional[str], Optional[str]]:
    """The least of some first times, and the greatest of some last ones."""
    timed = [span for span in spans if span[0] is not None]
    first = min((first for first, _ in timed), key=exact, default=None)     # type: ignore[type-var,arg-type]
    last = max((last for _, last in timed), key=exact, default=None)        # type: ignore[type-var,arg-type]
    return first, last


def _timed(first: Optional[str],
           last: Optional[str]) -> Tuple[Optional[str], Optional[str], Optional[int], Optional[int]]:
    """A span, exact and in nanoseconds."""
    return first, last, _floor(exact(first)), _floor(exact(last))


def _summed(rows: List[Tuple[Any, ...]]) -> Talk:
    """The rows of one conversation as one."""
    if len(rows) == 1:
        return Talk(*rows[0])
    sums = [sum(numbers) for numbers in zip(*(row[5:9] for row in rows))]
    return Talk(*rows[0][:5], *sums, *_timed(*spanned((row[9], row[10]) for row in rows)))


def _checked(connection: sqlite3.Connection, path: str, ipv6: Optional[bool] = None) -> Catalogue:
    """The catalogue of a database, if it has the mark of one, and conversations of IPv6 or none, if that is said."""
    try:
        names = "application_id", "user_version"
        mark, version = (connection.execute(f"PRAGMA {name}").fetchone()[0] for name in names)
    except sqlite3.DatabaseError as error:
        raise ArchiveError(f"{path}: it is no catalogue: {error}")
    if mark != _MARK:
        raise ArchiveError(f"{path}: it is no catalogue, but another database")
    if version not in _VERSIONS:
        known = " and ".join(map(str, _VERSIONS))
        raise ArchiveError(f"{path}: it is a catalogue of version {version}, and this package reads versions {known}")
    has_ipv6 = _VERSIONS[version]
    if ipv6 is True and not has_ipv6:
        raise ArchiveError(f"{path}: it was made without --ipv6; leave the word out, or name a new catalogue")
    if ipv6 is False and has_ipv6:
        raise ArchiveError(f"{path}: it was made with --ipv6, so it is written with conversations of IPv6")
    # in KiB
    connection.execute("PRAGMA cache_size = -200000")
    return Catalogue(connection, path, has_ipv6)


@contextmanager
def reading(path: str) -> Iterator[Catalogue]:
    """Opens a catalogue for reading, while another process may write it."""
    if not os.path.isfile(path):
        raise ArchiveError(f"{path}: there is no such catalogue")
    with closing(_opened(path, "ro")) as connection:
        yield _checked(connection, path)


@contextmanager
def writing(path: str, ipv6: Optional[bool] = None) -> Iterator[Catalogue]:
    """Opens a catalogue for writing, and makes it if it isn't there, with conversations of IPv6 too if `ipv6` is True.
    If it is there, `ipv6` is None or what it was made with. One process at a time writes it: another one gets an
    ArchiveError."""
    if os.path.exists(path):
        # a file that is no catalogue stays as it is
        with closing(_opened(path, "ro")) as connection:
            if not _is_empty(connection, path):
                _checked(connection, path, ipv6)
    with _locked(path), closing(_opened(path, "rwc")) as connection:
        # a kill loses nothing that was put in; the captures are the copy of what a power failure may take
        for setting in ("journal_mode = WAL", "synchronous = NORMAL", "wal_autocheckpoint = 50000"):
            connection.execute(f"PRAGMA {setting}")
        if _is_empty(connection, path):
            connection.executescript(f"BEGIN; {_tables(bool(ipv6))} COMMIT;")
        yield _checked(connection, path, ipv6)
        # one file again, unless someone reads it now
        with suppress(sqlite3.OperationalError):
            connection.execute("PRAGMA busy_timeout = 0")
            connection.execute("PRAGMA journal_mode = DELETE")


def _is_empty(connection: sqlite3.Connection, path: str) -> bool:
    """Whether a database has no tables yet, as after a kill before they were made."""
    try:
        return not connection.execute("SELECT COUNT(*) FROM sqlite_master").fetchone()[0]
    except sqlite3.DatabaseError as error:
        raise ArchiveError(f"{path}: it is no catalogue: {error}")


def _opened(path: str, mode: str) -> sqlite3.Connection:
    try:
        return sqlite3.connect(f"file:{quote(os.path.abspath(path))}?mode={mode}", uri=True, timeout=60)
    except sqlite3.OperationalError as error:
        raise ArchiveError(f"{path}: {error}")


@contextmanager
def _locked(path: str) -> Iterator[None]:
    """Holds the lock of a catalogue, a file beside it. The system lets it go when the process ends, however it does."""
    try:
        lock = open(f"{path}.lock", "w")
    except OSError as error:
        raise ArchiveError(f"{path}.lock: {error.strerror}")
    with lock:
        try:
            fcntl.flock(lock, fcntl.LOCK_EX | fcntl.LOCK_NB)
        except OSError:
            raise ArchiveError(f"{path}: another process writes it")
        yield
