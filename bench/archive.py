#!/usr/bin/env python3
"""What `python -m capt.archive` costs, by the number of captures and their size: a table in Markdown.

For each COUNTxSIZE it makes so many captures of about so many bytes (10K, 3M, 1G), the same ones each time, in a folder
of its own, which it removes as soon as they are measured. In each hundred the last two have the same packets. The first
packets of a capture are of five conversations of its own; a capture above 10 KB goes on with packets that all captures
of that size have, of 1,000 conversations. With --folder it takes the files of a folder that is there.

Each command is run once: `index`; `index` again, when nothing has changed; `find` of an address; `top`, `duplicates`,
`totals`, `verify`; and `merge` of the first captures that are whole, at most 1,000 and 4 GB. A cell has seconds, and
in brackets processor seconds, those of the workers too (but not dask's). Memory is the peak of the main process. What
the commands print is looked at: a wrong count ends the script.

Use: bench/archive.py [--program PROGRAM] [--jobs N | --dask ADDRESS] [--work FOLDER] [--folder FOLDER] [COUNTxSIZE]..
     as in: bench/archive.py --jobs 2 1000x10K 10000x10K 4x1G
"""
import sys

sys.dont_write_bytecode = True

import argparse, os, platform, re, shutil, signal, sqlite3, tempfile
from collections import Counter
from contextlib import closing

from captures import HEADER, SIZES, frame, make
from measure import measure

TOP = os.path.dirname(os.path.dirname(os.path.realpath(__file__)))
UNITS = {"K": 10**3, "M": 10**6, "G": 10**9}
OWN_PACKETS, OWN_TALKS, BODY_TALKS = 12, 5, 1000
MOST_MERGED, MOST_MERGED_BYTES = 1000, 4 * 10**9
# an address that the first hundred of the made captures have
ADDRESS = "10.0.0.0"


def size_of(text):
    """COUNTxSIZE: both, and the head of the column."""
    found = re.fullmatch(r"([1-9]\d*)x(\d+)([KMG])", text)
    if not found:
        raise argparse.ArgumentTypeError(f"{text}: COUNTxSIZE is wanted, as 1000x10K")
    count, size, unit = int(found[1]), int(found[2]), found[3]
    return count, size * UNITS[unit], f"{count:,} of {size} {unit}B"


def own_packets(number):
    """The first packets of a capture, by its number."""
    return lambda i: frame(number * OWN_TALKS + i % OWN_TALKS, i // OWN_TALKS % 2, SIZES[i % 8])


def made(folder, count, size):
    """Makes the captures; their names."""
    body, names = os.path.join(folder, "body"), []
    frames = [frame(2**20 + i * 37 % BODY_TALKS, i % 3 == 0, SIZES[i % 8]) for i in range(8000)]
    each = sum(SIZES) // 8 + 16
    make(body, max(0, size // each - OWN_PACKETS), lambda i: frames[i % 8000], first=10**6)
    for number in range(count):
        place = os.path.join(folder, f"{number // 1000:03}")
        os.makedirs(place, exist_ok=True)
        names.append(os.path.join(place, f"{number:06}.pcap"))
        own = number - 1 if number % 100 == 99 else number
        make(names[-1], OWN_PACKETS, own_packets(own), first=own)
        with open(names[-1], "ab") as out, open(body, "rb") as rest:
            rest.seek(len(HEADER))
            shutil.copyfileobj(rest, out, 2**24)
    os.remove(body)
    return names


def files_of(folder):
    """The files of a folder and of those in it."""
    found = (os.path.join(place, name) for place, _, names in os.walk(os.path.realpath(folder)) for name in names)
    return sorted(name for name in found if os.path.isfile(name) and not os.path.islink(name))


class Column:
    """An archive, and what each command over it took: a column of the table, by the names of its rows."""

    def __init__(self, label, names, how):
        self.names, self.how, self.cells, self.memory, self.notes = names, how, {}, Counter(), []
        size = sum(os.path.getsize(name) for name in names)
        self.cells["captures"], self.cells["bytes in all, MB"] = label, f"{size / 1e6:,.0f}"

    def run(self, row, *words, statuses=(0, 1), is_worked=False):
        """Runs a command; what it prints."""
        options = [*(self.how.workers if is_worked else ()), *(["--program", self.how.program] if is_worked else ())]
        with tempfile.TemporaryFile() as printed:
            command = [sys.executable, "-m", "capt.archive", *words, *options]
            taken = measure(command, printed=printed, statuses=statuses)
            printed.seek(0)
            text = printed.read().decode(errors="replace")
            if taken is None:
                sys.exit(f"{self.cells['captures']}: {' '.join(words)} failed: {text[-500:]}")
        processor, _, _, seconds, memory = taken
        self.cells[row], self.memory[row] = f"{shown(seconds)} ({shown(processor)})", memory
        print(f"{self.cells['captures']}: {row}: {self.cells[row]}", file=sys.stderr, flush=True)
        return text

    def measure(self, work, address):
        """Runs the commands over the captures, with a catalogue in a folder."""
        database, listed, out = (os.path.join(work, name) for name in ("archive.db", "list", "merged.pcapng"))
        put_list(listed, self.names)
        indexed = self.run("`index`", "index", database, "--files0-from", listed, is_worked=True)
        count, not_whole = len(self.names), indexed.count("not-whole outcome")
        wanted(indexed, f"indexed files {count} read {count} unchanged 0 not-whole {not_whole}")
        again = self.run("`index` again", "index", database, "--files0-from", listed, is_worked=True)
        passing = int(re.search(r"read (\d+) unchanged", again)[1])
        wanted(again, f"indexed files {count} read {passing} unchanged {count - passing} not-whole {not_whole}")
        with closing(sqlite3.connect(database)) as connection:
            rows = connection.execute("SELECT outcome, path, size FROM files ORDER BY id").fetchall()
            talks = connection.execute("SELECT COUNT(*) FROM talks").fetchone()[0]
            address = address or connection.execute("SELECT a FROM talks LIMIT 1").fetchone()[0]
        whole = [(path, size) for outcome, path, size in rows if outcome.startswith("whole")]
        self.cells["conversations"] = f"{talks:,}"
        found = self.run("`find` of an address", "find", database, address)
        self.cells["captures that it found"] = f"{found.count('name '):,}"
        self.run("`top`", "top", database)
        self.cells["duplicates"] = f"{self.run('`duplicates`', 'duplicates', database).count('duplicate '):,}"
        wanted(self.run("`totals`", "totals", database), f"files {len(whole)}\n")
        verified = self.run("`verify`", "verify", database, is_worked=True)
        wanted(verified, f"verified files {len(whole)} same {len(whole)} changed 0")
        self.cells["catalogue, MB"] = f"{os.path.getsize(database) / 1e6:,.1f}"
        self.cells["memory of `index`, MiB"] = f"{self.memory['`index`']:.0f}"
        questions = max(self.memory[row] for row in self.memory if "index" not in row and "verify" not in row)
        self.cells["most memory of a question, MiB"] = f"{questions:.0f}"
        self.merge(whole, listed, out)
        ended = Counter(re.sub(r" offset \d+", "", outcome) for outcome, _, _ in rows)
        if len(ended) > 1:
            told = ", ".join(f"{name} {number:,}" for name, number in ended.most_common())
            self.notes.append(f"{self.cells['captures']}, how they ended: {told}")

    def check(self, count):
        """Whether the made captures have what they are made of."""
        found, equal = (int(self.cells[row].replace(",", "")) for row in ("captures that it found", "duplicates"))
        if (found, equal) != (min(count, 100), count // 100 * 2):
            sys.exit(f"archive.py: {found} captures were found and {equal} are duplicates")

    def merge(self, whole, listed, out):
        """Merges the first captures."""
        some, size = [], 0
        for path, more in whole[:MOST_MERGED]:
            if size + more > MOST_MERGED_BYTES:
                break
            some, size = [*some, path], size + more
        put_list(listed, some)
        self.run("`merge` of some", "merge", out, "--files0-from", listed, is_worked=True)
        is_out = os.path.exists(out)
        self.cells["captures merged"] = f"{len(some):,}" if is_out else f"{len(some):,}, refused"
        if is_out:
            os.remove(out)


def wanted(text, part):
    if part not in text:
        sys.exit(f"archive.py: {part!r} isn't in what is printed: {text[-500:]!r}")


def put_list(name, names):
    with open(name, "wb") as out:
        out.write(b"".join(os.fsencode(name) + b"\0" for name in names))


def shown(seconds):
    return f"{seconds:.2f}" if seconds < 1 else f"{seconds:.1f}" if seconds < 10 else f"{seconds:,.0f}"


def table(columns):
    """The rows of the table, of which each column has the same."""
    names = list(columns[0].cells)
    rows = [[name, *(column.cells.get(name, "") for column in columns)] for name in names]
    return "\n".join(f"| {' | '.join(row)} |" for row in [rows[0], ["---"] * len(rows[0]), *rows[1:]])


def main():
    parser = argparse.ArgumentParser(description=__doc__, formatter_class=argparse.RawDescriptionHelpFormatter)
    parser.add_argument("sizes", nargs="*", type=size_of, metavar="COUNTxSIZE")
    parser.add_argument("--program", default=os.path.join(TOP, "crates", "capt", "out", "capt"))
    parser.add_argument("--folder", help="a folder of captures that are there")
    parser.add_argument("--work", help="where the captures and the catalogue are made")
    parser.add_argument("--jobs", default=str(len(os.sched_getaffinity(0))), help="how many processes work")
    parser.add_argument("--dask", metavar="ADDRESS", help="the workers are those of this scheduler")
    how = parser.parse_args()
    # the folder is removed then too
    signal.signal(signal.SIGTERM, lambda number, _: sys.exit(128 + number))
    how.program = os.path.realpath(how.program)
    how.workers = ["--dask", how.dask] if how.dask else ["--jobs", how.jobs]
    os.environ["PYTHONPATH"] = os.path.join(TOP, "bindings", "python")
    os.environ["PYTHONDONTWRITEBYTECODE"] = "1"
    with open("/proc/cpuinfo") as info:
        model = next((line.split(":")[1].strip() for line in info if line.startswith("model name")), platform.machine())
    print(f"{model}, {os.cpu_count()} processors, load {os.getloadavg()[0]:.1f}, {' '.join(how.workers)}\n", flush=True)
    columns = []
    for wanted_size in [*([None] if how.folder else []), *how.sizes]:
        with tempfile.TemporaryDirectory(prefix="capt-archive-", dir=how.work) as work:
            if wanted_size:
                count, size, label = wanted_size
                column = Column(label, made(work, count, size), how)
                column.measure(work, ADDRESS)
                column.check(count)
            else:
                names = files_of(how.folder)
                column = Column(f"{len(names):,} files", names, how)
                column.measure(work, None)
            columns.append(column)
    print(table(columns))
    for note in [note for column in columns for note in column.notes] + [f"load at the end {os.getloadavg()[0]:.1f}"]:
        print(f"\n{note}")


if __name__ == "__main__":
    main()
