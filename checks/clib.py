#!/usr/bin/env python3
"""libcapt, as C and Python call it: over the examples and the corpus each call gives what the built program prints and writes, in
memory, from standard input, also if that comes by one byte a read, and fed in pieces of any size, whole and cut off anywhere; a failed read and refused growths are told; each misuse that
the header names is told; a fed reader gives its memory back; the binding for Python reads what it says it reads, says what it says of errors, is shared by threads, and its wheel is installed; that for Rust links
the archive that is there; only names that begin with capt_ are seen; and where valgrind is, it sees no error and no leak.

Use: checks/clib.py [PROGRAM [FOLDER]]     (FOLDER as crates/capt_c/link.sh leaves it; without it the library is built, with proofs, over
                                            the libraries that `rt ci` leaves; it wants a C compiler and binutils, and uses valgrind
                                            and cargo if they are there)"""
import sys

sys.dont_write_bytecode = True

import datetime, errno, faulthandler, gzip, inspect, io, os, pickle, re, resource, shutil, signal, struct, subprocess, tempfile, typing
from concurrent.futures import ThreadPoolExecutor
from pathlib import Path
from fractions import Fraction

from captures import PROGRAM, SECTION, TOP, WRITING, Bench, Count, block, make_shim, packet, pcap_header, record

CRATE = os.path.join(TOP, "crates", "capt_c")
TASKS = ("list", "blocks", "info", "report", "pcap", "pcapng", "merge", "merge-pcap", "join", "join-pcap")


def build(folder):
    """Proves capt_c over the libraries that `rt ci` left, and links the library."""
    kit = os.path.dirname(subprocess.run(["rt", "doc"], stdout=subprocess.PIPE, text=True, check=True).stdout.strip())
    with open(os.path.join(TOP, "crates.txt")) as lines:
        libraries = dict(re.findall(r"^(cap\w+)(?: staticlib)?:(.*)", lines.read(), re.M))
    archive = os.path.join(folder, "libcapt_c.a")
    words = ["build", "--crate-name", "capt_c", "src/lib.rt", "--crate-type", "staticlib", "--toolchain", f"{kit}/toolchain", "-o", archive]
    for library in ["std", *libraries["capt_c"].split()]:
        place = os.path.join(TOP, "crates", library, "out", "rlib") if library in libraries else f"{kit}/rlibs"
        words += ["--extern", f"{library}={place}/{library}.rlib"]
    for library in libraries:
        words += ["-L", "dependency=" + os.path.join(TOP, "crates", library, "out", "rlib")]
    words += ["-L", f"dependency={kit}/rlibs", "--links", "capt_c=", "--jobs", "2"]
    words += ["--antt-project", f"{kit}/rattle/logic/antt-project.json", "--logic-built", f"{kit}/logic_built"]
    made = subprocess.run([f"{kit}/bin/rattle", *words], cwd=CRATE, stdout=subprocess.PIPE, stderr=subprocess.STDOUT, text=True)
    if made.returncode:
        print(made.stdout[-2000:] + "\n0 passed, 1 failed")
        sys.exit(1)
    subprocess.run([os.path.join(CRATE, "link.sh"), archive, os.path.join(folder, "lib")], check=True)


def files():
    """The examples and the corpus."""
    for folder in ("examples", os.path.join("checks", "corpus")):
        for name in sorted(os.listdir(os.path.join(TOP, folder))):
            if name not in ("answers.txt", "make.py", "rounds.sh"):
                with open(os.path.join(TOP, folder, name), "rb") as file:
                    yield name, file.read()


def printed(time):
    """A printed time as a Fraction."""
    if time == "-":
        return None
    seconds, numerator, denominator = map(int, re.split("[+/]", time))
    return seconds + Fraction(numerator, denominator)


def called(capt, task, content, allow_cut, order):
    """What a call of the Python binding gives, as the program's status, text and standard error are compared with it."""
    how = {"allow_cut": allow_cut}
    big = {"order": "big" if order == ">" else "little"}
    calls = {
        "list": lambda: capt.listing(content, **how).encode(), "blocks": lambda: capt.blocks(content, **how).encode(),
        "info": lambda: capt.info([content], **how).encode(), "report": lambda: capt.report_text([content], **how).encode(),
        "pcap": lambda: capt.convert(content, "pcap", **how, **big), "pcapng": lambda: capt.convert(content, "pcapng", **how, **big),
        "merge": lambda: capt.merge([content], **how, **big), "join": lambda: capt.join([content], **how, **big),
        "merge-pcap": lambda: capt.merge([content], to="pcap", **how, **big),
        "join-pcap": lambda: capt.join([content], to="pcap", **how, **big),
    }
    try:
        return 0, calls[task](), b""
    except capt.Refused as refused:
        return 1, refused.text, f"{refused}\n".encode()


def facts(packet):
    """What `list` has of a packet, the time as it is printed and as a Fraction."""
    assert len(packet.data) == packet.captured
    time = "-" if packet.time is None else f"{packet.seconds}+{packet.numerator}/{packet.denominator}"
    return packet.offset, time, packet.time, packet.captured, packet.original, packet.link, packet.data[:16].hex() or "-"


def walked(capt, source, allow_cut, **how):
    """The packets of a capture by the binding, as `list` has them, and how it ended."""
    lines = []
    with capt.Capture(source, allow_cut, **how) as capture:
        try:
            for packet in capture:
                lines.append(facts(packet))
        except capt.Refused as refused:
            return lines, str(refused)
        return lines, capture.ending


def fed(capt, content, size, allow_cut):
    """The same of a capture that is fed in pieces of a size."""
    lines = []
    with capt.Fed(allow_cut) as it:
        try:
            for place in range(0, len(content) + size, size):
                it.feed(content[place:place + size]) if place < len(content) else it.end()
                lines += map(facts, it)
        except capt.Refused as refused:
            return lines, str(refused)
        return lines, it.ending


class Drip:
    """A file whose reads give a few bytes each, or none yet (None) at the reads of some numbers."""

    def __init__(self, content, size, gaps=()):
        self.rest, self.size, self.gaps, self.reads = content, size, gaps, 0

    def read(self, size=-1):
        self.reads += 1
        if self.reads in self.gaps:
            return None
        size = len(self.rest) if size < 0 else min(size, self.size)
        piece, self.rest = self.rest[:size], self.rest[size:]
        return piece


def copied(capt, content, allow_cut, to, order):
    """The same of what the binding's writer makes of the packets of a capture, taken out after some of them."""
    parts = []
    with capt.Capture(content, allow_cut) as capture, capt.Writer(to, "big" if order == ">" else "little") as writer:
        try:
            for packet in capture:
                writer.put(packet)
                if packet.offset % 8:
                    parts.append(writer.take())
        except capt.Refused as refused:
            return 1, b"".join(parts) + writer.take(), f"{refused}\n".encode()
        return 0, b"".join(parts) + writer.take(), b""


def merged(bench, task, content, allow_cut, order, out):
    """What the program merges of one file, as a writer writes it: a pcap file without packets has no byte, not even the
    header in front of a packet that is refused; and one unit in a second is 10^0, whether it was that or 2^0."""
    status, text, error = bench.run(task, [content], allow_cut, order, out)[:3]
    if error.endswith(b" rule 21 no-interface\n"):
        return 0, b"", b""
    for two, ten in ("0900010080", "0900010000"), ("0009000180", "0009000100"):
        text = text.replace(bytes.fromhex(two), bytes.fromhex(ten))
    return status, b"" if task == "merge-pcap" and len(text) == 24 else text, error


def listed(text):
    """The packets of what `list` printed."""
    packets = []
    for line in text.decode().splitlines():
        words = line.split()
        packets.append((int(words[3]), words[5], printed(words[5]), int(words[7]), int(words[9]), int(words[11]), words[13]))
    return packets


def end_of(word):
    """The address and the port of an end that `report` printed."""
    if word.count(":") > 1 and not word.startswith("["):
        return word, None
    address, _, port = word.rpartition(":") if ":" in word else (word, "", "")
    return address.strip("[]"), int(port) if port else None


def rows_of(text):
    """The talks, the files and the totals of what `report` printed."""
    talks, files, totals = [], [], []
    for line in text.splitlines():
        kind, *words = line.split()
        if kind == "talk":
            protocol, a, b, _, *forward, _, packets, size, _, first, _, last = words
            number = {"udp": 17, "tcp": 6}.get(protocol) or int(protocol[1:])
            sides = tuple(map(int, forward)), (int(packets), int(size))
            talks.append((number, *end_of(a), *end_of(b), *sides, printed(first), printed(last)))
        elif kind == "file":
            counts = map(int, words[3:10:2])
            times = printed(words[11]), printed(words[13])
            files.append((None if words[1] == "-" else words[1], *counts, *times, words[-1] == "cut"))
        elif kind in ("total", "frames", "joined"):
            totals += [int(word) for word in words if word.isdigit()]
    return talks, files, tuple(totals)


def check_rows(count, capt, name, content):
    """The rows of a report are those of its text."""
    for how in {}, {"allow_cut": True}, {"ipv6": True}, {"ipv6": True, "allow_cut": True}:
        report, text = tried(capt.report, content, **how), tried(capt.report_text, content, **how)
        if isinstance(report, capt.Refused):
            is_same = isinstance(text, capt.Refused) and str(text) == str(report)
            count.check(f"python: a refused report of {name}", is_same, text)
            continue
        seen = report.talks, report.files, report.totals
        count.check(f"python: rows of {name}", report.text == text and seen == rows_of(text), seen, text)


def check_python(count, capt, bench, name, content):
    for allow_cut in (False, True):
        for task in TASKS:
            for order in "<>" if task in WRITING else "<":
                out = os.path.join(bench.folder, f"{task}-{name}") if task in WRITING else None
                status, written, error = bench.run(task, [content], allow_cut, order, out)[:3]
                if out and os.path.exists(out):
                    os.remove(out)
                count.check(f"python: {task} {name}", called(capt, task, content, allow_cut, order) == (status, written, error))
        for task, to, order in ("merge-shared", "pcapng", ">"), ("merge-pcap", "pcap", "<"):
            copy = merged(bench, task, content, allow_cut, order, os.path.join(bench.folder, f"written-{to}-{name}"))
            count.check(f"python: a copy of {name} as {to}", copied(capt, content, allow_cut, to, order) == copy)
        status, text, error = bench.run("list", [content], allow_cut)[:3]
        lines, ending = walked(capt, content, allow_cut)
        count.check(f"python: packets of {name}", lines == listed(text))
        for size in 1, 100:
            count.check(f"python: {name} fed by {size}", fed(capt, content, size, allow_cut) == (lines, ending))
        path, drip = bench.name(content), Drip(content, max(7, len(content) // 1000))
        for how, source in ("by its path", path), ("mapped", path), ("by a few bytes", drip), ("from memory", io.BytesIO(content)):
            seen = walked(capt, source, allow_cut, map=how == "mapped")
            count.check(f"python: {name} {how}", seen == (lines, ending), seen)
        if status:
            count.check(f"python: refusal of {name}", f"{ending}\n".encode() == error)
        else:
            told = re.search(rb"^file 1 (\S+) .* skipped (\d+) .*?( cut)?$", bench.run("info", [content], allow_cut)[1], re.M)
            same = (told[1].decode(), int(told[2]), bool(told[3])) == tuple(ending)
            count.check(f"python: ending of {name}", same)


def in_batches(capt, source, allow_cut, room, map=False):
    """The packets that a capture gives in batches, as their fields and bytes, and how it ends."""
    packets, end = [], None
    try:
        with capt.open(source, allow_cut, map=map) as capture:
            for batch in capture.batches(room):
                if not 1 <= len(batch) <= room or memoryview(batch.fields).shape != (len(batch),):
                    return "a batch of", len(batch)
                for it in batch.fields:
                    data, seconds = batch.data[it.start : it.start + it.captured], it.seconds + (it.carry << 64)
                    time = (seconds, it.numerator, it.denominator) if it.denominator else (None, None, None)
                    place, interface = (it.offset, it.instance), (it.resolution, it.time_offset)
                    packets.append((*time, *place, *interface, it.original, it.snaplen, it.link, data))
            end = capture.ending
    except capt.Error as error:
        end = str(error)
    return packets, end


def check_batches(count, capt, bench, name, content):
    """Batches of any size have the packets of a walk, and end as it does, whatever they are read from."""
    fields = "seconds numerator denominator offset instance resolution time_offset original snaplen link data".split()
    for allow_cut in False, True:
        packets, end = [], None
        try:
            with capt.open(content, allow_cut) as capture:
                packets.extend(tuple(getattr(it, field) for field in fields) for it in capture)
                end = capture.ending
        except capt.Error as error:
            end = str(error)
        for room in 1, 3, 4096:
            for how in "from memory", "mapped", "by its path", "by a few bytes":
                source = {"from memory": content, "by a few bytes": Drip(content, max(7, len(content) // 1000))}
                seen = in_batches(capt, source.get(how, bench.name(content)), allow_cut, room, map=how == "mapped")
                count.check(f"python: {name} {how}, {room} packets at once", seen == (packets, end), seen[1], end)


def check_batches_apart(count, capt, example):
    """A packet is in a batch or in an iteration: what one has left isn't lost for the other without a word."""
    with capt.open(example) as capture:
        first = next(iter(capture)).offset
        seen = tried(lambda: next(capture.batches()))
        count.check("python: batches of what an iteration left", "left some" in str(seen), seen)
        rest = [it.offset for it in capture]
    with capt.open(example) as capture:
        before, after = [it.offset for it in next(capture.batches(1)).fields], [it.offset for it in capture]
    count.check("python: an iteration behind a batch", before == [first] and after == rest, before, after)
    count.check("python: no room", isinstance(tried(capt.open(example).batches, 0), ValueError))


def check_python_ends(count, capt, name, content):
    """Cut off anywhere and read in pieces, a capture gives what its bytes give, and ends as they do."""
    for end in range(len(content)):
        for allow_cut in False, True:
            want = walked(capt, content[:end], allow_cut)
            for size in 5, 1000:
                seen = walked(capt, Drip(content[:end], size), allow_cut)
                count.check(f"python: {end} bytes of {name} by {size}", seen == want, seen, want)


def tried(call, *words, **how):
    """What a call returns, or the exception that it raises."""
    try:
        return call(*words, **how)
    except Exception as error:
        return error


def check_sources(count, capt, folder, example):
    """What a source of a capture may be, alone or one of several, and what is said of what isn't one."""
    path, packed = os.path.join(folder, "source"), os.path.join(folder, "source.gz")
    for name, opener in (path, open), (packed, gzip.open):
        with opener(name, "wb") as out:
            out.write(example)
    opened = []

    def descriptor():
        opened.append(os.open(path, os.O_RDONLY))
        return opened[-1]

    sources = {
        "path": lambda: path, "Path": lambda: Path(path), "descriptor": descriptor, "bytes": lambda: example, "bytearray": lambda: bytearray(example),
        "memoryview": lambda: memoryview(example), "file": lambda: open(path, "rb"), "gzip": lambda: gzip.open(packed),
        "BytesIO": lambda: io.BytesIO(example), "drip": lambda: Drip(example, 9),
    }
    several = {"report": capt.report, "report_text": capt.report_text, "info": capt.info, "merge": capt.merge, "join": capt.join,
               "table": lambda them, **how: capt.Table(them, **how).report()}
    one = {"list": capt.listing, "convert": lambda it, **how: capt.convert(it, "pcapng", **how),
           "packets": lambda it, **how: [vars_of(packet) for packet in capt.Capture(it, **how)],
           "open": lambda it, **how: [vars_of(packet) for packet in capt.open(it, **how)]}
    for kind, source in sources.items():
        for name, call in several.items():
            want = call([example])
            for way in source(), [source()], (it for it in [source()]):
                seen = tried(call, way)
                count.check(f"python: {name} of a {kind}", seen == want, seen)
            seen = tried(call, [source()], map=True)
            count.check(f"python: {name} of a mapped {kind}", seen == want, seen)
        for name, call in one.items():
            seen = tried(call, source())
            count.check(f"python: {name} of a {kind}", seen == call(example), seen)
    for name, call in {**several, **one}.items():
        with open(path, encoding="latin-1") as text:
            seen = [tried(call, it) for it in (text, 5.0, True, None)]
        count.check(f"python: {name} of no source", all(type(it) is TypeError for it in seen), seen)
        seen = tried(call, os.path.join(folder, "none"))
        count.check(f"python: {name} of no file", type(seen) is FileNotFoundError, seen)
        seen = tried(call, max(opened) + 100)
        count.check(f"python: {name} of no open file", type(seen) is OSError and seen.errno == errno.EBADF, seen)
    # a descriptor stays open, and is read from where it is
    seen = [os.read(it, 1) for it in opened]
    count.check("python: descriptors that were read", seen == [b""] * len(opened), seen)
    os.lseek(opened[0], 24, os.SEEK_SET)
    seen = tried(list, capt.open(opened[0]))
    count.check("python: a descriptor in the middle", isinstance(seen, capt.Refused) and seen.path is None, seen)
    for it in opened:
        os.close(it)
    for name, call in several.items():
        seen = tried(call, [example] * 33)
        count.check(f"python: {name} of 33", isinstance(seen, capt.TooManyFiles) and isinstance(seen, ValueError) and "32" in str(seen), seen)
        seen = tried(call, [])
        count.check(f"python: {name} of none", type(seen) is ValueError and str(seen), seen)
    # a file that doesn't wait: a read without bytes isn't its end
    with capt.Capture(Drip(example, 100, gaps=[1, 3])) as capture:
        parts, seen = [], []
        while not seen or seen[-1]:
            try:
                for packet in capture:
                    parts.append(packet.offset)
                seen.append(None)
            except BlockingIOError as error:
                seen.append(str(error))
        count.check("python: a read without bytes", parts == [24, 100, 176] and len(seen) == 3, parts, seen)
    receiving, sending = os.pipe()
    os.set_blocking(receiving, False)
    with open(receiving, "rb") as file, capt.Capture(file) as capture:
        seen = [tried(list, capture)]
        os.write(sending, example[:100])
        seen += [tried(next, iter(capture)), tried(list, capture)]
        os.write(sending, example[100:])
        os.close(sending)
        seen += [len(list(capture))]
        kinds = [type(it) for it in seen]
        count.check("python: a pipe that doesn't wait", kinds == [BlockingIOError, capt.Packet, BlockingIOError, int] and seen[3] == 2, seen)
    # the first packet is no whole file, though no more can be read yet
    for name, call in {**several, **one}.items():
        for how in "file", "raw file", "descriptor":
            receiving, sending = os.pipe()
            os.set_blocking(receiving, False)
            os.write(sending, example[:100])
            with open(receiving, "rb", buffering=0 if how == "raw file" else -1) as file:
                seen = tried(call, receiving if how == "descriptor" else file)
                count.check(f"python: {name} of a {how} that doesn't wait", type(seen) is BlockingIOError, seen)
            os.close(sending)
    # a source isn't closed, and what was read of it isn't given again
    with open(path, "rb") as file:
        capt.report(file)
        with capt.Capture(file) as capture:
            count.check("python: a file that was read", isinstance(tried(list, capture), capt.Refused) and not file.closed)


def vars_of(packet):
    return [getattr(packet, name) for name in packet.__slots__]


def check_times(count, capt):
    """The forms of a packet's time, worked by hand: after the code of the interface's resolution and its offset in seconds stand
    the units of a packet, its seconds, numerator, denominator and nanoseconds, and the seconds and microseconds of its date."""
    def date(seconds, microseconds):
        return datetime.datetime(1970, 1, 1, tzinfo=datetime.timezone.utc) + datetime.timedelta(seconds=seconds, microseconds=microseconds)

    for code, offset, units, *want, day in [
        (6, 0, 1_500_000, 1, 500_000, 10**6, 1_500_000_000, date(1, 500_000)),
        (9, 0, 1_000_000_001, 1, 1, 10**9, 1_000_000_001, date(1, 0)),
        (10, 0, 12_345_678_905, 1, 2_345_678_905, 10**10, None, date(1, 234_567)),
        (10, 0, 12_345_678_900, 1, 2_345_678_900, 10**10, 1_234_567_890, date(1, 234_567)),
        (0x81, 0, 3, 1, 1, 2, 1_500_000_000, date(1, 500_000)),
        (0x81, -1, 1, -1, 1, 2, -500_000_000, datetime.datetime(1969, 12, 31, 23, 59, 59, 500_000, datetime.timezone.utc)),
        (0, 0, 253_402_300_799, 253_402_300_799, 0, 1, 253_402_300_799 * 10**9, datetime.datetime(9999, 12, 31, 23, 59, 59, 0, datetime.timezone.utc)),
        (0, 0, 253_402_300_800, 253_402_300_800, 0, 1, 253_402_300_800 * 10**9, OverflowError),
        (0, 2**63 - 1, 2**64 - 1, 2**64 + 2**63 - 2, 0, 1, (2**64 + 2**63 - 2) * 10**9, OverflowError),
        (0, 0, 2**63 - 1, 2**63 - 1, 0, 1, (2**63 - 1) * 10**9, OverflowError),
        (0, 0, 2**63, 2**63, 0, 1, 2**63 * 10**9, OverflowError),
        (0, 1, 2**63 - 1, 2**63, 0, 1, 2**63 * 10**9, OverflowError),
        (6, 2, 1_500_000, 3, 500_000, 10**6, 3_500_000_000, date(3, 500_000)),
    ]:
        options = struct.pack("<HHBxxx", 9, 1, code) + struct.pack("<HHq", 14, 8, offset) + bytes(4)
        content = bytes.fromhex(SECTION) + block(1, struct.pack("<HHI", 1, 0, 0) + options) + packet(0, units, b"data")
        seen = tried(list, capt.open(content))
        if isinstance(seen, Exception):
            count.check(f"python: a time of {units} units", False, seen)
            continue
        it = seen[0]
        told = [it.seconds, it.numerator, it.denominator, it.time_ns]
        whole = it.seconds + Fraction(it.numerator, it.denominator)
        count.check(f"python: a time of {units} units", told == want and it.time == whole, told, it.time)
        seen = tried(lambda: it.datetime)
        count.check(f"python: a date of {units} units", type(seen) is day or seen == day, seen)
        count.check("python: a packet pickled", vars_of(pickle.loads(pickle.dumps(it))) == vars_of(it))
    # a simple packet block has no time
    content = bytes.fromhex(SECTION) + block(1, struct.pack("<HHI", 1, 0, 0)) + block(3, struct.pack("<I", 4) + b"data")
    [it] = capt.open(content)
    seen = [it.time, it.time_ns, it.datetime, it.seconds, it.numerator, it.denominator]
    count.check("python: a packet without a time", seen == [None] * 6 and it.data == b"data", seen)


def check_interfaces(count, capt, checker, bench):
    """The interface of each packet: the options of its block (draft-ietf-opsawg-pcapng, 4.2), or the defaults, which
    are 10^6 units a second from 1970 on; a pcap file counts millionths or thousand-millionths of a second (its
    magic)."""
    def described(link, snaplen, options=b""):
        return block(1, struct.pack("<HHI", link, 0, snaplen) + options)

    resolution, offset, end = struct.pack("<HHBxxx", 9, 1, 0x8a), struct.pack("<HHq", 14, 8, -5), bytes(4)
    far = struct.pack("<HHBxxx", 9, 1, 9) + struct.pack("<HHq", 14, 8, 2**62) + end
    pcapng = b"".join([
        bytes.fromhex(SECTION), described(1, 0), described(101, 96, resolution + offset + end),
        described(276, 65535, offset + end), packet(1, 2560, b"data"), packet(2, 7, b"data"),
        block(3, struct.pack("<I", 4) + b"data"), packet(0, 7, b"data"),
        bytes.fromhex(SECTION), described(1, 4, far), block(3, struct.pack("<I", 4) + b"data"), packet(0, 7, b"data"),
    ])
    nanos = bytes.fromhex("4d3cb2a1") + pcap_header(101)[4:] + record(1, b"data")
    for content, want in [
        (pcapng, [(1, 101, 96, 1024, -5), (2, 276, 65535, 10**6, -5), (0, 1, 0, 10**6, 0), (0, 1, 0, 10**6, 0),
                  (3, 1, 4, 10**9, 2**62), (3, 1, 4, 10**9, 2**62)]),
        (pcap_header(1) + record(1, b"data"), [(0, 1, 262144, 10**6, 0)]), (nanos, [(0, 101, 262144, 10**9, 0)]),
    ]:
        lines = "".join("instance %d link %d snaplen %d resolution %d offset %d\n" % it for it in want)
        seen = run([checker, "interfaces", bench.name(content)])
        count.check("c: interfaces", seen == (0, lines.encode() * 3, b""), seen, lines)
        for source in content, io.BytesIO(content):
            seen = [(it.instance, it.link, it.snaplen, it.resolution, it.time_offset) for it in capt.open(source)]
            count.check("python: interfaces", seen == want, seen)
    seen = [it.time for it in capt.open(pcapng)]
    told = [Fraction(-5, 2), -5 + Fraction(7, 10**6), None, Fraction(7, 10**6), None, 2**62 + Fraction(7, 10**9)]
    count.check("python: times of these interfaces", seen == told, seen)


def check_hints(count, capt):
    """Each public name has hints for all that it takes and returns."""
    for name in capt.__all__:
        it = getattr(capt, name)
        members = [vars(it)[member] for member in vars(it) if not member.startswith("_")] if inspect.isclass(it) else [it]
        members = [getattr(member, "fget", member) for member in members]
        for call in filter(inspect.isfunction, [*members, it.__init__ if inspect.isclass(it) else it]):
            hints = tried(typing.get_type_hints, call)
            wanted = set(inspect.signature(call).parameters) - {"self"} | ({"return"} - {"return" * (call.__name__ == "__init__")})
            count.check(f"python: hints of {name}, {call.__name__}", isinstance(hints, dict) and wanted <= set(hints), hints)


def check_wheel(count, capt, folder):
    """The wheel, where a Python has what makes it, is installed without an index, and has the mark of its hints."""
    makers = [it for it in (sys.executable, "/usr/bin/python3") if run([it, "-c", "import setuptools, wheel, pip"])[0] == 0]
    if not makers:
        return
    maker, source, out, place = makers[0], *(os.path.join(folder, it) for it in ("wheel-source", "wheels", "installed"))
    shutil.copytree(os.path.join(TOP, "bindings", "python"), source, ignore=shutil.ignore_patterns("__pycache__"))
    seen = run([maker, "-m", "pip", "wheel", "-q", "--no-index", "--no-build-isolation", "--no-deps", "-w", out, source])
    wheels = os.listdir(out) if os.path.isdir(out) else []
    count.check("python: a wheel", seen[0] == 0 and wheels == [f"capt-{capt.version()}-py3-none-any.whl"], seen, wheels)
    for wheel in wheels:
        seen = run([maker, "-m", "pip", "install", "-q", "--no-index", "--target", place, os.path.join(out, wheel)])
        count.check("python: the wheel is installed", seen[0] == 0, seen)
        told = run([maker, "-B", "-c", "import capt; print(capt.__file__, capt.version())"], cwd=folder, env={**os.environ, "PYTHONPATH": place})
        count.check("python: what is installed", told[0] == 0 and told[1].decode().split()[0] == os.path.join(place, "capt", "__init__.py"), told)
        told = run([maker, "-B", "-m", "capt.archive", "--help"], cwd=folder, env={**os.environ, "PYTHONPATH": place})
        count.check("python: the catalogue is installed", told[0] == 0 and told[1].startswith(b"usage: python -m capt.archive "), told)
        count.check("python: its hints are marked", os.path.exists(os.path.join(place, "capt", "py.typed")))


def check_errors(count, capt, folder, example):
    """What errors say, and that they can be passed on."""
    path = os.path.join(folder, "cut.pcap")
    with open(path, "wb") as out:
        out.write(example[:-1])
    calls = {
        "list": capt.listing, "convert": lambda it: capt.convert(it, "pcapng"), "info": capt.info, "report": capt.report, "merge": capt.merge,
        "join": capt.join, "packets": lambda it: list(capt.Capture(it)), "mapped": lambda it: list(capt.Capture(it, map=True)),
    }
    for name, call in calls.items():
        for source in path, Path(path), example[:-1]:
            seen = tried(call, source)
            at = (seen.file, seen.offset, seen.rule, seen.name) if isinstance(seen, capt.Refused) else seen
            is_at = at == (1, 176, 3, "cut") and seen.path == (None if source == example[:-1] else source)
            count.check(f"python: a refusal of {name}", is_at and seen.__context__ is None, seen)
    for call in capt.info, capt.report, capt.merge, capt.join:
        seen = [tried(call, [example, it]) for it in (path, example[:-1])]
        count.check("python: a refusal of the second", [(it.file, it.path) for it in seen] == [(2, path), (2, None)], seen)
    with capt.Table([example, path]) as table:
        while not isinstance(seen := tried(table.step), Exception):
            pass
        count.check("python: a refusal of a table", isinstance(seen, capt.Refused) and (seen.file, seen.path) == (2, path), seen)
    errors = [tried(capt.convert, path, "pcapng"), capt.Error("no", 1, 2), capt.ReadFailed("no", 3, 4), capt.Closed("no"), capt.TooManyFiles("no")]
    errors[0].more = "more"
    for error in errors:
        seen = tried(lambda: pickle.loads(pickle.dumps(error)))
        told = [(type(it), it.args, str(it), vars(it)) for it in (seen, error)]
        count.check(f"python: {type(error).__name__} pickled", told[0] == told[1], seen)
    count.check("python: a refusal has its text", len(errors[0].text) > 100 and errors[0].more == "more")
    # one that a process of a pool raises comes back
    program = """
import capt, multiprocessing, sys
if __name__ == "__main__":
    with multiprocessing.Pool(1) as pool:
        try:
            pool.apply(capt.listing, (sys.argv[1],))
        except capt.Refused as error:
            print(error.name, error.path == sys.argv[1], error.text.count(b"packet"))
"""
    script = os.path.join(folder, "pool.py")
    with open(script, "w") as out:
        out.write(program)
    seen = run([sys.executable, "-B", script, path], seconds=60)
    count.check("python: a refusal in a pool", seen == (0, b"cut True 2\n", b""), seen)
    # what is closed
    opened = {"bytes": capt.Capture(example), "a path": capt.Capture(path), "mapped": capt.Capture(path, map=True)}
    for name, capture in opened.items():
        first = next(iter(capture))
        capture.close()
        capture.close()
        seen = [tried(list, capture), tried(lambda: capture.ending)]
        count.check(f"python: closed: {name}", all(isinstance(it, capt.Closed) and isinstance(it, ValueError) for it in seen), seen)
        count.check(f"python: a packet of a closed one: {name}", len(first.data) == 60)
    closed, table = capt.Fed(), capt.Table(example)
    for it in closed, table:
        it.close()
    seen = [tried(closed.feed, example), tried(closed.end), tried(list, closed), tried(table.step), tried(table.report)]
    count.check("python: closed", all(isinstance(it, capt.Closed) for it in seen), seen)
    with capt.Fed() as it, capt.Capture(example) as capture:
        it.end()
        it.end()
        seen = [tried(it.feed, example), tried(lambda: capture.ending)]
        count.check("python: fed after the end, ending before it", [type(it) for it in seen] == [ValueError] * 2 and str(seen[0]) != str(seen[1]), seen)


# Programs for a process of their own, which faults of theirs may end: the capture's path is their first word.
THREADS = """
import capt, sys, threading
from collections import Counter
sources = {"bytes": open(sys.argv[1], "rb").read(), "path": sys.argv[1], "file": open(sys.argv[1], "rb")}
def share(name, packets):
    seen = []
    threads = [threading.Thread(target=lambda: seen.append([packet.offset for packet in packets])) for _ in range(4)]
    for it in threads: it.start()
    for it in threads: it.join()
    counts = Counter(sum(seen, []))
    print(name, len(seen), len(counts), max(counts.values()), all(it == sorted(it) for it in seen))
for name, source in sources.items():
    with capt.Capture(source) as capture: share(name, capture)
for name in "bytes", "path":
    with capt.Capture(sources[name]) as capture: share(name, iter(capture))
"""
CLOSING = """
import capt, sys, threading
content = open(sys.argv[1], "rb").read()
def walk(it):
    started.set()
    try:
        while True:
            for _ in it: pass
    except capt.Closed:
        ended.append(1)
def step(table):
    started.set()
    try:
        while True: table.step()
    except capt.Closed:
        ended.append(1)
ended = []
def fed():
    it = capt.Fed()
    it.feed(content)
    return it
sources = [
    (lambda: capt.Capture(sys.argv[1]), walk), (lambda: capt.Capture(sys.argv[1], map=True), walk), (lambda: capt.Capture(content), walk),
    (fed, walk), (lambda: capt.Table(sys.argv[1], map=True), step)]
for round in range(20):
    for make, call in sources:
        started, it = threading.Event(), make()
        threads = [threading.Thread(target=call, args=(it,)) for _ in range(2)]
        for thread in threads: thread.start()
        started.wait()
        it.close()
        for thread in threads: thread.join()
print(len(ended))
"""
SHORTER = """
import capt, os, resource, sys
resource.setrlimit(resource.RLIMIT_CORE, (0, 0))
how = {"map": True} if sys.argv[2:] else {}
capture = capt.Capture(sys.argv[1], **how)
it = iter(capture)
print(next(it).offset, flush=True)
os.truncate(sys.argv[1], 100)
try:
    for packet in it: pass
except capt.Refused as error:
    print(error.name)
"""


WITHIN = """
import capt, os, signal, sys
class Calls:
    def read(self, size=-1):
        for call in self.capture.close, lambda: self.capture.ending, lambda: list(self.capture):
            try: call()
            except RuntimeError as error: print(error)
        return b""
calls = Calls()
calls.capture = capt.open(calls)
try: list(calls.capture)
except capt.Refused as error: print(error.name)
receiving, sending = os.pipe()
with open(sys.argv[1], "rb") as file: os.write(sending, file.read(100))
capture = capt.open(receiving)
def handle(*_):
    try: capture.close()
    except RuntimeError as error: print(error)
    os.close(sending)
signal.signal(signal.SIGALRM, handle)
signal.setitimer(signal.ITIMER_REAL, 0.2)
print([packet.offset for packet in capture])
capture.close()
"""


def check_python_processes(count, folder):
    """Threads that share a capture, one that closes it, a call from within a call, and a file that gets shorter while it is read."""
    path = os.path.join(folder, "many.pcap")
    with open(path, "wb") as out:
        out.write(pcap_header(1) + b"".join(record(second, bytes(60)) for second in range(40000)))

    def ran(program, *words):
        return run([sys.executable, "-B", "-c", program, path, *words], seconds=60)

    seen = ran(THREADS)
    want = "".join(f"{name} 4 40000 1 True\n" for name in ("bytes", "path", "file", "bytes", "path")).encode()
    count.check("python: four threads", seen == (0, want, b""), seen)
    seen = ran(CLOSING)
    count.check("python: closed by another thread", seen == (0, b"200\n", b""), seen)
    seen = ran(WITHIN)
    within = b"this Capture is called from within a call of it\n"
    count.check("python: a call from within a call", seen == (0, 3 * within + b"cut\n" + within + b"[24]\n", b""), seen)
    with open(path, "rb") as file:
        content = file.read()
    seen = ran(SHORTER)
    count.check("python: a file that gets shorter", seen[0] == 0 and seen[1].startswith(b"24\n"), seen)
    with open(path, "wb") as out:
        out.write(content)
    seen = ran(SHORTER, "mapped")
    count.check("python: a mapped file that gets shorter", seen[:2] == (-signal.SIGBUS, b"24\n"), seen)


def run(command, seconds=120, **how):
    """The status, or None of a program that didn't end in time, standard output and standard error."""
    try:
        done = subprocess.run(command, stdout=subprocess.PIPE, stderr=subprocess.PIPE, timeout=seconds, **how)
    except subprocess.TimeoutExpired as over:
        return None, over.stdout, over.stderr
    return done.returncode, done.stdout, done.stderr


def check_c(count, checker, shim, bench, name, content):
    path = bench.name(content)
    for words in ([], ["--allow-cut"]):
        want = bench.run("list", [content], bool(words))[:3]
        for how in ("next", "many"):
            count.check(f"c: {how} {name}", run([checker, how, *words, path]) == want)
        for size in "1", "7", "100000":
            count.check(f"c: fed by {size} {name}", run([checker, "fed", size, *words, path]) == want)
        report = bench.run("report", [content], bool(words))[:3]
        count.check(f"c: table {name}", run([checker, "table", *words, path]) == report)
        forms = (0, "merge-shared", "<"), (2, "merge-shared", ">"), (4, "merge-pcap", "<"), (6, "merge-pcap", ">")
        for form, task, order in forms:
            out = os.path.join(bench.folder, f"copy-{form}-{len(words)}-{name}")
            copy = merged(bench, task, content, bool(words), order, out)
            seen = run([checker, "copy", str(form), *words, path])
            count.check(f"c: copy {form} {name}", seen == copy, seen[0], seen[2], copy[0], copy[2])
        for piece in ({}, {"LD_PRELOAD": shim, "FAULT_PIECE": "1"}):
            with open(path, "rb") as file:
                count.check(f"c: stdin {name}", run([checker, "stdin", *words], stdin=file, env={**os.environ, **piece}) == want)


def check_ends(count, checker, bench, name, content):
    """Fed by one byte and cut off anywhere, a capture gives what it gives as a file."""
    for end in range(len(content)):
        path = bench.name(content[:end])
        for words in [], ["--allow-cut"]:
            seen = run([checker, "fed", "1", *words, path])
            count.check(f"c: fed {end} bytes of {name}", seen == run([checker, "next", *words, path]), seen)


# A command, its options as numbers (flags, data, top, times, unit) and as words, and how many files it has.
JOBS = [
    ("list", (), [], 1), ("list", (16, 2**32 - 1), ["--json", "--data", "0"], 1), ("list", (0, 0, 0, 1), ["--time", "decimal"], 1),
    ("list", (32,), ["--class"], 1), ("list", (16 | 32 | 8, 200, 0, 2), ["--json", "--class", "--ipv6", "--data", "200", "--time", "utc"], 1),
    ("blocks", (), [], 1), ("blocks", (16,), ["--json"], 1), ("info", (), [], 2), ("info", (16, 0, 0, 2), ["--json", "--time", "utc"], 1),
    ("report", (), [], 1), ("report", (8, 0, 1), ["--ipv6", "--top", "1"], 2), ("report", (16, 0, 0, 1), ["--json", "--time", "decimal"], 1),
    ("convert", (), ["--to", "pcapng"], 1), ("convert", (2 | 4, 0, 0, 0, 2), ["--to", "pcap", "--order", "big", "--unit", "nano"], 1),
    ("merge", (), [], 2), ("merge", (64,), ["--share-interfaces"], 2), ("merge", (4, 0, 0, 0, 1), ["--to", "pcap", "--unit", "micro"], 2),
    ("join", (2,), ["--order", "big"], 2), ("join", (4,), ["--to", "pcap"], 1), ("diff", (), [], 2),
    ("diff", (16 | 256 | 512, 3, 0, 1), ["--json", "--data", "3", "--ignore", "time", "--ignore", "link", "--time", "decimal"], 2),
    ("diff", (1024,), ["--ignore", "original"], 2), ("digest", (), [], 2), ("digest", (16,), ["--json"], 1),
    ("check", (), [], 2), ("check", (16 | 128, 0, 0, 2), ["--json", "--digest", "--time", "utc"], 2),
]


def check_jobs(count, program, reader, name, content, other):
    """A job gives the text that the program writes for the same command, in pieces of any size, and ends as the
    program does. The JSON lines of `digest` and `check` don't name their files."""
    paths = [os.path.join(os.path.dirname(reader), it) for it in ("job-1", "job-2")]
    for path, bytes_ in zip(paths, (content, other)):
        with open(path, "wb") as out:
            out.write(bytes_)
    for task, numbers, words, files in JOBS:
        numbers = [*numbers, *[0] * (5 - len(numbers))]
        for allow_cut in 0, 1:
            out = ["-o", "-"] * (task in ("convert", "merge", "join"))
            want = run([program, task, *["--allow-cut"] * allow_cut, *words, *out, *paths[:files]])
            lines = re.sub(rb',"path":"(?:[^"\\\\]|\\\\.)*"', b"", want[1]) if task in ("digest", "check") else want[1]
            said = b"".join(re.findall(rb"^refused: .*\n", want[2], re.M))
            for it in re.findall(rb'^\{"type":"refused","file":(\d+),"offset":(\d+),"rule":(\d+),"name":"([\w-]+)"', want[2], re.M):
                said += b"refused: file %s offset %s rule %s %s\n" % it
            for room in 1, 100, 100000:
                told = list(map(str, [room, numbers[0] + allow_cut, *numbers[1:]]))
                seen = run([reader, task, *told, *paths[:files]])
                count.check(f"c: a job: {task} {words} by {room} of {name}", seen == (want[0], lines, said), seen, want)


def check_job_faults(count, reader, shim, folder, content):
    """Each growth of a job is refused in turn: it says so, and loses no byte. What the header calls misuse is told."""
    path = os.path.join(folder, "job")
    with open(path, "wb") as out:
        out.write(content)
    seen = run([reader, "misuse", "1", "0", "0", "0", "0", "0", path])
    count.check("c: misuse of a job", seen == (0, b"", b""), seen)
    for task, numbers, _, files in JOBS:
        words = [task, "7", *map(str, [*numbers, *[0] * (5 - len(numbers))]), *[path] * files]
        want = run([reader, *words])
        for at in range(1, 30):
            seen = run([reader, *words], env={**os.environ, "LD_PRELOAD": shim, "FAULT_GROWTHS": f"{at}-{at + 1}"})
            # 30 and 32: a growth of the program's own
            is_told = seen in (want, (3, b"", b""), (30, b"", b""), (32, b"", b""))
            count.check(f"c: growth {at} of a job, {task}", is_told, seen, want)


def check_job_memory(count, reader, folder):
    """A job of `list` or `blocks` holds its capture and little more, however long its text is."""
    path, frame, interface = os.path.join(folder, "job-long"), bytes(60), block(1, struct.pack("<HHI", 1, 0, 0))
    contents = {
        "list": pcap_header(1) + b"".join(record(second, frame) for second in range(400_000)),
        "blocks": bytes.fromhex(SECTION) + interface + b"".join(packet(0, second, frame) for second in range(400_000)),
    }
    for task, content in contents.items():
        with open(path, "wb") as out:
            out.write(content)
        room = len(content) + (16 << 20)
        seen = run([reader, task, "4096", "0", "0", "0", "0", "0", path],
                   preexec_fn=lambda: resource.setrlimit(resource.RLIMIT_AS, (room, room)))
        is_long = len(seen[1]) > 25_000_000 and seen[1].count(b"\n") >= 400_000
        count.check(f"c: what a job of {task} holds", is_long and (seen[0], seen[2]) == (0, b""), seen[0], len(seen[1]), seen[2])


def check_other_library(count, folder):
    """A library of another version, whose calls take other words, is called by nobody."""
    other = os.path.join(folder, "other.so")
    subprocess.run(["cc", "-x", "c", "-", "-shared", "-fPIC", "-o", other], input="int capt_open(void) { return 0; }",
                   text=True, check=True)
    program = "import capt\ntry: capt.report_text(b'')\nexcept OSError as error: print(error)"
    seen = run([sys.executable, "-B", "-c", program], env={**os.environ, "CAPT_LIBRARY": other})
    count.check("python: another library", seen[0] == 0 and b"of another version" in seen[1] and not seen[2], seen)


def check_header(count, capt, header):
    """The header's numbers of the rules and of the link types are those of the library, of the pages and of the code."""
    def numbers(kind):
        return {name: int(number) for name, number in re.findall(rf"^    CAPT_{kind}_(\w+) = (\d+)\b", header, re.M)}

    rules, links = numbers("RULE"), numbers("LINK")
    seen = {capt.rule_name(number): number for number in rules.values()}
    count.check("the header's rules", {name.lower().replace("_", "-"): number for name,
                                       number in rules.items()} == seen, rules)
    with open(os.path.join(TOP, "docs", "RULES.md")) as page:
        told = {name: int(number) for number, name in re.findall(r"^\| (\d+) `([\w-]+)` \|", page.read(), re.M)}
    count.check("the page's rules", told == seen and sorted(seen.values()) == list(range(1, 22))
                and not capt.rule_name(22), told)
    with open(os.path.join(TOP, "crates", "cap_link", "src", "links.rt")) as code:
        told = {name.replace("LINK_", ""): int(number) for name,
                number in re.findall(r"^const (\w+): u16 = (\d+);", code.read(), re.M)}
    count.check("the header's link types", links == told and len(links) == 6, links, told)
    with open(os.path.join(TOP, "README.md")) as page:
        told = re.search(r"link types other than ([^|]*)", page.read())[1]
    count.check("the page's link types", set(re.findall(r"\b[A-Z]\w+", told)) == {name.replace("ETHERNET", "Ethernet")
        for name in links}, told)
    flags = dict(re.findall(r"^    CAPT_(ALLOW_CUT|BIG|TO_PCAP|IPV6) = (\d+),? +/\*", header, re.M))
    count.check("the header's flags", {name: str(getattr(capt, f"_{name}")) for name in flags} == flags
                and len(flags) == 4, flags)


def check_versions(count, library, shared, declared):
    """Each call has the version of the release that brought it, and a program that is linked wants these."""
    with open(os.path.join(CRATE, "capt.map")) as file:
        text = re.sub(r"/\*.*?\*/", "", file.read(), flags=re.S)
    listed = {}
    for node, calls in re.findall(r"^(\w[\w.]*) \{(.*?)^\}", text, re.M | re.S):
        listed.update({name: node for name in re.findall(r"\b(capt_\w+);", calls)})
    count.check("the names that are listed", set(listed) == declared, set(listed) ^ declared)
    said = run(["objdump", "-T", os.path.join(library, "libcapt.so.1")])[1].decode()
    seen = {name: node for node, name in re.findall(r"\bDF \.text\s+\w+\s+(\S+)\s+(capt_\w+)$", said, re.M)}
    count.check("the versions of the names", seen == listed, set(seen.items()) ^ set(listed.items()))
    said = run(["objdump", "-p", os.path.join(library, "libcapt.so.1")])[1].decode()
    count.check("the soname", re.findall(r"^\s+SONAME\s+(\S+)$", said, re.M) == ["libcapt.so.1"], said)
    said = run(["objdump", "-p", shared])[1].decode()
    wanted = re.search(r"required from libcapt\.so\.1:\n((?:\s+0x.*\n)+)", said)
    nodes = set(re.findall(r"(\S+)$", wanted[1], re.M)) if wanted else set()
    count.check("the versions that a program wants", nodes and nodes <= set(listed.values()), said)


# two datagrams of UDP over IPv6, one over IPv4, one of ICMPv6, a fragment, and a packet of another version
IPV6 = [
    "60000000000a114020010db800000000000000000000000120010db800000000000000000000000203e807d0000a00006869",
    "60000000000a114020010db800000000000000000000000220010db800000000000000000000000107d003e8000a00006869",
    "4500001e00010000401100000a0000010a00000203e807d0000a00006869",
    "6000000000043a40fe800000000000000000000000000001ff02000000000000000000000000000100000000",
    "6000000000102c4020010db800000000000000000000000120010db800000000000000000000000211000001000000070000000000000000",
    "50",
]
FILES = """files 1
file 1 pcap packets 6 bytes 231 truncated 0 skipped 0 first 1+0/1000000 last 6+0/1000000
total packets 6 bytes 231 truncated 0
"""
READS = FILES + """frames other-link 0 not-ip 1 short 0 cut 0 bad 0 unjoined 1 counted 4
joined 0 given-up 0
talks 3
talk udp [2001:db8::1]:1000 [2001:db8::2]:2000 forward 1 50 backward 1 50 first 1+0/1000000 last 2+0/1000000
talk udp 10.0.0.1:1000 10.0.0.2:2000 forward 1 30 backward 0 0 first 3+0/1000000 last 3+0/1000000
talk p58 fe80::1 ff02::1 forward 1 44 backward 0 0 first 4+0/1000000 last 4+0/1000000
"""
IGNORES = FILES + """frames other-link 0 not-ipv4 5 short 0 cut 0 bad 0 unjoined 0 counted 1
joined 0 given-up 0
talks 1
talk udp 10.0.0.1:1000 10.0.0.2:2000 forward 1 30 backward 0 0 first 3+0/1000000 last 3+0/1000000
"""


def of_ipv6():
    """A capture of these packets, a second apart."""
    return pcap_header(101) + b"".join(record(second, bytes.fromhex(data)) for second, data in enumerate(IPV6, 1))


def check_ipv6(count, capt, checker, bench):
    """A report with the conversations of IPv6, worked out by hand, and without them; and a cut end beside the flag."""
    content = of_ipv6()
    for name, words, want in ("with", ["--ipv6"], READS), ("without", [], IGNORES):
        seen = run([checker, "table", *words, bench.name(content)])
        count.check(f"c: a table {name} IPv6", seen == (0, want.encode(), b""), seen)
        how = {"ipv6": bool(words)}
        with capt.Table(content, **how) as table:
            while table.step():
                pass
            seen = capt.report_text(content, **how), capt.report(content, **how).text, table.report().text
        count.check(f"python: a report {name} IPv6", seen == (want,) * 3, seen)
        seen = [tried(capt.report_text, content + b"cut", allow_cut, **how) for allow_cut in (False, True)]
        is_refused = isinstance(seen[0], capt.Refused) and seen[0].name == "cut"
        count.check(f"python: a cut report {name} IPv6", is_refused
                    and seen[1] == want.replace("+0/1000000\ntotal", "+0/1000000 cut\ntotal"), seen)
    ends = [(talk.protocol, talk.a, talk.a_port, talk.b, talk.b_port) for talk in capt.report(content, ipv6=True).talks]
    want = [(17, "2001:db8::1", 1000, "2001:db8::2", 2000), (17, "10.0.0.1", 1000, "10.0.0.2", 2000),
            (58, "fe80::1", None, "ff02::1", None)]
    count.check("python: ends of IPv6", ends == want, ends)
    # RFC 5952, 4: the longest run of two zeros or more is shortened, of equal ones the first
    for groups, want in {
        "2001 db8 0 0 0 0 0 1": "2001:db8::1", "0 0 0 0 0 0 0 0": "::", "0 0 0 0 0 0 0 1": "::1",
        "1 0 0 0 0 0 0 0": "1::",
        "1 0 0 2 0 0 0 3": "1:0:0:2::3", "1 0 0 2 0 0 3 4": "1::2:0:0:3:4", "1 0 2 3 4 5 6 7": "1:0:2:3:4:5:6:7",
        "0 0 0 0 0 ffff a00 1": "::ffff:a00:1", "100 10 0 1000 0 0 10 0": "100:10:0:1000::10:0",
    }.items():
        seen = capt._address(b"".join(int(it, 16).to_bytes(2, "big") for it in groups.split()), 6)
        count.check(f"python: the address {want}", seen == want, seen)


def check_faults(count, checker, shim, path, content):
    """Each growth of a walk is refused in turn, and each read of standard input fails."""
    copied = run([checker, "copy", "0", path])
    for at in range(1, 40):
        status, _, error = run([checker, "next", path], env={**os.environ, "LD_PRELOAD": shim, "FAULT_GROWTHS": f"{at}-{at + 1}"})
        count.check(f"c: growth {at}", (status, error) in ((0, b""), (1, b"fault: memory\n"), (3, b""), (5, b""), (6, b"fault: memory\n")))
        environment = {**os.environ, "LD_PRELOAD": shim, "FAULT_GROWTHS": f"{at}-{at + 1}"}
        status, _, error = run([checker, "table", path], env=environment)
        count.check(f"c: growth of a table {at}", (status, error) in ((0, b""), (1, b"fault: memory\n"), (3, b""), (17, b"fault: memory\n"), (6, b"")))
        status, text, error = run([checker, "fed", "7", path], env={**os.environ, "LD_PRELOAD": shim, "FAULT_GROWTHS": f"{at}-{at + 1}"})
        faults = {"LD_PRELOAD": shim, "FAULT_GROWTHS": f"{at}-{at + 1}"}
        seen = run([checker, "copy", "0", path], env={**os.environ, **faults})
        count.check(f"c: growth of a writer {at}", seen in (copied, (3, b"", b"")), seen)
        count.check(f"c: growth of a fed reader {at}", (status, error) in ((0, b""), (1, b"fault: memory\n"), (3, b"")))
    offsets = set()
    for at in range(1, len(content), 2):
        with open(path, "rb") as file:
            environment = {**os.environ, "LD_PRELOAD": shim, "FAULT_PIECE": "1", "FAULT_READ": f"0-{at}"}
            status, _, error = run([checker, "stdin"], stdin=file, env=environment)
        told = re.fullmatch(rb"fault: read file 1 offset (\d+)\n", error)
        count.check(f"c: read {at}", status == 1 and told)
        offsets.add(int(told[1]) if told else -1)
    count.check("c: a failed read's places", offsets == {0, 24, 100, 176}, offsets)
    # a read that a signal interrupts, and one of a pipe that doesn't wait, end it as well
    with open(path, "rb") as file:
        environment = {**os.environ, "LD_PRELOAD": shim, "FAULT_PIECE": "1", "FAULT_READ": "0-30"}
        seen = run([checker, "stdin"], stdin=file, env=environment)
    count.check("c: an interrupted read", seen == (1, b"", b"fault: read file 1 offset 24\n"), seen)
    receiving, sending = os.pipe()
    os.set_blocking(receiving, False)
    os.write(sending, content[:100])
    seen = run([checker, "stdin"], stdin=receiving)
    count.check("c: a pipe that doesn't wait", (seen[0], seen[1].count(b"packet"), seen[2]) == (1, 1, b"fault: read file 1 offset 100\n"), seen)
    os.close(receiving)
    os.close(sending)


def check_example(count, folder, library, shim, bench, content):
    """The example of capt_c prints what the program does, and takes no failed read for the end of its file."""
    example, path = os.path.join(folder, "list"), bench.name(content)
    source = os.path.join(CRATE, "examples", "list.c")
    subprocess.run(["cc", "-std=c11", "-o", example, source, os.path.join(library, "libcapt.a")], check=True)
    count.check("c: the example", run([example, "packets", path]) == bench.run("list", [content])[:3])
    # the packets of at least so many bytes, as a merge writes them of a file of these
    filter = os.path.join(folder, "filter")
    source = os.path.join(CRATE, "examples", "filter.c")
    words = ["cc", "-std=c11", "-I", library, "-o", filter, source, os.path.join(library, "libcapt.a")]
    subprocess.run(words, check=True)
    mixed = pcap_header(1) + record(1, bytes(99)) + record(2, bytes(100)) + record(3, bytes(101))
    longer = pcap_header(1) + record(2, bytes(100)) + record(3, bytes(101))
    want = bench.run("merge-shared", [longer], False, "<", os.path.join(folder, "longer"))[:3]
    seen = run([filter, "100", bench.name(mixed)])
    count.check("c: the filter", seen == want and len(want[1]) > 300, seen, want)
    # two records end at byte 176
    seen = run([example, "packets", path], env={**os.environ, "LD_PRELOAD": shim, "FAULT_PIECE": "88", "FAULT_READ": "3-3"})
    count.check("c: the example, whose read fails", seen[:2] == (1, b"") and b"Input/output error" in seen[2], seen)


# Lists a file by capt_file.h, by its name or, for `-`, from descriptor 0, for C and for C++. It prints where packets
# begin, what
# each call returns that gives none, and errors. Where the descriptor has no bytes yet it says so, and waits.
READING = """
#include <capt_file.h>
#include <inttypes.h>
#include <poll.h>
#include <stdio.h>
#include <string.h>

static capt_file file;

static uint32_t begin(const char *name, uint32_t flags) {
    return strcmp(name, "-") ? capt_file_open(&file, name, flags) : capt_file_from(&file, 0, flags);
}

int main(int count, char **words) {
    struct pollfd input = {0, POLLIN, 0};
    capt_packet packet;
    capt_place place = {0, 0, 0}, again;
    uint32_t status, flags = count > 2 && !strcmp(words[2], "--allow-cut") ? CAPT_ALLOW_CUT : 0;
    int failed = 0;
    if (count < 2 || capt_file_next(&file, &packet, &place) != CAPT_MISUSE) return 20;
    if (begin(words[1], CAPT_BIG) != CAPT_MISUSE || file.reader.is_open) return 21;
    status = begin(words[1], flags);
    if (status == CAPT_READ) printf("open: %s\\n", strerror(file.error));
    if (status != CAPT_DONE) return capt_file_next(&file, &packet, &place) == CAPT_MISUSE ? 3 : 22;
    for (;;) {
        status = capt_file_next(&file, &packet, &place);
        if (status == CAPT_PACKET) {
            printf("%" PRIu64 " %" PRIu32 "\\n", packet.offset, packet.captured);
        } else if (status == CAPT_MORE) {
            printf("more\\n");
            fflush(stdout);
            poll(&input, 1, -1);
        } else if (status == CAPT_READ) {
            printf("read: %s at %" PRIu64 " of %" PRIu32 "\\n", strerror(file.error), place.offset, place.file);
            if (++failed > 2) return capt_file_close(&file), 4;
        } else if (status == CAPT_MEMORY) {
            printf("memory\\n");
            if (++failed > 9) return capt_file_close(&file), 5;
        } else {
            break;
        }
    }
    /* flags that aren't taken leave it open, and the end and a refusal come again */
    if (begin(words[1], CAPT_TO_PCAP) != CAPT_MISUSE) return 23;
    if (capt_file_next(&file, &packet, &again) != status || memcmp(&place, &again, sizeof place)) return 24;
    capt_ending ending;
    if ((capt_file_end(&file, &ending) == CAPT_DONE) != (status == CAPT_DONE)) return 29;
    printf("status %" PRIu32 " rule %" PRIu32 " offset %" PRIu64 "\\n", status, place.rule, place.offset);
    /* a file that is opened again begins anew, and its descriptor isn't kept */
    for (int turn = 0; turn < 3 && strcmp(words[1], "-"); turn++) {
        int last = file.descriptor;
        uint32_t opened = begin(words[1], flags);
        if (opened == CAPT_MEMORY) return capt_file_close(&file), 6;
        if (opened != CAPT_DONE || file.descriptor > last + 1) return 25;
        if (capt_file_next(&file, &packet, &place) == CAPT_PACKET && packet.offset < 24) return 26;
    }
    int last = file.descriptor, owned = file.owns;
    capt_file_close(&file);
    capt_file_close(&file);
    if (file.reader.is_open || (fcntl(last, F_GETFD) < 0) != (owned != 0)) return 27;
    return capt_file_next(&file, &packet, &again) == CAPT_MISUSE ? (int)status : 28;
}
"""


def check_reading(count, folder, library, shim, content):
    """What capt_file.h reads, in C and in C++: a file, a pipe, one that doesn't wait, reads that fail or are interrupted, and refused growths."""
    path, cut = os.path.join(folder, "read.pcap"), os.path.join(folder, "read-cut.pcap")
    for name, bytes_ in (path, content), (cut, content[:-1]):
        with open(name, "wb") as out:
            out.write(bytes_)
    whole, packets, refused = b"status 0 rule 0 offset 0\n", [b"24 60\n", b"100 60\n",
        b"176 60\n"], b"status 2 rule 3 offset 176\n"
    all_of = b"".join(packets) + whole
    for language, *compiler in ("c", "cc", "-std=gnu11"), ("c++", "c++", "-std=c++11"):
        if not shutil.which(compiler[0]):
            continue
        reader = os.path.join(folder, f"reading-{len(language)}")
        warns = ["-Wall", "-Wextra", "-Werror", "-Wconversion", "-Wshadow"]
        subprocess.run([*compiler, *warns, "-x", language, "-", "-I", library, "-o", reader, "-x", "none",
                        os.path.join(library, "libcapt.a")],
                       input=READING, text=True, check=True)

        def check(what, want, *words, **how):
            seen = run([reader, *words], **how)
            count.check(f"{language}: {what}", seen == (*want, b""), seen)

        check("a file", (0, all_of), path)
        check("a cut file", (2, b"".join(packets[:2]) + refused), cut)
        check("a cut file, allowed", (0, b"".join(packets[:2]) + whole), cut, "--allow-cut")
        check("no file", (3, b"open: No such file or directory\n"), os.path.join(folder, "nothing"))
        check("a folder", (4, 3 * b"read: Is a directory at 0 of 1\n"), folder)
        check("a pipe", (0, all_of), "-", input=content)
        check("an empty pipe", (2, b"status 2 rule 3 offset 0\n"), "-", input=b"")
        for piece in 1, 7, 100:
            environment = {**os.environ, "LD_PRELOAD": shim, "FAULT_PIECE": str(piece)}
            check(f"a file by {piece}", (0, all_of), path, env=environment)
            # the fourth read is interrupted, and the third fails once: the one after it goes on
            check(f"an interrupted read by {piece}", (0, all_of), "-", input=content,
                  env={**environment, "FAULT_READ": "0-4"})
            done = [it for it, end in zip(packets, (100, 176, 252)) if end <= 2 * piece]
            failed = b"read: Input/output error at %d of 1\n" % min(2 * piece, 252)
            told = b"".join(done) + failed + b"".join(packets[len(done):]) + whole
            check(f"a read that fails by {piece}", (0, told), "-", input=content,
                  env={**environment, "FAULT_READ": "0-3"})
        for at in range(1, 12):
            environment = {**os.environ, "LD_PRELOAD": shim, "FAULT_PIECE": "50", "FAULT_GROWTHS": f"{at}-{at + 1}"}
            status, text, error = run([reader, path], env=environment)
            # of the first call, of one for a packet, or as the file is opened again
            is_told = (status, text) in ((3, b""), (6, all_of)) or status == 0 and text.replace(b"memory\n", b"",
                1) == all_of
            count.check(f"{language}: a growth refused {at}", is_told and error == b"", status, text)
        if shutil.which("valgrind"):
            for name in path, cut:
                status = run(["valgrind", "-q", "--error-exitcode=99", "--leak-check=full", reader, name])[0]
                count.check(f"{language}: valgrind: {name}", status in (0, 2), status)
        receiving, sending = os.pipe()
        os.set_blocking(receiving, False)
        with subprocess.Popen([reader, "-"], stdin=receiving, stdout=subprocess.PIPE) as ran:
            lines = [ran.stdout.readline()]
            os.write(sending, content[:130])
            lines += [ran.stdout.readline(), ran.stdout.readline()]
            os.write(sending, content[130:])
            os.close(sending)
            rest = ran.stdout.read()
        os.close(receiving)
        seen = ran.returncode, lines, rest.replace(b"more\n", b"")
        count.check(f"{language}: a pipe that doesn't wait",
                    seen == (0, [b"more\n", packets[0], b"more\n"], b"".join(packets[1:]) + whole), seen)


def check_pages(count, folder, library, shim):
    """The programs of docs/LIBRARY.md print what stands below each."""
    with open(os.path.join(TOP, "docs", "LIBRARY.md")) as page:
        blocks = re.findall(r"^```(\w+)\n(.*?)^```", page.read(), re.M | re.S)
    example = os.path.join(TOP, "examples", "monday.pcap")
    environment = {**os.environ, "PYTHONPATH": os.path.join(TOP, "bindings", "python"), "CAPT_LIB_DIR": os.path.abspath(library),
                   "PYTHONDONTWRITEBYTECODE": "1"}
    count.check("pages: a program in each language", [kind for kind, _ in blocks] == ["c", "text", "python", "text", "rust", "text", "python", "text"])
    for (kind, program), (_, text) in zip(blocks[::2], blocks[1::2]):
        command = [os.path.join(folder, f"page-{kind}")]
        if kind == "c":
            subprocess.run(["cc", "-x", "c", "-", "-I", library, "-o", *command, "-x", "none", os.path.join(library, "libcapt.a")],
                           input=program, text=True, check=True)
        elif kind == "python":
            command = [sys.executable, "-c", program]
        else:
            command = rust(folder, library, "page", program)
            if command is None:
                continue
        seen = run([*command, example], env=environment)
        count.check(f"pages: {kind}", seen == (0, text.encode(), b""), seen)
        if kind == "c":
            seen = run([*command, example], env={**environment, "LD_PRELOAD": shim, "FAULT_PIECE": "100",
                                                 "FAULT_READ": "3-3"})
            count.check("pages: c, whose read fails", seen[0] == 1 and b"Input/output error" in seen[2], seen)


def rust(folder, library, name, program):
    """A program over the binding for Rust, built by cargo, or None where that isn't there."""
    if not shutil.which("cargo"):
        return None
    crate = os.path.join(folder, "rust")
    if not os.path.isdir(crate):
        shutil.copytree(os.path.join(TOP, "bindings", "rust"), crate)
    with open(os.path.join(crate, "examples", f"{name}.rs"), "w") as out:
        out.write(program)
    status, _, error = cargo(crate, name, os.path.abspath(library))
    if status:
        raise RuntimeError(error.decode())
    return [os.path.join(crate, "target", "debug", "examples", name)]


def cargo(crate, name, library, **how):
    """What cargo says as it builds an example."""
    environment = {**os.environ, "CARGO_NET_OFFLINE": "true", "CAPT_LIB_DIR": library, **how}
    environment = {name: word for name, word in environment.items() if word is not None}
    return run(["cargo", "build", "-q", "--example", name], seconds=600, cwd=crate, env=environment)


TYPES = """
use std::error::Error;
use std::io::{self, Read};
use std::sync::atomic::{AtomicUsize, Ordering::Relaxed};
use std::sync::Arc;

// a capture of 252 bytes that counts how often it is asked for them, and by 100 that it is dropped
struct Owner([u8; 252], Arc<AtomicUsize>);

impl AsRef<[u8]> for Owner {
    fn as_ref(&self) -> &[u8] {
        self.1.fetch_add(1, Relaxed);
        &self.0
    }
}

impl Drop for Owner {
    fn drop(&mut self) {
        self.0 = [0; 252];
        self.1.fetch_add(100, Relaxed);
    }
}

// gives one byte a read; some reads are interrupted, and one fails
struct Drip(Vec<u8>, usize);

impl Read for Drip {
    fn read(&mut self, buffer: &mut [u8]) -> io::Result<usize> {
        self.1 += 1;
        match self.1 {
            150 => Err(io::Error::new(io::ErrorKind::WouldBlock, "later")),
            it if it % 7 == 0 => Err(io::ErrorKind::Interrupted.into()),
            _ if self.0.is_empty() => Ok(0),
            _ => {
                buffer[0] = self.0.remove(0);
                Ok(1)
            }
        }
    }
}

fn offsets<R: Read>(reader: &mut capt::Reader<R>) -> (Vec<u64>, Option<capt::ReadError>) {
    let mut offsets = Vec::new();
    loop {
        match reader.next() {
            Ok(Some(packet)) => offsets.push(packet.offset),
            Ok(None) => return (offsets, None),
            Err(error) => return (offsets, Some(error)),
        }
    }
}

// what owns its bytes, or its source, is sent to another thread
fn is_sent<T: Send + 'static>(it: T) -> T {
    std::thread::spawn(move || it).join().ok().unwrap()
}

// a table is used by another thread while its bytes are there
fn is_sent_within<'a, 'b>(it: &'b mut capt::Table<'a>, work: fn(&mut capt::Table<'a>)) -> &'b mut capt::Table<'a> {
    std::thread::scope(|scope| scope.spawn(move || { work(it); it }).join().ok().unwrap())
}

fn main() -> Result<(), Box<dyn Error>> {
    let bytes = std::fs::read(std::env::args().nth(1).unwrap())?;
    let mut capture = capt::Capture::from_vec(bytes.clone(), false)?;
    let packet = capture.next()?.unwrap();
    assert_eq!((packet.link, packet.resolution, packet.time_offset), (1, 1_000_000, 0));
    let mut found = vec![packet.offset];
    let mut capture = is_sent(capture);
    assert_eq!(format!("{capture:?}"), "Capture { bytes: 252, .. }");
    while let Some(packet) = capture.next()? {
        found.push(packet.offset);
    }
    assert_eq!(found, [24, 100, 176]);
    assert!(!capture.ending().unwrap().is_pcapng);
    // an owner of bytes, which may be in it, is moved with the capture, asked for them once, and dropped with it
    let counts = Arc::new(AtomicUsize::new(0));
    let owner = Owner(bytes.clone().try_into().unwrap(), counts.clone());
    let mut capture = Box::new(is_sent(capt::Capture::from_owner(owner, false)?));
    for want in [24, 100, 176] {
        assert_eq!(capture.next()?.unwrap().offset, want);
        capture = Box::new(is_sent(*capture));
    }
    assert_eq!(format!("{capture:?}"), "Capture { bytes: 252, .. }");
    assert_eq!(counts.load(Relaxed), 1);
    drop(capture);
    assert_eq!(counts.load(Relaxed), 101);
    let shared: Arc<[u8]> = bytes.clone().into();
    assert!(capt::Capture::from_owner(shared, false)?.next()?.is_some());
    // a reader, whose error is the source's, and which goes on after it
    let mut reader = capt::Reader::open(Drip(bytes.clone(), 0), false)?;
    assert!(format!("{reader:?}").starts_with("Reader"));
    let (first, error) = offsets(&mut reader);
    let error = error.unwrap();
    assert_eq!(first, [24]);
    match &error {
        capt::ReadError::Read(it) => assert_eq!(it.kind(), io::ErrorKind::WouldBlock),
        _ => panic!("{error}"),
    }
    assert_eq!(error.source().unwrap().to_string(), "later");
    let mut reader = is_sent(reader);
    assert_eq!(offsets(&mut reader).0, [100, 176]);
    assert!(reader.next()?.is_none());
    assert!(!reader.ending().unwrap().is_pcapng);
    assert!(reader.into_inner().0.is_empty());
    // a refusal comes again; it shows how long its text is, and not the text
    let mut reader = capt::Reader::open(&bytes[..251], false)?;
    for want in [vec![24, 100], vec![]] {
        let (found, error) = offsets(&mut reader);
        assert_eq!(found, want);
        assert_eq!(error.unwrap().to_string(), "refused: file 1 offset 176 rule 3 cut");
    }
    assert_eq!(offsets(&mut capt::Reader::open(&bytes[..251], true)?).0, [24, 100]);
    let error = capt::list(&bytes[..251], false).unwrap_err();
    let text = match &error {
        capt::Error::Refused(_, text) => text.len(),
        _ => 0,
    };
    assert!(text > 100);
    let shown = format!("Refused(Refusal {{ file: 1, offset: 176, rule: 3 }}, {text} bytes)");
    assert_eq!(format!("{error:?}"), shown);
    assert!(format!("{:?}", capt::Fed::open(false)?).starts_with("Fed"));
    // what is fed tells how it ended once it has
    let mut fed = capt::Fed::open(true)?;
    fed.feed(&bytes[..251])?;
    fed.end();
    while fed.next()? != capt::Next::End {
        assert!(fed.ending().is_none());
    }
    assert!(fed.ending().unwrap().was_cut);
    // a report with the conversations of IPv6, and without them
    let ipv6 = std::fs::read(std::env::args().nth(2).unwrap())?;
    let [with, without] = [true, false].map(|it| capt::report_with(&[&ipv6], capt::ReportOptions::new().ipv6(it)).unwrap());
    assert!(with.contains("not-ip 1 ") && with.contains("talk udp [2001:db8::1]:1000 [2001:db8::2]:2000 "), "{with}");
    assert!(without.contains("not-ipv4 5 ") && !without.contains("2001"), "{without}");
    assert_eq!(capt::report(&[&ipv6], false)?, without);
    let cut = &ipv6[..ipv6.len() - 1];
    assert!(capt::report_with(&[cut], capt::ReportOptions::new().ipv6(true)).is_err());
    assert!(capt::report_with(&[cut], capt::ReportOptions::new().ipv6(true).allow_cut(true))?.contains("not-ip 0 "));
    // the table of a report, as text and as data
    let mut table = capt::Table::open(&[&ipv6, &bytes], capt::ReportOptions::new().ipv6(true))?;
    assert!(table.talk(0).is_none() && table.file(1).unwrap().format.is_none() && table.totals().all.packets == 0);
    let table = is_sent_within(&mut table, |it| while it.step().unwrap() {});
    assert_eq!(table.text()?, capt::report_with(&[&ipv6, &bytes], capt::ReportOptions::new().ipv6(true))?);
    let (totals, talks) = (table.totals(), table.talks());
    assert_eq!((totals.files, totals.talks, totals.all.packets, totals.all.bytes), (2, 3, 9, 411));
    assert_eq!((totals.not_ip, totals.bad, totals.unjoined, totals.counted, totals.joined), (1, 1, 1, 6, 0));
    let shown: Vec<_> = talks.iter().map(|it| format!("{} {} {:?}", it.protocol, it.b.address, it.b.port)).collect();
    assert_eq!(shown, ["17 2001:db8::2 Some(2000)", "17 10.0.0.2 Some(2000)", "58 ff02::1 None"]);
    assert_eq!((talks[0].backward.packets, talks[0].backward.bytes, talks[0].last.unwrap().seconds), (1, 50, 2));
    assert_eq!((talks[1].forward.packets, talks[1].forward.bytes), (2, 90));
    let file = table.file(2).unwrap();
    assert_eq!((file.format, file.all.packets, file.last.unwrap().seconds), (Some(capt::Format::Pcap), 3, 3));
    assert!(table.file(0).is_none() && table.file(3).is_none() && !table.step()?);
    assert_eq!(capt::Table::open(&[], capt::ReportOptions::new()).unwrap_err(), capt::Error::Files);
    // each flag of a file that is written
    for (to, order, magic) in [
        (capt::Format::Pcap, capt::Order::Little, [0xd4, 0xc3, 0xb2, 0xa1]),
        (capt::Format::Pcap, capt::Order::Big, [0xa1, 0xb2, 0xc3, 0xd4]),
        (capt::Format::Pcapng, capt::Order::Big, [0x0a, 0x0d, 0x0d, 0x0a]),
    ] {
        for written in [
            capt::convert(&bytes, to, order, false)?,
            capt::merge_to(&[&bytes], to, order, false)?,
            capt::join_to(&[&bytes], to, order, false)?,
        ] {
            assert!(written.starts_with(&magic));
        }
    }
    assert_eq!(capt::merge(&[&bytes], capt::Order::Big, false)?, capt::merge_to(&[&bytes], capt::Format::Pcapng, capt::Order::Big, false)?);
    let parts: Vec<u32> = capt::version().split('.').map(|it| it.parse().unwrap()).collect();
    assert_eq!(capt::version_number(), parts[0] * 10000 + parts[1] * 100 + parts[2]);
    assert_eq!(format!("{:?} {:?} {:?}", capt::Error::Memory, capt::Error::Files, capt::Error::Ended), "Memory Files Ended");
    Ok(())
}
"""


# Writes the packets of a file as pcapng, and what refuses the first that can't be written.
COPY = """
use std::io::Write;
fn main() {
    let bytes = std::fs::read(std::env::args().nth(1).unwrap()).unwrap();
    let mut capture = capt::Capture::open(&bytes, false).unwrap();
    let mut writer = capt::Writer::open(capt::Format::Pcapng, capt::Order::Little).unwrap();
    let mut status = Ok(());
    while status.is_ok() {
        status = match capture.next() {
            Ok(Some(packet)) => writer.put(&packet),
            Ok(None) => break,
            Err(error) => Err(error),
        };
    }
    std::io::stdout().write_all(&writer.take().unwrap()).unwrap();
    if let Err(error) = status {
        eprintln!("{error}");
        std::process::exit(1);
    }
}
"""


def check_rust(count, folder, library, bench, contents):
    with open(os.path.join(TOP, "bindings", "rust", "examples", "list.rs")) as program:
        command = rust(folder, library, "list", program.read())
    if command is None:
        return
    for name, content in contents:
        want = bench.run("list", [content])[:3]
        status, text, error = run([*command, bench.name(content)])
        count.check(f"rust: {name}", (status, text, error) == want)
        count.check(f"rust: {name}, fed", run(command, input=content) == want)
        count.check(f"rust: {name}, read", run([*command, "-"], input=content) == want)
    command = rust(folder, library, "copy", COPY)
    for name, content in contents:
        copy = merged(bench, "merge-shared", content, False, "<", os.path.join(folder, f"rust-{name}"))
        count.check(f"rust: a copy of {name}", run([*command, bench.name(content)]) == copy)
    seen = run([*rust(folder, library, "types", TYPES), bench.name(dict(contents)["monday.pcap"]),
                bench.name(of_ipv6())])
    count.check("rust: types", seen == (0, b"", b""), seen)
    check_rust_build(count, folder, library)


def check_rust_build(count, folder, library):
    """Where the binding finds its archive, and that it links the one that is there."""
    crate, other = os.path.join(folder, "rust"), os.path.join(folder, "rust", "other")
    version = 'fn main() { println!("{}", capt::version()) }'
    command = rust(folder, library, "version", version)
    number = run(command)[1].strip()
    os.mkdir(other)
    archive = os.path.join(other, "libcapt.a")
    shutil.copy(os.path.join(library, "libcapt.a"), archive)
    # a name that begins in the folder where cargo is called, and in the one of the workspace
    for place in {"PWD": crate}, {"PWD": "/"}, {"PWD": None}:
        seen = cargo(crate, "version", "other", **place), run(command)[1].strip()
        count.check(f"rust: a relative folder, {place}", seen == ((0, b"", b""), number), seen)
    with open(archive, "rb") as file:
        content = file.read()
    with open(archive, "wb") as out:
        out.write(content.replace(number, b"9.8.7"))
    seen = cargo(crate, "version", "other")[0], run(command)[1].strip()
    count.check("rust: an archive that changed", seen == (0, b"9.8.7"), seen)
    for library, words in ("nowhere", [b"CAPT_LIB_DIR", b"nowhere", b"libcapt.a"]), (None, [b"CAPT_LIB_DIR"]):
        status, _, error = cargo(crate, "version", library)
        told = all(word in error for word in words) and b"panicked" not in error
        count.check(f"rust: a folder without an archive: {library}", status != 0 and told, error)
    # an enum that can grow wants an arm for the rest
    program = "fn main() { match capt::Error::Memory { capt::Error::Refused(..) | capt::Error::Memory | capt::Error::Files | capt::Error::Ended => {} } }"
    with open(os.path.join(crate, "examples", "closed.rs"), "w") as out:
        out.write(program)
    seen = cargo(crate, "closed", os.path.join(other))
    count.check("rust: an error that can grow", seen[0] != 0 and b"E0004" in seen[2], seen)


def main():
    program = sys.argv[1] if len(sys.argv) > 1 else PROGRAM
    # a fault of the binding for Python in this process, or a call that doesn't end, is told, and ends it
    faulthandler.enable()
    faulthandler.dump_traceback_later(3600, exit=True)
    count = Count()
    with tempfile.TemporaryDirectory() as folder:
        library = sys.argv[2] if len(sys.argv) > 2 else os.path.join(folder, "lib")
        if len(sys.argv) < 3:
            build(folder)
        os.environ["CAPT_LIBRARY"] = os.path.join(os.path.abspath(library), "libcapt.so")
        os.environ["PYTHONPATH"] = os.path.join(TOP, "bindings", "python")
        sys.path.insert(0, os.environ["PYTHONPATH"])
        import capt
        checker, shared, shim = os.path.join(folder, "checker"), os.path.join(folder, "checker-shared"), make_shim(folder)
        compile = ["cc", "-std=c11", "-Wall", "-Wextra", "-Werror", "-O1", "-I", library, os.path.join(TOP, "checks", "clib.c")]
        subprocess.run([*compile, os.path.join(library, "libcapt.a"), "-o", checker], check=True)
        subprocess.run([*compile, "-L", library, "-lcapt", f"-Wl,-rpath,{os.path.abspath(library)}", "-o", shared], check=True)
        bench = Bench(folder, program)
        contents = list(files())
        with ThreadPoolExecutor(len(os.sched_getaffinity(0))) as pool:
            for name, content in contents:
                pool.submit(check_c, count, checker, shim, bench, name, content)
        for name, content in contents:
            check_python(count, capt, bench, name, content)
            check_rows(count, capt, name, content)
            check_batches(count, capt, bench, name, content)
        check_batches_apart(count, capt, dict(contents)["monday.pcap"])
        for name in "monday.pcap", "tuesday.pcapng":
            check_python_ends(count, capt, name, dict(contents)[name])
        example = dict(contents)["monday.pcap"]
        check_sources(count, capt, folder, example)
        check_times(count, capt)
        check_hints(count, capt)
        check_errors(count, capt, folder, example)
        check_wheel(count, capt, folder)
        check_python_processes(count, folder)
        path = bench.name(example)
        for it in (checker, shared):
            for what in "misuse", "flags", "version", "written":
                seen = run([it, what, path])
                count.check(f"c: {what}", seen == (0, b"", b""), seen)
            seen = run([it, "memory"])
            count.check("c: what a fed reader holds", seen == (0, b"", b""), seen)
            for name in "monday.pcap", "tuesday.pcapng":
                seen = run([it, "stack", bench.name(dict(contents)[name])])
                count.check("c: the stack of the calls", seen == (0, b"", b""), seen)
        names = subprocess.run(["nm", "-D", "--defined-only", os.environ["CAPT_LIBRARY"]], stdout=subprocess.PIPE, text=True).stdout
        seen = {line.split()[2].split("@")[0] for line in names.splitlines() if line.split()[1] == "T"}
        with open(os.path.join(library, "capt.h")) as file:
            header = file.read()
        declared = set(re.findall(r"^\w+ (capt_\w+)\(", header, re.M))
        count.check("the names that are seen", seen == declared, seen ^ declared)
        count.check("the version", run([program, "--version"])[1].decode().split()[:2] == ["capt", capt.version()])
        check_header(count, capt, header)
        check_versions(count, library, shared, declared)
        check_other_library(count, folder)
        check_ipv6(count, capt, checker, bench)
        check_interfaces(count, capt, checker, bench)
        check_faults(count, checker, shim, path, example)
        check_example(count, folder, library, shim, bench, example)
        check_reading(count, folder, library, shim, example)
        jobs = os.path.join(folder, "jobs")
        source = os.path.join(TOP, "checks", "jobs.c")
        subprocess.run(["cc", "-std=c11", "-I", library, "-o", jobs, source, os.path.join(library, "libcapt.a")], check=True)
        for name, content in contents[::6]:
            check_jobs(count, program, jobs, name, content, example)
        for name in "monday.pcap", "tuesday.pcapng":
            check_job_faults(count, jobs, shim, folder, dict(contents)[name])
        check_job_memory(count, jobs, folder)
        for name in "monday.pcap", "tuesday.pcapng":
            check_ends(count, checker, bench, name, dict(contents)[name])
        many = [example] * 32
        count.check("32 files", capt.report_text(many).encode() == bench.run("report", many)[1])
        talks = capt.report([example]).talks
        count.check("talks", [talk.a for talk in talks] == ["10.0.0.1"] and talks[0].forward == (1, 60), talks)
        with capt.Capture(example) as capture:
            parts = [packet.offset for _, packet in zip("1", capture)], [packet.offset for packet in capture]
            count.check("python: an iteration that was left", parts == ([24], [100, 176]), parts)
        with capt.Table([example]) as table:
            before = table.report().text
            while table.step():
                pass
            texts = before.startswith("files 1\nfile 1 - packets 0"), table.report() == capt.report([example])
            count.check("python: table", texts == (True, True), texts)
        check_pages(count, folder, library, shim)
        check_rust(count, folder, library, bench, contents)
        if shutil.which("valgrind"):
            watch = ["valgrind", "-q", "--error-exitcode=99", "--leak-check=full"]
            for name, content in contents[::12]:
                status = run([*watch, checker, "many", bench.name(content)])[0]
                count.check(f"valgrind: {name}", status in (0, 1), status)
                status = run([*watch, checker, "fed", "13", bench.name(content)])[0]
                count.check(f"valgrind: {name}, fed", status in (0, 1), status)
                for task in "list", "blocks", "report":
                    status = run([*watch, jobs, task, "50", "0", "0", "0", "0", "0", bench.name(content)])[0]
                    count.check(f"valgrind: {name}, a job, {task}", status in (0, 1), status)
                for form in "0", "4":
                    status = run([*watch, checker, "copy", form, bench.name(content)])[0]
                    count.check(f"valgrind: {name}, copied", status in (0, 1), status)
    count.end()


main()
