#!/usr/bin/env python3
"""The catalogue of an archive, `python -m capt.archive`, over captures whose facts, conversations, digests and merged
bytes are worked out by hand: what each command prints and how it ends, what is in the tables, that the reports add up,
with conversations of IPv6 and without; a run that is killed or interrupted goes on, one process writes; unchanged
captures are left out, changed ones are read again, bad ones are named and gone on over; a digest that is no longer so;
captures merged in rounds; engines that have `map`, dask's too where it is installed; catalogues of either version; and
what docs/ARCHIVE.md shows. No libcapt.so is there.

Use: checks/archive.py [PROGRAM]     (as after `rt run` or `rt ci` in crates/capt; less than a minute)"""
import sys

sys.dont_write_bytecode = True

import hashlib, json, os, re, shutil, signal, sqlite3, stat, struct, subprocess, tempfile, time
from contextlib import closing
from multiprocessing.pool import ThreadPool

from captures import (ENDS_6, PROGRAM, SECTION, TOP, Count, block, datagram, fragment_header, ipv6, packet, pcap_header,
                      record, udp)

PACKAGE = os.path.join(TOP, "bindings", "python")
ENDS = 0x0A000001, 0x0A000002
TALK = datagram(udp((1000, 2000), b"hi"))
ANSWER = datagram(udp((2000, 1000), b"you"), ends=ENDS[::-1])
OTHER = datagram(udp((7, 9)), ends=(0x0A000003, 0x0A000004))
PING = datagram(b"ping", protocol=1, ends=(0x0A000004, 0x0A000001))
FIRST, REST = datagram(bytes(8), 0, True), datagram(b"rest", 8)
# a datagram of IPv4 in fragments, and one whose UDP length is wrong
JOINED = datagram(udp((1, 2), b"12345678")[:8], 0, True), datagram(b"12345678", 8)
BAD = datagram(bytes(4) + b"\0\x04" + bytes(2), 0, True), REST
# of IPv6: UDP there and back, ICMPv6, and a datagram in fragments; a header has 40 bytes, and that of a fragment 8
TALK_6 = ipv6(udp((1000, 2000), b"hi"))
ANSWER_6 = ipv6(udp((2000, 1000), b"you"), ends=ENDS_6[::-1])
PING_6 = ipv6(b"ping", 58, (0xFE80 << 112 | 1, 0xFF02 << 112 | 1))
FIRST_6, REST_6 = (ipv6(fragment_header(17, start, not start, 7) + data, 44) for start, data in
                   ((0, udp((1, 2), b"rest")[:8]), (8, b"rest")))


def pcap(*packets, link=101):
    """A pcap file of packets at a second."""
    return pcap_header(link) + b"".join(record(second, data) for second, data in packets)


def pcapng(*packets, code=6):
    """A pcapng file with one interface, of packets at a number of its units: microseconds, if no other resolution is given."""
    interface = block(1, struct.pack("<HHI", 101, 0, 0x40000) + bytes([9, 0, 1, 0, code, 0, 0, 0]) + bytes(4))
    return bytes.fromhex(SECTION) + interface + b"".join(packet(0, units, data) for units, data in packets)


def digest(*packets):
    """The digest of packets of link type 101 at whole seconds, by the manual page."""
    text = b"".join(struct.pack(">HII", 101, len(data), len(data)) + second.to_bytes(16, "big") + struct.pack(">QQ", 0, 1) + data
                    for second, data in packets)
    return hashlib.sha256(text).hexdigest()


# One has a conversation, three another row of it and two more, and a packet that is bad; two has none of the ends of one.
ONE = (1, TALK), (2, ANSWER)
TWO = (10, OTHER),
THREE = (5, TALK), (6, PING), (7, b"\x45")
FILES = {"one.pcap": pcap(*ONE), "two.pcap": pcap(*TWO), "three.pcapng": pcapng(*((second * 10**6, data) for second, data in THREE))}
# 20 bytes of a header of IPv4, 8 of one of UDP, and the data
SUMS = f"""files 3
total packets 6 bytes {30 + 31 + 28 + 30 + 24 + 1} truncated 0
frames other-link 0 not-ipv4 0 short 0 cut 0 bad 1 unjoined 0 counted 5
joined 0 given-up 0
talks 3
"""
PINGS = "talk p1 10.0.0.1 10.0.0.4 forward 0 0 backward 1 24 first 6+0/1000000 last 6+0/1000000"
TALKS = "talk udp 10.0.0.1:1000 10.0.0.2:2000 forward 2 60 backward 1 31 first 1+0/1000000 last 5+0/1000000"
OTHERS = "talk udp 10.0.0.3:7 10.0.0.4:9 forward 1 28 backward 0 0 first 10+0/1000000 last 10+0/1000000"


class Archive:
    """A folder of captures, and the commands over their catalogue."""

    def __init__(self, folder, program):
        self.folder, self.program = folder, program
        self.database = self.path("archive.db")
        self.environment = {**os.environ, "PYTHONPATH": PACKAGE, "PYTHONDONTWRITEBYTECODE": "1", "CAPT": program,
                            "CAPT_LIBRARY": "/no/libcapt.so"}

    def path(self, name):
        return os.path.join(self.folder, name)

    def put(self, name, content, second=1_700_000_000):
        """Writes a file that was changed at that second."""
        with open(self.path(name), "wb") as out:
            out.write(content)
        os.utime(self.path(name), (second, second))
        return self.path(name)

    def command(self, words, python=sys.executable):
        return [python, "-m", "capt.archive", *words]

    def run(self, *words, **how):
        """The status, what is printed, without the name of the folder, and what is said."""
        how = {"stdin": subprocess.DEVNULL, "env": self.environment, "cwd": self.folder, "timeout": 120, **how}
        if "input" in how:
            del how["stdin"]
        done = subprocess.run(self.command(words, how.pop("python", sys.executable)), stdout=subprocess.PIPE, stderr=subprocess.PIPE, **how)
        return done.returncode, done.stdout.decode().replace(self.folder + "/", ""), done.stderr.decode()

    def rows(self, query, database=None):
        with closing(sqlite3.connect(database or self.database)) as connection:
            return connection.execute(query).fetchall()

    def begun(self, *words, **environment):
        """A run in a session of its own."""
        return subprocess.Popen(self.command(words), stdin=subprocess.DEVNULL, stdout=subprocess.PIPE, stderr=subprocess.PIPE,
                                cwd=self.folder, env={**self.environment, **environment}, start_new_session=True)

    def slowly(self, seconds):
        """A program that waits before it reads a capture whose name has `slow`."""
        path = self.put("slowly", f'#!/bin/sh\ncase "$*" in *slow*) sleep {seconds};; esac\nexec "{self.program}" "$@"\n'.encode())
        os.chmod(path, 0o755)
        return path


def check_answers(count, archive):
    """Three captures: what is found in which, and when; the greatest conversations; the reports, added up."""
    names = list(FILES)
    for name, content in FILES.items():
        archive.put(name, content)
    seen = archive.run("index", "archive.db", "--jobs", "2", *names)
    count.check("index", seen == (0, "indexed files 3 read 3 unchanged 0 not-whole 0\n", ""), seen)
    one = "capture talks 1 packets 2 bytes 61 first 1+0/1000000 last 2+0/1000000 name one.pcap\n"
    two = "capture talks 1 packets 1 bytes 28 first 10+0/1000000 last 10+0/1000000 name two.pcap\n"
    three = "capture talks {} packets {} bytes {} first 5+0/1000000 last {}+0/1000000 name three.pcapng\n"
    talk = three.format(1, 1, 30, 5)
    for words, want in [
        (["10.0.0.1"], one + three.format(2, 2, 54, 6)), (["10.0.0.2"], one + talk), (["10.0.0.1:1000"], one + talk),
        (["10.0.0.2:2000"], one + talk), (["10.0.0.1:2000"], ""), (["10.0.0.3"], two), (["10.0.0.9"], ""),
        (["10.0.0.4"], three.format(1, 1, 24, 6).replace("first 5", "first 6") + two),
        (["10.0.0.1:1000", "--to", "3"], one), (["10.0.0.1:1000", "--from", "3"], talk), (["10.0.0.1:1000", "--to", "0.999999"], ""),
        (["10.0.0.1:1000", "--from", "2+0/1", "--to", "5"], one + talk), (["10.0.0.1:1000", "--from", "2.000000001", "--to", "4.9"], ""),
        (["10.0.0.3", "--from", "1970-01-01T00:00:10Z", "--to", "1970-01-01T01:00:10+01:00"], two),
        (["10.0.0.3", "--from", "1970-01-01 00:00:11"], ""),
        (["10.0.0.2", "--talks"], "talk udp 10.0.0.1:1000 10.0.0.2:2000 forward 1 30 backward 1 31 first 1+0/1000000 last 2+0/1000000 "
         "name one.pcap\ntalk udp 10.0.0.1:1000 10.0.0.2:2000 forward 1 30 backward 0 0 first 5+0/1000000 last 5+0/1000000 "
         "name three.pcapng\n"),
    ]:
        seen = archive.run("find", "archive.db", *words)
        count.check(f"find {words}", seen == (0, want, ""), seen)
    for words, want in [([], [TALKS, OTHERS, PINGS]), (["--count", "1"], [TALKS]), (["--by", "packets"], [TALKS, PINGS, OTHERS])]:
        seen = archive.run("top", "archive.db", *words)
        count.check(f"top {words}", seen == (0, "".join(f"{line}\n" for line in want), ""), seen)
    seen = archive.run("totals", "archive.db", "--talks")
    count.check("totals", seen == (0, SUMS + f"{PINGS}\n{TALKS}\n{OTHERS}\nsums is-report yes\n", ""), seen)
    told = subprocess.run([archive.program, "report", *map(archive.path, names)], stdout=subprocess.PIPE, check=True).stdout.decode()
    lines = [line for line in told.splitlines() if not line.startswith("file ")]
    count.check("the report over all", sorted(lines) == sorted([*SUMS.splitlines(), PINGS, TALKS, OTHERS]), lines)
    check_tables(count, archive)
    check_objects(count, archive)


def check_tables(count, archive):
    """What is in the tables, and which indexes there are."""
    seen = archive.rows("SELECT path, size, mtime_ns, digest, format, packets, bytes, first, last, first_ns, last_ns, outcome FROM files ORDER BY path")
    spans = {"one.pcap": ("pcap", 2, 61, 1, 2, ONE), "two.pcap": ("pcap", 1, 28, 10, 10, TWO), "three.pcapng": ("pcapng", 3, 55, 5, 7, THREE)}
    want = []
    for name in sorted(FILES):
        form, packets, size, first, last, held = spans[name]
        times = f"{first}+0/1000000", f"{last}+0/1000000", first * 10**9, last * 10**9
        want.append((archive.path(name), len(FILES[name]), 1_700_000_000 * 10**9, digest(*held), form, packets, size, *times, "whole"))
    count.check("the table files", seen == want, seen, want)
    seen = archive.rows("SELECT path, talks.* FROM talks JOIN files ON id = file WHERE path LIKE '%two%'")
    want = (17, "10.0.0.3", 7, "10.0.0.4", 9, 1, 28, 0, 0, "10+0/1000000", "10+0/1000000", 10**10, 10**10)
    count.check("the table talks", [row[2:] for row in seen] == [want], seen)
    plans = {"SELECT * FROM talks WHERE a = '1' AND a_port = 1": "talks_a", "SELECT * FROM talks WHERE b = '1'": "talks_b",
             "SELECT * FROM files WHERE digest = '1'": "files_digest", "DELETE FROM talks WHERE file = 1": "talks_file"}
    for query, index in plans.items():
        plan = str(archive.rows(f"EXPLAIN QUERY PLAN {query}"))
        count.check(f"the index {index}", index in plan, plan)


def check_objects(count, archive):
    """With --json each line is an object, whose names have the folder."""
    ends = {"a": {"address": "10.0.0.1", "port": 1000}, "b": {"address": "10.0.0.2", "port": 2000}}
    sides = {"forward": {"packets": 2, "bytes": 60}, "backward": {"packets": 1, "bytes": 31}}
    for words, want in [
        (["find", "archive.db", "10.0.0.3"], {"type": "capture", "talks": 1, "packets": 1, "bytes": 28, "first": [10, 0, 1000000],
                                             "last": [10, 0, 1000000], "path": "two.pcap"}),
        (["top", "archive.db", "--count", "1"], {"type": "talk", "protocol": 17, **ends, **sides, "first": [1, 0, 1000000], "last": [5, 0, 1000000]}),
        (["index", "archive.db", "two.pcap"], {"type": "indexed", "files": 1, "read": 0, "unchanged": 1, "not_whole": 0}),
    ]:
        seen = archive.run(*words, "--json")
        count.check(f"{words[0]} as JSON", seen[0] == 0 and [json.loads(line) for line in seen[1].splitlines()] == [want], seen)
    seen = archive.run("totals", "archive.db", "--json")
    kinds = {(it := json.loads(line)).pop("type"): it for line in seen[1].splitlines()}
    want = {"files": 3, "packets": 6, "bytes": 144, "truncated": 0, "bad": 1, "counted": 5, "talks": 3, "is_report": True}
    held = {name: number for it in kinds.values() for name, number in it.items()}
    count.check("totals as JSON", list(kinds) == ["files", "total", "frames", "joined", "talks", "sums"] and want.items() <= held.items(), seen)


def check_ends(count, archive):
    """An end of either network is read as the program prints it, and printed so."""
    sys.path.insert(0, PACKAGE)
    os.environ["CAPT_LIBRARY"] = "/no/libcapt.so"
    from capt.archive import __main__ as commands
    from capt.archive import lines
    for text, want in [
        ("192.0.2.1:53", ("192.0.2.1", 53)), ("192.0.2.1", ("192.0.2.1", None)), ("192.0.2.1:0", ("192.0.2.1", 0)),
        ("[2001:db8::1]:443", ("2001:db8::1", 443)),
        ("2001:db8::1", ("2001:db8::1", None)), ("[2001:db8::1]:0", ("2001:db8::1", 0)), ("[::]:65535", ("::", 65535)),
        ("::", ("::", None)), ("::1", ("::1", None)),
        # what looks like a port without brackets is a part of the address
        ("2001:db8::1:443", ("2001:db8::1:443", None)), ("1:2:3:4:5:6:7:8", ("1:2:3:4:5:6:7:8", None)),
        # in the form of RFC 5952, IPv4 in it as groups too
        ("2001:0DB8:0:0:0:0:0:1", ("2001:db8::1", None)), ("[2001:db8:0:0:1:0:0:1]:7", ("2001:db8::1:0:0:1", 7)),
        ("::ffff:1.2.3.4", ("::ffff:102:304", None)),
        ("[::ffff:102:304]:80", ("::ffff:102:304", 80)), ("::ffff:0.0.0.1", ("::ffff:0:1", None)),
        ("::1.2.3.4", ("::102:304", None)),
        ("64:ff9b::192.0.2.33", ("64:ff9b::c000:221", None)), ("2001:db8:0:1:1:1:1:1", ("2001:db8:0:1:1:1:1:1", None)),
    ]:
        seen = commands.end_of(text)
        count.check(f"the end {text}", seen == want, seen)
        shown = lines._end_text(*want)
        count.check(f"the end {text}, printed and read again", commands.end_of(shown) == want, shown)
    for want in ("10.0.0.1:53", "10.0.0.1", "[2001:db8::1]:443", "2001:db8::1", "[::1]:0"):
        seen = lines._end_text(*commands.end_of(want))
        count.check(f"the end {want}, printed", seen == want, seen)
    seen = archive.run("index", "ends.db", "--ipv6", "one.pcap")
    count.check("ends: index", seen[0] == 0, seen)
    for words in (["2001:db8::1"], ["[2001:db8::1]:53", "--talks"]):
        seen = archive.run("find", "ends.db", *words)
        count.check(f"find {words}", seen == (0, "", ""), seen)


def check_times(count, archive):
    """Times beyond nanoseconds stay exact: a picosecond counts; a time that 64 bits don't hold is found all the same."""
    archive.put("pico.pcapng", pcapng((10**12 + 500, TALK), code=12))
    archive.put("far.pcapng", pcapng((10**10, ANSWER), code=0))
    archive.put("without.pcapng", pcapng((0, b"")).replace(packet(0, 0, b""), block(3, struct.pack("<I", len(OTHER)) + OTHER)))
    seen = archive.run("index", "times.db", "pico.pcapng", "far.pcapng", "without.pcapng")
    count.check("times: index", seen[0] == 0, seen)
    seen = archive.rows("SELECT first, first_ns FROM files ORDER BY path", archive.path("times.db"))
    want = [("10000000000+0/1", 2**63 - 1), ("1+500/1000000000000", 10**9), (None, None)]
    count.check("times: in nanoseconds, rounded down", seen == want, seen)
    pico, far = "pico.pcapng", "far.pcapng"
    for words, want in [
        (["10.0.0.1", "--from", "1.0000000005", "--to", "2"], [pico]), (["10.0.0.1", "--from", "1.0000000006", "--to", "2"], []),
        (["10.0.0.1", "--from", "0", "--to", "1.0000000005"], [pico]), (["10.0.0.1", "--to", "1.0000000004"], []),
        (["10.0.0.1", "--from", "9999999999.9"], [far]), (["10.0.0.1", "--from", "10000000000.1"], []),
        (["10.0.0.1", "--to", "9999999999"], [pico]), (["10.0.0.3"], ["without.pcapng"]), (["10.0.0.3", "--from", "0"], []),
    ]:
        seen = archive.run("find", "times.db", *words)
        count.check(f"times: find {words}", seen[0] == 0 and re.findall("name (.*)", seen[1]) == want, seen)


def check_bad(count, archive):
    """Bad captures are named and gone on over, and tried again if they weren't read; the answers say that they lack them."""
    os.mkdir(archive.path("folder"))
    os.mkfifo(archive.path("pipe"))
    archive.put("cut.pcap", pcap(*ONE)[:-1])
    archive.put("empty.pcap", b"")
    archive.put("text.pcap", b"no capture")
    archive.put("odd\n\x1b.pcap", pcap(*TWO))
    with open(os.fsencode(archive.path("")) + b"\xff.pcap", "wb") as out:
        out.write(FILES["two.pcap"])
    names = [b"cut.pcap", b"empty.pcap", b"text.pcap", b"odd\n\x1b.pcap", b"\xff.pcap", b"none.pcap", b"folder", b"pipe", b"one.pcap"]
    seen = archive.run("index", "bad.db", "--files0-from", "-", input=b"\0".join(names) + b"\0")
    ends = {"cut.pcap": "refused offset 70 rule 3 cut", "empty.pcap": "refused offset 0 rule 3 cut", "text.pcap": "refused offset 0 rule 1 magic",
            "\ufffd.pcap": "open", "none.pcap": "open", "folder": "no file", "pipe": "no file"}
    want = {f"not-whole outcome {end} name {name}" for name, end in ends.items()} | {"indexed files 9 read 9 unchanged 0 not-whole 7"}
    count.check("bad: index", seen[0] == 1 and set(seen[1].splitlines()) == want and seen[2] == "", seen)
    archive.put("none.pcap", pcap(*TWO))
    seen = archive.run("index", "bad.db", "--files0-from", "-", input=b"\0".join(names))
    count.check("bad: again", seen[0] == 1 and seen[1].endswith("indexed files 9 read 4 unchanged 5 not-whole 6\n"), seen)
    said = "captures that aren't whole: 6; they aren't in the answer\n"
    lines = [f"capture talks 1 packets 1 bytes 28 first 10+0/1000000 last 10+0/1000000 name {name}\n" for name in ("none.pcap", "odd\\u{a}\\u{1b}.pcap")]
    seen = archive.run("find", "bad.db", "10.0.0.4")
    count.check("bad: find", seen == (1, "".join(lines), said), seen)
    seen = archive.run("totals", "bad.db")
    want = f"files 3\ntotal packets 4 bytes {61 + 28 + 28} truncated 0\n"
    count.check("bad: totals", seen[0] == 1 and seen[1].startswith(want) and seen[1].count("\nnot-whole outcome ") == 6, seen)
    seen = archive.run("index", "bad.db", "--allow-cut", "cut.pcap", "text.pcap")
    want = "not-whole outcome refused offset 0 rule 1 magic name text.pcap\nindexed files 2 read 1 unchanged 1 not-whole 1\n"
    count.check("bad: a cut end that is dropped", seen[:2] == (1, want), seen)
    seen = archive.rows("SELECT packets, outcome, digest FROM files WHERE path LIKE '%cut.pcap'", archive.path("bad.db"))
    count.check("bad: what is left of it", seen == [(1, "whole cut", digest(ONE[0]))], seen)
    seen = archive.run("verify", "bad.db", "--jobs", "1")
    count.check("bad: verify", seen[:2] == (1, "verified files 4 same 4 changed 0\n"), seen)


def check_fragments(count, archive):
    """Captures that have fragments are named, where the reports needn't add up: also if only their datagram is bad."""
    archive.put("first.pcap", pcap((1, FIRST)))
    archive.put("rest.pcap", pcap((2, REST)))
    archive.put("joined.pcap", pcap((1, JOINED[0]), (2, JOINED[1])))
    # its list is longer than a pipe holds
    archive.put("bad.pcap", pcap((1, BAD[0]), (2, BAD[1]), *[(3, b"\x45")] * 2000))
    archive.put("worse.pcap", pcap((1, b"\x45")))
    names = ["first.pcap", "rest.pcap", "joined.pcap", "bad.pcap", "worse.pcap"]
    seen = archive.run("index", "fragments.db", *names)
    count.check("fragments: index", seen[0] == 0, seen)
    seen = archive.run("totals", "fragments.db")
    want = (f"files 5\ntotal packets 2007 bytes {28 + 24 + 28 + 28 + 28 + 24 + 2000 + 1} truncated 0\n"
            "frames other-link 0 not-ipv4 0 short 0 cut 0 bad 2003 unjoined 2 counted 2\njoined 1 given-up 0\ntalks 1\nsums is-report no\n"
            + "".join(f"fragments name {name}\n" for name in sorted(names[:4])))
    count.check("fragments: totals", seen == (0, want, ""), seen, want)


# three captures of both networks: an IPv4 packet in the first, one of neither network in the second
BOTH = {"six.pcap": pcap((1, TALK_6), (2, ANSWER_6), (3, TALK)),
        "ping.pcapng": pcapng((4 * 10**6, TALK_6), (5 * 10**6, PING_6), (6 * 10**6, b"\x10")),
        "later.pcap": pcap((9, TALK_6))}
SUMS_6 = f"""files 3
total packets 7 bytes {50 + 51 + 30 + 50 + 44 + 1 + 50} truncated 0
frames other-link 0 not-ip 1 short 0 cut 0 bad 0 unjoined 0 counted 6
joined 0 given-up 0
talks 3
"""
TALKS_6 = ("talk udp [2001:db8::1]:1000 [2001:db8::2]:2000 forward 3 150 backward 1 51 "
           "first 1+0/1000000 last 9+0/1000000")
PINGS_6 = "talk p58 fe80::1 ff02::1 forward 1 44 backward 0 0 first 5+0/1000000 last 5+0/1000000"
TALKS_4 = "talk udp 10.0.0.1:1000 10.0.0.2:2000 forward 1 30 backward 0 0 first 3+0/1000000 last 3+0/1000000"


def lines_of_report(archive, names):
    """What the program reports of captures, with conversations of IPv6, but for the lines of the files."""
    words = [archive.program, "report", "--ipv6", *map(archive.path, names)]
    told = subprocess.run(words, stdout=subprocess.PIPE, check=True).stdout.decode()
    return sorted(line for line in told.splitlines() if not line.startswith("file "))


def check_both(count, archive):
    """A catalogue that is made with --ipv6 has conversations of IPv6 too, and goes on so without the word."""
    for name, content in BOTH.items():
        archive.put(name, content)
    for words, files, read in [(["--ipv6", "six.pcap", "ping.pcapng"], 2, 2), (["six.pcap", "later.pcap"], 2, 1),
                               (["--ipv6", "later.pcap"], 1, 0), (["--again", "ping.pcapng"], 1, 1)]:
        seen = archive.run("index", "archive.db", *words)
        want = f"indexed files {files} read {read} unchanged {files - read} not-whole 0\n"
        count.check(f"both: index {words}", seen == (0, want, ""), seen)

    def capture(name, packets, size, *span):
        first, last = (f"{second}+0/1000000" for second in span)
        return f"capture talks 1 packets {packets} bytes {size} first {first} last {last} name {name}\n"

    six, four = capture("six.pcap", 2, 101, 1, 2), capture("six.pcap", 1, 30, 3, 3)
    talk, ping = capture("ping.pcapng", 1, 50, 4, 4), capture("ping.pcapng", 1, 44, 5, 5)
    later = capture("later.pcap", 1, 50, 9, 9)
    for words, want in [
        *(([word], later + talk + six) for word in (
            "2001:db8::1", "2001:DB8:0:0:0:0:0:1", "2001:0db8::0.0.0.1", "[2001:db8::1]:1000",
            "[2001:0db8:0::0:1]:01000", "2001:db8::2", "[2001:db8::2]:2000")),
        *(([word], "") for word in (
            "[2001:db8::1]:2000", "2001:db8::1:1000", "2001:db8::3", "[ff02::1]:0", "::ffff:10.0.0.1", "10.0.0.3",
            "::")),
        (["ff02::1"], ping), (["fe80::1"], ping), (["10.0.0.1"], four), (["10.0.0.2:2000"], four),
        (["2001:db8::1", "--to", "2"], six), (["2001:db8::1", "--from", "2.000001", "--to", "4"], talk),
        (["[2001:db8::1]:1000", "--from", "4.5"], later), (["fe80::1", "--from", "5.5"], ""),
        (["2001:db8::2", "--to", "1", "--talks"], "talk udp [2001:db8::1]:1000 [2001:db8::2]:2000 forward 1 50 "
         "backward 1 51 first 1+0/1000000 last 2+0/1000000 name six.pcap\n"),
    ]:
        seen = archive.run("find", "archive.db", *words)
        count.check(f"both: find {words}", seen == (0, want, ""), seen)
    for words, want in [([], [TALKS_6, PINGS_6, TALKS_4]), (["--count", "1", "--by", "packets"], [TALKS_6])]:
        seen = archive.run("top", "archive.db", *words)
        count.check(f"both: top {words}", seen == (0, "".join(f"{line}\n" for line in want), ""), seen)
    seen = archive.run("totals", "archive.db", "--talks")
    want = f"{SUMS_6}{TALKS_4}\n{TALKS_6}\n{PINGS_6}\nsums is-report yes\n"
    count.check("both: totals", seen == (0, want, ""), seen)
    told = lines_of_report(archive, BOTH)
    count.check("both: the report over all", told == sorted([*SUMS_6.splitlines(), TALKS_4, TALKS_6, PINGS_6]), told)
    seen = archive.run("verify", "archive.db")
    count.check("both: verify", seen == (0, "verified files 3 same 3 changed 0\n", ""), seen)
    seen = archive.run("totals", "archive.db", "--json")
    frames = [it for it in map(json.loads, seen[1].splitlines()) if it["type"] == "frames"]
    want = {"type": "frames", "other_link": 0, "not_ip": 1, "short": 0, "cut": 0, "bad": 0, "unjoined": 0, "counted": 6}
    count.check("both: totals as JSON", seen[0] == 0 and frames == [want], seen)
    seen = archive.run("find", "archive.db", "FE80::1", "--talks", "--json")
    want = {"type": "talk", "protocol": 58, "a": {"address": "fe80::1"}, "b": {"address": "ff02::1"},
            "forward": {"packets": 1, "bytes": 44}, "backward": {"packets": 0, "bytes": 0}, "first": [5, 0, 1000000],
            "last": [5, 0, 1000000], "path": "ping.pcapng"}
    count.check("both: find as JSON", seen[0] == 0 and list(map(json.loads, seen[1].splitlines())) == [want], seen)
    seen = archive.rows("SELECT protocol, a, a_port, b, b_port FROM talks JOIN files ON id = file "
                        "WHERE path LIKE '%ping%'")
    want = [(17, "2001:db8::1", 1000, "2001:db8::2", 2000), (58, "fe80::1", None, "ff02::1", None)]
    count.check("both: the table talks", seen == want, seen)
    seen = archive.rows("SELECT path, not_ip, unjoined, counted, fragments FROM totals JOIN files ON id = file "
                        "ORDER BY path")
    want = [(archive.path(name), *counts) for name, *counts in
            [("later.pcap", 0, 0, 1, 0), ("ping.pcapng", 1, 0, 2, 0), ("six.pcap", 0, 0, 3, 0)]]
    count.check("both: the table totals", seen == want, seen)


def check_both_fragments(count, archive):
    """Fragments of IPv6 are unjoined, and the reports add up; captures that have some of IPv4 are named, as without
    --ipv6."""
    whole = ipv6(fragment_header(17) + udp((1, 2)), 44)
    captures = {"half.pcap": [FIRST_6], "other half.pcap": [REST_6], "bad.pcap": [FIRST_6, b"\x60", b"\x45"],
                "whole.pcap": [whole]}
    more = {"four.pcap": [FIRST_6, FIRST], "joined.pcap": [REST_6, *JOINED], "worse.pcap": [FIRST_6, *BAD],
            "only bad.pcap": [*BAD, b"\x60"]}
    for name, packets in {**captures, **more}.items():
        archive.put(name, pcap(*enumerate(packets, 1)))
    seen = archive.run("index", "six.db", "--ipv6", *captures)
    count.check("fragments of IPv6: index", seen[0] == 0, seen)
    seen = archive.run("totals", "six.db")
    want = (f"files 4\ntotal packets 6 bytes {56 + 52 + 56 + 1 + 1 + 56} truncated 0\n"
            "frames other-link 0 not-ip 0 short 0 cut 0 bad 2 unjoined 3 counted 1\njoined 0 given-up 0\ntalks 1\n")
    count.check("fragments of IPv6: totals", seen == (0, f"{want}sums is-report yes\n", ""), seen)
    told = lines_of_report(archive, captures)
    line = "talk udp [2001:db8::1]:1 [2001:db8::2]:2 forward 1 56 backward 0 0 first 1+0/1000000 last 1+0/1000000"
    count.check("fragments of IPv6: the report over all", told == sorted([*want.splitlines(), line]), told)
    seen = archive.run("index", "six.db", *more)
    count.check("fragments of both: index", seen[0] == 0, seen)
    seen = archive.run("totals", "six.db")
    want = (f"files 8\ntotal packets 17 bytes {222 + 56 + 28 + 52 + 28 + 28 + 56 + 28 + 24 + 28 + 24 + 1} truncated 0\n"
            "frames other-link 0 not-ip 0 short 0 cut 0 bad 7 unjoined 7 counted 3\njoined 1 given-up 0\ntalks 2\n"
            "sums is-report no\n" + "".join(f"fragments name {name}\n" for name in sorted(more)))
    count.check("fragments of both: totals", seen == (0, want, ""), seen, want)
    # without the word the fragments of IPv6 are none
    seen = archive.run("index", "four.db", *captures, "four.pcap"), archive.run("totals", "four.db")
    want = (f"files 5\ntotal packets 8 bytes {222 + 56 + 28} truncated 0\n"
            "frames other-link 0 not-ipv4 6 short 0 cut 0 bad 1 unjoined 1 counted 0\njoined 0 given-up 0\ntalks 0\n"
            "sums is-report no\nfragments name four.pcap\n")
    count.check("fragments of IPv6: without the word", seen[1] == (0, want, ""), seen)


# the tables of version 1, as the package for capt 1.0.0 makes them, and a capture in them
VERSION_1 = """
CREATE TABLE files (
    id INTEGER PRIMARY KEY, path NOT NULL UNIQUE, size INTEGER, mtime_ns INTEGER, digest TEXT, format TEXT,
    packets INTEGER, bytes INTEGER, first TEXT, last TEXT, first_ns INTEGER, last_ns INTEGER, outcome TEXT NOT NULL);
CREATE INDEX files_digest ON files (digest);
CREATE TABLE talks (
    file INTEGER NOT NULL REFERENCES files, protocol INTEGER NOT NULL, a TEXT NOT NULL, a_port INTEGER, b TEXT NOT NULL,
    b_port INTEGER, forward_packets INTEGER NOT NULL, forward_bytes INTEGER NOT NULL,
    backward_packets INTEGER NOT NULL, backward_bytes INTEGER NOT NULL, first TEXT, last TEXT, first_ns INTEGER,
    last_ns INTEGER);
CREATE INDEX talks_file ON talks (file);
CREATE TABLE totals (
    file INTEGER PRIMARY KEY REFERENCES files, truncated INTEGER NOT NULL, backward INTEGER NOT NULL,
    untimed INTEGER NOT NULL, skipped INTEGER NOT NULL, interfaces INTEGER NOT NULL, other_link INTEGER NOT NULL,
    not_ipv4 INTEGER NOT NULL, short INTEGER NOT NULL, cut INTEGER NOT NULL, bad INTEGER NOT NULL,
    unjoined INTEGER NOT NULL, counted INTEGER NOT NULL, joined INTEGER NOT NULL, given_up INTEGER NOT NULL,
    fragments INTEGER NOT NULL);
CREATE INDEX talks_a ON talks (a, a_port);
CREATE INDEX talks_b ON talks (b, b_port);
INSERT INTO files VALUES
    (1, '/gone.pcap', 70, 0, 'ab', 'pcap', 2, 29, '7+0/1', '7+0/1', 7000000000, 7000000000, 'whole');
INSERT INTO talks VALUES
    (1, 17, '10.0.0.1', 1000, '10.0.0.2', 2000, 1, 28, 0, 0, '7+0/1', '7+0/1', 7000000000, 7000000000);
INSERT INTO totals VALUES (1, 0, 0, 0, 0, 1, 0, 1, 0, 0, 0, 0, 1, 0, 0, 0);
PRAGMA application_id = 1667330164;
PRAGMA user_version = 1;
"""


def check_versions(count, archive):
    """A catalogue says by its version whether it has conversations of IPv6, and stays so; one of an unknown version is
    refused."""
    for name, content in BOTH.items():
        archive.put(name, content)
    with closing(sqlite3.connect(archive.path("old.db"))) as connection:
        connection.executescript(VERSION_1)
    seen = archive.run("index", "old.db", "six.pcap")
    count.check("versions: an old catalogue", seen == (0, "indexed files 1 read 1 unchanged 0 not-whole 0\n", ""), seen)
    seen = archive.run("find", "old.db", "10.0.0.1")
    want = ("capture talks 1 packets 1 bytes 28 first 7+0/1 last 7+0/1 name /gone.pcap\n"
            "capture talks 1 packets 1 bytes 30 first 3+0/1000000 last 3+0/1000000 name six.pcap\n")
    count.check("versions: find in it", seen == (0, want, ""), seen)
    seen = archive.run("totals", "old.db")
    want = f"files 2\ntotal packets 5 bytes {29 + 131} truncated 0\nframes other-link 0 not-ipv4 3 "
    count.check("versions: totals of it", seen[0] == 0 and seen[1].startswith(want), seen)
    for words in ["index", "new.db", "six.pcap"], ["index", "both.db", "--ipv6", "six.pcap"]:
        seen = archive.run(*words)
        count.check(f"versions: {words}", seen[0] == 0, seen)
    names = "SELECT group_concat(name) FROM pragma_table_info('{}')"
    for table in "files", "talks", "totals":
        seen = [archive.rows(names.format(table), archive.path(name))[0][0] for name in ("old.db", "new.db", "both.db")]
        want = seen[0].replace("not_ipv4", "not_ip")
        count.check(f"versions: the columns of {table}", seen == [seen[0], seen[0], want], seen)
    for name, version in ("old.db", 1), ("new.db", 1), ("both.db", 2):
        seen = archive.rows("PRAGMA user_version", archive.path(name))
        count.check(f"versions: that of {name}", seen == [(version,)], seen)
    said = "python -m capt.archive: {}: it was made without --ipv6; leave the word out, or name a new catalogue\n"
    nothing = ("python -m capt.archive: {}: it has no conversations of IPv6; `index --ipv6` makes a new catalogue that "
               "has\n")
    for name in "old.db", "new.db":
        for words, want in [(["index", name, "--ipv6", "later.pcap"], said), (["find", name, "2001:db8::1"], nothing),
                            (["find", name, "[2001:db8::1]:1000", "--talks", "--json"], nothing)]:
            before = tables(archive, archive.path(name))
            seen = archive.run(*words)
            is_so = seen == (1, "", want.format(name)) and tables(archive, archive.path(name)) == before
            count.check(f"versions: {words}", is_so, seen)
    sys.path.insert(0, PACKAGE)
    from capt import archive as package

    class Here:
        map = staticmethod(map)

    with package.writing(archive.path("here.db"), ipv6=True) as catalogue:
        paths = map(archive.path, BOTH)
        found = [it.outcome for it, _ in package.index(catalogue, paths, Here(), program=archive.program)]
        seen = [(os.path.basename(it.path), it.talk[5:9]) for it in catalogue.find("2001:0DB8::1", 1000)]
        want = [("later.pcap", (1, 50, 0, 0)), ("ping.pcapng", (1, 50, 0, 0)), ("six.pcap", (1, 50, 1, 51))]
        count.check("versions: from a program", catalogue.ipv6 and found == ["whole"] * 3 and seen == want, found, seen)
    for name, wanted, refused in [("here.db", None, False), ("here.db", True, False), ("here.db", False, True),
                                  ("new.db", None, False), ("new.db", False, False), ("new.db", True, True)]:
        try:
            with package.writing(archive.path(name), ipv6=wanted) as catalogue:
                seen = catalogue.ipv6
        except package.ArchiveError as error:
            seen = error
        is_so = isinstance(seen, package.ArchiveError) if refused else seen == (name == "here.db")
        count.check(f"versions: {name}, opened with {wanted}", is_so, seen)
    with closing(sqlite3.connect(archive.path("new.db"))) as connection:
        connection.execute("PRAGMA user_version = 3")
    said = "python -m capt.archive: new.db: it is a catalogue of version 3, and this package reads versions 1 and 2\n"
    for words in (["find", "new.db", "10.0.0.1"], ["index", "new.db", "six.pcap"],
                  ["index", "new.db", "--ipv6", "six.pcap"]):
        seen = archive.run(*words)
        count.check(f"versions: another, {words}", seen == (1, "", said), seen)


def check_again(count, archive):
    """Captures that are unchanged are left out, changed ones are read again, and what they had is gone."""
    names = list(FILES)
    archive.run("index", "archive.db", *names)
    seen = archive.run("index", "archive.db", *names, *names)
    count.check("unchanged", seen == (0, "indexed files 3 read 0 unchanged 3 not-whole 0\n", ""), seen)
    archive.put("two.pcap", pcap((10, ANSWER)), 1_700_000_001)
    seen = archive.run("index", "archive.db", *names)
    count.check("changed", seen == (0, "indexed files 3 read 1 unchanged 2 not-whole 0\n", ""), seen)
    seen = archive.run("find", "archive.db", "10.0.0.3"), archive.run("find", "archive.db", "10.0.0.2", "--from", "10")
    want = "capture talks 1 packets 1 bytes 31 first 10+0/1000000 last 10+0/1000000 name two.pcap\n"
    count.check("changed: what is found", seen == ((0, "", ""), (0, want, "")), seen)
    seen = archive.run("verify", "archive.db")
    count.check("verify", seen == (0, "verified files 3 same 3 changed 0\n", ""), seen)
    # one byte of data is turned, at the same size and time; one byte of the header; one capture is gone
    content = bytearray(FILES["one.pcap"])
    content[-1] ^= 1
    archive.put("one.pcap", bytes(content))
    seen = archive.run("index", "archive.db", "one.pcap")
    count.check("a byte turned: left out", seen[1] == "indexed files 1 read 0 unchanged 1 not-whole 0\n", seen)
    archive.put("two.pcap", b"\0" + pcap((10, ANSWER))[1:], 1_700_000_001)
    os.remove(archive.path("three.pcapng"))
    seen = archive.run("verify", "archive.db", "--jobs", "3")
    want = ("changed outcome differs name one.pcap\nchanged outcome open name three.pcapng\n"
            "changed outcome refused offset 0 rule 1 magic name two.pcap\nverified files 3 same 0 changed 3\n")
    count.check("a byte turned: verify", seen == (1, want, ""), seen)
    touching = archive.put("touching", f'#!/bin/sh\nfor name; do :; done\ntouch "$name"\nexec {archive.program} "$@"\n'.encode())
    os.chmod(touching, 0o755)
    archive.put("three.pcapng", FILES["three.pcapng"])
    for words, outcome in (["--program", touching], "not-whole outcome changed name three.pcapng\n"), ([], ""):
        seen = archive.run("index", "times.db", "three.pcapng", *words)
        want = f"{outcome}indexed files 1 read 1 unchanged 0 not-whole {1 if words else 0}\n"
        count.check(f"changed while it is read {words}", seen[1] == want, seen)
    os.remove(archive.path("three.pcapng"))
    seen = archive.run("index", "archive.db", "one.pcap", "--again")
    count.check("a byte turned: read again", seen[1] == "indexed files 1 read 1 unchanged 0 not-whole 0\n", seen)


def check_duplicates(count, archive):
    """The same packets in pcap and in pcapng are duplicates, whatever the name; other packets aren't."""
    archive.put("copy.pcapng", pcapng(*((second * 10**6, data) for second, data in ONE)))
    archive.put("nano.pcapng", pcapng(*((second * 10**9, data) for second, data in ONE), code=9))
    seen = archive.run("index", "copies.db", "one.pcap", "two.pcap", "copy.pcapng", "nano.pcapng")
    count.check("duplicates: index", seen[0] == 0, seen)
    seen = archive.run("duplicates", "copies.db")
    want = "".join(f"duplicate sha256 {digest(*ONE)} packets 2 name {name}\n" for name in ("copy.pcapng", "nano.pcapng", "one.pcap"))
    count.check("duplicates", seen == (0, want, ""), seen)


def workers_of(session):
    """The processes of a session that run the package."""
    found = []
    for name in filter(str.isdigit, os.listdir("/proc")):
        try:
            with open(f"/proc/{name}/stat") as file, open(f"/proc/{name}/cmdline") as words:
                state, _, _, of_session = file.read().rpartition(")")[2].split()[:4]
                found += [name] * (int(of_session) == session and state != "Z" and "capt.archive" in words.read())
        except OSError:
            continue
    return found


def waits(condition, seconds=100):
    """Whether something becomes so."""
    until = time.monotonic() + seconds
    while not condition():
        if time.monotonic() > until:
            return False
        time.sleep(0.02)
    return True


def check_killed(count, archive):
    """A run that is killed or interrupted leaves what it had, and the next one reads the rest; a second writer is refused."""
    names = [f"{number}{'slow' if number == 20 else ''}.pcap" for number in range(40)]
    for name in names:
        archive.put(name, pcap(*ONE))

    def rows(query):
        try:
            return archive.rows(query, archive.path("killed.db"))
        except sqlite3.OperationalError:
            return []

    def had():
        return rows("SELECT COUNT(*) FROM files") == [(20,)]

    for how in signal.SIGKILL, signal.SIGINT, signal.SIGTERM:
        run = archive.begun("index", "killed.db", "--jobs", "2", *names, CAPT=archive.slowly(300))
        count.check(f"{how.name}: what comes before", waits(had), rows("SELECT path FROM files"))
        seen = archive.run("index", "killed.db", *names)
        count.check(f"{how.name}: a second writer", seen[0] == 1 and "another process writes it" in seen[2], seen)
        seen = archive.run("find", "killed.db", "10.0.0.1")
        count.check(f"{how.name}: a reader", seen[0] == 0 and seen[1].count("capture ") == 20, seen)
        os.killpg(run.pid, how) if how == signal.SIGINT else os.kill(run.pid, how)
        said = run.communicate(timeout=30)[1].decode()
        is_so = run.returncode == -how if how == signal.SIGKILL else run.returncode == 128 + how and "interrupted" in said
        count.check(f"{how.name}: the run", is_so and "Traceback" not in said, run.returncode, said)
        count.check(f"{how.name}: its workers", waits(lambda: not workers_of(run.pid)), workers_of(run.pid))
        try:
            os.killpg(run.pid, signal.SIGKILL)      # the program that waits
        except ProcessLookupError:
            pass
        count.check(f"{how.name}: the catalogue", rows("PRAGMA integrity_check") == [("ok",)] and had())
        seen = archive.run("index", "killed.db", *names)
        count.check(f"{how.name}: the rest", seen == (0, "indexed files 40 read 20 unchanged 20 not-whole 0\n", ""), seen)
        count.check(f"{how.name}: each once", rows("SELECT COUNT(*), COUNT(DISTINCT file) FROM talks") == [(40, 40)])
        indexes = rows("SELECT name FROM sqlite_master WHERE type = 'index' AND sql IS NOT NULL ORDER BY name")
        count.check(f"{how.name}: the indexes", [name for name, in indexes] == ["files_digest", "talks_a", "talks_b", "talks_file"], indexes)
        for name in [it for it in os.listdir(archive.folder) if it.startswith("killed.db")]:
            os.remove(archive.path(name))
    archive.put("slow too.pcap", pcap(*ONE))
    seen = archive.run("index", "killed.db", "--jobs", "1", "--progress", "--program", archive.slowly(0.4), "20slow.pcap", "slow too.pcap")
    count.check("progress", seen[0] == 0 and re.fullmatch("([12] of 2 files, 0 not whole\n)+", seen[2]), seen)


def merged(count):
    """Captures of two packets each, by their names, and what a merge of them is: each packet at a second of its own."""
    second = {(number, place): (number * 7 + place * 311) % 997 + 1 for number in range(count) for place in range(2)}
    files, listed = {}, []
    for number in range(count):
        times = sorted(second[number, place] for place in range(2))
        data = [b"%d %d" % (number, place) for place in range(2)]
        files[f"part {number:02}.pcap"] = pcap(*zip(times, data))
        listed += [(time, number, it) for time, it in zip(times, data)]
    numbers, parts = {}, [bytes.fromhex(SECTION)]
    interface = block(1, struct.pack("<HHI", 101, 0, 0x40000) + bytes([9, 0, 1, 0, 6, 0, 0, 0]) + bytes(4))
    for time_, number, data in sorted(listed):
        if number not in numbers:
            numbers[number] = len(numbers)
            parts.append(interface)
        parts.append(packet(numbers[number], time_ * 10**6, data))
    return files, b"".join(parts)


def check_merge(count, archive):
    """40 captures, merged in two rounds, are what one merge gives; a failure names the capture, and leaves OUT."""
    files, want = merged(40)
    paths = [archive.put(name, content) for name, content in files.items()]
    out = archive.path("all.pcapng")

    def holds(name, seen, wanted, content):
        is_so = seen == wanted and os.path.exists(out)
        if is_so:
            with open(out, "rb") as file:
                is_so = file.read() == content
        left = [it for it in os.listdir(archive.folder) if it.startswith("all.pcapng.")]
        count.check(f"merge: {name}", is_so and not left, seen, left)

    listed = b"".join(os.fsencode(path) + b"\0" for path in paths)
    holds("40", archive.run("merge", "all.pcapng", *paths), (0, "", ""), want)
    os.chmod(out, 0o640)
    holds("a list", archive.run("merge", "--jobs", "2", "all.pcapng", "--files0-from", "-", input=listed), (0, "", ""), want)
    count.check("merge: the mode of OUT", stat.S_IMODE(os.stat(out).st_mode) == 0o640)
    archive.put("part 35.pcap", files["part 35.pcap"][:-1])
    said = f"python -m capt.archive: refused: file 36 offset {24 + 16 + 4} rule 3 cut: {archive.path('part 35.pcap')}\n"
    holds("refused", archive.run("merge", "all.pcapng", *paths), (1, "", said), want)
    seen = archive.run("merge", "--allow-cut", "all.pcapng", *paths)
    count.check("merge: with a cut end", seen == (0, "", "") and os.path.getsize(out) < len(want), seen)
    archive.put("part 35.pcap", files["part 35.pcap"])
    holds("whole again", archive.run("merge", "all.pcapng", *paths), (0, "", ""), want)
    said = f"python -m capt.archive: {out}: it is a capture and OUT\n"
    holds("OUT is a capture", archive.run("merge", "all.pcapng", *paths, out), (2, "", said), want)
    said = f"python -m capt.archive: {archive.path('none')}: there is no such file\n"
    holds("no such file", archive.run("merge", "all.pcapng", *paths, archive.path("none")), (1, "", said), want)
    seen = archive.run("merge", "--to", "pcap", "all.pcap", paths[0])
    with open(archive.path("all.pcap"), "rb") as file:
        count.check("merge: one, as pcap", seen == (0, "", "") and file.read() == files["part 00.pcap"], seen)
    # in the last round: a packet of another link type
    other = archive.put("ethernet.pcap", pcap((2000, bytes(60)), link=1))
    seen = archive.run("merge", "--to", "pcap", "all.pcap", *paths, other)
    count.check("merge: refused in the last round", seen[0] == 1 and "rule 18 link-mixed, where that file is the merge of files 33 to 41" in seen[2], seen)


def check_wrong(count, archive):
    """Wrong command lines, and catalogues that are none: a clear line, and what is there stays."""
    with closing(sqlite3.connect(archive.path("other.db"))) as connection:
        connection.execute("CREATE TABLE mine (it)")
    archive.put("empty.db", b"")
    kept = {name: open(archive.path(name), "rb").read() for name in ("other.db", "one.pcap")}
    for status, words, said in [
        (2, [], "COMMAND"), (2, ["nothing"], "invalid choice"), (2, ["index"], "ARCHIVE.db"), (2, ["index", "a.db"], "FILE is missing"),
        (2, ["index", "a.db", "--files0-from", "x", "one.pcap"], "either"),
        (2, ["find", "archive.db", "10.0.0"], "an address is one of IPv4 or IPv6"),
        (2, ["find", "archive.db", "[10.0.0.1]:53"], "an address is one of IPv4 or IPv6"),
        (2, ["find", "archive.db", "10.0.0.1:65536"], "from 0 to 65535"),
        (2, ["find", "archive.db", "[::1]:65536"], "from 0 to 65535"),
        (2, ["find", "archive.db", "[::1]:"], "from 0 to 65535"),
        *((2, ["find", "archive.db", word], "an address is one of IPv4 or IPv6")
          for word in ("", ":53", "[::1]", "[::1", "::1]", "::1]:53", "[::1]53", "1::2::3", "fe80::1%eth0",
                       "[fe80::1%1]:53", "1:2:3:4:5:6:7", "::10000", "::g")),
        (2, ["find", "archive.db", "10.0.0.1", "--from", "soon"], "soon: a time is"), (2, ["top", "archive.db", "--count", "0"], "from 1 on"),
        (2, ["index", "a.db", "one.pcap", "--program", "no-such-capt"], "no program no-such-capt"), (2, ["merge", "out"], "FILE is missing"),
        (1, ["find", "none.db", "10.0.0.1"], "there is no such catalogue"), (1, ["find", "one.pcap", "10.0.0.1"], "it is no catalogue"),
        (1, ["index", "one.pcap", "two.pcap"], "it is no catalogue"), (1, ["index", "other.db", "one.pcap"], "another database"),
        (1, ["totals", "other.db"], "another database"), (1, ["index", "a.db", "--files0-from", "none"], "none: No such file"),
        (1, ["index", "no folder/a.db", "one.pcap"], "No such file"), (1, ["index", "a.db", "--program", "/bin/false", "one.pcap"], "fault no line"),
        (1, ["index", "a.db", "--program", "/bin/echo", "one.pcap"], "/bin/echo prints no JSON"),
    ]:
        seen = archive.run(*words)
        told = "".join(seen[1:])
        count.check(f"wrong: {words}", seen[0] == status and said in told and "Traceback" not in told, seen)
    seen = archive.run("index", "a.db", "one.pcap")
    count.check("read again after a fault", seen == (0, "indexed files 1 read 1 unchanged 0 not-whole 0\n", ""), seen)
    seen = archive.run("index", "empty.db", "one.pcap")
    count.check("an empty file becomes a catalogue", seen[0] == 0, seen)
    now = {name: open(archive.path(name), "rb").read() for name in kept}
    count.check("wrong: what is there stays", now == kept and not os.path.exists(archive.path("one.pcap.lock")))
    for command in ("index", "find", "top", "duplicates", "verify", "totals", "merge"):
        seen = archive.run(command, "--help")
        count.check(f"help of {command}", seen[0] == 0 and seen[1].startswith(f"usage: python -m capt.archive {command} "), seen)
    program = "import capt\ntry: capt.report(b'')\nexcept OSError as error: print(error)\nlist(capt.open('one.pcap'))"
    done = subprocess.run([sys.executable, "-c", program], env=archive.environment, cwd=archive.folder, capture_output=True, text=True)
    told = done.stdout.startswith("/no/libcapt.so: cannot open") and done.stderr.rstrip().split("\n")[-1].startswith("OSError: /no/libcapt.so")
    count.check("without the library", told and "ignored" not in done.stderr, done)


DASK = """
import sys
from distributed import Client, LocalCluster
if __name__ == "__main__":
    with LocalCluster(n_workers=4, threads_per_worker=1, processes=True, host="127.0.0.1", dashboard_address=None) as cluster:
        print(cluster.scheduler_address, flush=True)
        sys.stdin.read()
"""


def tables(archive, database):
    """All that is in the tables, by the captures' names."""
    files = archive.rows("SELECT path, size, mtime_ns, digest, packets, bytes, first, last, outcome FROM files ORDER BY path", database)
    talks = archive.rows("SELECT path, talks.*, totals.* FROM files JOIN talks ON talks.file = id JOIN totals ON totals.file = id "
                         "ORDER BY path, a, b, a_port", database)
    # apart from the numbers of the captures
    return files, [row[:1] + row[2:15] + row[16:] for row in talks]


def check_engines(count, archive):
    """Any engine that has `map` gives the same tables: here one without processes, threads, and, where it is, dask."""
    files, want = merged(40)
    names = [*FILES, "cut.pcap", *files]
    for name, content in {**files, "cut.pcap": pcap(*ONE)[:-1]}.items():
        archive.put(name, content)
    seen = archive.run("index", "local.db", "--jobs", "3", *names)
    count.check("engines: processes", seen[1].endswith("indexed files 44 read 44 unchanged 0 not-whole 1\n"), seen)
    local = tables(archive, archive.path("local.db"))
    os.environ["CAPT_LIBRARY"] = "/no/libcapt.so"
    sys.path.insert(0, PACKAGE)
    from capt import archive as package

    class Here:
        map = staticmethod(map)

    with ThreadPool(3) as threads:
        for name, engine in ("here", Here()), ("threads", threads):
            with package.writing(archive.path(f"{name}.db")) as catalogue:
                found = list(package.index(catalogue, map(archive.path, names), engine, program=archive.program))
            is_so = len(found) == 44 and tables(archive, archive.path(f"{name}.db")) == local
            count.check(f"engines: {name}", is_so, len(found))
    pythons = [it for it in (sys.executable, "/usr/bin/python3")
               if os.path.exists(it) and subprocess.run([it, "-c", "import distributed"], stderr=subprocess.DEVNULL).returncode == 0]
    if not pythons:
        print("archive.py: the engine of dask is left out, since its package distributed isn't installed")
        return
    cluster = subprocess.Popen([pythons[0], archive.put("cluster.py", DASK.encode())], stdin=subprocess.PIPE, stdout=subprocess.PIPE,
                               stderr=subprocess.DEVNULL, env=archive.environment, text=True)
    address = cluster.stdout.readline().strip()
    for command, wanted in [(["index", "dask.db", *names], 1), (["merge", "all.pcapng", *files], 0)]:
        seen = archive.run(*command, "--dask", address, python=pythons[0])
        count.check(f"engines: dask, {command[0]}", seen[0] == wanted, seen)
    seen = archive.run("verify", "dask.db", "--dask", address, python=pythons[0])
    count.check("engines: dask, verify", seen[1] == "verified files 43 same 43 changed 0\n", seen)
    cluster.communicate()
    count.check("engines: dask, the tables", tables(archive, archive.path("dask.db")) == local)
    with open(archive.path("all.pcapng"), "rb") as file:
        count.check("engines: dask, the merged file", file.read() == want)


def check_page(count, folder, program):
    """Each line of docs/ARCHIVE.md that begins with `$ ` prints what stands below it, over the examples in /captures."""
    place, tools = os.path.join(folder, "captures"), os.path.join(folder, "tools")
    shutil.copytree(os.path.join(TOP, "examples"), place)
    os.mkdir(tools)
    os.symlink(os.path.abspath(program), os.path.join(tools, "capt"))
    environment = {**os.environ, "PYTHONPATH": PACKAGE, "PYTHONDONTWRITEBYTECODE": "1", "CAPT_LIBRARY": "/no/libcapt.so",
                   "PATH": f"{tools}:{os.environ['PATH']}", "SLURM_ARRAY_TASK_ID": "0"}
    with open(os.path.join(TOP, "docs", "ARCHIVE.md")) as page:
        text = page.read()
    blocks = re.findall(r"^```\w*\n(.*?)^```$", text, re.M | re.S)
    shown = [found for it in blocks for found in re.findall(r"^\$ (.*\n(?:  .*\n)*)((?:(?!\$ ).*\n)*)", it, re.M)]
    count.check("page: it shows something", len(shown) > 4)
    for it in re.findall(r"^```python\n(.*?)^```$", text, re.M | re.S):
        # in a file, as a worker that is begun anew reads it
        with open(os.path.join(folder, "page.py"), "w") as out:
            out.write(it.replace("archive.db", os.path.join(folder, "page.db")))
        ran = subprocess.run([sys.executable, out.name], cwd=place, env=environment, stdout=subprocess.PIPE, stderr=subprocess.STDOUT, text=True)
        count.check("page: a program", ran.stdout == "whole\n", ran.stdout)
    lost = []
    for line, wanted in shown:
        # a line is left out whose program isn't installed, and so is one that reads what that line wrote
        if any(not shutil.which(tool) for tool in re.findall(r"\b(parallel|jq) ", line)) or any(name in line for name in lost):
            lost += re.findall(r"> (\S+)$", line.strip())
            continue
        ran = subprocess.run(["bash", "-c", line.replace("/captures/", f"{place}/")], cwd=place, env=environment, stdout=subprocess.PIPE,
                             stderr=subprocess.STDOUT, text=True, timeout=60)
        count.check(f"page: {line.strip()}", ran.stdout.replace(place, "/captures") == wanted, ran.stdout)


CHECKS = (check_engines, check_killed, check_answers, check_merge, check_wrong, check_times, check_ends, check_again,
          check_bad, check_fragments, check_both, check_both_fragments, check_versions,
          check_duplicates)


def main():
    program = os.path.abspath(sys.argv[1] if len(sys.argv) > 1 else PROGRAM)
    count = Count()
    with tempfile.TemporaryDirectory() as folder, ThreadPool(4) as threads:

        def does(check):
            if check is check_page:
                return check_page(count, folder, program)
            archive = Archive(os.path.join(folder, check.__name__), program)
            os.mkdir(archive.folder)
            for name, content in FILES.items():
                archive.put(name, content)
            check(count, archive)

        threads.map(does, [*CHECKS, check_page], chunksize=1)
    count.end()


main()
