#!/usr/bin/env python3
"""Memory and devices that fail, on the built program and on built tests (faults.c makes them fail).

Growths: each request for memory refused in turn (of the command line's one alone; then one, two together, and all from
there on), until a run meets no refusal. The program answers as with memory, or `fault: memory`, where `report` and `info`
have written nothing, and the other commands a prefix, and has given all memory back. Of the tests that call again after
`Fault::Memory`, each has to pass, whichever request is refused.

Devices: each read of each file failing in turn, which is told with the header, record or block that it is of (`list`,
`blocks` and a merge: after all that comes before it; `digest` and `check` print it on the file's line, and go on); a writer that fails, or takes nothing, after any number of bytes, which has just these
(one that a signal interrupts is asked again); a file without end, which rule 14 stops, and a read of it that fails
beyond byte 2^32.

Use: checks/faults.py [growths|devices] [PROGRAM]     (as after `rt run` in crates/capt and `rt test` in the crates
below, or `rt ci`; a minute)"""
import sys

sys.dont_write_bytecode = True

import os, re, struct, subprocess, tempfile
from concurrent.futures import ThreadPoolExecutor

import model
from captures import (PROGRAM, TOP, Bench, Count, block, datagram, extension, ipv6, make_shim, packet, pcap_header,
                      record,
                      run, udp, vector, wanted_of, words_of)
from objects import objects_of

SECTION = vector("CARRY_PCAPNG")[:28]
ALL = 10**9


def interface(code, link=101):
    return block(1, struct.pack("<HHIHHB3xI", link, 0, 0, 9, 1, code, 0))


# RAW fragments and datagrams of one key
FIRST, LAST = datagram(udp((1000, 2000), bytes(8)), 0, True)[:28], datagram(bytes(8), 8)
WHOLE = datagram(udp((1000, 2000)))
OVERLAPS = [(8, True, "a0a1a2a3a4a5a6a7"), (16, False, "c0c1c2"), (24, False, "d0d1d2d3d4d5d6d7"), (0, True, "03e807d000200000")]
RUNS_BACK = [pcap_header(1) + record(5, b"\xa5") + record(1, b"\xa1"), pcap_header(1) + record(2, b"\xb2") + record(5, b"\xb5")]
ROWS = {
    "equal-resolutions": [SECTION + interface(0x8A) + packet(0, 512, WHOLE), SECTION + interface(1) + packet(0, 5, WHOLE)],
    "tagged-frames": [vector("TAGGED_FRAMES")],
    "overlapped-fragments": [vector("FRAGMENT_FRAMES")],
    "thirty-seconds": [pcap_header(101) + record(1, LAST) + record(31, FIRST)],
    "thirty-seconds, whole": [pcap_header(101) + record(1, LAST) + record(2, WHOLE) + record(3, FIRST)],
    "overlap-map": [pcap_header(101) + b"".join(record(n, datagram(bytes.fromhex(data), start, more))
                                                for n, (start, more, data) in enumerate(OVERLAPS))],
    "runs-back": RUNS_BACK,
    "runs-back and options": [RUNS_BACK[0], vector("OPTIONS_PCAPNG")],
    "carry-pcap": [vector("CARRY_PCAP")],
    "carry-pcapng": [vector("CARRY_PCAPNG")],
    "options": [vector("OPTIONS_PCAPNG")],
    "cut": [vector("TAGGED_FRAMES")[:-1]],
    "simple and two sections": [SECTION + interface(6) * 2 + block(3, struct.pack("<I", 0)) + packet(1, 5, b"")
                                + SECTION + block(5, b"") + interface(6) * 2 + packet(1, 4, b"") + packet(0, 6, b"")],
    "five interfaces, one packet": [SECTION + interface(6) * 5 + packet(0, 5, WHOLE) + block(5, b"")],
    "longest": [pcap_header(1) + record(1, bytes(262_144)) + record(2, b"\1")],
    "longest, twice": [pcap_header(1) + record(1, bytes(262_144)) + record(2, b"\1")] * 2,
    "carried": [vector("CARRY_PCAP"), vector("CARRY_PCAPNG")],
    "conversations": [pcap_header(101) + b"".join(record(n, datagram(udp((n, 9)))) for n in range(3_000))],
    "conversations of both networks": [pcap_header(101) + b"".join(record(n, ipv6(udp((n, 9))) if n % 3
        else datagram(udp((n, 9))))
                                                                   for n in range(3_000))],
    "ipv6-frames": [vector("IPV6_FRAMES")],
    "ipv6-frames and fragments": [vector("IPV6_FRAMES"), vector("FRAGMENT_FRAMES")],
    "extension headers": [pcap_header(229) + record(1, ipv6(extension(60) * 8_000 + extension(17) + udp((1, 2)), 60))],
    "groups": [pcap_header(101) + b"".join(record(1, datagram(bytes(8), 8, True, n)) for n in range(1_026))],
    "interfaces": [SECTION + interface(6) * 300 + b"".join(packet(n, n, WHOLE) for n in range(300))],
}
GROWTHS = {
    "report": ["equal-resolutions", "tagged-frames", "overlapped-fragments", "thirty-seconds", "thirty-seconds, whole", "overlap-map", "cut",
               "conversations", "groups", "interfaces", "longest"],
    "report-ipv6": ["ipv6-frames", "ipv6-frames and fragments", "conversations of both networks", "extension headers",
                    "cut"],
    "top": ["tagged-frames", "conversations", "cut"],
    "top-ipv6": ["ipv6-frames", "conversations of both networks", "cut"],
    "info": ["runs-back and options", "cut"],
    "info-skipping": ["runs-back and options", "cut"],
    "report-skipping": ["overlapped-fragments", "cut"],
    "report-skipping-ipv6": ["ipv6-frames", "cut"],
    "digest": ["runs-back and options", "cut"],
    "check": ["runs-back and options", "cut", "interfaces", "longest, twice"],
    "check-digest": ["runs-back and options", "cut", "longest, twice"],
    "merge": ["runs-back", "interfaces"],
    "merge-shared": ["runs-back", "interfaces"],
    "merge-pcap": ["runs-back"],
    "join": ["overlapped-fragments", "interfaces"],
    "join-pcap": ["overlapped-fragments"],
    "pcapng": ["carry-pcap", "interfaces"],
    "pcap": ["carry-pcapng", "longest"],
    "list": ["options", "carry-pcap", "longest"],
    "classed": ["tagged-frames", "longest"],
    "classed-ipv6": ["ipv6-frames", "extension headers", "longest"],
    "diff": ["runs-back", "carried", "longest, twice"],
    "blocks": ["options", "interfaces"],
}
DEVICES = {
    "report": ["tagged-frames", "overlapped-fragments", "runs-back and options"],
    "top": ["overlapped-fragments", "runs-back and options"],
    "report-ipv6": ["ipv6-frames"],
    "top-ipv6": ["ipv6-frames"],
    "info": ["runs-back and options"],
    "info-skipping": ["options", "carry-pcap"],
    "report-skipping": ["overlapped-fragments"],
    "report-skipping-ipv6": ["ipv6-frames"],
    "digest": ["runs-back and options", "cut", "simple and two sections"],
    "check": ["runs-back and options", "tagged-frames", "cut", "simple and two sections", "five interfaces, one packet"],
    "check-digest": ["runs-back and options", "tagged-frames", "cut"],
    "merge": ["runs-back", "runs-back and options"],
    "merge-shared": ["runs-back", "runs-back and options"],
    "merge-pcap": ["runs-back", "runs-back and options"],
    "join": ["overlapped-fragments", "runs-back"],
    "join-pcap": ["overlapped-fragments", "runs-back"],
    "pcapng": ["carry-pcap", "carry-pcapng", "options"],
    "pcap": ["carry-pcap", "carry-pcapng"],
    "list": ["options", "tagged-frames"],
    "classed": ["tagged-frames", "overlapped-fragments"],
    "classed-ipv6": ["ipv6-frames"],
    "diff": ["runs-back", "carried"],
    "blocks": ["options"],
}
# How many packets of two files a merge writes before a read fails, by the file and the place that are told: of a file nothing is read before the first
# packets of both are looked for, or before the packet in front is passed. In the order of clocks the packets are the second file's first, both
# of the first file, and what the second one still has.
MERGED_BEFORE = {
    "runs-back": {(1, 0): 0, (1, 24): 0, (1, 41): 2, (1, 58): 3, (2, 0): 0, (2, 24): 0, (2, 41): 1, (2, 58): 4},
    "runs-back and options": {(1, 0): 0, (1, 24): 0, (1, 41): 2, (1, 58): 3, (2, 0): 0, (2, 44): 0, (2, 96): 0, (2, 144): 1, (2, 168): 1},
}
# Tests that meet a refused growth, by crate, and how many together at most: they call again, or look at what a call left.
TESTS = [
    ("cap_layer_tests", "^(bytes|join|source)::.*(a_window|a_standard_reader|a_refused_growth)", 1),
    ("cap_tests", "^steps::a_refused_growth", 2),
    ("cap_tests", "^commands::.*a_refused_growth", 1),
]
MEMORY, WRITE = b"fault: memory\n", b"fault: write\n"


def told_as(task, seen, wanted, fault):
    """Whether a run that met a fault told it, has given all memory back, and has written nothing, or a prefix of what was
    wanted: of `check` whole lines."""
    status, text, error, _, _, blocks = seen
    is_front = text == b"" if task in ("diff", "report", "report-ipv6", "info") else wanted[1].startswith(text)
    return (status, error, blocks) == (1, fault, 0) and is_front and (task not in model.SURVEYS or text[-1:] in (b"", b"\n"))


def growths_before_files(bench, shim, out, task):
    """Refuses each growth of a run whose file is missing: those of the command line. The first number that meets none, and
    what was wrong."""
    words = words_of(task, [os.path.join(bench.folder, "missing")] * (2 if task == "diff" else 1), out=out)
    ended = (1, model.unopened(1, task).encode(), b"") if task in model.SURVEYS else (1, b"", b"fault: open file 1\n")
    for n in range(1, 10_000):
        seen = run(words, bench.program, (shim, {"GROWTHS": f"{n}-{n + 1}"}))
        if seen[3] == 0:
            return n, None if seen[:3] == ended else f"no growth refused: {seen}"
        if seen[:3] not in ((1, b"", MEMORY), ended):
            return n, f"growth {n}: {seen}"
    return n, "there is no end of growths"


def growths_of(bench, shim, out, task, row, width, first):
    """Refuses so many growths together, from each on, until a run meets none. The number of runs, and what was wrong."""
    wanted = wanted_of(task, ROWS[row])
    for n in range(first, 10_000):
        seen = bench.run(task, ROWS[row], out=out, faults=(shim, {"GROWTHS": f"{n}-{n + width}"}))
        if seen[3] == 0:
            return n - first, None if seen[:3] == wanted and seen[5] == 0 else f"no growth refused: {seen}"
        if (seen[:3] != wanted or seen[5] != 0) and not told_as(task, seen, wanted, MEMORY):
            return n, f"growth {n}: {seen}"
    return n, "there is no end of growths"


def growths_of_names(bench, shim, flag):
    """Refuses each growth of a `check` of two missing files that prints their names, escaped. The number of runs, and what was
    wrong. Until its words are read, a fault is told in text."""
    names = [os.path.join(bench.folder, name) for name in ("none\x1b", "none\u2028\"")]
    lines = [model.unopened(n) for n in (1, 2)]
    if flag == "--names":
        wanted, faults = "".join(model.named(line, name) for line, name in zip(lines, names)), [MEMORY]
    else:
        wanted = "".join(f'{objects_of(line)[:-2]},"path":{model.path_of(name)}}}\n' for line, name in zip(lines, names))
        faults = [MEMORY, b'{"type":"fault","fault":"memory"}\n']
    ended = (1, wanted.encode(), b"")
    for n in range(1, 10_000):
        seen = run(["check", flag, *names], bench.program, (shim, {"GROWTHS": f"{n}-{n + 1}"}))
        if seen[3] == 0:
            return n, None if seen[:3] == ended and seen[5] == 0 else f"no growth refused: {seen}"
        if (seen[:3] != ended or seen[5] != 0) and not any(told_as("check", seen, ended, fault) for fault in faults):
            return n, f"growth {n}: {seen}"
    return n, "there is no end of growths"


def tests_of(crate, names):
    """A crate's built tests, and those of them whose names match."""
    tests = os.path.join(TOP, "crates", crate, "out", f"{crate}_tests")
    if not os.path.exists(tests):
        subprocess.run(["rt", "test"], cwd=os.path.join(TOP, "crates", crate), check=True, stdout=subprocess.DEVNULL)
    listed = subprocess.run([tests, "--list"], stdout=subprocess.PIPE, text=True, check=True).stdout
    return tests, [name for name in re.findall(r"^([\w:]+): test$", listed, re.MULTILINE) if re.search(names, name)]


def growths_of_test(shim, tests, name, width):
    """Refuses so many growths together of a test, from each on. The number of runs, and what was wrong."""
    for n in range(1, 10_000):
        status, text, error, told, _, blocks = run([name], tests, (shim, {"GROWTHS": f"{n}-{n + width}"}))
        if (status, blocks) != (0, 0) or b"test result: ok" not in text:
            return n, f"growth {n}: {status} {text} {error}, {blocks} blocks of memory"
        if told == 0:
            return n, None
    return n, "there is no end of growths"


def growths(count, bench, shim, pool):
    jobs, runs = [], 0
    lines = {task: pool.submit(growths_before_files, bench, shim, os.path.join(bench.folder, task), task) for task in GROWTHS}
    for task, rows in GROWTHS.items():
        first, wrong = lines[task].result()
        runs += first
        if task == "check":
            first = 1       # it goes on behind a missing file, so these weren't those of the command line alone
        count.check(f"the command line of {task}", wrong is None, wrong)
        for row in rows:
            for width in (1, 2, ALL) if row != "groups" else (1,):      # which makes more than 1,024
                out = os.path.join(bench.folder, f"{task}-{row}-{width}")
                jobs.append((f"{task} of {row}, {'all' if width == ALL else width} refused",
                             pool.submit(growths_of, bench, shim, out, task, row, width, first)))
    for flag in ("--names", "--json"):
        jobs.append((f"check {flag}, 1 refused", pool.submit(growths_of_names, bench, shim, flag)))
    for crate, names, width in TESTS:
        tests, found = tests_of(crate, names)
        count.check(f"tests of {crate}, {names}", found)
        if names.startswith("steps"):
            seen = run(["steps::a_table_is_dropped_after_any_number_of_steps"], tests, (shim, {}))
            count.check("tables stopped early give all memory back", (seen[0], seen[5]) == (0, 0), seen)
        jobs += [(f"{crate}: {name}, {n} refused", pool.submit(growths_of_test, shim, tests, name, n)) for name in found for n in range(1, width + 1)]
    for name, job in jobs:
        done, wrong = job.result()
        runs += done
        count.check(name, wrong is None, wrong)
    print(f"{runs} runs with refused growths")


def places_of(content):
    """Where a file's header, records or blocks begin, and its end, or where it is refused."""
    file = model.File(1, content, False, content[:1] == b"\x0a")
    starts = [block.offset for block in file.blocks] or [0, *[packet.offset for packet in file.packets]]
    return [*starts, file.refusal.offset if file.refusal else len(content)]


def reads_of(count, bench, shim, out, task, row):
    """Each read of each file failing in turn, where a read gives one byte."""
    contents = ROWS[row]
    wanted = wanted_of(task, contents)
    for number, content in enumerate(contents, 1):
        places = places_of(content)
        for call in range(1, len(content) + 2):
            seen = bench.run(task, contents, out=out, faults=(shim, {"READ": f"{number + 2}-{call}", "PIECE": 1}))
            offset = max(place for place in places if place <= call - 1)
            is_so = told_as(task, seen, wanted, f"fault: read file {number} offset {offset}\n".encode()) and seen[3] == 1
            if task == "diff" and seen[3] == 0:        # it ended before that read
                is_so = seen[:3] == wanted and seen[5] == 0
            if task in ("list", "classed", "classed-ipv6", "blocks"):
                is_so = is_so and seen[1] == wanted_of(task, [content[:offset]])[1]
            if task in ("merge", "merge-shared", "merge-pcap"):
                is_so = is_so and len(model.File(1, seen[1], True).packets) == MERGED_BEFORE[row][number, offset]
            count.check(f"{task} of {row}, read {call} of file {number}", is_so, seen)


def checked_reads_of(count, bench, shim, out, task, row):
    """The same of `digest` and `check`, which print it on the file's line and go on. It opens one file after another, and each of
    them is the open file 3."""
    contents, call = ROWS[row], 0
    lines = wanted_of(task, contents)[1].splitlines(True)
    for number, content in enumerate(contents, 1):
        places = places_of(content)
        for read in range(len(content) + 1):
            call += 1
            seen = bench.run(task, contents, faults=(shim, {"READ": f"3-{call}", "PIECE": 1}))
            told = model.unread(number, content, max(place for place in places if place <= read), task)
            wanted = b"".join([*lines[:number - 1], told.encode(), *lines[number:]])
            is_so = seen[:4] == (1, wanted, b"", 1) and seen[5] == 0
            count.check(f"{task} of {row}, read {read + 1} of file {number}", is_so, wanted, seen)


def skipped_reads_of(count, bench, shim, out, task, row):
    """The same of `info` and `report` with --skip-refused, which read a file twice, over one file that isn't refused. Both times it is the
    open file 3."""
    [content] = ROWS[row]
    places, reads = places_of(content), len(content) + 1
    for call in range(1, 2 * reads + 1):
        seen = bench.run(task, [content], faults=(shim, {"READ": f"3-{call}", "PIECE": 1}))
        offset = max(place for place in places if place <= (call - 1) % reads)
        is_so = seen[:4] == (1, b"", f"fault: read file 1 offset {offset}\n".encode(), 1) and seen[5] == 0
        count.check(f"{task} of {row}, read {call}", is_so, seen)


def writes_of(count, bench, shim, out, task, row):
    """A writer that takes nothing, or fails, after each number of bytes; one that a signal interrupts is asked again."""
    wanted = wanted_of(task, ROWS[row])
    for length in range(len(wanted[1])):
        for how in range(3):
            seen = bench.run(task, ROWS[row], out=out, faults=(shim, {"WRITE": f"{length}-{how}", "PIECE": (1, 7, 4_096)[length % 3]}))
            ends = wanted if how == 2 else (1, wanted[1][:length], WRITE)
            count.check(f"{task} of {row}, {length} bytes taken", seen[:3] == ends and seen[5] == 0, seen)


def endless(count, bench, shim, out):
    """A section, and then blocks of 2^32 - 4 bytes without end: 256 of them end by byte 2^40, and the next begins there."""
    offset = 28 + 256 * (2**32 - 4)
    seen = bench.run("check", [SECTION], faults=(shim, {"ENDLESS": 1}))
    told = f"refused offset {offset} rule 14 file-limit"
    is_so = seen[:3] == (1, model.check_line(1, told, format="pcapng", skipped=256).encode(), b"") and seen[4] < 16_384
    count.check("check of a file without end", is_so, seen)
    seen = bench.run("digest", [SECTION], faults=(shim, {"ENDLESS": 1}))
    is_so = seen[:3] == (1, f"digest 1 {told}\n".encode(), b"") and seen[4] < 16_384
    count.check("digest of a file without end", is_so, seen)
    for task in ("list", "blocks", "info", "report", "pcap", "pcapng", "merge", "join", "merge-shared", "merge-pcap", "join-pcap"):
        seen = bench.run(task, [SECTION], task == "list", out=out, faults=(shim, {"ENDLESS": 1}))
        is_so = (seen[0], seen[2]) == (1, f"refused: file 1 offset {offset} rule 14 file-limit\n".encode())
        count.check(f"{task} of a file without end", is_so and seen[4] < 16_384 and (task != "blocks" or seen[1].count(b"\n") == 257), seen)
    name = bench.name(SECTION)
    seen = run(["info", "--explain", name], bench.program, (shim, {"ENDLESS": 1}))
    told = f"refused: file 1 offset {offset} rule 14 file-limit\n  {name}: a record or block ends past byte 2^40\n"
    count.check("info of a file without end, explained", (seen[0], seen[2]) == (1, told.encode()), seen)


def standard(count, bench, shim, out):
    """Each read of standard input failing in turn, where a read gives one byte."""
    content = vector("CARRY_PCAP")
    places = places_of(content)
    for call in range(1, len(content) + 2):
        with open(bench.name(content), "rb") as file:
            seen = run(["list", "-"], bench.program, (shim, {"READ": f"0-{call}", "PIECE": 1}), stdin=file)
        offset = max(place for place in places if place <= call - 1)
        told = f"fault: read file 1 offset {offset}\n"
        count.check(f"list of standard input, read {call}", (seen[0], seen[2], seen[3]) == (1, told.encode(), 1), seen)
        with open(bench.name(content), "rb") as file:
            seen = run(["check", "-"], bench.program, (shim, {"READ": f"0-{call}", "PIECE": 1}), stdin=file)
        is_so = seen[:4] == (1, model.unread(1, content, offset).encode(), b"", 1)
        count.check(f"check of standard input, read {call}", is_so, seen)


def far(count, bench, shim, out):
    """A read that fails beyond byte 2^32 of such a file, in the second of its blocks, is told with all of that block's offset."""
    offset = 28 + (2**32 - 4)
    seen = bench.run("check", [SECTION], faults=(shim, {"ENDLESS": 1, "READ": "3-99999"}))
    is_so = seen[:4] == (1, model.check_line(1, f"read offset {offset}", format="pcapng", skipped=1).encode(), b"", 1)
    count.check("check, a read that fails beyond byte 2^32", is_so, seen)
    seen = bench.run("digest", [SECTION], faults=(shim, {"ENDLESS": 1, "READ": "3-99999"}))
    is_so = seen[:4] == (1, f"digest 1 read offset {offset}\n".encode(), b"", 1)
    count.check("digest, a read that fails beyond byte 2^32", is_so, seen)
    for task in ("list", "blocks", "info", "report", "pcap", "pcapng", "merge", "join", "merge-shared", "merge-pcap", "join-pcap"):
        seen = bench.run(task, [SECTION], out=out, faults=(shim, {"ENDLESS": 1, "READ": "3-99999"}))
        is_so = (seen[0], seen[2], seen[3]) == (1, f"fault: read file 1 offset {offset}\n".encode(), 1)
        count.check(f"{task}, a read that fails beyond byte 2^32", is_so, seen)


def devices(count, bench, shim, pool):
    jobs = []
    for task, rows in DEVICES.items():
        for row in rows:
            for check in (checked_reads_of if task in model.SURVEYS else skipped_reads_of if task in model.SKIPPING
                          else reads_of, writes_of):
                jobs.append(pool.submit(check, count, bench, shim, os.path.join(bench.folder, f"{check.__name__}-{task}-{row}"), task, row))
    for check in (endless, far, standard):
        jobs.append(pool.submit(check, count, bench, shim, os.path.join(bench.folder, check.__name__)))
    for job in jobs:
        job.result()


def main():
    words = sys.argv[1:]
    kinds = [word for word in words if word in ("growths", "devices")]
    count = Count()
    with tempfile.TemporaryDirectory() as folder, ThreadPoolExecutor(4) as pool:
        bench = Bench(folder, next((word for word in words if word not in kinds), PROGRAM))
        shim = make_shim(folder)
        for name, check in (("growths", growths), ("devices", devices)):
            if not kinds or name in kinds:
                check(count, bench, shim, pool)
    count.end()


main()
