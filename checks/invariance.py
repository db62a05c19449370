#!/usr/bin/env python3
"""What the report says stays when captures are rewritten: the reports over worked captures are held to the reports over what
`merge`, `convert --to pcapng` and `convert --to pcap` of the built program made of them. `diff` says of a capture and of what
`convert` made of it that both have the same packets.

All lines but those of the files are the same, byte for byte; after `convert --to pcap` times are compared as fractions, since
they may have another form. The line of `digest` is the same after both conversions. A capture that isn't written whole is refused by the
rule that is said here.

After a conversion `check` counts as many packets, and as many that run back, have no time or were captured in part;
after a merge the sums of these.

The report over captures without fragments is the sum of the reports over each: totals, classes, and the rows of
conversations with their least and greatest times. It counts as many packets of each class as `list --class` names in
each capture.

All of this is so of `report --ipv6` and `list --class --ipv6`, too.

Use: checks/invariance.py [PROGRAM]     (as after `rt run` or `rt ci` in crates/capt)"""
import sys

sys.dont_write_bytecode = True

import json, os, re, struct, tempfile
from collections import Counter
from fractions import Fraction

from captures import (ENDS_6, PROGRAM, SECTION, Count, block, datagram, extension, fragment_header, ipv6, packet,
                      pcap_header, record, run, udp,
                      vector)

RAW = 101


def binary(code, units, data):
    """A pcapng file of one RAW packet, whose clock counts as the code says."""
    options = struct.pack("<HHBxxxHH", 9, 1, code, 0, 0)
    interface = block(1, struct.pack("<HHI", RAW, 0, 0) + options)
    return bytes.fromhex(SECTION.replace(" ", "")) + interface + packet(0, units, data)


def raw(packets):
    """A pcap file of RAW packets, each a second and its bytes."""
    return pcap_header(RAW) + b"".join(record(second, data) for second, data in packets)


TALK = datagram(udp((1000, 2000)))
ANSWER = datagram(udp((2000, 1000)), ends=(0x0A000002, 0x0A000001))
OPENS = [(1, datagram(udp((1000, 2000), bytes(8))[:8], more=True, identification=n)) for n in range(1025)]
LAST = [(1, datagram(bytes(8), start=8, identification=n)) for n in (0, 1)]

TALK_6 = ipv6(udp((1000, 2000)))
ANSWER_6 = ipv6(extension(17) + udp((2000, 1000)), 60, ENDS_6[::-1])
FRAGMENT_6 = ipv6(fragment_header(17, 0, True, 1) + udp((1000, 2000), bytes(8))[:8], 44)

# captures, and the rule by which `convert --to pcap` of each is refused
CASES = {
    "equal-resolutions": ([binary(138, 512, TALK), binary(1, 5, TALK)], [None, None]),
    "equal-resolutions, exchanged": ([binary(1, 5, TALK), binary(138, 512, TALK)], [None, None]),
    "a time that isn't whole": ([binary(138, 1, TALK)], [19]),
    "runs-back": ([raw([(5, TALK), (1, ANSWER)]), raw([(2, ANSWER), (5, TALK)])], [None, None]),
    "runs-back, fragments": ([raw([(5, OPENS[0][1]), (1, OPENS[1][1])]), raw([(2, LAST[0][1]), (40, LAST[1][1])])], [None, None]),
    "overlapped-fragments": ([vector("FRAGMENT_FRAMES")], [None]),
    "tagged-frames": ([vector("TAGGED_FRAMES")], [None]),
    "tagged and fragments": ([vector("TAGGED_FRAMES"), vector("FRAGMENT_FRAMES")], [None, None]),
    "thirty-seconds": ([raw([(1, LAST[0][1]), (31, OPENS[0][1])])], [None]),
    "given up": ([raw(OPENS)], [None]),
    "given up, and its rest": ([raw(OPENS + LAST[:1])], [None]),
    "given up, and another's rest": ([raw(OPENS + LAST[1:])], [None]),
    "given up over two": ([raw(OPENS[:600]), raw(OPENS[600:])], [None, None]),
    "three files": ([raw([(5, TALK), (1, ANSWER)]), raw([(2, datagram(udp((7, 2000)))), (9, b"\x45")]), binary(138, 512, ANSWER)], [None] * 3),
    "a worked pcapng file": ([vector("OPTIONS_PCAPNG"), vector("CARRY_PCAP")], [None, None]),
    "IPv6": ([raw([(5, TALK_6), (1, ANSWER_6)]), raw([(2, TALK), (4, TALK_6), (9, b"\x60"), (9, FRAGMENT_6)])],
             [None, None]),
    "IPv6, and fragments of IPv4": ([raw([(1, OPENS[0][1]), (2, TALK_6)]),
                                     raw([(1, FRAGMENT_6), (3, LAST[0][1]), (3, ANSWER_6)])], [None, None]),
    "IPv6 in units": ([binary(138, 512, TALK_6), binary(1, 5, ANSWER_6), binary(138, 512, FRAGMENT_6)], [None] * 3),
    "a worked file of IPv6": ([vector("IPV6_FRAMES"), vector("TAGGED_FRAMES")], [None, None]),
}

# those that have no fragments of IPv4: of IPv6 none is joined
WHOLE = ("equal-resolutions", "equal-resolutions, exchanged", "a time that isn't whole", "runs-back",
         "a worked pcapng file", "three files",
         "IPv6", "IPv6 in units", "a worked file of IPv6")
# the words of a report
REPORTS = (["report"], ["report", "--ipv6"])


def body(text):
    """The lines of a report but for those of its files."""
    return [line for line in text.splitlines() if not line.startswith(("files ", "file "))]


def counts(line):
    """How many packets and bytes a line of `check` has, of a whole file, and how many packets run back, have no time or are in part."""
    found = re.fullmatch(r"check \d+ \w+ packets (\d+) bytes (\d+) first \S+ last \S+ backward (\d+) untimed (\d+) truncated (\d+) .* whole\n", line)
    return found and [int(number) for number in found.groups()]


def times_of(talks, name):
    """The first or the last times of some rows, as fractions."""
    return [talk[name][0] + Fraction(*talk[name][1:]) for talk in talks if talk[name]]


def counted_in(reports):
    """What reports in JSON count together: of each line that isn't of files, its counts; of each conversation its counts, and its least and
    greatest time."""
    counted, talks = Counter(), {}
    for line in map(json.loads, "".join(reports).splitlines()):
        if line["type"] == "talk":
            talks.setdefault((line["protocol"], str(line["a"]), str(line["b"])), []).append(line)
        elif line["type"] in ("total", "frames", "joined"):
            counted.update({(line["type"], key): n for key, n in line.items() if key != "type"})
    rows = {}
    for key, found in talks.items():
        ways = [sum(talk[way][what] for talk in found) for way in ("forward", "backward") for what in ("packets", "bytes")]
        rows[key] = (*ways, min(times_of(found, "first"), default=None), max(times_of(found, "last"), default=None))
    return counted, rows


def shared(line):
    """What a line of `info` and one of `check` both have, by their names."""
    words = line.split()
    return words[2:3] + [f"{name} {words[words.index(name) + 1]}" for name in ("packets", "bytes", "truncated", "skipped", "first", "last")]


def as_fractions(lines):
    """The same, their times as fractions."""
    time = r"(-?\d+)\+(\d+)/(\d+)"
    return [re.sub(time, lambda t: str(int(t[1]) + Fraction(int(t[2]), int(t[3]))), line) for line in lines]


def main():
    program = sys.argv[1] if len(sys.argv) > 1 else PROGRAM
    count = Count()
    with tempfile.TemporaryDirectory() as folder:
        out = os.path.join(folder, "out")

        def done(words):
            status, text, error = run(words, program)
            return status, text.decode(), error.decode()

        def bodies(file):
            return [body(done([*words, file])[1]) for words in REPORTS]

        for name, (contents, rules) in CASES.items():
            files = []
            for place, content in enumerate(contents):
                files.append(os.path.join(folder, str(place)))
                with open(files[-1], "wb") as file:
                    file.write(content)
            seen = [done([*words, *files]) for words in REPORTS]
            count.check(f"{name}: report", all((status, error) == (0, "") for status, _, error in seen), seen)
            told = [body(text) for _, text, _ in seen]
            status, lines, error = done(["check", *files])
            checked = [counts(line) for line in lines.splitlines(True)]
            count.check(f"{name}: check", (status, error, len(checked)) == (0, "", len(files)) and all(checked), lines)
            told_of = [done(["info", file])[1].splitlines()[-1] for file in files]
            is_so = [shared(line) for line in lines.splitlines()] == [shared(line) for line in told_of]
            count.check(f"{name}: check, as info", is_so, lines, told_of)
            sums = [sum(numbers) for numbers in zip(*checked)]
            for words, lines in zip(REPORTS, told) if name in WHOLE else ():
                alone = [done([*words, "--json", file])[1] for file in files]
                together = done([*words, "--json", *files])[1]
                count.check(f"{name}: the sum of the reports", counted_in([together]) == counted_in(alone), together, alone)
                classed = [done(["list", "--class", *words[1:], file])[1] for file in files]
                # a fragment isn't joined here, so it is unjoined
                named = Counter(line.split(" class ")[1].split()[0].replace("fragment", "unjoined")
                                for text in classed for line in text.splitlines())
                told_of_frames = next(line for line in lines if line.startswith("frames ")).split()[1:]
                wanted = {told_of_frames[at]: int(told_of_frames[at + 1]) for at in range(0, len(told_of_frames), 2)}
                count.check(f"{name}: the classes", {key: n for key, n in wanted.items() if n} == named, wanted, named)
            for order in ("little", "big"):
                count.check(f"{name}: merge", done(["merge", "--order", order, "-o", out, *files]) == (0, "", ""))
                count.check(f"{name}: merged, {order}", bodies(out) == told, told)
                count.check(f"{name}: merged, {order}, checked", counts(done(["check", out])[1]) == sums, sums)
            for file, rule, numbers in zip(files, rules, checked):
                alone, digest = bodies(file), done(["digest", file])
                count.check(f"{name}: digest", digest[0] == 0 and digest[1].startswith("digest 1 sha256 "), digest)
                count.check(f"{name}: digest in check", f" sha256 {digest[1].split()[3]} whole\n" in done(["check", "--digest", file])[1], digest)
                count.check(f"{name}: pcapng", done(["convert", "--to", "pcapng", "-o", out, file]) == (0, "", ""))
                count.check(f"{name}: report of pcapng", bodies(out) == alone, alone)
                same = (0, f"same packets {re.search('packets ([0-9]+)', alone[0][0])[1]}\n", "")
                count.check(f"{name}: diff of pcapng", done(["diff", file, out]) == same == done(["diff", out, file]), same)
                count.check(f"{name}: digest of pcapng", done(["digest", out]) == digest, digest)
                count.check(f"{name}: check of pcapng", counts(done(["check", out])[1]) == numbers, numbers)
                status, _, error = done(["convert", "--to", "pcap", "-o", out, file])
                if rule:
                    count.check(f"{name}: pcap", status == 1 and f" rule {rule} " in error, status, error)
                else:
                    count.check(f"{name}: pcap", (status, error) == (0, ""), status, error)
                    count.check(f"{name}: diff of pcap", done(["diff", file, out]) == same == done(["diff", out, file]), same)
                    count.check(f"{name}: digest of pcap", done(["digest", out]) == digest, digest)
                    count.check(f"{name}: check of pcap", counts(done(["check", out])[1]) == numbers, numbers)
                    again = bodies(out)
                    is_so = list(map(as_fractions, again)) == list(map(as_fractions, alone))
                    count.check(f"{name}: report of pcap", is_so, again, alone)
    count.end()


main()
