#!/usr/bin/env python3
"""Each limit of README.md at its edge, on the built program: the last number that is accepted, and the first that is
refused, with its rule, status and offset; and what memory is taken there.

Use: checks/limits.py [PROGRAM]     (as after `rt run` or `rt ci` in crates/capt; some half a minute, 200 MB of files)"""
import sys

sys.dont_write_bytecode = True

import os, struct, tempfile

from captures import PROGRAM, Bench, Count, block, datagram, ipv6, make_shim, packet, pcap_header, record, run, udp, vector

SECTION = vector("CARRY_PCAPNG")[:28]
INTERFACE = block(1, struct.pack("<HHI", 1, 0, 0))
RAW = block(1, struct.pack("<HHI", 101, 0, 0))
MOST_TALKS = 1_048_576


def read(name):
    if not os.path.exists(name):
        return b""
    with open(name, "rb") as file:
        return file.read()


class Edges:
    def __init__(self, folder, program):
        self.folder, self.program, self.count, self.shim = folder, program, Count(), make_shim(folder)

    def file(self, name, *parts):
        name = os.path.join(self.folder, name)
        with open(name, "wb") as out:
            for part in parts:
                out.write(part)
        return name

    def accepts(self, name, words, *texts):
        """A run has status 0, says nothing on standard error, and its standard output has these texts."""
        status, out, error = run(words, self.program)
        self.count.check(name, (status, error) == (0, b"") and all(text.encode() in out for text in texts), status, out[:300], error)

    def refuses(self, name, words, told, status=1, out=b""):
        """A run has this status, standard output and line on standard error."""
        seen = run(words, self.program)
        self.count.check(name, seen == (status, out, (told + "\n").encode()), seen[0], seen[1][:300], seen[2])

    def takes(self, name, words, most):
        """A run has status 0, takes so many MiB of resident memory at most, and gives all back; what it writes."""
        status, out, error, _, memory, blocks = run(words, self.program, (self.shim, {}))
        self.count.check(f"{name}, memory", (status, error, blocks) == (0, b"", 0) and memory <= most * 1024, status, error, memory, blocks)
        print(f"{name}: {memory / 1024:.1f} MiB resident")
        return out

    def checks(self, name, file, told):
        """`check` and `digest` print how a file is refused on its line, and nothing else."""
        end = told.replace("refused: file 1 ", " refused ") + "\n"
        for word in ("check", "digest"):
            status, out, error = run([word, file], self.program)
            is_so = out.startswith(f"{word} 1 ".encode()) and out.endswith(end.encode()) and out.count(b"\n") == 1
            self.count.check(f"{word} of {name}", (status, error) == (1, b"") and is_so, status, out, error)

    def everywhere(self, name, file, told, text=None):
        """Every command refuses a file; `list` prints a text before, and `check` and `digest` go on."""
        out = os.path.join(self.folder, "out")
        self.refuses(f"list of {name}", ["list", file], told, out=text or b"")
        self.refuses(f"diff of {name}", ["diff", file, file], told)
        self.checks(name, file, told)
        for words in (["info"], ["report"], ["merge", "-o", out], ["join", "-o", out], ["convert", "--to", "pcap", "-o", out],
                      ["convert", "--to", "pcapng", "-o", out]):
            self.refuses(f"{words[0]} of {name}", [*words, file], told)


def captured(edges):
    """Captured bytes of a packet: 262,144."""
    for most, is_accepted in ((262_144, True), (262_145, False)):
        data = bytes(most)
        padded = data + bytes(-most % 4)
        files = {
            "pcap": edges.file("long.pcap", pcap_header(1), record(1, data)),
            "enhanced": edges.file("long6", SECTION, INTERFACE, packet(0, 1, data)),
            "obsolete": edges.file("long2", SECTION, INTERFACE, block(2, struct.pack("<HHIIII", 0, 0, 0, 1, most, most) + padded)),
            "simple": edges.file("long3", SECTION, INTERFACE, block(3, struct.pack("<I", most) + padded)),
        }
        for kind, file in files.items():
            at = 24 if kind == "pcap" else 48
            if is_accepted:
                edges.accepts(f"{kind} packet of {most}", ["list", file], f"offset {at} ", f" captured {most} original {most} ")
                edges.accepts(f"{kind} packet of {most}, reported", ["report", file], f"packets 1 bytes {most} ")
            else:
                edges.everywhere(f"{kind} packet of {most}", file, f"refused: file 1 offset {at} rule 4 packet-long")
    file = edges.file("head.pcap", pcap_header(1), struct.pack("<IIII", 1, 0, 262_145, 0))
    edges.everywhere("a head of 262,145", file, "refused: file 1 offset 24 rule 4 packet-long")
    # a simple packet is cut to the interface's snaplen
    snaplen = block(1, struct.pack("<HHI", 1, 0, 262_144))
    file = edges.file("cut3", SECTION, snaplen, block(3, struct.pack("<I", 2**32 - 1) + bytes(262_144)))
    edges.accepts("a simple packet at its snaplen", ["list", file], " captured 262144 original 4294967295 ")


def copied(edges):
    """Captured bytes of a packet whose record or block is put together before it is written: 112 and 125."""
    bench = Bench(edges.folder, edges.program)
    for size in range(100, 140):
        content = pcap_header(1) + record(1, bytes(range(size)), size + 1) + record(2, b"\1")
        for task in ("pcap", "pcapng"):
            for order in "<>":
                differs = bench.differs(task, [content], order=order, out=os.path.join(edges.folder, "out"))
                edges.count.check(f"{task} of a packet of {size}, order {order}", not differs, differs)


def blocks(edges):
    """Bytes of a block of a known kind: 524,288."""
    option = lambda length: struct.pack("<HH", 1, 0) * (length // 4)
    for total in (524_288, 524_292):
        section = block(0x0A0D0D0A, struct.pack("<IHHq", 0x1A2B3C4D, 1, 0, -1) + option(total - 28))
        files = {
            0: edges.file("section", section, INTERFACE, packet(0, 1, b"\1")),
            28: edges.file("interface", SECTION, block(1, struct.pack("<HHI", 1, 0, 0) + option(total - 20)), packet(0, 1, b"\1")),
            48: edges.file("packet", SECTION, INTERFACE, packet(0, 1, b"\1", option(total - 36))),
        }
        for at, file in files.items():
            if total == 524_288:
                edges.accepts(f"a block of {total} at {at}", ["list", file], "packet 1 ", " captured 1 original 1 ")
            else:
                edges.everywhere(f"a block of {total} at {at}", file, f"refused: file 1 offset {at} rule 5 block-length")
    file = edges.file("unknown", SECTION, INTERFACE, block(5, bytes(2**26)), packet(0, 1, b"\1"))
    edges.accepts("a block of another kind, of 64 MiB", ["list", file], f"packet 1 offset {48 + 2**26 + 12} ")


def interfaces(edges):
    """Interfaces of a section that is read, and of a file that is written: 1,024."""
    out, again = os.path.join(edges.folder, "out"), os.path.join(edges.folder, "again")
    packets = lambda count: [packet(n, n, b"") for n in range(count)]
    file = edges.file("1024", SECTION, INTERFACE * 1_024, *packets(1_024))
    edges.accepts("1,024 interfaces", ["list", file], "packet 1024 ")
    for words in (["merge"], ["convert", "--to", "pcapng"], ["convert", "--to", "pcap"]):
        edges.accepts(f"1,024 interfaces, {words[0]}", [*words, "-o", out, file])
        edges.accepts(f"1,024 interfaces, {words[0]}, read again", ["list", out], "packet 1024 ")
    edges.accepts("1,024 interfaces, check", ["check", file], " packets 1024 ", " interfaces 1024 whole\n")
    file = edges.file("3072", *[SECTION, INTERFACE * 1_024] * 3)
    edges.accepts("3,072 interfaces of three sections, check", ["check", file], " interfaces 3072 whole\n")
    file = edges.file("1025", SECTION, INTERFACE * 1_025)
    edges.everywhere("1,025 interfaces", file, "refused: file 1 offset 20508 rule 13 interface-limit")
    # written: 512 of one section, or file, and 512 or 513 of another
    halves = [SECTION, INTERFACE * 512, *packets(512)]
    more = [SECTION, INTERFACE * 513, *packets(513)]
    at = 28 + 20 * 513 + 32 * 512
    first = edges.file("512", *halves)
    for name, files, told in (
            ("two sections", [edges.file("sections", *halves, *more)], f"refused: file 1 offset {28 + 52 * 512 + at} rule 13 interface-limit"),
            ("two files", [first, edges.file("513", *more)], f"refused: file 2 offset {at} rule 13 interface-limit")):
        ways = (["merge"], ["convert", "--to", "pcapng"]) if len(files) == 1 else (["merge"],)
        for words in ways:
            edges.refuses(f"1,025 interfaces of {name}, {words[0]}", [*words, "-o", out, *files], told)
            edges.accepts(f"1,025 interfaces of {name}, {words[0]}, read again", ["list", out], "packet 1024 ")
            status, text, _ = run(["list", out], edges.program)
            edges.count.check("no more than 1,024 packets are written", text.count(b"\n") == 1_024, status)
    edges.accepts("512 and 512 of two files", ["merge", "-o", again, first, first])
    edges.accepts("512 and 512 of two files, read again", ["list", again], "packet 1024 ")
    # shared: equal ones are one, and 1,024 that differ are written
    share = ["merge", "--share-interfaces", "-o", again]
    edges.accepts("1,025 interfaces of two files, shared", [*share, first, files[1]])
    edges.accepts("1,025 interfaces of two files, shared, checked", ["check", again], " packets 1025 ", " interfaces 1 whole\n")
    differing = [block(1, struct.pack("<HHI", 1, 0, n)) for n in range(1_025)]
    most = edges.file("differing", SECTION, *differing[:1_024], *packets(1_024))
    last = edges.file("last", SECTION, differing[1_024], packet(0, 1_024, b""))
    edges.accepts("1,024 interfaces that differ, shared", [*share, most, most])
    edges.accepts("1,024 interfaces that differ, shared, checked", ["check", again], " packets 2048 ", " interfaces 1024 whole\n")
    edges.refuses("1,025 interfaces that differ, shared", [*share, most, last], "refused: file 2 offset 48 rule 13 interface-limit")
    # joined: a datagram on each interface
    whole = datagram(udp((1, 2)))
    file = edges.file("join", *[SECTION, RAW * 1_024, *[packet(n, n, whole) for n in range(1_024)]] * 2)
    at = 28 + 1_024 * 80 + 28 + 1_024 * 20
    edges.refuses("1,025 interfaces of datagrams", ["join", "-o", out, file], f"refused: file 1 offset {at} rule 13 interface-limit")
    edges.accepts("1,024 datagrams are written", ["list", out], "packet 1024 ")


def exponents(edges):
    """Units in a second: 10^19 and 2^63."""
    for code, is_accepted in ((19, True), (20, False), (0x80 | 63, True), (0x80 | 64, False)):
        interface = block(1, struct.pack("<HHIHHB3x", 1, 0, 0, 9, 1, code))
        file = edges.file("exponent", SECTION, interface, packet(0, 1, b"\1"))
        if is_accepted:
            units = 10**19 if code == 19 else 2**63
            edges.accepts(f"if_tsresol {code:02x}", ["list", file], f" time 0+1/{units} ")
        else:
            edges.everywhere(f"if_tsresol {code:02x}", file, "refused: file 1 offset 28 rule 12 resolution")


def seconds(edges):
    """Seconds of a pcap file that is written: 0 and 4,294,967,295, on the way from pcap, from pcapng, and there and back."""
    out, between = os.path.join(edges.folder, "out"), os.path.join(edges.folder, "between")
    for magic, unit in ((0xA1B2C3D4, 10**6), (0xA1B23C4D, 10**9)):
        header = struct.pack("<IHHIIII", magic, 2, 4, 0, 0, 0, 1)
        for second, fraction in ((0, 0), (2**32 - 1, unit - 1), (2**32 - 1, unit), (2**32 - 1, 3 * unit // 2), (2**32 - 1, 2**32 - 1)):
            file = edges.file("seconds.pcap", header, record(second, b"\1", micros=fraction))
            second, rest = second + fraction // unit, fraction % unit
            name = f"{second}+{rest}/{unit}"
            edges.accepts(f"{name}, list", ["list", file], f" time {name} ")
            edges.accepts(f"{name}, to pcapng", ["convert", "--to", "pcapng", "-o", between, file])
            for source, at in ((file, 24), (between, 60)):
                if second < 2**32:
                    edges.accepts(f"{name}, to pcap", ["convert", "--to", "pcap", "-o", out, source])
                    edges.count.check(f"{name}, as pcap", read(out) == read(file))
                else:
                    edges.refuses(f"{name}, to pcap", ["convert", "--to", "pcap", "-o", out, source],
                                  f"refused: file 1 offset {at} rule 20 time-range")
                    edges.count.check(f"{name}, what is written", read(out) == header)
    for offset, units, is_accepted in ((-1, 999_999, False), (-1, 10**6, True), (0, 0, True), (2**32 - 1, 999_999, True), (2**32 - 1, 10**6, False),
                                       (-2**63, 2**64 - 1, False), (2**63 - 1, 2**64 - 1, False)):
        interface = block(1, struct.pack("<HHIHHq", 1, 0, 0, 14, 8, offset))
        file = edges.file("offset", SECTION, interface, packet(0, units, b"\1"))
        words = ["convert", "--to", "pcap", "-o", out, file]
        if is_accepted:
            edges.accepts(f"offset {offset}, {units} units", words)
            edges.count.check(f"offset {offset}, {units} units, as pcap",
                              read(out)[24:] == record(offset + units // 10**6, b"\1", micros=units % 10**6))
        else:
            edges.refuses(f"offset {offset}, {units} units", words, "refused: file 1 offset 60 rule 20 time-range")


def files(edges):
    """Files: 32, but of `check`."""
    out = os.path.join(edges.folder, "out")
    file = edges.file("one", vector("CARRY_PCAP"))
    edges.accepts("32 files, info", ["info", *[file] * 32], "files 32\n", "file 32 pcap packets 1 ")
    edges.accepts("32 files, report", ["report", *[file] * 32], "files 32\n", "total packets 32 ")
    edges.accepts("32 files, merge", ["merge", "-o", out, *[file] * 32])
    edges.accepts("32 files, merged", ["list", out], "packet 32 ")
    edges.accepts("32 files, join", ["join", "-o", out, *[file] * 32])
    edges.accepts("33 files, check", ["check", *[file] * 33], "check 1 pcap packets 1 ", "check 33 pcap packets 1 ")
    edges.accepts("1,000 files, check", ["check", *[file] * 1000], "check 1000 pcap packets 1 ")
    edges.accepts("1,000 files, digest", ["digest", *[file] * 1000], "digest 1000 sha256 ")
    for word, end in (("check", b" whole\n"), ("digest", b" packets 1\n")):
        seen = run(["-c", 'ulimit -n 16; exec "$@"', "bash", edges.program, word, *[file] * 100], "bash")
        is_so = (seen[0], seen[1].count(end), seen[2]) == (0, 100, b"")
        edges.count.check(f"100 files, of which a process can't hold 16 open, {word}", is_so, seen)
    edges.takes("10,000 files, check", ["check", *[file] * 10_000], 8)
    names = edges.file("names", (os.fsencode(file) + b"\0") * 100_000)
    edges.takes("100,000 files of a list, check", ["check", "--files0-from", names], 24)
    longest = edges.file("longest", SECTION, INTERFACE, packet(0, 1, b"\1", struct.pack("<HH", 1, 0) * ((524_288 - 36) // 4)))
    edges.takes("32 files with a block of 524,288 bytes", ["report", *[longest] * 32], 24)
    edges.takes("32 files with a block of 524,288 bytes, check", ["check", *[longest] * 32], 4)
    for words in (["info"], ["report"], ["merge", "-o", out], ["join", "-o", out]):
        edges.refuses(f"33 files, {words[0]}", [*words, *[file] * 33], "fault: files", 2)


def groups(edges):
    """Open groups of fragments: 1,024; then the oldest is given up, and its datagram is never joined."""
    head, last = udp((1000, 2000), bytes(8))[:8], bytes(8)
    for count, given_up in ((1_024, 0), (1_025, 1)):
        parts = [record(1, datagram(head, 0, True, n)) for n in range(count)]
        parts += [record(2, datagram(last, 8, False, n)) for n in range(1, count)]
        file = edges.file("groups", pcap_header(101), *parts, record(3, datagram(last, 8, False, 0)))
        joined = count - given_up
        edges.accepts(f"{count} groups", ["report", file], f"unjoined {2 * given_up} counted {2 * joined}\njoined {joined} given-up {given_up}\n")
        out = os.path.join(edges.folder, "out")
        edges.accepts(f"{count} groups, joined", ["join", "-o", out, file])
        _, text, _ = run(["list", out], edges.program)
        edges.count.check(f"{count} groups, datagrams", text.count(b"\n") == joined)


def full_groups(edges):
    """1,024 open groups of 65,512 bytes."""
    parts = [record(1, datagram(bytes(8), 65_504, True, n)) for n in range(1_100)]
    file = edges.file("full", pcap_header(101), *parts)
    edges.takes("1,024 open groups of 65,512 bytes", ["report", file], 72)


def ends(edges):
    """The end of a fragment's data: 65,515."""
    data = bytes(range(256)) * 256
    data = struct.pack(">HHHH", 1000, 2000, 65_515, 0) + data[8:]
    for end in (65_515, 65_516):
        file = edges.file("ends", pcap_header(101), record(1, datagram(data[:65_512], 0, True)), record(2, datagram(data[65_512:end], 65_512)))
        out = os.path.join(edges.folder, "out")
        edges.accepts(f"an end at {end}, join", ["join", "-o", out, file])
        if end == 65_515:
            edges.accepts("an end at 65,515", ["report", file], "bad 0 unjoined 0 counted 2\njoined 1 given-up 0\n")
            edges.accepts("an end at 65,515, joined", ["list", out], " captured 65535 original 65535 ")
            edges.count.check("the bytes of the datagram", read(out)[108:108 + 65_515] == data[:65_515])
        else:
            edges.accepts("an end at 65,516", ["report", file], "bad 1 unjoined 1 counted 0\njoined 0 given-up 0\ntalks 0\n")


def conversations(edges):
    """Conversations: 1,048,576. Each goes there and back; the one that is too many comes last."""
    def there(n):
        return datagram(udp((n >> 16, n & 0xFFFF)), ends=(0x0A000001, 0x0A000002))

    def back(n):
        return datagram(udp((n & 0xFFFF, n >> 16)), ends=(0x0A000002, 0x0A000001))

    name = edges.file("talks", pcap_header(101))
    with open(name, "ab") as out:
        for way, seconds in ((there, 1), (back, 2)):
            for first in range(0, MOST_TALKS, 4_096):
                out.write(b"".join(record(seconds, way(n)) for n in range(first, first + 4_096)))
    lines = edges.takes("1,048,576 conversations", ["report", name], 256).splitlines()
    wanted = [f"talk udp 10.0.0.1:{n >> 16} 10.0.0.2:{n & 0xFFFF} forward 1 28 backward 1 28 first 1+0/1000000 last 2+0/1000000".encode()
              for n in range(MOST_TALKS)]
    edges.count.check("1,048,576 conversations", lines[4:] == [b"joined 0 given-up 0", b"talks 1048576", *wanted], lines[:6])
    with open(name, "ab") as out:
        out.write(record(3, there(MOST_TALKS)))
    refused = f"refused: file 1 offset {24 + 2 * MOST_TALKS * 44} rule 16 talk-limit"
    edges.refuses("1,048,577 conversations", ["report", name], refused)
    more = edges.file("more", pcap_header(101), record(0, there(0)))
    edges.refuses("1,048,577 conversations of two files", ["report", more, name], refused.replace("file 1", "file 2"))
    explained = f"{refused}\n  {name}: there are more than 1,048,576 conversations"
    edges.refuses("1,048,577 conversations, explained", ["report", "--explain", name], explained)
    edges.accepts("1,048,577 conversations, info", ["info", name], "packets 2097153 ")


def conversations_of_both(edges):
    """Conversations of IPv4 and IPv6 together: 1,048,576; without the word those of IPv4 alone. Every other one is of IPv6, and has the ports of the
    one before it; or all are."""
    def of_ipv4(n):
        return datagram(udp((n >> 16, n & 0xFFFF)), ends=(0x0A000001, 0x0A000002))

    def of_ipv6(n):
        return ipv6(udp((n >> 16, n & 0xFFFF)), ends=(0x0A000001, 0x0A000002))

    for label, kinds in (("IPv4 and IPv6", (of_ipv4, of_ipv6)), ("IPv6", (of_ipv6, of_ipv6))):
        make = lambda n: kinds[n % 2](n // 2 * 2 if kinds[0] is of_ipv4 else n)
        name = edges.file("both", pcap_header(101))
        with open(name, "ab") as out:
            for first in range(0, MOST_TALKS, 4_096):
                out.write(b"".join(record(1, make(n)) for n in range(first, first + 4_096)))
        size = os.path.getsize(name)
        lines = edges.takes(f"1,048,576 conversations of {label}", ["report", "--ipv6", name], 256).splitlines()
        texts = {of_ipv4: "10.0.0.1:{} 10.0.0.2:{} forward 1 28", of_ipv6: "[::a00:1]:{} [::a00:2]:{} forward 1 48"}
        numbers = (n // 2 * 2 if kinds[0] is of_ipv4 else n for n in range(MOST_TALKS))
        wanted = [f"talk udp {texts[kinds[n % 2]].format(number >> 16, number & 0xFFFF)} backward 0 0 first 1+0/1000000 last 1+0/1000000".encode()
                  for n, number in enumerate(numbers)]
        edges.count.check(f"1,048,576 conversations of {label}",
                          lines[4:] == [b"joined 0 given-up 0", b"talks 1048576", *wanted], lines[:6])
        # one that stands is no more; a new one of either network is
        with open(name, "ab") as out:
            out.write(record(2, make(0)) + record(2, make(MOST_TALKS - 1)))
        edges.accepts(f"1,048,576 conversations of {label}, and two of them again", ["report", "--ipv6", name],
                      "talks 1048576\n")
        with open(name, "ab") as out:
            out.write(record(3, ipv6(udp((9, 9)), kind=58)))
        size += sum(len(record(2, make(n))) for n in (0, MOST_TALKS - 1))
        refused = f"refused: file 1 offset {size} rule 16 talk-limit"
        edges.refuses(f"1,048,577 conversations of {label}", ["report", "--ipv6", name], refused)
        edges.refuses(f"1,048,577 conversations of {label}, the greatest", ["report", "--ipv6", "--top", "1", name],
                      refused)
        of_ipv4_alone = 524_288 if kinds[0] is of_ipv4 else 0
        edges.accepts(f"1,048,577 conversations of {label}, without the word", ["report", name],
                      f"talks {of_ipv4_alone}\n")
        edges.file("both", pcap_header(101))
    fourth = edges.file("fourth", pcap_header(101), *(record(1, of_ipv6(n)) for n in range(3)), record(2, of_ipv4(0)))
    edges.accepts("conversations of both, a few", ["report", "--ipv6", fourth], "talks 4\n")


def main():
    with tempfile.TemporaryDirectory() as folder:
        edges = Edges(folder, sys.argv[1] if len(sys.argv) > 1 else PROGRAM)
        for limit in (captured, copied, blocks, interfaces, exponents, seconds, files, groups, full_groups, ends,
                      conversations, conversations_of_both):
            limit(edges)
    edges.count.end()


main()
