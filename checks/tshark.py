#!/usr/bin/env python3
"""What `capt report --ipv6` counts, beside tshark (`-z conv,ip -z conv,ipv6 -z conv,udp -z conv,tcp`): the packets and
the bytes of each conversation in each direction, between two addresses and, for UDP and TCP, between two ports. Over
checks/corpus/, the examples, the worked captures, and captures made at random, of sound packets and of those of
soak.py, many of which aren't sound; or over the captures that are named alone. Without tshark nothing is tried.

Both count frames, and as bytes their original lengths, with link header, padding and trailer: these need no rule. What
they count otherwise is left out before either counts: tshark writes the packets that no rule below names into a new
capture (`-Y`, `-w`), and both read that. The rules are LEFT_OUT, in tshark's own fields:

  fragments      capt counts the fragments of a joined datagram in its conversation, and the others in none; tshark
                 counts each between addresses, and between ports only a fragment that has them. IPv4 fragments whose
                 datagrams are whole are compared between addresses, in captures made for that.
  malformed      capt counts a packet with a wrong length or version as bad; tshark marks it, and counts most of them.
  no ports       tshark shows neither UDP nor TCP where the datagram has no data, and counts it between addresses; for
                 capt it is bad.
  cut            a packet that was captured in part is compared if tshark found its headers whole.
  tunnels        tshark also counts the IP packet within another one, capt only the outer one.
  mobility, HIP  these extension headers of IPv6 (135, 139) end tshark's reading, and capt reads what follows them.
  routing        if a routing header has segments left, the last address in it is tshark's destination between ports;
                 capt's is that of the IPv6 header.
  link type      with link type IPV4 (228) or IPV6 (229) tshark reads a packet of either version.
  many tags      tshark reads only so many nested tags.

Apart from that tshark is kept to the protocols that capt knows. It rounds bytes down, from 10 kB on to whole kB and so
on, and has several rows for a pair of ports that was used again, which are added up.

Use: checks/tshark.py [PROGRAM [CAPTURE..]]     (as after `rt run` or `rt ci` in crates/capt; about a minute)"""
import sys

sys.dont_write_bytecode = True

import ipaddress, json, os, random, re, shutil, struct, subprocess, tempfile
from collections import Counter, defaultdict
from concurrent.futures import ThreadPoolExecutor

from captures import (ENDS_6, IPV6_VECTORS, PROGRAM, TOP, VECTORS, Count, datagram, extension, fragment_header, ipv6,
                      pcap_header, record, udp, vector)
from soak import captured, frame

LINKS = 1, 101, 113, 228, 229, 276
PROTOCOLS = re.compile("frame|eth|ethertype|vlan|ieee8021ad|sll|raw|ip|ipv6|ipv6[.].*|shim6|mipv6|hip|ah|udp|tcp|data")
# no tags with EtherType 9100, no guess of a length, no fragments put together
OPTIONS = ["-n", *(word for setting in ("vlan.qinq_ethertype:0x8100", "ip.tso_support:FALSE", "ip.defragment:FALSE",
                                        "ipv6.defragment:FALSE") for word in ("-o", setting))]
LEFT_OUT = {
    "fragments": "ip.flags.mf == 1 or ip.frag_offset > 0 or ipv6.fraghdr.more == 1 or ipv6.fraghdr.offset > 0",
    "malformed": "_ws.malformed or ip.bogus_ip_version or ip.bogus_header_length or ip.bogus_ip_length "
                 "or ipv6.bogus_ipv6_version or ipv6.plen_exceeds_framing or udp.length.bad or udp.length.bad_zero "
                 "or tcp.bogus_header_length or tcp.short_segment",
    "no ports": "ip.proto in {6, 17} and !udp and !tcp",
    "cut": "_ws.short",
    "tunnels": r'frame.protocols matches ":ip(v6)?(:.*)?:ip(v6)?(:|$)"',
    "mobility, HIP": "mipv6 or hip",
    "routing": "ipv6.routing.segleft > 0",
    "link type": "frame.encap_type == 129 and ipv6 or frame.encap_type == 130 and ip",
    "many tags": "vlan.too_many_tags",
}
# where each IPv4 fragment is a part of a whole datagram
WHOLE_FRAGMENTS = {name: rule for name, rule in LEFT_OUT.items() if name not in ("fragments", "no ports")}
TABLE = re.compile(r"^=+\n(\w+) Conversations\n(.*?)^=+$", re.M | re.S)
SIZE = r"(\d+) (\w+)"
ROW = re.compile(rf"^(\S+)\s+<->\s+(\S+)\s+(\d+) {SIZE}\s+(\d+) {SIZE}\s+(\d+) {SIZE}\s", re.M)
UNITS = {"bytes": 1, "kB": 10**3, "MB": 10**6, "GB": 10**9}
KINDS = "IPv4", "IPv6", "UDP", "TCP"


def end_of(address, port=None):
    """An end as numbers: the version, the address, and the port or -1."""
    found = ipaddress.ip_address(address)
    return found.version, int(found), -1 if port is None else int(port)


def add(rows, a, b, forth, back):
    """Adds the counts from a to b and back, lesser end first; both ways are one where the ends are one. The counts are
    the packets, and the least and the most that the bytes can be."""
    if a > b:
        a, b, forth, back = b, a, back, forth
    if a == b:
        forth, back = [one + other for one, other in zip(forth, back)], [0] * 3
    rows[a, b] = [one + other for one, other in zip(rows[a, b], [*forth, *back])]


def counts_of(packets, size, unit="bytes"):
    """The counts of one direction. tshark rounds bytes down."""
    least = int(size) * UNITS[unit]
    return [int(packets), least, least + UNITS[unit] - 1]


class Bench:
    """Runs both programs over captures, in a folder of its own."""

    def __init__(self, folder, program):
        self.folder, self.program = folder, program
        self.environment = {**os.environ, "LC_ALL": "C", "WIRESHARK_CONFIG_DIR": folder}
        listed = self.tshark("-G", "protocols")[1].decode().splitlines()
        names = {line.split("\t")[2] for line in listed}
        with open(os.path.join(folder, "disabled_protos"), "w") as out:
            out.writelines(f"{name}\n" for name in sorted(names) if not PROTOCOLS.fullmatch(name))

    def tshark(self, *words):
        done = subprocess.run(["tshark", *words], env=self.environment, stdin=subprocess.DEVNULL, timeout=120,
                              stdout=subprocess.PIPE, stderr=subprocess.PIPE)
        return done.returncode, done.stdout

    def left(self, path, rules, out):
        """Writes the packets of a capture that no rule names; whether tshark can read all of it."""
        kept = " and ".join(f"!({rule})" for rule in rules.values())
        return self.tshark(*OPTIONS, "-r", path, "-Y", kept, "-F", "pcapng", "-w", out)[0] == 0

    def of_tshark(self, path):
        """The rows that tshark counts, by kind."""
        words = [word for kind in ("ip", "ipv6", "udp", "tcp") for word in ("-z", f"conv,{kind}")]
        text = self.tshark(*OPTIONS, "-r", path, "-q", *words)[1].decode()
        found = {kind: defaultdict(lambda: [0] * 6) for kind in KINDS}
        for kind, table in TABLE.findall(text):
            for a, b, *cells in ROW.findall(table):
                ends = [end_of(*end.rsplit(":", 1)) if kind in ("UDP", "TCP") else end_of(end) for end in (a, b)]
                add(found[kind], *ends, counts_of(*cells[3:6]), counts_of(*cells[:3]))
        return found

    def of_capt(self, path):
        """The rows that capt counts, by kind."""
        words = [self.program, "report", "--ipv6", "--json", path]
        text = subprocess.run(words, stdout=subprocess.PIPE, check=True, timeout=120).stdout
        found = {kind: defaultdict(lambda: [0] * 6) for kind in KINDS}
        for talk in map(json.loads, text.splitlines()):
            if talk["type"] == "talk":
                ways = [counts_of(talk[way]["packets"], talk[way]["bytes"]) for way in ("forward", "backward")]
                ends = [(talk[end]["address"], talk[end].get("port")) for end in "ab"]
                add(found[f"IPv{end_of(*ends[0])[0]}"], *(end_of(address) for address, _ in ends), *ways)
                if talk["protocol"] in (6, 17):
                    add(found["UDP" if talk["protocol"] == 17 else "TCP"], *(end_of(*end) for end in ends), *ways)
        return found


def is_so(seen, held):
    """Whether capt's counts are those of tshark, as far as tshark doesn't round them."""
    return seen[::3] == held[::3] and all(seen[at] <= held[at] <= seen[at + 1] for at in (1, 4))


def differences(theirs, ours):
    """The rows in which both differ, in words."""
    for key in sorted({*theirs, *ours}):
        seen, held = (rows.get(key, [0] * 6) for rows in (theirs, ours))
        if not is_so(seen, held):
            ends = [str((ipaddress.IPv4Address if version == 4 else ipaddress.IPv6Address)(address)) + f" port {port}"
                    * (port >= 0) for version, address, port in key]
            yield f"{' and '.join(ends)}: tshark {seen}, capt {held}"


# made captures: sound packets, some of them captured in part
ENDS = [(0x0A000001 + n % 3, 0x0A000001 + n // 3) for n in range(9)]
ADDRESSES_6 = [*ENDS_6, 0, 1, 0xFFFF_0A00_0001, 0xFE80 << 112 | 7, 0xFF02 << 112 | 1]


def segment(rng):
    """A TCP segment, with options or none."""
    words, ports = rng.choice([0, 0, 1, 3, 10]), (rng.randrange(3), rng.choice([80, 443]))
    # a number, that of an acknowledgement, the length in words, ACK, a window
    head = struct.pack(">IIBBHHH", rng.randrange(9), 1, 16 * (5 + words), 16, 9, 0, 0)
    head = struct.pack(">HH", *ports[::rng.choice([1, -1])]) + head
    return head + bytes([1]) * 4 * words + bytes(rng.choice([0, 0, 1, 700]))


def payload(rng):
    """A protocol and its data."""
    kind = rng.choice([17, 17, 6, 6, 1, 58, 50, 59, 132, 253])
    if kind == 17:
        return kind, udp((rng.randrange(3), rng.randrange(4)), bytes(rng.choice([0, 1, 30, 1200])))
    return kind, segment(rng) if kind == 6 else rng.randbytes(rng.randrange(1, 40))


def sound_4(rng):
    """An IPv4 datagram, with options or none."""
    kind, data = payload(rng)
    packet, words = datagram(data, 0, False, rng.randrange(9), kind, rng.choice(ENDS)), rng.choice([0, 0, 1, 10])
    head = bytes([0x45 + words, 0]) + (len(packet) + 4 * words).to_bytes(2, "big") + packet[4:20]
    return head + bytes([1]) * 4 * words + packet[20:]


def sound_6(rng):
    """An IPv6 packet, behind extension headers or none; hop-by-hop options are the first of them."""
    kind, data = payload(rng)
    for number in rng.sample([43, 44, 51, 60, 60], rng.choice([0, 0, 1, 2, 4])) + rng.choice([[], [], [0]]):
        size = rng.choice([8, 16, 24])
        if number == 44:
            header = fragment_header(kind, 0, False, rng.randrange(9))
        elif number == 51:
            header = bytes([kind, 4]) + bytes(22)
        else:
            # options that are padding; a routing header of two addresses, sometimes with one of them left
            header = extension(kind, 40 if number == 43 else size)
            inside = bytes([0, rng.choice([0] * 9 + [1])]) if number == 43 else bytes([1, size - 4])
            header = header[:2] + inside + header[4:]
        data, kind = header + data, number
    return ipv6(data, kind, (rng.choice(ADDRESSES_6), rng.choice(ADDRESSES_6)))


def linked(rng, link, packet, tags=(0, 0, 1, 2)):
    """A frame of that link type around an IP packet, with one of those numbers of tags, and padding or none."""
    if link in (101, 228, 229):
        return packet + bytes(rng.choice([0, 0, 6]))
    types = b"".join(rng.choice([b"\x81\x00", b"\x88\xa8"]) + rng.randbytes(2) for _ in range(rng.choice(tags)))
    types += (b"\x86\xdd" if packet[0] >> 4 == 6 else b"\x08\x00")
    padding = bytes(rng.choice([0, 0, 6, 20]))
    if link == 276:
        return types[:2] + bytes(18) + types[2:] + packet + padding
    return bytes(12 if link == 1 else 14) + types + packet + padding


def made(link, count):
    """A capture of sound packets, one in five of them captured in part."""
    rng, out = random.Random(f"sound/{link}"), [pcap_header(link)]
    for second in range(count):
        version = {228: 4, 229: 6}.get(link) or rng.choice([4, 6])
        data = linked(rng, link, (sound_4 if version == 4 else sound_6)(rng), [0, 0, 0, 1, 2] * 9 + [40])
        out.append(record(second, data[:rng.randrange(len(data) + 1)] if rng.random() < 0.2 else data, len(data)))
    return b"".join(out)


def unsound(link, count):
    """A capture of soak.py's packets, most of which are fragments or not sound."""
    rng, out = random.Random(f"unsound/{link}"), [pcap_header(link)]
    for second in range(count):
        out.append(record(second, *captured(rng, frame(rng, link))))
    return b"".join(out)


def fragmented(link, count):
    """A capture of IPv4 datagrams in fragments, each of which is whole within thirty seconds."""
    rng, frames = random.Random(f"fragmented/{link}"), []
    for number in range(count):
        kind, data = 17, udp((rng.randrange(3), rng.randrange(4)), bytes(rng.randrange(1, 200)))
        size, ends = 8 * rng.randrange(1, 9), rng.choice(ENDS)
        parts = [datagram(data[at:at + size], at, at + size < len(data), number, kind, ends)
                 for at in range(0, len(data), size)]
        rng.shuffle(parts)
        frames += [linked(rng, link, part) for part in parts]
    return pcap_header(link) + b"".join(record(place // 100, data) for place, data in enumerate(frames))


def captures(folder):
    """Names, paths and rules of the captures."""
    for place in os.path.join(TOP, "checks", "corpus"), os.path.join(TOP, "examples"):
        for name in sorted(os.listdir(place)):
            if not name.endswith((".txt", ".py", ".sh", ".gz")):
                yield name, os.path.join(place, name), LEFT_OUT
    contents = {f"the worked {name}": (vector(name), LEFT_OUT) for name in (*VECTORS, *IPV6_VECTORS)}
    for link in LINKS:
        contents[f"sound, link type {link}"] = made(link, 1500), LEFT_OUT
        contents[f"unsound, link type {link}"] = unsound(link, 3000), LEFT_OUT
        if link != 229:
            contents[f"fragments, link type {link}"] = fragmented(link, 200), WHOLE_FRAGMENTS
    for number, (name, (content, rules)) in enumerate(contents.items()):
        path = os.path.join(folder, f"in{number}")
        with open(path, "wb") as out:
            out.write(content)
        yield name, path, rules


def main():
    if not shutil.which("tshark"):
        print("tshark isn't installed here, so nothing was tried\n0 passed, 0 failed")
        return
    count, program = Count(), os.path.abspath(sys.argv[1] if len(sys.argv) > 1 else PROGRAM)
    compared, unread, named = Counter(), [], [(path, path, LEFT_OUT) for path in sys.argv[2:]]
    with tempfile.TemporaryDirectory() as folder, ThreadPoolExecutor(os.cpu_count() or 2) as pool:
        bench = Bench(folder, program)

        def does(numbered):
            number, (name, path, rules) = numbered
            out = os.path.join(folder, f"out{number}.pcapng")
            if not bench.left(path, rules, out):
                # a file of checks/corpus/ or one that is named
                count.check(f"{name}: tshark doesn't read it", not path.startswith(folder))
                return unread.append(name)
            theirs, ours = bench.of_tshark(out), bench.of_capt(out)
            for kind in KINDS if rules is LEFT_OUT else KINDS[:2]:
                wrong = list(differences(theirs[kind], ours[kind]))
                count.check(f"{name}: {kind}", not wrong, *wrong[:3])
                with count.lock:
                    compared[kind] += sum(row[0] + row[3] for row in ours[kind].values())

        list(pool.map(does, enumerate(named or captures(folder))))
    for kind in KINDS if not named else ():
        count.check(f"packets of {kind}", compared[kind] > 1_000, compared[kind])
    print("packets compared: " + ", ".join(f"{compared[kind]} of {kind}" for kind in KINDS)
          + f"; captures that tshark doesn't read: {len(unread)}")
    count.end()


main()
