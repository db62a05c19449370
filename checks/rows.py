#!/usr/bin/env python3
"""Rows of the commands and of the command line on the built program, worked out by hand from the formats: what is printed or written of captures
in hex, and how it ends. Each capture is read whole and by one byte at a time (faults.c).

Use: checks/rows.py [PROGRAM]     (as after `rt run` or `rt ci` in crates/capt; some seconds)"""
import sys

sys.dont_write_bytecode = True

import hashlib, ipaddress, itertools, json, os, random, re, struct, tempfile

from captures import (CARRIED as PACKET, INTERFACE, MICRO_LITTLE, PROGRAM, SECTION, Bench, Count, datagram, make_shim, packet, pcap_header,
                      record, run, vector, wanted_of, words_of)
import model
from model import SURVEYS
from objects import all_objects

ETHERNET = f"{MICRO_LITTLE} 01000000"
SECTION_BIG = "0a0d0d0a 0000001c 1a2b3c4d 0001 0000 ffffffffffffffff 0000001c"
CARRIED = f"{ETHERNET} 02000000 20a10700 04000000 04000000 01020304"
# The same in the other order.
CARRIED_BIG = "a1b2c3d4 0002 0004 00000000 00000000 00040000 00000001 00000002 0007a120 00000004 00000004 01020304"
# CARRY_PCAPNG in the other order; its packet three times, behind one interface, and each behind an interface of its file.
CARRY_BIG = (f"{SECTION_BIG} 00000001 00000020 0001 0000 00040000 0009 0001 06000000 0000 0000 00000020 "
             "00000006 00000024 00000000 00000000 002625a0 00000004 00000004 01020304 00000024")
SHARED = f"{SECTION}{INTERFACE}" + f" 06000000 24000000 00000000 00000000 {PACKET} 24000000" * 3
THRICE = SECTION + "".join(f"{INTERFACE} 06000000 24000000 0{n}000000 00000000 {PACKET} 24000000" for n in range(3))


def interface(options="", link="0100", snaplen="00000400"):
    """An interface of a section, 20 bytes without options: Ethernet, where nothing else is said."""
    total = (20 + len(bytes.fromhex(options))).to_bytes(4, "little").hex()
    return f"01000000 {total} {link} 0000 {snaplen} {options} {total}"


PLAIN, OF_IP = interface(), interface(link="6500", snaplen="00000000")
# As it is written.
WRITTEN_OF_IP = interface("0900 0100 06000000 00000000", "6500", "00000000")

# A capture that `list` refuses, with --allow-cut or without: the offset and the rule.
NOT_LISTED = [
    ("", False, "0 rule 3 cut"), ("", True, "0 rule 3 cut"),
    (f"{ETHERNET} 01000000 60e31600 04000000 04000000 010203", False, "24 rule 3 cut"),
    (MICRO_LITTLE, True, "0 rule 3 cut"),
    ("d4c3b2a1 02000300 00000000 00000000 00000400 01000000", False, "0 rule 2 version"),
    ("00000000", False, "0 rule 1 magic"),
    # no order magic; a section of version 1.1
    ("0a0d0d0a 1c000000 00000000 01000000 ffffffffffffffff 1c000000", False, "0 rule 7 order-magic"),
    ("0a0d0d0a 1c000000 4d3c2b1a 01000100 ffffffffffffffff 1c000000", False, "0 rule 2 version"),
    # 262,145 captured bytes, and the end of the input
    (f"{ETHERNET} 00000000 00000000 01000400 01000400", False, "24 rule 4 packet-long"),
    # a resolution of two bytes, two that are too fine, and an option past the end of its block
    (f"{SECTION} {interface('0900 0200 06060000')}", False, "28 rule 11 option-length"),
    (f"{SECTION} {interface('0900 0100 14000000')}", False, "28 rule 12 resolution"),
    (f"{SECTION} {interface('0900 0100 c0000000')}", False, "28 rule 12 resolution"),
    (f"{SECTION} {interface('0200 0900 01020304')}", False, "28 rule 10 option-end"),
    # a packet of interface 1, if there is interface 0; one of 5 captured bytes in 4; a simple one without an interface
    (f"{SECTION} {PLAIN} 06000000 24000000 01000000 00000000 00000000 04000000 04000000 01020304 24000000", False,
     "48 rule 9 interface-unknown"),
    (f"{SECTION} {PLAIN} 06000000 24000000 00000000 00000000 00000000 05000000 04000000 01020304 24000000", False, "48 rule 8 captured"),
    (f"{SECTION} 03000000 14000000 04000000 01020304 14000000", False, "28 rule 9 interface-unknown"),
    # a block of 2 MiB of an unknown kind, whose trailer tells 4 bytes less
    (f"{SECTION} 01000040 00002000 {'00' * 2_097_140} fcff1f00", False, "28 rule 6 block-trailer"),
]


def listed(number, offset, time="2+500000/1000000", original=4, link=1):
    return f"packet {number} offset {offset} time {time} captured 4 original {original} link {link} data 01020304\n"


def of_data(data):
    """A capture of one packet of those bytes, captured whole."""
    size = (len(data) // 2).to_bytes(4, "little").hex()
    return f"{ETHERNET} 02000000 20a10700 {size} {size} {data}"


def shown(data, digits):
    """Its line, with those digits of its bytes."""
    size = len(data) // 2
    return f"packet 1 offset 24 time 2+500000/1000000 captured {size} original {size} link 1 data {digits}\n"


def enhanced(number):
    """A packet of that interface, of 2,500,000 units and 4 bytes."""
    return f"06000000 24000000 0{number}000000 00000000 {PACKET} 24000000"


OBSOLETE = f"{SECTION} {PLAIN} 02000000 24000000 0000 ffff 00000000 {PACKET} 24000000"

# A capture, its list, what is written of it as pcapng, and how that is refused, if it is: two sections, the second in the other order; an interface whose
# offset is -1 second; one with 1,024 units in a second, whose second resolution doesn't count; an obsolete packet; and one of which 4 of 10 bytes
# were captured, without a time, of an interface of snaplen 4.
LISTED = [
    (f"{SECTION} {PLAIN} {enhanced(0)} {SECTION_BIG} 00000001 00000014 0065 0000 00000000 00000014 "
     "00000006 00000024 00000000 00000000 002625a0 00000004 00000004 01020304 00000024", listed(1, 48) + listed(2, 132, link=101),
     f"{SECTION} {INTERFACE} {enhanced(0)} {WRITTEN_OF_IP} {enhanced(1)}", None),
    (f"{SECTION} {interface('0e00 0800 ffffffffffffffff')} {enhanced(0)}", listed(1, 60, "1+500000/1000000"),
     f"{SECTION} {interface('0900 0100 06000000 0e00 0800 ffffffffffffffff 00000000')} {enhanced(0)}", None),
    (f"{SECTION} {interface('0900 0100 8a000000 0900 0100 14000000 00000909')} {enhanced(0)}", listed(1, 68, "2441+416/1024"),
     f"{SECTION} {interface('0900 0100 8a000000 00000000')} {enhanced(0)}", None),
    (OBSOLETE, listed(1, 48), f"{SECTION} {INTERFACE} {enhanced(0)}", None),
    (f"{SECTION} {interface(snaplen='04000000')} 03000000 14000000 0a000000 01020304 14000000", listed(1, 48, "-", 10),
     f"{SECTION} {interface('0900 0100 06000000 00000000', snaplen='04000000')}", "file 1 offset 48 rule 17 no-time"),
]

TOLD = "file {} pcapng packets 1 bytes 4 truncated 0 skipped 0 first 2+500000/1000000 last 2+500000/1000000\n"

# A capture and its line, of `info`: an obsolete packet, which isn't skipped; a simple one, of which 4 of 10 bytes were captured; a block that is
# skipped; a section of version 1.2, and one of pcap without packets.
TOLD_OF = [
    (OBSOLETE, TOLD.format(1)),
    (f"{SECTION} {interface(snaplen='04000000')} 03000000 14000000 0a000000 01020304 14000000",
     "file 1 pcapng packets 1 bytes 10 truncated 1 skipped 0 first - last -\n"),
    (vector("OPTIONS_PCAPNG").hex(), TOLD.format(1).replace("skipped 0", "skipped 1")),
    ("0a0d0d0a 1c000000 4d3c2b1a 01000200 ffffffffffffffff 1c000000", "file 1 pcapng packets 0 bytes 0 truncated 0 skipped 0 first - last -\n"),
    (ETHERNET, "file 1 pcap packets 0 bytes 0 truncated 0 skipped 0 first - last -\n"),
]

# A packet at 2.5 seconds in each spelling of pcap, with a byte that tells which; the resolution's code, and the units.
SPELLINGS = [(struct.pack(order + "IHHIIIIIIIIB", magic, 2, 4, 0, 0, 0x40000, 1, 2, fraction, 1, 1, n), code, 5 * 10**code // 2, n)
             for n, (magic, order, code, fraction) in enumerate(
                 (magic, order, code, 10**code // 2) for magic, code in ((0xA1B2C3D4, 6), (0xA1B23C4D, 9)) for order in "<>")]


def merged(files):
    """What a merge of packets of one time writes: each file's interface and its packet, in the order of the files."""
    return bytes.fromhex(SECTION) + b"".join(
        bytes.fromhex(interface(f"0900 0100 {code:02x}000000 00000000")) + packet(number, units, bytes([n]))
        for number, (_, code, units, n) in enumerate(files))


LONGEST = "packet 1 offset 24 time 0+0/1000000 captured 262144 original 262144 link 1 data 00000000000000000000000000000000\n"

# A file that `blocks` refuses: where, and by which rule. After a section, its line is printed first.
NOT_BLOCKS = [
    ("", "0 rule 3 cut"), ("0a0d0d", "0 rule 3 cut"), ("d4c3b2a1", "0 rule 1 magic"), ("0a0d0d0a 1e000000", "0 rule 3 cut"),
    # neither the order magic nor the length is right
    ("0a0d0d0a 1e000000 00000000", "0 rule 7 order-magic"), ("0a0d0d0a 18000000 4d3c2b1a", "0 rule 5 block-length"),
    ("0a0d0d0a 1c000000 4d3c2b1a 0100 0100 0000000000000000 1c000000", "0 rule 2 version"),
    (f"{SECTION} 05000000 00000000 00000000", "28 rule 5 block-length"), (f"{SECTION} 05000000 1e000000 00000000", "28 rule 5 block-length"),
    (f"{SECTION} 06000000 ffffffff 00000000", "28 rule 5 block-length"), (f"{SECTION} 06000000 04000800 00000000", "28 rule 5 block-length"),
    (f"{SECTION} 02000000 1c000000 00000000", "28 rule 5 block-length"), (f"{SECTION} 05000000 fcffffff 00000000", "28 rule 3 cut"),
    (f"{SECTION} 05000000 10000000 01020304 0c000000", "28 rule 6 block-trailer"),
    (f"{SECTION} 03000000 10000000 01020304 0c000000", "28 rule 6 block-trailer"),
]

# Records without bytes at 5 seconds and at 1 second, and 8 bytes of the next.
LATE, EARLY = (f"{ETHERNET} {second:02x}000000 00000000 00000000 00000000 0000000000000000" for second in (5, 1))
CUT = vector("CARRY_PCAP")[:-1].hex()

# Captures, whether --allow-cut is given, and what `info --skip-refused` prints.
ONE_HELD = "file %d pcap packets 1 bytes 4 truncated 0 skipped 0 first 2+500000/1000000 last 2+500000/1000000\n"
KEPT = [
    ([vector("CARRY_PCAP").hex()], False, "files 1\n" + ONE_HELD % 1),
    ([CUT, vector("CARRY_PCAP").hex()], False, "left out 1 offset 24 rule 3 cut\nfiles 1\n" + ONE_HELD % 1),
    ([vector("CARRY_PCAP").hex(), "", CUT, vector("CARRY_PCAP").hex(), "00000000"], False,
     "left out 2 offset 0 rule 3 cut\nleft out 3 offset 24 rule 3 cut\nleft out 5 offset 0 rule 1 magic\nfiles 2\n" + ONE_HELD % 1 + ONE_HELD % 2),
    (["", CUT], False, "left out 1 offset 0 rule 3 cut\nleft out 2 offset 24 rule 3 cut\n"),
    (["", CUT], True, "left out 1 offset 0 rule 3 cut\nfiles 1\nfile 1 pcap packets 0 bytes 0 truncated 0 skipped 0 first - last - cut\n"),
    ([vector("CARRY_PCAP").hex()] * 31 + [CUT], False,
     "left out 32 offset 24 rule 3 cut\nfiles 31\n" + "".join(ONE_HELD % n for n in range(1, 32))),
]

# Captures of which a command prints nothing, with --allow-cut or without, and the refusal: that of the lowest place in the order of clocks
# for `report`, and of the first file for `info`.
NOT_PRINTED = [
    ("report", [LATE, EARLY], False, "file 2 offset 40 rule 3 cut"), ("report", [EARLY, LATE], False, "file 1 offset 40 rule 3 cut"),
    ("report", [CUT], False, "file 1 offset 24 rule 3 cut"),
    ("report", [""], False, "file 1 offset 0 rule 3 cut"), ("report", [""], True, "file 1 offset 0 rule 3 cut"),
    ("report", [vector("TAGGED_FRAMES").hex(), ""], True, "file 2 offset 0 rule 3 cut"),
    ("info", [CUT], False, "file 1 offset 24 rule 3 cut"), ("info", [""], False, "file 1 offset 0 rule 3 cut"),
    ("info", [vector("CARRY_PCAP").hex(), "00000000", CUT], False, "file 2 offset 0 rule 1 magic"),
    ("info", [vector("CARRY_PCAP").hex(), CUT, "00000000"], False, "file 2 offset 24 rule 3 cut"),
    # each of 32 files
    *((task, [vector("CARRY_PCAP").hex()] * (number - 1) + [CUT] + [vector("CARRY_PCAP").hex()] * (32 - number), False,
       f"file {number} offset 24 rule 3 cut") for task in ("info", "report") for number in range(1, 33)),
]

# A datagram of UDP with 2 bytes, from 10.0.0.1:1000 to 10.0.0.2:2000; the same bytes as of ICMP; of another datagram of these ends the last 8
# bytes of 16, the first 8, and one that is whole.
UDP = "4500001e 00010000 40110000 0a000001 0a000002 03e807d0 000a0000 6869"
ICMP = "4500001e 00010000 40010000 0a000001 0a000002 03e807d0 000a0000 6869"
LAST = "4500001c 00090001 40110000 0a000001 0a000002 a0a1a2a3 a4a5a6a7"
FIRST = "4500001c 00092000 40110000 0a000001 0a000002 03e807d0 00100000"
WHOLE = "4500001c 00090000 40110000 0a000001 0a000002 03e807d0 00080000"
TCP = ("02000000 00020200 00000001 0800 450005dc 00010000 40060000 0a000001 0a000002 03e807d0 00000000 00000000 "
       "50000000 00000000")


def at(second, data, original=None, micros=0):
    """A record of a pcap file, captured whole where nothing else is said, in hex."""
    return record(second, bytes.fromhex(data), original, micros).hex()


def of_link(link, *records):
    return pcap_header(link).hex() + "".join(records)


CLASSES = ("other-link", "not-ipv4", "short", "cut", "bad", "unjoined", "counted")
TALK = "10.0.0.1:1000 10.0.0.2:2000 forward"


def frames(joined=0, given_up=0, talks=(), **classes):
    """The end of a report, from the line of the frames' classes on."""
    counts = " ".join(f"{name} {classes.get(name.replace('-', '_'), 0)}" for name in CLASSES)
    lines = [f"frames {counts}", f"joined {joined} given-up {given_up}", f"talks {len(talks)}", *(f"talk {talk}" for talk in talks)]
    return "".join(f"{line}\n" for line in lines)


def times(first, last=None):
    return f"first {first} last {last or first}"


SECOND = "1+0/1000000"

# A capture, and the end of its report.
REPORTED = [
    (of_link(1, at(1, "00" * 13)), frames(short=1)),
    (of_link(1, at(1, "00" * 13, 60)), frames(cut=1)),
    (of_link(1, at(1, "00" * 12 + "8100")), frames(short=1)),
    (of_link(1, at(1, "00" * 12 + "86dd")), frames(not_ipv4=1)),
    (of_link(147, at(1, "00" * 20)), frames(other_link=1)),
    (of_link(101, at(1, "")), frames(short=1)),
    (of_link(113, at(1, f"00000001 00060200 00000001 0000 0800 {UDP}")),
     frames(counted=1, talks=[f"udp {TALK} 1 46 backward 0 0 {times(SECOND)}"])),
    (of_link(101, at(1, ICMP)), frames(counted=1, talks=[f"p1 10.0.0.1 10.0.0.2 forward 1 30 backward 0 0 {times(SECOND)}"])),
    (of_link(276, at(1, f"08000000 00000001 00010006 02000000 00010000 {UDP}")),
     frames(counted=1, talks=[f"udp {TALK} 1 50 backward 0 0 {times(SECOND)}"])),
    (of_link(228, at(1, "60")), frames(bad=1)),
    (of_link(101, at(1, "60")), frames(not_ipv4=1)),
    # UDP both ways in padded frames, and with a length that reaches into the padding
    (vector("TAGGED_FRAMES").hex(),
     frames(bad=1, counted=2, talks=[f"udp {TALK} 1 60 backward 1 60 {times(SECOND, '2+0/1000000')}"])),
    # 54 and 53 bytes of a frame of 1,514
    (of_link(1, at(1, TCP, 1514)),
     "truncated 1\n" + frames(counted=1, talks=[f"tcp {TALK} 1 1514 backward 0 0 {times(SECOND)}"])),
    (of_link(1, at(1, TCP[:-2], 1514)), frames(cut=1)),
    # four fragments, with a UDP length above the joined data's in the third
    (of_link(101, at(1, "4500001c 00070002 40110000 0a000001 0a000002 b0b1b2b3 b4b5b6b7"),
             at(2, "4500001c 00072000 40110000 0a000001 0a000002 03e807d0 00180000"),
             at(3, "4500001c 00072000 40110000 0a000001 0a000002 03e907d1 00190000"),
             at(4, "4500001c 00072001 40110000 0a000001 0a000002 a0a1a2a3 a4a5a6a7")), frames(bad=4)),
    # a group is too old after 30 seconds, and is flushed by a whole datagram of its key
    (of_link(101, at(1, LAST), at(31, FIRST)),
     frames(counted=2, joined=1, talks=[f"udp {TALK} 2 56 backward 0 0 {times(SECOND, '31+0/1000000')}"])),
    (of_link(101, at(1, LAST), at(31, FIRST, micros=1)), frames(unjoined=2)),
    (of_link(101, at(1, LAST), at(2, WHOLE), at(3, FIRST)),
     frames(unjoined=2, counted=1, talks=[f"udp {TALK} 1 28 backward 0 0 {times('2+0/1000000')}"])),
    # the latest copy of a byte counts, and the latest end
    (of_link(101, at(1, "4500001c 00092001 40110000 0a000001 0a000002 a0a1a2a3 a4a5a6a7"),
             at(2, "45000017 00090002 40110000 0a000001 0a000002 c0c1c2"),
             at(3, "4500001c 00090003 40110000 0a000001 0a000002 d0d1d2d3 d4d5d6d7"),
             at(4, "4500001c 00092000 40110000 0a000001 0a000002 03e807d0 00200000")),
     frames(counted=4, joined=1, talks=[f"udp {TALK} 4 107 backward 0 0 {times(SECOND, '4+0/1000000')}"])),
    # both ways of TCP, the way back first; ICMP without a time; UDP from an end to itself, from port 9 to port 7; protocol 255 without data
    # and without a time, from 255.255.255.255 to itself
    (f"{SECTION} {OF_IP} 06000000 48000000 00000000 00000000 40420f00 28000000 28000000 45000028 00010000 40060000 0a000002 0a000001 "
     f"00500050 00000000 00000000 50000000 00000000 48000000 03000000 30000000 1e000000 {ICMP} 0000 30000000 "
     "06000000 3c000000 00000000 00000000 40420f00 1c000000 1c000000 4500001c 00010000 40110000 0a000001 0a000001 00090007 00080000 3c000000 "
     "06000000 4c000000 00000000 00000000 40420f00 29000000 29000000 45000029 00010000 40060000 0a000001 0a000002 00500050 00000000 00000000 "
     "50000000 00000000 00000000 4c000000 03000000 24000000 14000000 45000014 00010000 40ff0000 ffffffff ffffffff 24000000",
     frames(counted=5, talks=[f"tcp 10.0.0.1:80 10.0.0.2:80 forward 1 41 backward 1 40 {times(SECOND)}",
                              f"p1 10.0.0.1 10.0.0.2 forward 1 30 backward 0 0 {times('-')}",
                              f"udp 10.0.0.1:7 10.0.0.1:9 forward 0 0 backward 1 28 {times(SECOND)}",
                              f"p255 255.255.255.255 255.255.255.255 forward 1 20 backward 0 0 {times('-')}"])),
]


def halves(first, second):
    """A datagram that came whole between the fragments of another, all at half a second: the first frame, which is counted last and has the
    lowest place, in an interface's units, and the others in another's."""
    forms = "01000000 1c000000 6500 0000 00000400 0900 0100 8a000000 1c000000 01000000 1c000000 6500 0000 00000400 0900 0100 01000000 1c000000"
    units = ["00000000 00000000 00020000", "01000000 00000000 05000000"]
    packets = [f"06000000 3c000000 {units[first]} 1c000000 1c000000 {FIRST} 3c000000",
               f"06000000 40000000 {units[second]} 1e000000 1e000000 {UDP} 0000 40000000",
               f"06000000 3c000000 {units[second]} 1c000000 1c000000 {LAST} 3c000000"]
    return f"{SECTION} {forms} {' '.join(packets)}"


for order, form in (((0, 1), "0+512/1024"), ((1, 0), "0+5/10")):
    REPORTED.append((halves(*order), f"joined 1 given-up 0\ntalks 1\ntalk udp {TALK} 3 86 backward 0 0 {times(form)}\n"))


def at_time(code, offset, units):
    """A packet whose interface counts in units of that code from that second on, so many of them."""
    options = f"0900 0100 {code:02x}000000 0e00 0800 {offset.to_bytes(8, 'little', signed=True).hex()}"
    stamp = f"{(units >> 32).to_bytes(4, 'little').hex()} {(units % 2**32).to_bytes(4, 'little').hex()}"
    return f"{SECTION} {interface(options)} 06000000 24000000 00000000 {stamp} 04000000 04000000 01020304 24000000"


# A code of units, a second from which they count, and their number; and the time as it is printed in each form.
TIMED = [
    ((6, 0, 2_500_000), "2+500000/1000000", "2.500000", "1970-01-01T00:00:02.500000Z"),
    ((9, 0, 1), "0+1/1000000000", "0.000000001", "1970-01-01T00:00:00.000000001Z"),
    ((0, 0, 86_399), "86399+0/1", "86399", "1970-01-01T23:59:59Z"),
    ((1, 0, 5), "0+5/10", "0.5", "1970-01-01T00:00:00.5Z"),
    ((19, 0, 1), f"0+1/1{'0' * 19}", f"0.{'0' * 18}1", f"1970-01-01T00:00:00.{'0' * 18}1Z"),
    ((0x80, 7, 0), "7+0/1", "7", "1970-01-01T00:00:07Z"),
    ((0x81, 0, 1), "0+1/2", "0.5", "1970-01-01T00:00:00.5Z"),
    ((0x8A, 0, 1_537), "1+513/1024", "1.5009765625", "1970-01-01T00:00:01.5009765625Z"),
    ((0xBF, 0, 1), "0+1/9223372036854775808", "0.000000000000000000108420217248550443400745280086994171142578125",
     "1970-01-01T00:00:00.000000000000000000108420217248550443400745280086994171142578125Z"),
    # before second 0: half a second, and a whole one
    ((6, -1, 500_000), "-1+500000/1000000", "-0.500000", "1969-12-31T23:59:59.500000Z"),
    ((6, -1, 0), "-1+0/1000000", "-1.000000", "1969-12-31T23:59:59.000000Z"),
    ((6, -2, 1), "-2+1/1000000", "-1.999999", "1969-12-31T23:59:58.000001Z"),
    # leap days, none in 1900 and 2100; ends of months and of years
    ((0, -2_203_891_200, 0), "-2203891200+0/1", "-2203891200", "1900-03-01T00:00:00Z"),
    ((0, -2_203_891_201, 0), "-2203891201+0/1", "-2203891201", "1900-02-28T23:59:59Z"),
    ((3, 951_825_600, 0), "951825600+0/1000", "951825600.000", "2000-02-29T12:00:00.000Z"),
    ((0, 951_868_800, 0), "951868800+0/1", "951868800", "2000-03-01T00:00:00Z"),
    ((0, 1_709_251_199, 0), "1709251199+0/1", "1709251199", "2024-02-29T23:59:59Z"),
    ((0, 4_107_542_400, 0), "4107542400+0/1", "4107542400", "2100-03-01T00:00:00Z"),
    ((0, 1_735_689_599, 0), "1735689599+0/1", "1735689599", "2024-12-31T23:59:59Z"),
    # the first and the last second with a date, and those beyond them
    ((0, -62_167_219_200, 0), "-62167219200+0/1", "-62167219200", "0000-01-01T00:00:00Z"),
    ((0, -62_162_035_201, 0), "-62162035201+0/1", "-62162035201", "0000-02-29T23:59:59Z"),
    ((1, -62_167_219_201, 9), "-62167219201+9/10", "-62167219200.1", "-62167219200.1"),
    ((6, 253_402_300_799, 999_999), "253402300799+999999/1000000", "253402300799.999999",
     "9999-12-31T23:59:59.999999Z"),
    ((6, 253_402_300_800, 0), "253402300800+0/1000000", "253402300800.000000", "253402300800.000000"),
    # the least time and the greatest
    ((19, -2**63, 0), f"-9223372036854775808+0/1{'0' * 19}", f"-9223372036854775808.{'0' * 19}",
     f"-9223372036854775808.{'0' * 19}"),
    ((0, 2**63 - 1, 2**64 - 1), "27670116110564327422+0/1", "27670116110564327422", "27670116110564327422"),
]


# Conversations of 28, 20, 60, 28 and 41 bytes: the one of 60 has 30 each way, and of the two of 28 the first began first. With --top, the one
# with the most bytes both ways comes first.
TALKS = of_link(101, at(1, WHOLE), at(2, "45000014 00010000 40ff0000 ffffffff ffffffff"), at(3, ICMP),
                at(4, "4500001c 00010000 40110000 0a000001 0a000001 00090007 00080000"),
                at(5, "45000029 00010000 40060000 0a000001 0a000002 00500050 00000000 00000000 50000000 00000000 00"),
                at(6, "4500001e 00010000 40010000 0a000002 0a000001 03e807d0 000a0000 6869"))
IN_ORDER = [f"udp {TALK} 1 28 backward 0 0 {times(SECOND)}", f"p255 255.255.255.255 255.255.255.255 forward 1 20 backward 0 0 {times('2+0/1000000')}",
            f"p1 10.0.0.1 10.0.0.2 forward 1 30 backward 1 30 {times('3+0/1000000', '6+0/1000000')}",
            f"udp 10.0.0.1:7 10.0.0.1:9 forward 0 0 backward 1 28 {times('4+0/1000000')}",
            f"tcp 10.0.0.1:80 10.0.0.2:80 forward 1 41 backward 0 0 {times('5+0/1000000')}"]
BY_BYTES = [IN_ORDER[place] for place in (2, 4, 0, 3, 1)]
REPORTED.append((TALKS, frames(counted=6, talks=IN_ORDER)))
# a number, and the conversations that have a line
TOPPED = [(1, BY_BYTES[:1]), (2, BY_BYTES[:2]), (3, BY_BYTES[:3]), (4, BY_BYTES[:4]), (5, BY_BYTES), (6, BY_BYTES), (4_294_967_295, BY_BYTES)]


def alone(kind, talk):
    """The end of the report of one frame, of that class."""
    return frames(talks=[f"{talk} backward 0 0 {times(SECOND)}"] if kind == "counted" else (), **{kind: 1})


def told_of(kind, why, talk, identification):
    """What `list --class` says of a frame of that class: `why` is the reason of one that is bad or cut, and where the data of a fragment begins."""
    if kind == "counted":
        return f"counted {talk}"
    return f"fragment identification {identification} fragment-offset {why}" if kind == "unjoined" else f"{kind} reason {why}"


# A capture, and what `list --class` says of each packet.
DESCRIBED = [
    (of_link(147, at(1, "00" * 20)), ["other-link"]), (of_link(1, at(1, "00" * 12 + "86dd")), ["not-ipv4"]), (of_link(101, at(1, "60")), ["not-ipv4"]),
    # frames that end inside the link header, or a tag; without one
    (of_link(1, at(1, "00" * 13), at(1, "00" * 13, 60)), ["short", "cut reason link-short"]),
    (of_link(113, at(1, "00" * 14 + "8100"), at(1, "00" * 14 + "8100", 60)), ["short", "cut reason link-short"]),
    (of_link(101, at(1, ""), at(1, "", 60)), ["short", "cut reason link-short"]),
    (of_link(228, at(1, ""), at(1, "60"), at(1, "", 60)), ["bad reason header-short", "bad reason header-short", "cut reason header-short"]),
    (vector("TAGGED_FRAMES").hex(), ["counted udp 10.0.0.1:1000 10.0.0.2:2000"] * 2 + ["bad reason udp-length"]),
    (vector("FRAGMENT_FRAMES").hex(), [f"fragment identification 7 fragment-offset {place}" for place in (16, 0, 0, 8)]),
    (of_link(1, at(1, TCP, 1514), at(1, TCP[:-2], 1514)), ["counted tcp 10.0.0.1:1000 10.0.0.2:2000", "cut reason tcp-short"]),
    # a total length of 0, as of a packet that the network card cuts up
    (of_link(101, at(1, "45000000 00010000 40060000 0a000001 0a000002 03e807d0 00000000")), ["bad reason length-zero"]),
    # the lesser end first: of the greater address to the lesser; of an address to itself by its ports; of a protocol without ports
    (of_link(101, at(1, "4500001c 00010000 40110000 0a000002 0a000001 00070009 00080000"),
             at(1, "4500001c 00010000 40110000 0a000001 0a000001 00090007 00080000"), at(1, "45000014 00010000 40ff0000 ffffffff 00000000")),
     ["counted udp 10.0.0.1:9 10.0.0.2:7", "counted udp 10.0.0.1:7 10.0.0.1:9", "counted p255 0.0.0.0 255.255.255.255"]),
]

# Byte 0 (version and header length), the total length, and flags and fragment offset of an IPv4 packet of 28 bytes; whether it was captured whole; its
# class; and behind that why it is bad or cut, or where the data of a fragment begins.
EDGES = [
    # version 5; headers of 4 words and of 8; totals below a header's length, at it, and above the packet's
    (0x55, 28, "0000", True, "bad version"), (0x44, 28, "0000", False, "bad header-length"), (0x48, 32, "0000", True, "bad header-short"),
    (0x48, 32, "0000", False, "cut header-short"), (0x45, 19, "0000", False, "bad length-short"), (0x45, 20, "0000", True, "counted"),
    (0x46, 23, "0000", False, "bad length-short"), (0x46, 24, "0000", True, "counted"),
    (0x45, 29, "0000", True, "bad beyond-frame"), (0x45, 29, "0000", False, "counted"),
    # the flag DF, and the reserved one
    (0x45, 28, "4000", True, "counted"), (0x45, 28, "8000", True, "counted"),
    # fragments in the middle: of 8 bytes, of none, of 7, and of more than were captured
    (0x45, 28, "2001", False, "unjoined 8"), (0x45, 20, "2001", True, "bad fragment-empty"), (0x45, 27, "2001", True, "bad fragment-block"),
    (0x45, 36, "2001", False, "cut fragment-cut"), (0x45, 36, "2001", True, "bad beyond-frame"), (0x45, 35, "2001", False, "bad fragment-block"),
    # last ones: of 7 bytes, and ending at 65,515 and 65,516
    (0x45, 27, "0001", True, "unjoined 8"), (0x45, 23, "1ffd", True, "unjoined 65512"), (0x45, 24, "1ffd", True, "bad fragment-beyond"),
]
ENDS = "192.168.1.2 198.51.100.3 forward 1"
for front, total, flags, is_whole, told in EDGES:
    kind, _, why = told.partition(" ")
    data, original = f"{front:02x}b1 00{total:02x} 1234 {flags} 3f84 0000 c0a80102 c6336403 a0a1a2a3 a4a5a6a7", 28 if is_whole else 1_514
    REPORTED.append((of_link(228, at(1, data, original)), alone(kind, f"p132 {ENDS} {original}")))
    DESCRIBED.append((of_link(228, at(1, data, original)), [told_of(kind, why, "p132 192.168.1.2 198.51.100.3", 0x1234)]))
# 19 bytes of a header, which are all, or not
for original, kind in ((19, "bad"), (20, "cut")):
    REPORTED.append((of_link(228, at(1, "45b1001c 12340000 3f840000 c0a80102 c63364", original)), alone(kind, "")))
    DESCRIBED.append((of_link(228, at(1, "45b1001c 12340000 3f840000 c0a80102 c63364", original)), [f"{kind} reason header-short"]))

# How long the data of a datagram of UDP or TCP is, what was captured of it, its class, and behind that why it is bad or cut.
PORTS = [
    ("udp", 10, "03e807d0 000a0000 6869", "counted"), ("udp", 10, "03e807d0 00080000 6869", "counted"),
    ("udp", 10, "03e807d0 00070000 6869", "bad udp-length"), ("udp", 10, "03e807d0 000b0000 6869", "bad udp-length"),
    ("udp", 11, "03e807d0 000b0000", "counted"), ("udp", 10, "03e807d0 000a00", "cut udp-short"), ("udp", 7, "03e807d0 000a00", "bad udp-short"),
    ("tcp", 20, "03e807d0 00000001 00000000 50100000 00000000", "counted"),
    ("tcp", 20, "03e807d0 00000001 00000000 40100000 00000000", "bad tcp-offset"),
    ("tcp", 23, "03e807d0 00000001 00000000 60100000 00000000", "bad tcp-offset"),
    ("tcp", 24, "03e807d0 00000001 00000000 60100000 00000000", "counted"),
    ("tcp", 20, "03e807d0 00000001 00000000 50100000 000000", "cut tcp-short"),
    ("tcp", 19, "03e807d0 00000001 00000000 50100000 000000", "bad tcp-short"),
]
for name, length, data, told in PORTS:
    kind, _, why = told.partition(" ")
    header = f"4500 {20 + length:04x} 00010000 40{dict(udp=17, tcp=6)[name]:02x} 0000 0a000001 0a000002"
    REPORTED.append((of_link(101, at(1, header + data, 20 + length)), alone(kind, f"{name} {TALK} 1 {20 + length}")))
    DESCRIBED.append((of_link(101, at(1, header + data, 20 + length)), [told_of(kind, why, f"{name} 10.0.0.1:1000 10.0.0.2:2000", 1)]))

# The worked fragments, between which frames come that are bad and cut, and change nothing; and before the last of which a whole datagram of their key
# comes, of whose 4 bytes of data 2 were captured, and drops the others. And 1,024 tags before a fragment.
FRAGMENTS = ["4500001c 00070002 40110000 0a000001 0a000002 b0b1b2b3 b4b5b6b7", "4500001c 00072000 40110000 0a000001 0a000002 03e807d0 00180000",
             "4500001c 00072000 40110000 0a000001 0a000002 03e907d1 00180000", "4500001c 00072001 40110000 0a000001 0a000002 a0a1a2a3 a4a5a6a7"]
SHORTENED = "45000018 00070000 40110000 0a000001 0a000002 6869"
REPORTED += [
    (of_link(228, at(1, FRAGMENTS[0]), at(1, "60"), at(1, "45", 60), at(1, FRAGMENTS[1][:-2], 28), at(1, SHORTENED),
             *(at(2, fragment) for fragment in FRAGMENTS[1:])),
     frames(cut=2, bad=2, counted=4, joined=1,
            talks=[f"udp 10.0.0.1:1001 10.0.0.2:2001 forward 4 112 backward 0 0 {times(SECOND, '2+0/1000000')}"])),
    (of_link(101, *(at(1, fragment) for fragment in FRAGMENTS[:3]), at(1, SHORTENED, 24), at(1, FRAGMENTS[3])), frames(bad=1, unjoined=4)),
    (of_link(1, at(1, "00" * 12 + "8100000a" * 1_024 + "0800" + FRAGMENTS[0])), frames(unjoined=1)),
]


def groups(count, *last):
    """So many fragments at 1 second, each of which opens a group, and another record."""
    opens = (f"4500001c {n:04x}2000 40110000 0a000001 0a000002 03e807d0 00100000" for n in range(count))
    return of_link(101, *(at(1, data) for data in opens), *last)


def rest(identification):
    return f"4500001c {identification:04x}0001 40110000 0a000001 0a000002 a0a1a2a3 a4a5a6a7"


# 1,024 groups are open at most: the oldest is given up for the next one. Groups that are too old don't count.
NEXT = "4500001c 04002000 40110000 0a000001 0a000002 03e807d0 00100000"
REPORTED += [
    (groups(1025), "files 1\nfile 1 pcap packets 1025 bytes 28700 truncated 0 skipped 0 first 1+0/1000000 last 1+0/1000000\n"
     "total packets 1025 bytes 28700 truncated 0\n" + frames(unjoined=1025, given_up=1)),
    (groups(1025, at(1, rest(0))), frames(unjoined=1026, given_up=2)),
    (groups(1025, at(1, rest(1))),
     frames(unjoined=1024, counted=2, joined=1, given_up=1, talks=[f"udp {TALK} 2 56 backward 0 0 {times(SECOND)}"])),
    (groups(1024, at(31, NEXT)), frames(unjoined=1025, given_up=1)),
    (groups(1024, at(31, NEXT, micros=1)), frames(unjoined=1025)),
]

# ---- IPv6, which `--ipv6` reads

A_6, B_6 = "20010db8 00000000 00000000 00000001", "20010db8 00000000 00000000 00000002"
TO_B, BARE = "[2001:db8::1]:1000 [2001:db8::2]:2000", "2001:db8::1 2001:db8::2"
# From port 1000 to port 2000: a datagram of UDP with 2 bytes, and a header of TCP.
UDP_6, TCP_6 = "03e807d0 000a0000 6869", "03e807d0 00000001 00000000 50100000 00000000"


def six(kind, data="", length=None, ends=f"{A_6} {B_6}", first="60000000"):
    """An IPv6 packet in hex: its next header, its payload, the length of that where it is another, and its ends."""
    size = len(bytes.fromhex(data)) if length is None else length
    return f"{first} {size:04x} {kind:02x}40 {ends} {data}"


def many(byte, count):
    return byte * count


# The numbers of the extension headers that count words of 8 bytes, and neighbours of all extension headers.
EIGHTS = (0, 43, 60, 135, 139, 140)
NO_EXTENSIONS = (1, 4, 41, 42, 45, 50, 52, 58, 59, 61, 132, 134, 136, 138, 141, 253, 254, 255)
REST = 1_514      # the original length of a packet of which a part was captured

# A packet behind link type 229, its original length where it wasn't captured whole, and what it is: its conversation,
# why it is bad or cut, or the
# identification of a fragment and where its data begins.
SIXES = [
    # no byte, and 39 of a header: whole, or not; 40 are a packet of no next header (59), also with another version's
    # first byte if there are 39
    ("", None, "bad header-short"), ("", REST, "cut header-short"), (six(59)[:-3], None, "bad header-short"),
    (six(59)[:-3], REST, "cut header-short"), (six(59)[:-3], 40, "cut header-short"),
    (six(59, first="40000000")[:-3], None, "bad header-short"),
    (six(59), None, f"counted p59 {BARE}"), (six(59), REST, f"counted p59 {BARE}"),
    # versions 4, 5, 7 and 15, also if the payload is too long; any class of traffic and any flow
    *((six(59, first=f"{version:x}0000000"), None, "bad version") for version in (0, 4, 5, 7, 15)),
    (six(59, first="40000000"), REST, "bad version"), (six(17, UDP_6, 11, first="70000000"), None, "bad version"),
    (six(17, UDP_6, first="6fffffff"), None, f"counted udp {TO_B}"),
    # a payload of all the bytes, of one more, and of one less, behind which is no data; one more was captured than the
    # frame had
    (six(17, UDP_6), None, f"counted udp {TO_B}"), (six(17, UDP_6, 11), None, "bad beyond-frame"),
    (six(17, UDP_6, 11), REST, f"counted udp {TO_B}"), (six(17, UDP_6, 9), None, "bad udp-length"),
    (six(17, UDP_6 + "00", 10), None, f"counted udp {TO_B}"), (six(17, UDP_6, 65_535), None, "bad beyond-frame"),
    (six(17, UDP_6, 65_535), REST, f"counted udp {TO_B}"), (six(17, UDP_6, 11), 40, "bad beyond-frame"),
    (six(17, UDP_6), 49, f"counted udp {TO_B}"),
    # a jumbogram (RFC 2675) has a payload of length 0, and so has no option that says more; nor has it ports
    (six(0, "1100c204 00010009" + UDP_6, 0), None, "bad extension-past"),
    (six(0, "1100c204 00010009" + UDP_6, 0), REST, "bad extension-past"),
    (six(17, "03e807d0 00000000" + many("00", 8), 0), None, "bad udp-short"),
    (six(59, UDP_6, 0), None, f"counted p59 {BARE}"),
    # one that says how long the rest is by a length of 0 in UDP
    (six(17, "03e807d0 00000000 6869"), None, "bad udp-length"),
    # each extension header of one word, of two, and of 256, the most
    *((six(kind, f"1100 000000000000 {UDP_6}"), None, f"counted udp {TO_B}") for kind in EIGHTS),
    *((six(kind, f"0601 {many('ff', 14)} {TCP_6}"), None, f"counted tcp {TO_B}") for kind in EIGHTS),
    *((six(kind, f"11ff {many('ff', 2_046)} {UDP_6}"), None, f"counted udp {TO_B}") for kind in EIGHTS),
    # an authentication header of two words of 4 bytes, of three, of six, and of 257
    (six(51, f"1100 000000000000 {UDP_6}"), None, f"counted udp {TO_B}"),
    (six(51, f"1101 {many('ff', 10)} {UDP_6}"), None, f"counted udp {TO_B}"),
    (six(51, f"1104 {many('ff', 22)} {UDP_6}"), None, f"counted udp {TO_B}"),
    (six(51, f"11ff {many('ff', 1_026)} {UDP_6}"), None, f"counted udp {TO_B}"),
    # no other number is an extension header's, ESP (50) not either: a conversation without ports
    *((six(kind, "1100 000000000000 03e807d0 000a0000 6869"), None, f"counted p{kind} {BARE}")
      for kind in NO_EXTENSIONS),
    *((six(60, f"{kind:02x}00 000000000000"), None, f"counted p{kind} {BARE}") for kind in (50, 58, 59, 255)),
    # ICMPv6: an echo request
    (six(58, "80000000 00010001 61626364"), None, f"counted p58 {BARE}"),
    # chains: all, with an authentication header of 24 bytes; each twice; hop-by-hop options behind others
    (six(0, "2b00 000000000000 2c00 000000000000 3c00 000000000000 3301 000000000000 0000000000000000 8704 " + many("00", 22)
         + "8b00 000000000000 8c00 000000000000 0600 000000000000" + TCP_6), None, f"counted tcp {TO_B}"),
    (six(60, "3c00 000000000000 0000 000000000000 0001 000000000000 0000000000000000 1100 000000000000" + UDP_6), None,
     f"counted udp {TO_B}"),
    (six(60, "3c00 000000000000" * 20 + "1100 000000000000" + UDP_6), None, f"counted udp {TO_B}"),
    # a header that ends with the payload, and ones that reach past it, by 8 bytes, by 4, and by what isn't there of the
    # least 8
    (six(60, "3b01 000000000000 0000000000000000"), None, f"counted p59 {BARE}"),
    (six(60, "3b02 000000000000 0000000000000000"), None, "bad extension-past"),
    (six(51, "3b01 000000000000 00000000"), None, f"counted p59 {BARE}"),
    (six(51, "3b02 000000000000 00000000"), None, "bad extension-past"),
    *((six(kind, "3b00 0000000000"), None, "bad extension-past") for kind in (*EIGHTS, 44, 51)),
    *((six(kind), None, "bad extension-past") for kind in (*EIGHTS, 44, 51)),
    (six(0, "3c00 000000000000"), None, "bad extension-past"),
    (six(0, "3c00 000000000000 3b00 0000000000"), None, "bad extension-past"),
    # and so behind the payload, where bytes are padding
    (six(0, "3c00 000000000000 3b00 000000000000", 8), None, "bad extension-past"),
    (six(0, "3b01 000000000000 0000000000000000", 8), None, "bad extension-past"),
    # captured in part: nothing of a header, one byte, all but one, and all; of one that reaches past the payload, its
    # first two bytes
    (six(60, "", 18), REST, "cut extension-cut"), (six(60, "", 8), REST, "cut extension-cut"),
    (six(60, "", 7), REST, "bad extension-past"),
    (six(60, "11", 18), REST, "cut extension-cut"), (six(60, "1100", 18), REST, "cut extension-cut"),
    (six(60, "1100 0000000000", 18), REST, "cut extension-cut"),
    (six(60, "1100 000000000000", 18), REST, "cut udp-short"),
    (six(60, "3b00 000000000000", 18), REST, f"counted p59 {BARE}"),
    (six(60, "1101", 16), REST, "cut extension-cut"), (six(60, "1101", 15), REST, "bad extension-past"),
    (six(60, "11", 15), REST, "cut extension-cut"),
    (six(51, "1102", 16), REST, "cut extension-cut"), (six(51, "1102", 15), REST, "bad extension-past"),
    (six(51, "1102 000000000000 00000000 000000", 26), REST, "cut extension-cut"),
    (six(0, "3c00 000000000000 11", 30), REST, "cut extension-cut"),
    (six(0, "3c00 000000000000", 15), REST, "bad extension-past"),
    # the second byte of a fragment header is no length
    (six(44, "11ff 0000 00000007" + UDP_6), None, f"counted udp {TO_B}"),
    (six(44, "11ff 0000 00000007", 18), REST, "cut udp-short"),
    # a whole datagram by its fragment header (RFC 6946), also with reserved bits, and without data; behind it the
    # headers go on
    (six(44, "1100 0000 00000007" + UDP_6), None, f"counted udp {TO_B}"),
    (six(44, "1100 0006 00000007" + UDP_6), None, f"counted udp {TO_B}"),
    (six(44, "3b00 0000 00000007"), None, f"counted p59 {BARE}"),
    (six(44, "3c00 0000 00000007 1100 000000000000" + UDP_6), None, f"counted udp {TO_B}"),
    # the first fragment, one between, and the last, of 8 bytes, and of 1; with reserved bits; of a greatest
    # identification
    (six(44, "1100 0001 00000007 03e807d0 00180000"), None, "fragment 7 0"),
    (six(44, "1100 0009 00000007 03e807d0 00180000"), None, "fragment 7 8"),
    (six(44, "1100 0010 00000007 03e807d0 00180000"), None, "fragment 7 16"),
    (six(44, "1100 0008 00000007 ff"), None, "fragment 7 8"),
    (six(44, "11ff 000f 00000007 03e807d0 00180000"), None, "fragment 7 8"),
    (six(44, "1100 0007 ffffffff 03e807d0 00180000"), None, "fragment 4294967295 0"),
    # without data; of 4, 7, 9 and 12 bytes, if more follow, and if not; of 16 and 24
    *((six(44, f"1100 {places} 00000007"), None, "bad fragment-empty") for places in ("0001", "0008", "0009", "fff9")),
    *((six(44, f"1100 {places} 00000007 {many('aa', size)}"), None, "bad fragment-block")
      for places in ("0001", "0009", "fff9") for size in (4, 7, 9, 12)),
    *((six(44, f"1100 0008 00000007 {many('aa', size)}"), None, "fragment 7 8") for size in (4, 7, 9, 12)),
    *((six(44, f"1100 0009 00000007 {many('aa', size)}"), None, "fragment 7 8") for size in (16, 24)),
    # that ends at 65,535, at 65,536, and at 65,528
    (six(44, f"1100 fff8 00000007 {many('aa', 7)}"), None, "fragment 7 65528"),
    (six(44, f"1100 fff8 00000007 {many('aa', 8)}"), None, "bad fragment-beyond"),
    (six(44, f"1100 fff9 00000007 {many('aa', 8)}"), None, "bad fragment-beyond"),
    (six(44, f"1100 fff1 00000007 {many('aa', 8)}"), None, "fragment 7 65520"),
    (six(44, f"1100 0018 00000007 {many('aa', 8)}", 65_519), REST, "fragment 7 24"),
    (six(44, f"1100 0020 00000007 {many('aa', 8)}", 65_519), REST, "bad fragment-beyond"),
    # what was captured of the data doesn't count, but of the header it does
    (six(44, "1100 0001 00000007", 24), REST, "fragment 7 0"),
    (six(44, "1100 0001 00000007", 23), REST, "bad fragment-block"),
    (six(44, "1100 0001 00000007", 8), REST, "bad fragment-empty"),
    (six(44, "1100 0001 000000", 24), REST, "cut extension-cut"),
    # the data of a fragment isn't looked at: no headers, no ports; of two fragment headers the first that is no whole
    # datagram's counts
    (six(44, "3c00 0008 00000007 11ff 000000000000"), None, "fragment 7 8"),
    (six(44, "0000 0001 00000007 11ff 000000000000"), None, "fragment 7 0"),
    (six(0, "2c00 000000000000 1100 0001 00000007 03e807d0 00180000"), None, "fragment 7 0"),
    (six(44, "2c00 0000 00000007 1100 0009 00000008 03e807d0 00180000"), None, "fragment 8 8"),
    (six(44, "2c00 0009 00000007 1100 0000 00000008 03e807d0 00180000"), None, "fragment 7 8"),
    (six(44, "2c00 0000 00000007 1100 0008 00000008"), None, "bad fragment-empty"),
    # the data of a fragment is the payload's rest, without padding
    (six(44, f"1100 0001 00000007 {many('aa', 8)} 00", 16), None, "fragment 7 0"),
    (six(44, f"1100 0001 00000007 {many('aa', 8)} 00"), None, "bad fragment-block"),
]
# the same of UDP and TCP as over IPv4, without a header before and behind one
for name, length, data, told in PORTS:
    told = f"counted {name} {TO_B}" if told == "counted" else told
    number = dict(udp=17, tcp=6)[name]
    SIXES.append((six(number, data, length), 40 + length, told))
    SIXES.append((six(60, f"{number:02x}00 000000000000 {data}", 8 + length), 48 + length, told))

# An address in hex, and its text by RFC 5952: of the RFC, of RFC 4291, and where runs of zeros begin, end, and are as
# long.
ADDRESSES = [
    ("20010db8 00000000 00010000 00000001", "2001:db8::1:0:0:1"),
    ("20010db8 00000000 00000000 00020001", "2001:db8::2:1"),
    ("20010db8 00000001 00010001 00010001", "2001:db8:0:1:1:1:1:1"),
    ("20010000 00000001 00000000 00000001", "2001:0:0:1::1"),
    ("20010db8 aaaabbbb ccccdddd eeeeaaaa", "2001:db8:aaaa:bbbb:cccc:dddd:eeee:aaaa"),
    ("20010db8 aaaabbbb ccccdddd eeee0001", "2001:db8:aaaa:bbbb:cccc:dddd:eeee:1"),
    ("20010db8 00000000 00000000 00000001", "2001:db8::1"), ("00000000 00000000 00000000 00000000", "::"),
    ("00000000 00000000 00000000 00000001", "::1"),
    ("00010000 00000000 00000000 00000000", "1::"), ("ff010000 00000000 00000000 00000101", "ff01::101"),
    ("20010db8 00000000 00080800 200c417a", "2001:db8::8:800:200c:417a"),
    ("abcdef01 23456789 abcdef01 23456789", "abcd:ef01:2345:6789:abcd:ef01:2345:6789"),
    ("fe800000 00000000 02001dff fe00abcd", "fe80::200:1dff:fe00:abcd"),
    # IPv4 in it has no form of its own
    ("00000000 00000000 0000ffff 01020304", "::ffff:102:304"), ("00000000 00000000 00000000 01020304", "::102:304"),
    ("0064ff9b 00000000 00000000 c0000221", "64:ff9b::c000:221"),
    ("00000000 00000000 0000ffff 00000000", "::ffff:0:0"), ("00000000 00000000 ffff0000 c0000221", "::ffff:0:c000:221"),
    # one zero stays, at each end too; two go, at each end and between; the first of two runs, and a later one that is
    # longer
    ("00000002 00030004 00050006 00070008", "0:2:3:4:5:6:7:8"),
    ("00010002 00030004 00050006 00070000", "1:2:3:4:5:6:7:0"),
    ("00000000 00030004 00050006 00070008", "::3:4:5:6:7:8"), ("00010002 00030004 00050006 00000000", "1:2:3:4:5:6::"),
    ("00010002 00030000 00000006 00070008", "1:2:3::6:7:8"),
    ("00010000 00000004 00000000 00070008", "1::4:0:0:7:8"), ("00000000 00030000 00000000 00070008", "0:0:3::7:8"),
    ("00000000 00000004 00050000 00000000", "::4:5:0:0:0"),
    ("00000000 00030004 00050000 00000000", "0:0:3:4:5::"), ("00000001 00000001 00000001 00000001", "0:1:0:1:0:1:0:1"),
    ("00010000 00010000 00010000 00010000", "1:0:1:0:1:0:1:0"),
    ("00000000 00000000 00000000 00010000", "::1:0"), ("00000001 00000000 00000000 00000000", "0:1::"),
    ("00000000 00000000 00000001 00000000", "::1:0:0"),
    ("ffffffff ffffffff ffffffff ffffffff", "ffff:ffff:ffff:ffff:ffff:ffff:ffff:ffff"),
    ("0fff00ff 000f0000 00000000 00000abc", "fff:ff:f::abc"),
    ("80000000 00000000 00000000 00000000", "8000::"), ("00100100 10000010 01001000 00100100",
                                                        "10:100:1000:10:100:1000:10:100"),
]
SIXES += [(six(59, ends=f"{address} {address}"), None, f"counted p59 {text} {text}") for address, text in ADDRESSES]
SIXES += [(six(17, UDP_6, ends=f"{address} {address}"), None, f"counted udp [{text}]:1000 [{text}]:2000") for address,
          text in ADDRESSES[:8]]


def frames_6(**counts):
    """The end of a report that reads IPv6."""
    return frames(**counts).replace(" not-ipv4 ", " not-ip ")


def alone_6(told, length):
    """The end of the report of one packet."""
    kind, _, rest = told.partition(" ")
    kind = "unjoined" if kind == "fragment" else kind
    return frames_6(talks=[f"{rest} forward 1 {length} backward 0 0 {times(SECOND)}"] if kind == "counted" else (),
                    **{kind: 1})


def told_of_6(told):
    """What `list --class` says of such a packet."""
    kind, _, rest = told.partition(" ")
    if kind == "counted":
        return told
    return "fragment identification {} fragment-offset {}".format(*rest.split()) if kind == "fragment" else f"{kind} reason {rest}"


# A capture, what `list --class --ipv6` says of each packet, if that is looked at, and the end of the report with
# `--ipv6`.
READ_6 = []
for data, original, told in SIXES:
    length = len(bytes.fromhex(data)) if original is None else original
    READ_6.append((of_link(229, at(1, data, original)), None, alone_6(told, length)))
READ_6.append((of_link(229, *(at(1, data, original) for data, original, _ in SIXES)),
               [told_of_6(told) for _, _, told in SIXES], ""))

# The link types: behind type fields of 86DD, also after tags; first bytes of version 6; 229. Where none of it leads to
# IPv6 all is as without
# the word, but for the name of the class `not-ip`.
ONE_UDP, THIS_UDP = six(17, UDP_6), f"counted udp {TO_B}"
MACS = "020000000002 020000000001"
FRAMED = [
    (1, f"{MACS} 86dd {ONE_UDP}", THIS_UDP), (1, f"{MACS} 8100 000a 86dd {ONE_UDP}", THIS_UDP),
    (1, f"{MACS} 88a8 0064 8100 000a 86dd {ONE_UDP}", THIS_UDP),
    (1, f"{MACS} {'8100000a' * 1_024} 86dd {ONE_UDP}", THIS_UDP),
    (1, f"{MACS} 86dd {ONE_UDP} {many('00', 20)}", THIS_UDP),
    (113, f"0000 0001 0006 0200000000010000 86dd {ONE_UDP}", THIS_UDP),
    (113, f"0000 0001 0006 0200000000010000 8100 000a 86dd {ONE_UDP}", THIS_UDP),
    (276, f"86dd 0000 00000001 0001 00 06 0200000000010000 {ONE_UDP}", THIS_UDP),
    (276, f"8100 0000 00000001 0001 00 06 0200000000010000 000a 86dd {ONE_UDP}", THIS_UDP),
    (101, ONE_UDP, THIS_UDP), (229, ONE_UDP, THIS_UDP),
    # no byte behind the type, and the first of a header; another version behind it; the type of IPv4 before IPv6, and
    # 86DD before IPv4
    (1, f"{MACS} 86dd", "bad header-short"), (1, f"{MACS} 86dd 60", "bad header-short"),
    (101, "60", "bad header-short"), (101, "6f", "bad header-short"),
    (1, f"{MACS} 86dd {UDP} {many('00', 10)}", "bad version"), (1, f"{MACS} 0800 {ONE_UDP}", "bad version"),
    (228, ONE_UDP, "bad version"),
    (113, f"{many('00', 14)} 86dd {six(59)}", f"counted p59 {BARE}"),
    (276, f"86dd {many('00', 18)} {six(59)}", f"counted p59 {BARE}"),
    # frames that end in the link header or in a tag, other networks, other versions, other link types
    (1, f"{MACS} 86", "short"), (1, f"{MACS} 8100 000a 86", "short"), (113, f"{many('00', 14)} 86", "short"),
    (276, f"86dd {many('00', 17)}", "short"), (101, "", "short"),
    (1, f"{MACS} 0806 {ONE_UDP}", "not-ip"), (1, f"{MACS} 86dc {ONE_UDP}", "not-ip"),
    (1, f"{MACS} 0026 {ONE_UDP}", "not-ip"), (1, f"{MACS} 9100 000a 86dd {ONE_UDP}", "not-ip"),
    (113, f"{many('00', 14)} 86de {ONE_UDP}", "not-ip"), (276, f"86de {many('00', 18)} {ONE_UDP}", "not-ip"),
    (101, f"50{ONE_UDP[2:]}", "not-ip"), (101, "70", "not-ip"),
    *((link, ONE_UDP, "other-link") for link in (0, 12, 14, 100, 102, 108, 147, 227, 230)),
    # IPv4 as ever
    (1, f"{MACS} 0800 {UDP}", "counted udp 10.0.0.1:1000 10.0.0.2:2000"),
    (101, UDP, "counted udp 10.0.0.1:1000 10.0.0.2:2000"),
    (228, UDP, "counted udp 10.0.0.1:1000 10.0.0.2:2000"), (228, "60", "bad header-short"),
    (229, UDP + many("00", 10), "bad version"),
]
for link, data, told in FRAMED:
    if " " in told:
        READ_6.append((of_link(link, at(1, data)), [told_of_6(told)], alone_6(told, len(bytes.fromhex(data)))))
    else:
        READ_6.append((of_link(link, at(1, data)), [told], frames_6(**{told.replace("not-ip", "not-ipv4").replace("-",
            "_"): 1})))

# Conversations of both networks in one table, in the order of their first units: both ways of UDP and of ICMPv6; the
# lesser address first, whatever the
# ports, as numbers and not as texts (10:: is greater than 9::, and 8000:: than 7fff::); an end to itself; an address
# that is as great a number as one of
# IPv4, and one that maps one.
UDP_BACK_6, B_TO_A = "07d003e8 000a0000 6869", f"{B_6} {A_6}"
ECHO, REPLY = six(58, "80000000 00010001 61626364"), six(58, "81000000 00010001 61626364", ends=B_TO_A)
ONE_4, ONE_6 = "00000001 00000002", "00000000 00000000 00000000 00000001 00000000 00000000 00000000 00000002"
SMALL_4 = f"4500001e 00010000 40110000 {ONE_4} 03e807d0 000a0000 6869"
MAPPED = "00000000 00000000 0000ffff 0a000001 00000000 00000000 0000ffff 0a000002"
MIXED = of_link(
    101, at(1, ONE_UDP), at(2, UDP), at(3, ECHO), at(4, six(17, UDP_BACK_6, ends=B_TO_A)), at(5, REPLY),
    at(6, six(6, TCP_6)),
    at(7, six(17, UDP_6, ends=B_TO_A)), at(8, SMALL_4), at(9, six(17, UDP_6, ends=ONE_6)),
    at(10, six(17, UDP_6, ends=MAPPED)),
    at(11, six(59, ends=f"0010{'0000' * 7} 0009{'0000' * 7}")),
    at(12, six(59, ends=f"8000{'0000' * 7} 7fff{'0000' * 7}")),
    at(13, six(17, UDP_BACK_6, ends=f"{A_6} {A_6}")), at(14, six(17, UDP_6, ends=f"{A_6} {A_6}")),
    at(15, six(6, TCP_6, ends=B_TO_A), 1_514))


def second(number, last=None):
    return times(f"{number}+0/1000000", f"{last or number}+0/1000000")


MIXED_TALKS = [
    f"udp {TO_B} forward 1 50 backward 1 50 {second(1, 4)}", f"udp {TALK} 1 30 backward 0 0 {second(2)}",
    f"p58 {BARE} forward 1 52 backward 1 52 {second(3, 5)}", f"tcp {TO_B} forward 1 60 backward 0 0 {second(6)}",
    f"udp [2001:db8::1]:2000 [2001:db8::2]:1000 forward 0 0 backward 1 50 {second(7)}",
    f"udp 0.0.0.1:1000 0.0.0.2:2000 forward 1 30 backward 0 0 {second(8)}",
    f"udp [::1]:1000 [::2]:2000 forward 1 50 backward 0 0 {second(9)}",
    f"udp [::ffff:a00:1]:1000 [::ffff:a00:2]:2000 forward 1 50 backward 0 0 {second(10)}",
    f"p59 9:: 10:: forward 0 0 backward 1 40 {second(11)}", f"p59 7fff:: 8000:: forward 0 0 backward 1 40 {second(12)}",
    f"udp [2001:db8::1]:1000 [2001:db8::1]:2000 forward 1 50 backward 1 50 {second(13, 14)}",
    f"tcp [2001:db8::1]:2000 [2001:db8::2]:1000 forward 0 0 backward 1 1514 {second(15)}",
]
COUNTED_6 = [0, 1, 2, 0, 2, 3, 4, 5, 6, 7, 8, 9, 10, 10, 11]      # the conversation of each packet
READ_6.append((MIXED, [f"counted {MIXED_TALKS[place].partition(' forward ')[0]}" for place in COUNTED_6],
               frames_6(counted=15, talks=MIXED_TALKS)))
# With --top, by the bytes both ways: 1,514, 104, 100, 100 and 60.
TOP_6 = [MIXED_TALKS[11], MIXED_TALKS[2], MIXED_TALKS[0], MIXED_TALKS[10], MIXED_TALKS[3]]

# From ::a to ::2, and from port 10 to port 9 of one address: ends are numbers, not texts.
TENTH = "00000000 00000000 00000000 0000000a"
READ_6.append((of_link(101, at(1, six(17, UDP_6, ends=f"{TENTH[:-8]}0000000a {TENTH[:-8]}00000002")),
                       at(2, six(17, "000a0009 00080000", ends=f"{TENTH} {TENTH}"))),
               ["counted udp [::2]:2000 [::a]:1000", "counted udp [::a]:9 [::a]:10"],
               frames_6(counted=2, talks=[f"udp [::2]:2000 [::a]:1000 forward 0 0 backward 1 50 {second(1)}",
                                          f"udp [::a]:9 [::a]:10 forward 0 0 backward 1 48 {second(2)}"])))

# Fragments of IPv6 are no groups: a datagram's two stay unjoined; 1,025 give none up, nor a group of IPv4; a whole
# datagram of IPv6 flushes none.
FIRST_6, LAST_6 = six(44, "1100 0001 00000009 03e807d0 00100000"), six(44, "1100 0008 00000009 a0a1a2a3 a4a5a6a7")
WHOLE_6 = six(44, "1100 0000 00000009 03e807d0 00080000")
READ_6 += [
    (of_link(101, at(1, FIRST_6), at(2, LAST_6)), ["fragment identification 9 fragment-offset 0",
                                                   "fragment identification 9 fragment-offset 8"],
     frames_6(unjoined=2)),
    (of_link(101, at(1, LAST), at(2, WHOLE_6), at(3, LAST_6), at(4, FIRST)),
     ["fragment identification 9 fragment-offset 8", f"counted udp {TO_B}",
      "fragment identification 9 fragment-offset 8",
      "fragment identification 9 fragment-offset 0"],
     frames_6(joined=1, unjoined=1, counted=3, talks=[f"udp {TO_B} forward 1 56 backward 0 0 {second(2)}",
                                                      f"udp {TALK} 2 56 backward 0 0 {second(1, 4)}"])),
    (of_link(101, at(1, LAST), *(at(1, six(44, f"1100 0001 {n:08x} 03e807d0 00100000")) for n in range(1_025)),
             at(1, FIRST)), None,
     frames_6(joined=1, unjoined=1_025, counted=2, talks=[f"udp {TALK} 2 56 backward 0 0 {times(SECOND)}"])),
    # one without a time, and two link types
    (f"{SECTION} {interface(link='e500', snaplen='00000000')} {OF_IP} 03000000 44000000 32000000 {ONE_UDP} 0000 44000000 "
     f"06000000 54000000 01000000 00000000 40420f00 32000000 32000000 {six(17, UDP_BACK_6, ends=B_TO_A)} 0000 54000000",
     [f"counted udp {TO_B}"] * 2, frames_6(counted=2,
                                           talks=[f"udp {TO_B} forward 1 50 backward 1 50 {times(SECOND)}"])),
]

# Packets of each kind, and what is printed of them with --json.
SIX = of_link(101, at(1, ONE_UDP), at(2, UDP), at(3, REPLY), at(4, "70"), at(5, FIRST_6), at(6, "60"))
JSON_ENDS = '"a":{"address":"%s","port":1000},"b":{"address":"%s","port":2000}'
ENDS_JSON = [f'"protocol":17,{JSON_ENDS % ("2001:db8::1", "2001:db8::2")}',
             f'"protocol":17,{JSON_ENDS % ("10.0.0.1", "10.0.0.2")}',
             '"protocol":58,"a":{"address":"2001:db8::1"},"b":{"address":"2001:db8::2"}']
SIX_JSON = "".join((
    '{"type":"files","files":1}\n',
    '{"type":"file","file":1,"format":"pcap","packets":6,"bytes":190,"truncated":0,"skipped":0,"first":[1,0,1000000],"last":[6,0,1000000],"cut":false}\n',
    '{"type":"total","packets":6,"bytes":190,"truncated":0}\n',
    '{"type":"frames","other_link":0,"not_ip":1,"short":0,"cut":0,"bad":1,"unjoined":1,"counted":3}\n',
    '{"type":"joined","joined":0,"given_up":0}\n', '{"type":"talks","talks":3}\n',
    f'{{"type":"talk",{ENDS_JSON[0]},"forward":{{"packets":1,"bytes":50}},"backward":{{"packets":0,"bytes":0}},"first":[1,0,1000000],"last":[1,0,1000000]}}\n',
    f'{{"type":"talk",{ENDS_JSON[1]},"forward":{{"packets":1,"bytes":30}},"backward":{{"packets":0,"bytes":0}},"first":[2,0,1000000],"last":[2,0,1000000]}}\n',
    f'{{"type":"talk",{ENDS_JSON[2]},"forward":{{"packets":0,"bytes":0}},"backward":{{"packets":1,"bytes":52}},"first":[3,0,1000000],"last":[3,0,1000000]}}\n'))
SIX_CLASSES_JSON = "".join(
    f'{{"type":"packet","n":{n},"offset":{offset},"time":[{n},0,1000000],"captured":{size},"original":{size},"link":101,"data":"","class":{told}}}\n'
    for n, (offset, size, told) in enumerate((
        (24, 50, f'"counted",{ENDS_JSON[0]}'), (90, 30, f'"counted",{ENDS_JSON[1]}'),
        (136, 52, f'"counted",{ENDS_JSON[2]}'), (204, 1, '"not-ip"'),
        (221, 56, '"fragment","identification":9,"fragment_offset":0'), (293, 1, '"bad","reason":"header-short"')), 1))
SIX_TALKS = [f"udp {TO_B} forward 1 50 backward 0 0 {second(1)}", f"udp {TALK} 1 30 backward 0 0 {second(2)}",
             f"p58 {BARE} forward 0 0 backward 1 52 {second(3)}"]
SIX_HEAD = "files 1\nfile 1 pcap packets 6 bytes 190 truncated 0 skipped 0 first 1+0/1000000 last 6+0/1000000\ntotal packets 6 bytes 190 truncated 0\n"
SIX_UNREAD = SIX_HEAD + frames(not_ipv4=5, counted=1, talks=SIX_TALKS[1:2])
SIX_TEXT = SIX_HEAD + frames_6(not_ipv4=1, bad=1, unjoined=1, counted=3, talks=SIX_TALKS)

# Captures of which some have IPv6, in another order than their times, and the end of their report.
TOGETHER_6 = [
    ([of_link(101, at(2, UDP), at(4, UDP)), of_link(229, at(1, ONE_UDP), at(3, six(17, UDP_BACK_6, ends=B_TO_A)))],
     frames_6(counted=4, talks=[f"udp {TO_B} forward 1 50 backward 1 50 {second(1, 3)}",
                                f"udp {TALK} 2 60 backward 0 0 {second(2, 4)}"])),
    ([SIX, of_link(1, at(7, f"{MACS} 86dd {ECHO}"))],
     frames_6(not_ipv4=1, bad=1, unjoined=1, counted=4,
              talks=[*SIX_TALKS[:2], f"p58 {BARE} forward 1 66 backward 1 52 {second(3, 7)}"])),
]


def some_addresses(count):
    """Pairs of addresses at random, many of their groups zero, in the order of their numbers; none maps IPv4, which Python has another text for."""
    rng, pairs = random.Random("addresses"), []
    while len(pairs) < count:
        groups = [rng.choice((0, 0, 0, 0, 1, 0xFFFF, rng.randrange(16), rng.randrange(2**16))) for _ in range(16)]
        ends = [ipaddress.IPv6Address(struct.pack(">8H", *groups[at:at + 8])) for at in (0, 8)]
        if not any(end.ipv4_mapped for end in ends):
            pairs.append(sorted(ends))
    return list(dict.fromkeys(map(tuple, pairs)))


# ----

# How the 8,189 blocks of 8 bytes of a datagram come: rising, falling, every other one and then the rest, also falling, and in any order, by a
# generator whose period is all of 2^13 numbers.
NUMBERS = [815]
while len(NUMBERS) < 8_192:
    NUMBERS.append((NUMBERS[-1] * 1_397 + 4_051) % 8_192)
RISING = range(8_189)
ORDERS = [RISING, RISING[::-1], [*RISING[::2], *RISING[1::2]], [*RISING[::2], *RISING[1::2][::-1]], [n for n in NUMBERS if n < 8_189]]


def joined(data, order):
    """A capture of the fragments of 8 bytes that a datagram's data has, of which the last may be longer, in an order of their numbers; what `join` writes
    of them, at the time of the last that comes, and the end of their report."""
    pieces = [data[8 * n:8 * n + 8] for n in RISING[:-1]] + [data[8 * 8_188:]]
    fragments = [datagram(pieces[n], 8 * n, n < 8_188, 5, 253) for n in order]
    whole = datagram(data, 0, False, 5, 253)
    total = sum(struct.unpack(">10H", whole[:20]))
    whole = whole[:10] + struct.pack(">H", 0xFFFF - total % 0xFFFF) + whole[12:]
    text = frames(counted=8_189, joined=1, talks=[f"p253 10.0.0.1 10.0.0.2 forward 8189 {20 * 8_189 + len(data)} backward 0 0 {times(SECOND)}"])
    return (pcap_header(101) + b"".join(record(1, fragment) for fragment in fragments),
            bytes.fromhex(SECTION + WRITTEN_OF_IP) + packet(0, 1_000_000, whole), text.encode())


# The last of these has the most bytes that a datagram can have.
JOINED = [joined(b"".join(struct.pack(">H6s", n, bytes(range(1, 7))) for n in RISING), order) for order in ORDERS]
JOINED.append(joined(b"".join(bytes([2 - n % 2]) * 8 for n in RISING[:-1]) + b"\x03" * 11, [*RISING[1:-1:2], *RISING[:-1:2], 8_188]))

def of_units(code, *units, data="0a", link="0100"):
    """A pcapng file of packets at so many units of that resolution, of one interface, whose block takes 28 bytes."""
    form = interface(f"0900 0100 {code:02x}000000", link)
    return f"{SECTION} {form}" + "".join(packet(0, number, bytes.fromhex(data)).hex() for number in units)


SIMPLE = "03000000 14000000 04000000 01020304 14000000"
MICRO_255, NANO = MICRO_LITTLE.replace("00000400", "ff000000"), MICRO_LITTLE.replace("d4c3b2a1", "4d3cb2a1")
NO_PACKET = "file 1 offset 0 rule 21 no-interface"
# Seconds from 2^32 - 1 on.
LAST_SECOND = interface("0e00 0800 ffffffff00000000")

# Captures, the canonical text of each, and how many packets it has. The text has of each packet the link type in 2 bytes, the captured and the original
# length in 4 each, the seconds in 16, the numerator and the denominator of the fraction in 8 each, and the captured bytes.
HALF = "0000000000000001 0000000000000002"
CARRIED_TEXT = f"0001 00000004 00000004 00000000000000000000000000000002 {HALF} 01020304"
DIGESTED = [
    # the same packet in each format and order, and in a microsecond's units and a tenth of a second's
    *(([content], [CARRIED_TEXT], [1]) for content in (vector("CARRY_PCAP").hex(), CARRIED, CARRIED_BIG, CARRY_BIG,
                                                       f"{SECTION} {INTERFACE} {enhanced(0)}", of_units(1, 25, data="01020304"))),
    # half a second before 1970 began; 13/32 of a second in 1,024 units
    ([f"{SECTION} {interface('0e00 0800 fdffffffffffffff')} {enhanced(0)}"],
     [f"0001 00000004 00000004 ffffffffffffffffffffffffffffffff {HALF} 01020304"], [1]),
    ([f"{SECTION} {interface('0900 0100 8a000000')} {enhanced(0)}"],
     ["0001 00000004 00000004 00000000000000000000000000000989 000000000000000d 0000000000000020 01020304"], [1]),
    # whole seconds; 1 of 60 bytes that were captured, and none of 60
    ([of_link(101, at(1, "0a", 60), at(2, "", 60))],
     ["0065 00000001 0000003c 00000000000000000000000000000001 0000000000000000 0000000000000001 0a"
      "0065 00000000 0000003c 00000000000000000000000000000002 0000000000000000 0000000000000001"], [2]),
    # the greatest seconds, and the least: 2^64 - 1 after second 2^63 - 1, and second -2^63
    ([f"{SECTION} {interface('0900 0100 00000000 0e00 0800 ffffffffffffff7f')}{packet(0, 2**64 - 1, b'').hex()}"],
     ["0001 00000000 00000000 0000000000000001 7ffffffffffffffe 0000000000000000 0000000000000001"], [1]),
    ([f"{SECTION} {interface('0900 0100 00000000 0e00 0800 0000000000000080')}{packet(0, 0, b'').hex()}"],
     ["0001 00000000 00000000 ffffffffffffffff 8000000000000000 0000000000000000 0000000000000001"], [1]),
    # no time, 4 of 10 bytes; no packet; and three files
    ([f"{SECTION} {interface(snaplen='04000000')} 03000000 14000000 0a000000 01020304 14000000"], [f"0001 00000004 0000000a {'00' * 32} 01020304"],
     [1]),
    ([ETHERNET], [""], [0]),
    ([ETHERNET, CARRIED, OBSOLETE], ["", CARRIED_TEXT, CARRIED_TEXT], [0, 1, 1]),
]


def digests(texts, packets, end=""):
    """The lines of files whose packets have these canonical texts, and which end so."""
    return "".join(f"digest {n} sha256 {hashlib.sha256(bytes.fromhex(text)).hexdigest()} packets {count}{end}\n"
                   for n, (text, count) in enumerate(zip(texts, packets), 1))


CARRIED_DIGEST = hashlib.sha256(bytes.fromhex(CARRIED_TEXT)).hexdigest()
NO_DIGEST = hashlib.sha256().hexdigest()


def digested(*ends, names=()):
    """The lines of files that end so: CARRIED if that is `whole`, else one that isn't whole. They name the files or don't."""
    named = [f" name {name}" for name in names] or [""] * len(ends)
    return "".join(f"digest {n} {f'sha256 {CARRIED_DIGEST} packets 1' if end == 'whole' else end}{name}\n"
                   for n, (end, name) in enumerate(zip(ends, named), 1))


# Captures of which some are refused, and how each ends.
NOT_DIGESTED = [
    ([CUT], ["refused offset 24 rule 3 cut"]),
    ([CARRIED, "00000000", CUT], ["whole", "refused offset 0 rule 1 magic", "refused offset 24 rule 3 cut"]),
    ([CARRIED, CUT, CARRIED], ["whole", "refused offset 24 rule 3 cut", "whole"]),
    ([CARRIED] * 32 + [CUT, CARRIED], [*["whole"] * 32, "refused offset 24 rule 3 cut", "whole"]),
]



def facts(form, packets=0, backward=0, untimed=0, truncated=0, skipped=0, interfaces=1, size=0, first="-", last="-"):
    """What the line of a file that is checked has between its number and its end."""
    return (f"{form} packets {packets} bytes {size} first {first} last {last} backward {backward} untimed {untimed} "
            f"truncated {truncated} skipped {skipped} interfaces {interfaces}")


def sections(*numbers):
    """A section for each number, with that many interfaces."""
    return " ".join(f"{SECTION} {PLAIN * number}" for number in numbers)


def spanned(first, last=None):
    """The least and the greatest time of packets, which are the same where only one is given."""
    return {"first": first, "last": last or first}


UNKNOWN, NO_PCAP = facts("-", interfaces=0), facts("pcap")
OF_4 = {"size": 4, **spanned("2+500000/1000000")}       # a packet of 4 bytes at 2.5 seconds
ONE_PCAP, ONE_PCAPNG = facts("pcap", 1, **OF_4), facts("pcapng", 1, **OF_4)
CARRY, SKIPPED = vector("CARRY_PCAP").hex(), "01000040 10000000 00000000 10000000"
CUT_AT_24 = f"{NO_PCAP} refused offset 24 rule 3 cut"
BEFORE_1970 = interface("0e00 0800 ffffffffffffffff")       # by a second
REFUSED_AT = {0: UNKNOWN, 24: NO_PCAP, 28: facts("pcapng", interfaces=0), 48: facts("pcapng")}
IN_1024 = interface("0900 0100 8a000000")       # 28 bytes


def units(number, interface=0):
    """A packet without bytes, of an interface of a section, 32 bytes."""
    return packet(interface, number, b"").hex()


# Captures, whether a cut end is accepted, and the line of each that is checked, from the format on.
CHECKED = [
    # the files of `info` above: an obsolete packet, a simple one in part and without a time, a skipped block, no packet
    ([OBSOLETE], False, [f"{ONE_PCAPNG} whole"]),
    ([TOLD_OF[1][0]], False, [f"{facts('pcapng', 1, untimed=1, truncated=1, size=10)} whole"]),
    ([TOLD_OF[2][0]], False, [f"{facts('pcapng', 1, skipped=1, **OF_4)} whole"]),
    ([TOLD_OF[3][0]], False, [f"{facts('pcapng', interfaces=0)} whole"]), ([ETHERNET], False, [f"{NO_PCAP} whole"]),
    # and those that `info` refuses: each has its line, and so has each file after it
    ([CUT], False, [CUT_AT_24]), ([CUT], True, [f"{NO_PCAP} whole cut"]),
    *(([""], allow_cut, [f"{UNKNOWN} refused offset 0 rule 3 cut"]) for allow_cut in (False, True)),
    ([CARRY, "00000000", CUT], False, [f"{ONE_PCAP} whole", f"{UNKNOWN} refused offset 0 rule 1 magic", CUT_AT_24]),
    ([CARRY, CUT, "00000000"], False, [f"{ONE_PCAP} whole", CUT_AT_24, f"{UNKNOWN} refused offset 0 rule 1 magic"]),
    *(([CARRY] * before + [CUT] + [CARRY] * (31 - before), False,
       [f"{ONE_PCAP} whole"] * before + [CUT_AT_24] + [f"{ONE_PCAP} whole"] * (31 - before)) for before in range(32)),
    # those that `list` refuses: in the file header, the first record, the block after the section or after an interface
    *(([content], allow_cut, [f"{REFUSED_AT[int(told.split()[0])]} refused offset {told}"])
      for content, allow_cut, told in NOT_LISTED),
    # those that it lists: two sections with an interface each, and packets at one time; and one packet each
    ([LISTED[0][0]], False, [f"{facts('pcapng', 2, interfaces=2, size=8, **spanned('2+500000/1000000'))} whole"]),
    *(([LISTED[n][0]], False, [f"{facts('pcapng', 1, size=4, **spanned(time))} whole"])
      for n, time in ((1, "1+500000/1000000"), (2, "2441+416/1024"), (3, "2+500000/1000000"))),
    # seconds 5, 1, 5, 2, 6, 6: 1 and 2 are below the greatest before them
    ([of_link(1, *(at(second, "") for second in (5, 1, 5, 2, 6, 6)))], False,
     [f"{facts('pcap', 6, 2, **spanned('1+0/1000000', '6+0/1000000'))} whole"]),
    # the least time first, the greatest first, and neither; of 3, 200 and 70,000 original bytes
    ([of_link(1, at(1, "", 3), at(2, "", 200), at(9, "", 70_000))], False,
     [f"{facts('pcap', 3, truncated=3, size=70_203, **spanned('1+0/1000000', '9+0/1000000'))} whole"]),
    ([of_link(1, at(9, ""), at(2, ""), at(1, ""))], False, [f"{facts('pcap', 3, 2, **spanned('1+0/1000000', '9+0/1000000'))} whole"]),
    ([of_link(1, at(2, ""), at(9, ""), at(1, ""), at(3, ""))], False,
     [f"{facts('pcap', 4, 2, **spanned('1+0/1000000', '9+0/1000000'))} whole"]),
    # three packets of 2^32 - 1 original bytes, more in all than 32 bits hold
    ([of_link(1, *[at(1, "", 2**32 - 1)] * 3)], False,
     [f"{facts('pcap', 3, truncated=3, size=12_884_901_885, **spanned('1+0/1000000'))} whole"]),
    # of each file by itself
    ([of_link(1, at(5, "")), of_link(1, at(1, ""))], False,
     [f"{facts('pcap', 1, **spanned(f'{second}+0/1000000'))} whole" for second in (5, 1)]),
    # 2.5 seconds, and on another interface 2 + 512/1,024, and then 2 + 511/1,024, which alone is below; and half a second
    # in 1,024ths, and then in millionths: of equal times the first is printed
    ([f"{SECTION} {PLAIN} {IN_1024} {units(2_500_000)} {units(2_560, 1)} {units(2_559, 1)} {units(2_500_000)}"], False,
     [f"{facts('pcapng', 4, 1, interfaces=2, **spanned('2+511/1024', '2+500000/1000000'))} whole"]),
    ([f"{SECTION} {PLAIN} {IN_1024} {units(600_000)} {units(512, 1)} {units(500_000)} {units(600_000)}"], False,
     [f"{facts('pcapng', 4, 2, interfaces=2, **spanned('0+512/1024', '0+600000/1000000'))} whole"]),
    # a microsecond before 1970, and half a second before that one
    ([f"{SECTION} {BEFORE_1970} {units(999_999)} {units(499_999)} {units(1_000_000)}"], False,
     [f"{facts('pcapng', 3, 1, **spanned('-1+499999/1000000', '0+0/1000000'))} whole"]),
    # packets without a time, first and between others: the last is below the first that has one
    ([f"{SECTION} {PLAIN} {SIMPLE} {units(5)} {SIMPLE} {units(4)}"], False,
     [f"{facts('pcapng', 4, 1, 2, size=8, **spanned('0+4/1000000', '0+5/1000000'))} whole"]),
    # captured in part: 1 of 60 bytes and 0 of 1; 2 of 1 bytes aren't
    ([of_link(1, at(1, "0a", 60), at(1, "0a0b", 1), at(1, "", 1))], False,
     [f"{facts('pcap', 3, truncated=2, size=62, **spanned('1+0/1000000'))} whole"]),
    # interfaces of all sections, of which none has a packet
    ([sections(3, 0, 2)], False, [f"{facts('pcapng', interfaces=5)} whole"]),
    ([f"{sections(3)} {units(1, 1)} {SKIPPED} {sections(2)} {SKIPPED} {units(2, 0)}"], False,
     [f"{facts('pcapng', 2, skipped=2, interfaces=5, **spanned('0+1/1000000', '0+2/1000000'))} whole"]),
    # as of a refusal: a packet of interface 2 if there are 0 and 1, behind 28 + 3 * 20 + 32 + 16 + 28 + 2 * 20 bytes;
    # an interface whose units are too fine, behind another; a section of version 1.1, behind a packet and a skipped one
    ([f"{sections(3)} {units(1, 1)} {SKIPPED} {sections(2)} {units(2, 2)} {SKIPPED}", CARRY], False,
     [f"{facts('pcapng', 1, skipped=1, interfaces=5, **spanned('0+1/1000000'))} refused offset 204 rule 9 interface-unknown",
      f"{ONE_PCAP} whole"]),
    ([f"{sections(1)} {interface('0900 0100 14000000')} {PLAIN}"], False,
     [f"{facts('pcapng')} refused offset 48 rule 12 resolution"]),
    ([f"{sections(1)} {units(1)} {SKIPPED} {SECTION.replace('01000000 ff', '01000100 ff')}"], False,
     [f"{facts('pcapng', 1, skipped=1, **spanned('0+1/1000000'))} refused offset 96 rule 2 version"]),
    # of a record that is cut, of an interface, of a skipped block, and of a second section: what came before it
    ([of_link(1, at(5, ""), at(1, "", 9)) + "00"], True,
     [f"{facts('pcap', 2, 1, truncated=1, size=9, **spanned('1+0/1000000', '5+0/1000000'))} whole cut"]),
    *(([f"{sections(2)} {units(1)} {rest[:-2]}"], allow_cut, [f"{facts('pcapng', 1, interfaces=2, **spanned('0+1/1000000'))} {end}"])
      for rest in (PLAIN, SKIPPED, SECTION)
      for allow_cut, end in ((True, "whole cut"), (False, "refused offset 100 rule 3 cut"))),
    # a first section that is cut is none
    *(([SECTION[:-2]], allow_cut, [f"{UNKNOWN} refused offset 0 rule 3 cut"]) for allow_cut in (False, True)),
]

# Captures that are merged as pcap, what is written of them, and how that is refused, if it is.
MERGED_AS_PCAP = [
    ([of_link(1, at(2, "0a")), of_link(1, at(1, "0b", 60))], of_link(1, at(1, "0b", 60), at(2, "0a")), None),
    ([f"{SECTION} {INTERFACE} {enhanced(0)}", of_link(1, at(1, "0b"))], of_link(1, at(1, "0b"), at(2, "01020304", micros=500_000)), None),
    # the snaplen of the first packet's interface, and its fraction; each unit of a tenth of a second is whole in microseconds
    ([f"{SECTION} {interface(snaplen='ff000000')} {enhanced(0)}", of_link(1, at(3, "0b"))],
     f"{MICRO_255} 01000000 {at(2, '01020304', micros=500_000)} {at(3, '0b')}", None),
    ([of_units(9, 1), of_link(1, at(1, "0b", micros=5))], f"{NANO} 01000000 {at(0, '0a', micros=1)} {at(1, '0b', micros=5_000)}", None),
    ([of_units(1, 5), of_units(9, 2_000_001_000)], of_link(1, at(0, "0a", micros=500_000), at(2, "0a", micros=1)), None),
    # times that aren't whole: in the first packet's fraction, and in none
    ([of_link(1, at(0, "0b")), of_units(9, 1_000_000_001, 2_000_000_000)], of_link(1, at(0, "0b")), "file 2 offset 56 rule 19 inexact"),
    ([of_units(138, 1)], f"{NANO} 01000000", "file 1 offset 56 rule 19 inexact"),
    # a second link, also if its time isn't whole
    ([of_link(1, at(1, "0a"), at(3, "0c")), of_link(101, at(2, "0b"))], of_link(1, at(1, "0a")), "file 2 offset 24 rule 18 link-mixed"),
    ([of_link(1, at(1, "0a")), of_units(9, 1_000_000_001, link="6500")], of_link(1, at(1, "0a")), "file 2 offset 56 rule 18 link-mixed"),
    # the last second, and the one after it
    ([of_link(1, at(1, "0a")), f"{SECTION} {LAST_SECOND}" + packet(0, 0, b"\x0b").hex() + packet(0, 1_000_000, b"\x0b").hex()],
     of_link(1, at(1, "0a"), at(2**32 - 1, "0b")), "file 2 offset 96 rule 20 time-range"),
    # a packet without a time, before one that has one, and behind it
    ([of_link(1, at(1, "0a")), f"{SECTION} {PLAIN} {SIMPLE}"], "", "file 2 offset 48 rule 17 no-time"),
    ([f"{SECTION} {PLAIN} {enhanced(0)} {SIMPLE}"], of_link(1, at(2, "01020304", micros=500_000)), "file 1 offset 84 rule 17 no-time"),
    # no packet; a file that is none, before the first packet; a rest behind the last
    ([ETHERNET, f"{SECTION} {PLAIN}"], "", NO_PACKET),
    ([of_link(1, at(1, "0a")), "00000000"], "", "file 2 offset 0 rule 1 magic"),
    ([of_link(1, at(1, "0a")), of_link(1, at(2, "0b")) + "00000000"], of_link(1, at(1, "0a"), at(2, "0b")), "file 2 offset 41 rule 3 cut"),
]

# The same of their datagrams: UDP with its header's checksum.
WHOLE_UDP = "4500001e 00010000 401166cc 0a000001 0a000002 03e807d0 000a0000 6869"
RAW, NANO_RAW = (f"{header[:36]} 00000000 65000000" for header in (MICRO_LITTLE, NANO))
JOINED_AS_PCAP = [
    ([vector("FRAGMENT_FRAMES").hex()], vector("JOINED_PCAP").hex(), None),
    # of two links, in the fraction of the first datagram, not of the first packet
    ([of_link(1, at(1, f"{'00' * 12} 0800 {UDP}")), of_link(101, at(2, UDP))], f"{RAW} {at(1, WHOLE_UDP)} {at(2, WHOLE_UDP)}", None),
    ([of_units(9, 1, data="00" * 13), of_link(101, at(2, UDP))], f"{RAW} {at(2, WHOLE_UDP)}", None),
    ([of_units(9, 1_000_000_001, data=UDP, link="6500"), of_link(101, at(2, UDP, micros=5))],
     f"{NANO_RAW} {at(1, WHOLE_UDP, micros=1)} {at(2, WHOLE_UDP, micros=5_000)}", None),
    ([of_link(101, at(1, UDP)), of_units(9, 1_000_000_001, data=UDP, link="6500")], f"{RAW} {at(1, WHOLE_UDP)}",
     "file 2 offset 56 rule 19 inexact"),
    ([of_units(138, 1, data=UDP, link="6500")], NANO_RAW, "file 1 offset 56 rule 19 inexact"),
    ([of_link(101, at(1, UDP)), f"{SECTION} {LAST_SECOND}" + packet(0, 1_000_000, bytes.fromhex(f"{'00' * 12} 0800 {UDP}")).hex()],
     f"{RAW} {at(1, WHOLE_UDP)}", "file 2 offset 60 rule 20 time-range"),
    # a packet without a time, whatever it holds; no datagram, at the end and at a refusal
    ([f"{SECTION} {PLAIN} {SIMPLE}"], "", "file 1 offset 48 rule 17 no-time"),
    ([of_link(1, at(1, "00" * 13)), of_link(101, at(1, FRAGMENTS[0]))], "", NO_PACKET),
    ([of_link(101, at(1, FRAGMENTS[0])) + "00"], "", "file 1 offset 68 rule 3 cut"),
]

# The same in the unit of time that is asked for, with the task.
CARRIED_NANO = f"{NANO} 01000000 {at(2, '01020304', micros=500_000_000)}"
IN_UNITS = [
    ("pcap-micro", [CARRIED], CARRIED, None), ("pcap-nano", [CARRIED], CARRIED_NANO, None),
    ("pcap-nano", [CARRIED_NANO], CARRIED_NANO, None),
    ("pcap-micro", [CARRIED_NANO], CARRIED, None), ("pcap-nano", [vector("CARRY_PCAPNG").hex()], CARRIED_NANO, None),
    # times in nanoseconds that are whole microseconds, and one that isn't
    ("pcap-micro", [of_units(9, 2_000_001_000)], of_link(1, at(2, "0a", micros=1)), None),
    ("pcap-micro", [of_units(9, 2_000_001_000, 2_000_001_001)], of_link(1, at(2, "0a", micros=1)),
     "file 1 offset 92 rule 19 inexact"),
    # 512, 8 and 1 of 1,024 parts of a second
    ("pcap-micro", [of_units(138, 512, 8)], of_link(1, at(0, "0a", micros=500_000)),
     "file 1 offset 92 rule 19 inexact"),
    ("pcap-nano", [of_units(138, 8, 1)], f"{NANO} 01000000 {at(0, '0a', micros=7_812_500)}",
     "file 1 offset 92 rule 19 inexact"),
    # an interface without a packet; no interface; a packet without a time; a record that is cut
    ("pcap-nano", [ETHERNET], f"{NANO} 01000000", None), ("pcap-nano", [SECTION], "", NO_PACKET),
    ("pcap-nano", [f"{SECTION} {PLAIN} {enhanced(0)} {SIMPLE}"], CARRIED_NANO, "file 1 offset 84 rule 17 no-time"),
    ("pcap-nano", [CARRIED + "00000000"], CARRIED_NANO, "file 1 offset 44 rule 3 cut"),
    # the last second in nanoseconds, and the one after it
    ("pcap-nano", [f"{SECTION} {LAST_SECOND}" + packet(0, 0, b"\x0b").hex() + packet(0, 1_000_000, b"\x0b").hex()],
     f"{NANO} 01000000 {at(2**32 - 1, '0b')}", "file 1 offset 96 rule 20 time-range"),
    # a time that isn't whole in the fraction of the first packet, and one that isn't whole in any
    ("merge-nano", [of_link(1, at(0, "0b")), of_units(9, 1_000_000_001)],
     f"{NANO} 01000000 {at(0, '0b')} {at(1, '0a', micros=1)}", None),
    ("merge-nano", [of_link(1, at(0, "0b")), of_units(138, 1_025)], f"{NANO} 01000000 {at(0, '0b')}",
     "file 2 offset 56 rule 19 inexact"),
    # the first packet's interface has nanoseconds
    ("merge-micro", [of_units(9, 1_000), of_link(1, at(1, "0b", micros=5))],
     of_link(1, at(0, "0a", micros=1), at(1, "0b", micros=5)), None),
    ("merge-micro", [of_units(9, 1), of_link(1, at(1, "0b"))], ETHERNET, "file 1 offset 56 rule 19 inexact"),
    # a second link; a packet without a time; no packet
    ("merge-nano", [of_link(1, at(1, "0a"), at(3, "0c")), of_link(101, at(2, "0b"))], f"{NANO} 01000000 {at(1, '0a')}",
     "file 2 offset 24 rule 18 link-mixed"),
    ("merge-micro", [of_link(1, at(1, "0a")), f"{SECTION} {PLAIN} {SIMPLE}"], "", "file 2 offset 48 rule 17 no-time"),
    ("merge-nano", [ETHERNET, f"{SECTION} {PLAIN}"], "", NO_PACKET),
    ("join-nano", [of_link(101, at(1, UDP)), of_units(9, 1_000_000_001, data=UDP, link="6500")],
     f"{NANO_RAW} {at(1, WHOLE_UDP)} {at(1, WHOLE_UDP, micros=1)}", None),
    ("join-micro", [of_units(9, 1_000_001_000, data=UDP, link="6500"), of_link(101, at(2, UDP, micros=5))],
     f"{RAW} {at(1, WHOLE_UDP, micros=1)} {at(2, WHOLE_UDP, micros=5)}", None),
    ("join-micro", [of_units(9, 1_000_000_001, data=UDP, link="6500")], RAW, "file 1 offset 56 rule 19 inexact"),
    ("join-nano", [of_link(1, at(1, "00" * 13))], "", NO_PACKET),
]

# Two captures, whether a cut end is accepted, and what `diff` prints, or how it is refused: the packet of CARRIED in other forms, with one thing
# changed, and beside others.
SAME = "same packets 1\n"
NANO_RECORD = "02000000 0065cd1d 04000000 04000000 01020304"
NANO = f"4d3cb2a1 02000400 00000000 00000000 00000400 01000000 {NANO_RECORD}"
# 5 halves of a second; 3,500,000 microseconds after the second before 1970; and the 4 bytes in a simple packet, without a time
HALVES = f"{SECTION} {interface('0900 0100 81000000')} {enhanced(0).replace('a0252600', '05000000')}"
EARLIER = f"{SECTION} {interface('0e00 0800 ffffffffffffffff')} {enhanced(0).replace('a0252600', 'e0673500')}"
UNTIMED = f"{SECTION} {PLAIN} 03000000 14000000 04000000 01020304 14000000"
SKIPPING = f"{SECTION} 01000040 10000000 00000000 10000000 {PLAIN} {enhanced(0)} {SECTION_BIG}"
RECORD = CARRIED.removeprefix(ETHERNET)
LATER = f"{ETHERNET} 02000000 21a10700 04000000 04000000 01020304"
OTHER = f"{MICRO_LITTLE} 65000000 03000000 00000000 03000000 06000000 0102ff"
OTHER_LINE = "packet {} offset 24 time 3+0/1000000 captured 3 original 6 link 101 data 0102ff\n"
# 70 bytes, others, where they differ, and what is shown of both: the 16 bytes of that row, or all that is left of it
SEVENTY = bytes(range(70)).hex()
FIRST, SECOND, FOURTH = "000102030405060708090a0b0c0d0e0f", "101112131415161718191a1b1c1d1e1f", "303132333435363738393a3b3c3d3e3f"
PLACED = [
    (SEVENTY[:30] + "ff" + SEVENTY[32:], "data at 15", FIRST, FIRST[:-2] + "ff"),
    (SEVENTY[:32] + "ff" + SEVENTY[34:], "data at 16", SECOND, "ff" + SECOND[2:]),
    (SEVENTY[:120] + "ff" + SEVENTY[122:], "data at 60", FOURTH, "303132333435363738393a3bff3d3e3f"),
    (SEVENTY[:-2] + "ff", "data at 69", "404142434445", "4041424344ff"),
    (SEVENTY[:96], "captured original data at 48", FOURTH, "-"),
    (SEVENTY[:98], "captured original data at 49", FOURTH, "30"),
    ("", "captured original data at 0", FIRST, "-"),
]
COMPARED = [
    *((CARRIED, other, False, SAME) for other in (CARRIED, CARRIED_BIG, vector("CARRY_PCAPNG").hex(), CARRY_BIG, NANO, HALVES, EARLIER, SKIPPING)),
    (HALVES, NANO, False, SAME), (UNTIMED, UNTIMED, False, SAME), (ETHERNET, SECTION, False, "same packets 0\n"),
    (CARRIED + RECORD, NANO + NANO_RECORD, False, "same packets 2\n"),
    (CARRIED, LATER, False, f"differ packet 1 time\n- {listed(1, 24)}+ {listed(1, 24, '2+500001/1000000')}"),
    (UNTIMED, CARRIED, False, f"differ packet 1 time\n- {listed(1, 48, '-')}+ {listed(1, 24)}"),
    (CARRIED, CARRIED[:-1] + "5", False, f"differ packet 1 data at 3\n- {listed(1, 24)}+ {listed(1, 24)[:-3]}05\n"),
    (CARRIED, CARRIED.replace("04000000 01020304", "05000000 01020304"), False,
     f"differ packet 1 original\n- {listed(1, 24)}+ {listed(1, 24, original=5)}"),
    (CARRIED.replace(ETHERNET, f"{MICRO_LITTLE} 65000000"), NANO, False,
     f"differ packet 1 link\n- {listed(1, 24, link=101)}+ {listed(1, 24, '2+500000000/1000000000')}"),
    (OTHER, CARRIED, False, f"differ packet 1 link time captured original data at 2\n- {OTHER_LINE.format(1)}+ {listed(1, 24)}"),
    *((of_data(SEVENTY), of_data(other), False, f"differ packet 1 {words}\n- {shown(SEVENTY, left)}+ {shown(other, right)}")
      for other, words, left, right in PLACED),
    *((of_data(other), of_data(SEVENTY), False, f"differ packet 1 {words}\n- {shown(other, right)}+ {shown(SEVENTY, left)}")
      for other, words, left, right in PLACED),
    (CARRIED + RECORD, CARRIED, False, f"differ packet 2 end\n- {listed(2, 44)}+ end\n"),
    (SECTION, CARRIED, False, f"differ packet 1 end\n- end\n+ {listed(1, 24)}"),
    # cut: refused where both come to it, the first file before the second, and not if they differ before
    (CARRIED, CARRIED[:-2], False, "file 2 offset 24 rule 3 cut"), (CARRIED[:-2], CARRIED[:-2], False, "file 1 offset 24 rule 3 cut"),
    (ETHERNET, CARRIED[:-2], False, "file 2 offset 24 rule 3 cut"), (CARRIED + RECORD[:-2], CARRIED, False, "file 1 offset 44 rule 3 cut"),
    (CARRIED + RECORD[:-2], LATER, False, f"differ packet 1 time\n- {listed(1, 24)}+ {listed(1, 24, '2+500001/1000000')}"),
    # a dropped rest is named where both files end, and where one of them does
    (CARRIED, CARRIED, True, SAME), (CARRIED + RECORD[:-2], CARRIED, True, "same packets 1 cut A\n"),
    (CARRIED, CARRIED + RECORD[:-2], True, "same packets 1 cut B\n"),
    (CARRIED + RECORD[:-2], vector("CARRY_PCAPNG").hex() + "06", True, "same packets 1 cut A cut B\n"),
    (CARRIED[:-2], CARRIED[:-2], True, "same packets 0 cut A cut B\n"), (CARRIED[:-2], ETHERNET, True, "same packets 0 cut A\n"),
    (CARRIED, CARRIED[:-2], True, f"differ packet 1 end\n- {listed(1, 24)}+ end cut\n"),
    (vector("CARRY_PCAPNG").hex()[:-2], CARRIED, True, f"differ packet 1 end\n- end cut\n+ {listed(1, 24)}"),
    (CARRIED + RECORD[:-2], CARRIED + RECORD, True, f"differ packet 2 end\n- end cut\n+ {listed(2, 44)}"),
    # but not that of a file that has a packet left
    (CARRIED + RECORD[:-2], ETHERNET, True, f"differ packet 1 end\n- {listed(1, 24)}+ end\n"),
    (CARRIED + RECORD[:-2], LATER, True, f"differ packet 1 time\n- {listed(1, 24)}+ {listed(1, 24, '2+500001/1000000')}"),
    (CARRIED, "", True, "file 2 offset 0 rule 3 cut"), ("00000000", CARRIED, False, "file 1 offset 0 rule 1 magic"),
]

BLOCKS = ("block 1 offset 0 order little kind 0a0d0d0a total 28\nblock 2 offset 28 order little kind 00000001 total 32\n"
          "block 3 offset 60 order little kind 00000006 total 36\n")
TOLD_CUT = "files 1\nfile 1 pcapng packets 0 bytes 0 truncated 0 skipped 0 first - last - cut\n"
TWO = f"files 2\n{TOLD.format(1)}{TOLD.format(2)}"
FILES, INPUT, OUTPUT = ((2, b"", f"fault: {part}\n".encode(), None) for part in ("files", "input", "output"))
# Words that clap refuses, and help that was asked for: says.txt has the texts.
FAULTY, HELP = (2, b"", ..., None), (0, ..., b"", None)
VERSION = "capt 1.0.0 (rattle-kit-13b or 13f, logic dac8208d650f15bf)\n"


def prints(text):
    return 0, text.encode(), b"", None


def checked(*ends, names=(), has_digest=False):
    """The lines of files that are checked, which name them or don't, and have digests or don't: CARRY_PCAPNG if it is whole, else it without its last
    byte, or no file."""
    facts = {"whole": "pcapng packets 1 bytes 4 first 2+500000/1000000 last 2+500000/1000000 {} interfaces 1",
             "open": "- packets 0 bytes 0 first - last - {} interfaces 0"}
    cut = "pcapng packets 0 bytes 0 first - last - {} interfaces 1"
    counts, named = "backward 0 untimed 0 truncated 0 skipped 0", [f" name {name}" for name in names] or [""] * len(ends)
    digest = {"whole": f" sha256 {CARRIED_DIGEST}", "whole cut": f" sha256 {NO_DIGEST}"} if has_digest else {}
    return "".join(f"check {n} {facts.get(end, cut).format(counts)}{digest.get(end, ' sha256 -' * has_digest)} {end}{name}\n"
                   for n, (end, name) in enumerate(zip(ends, named), 1))


def differs(text):
    """Prints a difference of two captures."""
    return 3, text.encode(), b"", None


def data_of(objects, most):
    """Objects with at most so many bytes of each packet."""
    return re.sub(r'(?<="data":")[0-9a-f]*', lambda digits: digits[0][:2 * most], objects)


def writes(content):
    """Writes OUT, which is the file c."""
    return 0, b"", b"", bytes.fromhex(content)


def gives(content):
    """Writes to standard output."""
    return 0, bytes.fromhex(content), b"", None


LATER_LINE = f"{listed(1, 24, '2+500001/1000000')[:-3]}05\n"
LISTED_JSON = '{"type":"packet","n":1,"offset":60,"time":[2,500000,1000000],"captured":4,"original":4,"link":1,"data":"%s"}\n'
LEFT_OUT_JSON = '{"type":"left out","file":%d,"offset":60,"rule":3,"name":"cut"}\n'
INFO_ONE_JSON = ('{"type":"files","files":1}\n{"type":"file","file":1,"format":"pcapng","packets":1,"bytes":4,"truncated":0,"skipped":0,'
                 '"first":[2,500000,1000000],"last":[2,500000,1000000],"cut":false}\n')
# of a pcap file, an empty one, one whose end is dropped, and a pcapng file
TOLD_SKIPPED = ("left out 2 offset 0 rule 3 cut\nfiles 3\n"
                "file 1 pcap packets 1 bytes 4 truncated 0 skipped 0 first 2+500001/1000000 last 2+500001/1000000\n"
                f"file 2 pcapng packets 0 bytes 0 truncated 0 skipped 0 first - last - cut\n{TOLD.format(3)}")
INFO_JSON = ('{"type":"files","files":1}\n{"type":"file","file":1,"format":"pcapng","packets":0,"bytes":0,"truncated":0,"skipped":0,'
             '"first":null,"last":null,"cut":true}\n')
SIDE_JSON = '{"type":"side","side":"%s","packet":%s}\n'
ENDED_JSON = ('{"type":"differ","packet":1,"differs":["end"]}\n' + SIDE_JSON % ("-", (LISTED_JSON % "01020304").strip())
              + SIDE_JSON % ("+", 'null,"cut":true'))
SAME_JSON = '{"type":"same","packets":%d,"cut_a":%s,"cut_b":%s}\n'
SAME_WHOLE_JSON = SAME_JSON % (1, "false", "false")
LATER_JSON = ('{"type":"differ","packet":1,"differs":["time","data"],"data_at":3}\n' + SIDE_JSON % ("-", (LISTED_JSON % "01020304").strip())
              + SIDE_JSON % ("+", (LISTED_JSON % "01020305").strip().replace("60", "24").replace("500000", "500001", 1)))
DIGEST_JSON = f'{{"type":"digest","file":%d,"sha256":"{CARRIED_DIGEST}","packets":1,"cut":false,"path":"%s"}}\n'
DIGEST_CUT_JSON = f'{{"type":"digest","file":%d,"sha256":"{NO_DIGEST}","packets":0,"cut":true,"path":"%s"}}\n'
DIGEST_REFUSED_JSON = '{"type":"digest","file":%d,"refused":{"offset":60,"rule":3,"name":"cut"},"path":"%s"}\n'
DIGEST_OPEN_JSON = '{"type":"digest","file":%d,"open":true,"path":"%s"}\n'
CUT_AT_60 = "refused offset 60 rule 3 cut"
CHECK_JSON = ('{"type":"check","file":%d,"format":"pcapng","packets":1,"bytes":4,"first":[2,500000,1000000],"last":[2,500000,1000000],'
              '"backward":0,"untimed":0,"truncated":0,"skipped":0,"interfaces":1,"whole":true,"cut":false,"path":"%s"}\n')
OPEN_JSON = ('{"type":"check","file":%d,"format":null,"packets":0,"bytes":0,"first":null,"last":null,'
             '"backward":0,"untimed":0,"truncated":0,"skipped":0,"interfaces":0,"open":true,"path":"%s"}\n')
DIGEST_IN_CHECK = ('"interfaces":1,"whole"', f'"interfaces":1,"sha256":"{CARRIED_DIGEST}","whole"')
NO_DIGEST_IN_CHECK = ('"interfaces":0,"open"', '"interfaces":0,"sha256":null,"open"')
BLOCKS_JSON = ('{"type":"block","n":1,"offset":0,"order":"little","kind":"0a0d0d0a","total":28}\n'
               '{"type":"block","n":2,"offset":28,"order":"little","kind":"00000001","total":32}\n'
               '{"type":"block","n":3,"offset":60,"order":"little","kind":"00000006","total":36}\n')

# Words after `capt`, and what comes of them: the status, standard output and standard error, of which `...` is some text, and the file c. The files `a`,
# `b` and `--allow-cut` are CARRY_PCAPNG, as standard input is where nothing else is said, and `cut` is it without its last byte, `rest` it with a
# byte behind it.
LINES = [
    ("list a", prints(listed(1, 60))), ("list -", prints(listed(1, 60))), ("list -- --allow-cut", prints(listed(1, 60))),
    ("list cut", (1, b"", b"refused: file 1 offset 60 rule 3 cut\n", None)),
    ("list --allow-cut cut", prints("")), ("list cut --allow-cut", prints("")),
    ("blocks a", prints(BLOCKS)), ("blocks --allow-cut - < cut", prints(BLOCKS[:BLOCKS.index("block 3")])),
    ("diff a b", prints(SAME)), ("diff a carried", prints(SAME)), ("diff carried - < b", prints(SAME)), ("diff --explain a b", prints(SAME)),
    ("diff - --allow-cut cut", differs(f"differ packet 1 end\n- {listed(1, 60)}+ end cut\n")), ("diff - -", INPUT),
    ("diff cut --allow-cut - < cut", prints("same packets 0 cut A cut B\n")), ("diff --allow-cut a b", prints(SAME)),
    ("diff --allow-cut rest a", prints("same packets 1 cut A\n")), ("diff --allow-cut a rest", prints("same packets 1 cut B\n")),
    ("diff a cut", (1, b"", b"refused: file 2 offset 60 rule 3 cut\n", None)), ("diff none a", (1, b"", b"fault: open file 1\n", None)),
    ("diff a later", differs(f"differ packet 1 time data at 3\n- {listed(1, 60)}+ {LATER_LINE}")),
    ("diff --ignore link --ignore=original a later", differs(f"differ packet 1 time data at 3\n- {listed(1, 60)}+ {LATER_LINE}")),
    ("diff --ignore time a later", differs(f"differ packet 1 data at 3\n- {listed(1, 60)}+ {LATER_LINE}")),
    ("diff a moved", differs(f"differ packet 1 time\n- {listed(1, 60)}+ {listed(1, 24, '2+500001/1000000')}")),
    ("diff --ignore time a moved", prints(SAME)), ("diff a --ignore=time --ignore time --json moved", prints(SAME_WHOLE_JSON)),
    ("diff --json --ignore=time a later", differs(LATER_JSON.replace('"time",', ""))),
    ("diff --json a carried", prints(SAME_WHOLE_JSON)), ("diff a --json later", differs(LATER_JSON)),
    ("diff --json --allow-cut a cut", differs(ENDED_JSON)),
    ("diff --json --allow-cut rest a", prints(SAME_JSON % (1, "true", "false"))),
    ("diff --json --allow-cut a rest", prints(SAME_JSON % (1, "false", "true"))),
    ("diff --json --allow-cut cut cut", prints(SAME_JSON % (0, "true", "true"))), ("diff --json --allow-cut a b", prints(SAME_WHOLE_JSON)),
    ("diff --json --data 4 a b", prints(SAME_WHOLE_JSON)), ("diff --data 0 --json a later", differs(data_of(LATER_JSON, 0))),
    ("diff --json --data=3 a later", differs(data_of(LATER_JSON, 3))), ("diff --json --data 262144 a later", differs(LATER_JSON)),
    ("diff --json a cut", (1, b"", b'{"type":"refused","file":2,"offset":60,"rule":3,"name":"cut","path":"cut"}\n', None)),
    ("info a b", prints(TWO)), ("info --allow-cut - < cut", prints(TOLD_CUT)), ("info - a -", INPUT),
    ("digest a b", prints(digests([CARRIED_TEXT] * 2, [1, 1]))), ("digest -", prints(digests([CARRIED_TEXT], [1]))), ("digest - -", INPUT),
    ("digest --allow-cut - < cut", prints(digests([""], [0], " cut"))),
    (f"digest {'a ' * 33}", prints(digested(*["whole"] * 33))), (f"digest {'a ' * 33}- -", INPUT),
    ("digest a cut b", (1, digested("whole", CUT_AT_60, "whole").encode(), b"", None)),
    ("digest none a", (1, digested("open", "whole").encode(), b"", None)),
    ("digest --names a b", prints(digested("whole", "whole", names=("a", "b")))), ("digest - --names", prints(digested("whole", names="-"))),
    ("digest a --names cut none", (1, digested("whole", CUT_AT_60, "open", names=("a", "cut", "none")).encode(), b"", None)),
    ("digest --json a b", prints(DIGEST_JSON % (1, "a") + DIGEST_JSON % (2, "b"))),
    ("digest --json --allow-cut cut", prints(DIGEST_CUT_JSON % (1, "cut"))),
    ("digest --names --json cut none", (1, (DIGEST_REFUSED_JSON % (1, "cut") + DIGEST_OPEN_JSON % (2, "none")).encode(), b"", None)),
    ("check a b", prints(checked("whole", "whole"))), ("check -", prints(checked("whole"))), ("check - -", INPUT),
    ("check --allow-cut - < cut", prints(checked("whole cut"))), (f"check {'a ' * 33}", prints(checked(*["whole"] * 33))),
    (f"check {'a ' * 33}- -", INPUT), ("check a cut b", (1, checked("whole", CUT_AT_60, "whole").encode(), b"", None)),
    ("check none a", (1, checked("open", "whole").encode(), b"", None)), ("check --json a b", prints(CHECK_JSON % (1, "a") + CHECK_JSON % (2, "b"))),
    ("check --names a b", prints(checked("whole", "whole", names=("a", "b")))), ("check - --names", prints(checked("whole", names="-"))),
    ("check --names -- --allow-cut", prints(checked("whole", names=["--allow-cut"]))),
    ("check --names --allow-cut cut", prints(checked("whole cut", names=["cut"]))),
    ("check a --names cut none", (1, checked("whole", CUT_AT_60, "open", names=("a", "cut", "none")).encode(), b"", None)),
    ("check --names --json a none", (1, (CHECK_JSON % (1, "a") + OPEN_JSON % (2, "none")).encode(), b"", None)),
    ("check --json --explain -", prints(CHECK_JSON % (1, "-"))),
    ("check --digest a b", prints(checked("whole", "whole", has_digest=True))), ("check - --digest", prints(checked("whole", has_digest=True))),
    ("check --digest --allow-cut cut", prints(checked("whole cut", has_digest=True))),
    ("check --names cut --digest a none", (1, checked(CUT_AT_60, "whole", "open", names=("cut", "a", "none"), has_digest=True).encode(), b"", None)),
    ("check --digest --json a none", (1, ((CHECK_JSON % (1, "a")).replace(*DIGEST_IN_CHECK)
                                          + (OPEN_JSON % (2, "none")).replace(*NO_DIGEST_IN_CHECK)).encode(), b"", None)),
    ("info --skip-refused a b", prints(TWO)), ("info --json --skip-refused cut a", (1,
        (LEFT_OUT_JSON % 1 + INFO_ONE_JSON).encode(), b"", None)),
    ("report --skip-refused a cut b", (1,
                                       f"left out 2 offset 60 rule 3 cut\n{TWO}total packets 2 bytes 8 truncated 0\n{frames(short=2)}".encode(), b"", None)),
    ("report --ipv6 six", prints(SIX_TEXT)), ("report --json six --ipv6", prints(SIX_JSON)),
    ("report six", prints(SIX_UNREAD)),
    ("report --ipv6 --skip-refused cut six", (1, b"left out 1 offset 60 rule 3 cut\n" + SIX_TEXT.encode(), b"", None)),
    ("report --top=1 --ipv6 six", prints(f"{SIX_TEXT.partition('talk ')[0]}talk {SIX_TALKS[2]}\n")),
    ("report --ipv6 --time utc six", prints(re.sub(r"(\d)\+0/1000000", r"1970-01-01T00:00:0\1.000000Z", SIX_TEXT))),
    ("report --ipv6 a", prints(f"files 1\n{TOLD.format(1)}total packets 1 bytes 4 truncated 0\n{frames_6(short=1)}")),
    ("list --class --ipv6 --json --data 0 six", prints(SIX_CLASSES_JSON)),
    ("list --ipv6 --class a", prints(f"{listed(1, 60)[:-1]} class short\n")),
    ("report --skip-refused --allow-cut cut", prints(f"{TOLD_CUT}total packets 0 bytes 0 truncated 0\n{frames()}")),
    ("info --skip-refused cut", (1, b"left out 1 offset 60 rule 3 cut\n", b"", None)), ("info --skip-refused -", INPUT),
    ("info --skip-refused cut none", (1, b"", b"fault: open file 2\n", None)), ("report --skip-refused a -", INPUT),
    ("info --skip-refused --explain cut none a", (1, b"",
                                                  b"fault: open file 2\n  none: No such file or directory (os error 2)\n", None)),
    ("info --explain --skip-refused --allow-cut none", (1, b"",
                                                        b"fault: open file 1\n  none: No such file or directory (os error 2)\n", None)),
    ("info --allow-cut --explain --skip-refused moved empty cut a",
     (1, TOLD_SKIPPED.encode(), b"cut: file 3 offset 60, 35 bytes dropped\n", None)),
    ("report a b", prints(f"{TWO}total packets 2 bytes 8 truncated 0\n{frames(short=2)}")), ("report - -", INPUT),
    ("report - --allow-cut < cut", prints(f"{TOLD_CUT}total packets 0 bytes 0 truncated 0\n{frames()}")),
    ("convert --to pcap -o c a", writes(CARRIED)), ("convert --order little --to pcap -o - -", gives(CARRIED)),
    ("convert a -o - --order=big --to=pcapng --allow-cut", gives(CARRY_BIG)), ("convert --to pcap -o a a", OUTPUT),
    ("merge -o c a b -", writes(THRICE)), ("merge --order big -o - -", gives(CARRY_BIG)), ("join -o c --order=big a b", writes(SECTION_BIG)),
    ("merge --to pcap -o c a", writes(CARRIED)), ("merge --to=pcap --order big -o - -", gives(CARRIED_BIG)),
    ("merge --share-interfaces -o c a b -", writes(SHARED)), ("merge --to=pcapng -o c a b - --share-interfaces", writes(SHARED)),
    ("merge -o c --to pcapng a b -", writes(THRICE)), ("merge --whole --to pcap -o c a", writes(CARRIED)),
    ("convert --to pcap --unit nano -o c a", writes(CARRIED_NANO)),
    ("convert --unit=micro --to pcap -o - -", gives(CARRIED)),
    ("merge --unit nano --to pcap -o c a", writes(CARRIED_NANO)),
    ("merge --to=pcap --unit=micro -o c a", writes(CARRIED)),
    ("join --to pcap --unit nano -o c a b", (1, b"", f"refused: {NO_PACKET}\n".encode(), b"")),
    ("join --to pcap -o c a b", (1, b"", f"refused: {NO_PACKET}\n".encode(), b"")), ("join --to pcapng -o c --order=big a b", writes(SECTION_BIG)),
    ("merge -o c - -", INPUT), ("merge -o a a b", OUTPUT), ("merge -o a a - -", INPUT), (f"merge -o a a - - {'a ' * 30}", FILES),
    ("list --explain a", prints(listed(1, 60))), ("merge --output c a b -", writes(THRICE)), ("merge a b - --output=c", writes(THRICE)),
    ("list --explain cut", (1, b"", b"refused: file 1 offset 60 rule 3 cut\n  cut: it is cut off: --allow-cut drops a last record or block\n", None)),
    ("list --explain --allow-cut cut", (0, b"", b"cut: file 1 offset 60, 35 bytes dropped\n", None)),
    ("blocks --explain --allow-cut cut", (0, BLOCKS[:BLOCKS.index("block 3")].encode(), b"cut: file 1 offset 60, 35 bytes dropped\n", None)),
    ("digest --explain --allow-cut cut", (0, digests([""], [0], " cut").encode(), b"cut: file 1 offset 60, 35 bytes dropped\n", None)),
    ("check --explain --allow-cut cut", (0, checked("whole cut").encode(), b"cut: file 1 offset 60, 35 bytes dropped\n", None)),
    ("diff --explain --allow-cut a rest", (0, b"same packets 1 cut B\n", b"cut: file 2 offset 96, 1 byte dropped\n", None)),
    # nothing is told of a file that has a packet left
    ("diff --explain --allow-cut rest later",
     differs(f"differ packet 1 time data at 3\n- {listed(1, 60)}+ {LATER_LINE}")),
    ("digest --explain --json --allow-cut cut",
     (0, (DIGEST_CUT_JSON % (1, "cut")).encode(), b'{"type":"cut","file":1,"offset":60,"bytes":35,"path":"cut"}\n', None)),
    ("list --json --explain --allow-cut cut", (0, b"", b'{"type":"cut","file":1,"offset":60,"bytes":35,"path":"cut"}\n', None)),
    ("list --class a", prints(f"{listed(1, 60)[:-1]} class short\n")),
    ("list --json --class --data 2 a", prints((LISTED_JSON % "0102").replace('"}', '","class":"short"}'))),
    ("list --json a", prints(LISTED_JSON % "01020304")), ("list --data 0 --json a", prints(LISTED_JSON % "")),
    ("list --json --data=3 -", prints(LISTED_JSON % "010203")), ("list --json --data 00262144 a", prints(LISTED_JSON % "01020304")),
    ("info --json --allow-cut - < cut", prints(INFO_JSON)), ("blocks a --json", prints(BLOCKS_JSON)),
    ("list cut --json", (1, b"", b'{"type":"refused","file":1,"offset":60,"rule":3,"name":"cut","path":"cut"}\n', None)),
    ("report --json a none", (1, b"", b'{"type":"fault","fault":"open","file":2,"path":"none"}\n', None)), ("info --json - -", INPUT),
    ("merge --whole -o c a b -", writes(THRICE)), ("merge --whole -o c cut", (1, b"", b"refused: file 1 offset 60 rule 3 cut\n", None)),
    ("--version", prints(VERSION)), ("-V", prints(VERSION)),
    *((words, HELP) for words in ("--help", "-h", "list --help", "list -h", "blocks -h", "digest -h", "check -h", "info --help", "convert -h", "help",
        "help merge")),
    *((words, FAULTY) for words in (
        "", "help frobnicate", "frobnicate a", "--allow-cut list a", "list", "list a b", "list --version", "list --allow-cut --allow-cut a",
        "diff", "diff a", "diff a b a", "diff a --order big b", "diff -o c a b", "diff --to pcap a b", "diff --whole a b", "diff --data 4 a b",
        "diff --ignore a b", "diff --ignore=data a b", "diff --ignore captured a b", "diff --ignore time,link a b", "list --ignore time a",
        "digest --ignore time a", "diff --json --data +4 a b", "diff --json --data 262145 a b", "diff --json --json a b",
        "list --allow-cut=yes a", "list --order big a", "list -x a", "blocks", "blocks a b", "digest", "digest -o c a", "check", "check -o c a",
        "check --whole a", "check --order big a", "check --data 4 a",
        "check --names", "check --names=yes a", "check --names --names a", "digest --names=yes a", "digest --names --names a",
        "check --digest=yes a", "check --digest --digest a", "digest --digest a", "info --digest a", "list --names a", "info --names a",
        "merge --names -o c a", "info", "info -o c a",
        "report", "report -o c a",
        "convert -o c a", "convert --to pcap a", "convert --to pcap -o c", "convert --to tar -o c a", "convert --to pcap -o c a b",
        "convert --order middle --to pcap -o c a", "convert --to pcap --to pcap -o c a", "merge a b", "merge -o c", "merge --to tar -o c a",
        "merge -o c -o d a", "merge -o c --output d a", "merge --whole -o - a", "report --whole a", "join a", "join --to pcap a",
        "merge --to pcap --to pcap -o c a", "report --to pcap a", "merge --share-interfaces --to pcap -o c a",
        "merge --share-interfaces=yes -o c a", "merge --share-interfaces --share-interfaces -o c a", "join --share-interfaces -o c a",
        "convert --share-interfaces --to pcapng -o c a",
        "convert --to pcapng --unit nano -o c a", "merge --unit micro -o c a", "merge --to pcapng --unit micro -o c a",
        "join --unit nano -o c a",
        "convert --to pcap --unit milli -o c a", "convert --to pcap --unit -o c a", "convert --to pcap --unit= -o c a",
        "report --unit nano a",
        "convert --to pcap --unit nano --unit nano -o c a", "merge --to pcap --unit NANO -o c a", "list --unit micro a",
        "list --data 4 a", "list --data 4 --allow-cut a", "list --json --data", "list --json --data= a", "list --json --data +4 a",
        "list --json --data 4.0 a", "list --json --data -4 a", "list --json --data 262145 a", "list --json --data 4 --data 4 a",
        "report --ipv6", "report --ipv6=yes a", "report --ipv6 --ipv6 a", "list --ipv6 a", "list --json --ipv6 a",
        "list --class --ipv6",
        "list --class --ipv6 --ipv6 a", "info --ipv6 a", "blocks --ipv6 a", "check --ipv6 a", "digest --ipv6 a",
        "diff --ipv6 a b",
        "convert --ipv6 --to pcap -o c a", "merge --ipv6 -o c a", "join --ipv6 -o c a",
        "list --class", "list --class=yes a", "list --class --class a", "blocks --class a", "report --class a", "merge --class -o c a",
        "list --json --json a", "list --json=yes a", "blocks --json --data 4 a", "digest --json --data 4 a", "check --json --data 4 a",
        "info --json --data 4 a",
        "report --json --data 4 a", "report --top 0 a", "report --top 00 a", "report --top a", "report --top", "report --top= a", "report --top +1 a",
        "report --top -1 a", "report --top 1.0 a", "report --top 4294967296 a", "report --top 1 --top 1 a", "report --top=x a", "info --top 1 a",
        "list --top 1 a", "check --top 1 a", "merge --top 1 -o c a",
        "list --time", "list --time a", "list --time= a", "list --time local a", "list --time UTC a",
        "list --time utc --time utc a",
        "info --time exact,utc a", "report --time 0 a", "check --time iso a", "diff --time rfc3339 a b",
        "blocks --time utc a",
        "digest --time utc a", "convert --time utc --to pcap -o c a", "merge --time utc -o c a",
        "join --time utc -o c a",
        "list --skip-refused a", "check --skip-refused a",
        "merge --skip-refused -o c a", "info --skip-refused=yes a", "info --skip-refused --skip-refused a",
        "report --skip-refused",
        "convert --json --to pcap -o c a", "merge --json -o c a", "join --json -o c a")),
]


def is_json(count, bench, contents, tasks=None):
    """Holds what is printed of captures as JSON Lines, as Python reads it, to their text lines: by those tasks, or by all that don't read IPv6."""
    rows = [(task, [content]) for content in contents for task in ("list", "blocks")]
    rows += [(task, contents) for task in SURVEYS]
    rows += [(task, contents) for task in ("info", "report") if len(contents) <= 32]
    rows += [("diff", files) for files in (contents, [contents[0]] * 2) if len(files) == 2]
    if tasks is not None:
        rows = [(task, contents[:1] if task.startswith("classed") else contents) for task in tasks]
    for task, files in rows:
        names = [bench.name(content) for content in files]
        for allow_cut in ([], ["--allow-cut"]):
            status, text, error = run([*words_of(task, []), *allow_cut, *names], bench.program)
            seen = run([*words_of(task, []), "--json", *allow_cut, *names], bench.program)
            wanted = all_objects(text.decode())
            if task in SURVEYS:
                wanted = [{**told, "path": name} for told, name in zip(wanted, names)]
            found = re.fullmatch(r"refused: file (\d+) offset (\d+) rule (\d+) (\S+)\n", error.decode())
            refused = [{"type": "refused", **dict(zip(("file", "offset", "rule"), map(int, found.groups()[:3]))), "name": found[4],
                        "path": names[int(found[1]) - 1]}] if found else []
            lines = [[json.loads(line) for line in part.splitlines()] for part in seen[1:]]
            count.check(f"{task} --json of {names}", (seen[0], *lines) == (status, wanted, refused), seen)


def is_read(count, bench, shim, task, contents, text="", classes=None):
    """Holds a task, by the program and by the model, to what it says of each packet, or to the end of a report."""
    name, contents = f"{task} of {contents[0][:200]}", [bytes.fromhex(content) for content in contents]
    answers = [(name, bench.run(task, contents)[:3]), (f"{name}, by one byte", bench.run(task, contents, faults=(shim,
        {"PIECE": 1}))[:3]),
               (f"the model's {name}", wanted_of(task, contents))]
    for name, (status, out, error) in answers:
        out, is_so = out.decode(), (status, error) == (0, b"")
        if classes is None:
            count.check(name, is_so and out.endswith(text),
                        f"wanted {text[-600:]!r}\n  saw {status} {out[-600:]!r} {error}")
        else:
            told = [line.partition(" class ")[2] for line in out.splitlines()]
            other = [(n, want, seen) for n, (want, seen) in enumerate(itertools.zip_longest(classes, told), 1)
                     if want != seen]
            count.check(name, is_so and not other, status, error, other[:5])


def all_ipv6(count, bench, shim):
    """Holds what `--ipv6` changes of `report` and `list --class` to the rows above."""
    program = bench.program
    for content, classes, text in READ_6:
        if classes is not None:
            is_read(count, bench, shim, "classed-ipv6", [content], classes=classes)
        is_read(count, bench, shim, "report-ipv6", [content], text)
    for contents, text in TOGETHER_6:
        is_read(count, bench, shim, "report-ipv6", contents, text)
    for contents in ([READ_6[len(SIXES)][0]], [MIXED], [SIX], TOGETHER_6[0][0]):
        is_json(count, bench, [bytes.fromhex(content) for content in contents],
                ("report-ipv6", "classed-ipv6", "top-ipv6", "report-skipping-ipv6"))
    # a capture of IPv4 alone has the report that it has without the word, but for the name of a class; two of these
    # have the type or the first four bits
    # of IPv6, and no header of it
    for content, text in REPORTED:
        text = frames_6(bad=1) if " not-ipv4 1 " in text else text.replace(" not-ipv4 0 ", " not-ip 0 ")
        is_read(count, bench, shim, "report-ipv6", [content], text)
    for content, told in DESCRIBED:
        is_read(count, bench, shim, "classed-ipv6", [content],
                classes=["bad reason header-short" if it == "not-ipv4" else it for it in told])
    # without the word IPv6 is a network that isn't read, and 229 a link type that isn't
    is_read(count, bench, shim, "classed", [READ_6[len(SIXES)][0]], classes=["other-link"] * len(SIXES))
    of_ipv4 = [MIXED_TALKS[1], MIXED_TALKS[5]]
    told = [f"counted {talk.partition(' forward ')[0]}" if talk in of_ipv4 else "not-ipv4"
            for talk in (MIXED_TALKS[place] for place in COUNTED_6)]
    is_read(count, bench, shim, "classed", [MIXED], classes=told)
    is_read(count, bench, shim, "report", [MIXED], frames(not_ipv4=13, counted=2, talks=of_ipv4))
    name = bench.name(bytes.fromhex(MIXED))
    for most in range(1, 6):
        seen = run(["report", "--top", str(most), "--ipv6", name], program)
        text = frames_6(counted=15, talks=MIXED_TALKS).partition("talk ")[0] + "".join(f"talk {talk}\n"
            for talk in TOP_6[:most])
        count.check(f"report --top {most} --ipv6", seen[0::2] == (0, b"") and seen[1].decode().endswith(text), seen)
    pairs = some_addresses(2_000)
    packets = [six(59, ends=f"{lesser.packed.hex()} {greater.packed.hex()}") for lesser, greater in pairs]
    content = bytes.fromhex(of_link(101, *(at(1, packet) for packet in packets)))
    for name, out in (("capt", run(["report", "--ipv6", bench.name(content)], program)[1].decode()),
                      ("the model", model.answer("report-ipv6", [content])[0])):
        seen = [tuple(line.split()[2:4]) for line in out.splitlines() if line.startswith("talk ")]
        wanted = [(lesser.compressed, greater.compressed) for lesser, greater in pairs]
        other = [(want, printed) for want, printed in itertools.zip_longest(wanted, seen) if want != printed]
        count.check(f"2,000 pairs of addresses, by {name}", not other, other[:5])


def is_timed(count, bench, content, forms):
    """Holds the time of a capture's packet, in each command and each form, in text and in JSON, to what it is in that form."""
    name, usual = bench.name(content), forms["exact"]
    for times, time in forms.items():
        for words in (["list"], ["info"], ["report"], ["check"], ["list", "--class"], ["diff", "--ignore=time"]):
            names = [name] * (1 + (words[0] == "diff"))
            shown = run([*words, *names], bench.program)
            seen = run([*words, "--time", times, *names], bench.program)
            wanted = re.sub(rf"(?<= )(time|first|last) {re.escape(usual)}(?= |\n)", rf"\1 {time}", shown[1].decode())
            count.check(f"{words} --time {times} of {usual}", seen == (shown[0], wanted.encode(), shown[2]), seen)
            count.check(f"{words} has {usual}", words[0] == "diff" or usual in shown[1].decode(), shown)
        found = [json.loads(line) for line in run(["list", "--json", "--time", times, name],
                                                  bench.program)[1].splitlines()]
        exact = [int(word) for word in re.split(r"[+/]",
                                                time)] if times == "exact" and time != "-" else None if time == "-" else time
        count.check(f"list --json --time {times} of {usual}", [it["time"] for it in found] == [exact], found)
    other = bench.name(content[:-8] + bytes([content[-8] ^ 1]) + content[-7:])
    for times, time in forms.items():
        seen = run(["diff", "--time", times, name, other], bench.program)
        count.check(f"diff --time {times} of {usual}", seen[0] == 3 and seen[1].decode().count(f" time {time} ") == 2,
                    seen)


def seen_of(folder, program, words):
    """What comes of a command line."""
    words, _, standard = words.partition("<")
    out = os.path.join(folder, "c")
    with open(os.path.join(folder, standard.strip() or "a"), "rb") as given:
        seen = run(words.split(), program, cwd=folder, stdin=given)
    if not os.path.exists(out):
        return *seen, None
    with open(out, "rb") as file:
        written = file.read()
    os.remove(out)
    return *seen, written


def main():
    count = Count()
    program = os.path.abspath(sys.argv[1]) if len(sys.argv) > 1 else PROGRAM
    with tempfile.TemporaryDirectory() as folder:
        bench, shim, captures = Bench(folder, program), make_shim(folder), {}

        def holds(name, task, contents, allow_cut, wanted):
            captures[tuple(contents)] = None
            for by_bytes in (None, (shim, {"PIECE": 1})):
                contents_in_bytes = [bytes.fromhex(content) for content in contents]
                seen = bench.run(task, contents_in_bytes, allow_cut, out=os.path.join(folder, "out"), faults=by_bytes)[:3]
                count.check(f"{task} of {name}", wanted(*seen), seen)

        for content, allow_cut, told in NOT_LISTED:
            error = f"refused: file 1 offset {told}\n".encode()
            holds(content[:200] or "an empty file", "list", [content], allow_cut, lambda *seen: seen == (1, b"", error))
        for content, text, written, told in LISTED:
            holds(content, "list", [content], False, lambda *seen: seen == (0, text.encode(), b""))
            ended = (1, bytes.fromhex(written), f"refused: {told}\n".encode()) if told else (0, bytes.fromhex(written), b"")
            holds(content, "pcapng", [content], False, lambda *seen: seen == ended)
        ended = (1, bytes.fromhex(SECTION + INTERFACE), b"refused: file 1 offset 24 rule 3 cut\n")
        holds("a record that is cut", "pcapng", [CUT], False, lambda *seen: seen == ended)
        for content, told in NOT_BLOCKS:
            error, printed = f"refused: file 1 offset {told}\n".encode(), BLOCKS[:BLOCKS.index("block 2")] if told.startswith("28") else ""
            holds(content or "an empty file", "blocks", [content], False, lambda *seen: seen == (1, printed.encode(), error))
        longest = f"{ETHERNET} 00000000 00000000 00000400 00000400 {'00' * 262_144}"
        holds("the longest packet", "list", [longest], False, lambda *seen: seen == (0, LONGEST.encode(), b""))
        for task, contents, allow_cut, told in NOT_PRINTED:
            error = f"refused: {told}\n".encode()
            holds(contents, task, contents, allow_cut, lambda *seen: seen == (1, b"", error))
        for first, second, allow_cut, text in COMPARED:
            told = f"refused: {text}\n" if text.startswith("file ") else ""
            ended = (1, b"", told.encode()) if told else (0 if text.startswith("same ") else 3, text.encode(), b"")
            holds(f"{first[:200]} and {second[:200]}", "diff", [first, second], allow_cut, lambda *seen: seen == ended)
        for content, text in TOLD_OF:
            holds(content, "info", [content], False, lambda *seen: seen == (0, f"files 1\n{text}".encode(), b""))
        for contents, allow_cut, text in KEPT:
            status = 1 if text.startswith("left out ") else 0
            holds([content[:200] for content in contents], "info-skipping", contents, allow_cut,
                  lambda *seen: seen == (status, text.encode(), b""))
            told = wanted_of("info-skipping", [bytes.fromhex(content) for content in contents], allow_cut)
            count.check("the model's info --skip-refused", told == (status, text.encode(), b""), told)
        for content, text in REPORTED:
            holds(f"a cut file and {content[:200]}", "report-skipping", [CUT, content], False, lambda status, out,
                  error: (status, error) == (1, b"")
                  and out.startswith(b"left out 1 offset 24 rule 3 cut\nfiles 1\n") and out.endswith(text.encode()))
        for contents, texts, packets in DIGESTED:
            wanted = digests(texts, packets).encode()
            holds(contents, "digest", contents, False, lambda *seen: seen == (0, wanted, b""))
        for contents, ends in NOT_DIGESTED:
            wanted = digested(*ends).encode()
            holds([content[:200] for content in contents], "digest", contents, False, lambda *seen: seen == (1, wanted, b""))
        for contents, allow_cut, lines in CHECKED:
            wanted = "".join(f"check {n} {line}\n" for n, line in enumerate(lines, 1)).encode()
            status = 0 if all(" whole" in line for line in lines) else 1
            name = [content[:200] for content in contents]
            holds(name, "check", contents, allow_cut, lambda *seen: seen == (status, wanted, b""))
            told = wanted_of("check", [bytes.fromhex(content) for content in contents], allow_cut)
            count.check(f"the model's check of {name}", told == (status, wanted, b""), told)
        for files in itertools.permutations(SPELLINGS):
            wanted = merged(files)
            holds([file[3] for file in files], "merge", [file[0].hex() for file in files], False, lambda *seen: seen == (0, wanted, b""))
        for task, rows in (("merge-pcap", MERGED_AS_PCAP), ("join-pcap", JOINED_AS_PCAP)):
            for contents, written, told in rows:
                ended = (1 if told else 0, bytes.fromhex(written), f"refused: {told}\n".encode() if told else b"")
                holds(contents, task, contents, False, lambda *seen: seen == ended)
        for task, contents, written, told in IN_UNITS:
            ended = (1 if told else 0, bytes.fromhex(written), f"refused: {told}\n".encode() if told else b"")
            holds(contents, task, contents, False, lambda *seen: seen == ended)
            answer = wanted_of(task, [bytes.fromhex(content) for content in contents])
            count.check(f"the model's {task} of {contents}", answer == ended, answer)
        for content, text in REPORTED:
            holds(content[:200], "report", [content], False,
                  lambda status, out, error: (status, error) == (0, b"") and out.endswith(text.encode()))
        head = frames(counted=6, talks=IN_ORDER).partition("talk ")[0]
        for most, talks in TOPPED:
            text = f"{head}{''.join(f'talk {talk}' + chr(10) for talk in talks)}".encode()
            for by_bytes in (None, (shim, {"PIECE": 1})):
                seen = run(["report", "--top", str(most), bench.name(bytes.fromhex(TALKS))], program, by_bytes)[:3]
                count.check(f"report --top {most}", seen[0::2] == (0, b"") and seen[1].endswith(b"\n" + text), seen)
            answer = model.report([model.File(1, bytes.fromhex(TALKS), False)], most)[0].encode()
            count.check(f"the model's report --top {most}", answer.endswith(b"\n" + text), answer)
        holds("five conversations", "top", [TALKS], False, lambda *seen: seen[0::2] == (0, b"") and seen[1].endswith(b"\n" + (
            head + "".join(f"talk {talk}\n" for talk in BY_BYTES[:2])).encode()))
        for source, *forms in TIMED:
            is_timed(count, bench, bytes.fromhex(at_time(*source)), dict(zip(("exact", "decimal", "utc"), forms)))
        untimed = f"{SECTION} {PLAIN} 03000000 14000000 04000000 01020304 14000000"
        is_timed(count, bench, bytes.fromhex(untimed), dict.fromkeys(("exact", "decimal", "utc"), "-"))
        for content, told in DESCRIBED:
            holds(content[:200], "classed", [content], False, lambda status, out, error: (status, error) == (0, b"")
                  and [line.partition(" class ")[2] for line in out.decode().splitlines()] == told)
            lines = wanted_of("classed", [bytes.fromhex(content)])[1].decode().splitlines()
            count.check(f"the model's classes of {content[:200]}", [line.partition(" class ")[2] for line in lines] == told, lines)

        all_ipv6(count, bench, shim)
        for contents in captures:
            is_json(count, bench, [bytes.fromhex(content) for content in contents])
        for content, written, text in JOINED:
            is_json(count, bench, [content])
            for by_bytes in (None, (shim, {"PIECE": 1})):
                seen = bench.run("join", [content], out=os.path.join(folder, "joined"), faults=by_bytes)[:3]
                count.check("join of 8,189 fragments", seen == (0, written, b""), seen[0], seen[2])
                seen = bench.run("report", [content], faults=by_bytes)[:3]
                count.check("report of 8,189 fragments", seen[0] == 0 and seen[1].endswith(text), seen)

        work = os.path.join(folder, "work")
        os.mkdir(work)
        carried = vector("CARRY_PCAPNG")
        kept = {"cut": carried[:-1], "rest": carried + b"\6", "carried": bytes.fromhex(CARRIED), "later": bytes.fromhex(LATER)[:-1] + b"\5",
                "moved": bytes.fromhex(LATER), "empty": b"", "six": bytes.fromhex(SIX)}
        for name in ("a", "b", "--allow-cut", *kept):
            with open(os.path.join(work, name), "wb") as file:
                file.write(kept.get(name, carried))
        for words, wanted in LINES:
            seen = seen_of(work, program, words)
            is_so = all(bool(found) if want is ... else found == want for found, want in zip(seen, wanted))
            count.check(f"capt {words}", is_so, seen)
            with open(os.path.join(work, "a"), "rb") as kept:
                count.check(f"capt {words}, its files", kept.read() == carried)
    count.end()


main()
