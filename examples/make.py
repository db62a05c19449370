#!/usr/bin/env python3
"""Makes the captures of this folder, byte for byte.

monday.pcap      three Ethernet frames with two tags each: UDP there, UDP back, and one whose UDP length is wrong
tuesday.pcapng   one UDP datagram in four IPv4 fragments, the third of which overwrites the second
wednesday.pcap   three Ethernet frames of IPv6: UDP there, UDP back, and a router's advertisement
trace.pcap       one packet of four bytes, whose fraction of a second is more than a second
cut.pcap         trace.pcap without its last byte

Use: examples/make.py [FOLDER]
"""
import pathlib, struct, sys

folder = pathlib.Path(sys.argv[1] if len(sys.argv) > 1 else pathlib.Path(__file__).parent)


def pcap(link, records):
    """A little-endian pcap file, in microseconds: of records of seconds, microseconds and a frame."""
    parts = [struct.pack("<IHHIIII", 0xA1B2C3D4, 2, 4, 0, 0, 262_144, link)]
    for seconds, fraction, frame in records:
        parts += [struct.pack("<IIII", seconds, fraction, len(frame), len(frame)), frame]
    return b"".join(parts)


def block(kind, body):
    """A little-endian pcapng block, its body filled up to a multiple of four bytes."""
    body += bytes(-len(body) % 4)
    total = struct.pack("<I", 12 + len(body))
    return struct.pack("<I", kind) + total + body + total


def pcapng(link, records):
    """A little-endian pcapng file of one section and one interface, in microseconds."""
    parts = [
        block(0x0A0D0D0A, struct.pack("<IHHq", 0x1A2B3C4D, 1, 0, -1)),
        block(1, struct.pack("<HHIHHBxxxHH", link, 0, 262_144, 9, 1, 6, 0, 0)),
    ]
    for seconds, fraction, frame in records:
        units = seconds * 1_000_000 + fraction
        head = struct.pack("<IIIII", 0, units >> 32, units & 0xFFFF_FFFF, len(frame), len(frame))
        parts.append(block(6, head + frame))
    return b"".join(parts)


# destination, source, two tags, the type of IPv4; an IPv4 header, a UDP header, two bytes, eight bytes of padding
MONDAY = [
    "020000000002 020000000001 88a80064 8100000a 0800 4500001e00010000401100000a0000010a000002 03e807d0000a0000 6869",
    "020000000001 020000000002 88a80064 8100000a 0800 4500001e00020000401100000a0000020a000001 07d003e8000a0000 6869",
    "020000000002 020000000001 88a80064 8100000a 0800 4500001e00030000401100000a0000010a000002 03e807d0000c0000 6869",
]
# an IPv4 header, and eight bytes of the datagram: the last, the first, the first anew, the ones between
TUESDAY = [
    "4500001c00070002401100000a0000010a000002 b0b1b2b3b4b5b6b7",
    "4500001c00072000401100000a0000010a000002 03e807d000180000",
    "4500001c00072000401100000a0000010a000002 03e907d100180000",
    "4500001c00072001401100000a0000010a000002 a0a1a2a3a4a5a6a7",
]
# destination, source, the type of IPv6; an IPv6 header; a UDP header without data, or an ICMPv6 message
WEDNESDAY = [
    "020000000002 020000000001 86dd 6000000000081140 20010db8000000000000000000000001 20010db8000000000000000000000002"
    "03e807d0000898b1",
    "020000000001 020000000002 86dd 6000000000081140 20010db8000000000000000000000002 20010db8000000000000000000000001"
    "07d003e8000898b1",
    "333300000001 020000000001 86dd 6000000000103aff fe800000000000000000000000000001 ff020000000000000000000000000001"
    "86003527400007080000000000000000",
]

trace = pcap(1, [(1, 1_500_000, bytes([1, 2, 3, 4]))])
files = {
    "monday.pcap": pcap(1, [(1 + n, 0, bytes.fromhex(frame) + bytes(8)) for n, frame in enumerate(MONDAY)]),
    "tuesday.pcapng": pcapng(101, [(1 + n, 0, bytes.fromhex(frame)) for n, frame in enumerate(TUESDAY)]),
    "wednesday.pcap": pcap(1, [(1 + n, 0, bytes.fromhex(frame)) for n, frame in enumerate(WEDNESDAY)]),
    "trace.pcap": trace,
    "cut.pcap": trace[:-1],
}
for name, data in files.items():
    (folder / name).write_bytes(data)
