"""Captures that the scripts of this folder make, the same ones each time."""
import struct

HEADER = bytes.fromhex("d4c3b2a1" "02000400" "00000000" "00000000" "00000400" "01000000")
ETHERNET = bytes.fromhex("020000000002" "020000000001" "0800")
UDP, TCP = 17, 6
SIZES = [64, 1514, 90, 1514, 576, 1514, 128, 1000]


def frame(talk, back, size):
    """A frame of a conversation by its number: every fourth one is of TCP."""
    protocol = UDP if talk % 4 else TCP
    ends = [(0x0A000000 + talk // 500, 1024 + talk % 500), (0xC0A80000 + talk % 7, 53)]
    (source, source_port), (destination, destination_port) = reversed(ends) if back else ends
    length = size - 14
    ip = struct.pack(">BBHHHBBHII", 0x45, 0, length, talk % 65536, 0, 64, protocol, 0, source, destination)
    if protocol == UDP:
        rest = struct.pack(">HHHH", source_port, destination_port, length - 20, 0)
    else:
        rest = struct.pack(">HHIIBBHHH", source_port, destination_port, 1, 1, 0x50, 0x10, 8192, 0, 0)
    return (ETHERNET + ip + rest).ljust(size, b"\0")


def make(name, packets, frame_at, first=0, step=1):
    """A file of packets whose times are a millisecond apart, or `step` of them."""
    with open(name, "wb") as out:
        out.write(HEADER)
        for begin in range(0, packets, 1000):
            part = []
            for i in range(begin, min(begin + 1000, packets)):
                data, time = frame_at(i), first + i * step
                head = struct.pack("<IIII", 1000 + time // 1000, time % 1000 * 1000, len(data), len(data))
                part.append(head + data)
            out.write(b"".join(part))


def far(i):
    """A fragment of 8 bytes of a datagram of its own, at its block 8,188."""
    source, destination = 0x0A000000 + i // 65536, 0x0A000002
    ip = struct.pack(">BBHHHBBHII", 0x45, 0, 28, i % 65536, 0x2000 + 8188, 64, UDP, 0, source, destination)
    return ETHERNET + ip + bytes(8)
