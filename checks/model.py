"""What capt has to answer, as a plain program that keeps whole files: written from the formats (draft-ietf-opsawg-pcap,
draft-ietf-opsawg-pcapng, RFC 791, RFC 8200, RFC 6946, RFC 4302, RFC 5952, RFC 768, RFC 9293) and from what docs/RULES.md, docs/CLAIMS.md and the manual page say of rules, limits and printed lines, and
not from capt's code. The scripts of this folder hold the built program to it.

`answer(task, files, ..)` gives what is written (a text, or the bytes of OUT) and the refusal, or none."""
import datetime, hashlib, re, struct
from collections import namedtuple
from fractions import Fraction
from itertools import accumulate, zip_longest

RULES = {1: "magic", 2: "version", 3: "cut", 4: "packet-long", 5: "block-length", 6: "block-trailer", 7: "order-magic",
         8: "captured", 9: "interface-unknown", 10: "option-end", 11: "option-length", 12: "resolution", 13: "interface-limit",
         14: "file-limit", 15: "open-limit", 16: "talk-limit", 17: "no-time", 18: "link-mixed", 19: "inexact",
         20: "time-range", 21: "no-interface"}
PCAP_MAGICS = {b"\xd4\xc3\xb2\xa1": ("<", 10**6), b"\xa1\xb2\xc3\xd4": (">", 10**6),
               b"\x4d\x3c\xb2\xa1": ("<", 10**9), b"\xa1\xb2\x3c\x4d": (">", 10**9)}
SECTION, INTERFACE, OBSOLETE, SIMPLE, ENHANCED = 0x0A0D0D0A, 1, 2, 3, 6
LEAST = {SECTION: 28, INTERFACE: 20, OBSOLETE: 32, SIMPLE: 16, ENHANCED: 32}
MOST_CAPTURED, MOST_BLOCK, MOST_INTERFACES, MOST_GROUPS, MOST_TALKS = 262_144, 524_288, 1_024, 1_024, 1_048_576
MOST_FILE, MOST_END = 2**40, 65_515
UNITS = {"micro": 10**6, "nano": 10**9}      # of `--unit`, in a second

Refusal = namedtuple("Refusal", "file offset rule")
Interface = namedtuple("Interface", "link snaplen code seconds")
Packet = namedtuple("Packet", "file offset format skipped instance interface units captured original data")
Block = namedtuple("Block", "offset order kind total")
Ending = namedtuple("Ending", "format skipped cut")


class Refused(Exception):
    def __init__(self, offset, rule):
        self.offset, self.rule = offset, rule


def told(refusal):
    return f"refused: file {refusal.file} offset {refusal.offset} rule {refusal.rule} {RULES[refusal.rule]}\n"


def units_in_second(code):
    return 2 ** (code & 127) if code & 128 else 10**code


def time_of(packet):
    """The exact time, or None."""
    if packet.units is None:
        return None
    return Fraction(packet.units, units_in_second(packet.interface.code)) + packet.interface.seconds


def printed(packet):
    """A packet's time in its own form; `-` for none, also of no packet."""
    if packet is None or packet.units is None:
        return "-"
    d = units_in_second(packet.interface.code)
    seconds, rest = divmod(packet.units + packet.interface.seconds * d, d)
    return f"{seconds}+{rest}/{d}"


def places_of(denominator):
    """The fewest decimal places with which every fraction of that denominator ends."""
    return next(places for places in range(64) if 10**places % denominator == 0)


def with_places(whole, part, denominator):
    """Whole seconds and a fraction, in decimal."""
    places = places_of(denominator)
    return f"{whole}.{part * 10**places // denominator:0{places}}" if places else f"{whole}"


def in_decimal(seconds, part, denominator):
    """A time as a decimal fraction."""
    units = seconds * denominator + part
    return ("-" if units < 0 else "") + with_places(*divmod(abs(units), denominator), denominator)


def in_utc(seconds, part, denominator):
    """A time as a date and a time of day, if it is in the years 0000 to 9999. Python has no year 0000, so dates of that year are
    made 400 years later, in which time a calendar repeats itself."""
    later = seconds + 62_167_219_200
    if not 0 <= later < 315_569_520_000:
        return in_decimal(seconds, part, denominator)
    early = later < 366 * 86_400
    date = datetime.datetime(1, 1, 1) + datetime.timedelta(seconds=later - 366 * 86_400 + (146_097 * 86_400 if early
        else 0))
    _, point, places = with_places(0, part, denominator).partition(".")
    return f"{date.year - 400 * early:04}-{date:%m-%dT%H:%M:%S}{point}{places}Z"


def in_form(text, times):
    """The text of an answer with its times in a form: `exact`, `decimal` or `utc`."""
    if times == "exact":
        return text
    spell = in_utc if times == "utc" else in_decimal
    return re.sub(r"(?<= )(-?\d+)\+(\d+)/(\d+)\b", lambda found: spell(*map(int, found.groups())), text)


class File:
    """What a file gives: its packets, its blocks, its first interface, its refusal or how it ended."""

    def __init__(self, number, data, allow_cut, blocks_alone=False):
        self.number, self.data, self.allow_cut, self.blocks_alone = number, data, allow_cut, blocks_alone
        self.packets, self.blocks, self.first, self.refusal, self.ending = [], [], None, None, None
        self.skipped, self.instances, self.format, begun = 0, 0, "pcapng", False
        try:
            for _ in self.pieces():
                begun = True
            self.ending = Ending(self.format, self.skipped, False)
        except Refused as refused:
            if refused.rule == 3 and allow_cut and begun:
                self.ending = Ending(self.format, self.skipped, True)
            else:
                self.refusal = Refusal(number, refused.offset, refused.rule)

    def pieces(self):
        magic = self.data[:4]
        if len(magic) < 4:
            raise Refused(0, 3)
        if magic in PCAP_MAGICS and not self.blocks_alone:
            self.format = "pcap"
            return self.records(*PCAP_MAGICS[magic])
        if magic != b"\x0a\x0d\x0d\x0a":
            raise Refused(0, 1)
        return self.parts()

    def records(self, order, units):
        data = self.data
        if len(data) < 24:
            raise Refused(0, 3)
        if struct.unpack_from(order + "HH", data, 4) != (2, 4):
            raise Refused(0, 2)
        snaplen, link = struct.unpack_from(order + "II", data, 16)
        self.first = Interface(link & 0xFFFF, snaplen, 6 if units == 10**6 else 9, 0)
        yield
        at = 24
        while at < len(data):
            if len(data) - at < 16:
                raise Refused(at, 3)
            seconds, fraction, captured, original = struct.unpack_from(order + "IIII", data, at)
            self.check(at, [(captured > MOST_CAPTURED, 4), (at + 16 + captured > MOST_FILE, 14), (len(data) - at < 16 + captured, 3)])
            frame = data[at + 16:at + 16 + captured]
            self.packets.append(Packet(self.number, at, "pcap", 0, 0, self.first, seconds * units + fraction, captured, original, frame))
            at += 16 + captured
            yield

    def check(self, at, conditions):
        for holds, rule in conditions:
            if holds:
                raise Refused(at, rule)

    def parts(self):
        data, at, order, interfaces = self.data, 0, None, []
        while at < len(data):
            left = len(data) - at
            if left < 12:
                raise Refused(at, 3)
            if data[at:at + 4] == b"\x0a\x0d\x0d\x0a":
                order = {b"\x4d\x3c\x2b\x1a": "<", b"\x1a\x2b\x3c\x4d": ">"}.get(data[at + 8:at + 12])
                if order is None:
                    raise Refused(at, 7)
            kind, total = struct.unpack_from(order + "II", data, at)
            wrong = total % 4 != 0 or total < LEAST.get(kind, 12) or kind in LEAST and total > MOST_BLOCK
            self.check(at, [(wrong, 5), (at + total > MOST_FILE, 14), (left < total, 3)])
            if struct.unpack_from(order + "I", data, at + total - 4)[0] != total:
                raise Refused(at, 6)
            body = data[at + 8:at + total - 4] if kind in LEAST else b""
            if kind == SECTION:
                if struct.unpack_from(order + "HH", body, 4) not in ((1, 0), (1, 2)):
                    raise Refused(at, 2)
                interfaces = []
            self.blocks.append(Block(at, order, kind, total))
            if kind == INTERFACE and not self.blocks_alone:
                self.check(at, [(len(interfaces) >= MOST_INTERFACES, 13)])
                interface = interface_of(at, order, body)
                self.first = self.first or (interface if not self.instances else None)
                interfaces.append((self.instances, interface))
                self.instances += 1
            elif kind in LEAST and kind != SECTION and not self.blocks_alone:
                self.packets.append(self.packet(at, order, kind, total, body, interfaces))
            elif kind not in LEAST:
                self.skipped += 1
            at += total
            yield

    def packet(self, at, order, kind, total, body, interfaces):
        number, units, begin = 0, None, 4
        if kind == SIMPLE:
            original = captured = struct.unpack_from(order + "I", body)[0]
        else:
            number, high, low, captured, original = struct.unpack_from(order + ("I" if kind == ENHANCED else "Hxx") + "IIII", body)
            units, begin = high << 32 | low, 20
        self.check(at, [(number >= len(interfaces), 9)])
        instance, interface = interfaces[number]
        if kind == SIMPLE and interface.snaplen:
            captured = min(original, interface.snaplen)
        self.check(at, [(captured > MOST_CAPTURED, 4), (begin + captured > total - 12, 8)])
        return Packet(self.number, at, "pcapng", self.skipped, instance, interface, units, captured, original, body[begin:begin + captured])


def interface_of(at, order, body):
    link, _, snaplen = struct.unpack_from(order + "HHI", body)
    found, place = {}, 8
    while place + 4 <= len(body):
        code, length = struct.unpack_from(order + "HH", body, place)
        if code == 0:
            break
        if place + 4 + length > len(body):
            raise Refused(at, 10)
        value = body[place + 4:place + 4 + length]
        if code in (9, 14) and code not in found:
            if length != (1 if code == 9 else 8):
                raise Refused(at, 11)
            if code == 9 and (value[0] & 127) > (63 if value[0] & 128 else 19):
                raise Refused(at, 12)
            found[code] = value
        place += 4 + (length + 3) // 4 * 4
    seconds = struct.unpack(order + "q", found[14])[0] if 14 in found else 0
    return Interface(link, snaplen, found[9][0] if 9 in found else 6, seconds)


def run_of(files):
    """The packets of files by (clock, file, place), each with its clock, and the first refusal, which ends them."""
    items = []
    for file in files:
        clock = None
        for place, packet in enumerate(file.packets + ([file.refusal] if file.refusal else [])):
            time = time_of(packet) if isinstance(packet, Packet) else None
            clock = time if clock is None else clock if time is None else max(clock, time)
            items.append(((clock is not None, clock or 0, file.number, place), clock, packet))
    items.sort(key=lambda item: item[0])
    run = []
    for _, clock, packet in items:
        if isinstance(packet, Refusal):
            return run, packet
        run.append((clock, packet))
    return run, None


# Where a link header has its type field, and where it ends: of Ethernet, of LINUX_SLL and of LINUX_SLL2.
LINK_HEADERS = {1: (12, 14), 113: (14, 16), 276: (0, 20)}


def announced(link, frame):
    """The type that a link header and the tags behind it announce, and the bytes behind them; None if the frame ends inside them."""
    at, end = LINK_HEADERS[link]
    if len(frame) < end:
        return None
    kind = frame[at:at + 2]
    while kind in (b"\x81\x00", b"\x88\xa8"):
        kind, end = frame[end + 2:end + 4], end + 4
        if len(frame) < end:
            return None
    return kind, frame[end:]


def ipv4_of(packet):
    """The IPv4 bytes of a frame, or its class."""
    link, frame = packet.interface.link, packet.data
    short = "cut" if packet.captured < packet.original else "short"
    if link in (101, 228):
        if link == 101 and not frame:
            return short
        return frame if link == 228 or frame[0] >> 4 == 4 else "not-ipv4"
    if link not in LINK_HEADERS:
        return "other-link"
    found = announced(link, frame)
    if found is None:
        return short
    kind, data = found
    return data if kind == b"\x08\x00" else "not-ipv4"


def ipv6_of(packet):
    """The IPv6 bytes of a frame, or None if it carries no such packet."""
    link, frame = packet.interface.link, packet.data
    if link == 229:
        return frame
    if link == 101:
        return frame if frame and frame[0] >> 4 == 6 else None
    found = announced(link, frame) if link in LINK_HEADERS else None
    return found[1] if found and found[0] == b"\x86\xdd" else None


Header = namedtuple("Header", "service identification more start life protocol source destination length data")


def header_of(data, whole):
    """The header with the captured part of the data, or its class: the first of seven steps that holds."""
    if len(data) < 20:
        return "bad" if whole else "cut"
    first, service, total, identification, flags, life, protocol, _, source, destination = struct.unpack_from(">BBHHHBBHII", data)
    size = (first & 15) * 4
    if first >> 4 != 4 or size < 20 or total < size:
        return "bad"
    if len(data) < size:
        return "bad" if whole else "cut"
    if whole and total > len(data):
        return "bad"
    more, start, length = bool(flags & 0x2000), (flags & 0x1FFF) * 8, total - size
    if more or start:
        if length == 0 or more and length % 8 or start + length > MOST_END:
            return "bad"
        if len(data) < total:
            return "cut"
    return Header(service, identification, more, start, life, protocol, source, destination, length, data[size:total])


# A whole datagram of IPv6 with the captured part of its data, a fragment of one, or a packet that is bad or cut for a
# reason.
Datagram6 = namedtuple("Datagram6", "protocol source destination length data")
Fragment6 = namedtuple("Fragment6", "identification start")
Refused6 = namedtuple("Refused6", "kind why")
# The extension headers whose length is given in words of 8 bytes after the first.
BY_EIGHTS = (0, 43, 60, 135, 139, 140)
FRAGMENT, AUTHENTICATION = 44, 51


def ipv6_read(data, whole):
    """What an IPv6 packet is."""
    if len(data) < 40:
        return Refused6("bad" if whole else "cut", "header-short")
    version, length, kind = data[0] >> 4, data[4] << 8 | data[5], data[6]
    if version != 6:
        return Refused6("bad", "version")
    if whole and 40 + length > len(data):
        return Refused6("bad", "beyond-frame")
    source, destination = int.from_bytes(data[8:24], "big"), int.from_bytes(data[24:40], "big")
    # of the payload `at` bytes were passed
    payload, at = data[40:40 + length], 0
    while kind in BY_EIGHTS or kind in (FRAGMENT, AUTHENTICATION):
        # each has at least 8 bytes, and its first two give its length
        if length - at < 8:
            return Refused6("bad", "extension-past")
        if len(payload) - at < 2:
            return Refused6("cut", "extension-cut")
        words = payload[at + 1]
        size = 8 if kind == FRAGMENT else (words + 2) * 4 if kind == AUTHENTICATION else (words + 1) * 8
        if at + size > length:
            return Refused6("bad", "extension-past")
        if at + size > len(payload):
            return Refused6("cut", "extension-cut")
        if kind == FRAGMENT:
            found = fragment_of(payload[at:at + 8], length - at - 8)
            if found:
                return found
        kind, at = payload[at], at + size
    return Datagram6(kind, source, destination, length - at, payload[at:])


def fragment_of(header, length):
    """What the fragment header of a packet says, behind which are so many bytes; None if that is a whole datagram."""
    places, identification = struct.unpack(">2xHI", header)
    start, more = places & 0xFFF8, bool(places & 1)
    if not start and not more:
        return None
    if length == 0:
        return Refused6("bad", "fragment-empty")
    if more and length % 8:
        return Refused6("bad", "fragment-block")
    if start + length > 65_535:
        return Refused6("bad", "fragment-beyond")
    return Fragment6(identification, start)


def transport_of(protocol, data, length):
    """The ports, (None, None) where there are none, or the class."""
    least = {17: 8, 6: 20}.get(protocol)
    if least is None:
        return None, None
    if length < least:
        return "bad"
    if len(data) < least:
        return "cut"
    inner = struct.unpack_from(">H", data, 4)[0] if protocol == 17 else (data[12] >> 4) * 4
    return "bad" if inner < least or inner > length else struct.unpack_from(">HH", data)


def header_reason(data, whole):
    """Why a packet is bad or cut whose header isn't found."""
    if len(data) < 20:
        return "header-short"
    first, _, total, _, flags = struct.unpack_from(">BBHHH", data)
    size, more, start = (first & 15) * 4, flags & 0x2000, (flags & 0x1FFF) * 8
    length = total - size
    tests = [("version", first >> 4 != 4), ("header-length", size < 20), ("length-zero", total == 0), ("length-short", length < 0),
             ("header-short", len(data) < size), ("beyond-frame", whole and len(data) < total), ("fragment-empty", length == 0),
             ("fragment-block", more and length % 8), ("fragment-beyond", start + length > MOST_END), ("fragment-cut", True)]
    return next(name for name, holds in tests if holds)


def transport_reason(protocol, data, length):
    """Why a datagram of UDP or TCP is bad or cut."""
    name, least, other = ("udp", 8, "length") if protocol == 17 else ("tcp", 20, "offset")
    return f"{name}-{'short' if length < least or len(data) < least else other}"


def described_between(version, protocol, source, destination, data, length):
    """What a whole datagram is between two addresses, with the captured part of its data, which has that length."""
    ports = transport_of(protocol, data, length)
    if isinstance(ports, str):
        return f"{ports} reason {transport_reason(protocol, data, length)}"
    lesser, greater = sorted([(version, source, ports[0]), (version, destination, ports[1])],
                             key=lambda end: (end[1], end[2] or 0))
    return f"counted {protocol_text(protocol)} {end_text(lesser)} {end_text(greater)}"


def description(packet, ipv6=False):
    """What a packet is by itself, as `list --class` says it, with `--ipv6` or without."""
    whole = packet.captured >= packet.original
    data = ipv6_of(packet) if ipv6 else None
    if data is not None:
        found = ipv6_read(data, whole)
        if isinstance(found, Refused6):
            return f"{found.kind} reason {found.why}"
        if isinstance(found, Fragment6):
            return f"fragment identification {found.identification} fragment-offset {found.start}"
        return described_between(6, *found[:3], found.data, found.length)
    data = ipv4_of(packet)
    if isinstance(data, str):
        return "cut reason link-short" if data == "cut" else class_name(data, ipv6)
    header = header_of(data, whole)
    if isinstance(header, str):
        return f"{header} reason {header_reason(data, whole)}"
    if header.more or header.start:
        return f"fragment identification {header.identification} fragment-offset {header.start}"
    return described_between(4, header.protocol, header.source, header.destination, header.data, header.length)


CLASSES = ("other-link", "not-ipv4", "short", "cut", "bad", "unjoined", "counted")


def class_name(name, ipv6):
    """The name of a class, with `--ipv6` or without: what is neither IPv4 nor IPv6 is `not-ip` then."""
    return "not-ip" if ipv6 and name == "not-ipv4" else name


class Group:
    def __init__(self, clock):
        self.clock, self.bytes, self.covered, self.total, self.header, self.frames = clock, bytearray(), set(), None, None, []

    def put(self, header, frame):
        start, end = header.start, header.start + header.length
        self.bytes.extend(bytes(max(0, end - len(self.bytes))))
        self.bytes[start:end] = header.data
        self.covered.update(range(start // 8, (end + 7) // 8))
        self.frames.append(frame)
        if not header.more:
            self.total = end
        if start == 0:
            self.header = header
        return self.total is not None and all(block in self.covered for block in range((self.total + 7) // 8))

    def is_old(self, clock):
        return self.clock is not None and clock is not None and self.clock + 30 < clock


class Joiner:
    def __init__(self):
        self.groups, self.given_up = {}, 0

    def put(self, clock, header, frame):
        """The data of the datagram that the fragment completes, with its group, or None."""
        key = key_of(header)
        if key in self.groups and self.groups[key].is_old(clock):
            del self.groups[key]
        if key not in self.groups:
            self.groups = {name: group for name, group in self.groups.items() if not group.is_old(clock)}
            if len(self.groups) >= MOST_GROUPS:
                del self.groups[next(iter(self.groups))]
                self.given_up += 1
            self.groups[key] = Group(clock)
        if not self.groups[key].put(header, frame):
            return None
        group = self.groups.pop(key)
        return bytes(group.bytes[:group.total]), group


def key_of(header):
    return header.source, header.destination, header.protocol, header.identification


class Table:
    """The report's counts over a list of packets with their clocks, those of IPv6 among them or not."""

    def __init__(self, ipv6=False):
        self.ipv6, self.classes = ipv6, dict.fromkeys(CLASSES, 0)
        self.joiner, self.joined, self.talks = Joiner(), 0, {}

    def frames(self):
        """The line of the classes."""
        return "frames " + " ".join(f"{class_name(name, self.ipv6)} {count}" for name,
                                    count in self.classes.items()) + "\n"

    def take_ipv6(self, place, packet, found):
        """Counts an IPv6 packet. Its fragments aren't joined, and it changes nothing of those of IPv4."""
        if isinstance(found, Refused6):
            self.classes[found.kind] += 1
        elif isinstance(found, Fragment6):
            self.classes["unjoined"] += 1
        else:
            self.counts(6, *found[:3], found.data, found.length, [(place, packet)])

    def take(self, place, clock, packet):
        """The IPv4 datagram that this packet completes, if it counts: its header, its data and whether that is whole."""
        data = ipv6_of(packet) if self.ipv6 else None
        if data is not None:
            return self.take_ipv6(place, packet, ipv6_read(data, packet.captured >= packet.original))
        data = ipv4_of(packet)
        header = data if isinstance(data, str) else header_of(data, packet.captured >= packet.original)
        if isinstance(header, str):
            self.classes[header] += 1
            return None
        if not header.more and not header.start:
            self.joiner.groups.pop(key_of(header), None)
            return self.count(header, header.data, header.length, [(place, packet)])
        self.classes["unjoined"] += 1
        done = self.joiner.put(clock, header, (place, packet))
        if done is None:
            return None
        data, group = done
        self.classes["unjoined"] -= len(group.frames)
        return self.count(group.header, data, len(data), group.frames)

    def count(self, header, data, length, frames):
        is_counted = self.counts(4, header.protocol, header.source, header.destination, data, length, frames)
        return (header, data, len(data) == length) if is_counted else None

    def counts(self, version, protocol, source, destination, data, length, frames):
        """Counts a datagram that came in some frames; whether it has a conversation."""
        ports = transport_of(protocol, data, length)
        if isinstance(ports, str):
            self.classes[ports] += len(frames)
            return False
        ends = (version, source, ports[0]), (version, destination, ports[1])
        key = (protocol, *sorted(ends))
        if key not in self.talks and len(self.talks) >= MOST_TALKS:
            raise Refused(frames[-1][1].offset, 16)
        sums, of_talk = self.talks.setdefault(key, ([0, 0, 0, 0], []))
        way = 0 if ends[0] == key[1] else 2
        sums[way] += len(frames)
        sums[way + 1] += sum(packet.original for _, packet in frames)
        timed = [(time_of(packet), place, packet) for place, packet in frames + of_talk if packet.units is not None]
        of_talk[:] = [earliest(timed), latest(timed)] if timed else []
        self.classes["counted"] += len(frames)
        self.joined += len(frames) > 1      # no fragment is a datagram by itself
        return True


def earliest(timed):
    _, place, packet = min(timed, key=lambda one: (one[0], one[1]))
    return place, packet


def latest(timed):
    _, place, packet = max(timed, key=lambda one: (one[0], -one[1]))
    return place, packet


def span_of(packets):
    """The least and the greatest time of some packets, of equal ones the first, as they are printed."""
    timed = [(time_of(packet), place, packet) for place, packet in enumerate(packets) if packet.units is not None]
    return (printed(earliest(timed)[1]), printed(latest(timed)[1])) if timed else ("-", "-")


def file_line(number, ending, packets):
    first, last = span_of(packets)
    return (f"file {number} {ending.format} {sums_of(packets)} skipped {ending.skipped} first {first} last {last}"
            + (" cut" if ending.cut else "") + "\n")


def sums_of(packets):
    return (f"packets {len(packets)} bytes {sum(packet.original for packet in packets)} "
            f"truncated {sum(packet.captured < packet.original for packet in packets)}")


def info(files):
    for file in files:
        if file.refusal:
            return "", file.refusal
    return f"files {len(files)}\n" + "".join(file_line(file.number, file.ending, file.packets) for file in files), None


def canonical(packet):
    """A packet's bytes in the text whose SHA-256 is its file's digest."""
    time = time_of(packet)
    form = bytes(32) if time is None else (time // 1).to_bytes(16, "big", signed=True) + struct.pack(">QQ", (time % 1).numerator, time.denominator)
    return struct.pack(">HII", packet.interface.link, packet.captured, packet.original) + form + packet.data


# Tasks that have a line for each file, also for one that isn't whole, and go on.
SURVEYS = ("digest", "check", "check-digest")
SKIPPING = ("info-skipping", "report-skipping", "report-skipping-ipv6")


def digest_of(packets):
    """The digits of the digest of packets."""
    return hashlib.sha256(b"".join(canonical(packet) for packet in packets)).hexdigest()


def end_of(file):
    """How a file ends of which no read fails, as its line says it."""
    if file.refusal:
        return f"refused offset {file.refusal.offset} rule {file.refusal.rule} {RULES[file.refusal.rule]}"
    return "whole cut" if file.ending.cut else "whole"


def digested(file):
    """The line of `digest` of a file of which no read fails."""
    if file.refusal:
        return f"digest {file.number} {end_of(file)}\n"
    return f"digest {file.number} sha256 {digest_of(file.packets)} packets {len(file.packets)}{' cut' * file.ending.cut}\n"


def digest(files):
    return "".join(digested(file) for file in files), None


def check_line(number, end, packets=(), format="-", skipped=0, interfaces=0):
    """The line of a file that is checked, with the packets that are counted of it."""
    times = [time_of(packet) for packet in packets]
    timed = [time for time in times if time is not None]
    backward = sum(time < greatest for greatest, time in zip(accumulate(timed, max), timed[1:]))
    first, last = span_of(packets)
    return (f"check {number} {format} packets {len(packets)} bytes {sum(packet.original for packet in packets)} first {first} last {last} "
            f"backward {backward} untimed {times.count(None)} truncated {sum(packet.captured < packet.original for packet in packets)} "
            f"skipped {skipped} interfaces {interfaces} {end}\n")


def checked_to(file, offset, end):
    """The line of a file that was read up to that offset and ends so. A pcap file has one interface, once its header was
    read. A record or a block that is refused is counted in nothing, so what stands before the offset is all that is."""
    if offset == 0:
        return check_line(file.number, end)
    packets = [packet for packet in file.packets if packet.offset < offset]
    kinds = [block.kind for block in file.blocks if block.offset < offset]
    skipped = sum(kind not in LEAST for kind in kinds)
    interfaces = 1 if file.format == "pcap" else kinds.count(INTERFACE)
    return check_line(file.number, end, packets, file.format, skipped, interfaces)


def checked(file, has_digest=False):
    """The line of `check` of a file of which no read fails, with its digest or without."""
    digits = "-" if file.refusal else digest_of(file.packets)
    end = f"sha256 {digits} {end_of(file)}" if has_digest else end_of(file)
    return checked_to(file, file.refusal.offset if file.refusal else MOST_FILE + 1, end)


def unread(number, content, offset, task="check"):
    """The line of a file of which a read fails in the header, record or block at that offset."""
    end = f"read offset {offset}"
    if task == "digest":
        return f"digest {number} {end}\n"
    return checked_to(File(number, content, False), offset, f"sha256 - {end}" if task == "check-digest" else end)


def unopened(number, task="check"):
    """The line of a file that can't be opened."""
    if task == "digest":
        return f"digest {number} open\n"
    return check_line(number, "sha256 - open" if task == "check-digest" else "open")


def check(files):
    return "".join(checked(file) for file in files), None


def check_digest(files):
    return "".join(checked(file, True) for file in files), None


# The characters that a terminal doesn't show: they control it, separate lines or turn the direction of what follows.
HIDDEN = ((0, 0x1F), (0x7F, 0x9F), (0x61C, 0x61C), (0x200E, 0x200F), (0x2028, 0x202E), (0x2066, 0x2069))


def is_hidden(character):
    return any(low <= ord(character) <= high for low, high in HIDDEN)


def named(line, name):
    """The line of a file that is checked, with --names: the name as a terminal shows it."""
    return line[:-1] + " name " + "".join(f"\\u{{{ord(c):x}}}" if is_hidden(c) else c for c in name) + "\n"


def path_of(name):
    """A name as a string of JSON."""
    return '"' + "".join(f"\\u{ord(c):04x}" if is_hidden(c) else f"\\{c}" if c in '"\\' else c for c in name) + '"'


def protocol_text(protocol):
    return {17: "udp", 6: "tcp"}.get(protocol, f"p{protocol}")


def ipv6_text(address):
    """An IPv6 address in eight groups of hex digits, in place of the longest run of two or more groups of zero, the first of those as long,
    `::`. One that maps an IPv4 address has no other form."""
    groups = struct.unpack(">8H", address.to_bytes(16, "big"))
    words = [f"{group:x}" for group in groups]
    most, begin = 1, None
    for start in range(8):
        length = next((n for n in range(8 - start) if groups[start + n]), 8 - start)
        if length > most:
            most, begin = length, start
    return ":".join(words) if begin is None else f"{':'.join(words[:begin])}::{':'.join(words[begin + most:])}"


def end_text(end):
    """An end: its network's version, its address, and its port or None."""
    version, address, port = end
    if version == 6:
        return ipv6_text(address) if port is None else f"[{ipv6_text(address)}]:{port}"
    address = ".".join(str(byte) for byte in struct.pack(">I", address))
    return address if port is None else f"{address}:{port}"


def report(files, most=None, ipv6=False):
    """The report, with a line for each conversation, or for so many of them, those with the most bytes both ways: the greatest first, and of
    equal bytes the one that began first. With conversations of IPv6 or without."""
    run, refusal = run_of(files)
    table = Table(ipv6)
    for place, (clock, packet) in enumerate(run):
        try:
            table.take(place, clock, packet)
        except Refused as refused:
            return "", Refusal(packet.file, refused.offset, refused.rule)
    if refusal:
        return "", refusal
    lines = [info(files)[0], f"total {sums_of([packet for _, packet in run])}\n",
             table.frames(),
             f"joined {table.joined} given-up {table.joiner.given_up}\n", f"talks {len(table.talks)}\n"]
    talks = list(table.talks.items())
    if most is not None:
        places = sorted(range(len(talks)), key=lambda place: (-talks[place][1][0][1] - talks[place][1][0][3], place))
        talks = [talks[place] for place in places[:most]]
    for (protocol, lesser, greater), (sums, frames) in talks:
        first, last = (printed(frames[0][1]), printed(frames[1][1])) if frames else ("-", "-")
        lines.append(f"talk {protocol_text(protocol)} {end_text(lesser)} {end_text(greater)} forward {sums[0]} {sums[1]} "
                     f"backward {sums[2]} {sums[3]} first {first} last {last}\n")
    return "".join(lines), None


def packet_line(n, p, start=0):
    return (f"packet {n} offset {p.offset} time {printed(p)} captured {p.captured} original {p.original} "
            f"link {p.interface.link} data {p.data[start:start + 16].hex() or '-'}\n")


def list_(files):
    return "".join(packet_line(n, p) for n, p in enumerate(files[0].packets, 1)), files[0].refusal


def classed(files, ipv6=False):
    """What `list --class` prints, with `--ipv6` or without."""
    return "".join(f"{packet_line(n, p)[:-1]} class {description(p, ipv6)}\n" for n,
                   p in enumerate(files[0].packets, 1)), files[0].refusal


def differences(a, b, ignored=()):
    """In what two packets differ, apart from what is ignored; `end` if there is one of them."""
    if a is None or b is None:
        return ["end"]
    pairs = [("link", a.interface.link, b.interface.link), ("time", time_of(a), time_of(b)), ("captured", a.captured, b.captured),
             ("original", a.original, b.original), ("data", a.data, b.data)]
    return [name for name, of_a, of_b in pairs if of_a != of_b and name not in ignored]


def data_place(a, b):
    """Where the captured bytes of two packets differ, from 0; None if they are the same, or if one packet isn't there."""
    if a is None or b is None or a.data == b.data:
        return None
    return next((place for place, (one, other) in enumerate(zip(a.data, b.data)) if one != other), min(len(a.data), len(b.data)))


def first_difference(files, ignored=()):
    """The number of the first packet that isn't the same in two files, apart from what is ignored, in what it differs, and both packets; or the
    number of packets; or the refusal before that."""
    items = [file.packets + ([file.refusal] if file.refusal else []) for file in files]
    for n, (a, b) in enumerate(zip_longest(*items), 1):
        refused = [item for item in (a, b) if isinstance(item, Refusal)]
        if refused:
            return None, refused[0]
        if differences(a, b, ignored):
            return (n, differences(a, b, ignored), a, b), None
    return (len(items[0]), [], None, None), None


def diff(files, ignored=()):
    found, refusal = first_difference(files, ignored)
    if refusal:
        return "", refusal
    n, words, *packets = found
    if not words:
        cuts = [f" cut {name}" * file.ending.cut for name, file in zip("AB", files)]
        return f"same packets {n}{''.join(cuts)}\n", None
    place = data_place(*packets)
    row = 0 if place is None else place // 16 * 16
    sides = [f"{sign} " + (packet_line(n, packet, row) if packet else f"end{' cut' * file.ending.cut}\n")
             for sign, packet, file in zip("-+", packets, files)]
    return f"differ packet {n} {' '.join(words)}{'' if place is None else f' at {place}'}\n{''.join(sides)}", None


def blocks(files):
    lines = [f"block {n} offset {b.offset} order {'little' if b.order == '<' else 'big'} kind {b.kind:08x} total {b.total}\n"
             for n, b in enumerate(files[0].blocks, 1)]
    return "".join(lines), files[0].refusal


def block(order, kind, body):
    total = len(body) + 12
    return struct.pack(order + "II", kind, total) + body + struct.pack(order + "I", total)


def section(order):
    return block(order, SECTION, struct.pack(order + "IHHq", 0x1A2B3C4D, 1, 0, -1))


def written_interface(order, interface):
    body = struct.pack(order + "HHIHHB3x", interface.link, 0, interface.snaplen, 9, 1, interface.code)
    if interface.seconds:
        body += struct.pack(order + "HHq", 14, 8, interface.seconds)
    return block(order, INTERFACE, body + bytes(4))


def write_packets(order, packets, refusal, first=None, shares=False):
    """The text of packets as pcapng, up to the first refusal; if interfaces are shared, equal ones are one."""
    out, numbers = [section(order)], {}
    if first is not None:
        numbers[1, 0] = 0
        out.append(written_interface(order, first))
    for packet in packets:
        if packet.units is None:
            return b"".join(out), Refusal(packet.file, packet.offset, 17)
        name = packet.interface if shares else (packet.file, packet.instance)
        if name not in numbers:
            if len(numbers) >= MOST_INTERFACES:
                return b"".join(out), Refusal(packet.file, packet.offset, 13)
            numbers[name] = len(numbers)
            out.append(written_interface(order, packet.interface))
        out.append(block(order, ENHANCED, struct.pack(order + "IIIII", numbers[name], packet.units >> 32, packet.units & 0xFFFFFFFF,
                                                      packet.captured, packet.original) + packet.data + bytes(-packet.captured % 4)))
    return b"".join(out), refusal


def write_records(order, first, packets, refusal, unit=None):
    """The text of packets as pcap, with the link, the snaplen and the fraction of that interface, or the unit that is asked for, up to
    the first refusal."""
    unit = unit or (10**6 if 10**6 % units_in_second(first.code) == 0 else 10**9)
    out = [struct.pack(order + "IHHIIII", 0xA1B2C3D4 if unit == 10**6 else 0xA1B23C4D, 2, 4, 0, 0, first.snaplen, first.link)]
    for packet in packets:
        time = time_of(packet)
        rule = (17 if time is None else 18 if packet.interface.link != first.link
                else 19 if (time * unit).denominator != 1 else 20 if not 0 <= time < 2**32 else None)
        if rule:
            return b"".join(out), Refusal(packet.file, packet.offset, rule)
        seconds, fraction = divmod(int(time * unit), unit)
        out.append(struct.pack(order + "IIII", seconds, fraction, packet.captured, packet.original) + packet.data)
    return b"".join(out), refusal


def to_pcap(order, file, unit=None):
    if file.first is None:
        return b"", file.refusal or Refusal(1, 0, 21)
    return write_records(order, file.first, file.packets, file.refusal, unit)


def write_run(to, order, packets, refusal, unit=None):
    """The text of the packets of a run in that format: in pcap by the first one's interface, or in the unit that is asked for."""
    if to == "pcapng":
        return write_packets(order, packets, refusal)
    if not packets:
        return b"", refusal or Refusal(1, 0, 21)
    if packets[0].units is None:
        return b"", Refusal(packets[0].file, packets[0].offset, 17)
    return write_records(order, packets[0].interface, packets, refusal, unit)


def checksum(header):
    total = sum(struct.unpack(">10H", header))
    while total >> 16:
        total = (total & 0xFFFF) + (total >> 16)
    return ~total & 0xFFFF


def join(to, order, files, unit=None):
    run, refusal = run_of(files)
    table, packets = Table(), []
    for place, (clock, packet) in enumerate(run):
        if packet.units is None:
            packets.append(packet)      # refused where it stands
            break
        done = table.take(place, clock, packet)
        if done and done[2]:
            header, data, _ = done
            fields = [0x45, header.service, 20 + len(data), header.identification, 0, header.life, header.protocol, 0,
                      header.source, header.destination]
            fields[7] = checksum(struct.pack(">BBHHHBBHII", *fields))
            datagram = struct.pack(">BBHHHBBHII", *fields) + data
            packets.append(packet._replace(interface=packet.interface._replace(link=101, snaplen=0), data=datagram,
                                           captured=len(datagram), original=len(datagram)))
    return write_run(to, order, packets, refusal, unit)


def in_unit(task):
    """The task without the unit that it asks for, and that unit or None."""
    name, _, last = task.rpartition("-")
    if last not in UNITS:
        return task, None
    return name if name == "pcap" else f"{name}-pcap", UNITS[last]


def skipping(task, files):
    """`info` or `report` without the files that are refused: a line for each of these, and then what the task prints of the others, which are
    numbered from 1. A refusal of that names the file by its number among all."""
    lines = "".join(f"left out {file.number} offset {file.refusal.offset} rule {file.refusal.rule} {RULES[file.refusal.rule]}\n"
                    for file in files if file.refusal)
    others = [file for file in files if not file.refusal]
    if not others:
        return lines, None
    text, refusal = task([File(number, file.data, file.allow_cut) for number, file in enumerate(others, 1)])
    return lines + text, refusal and refusal._replace(file=others[refusal.file - 1].number)


def answer(task, contents, allow_cut=False, order="<", ignored=(), times="exact"):
    """What a task has to write over the contents of files, and the refusal or None. The task is a command's name, `pcap` or
    `pcapng` for `convert` to that format, `merge-pcap` or `join-pcap` for `merge` or `join` to pcap, `merge-shared` for
    `merge --share-interfaces`, `pcap-micro`, `merge-nano` and the like for these to pcap with `--unit`, `check-digest` for
    `check --digest`, `classed` for `list --class`, or `top` for `report --top 2`, or `info-skipping` and `report-skipping`
    for `info` and `report` with `--skip-refused`; `report-ipv6`, `top-ipv6`, `report-skipping-ipv6` and `classed-ipv6` have
    `--ipv6` too. `diff` ignores times, link types or original lengths, if these are named. Times are printed in that form."""
    if times != "exact":
        text, refusal = answer(task, contents, allow_cut, order, ignored)
        return in_form(text, times), refusal
    files = [File(number, data, allow_cut, task == "blocks") for number, data in enumerate(contents, 1)]
    task, unit = in_unit(task)
    to = "pcap" if task.endswith("-pcap") else "pcapng"
    if task == "merge-shared":
        run, refusal = run_of(files)
        return write_packets(order, [packet for _, packet in run], refusal, shares=True)
    if task in ("merge", "merge-pcap"):
        run, refusal = run_of(files)
        return write_run(to, order, [packet for _, packet in run], refusal, unit)
    if task == "pcapng":
        return write_packets(order, files[0].packets, files[0].refusal, files[0].first)
    if task == "pcap":
        return to_pcap(order, files[0], unit)
    if task in ("join", "join-pcap"):
        return join(to, order, files, unit)
    if task == "diff":
        return diff(files, ignored)
    task, ipv6 = task.removesuffix("-ipv6"), task.endswith("-ipv6")
    return {"list": list_, "classed": lambda files: classed(files, ipv6), "blocks": blocks, "info": info,
            "report": lambda files: report(files, ipv6=ipv6), "top": lambda files: report(files, 2, ipv6),
            "info-skipping": lambda files: skipping(info, files),
            "report-skipping": lambda files: skipping(lambda files: report(files, ipv6=ipv6), files),
            "digest": digest, "check": check, "check-digest": check_digest}[task](files)


def status_of(task, text, refusal):
    """The status after such an answer."""
    if task in SURVEYS:
        whole = " packets " if task == "digest" else " whole"
        return 0 if all(whole in line for line in text.splitlines()) else 1
    if task in SKIPPING and text.startswith("left out "):
        return 1
    return 1 if refusal else 3 if task == "diff" and text.startswith("differ") else 0
