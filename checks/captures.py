"""Worked captures, makers of captures, and how the program is run: for the scripts of this folder."""
import fcntl, os, struct, subprocess, sys, threading

import model

TOP = os.path.dirname(os.path.dirname(os.path.abspath(__file__)))
PROGRAM = os.path.join(TOP, "crates", "capt", "out", "capt")

MICRO_LITTLE = "d4c3b2a1 02000400 00000000 00000000 00000400"
SECTION = "0a0d0d0a 1c000000 4d3c2b1a 01000000 ffffffffffffffff 1c000000"
INTERFACE = "01000000 20000000 01000000 00000400 09000100 06000000 00000000 20000000"
CARRIED = "a0252600 04000000 04000000 01020304"
TAGS = "88a8 0064 8100 000a 0800"
TO_2, TO_1 = "020000000002 020000000001", "020000000001 020000000002"

# Files in hex, piece by piece: the file header or the first section header, and then each record or block.
VECTORS = {
    "CARRY_PCAP": [f"{MICRO_LITTLE} 01000000", "01000000 60e31600 04000000 04000000 01020304"],
    "CARRIED_PCAP": [f"{MICRO_LITTLE} 01000000", "02000000 20a10700 04000000 04000000 01020304"],
    "CARRY_PCAPNG": [SECTION, INTERFACE, f"06000000 24000000 00000000 00000000 {CARRIED} 24000000"],
    "OPTIONS_PCAPNG": [
        "0a0d0d0a 2c000000 4d3c2b1a 01000000 ffffffffffffffff 04000700 44756d7063617000 00000000 2c000000",
        "01000000 34000000 01000000 00000400 02000400 65746830 09000100 06000000 0c000500 4c696e7578000000 00000000 34000000",
        f"06000000 30000000 00000000 00000000 {CARRIED} 02000400 01000000 00000000 30000000",
        "05000000 18000000 00000000 00000000 a0252600 18000000"],
    "TAGGED_FRAMES": [
        f"{MICRO_LITTLE} 01000000",
        f"01000000 00000000 3c000000 3c000000 {TO_2} {TAGS} 4500001e 00010000 40110000 0a000001 0a000002 03e807d0 000a0000 6869 0000000000000000",
        f"02000000 00000000 3c000000 3c000000 {TO_1} {TAGS} 4500001e 00020000 40110000 0a000002 0a000001 07d003e8 000a0000 6869 0000000000000000",
        f"03000000 00000000 3c000000 3c000000 {TO_2} {TAGS} 4500001e 00030000 40110000 0a000001 0a000002 03e807d0 000c0000 6869 0000000000000000"],
    "FRAGMENT_FRAMES": [
        f"{MICRO_LITTLE} 65000000",
        "01000000 00000000 1c000000 1c000000 4500001c 00070002 40110000 0a000001 0a000002 b0b1b2b3b4b5b6b7",
        "02000000 00000000 1c000000 1c000000 4500001c 00072000 40110000 0a000001 0a000002 03e807d000180000",
        "03000000 00000000 1c000000 1c000000 4500001c 00072000 40110000 0a000001 0a000002 03e907d100180000",
        "04000000 00000000 1c000000 1c000000 4500001c 00072001 40110000 0a000001 0a000002 a0a1a2a3a4a5a6a7"],
    "JOINED": [
        SECTION, "01000000 20000000 65000000 00000000 09000100 06000000 00000000 20000000",
        "06000000 4c000000 00000000 00000000 00093d00 2c000000 2c000000 4500002c 00070000 401166b8 0a000001 0a000002 "
        "03e907d100180000 a0a1a2a3a4a5a6a7 b0b1b2b3b4b5b6b7 4c000000"],
    "JOINED_PCAP": [
        "d4c3b2a1 02000400 00000000 00000000 00000000 65000000",
        "04000000 00000000 2c000000 2c000000 4500002c 00070000 401166b8 0a000001 0a000002 03e907d100180000 a0a1a2a3a4a5a6a7 b0b1b2b3b4b5b6b7"],
}


# The same of IPv6: UDP there and back, once in a tagged frame behind hop-by-hop options, TCP behind destination options
# and an authentication header, a
# whole datagram by its fragment header, a fragment, and ICMPv6, between 2001:db8::1 and 2001:db8::2.
A_TO_B, B_TO_A = ("20010db8000000000000000000000001 20010db8000000000000000000000002",
                  "20010db8000000000000000000000002 20010db8000000000000000000000001")
IPV6_VECTORS = {
    "IPV6_FRAMES": [
        f"{MICRO_LITTLE} 01000000",
        f"01000000 00000000 40000000 40000000 {TO_2} 86dd 60000000 000a 11 40 {A_TO_B} 03e807d0 000a0000 6869",
        f"02000000 00000000 4c000000 4c000000 {TO_1} 8100 000a 86dd 60000000 0012 00 40 {B_TO_A} 1100 0104 00000000 07d003e8 000a0000 6869",
        f"03000000 00000000 6a000000 6a000000 {TO_2} 86dd 60000000 0034 3c 40 {A_TO_B} 3300 010400000000 0604 0000 00000001 00000002 "
        "0102030405060708090a0b0c 03e807d0 00000001 00000000 50100000 00000000",
        f"04000000 00000000 48000000 48000000 {TO_2} 86dd 60000000 0012 2c 40 {A_TO_B} 1100 0000 00000007 03e807d0 000a0000 6869",
        f"05000000 00000000 46000000 46000000 {TO_2} 86dd 60000000 0010 2c 40 {A_TO_B} 1100 0001 00000008 03e807d0 00180000",
        f"06000000 00000000 42000000 42000000 {TO_1} 86dd 60000000 000c 3a 40 {B_TO_A} 81000000 00010001 61626364"],
}


def vector(name):
    return bytes.fromhex("".join({**VECTORS, **IPV6_VECTORS}[name]))


def pcap_header(link):
    return struct.pack("<IHHIIII", 0xA1B2C3D4, 2, 4, 0, 0, 0x40000, link)


def record(seconds, data, original=None, micros=0):
    return struct.pack("<IIII", seconds, micros, len(data), len(data) if original is None else original) + data


def block(kind, body):
    total = len(body) + 12
    return struct.pack("<II", kind, total) + body + struct.pack("<I", total)


def packet(interface, units, data, options=b""):
    """An enhanced packet block."""
    body = struct.pack("<IIIII", interface, units >> 32, units & 0xFFFFFFFF, len(data), len(data))
    return block(6, body + data + bytes(-len(data) % 4) + options)


def datagram(data, start=0, more=False, identification=0, protocol=17, ends=(0x0A000001, 0x0A000002)):
    """An IPv4 datagram, or a fragment."""
    return struct.pack(">BBHHHBBHII", 0x45, 0, 20 + len(data), identification, start // 8 + 0x2000 * more, 64, protocol, 0, *ends) + data


def udp(ports, data=b""):
    return struct.pack(">HHHH", *ports, 8 + len(data), 0) + data


# 2001:db8::1 and 2001:db8::2
ENDS_6 = (0x2001_0DB8 << 96 | 1, 0x2001_0DB8 << 96 | 2)


def ipv6(data, kind=17, ends=ENDS_6, length=None):
    """An IPv6 packet, whose next header is of that number, with the length of its payload or another."""
    head = struct.pack(">IHBB", 6 << 28, len(data) if length is None else length, kind, 64)
    return head + b"".join(end.to_bytes(16, "big") for end in ends) + data


def extension(kind, size=8):
    """An extension header of that many bytes, by a length in words of 8 bytes, which announces that number."""
    return bytes([kind, size // 8 - 1]) + bytes(size - 2)


def fragment_header(kind, start=0, more=False, identification=0):
    """The fragment header of an IPv6 packet, which announces that number."""
    return struct.pack(">BxHI", kind, start | more, identification)


def run(words, program=PROGRAM, faults=None, **how):
    """The status, standard output and standard error of the program. With faults, `(the shim of faults.c, its variables)`,
    also how many faults there were, the greatest resident memory in KiB, and how many blocks of memory weren't given back: 0
    and -1 where it didn't end by itself."""
    how = {"stdin": subprocess.DEVNULL, "stdout": subprocess.PIPE, "stderr": subprocess.PIPE, "timeout": 120, **how}
    if faults is None:
        done = subprocess.run([program, *words], **how)
        return done.returncode, done.stdout, done.stderr
    shim, variables = faults
    seen, told = os.pipe()
    high = fcntl.fcntl(told, fcntl.F_DUPFD, 100)      # above the files that the program opens
    environment = {"LD_PRELOAD": shim, "FAULT_TOLD": str(high), **{f"FAULT_{name}": str(value) for name, value in variables.items()}}
    done = subprocess.run([program, *words], env={**os.environ, **environment}, pass_fds=[high], **how)
    os.close(told)
    os.close(high)
    with open(seen, "rb") as pipe:
        text = pipe.read()
    memory, blocks = (text.strip(b"f\n") or b"0 -1").split()
    return done.returncode, done.stdout, done.stderr, text.count(b"f"), int(memory), int(blocks)


def make_shim(folder):
    """Builds faults.c."""
    shim = os.path.join(folder, "faults.so")
    subprocess.run(["cc", "-O2", "-shared", "-fPIC", "-o", shim, os.path.join(TOP, "checks", "faults.c")], check=True)
    return shim


class Count:
    """Counts what passed, and tells what failed, the first 20 of it."""

    def __init__(self):
        self.passed, self.failed, self.lock = 0, 0, threading.Lock()

    def check(self, name, is_so, *seen):
        with self.lock:
            self.passed += bool(is_so)
            self.failed += not is_so
            if not is_so and self.failed <= 20:
                print(name, *seen, flush=True)

    def end(self):
        print(f"{self.passed} passed, {self.failed} failed")
        sys.exit(self.failed != 0)


# The command of each task that writes a capture.
WRITING = {"merge": ["merge"], "join": ["join"], "pcap": ["convert", "--to", "pcap"], "pcapng": ["convert", "--to", "pcapng"],
           "merge-shared": ["merge", "--share-interfaces"], "merge-pcap": ["merge", "--to", "pcap"],
           "join-pcap": ["join", "--to", "pcap"],
           **{f"{task}-{unit}": [command, "--to", "pcap", "--unit", unit] for unit in ("micro", "nano")
              for task, command in (("pcap", "convert"), ("merge", "merge"), ("join", "join"))}}

# The command of each task that prints, if its name isn't the task's.
PRINTING = {"classed": ["list", "--class"], "check-digest": ["check", "--digest"], "top": ["report", "--top", "2"],
            "info-skipping": ["info", "--skip-refused"], "report-skipping": ["report", "--skip-refused"],
            "report-ipv6": ["report", "--ipv6"], "top-ipv6": ["report", "--top", "2", "--ipv6"],
            "report-skipping-ipv6": ["report", "--ipv6", "--skip-refused"],
            "classed-ipv6": ["list", "--class", "--ipv6"]}


def words_of(task, files, allow_cut=False, order="<", out=None, times="exact"):
    """The command line of a task: a command, `pcap` or `pcapng` for `convert` to that format, `merge-pcap` or `join-pcap`,
    `pcap-nano` and the like, `merge-shared`, `check-digest`, `classed`, `top`, `info-skipping`, `report-skipping`,
    or one of those that read IPv6 packets, as `report-ipv6`; with the form of times, if it isn't the usual one."""
    words, writes = {**WRITING, **PRINTING}.get(task, [task]), task in WRITING
    words = words + ["--time", times] * (times != "exact")
    return words + ["--allow-cut"] * allow_cut + ["--order", "big"] * (writes and order == ">") + ["-o", out] * writes + files


class Bench:
    """Runs the program over contents of files, kept in a folder of its own, and holds what it does to the model."""

    def __init__(self, folder, program=PROGRAM):
        self.folder, self.program, self.names, self.lock = folder, program, {}, threading.Lock()

    def name(self, content):
        with self.lock:
            if content not in self.names:
                self.names[content] = os.path.join(self.folder, f"in{len(self.names)}")
                with open(self.names[content], "wb") as out:
                    out.write(content)
            return self.names[content]

    def run(self, task, contents, allow_cut=False, order="<", out=None, faults=None, times="exact"):
        """The status, what was written (on standard output, or in OUT), and standard error, and with faults what `run` tells
        of them. With OUT, standard output has to be empty: what it has is answered in place of OUT."""
        words = words_of(task, [self.name(content) for content in contents], allow_cut, order, out, times)
        if task in WRITING and os.path.exists(out):
            os.remove(out)
        status, text, error, *told = run(words, self.program, faults)
        if task in WRITING and not text and os.path.exists(out):
            with open(out, "rb") as written:
                text = written.read()
        return status, text, error, *told

    def differs(self, task, contents, allow_cut=False, order="<", out=None, faults=None):
        """None, or how the program differs from the model."""
        wanted = wanted_of(task, contents, allow_cut, order)
        seen = self.run(task, contents, allow_cut, order, out, faults)[:3]
        return None if seen == wanted else f"wanted {wanted!r}\n  saw {seen!r}"


def wanted_of(task, contents, allow_cut=False, order="<", times="exact"):
    """The status, what is written, and standard error, as the model has them."""
    text, refusal = model.answer(task, contents, allow_cut, order, times=times)
    written = text if isinstance(text, bytes) else text.encode()
    return model.status_of(task, text, refusal), written, model.told(refusal).encode() if refusal else b""
