#!/usr/bin/env python3
"""What a terminal shows beside a refusal, for each rule that a small capture breaks (14 and 16, whose captures are large, are explained in
faults.py and limits.py; 15 is never answered): with `check` nothing but the file's line. And how much of two regular
files was read, of a run that takes over two seconds.

Use: checks/hints.py [PROGRAM]     (as after `rt run` or `rt ci` in crates/capt; some seven seconds)"""
import sys

sys.dont_write_bytecode = True

import os, pty, re, signal, struct, subprocess, tempfile, time

from captures import INTERFACE, MICRO_LITTLE, PROGRAM, SECTION, Count, block, packet

ETHERNET = bytes.fromhex(MICRO_LITTLE) + b"\x01\0\0\0"
HEADER, DESCRIBED = bytes.fromhex(SECTION), bytes.fromhex(SECTION + INTERFACE)


def interface(options):
    """An interface with these options, in hex."""
    return HEADER + block(1, bytes.fromhex("0100 0000 00000400" + options))


def of_units(code, units):
    """A packet at that many units of an interface with that resolution."""
    return interface(f"0900 0100 {code}000000") + packet(0, units, b"")


# A rule, a command that answers it, the capture, and what is said.
SAID = [
    ("1 magic", "list", bytes(4), "this is no capture of pcap or pcapng"),
    ("2 version", "list", ETHERNET[:4] + b"\x02\0\x03\0" + ETHERNET[8:], "its version is neither pcap 2.4 nor pcapng 1.0 or 1.2"),
    ("3 cut", "list", ETHERNET + bytes(3), "it is cut off: --allow-cut drops a last record or block"),
    ("4 packet-long", "list", ETHERNET + bytes.fromhex("00000000 00000000 01000400 01000400"), "more than 262,144 bytes of a packet were captured"),
    ("5 block-length", "list", HEADER + bytes.fromhex("05000000 1e000000 00000000"), "the length of a block is wrong"),
    ("6 block-trailer", "list", HEADER + bytes.fromhex("05000000 10000000 01020304 0c000000"), "the two lengths of a block differ"),
    ("7 order-magic", "list", bytes.fromhex("0a0d0d0a 1e000000 00000000"), "a section has no valid byte order"),
    ("8 captured", "list", DESCRIBED + block(6, bytes(12) + b"\x05\0\0\0\x04\0\0\0" + bytes(4)), "a packet doesn't fit in its block"),
    ("9 interface-unknown", "list", HEADER + packet(0, 0, b""), "a packet names an interface that isn't in its section"),
    ("10 option-end", "list", interface("0200 0900 01020304"), "an option runs past the end of its block"),
    ("11 option-length", "list", interface("0900 0200 06060000"), "the length of an option is wrong"),
    ("12 resolution", "list", interface("0900 0100 14000000"), "its times are finer than 10^-19 or 2^-63 of a second"),
    ("13 interface-limit", "list", HEADER + block(1, bytes.fromhex("0100 0000 00000400")) * 1025, "there are more than 1,024 interfaces"),
    ("17 no-time", "convert", DESCRIBED + block(3, bytes(4)), "a packet has no time, and can't be written"),
    ("18 link-mixed", "convert", DESCRIBED + block(1, bytes.fromhex("6500 0000 00000400")) + packet(1, 0, b""),
     "a pcap file has one link type, and the packets have two"),
    ("19 inexact", "convert", of_units("0a", 1), "a time isn't whole in the unit of the pcap file"),
    ("20 time-range", "convert", of_units("00", 2 ** 32), "a time doesn't fit in a pcap file"),
    ("21 no-interface", "convert", HEADER, "it has no interface, which a pcap file needs"),
]


def begun(words, folder, program):
    """A run, and the terminal on which it shows what it prints and tells."""
    seen, terminal = pty.openpty()
    run = subprocess.Popen([program, *words], stdin=subprocess.DEVNULL, stdout=terminal, stderr=terminal, cwd=folder)
    os.close(terminal)
    return run, seen


def rest_of(run, seen):
    """What the terminal shows of a run to its end, and its status."""
    text = b""
    while True:
        try:
            text += os.read(seen, 65536)
        except OSError:      # the program has ended
            break
    os.close(seen)
    run.wait()
    return text.decode().replace("\r\n", "\n"), run.returncode


def write_sparse(name, size):
    """A pcapng file of that many bytes, all but a section header in one block that is skipped."""
    total = size - len(HEADER)
    with open(name, "wb") as file:
        file.write(HEADER + struct.pack("<II", 0x40000001, total))
        file.seek(size - 4)
        file.write(struct.pack("<I", total))


def was_read(run):
    """How many bytes a run has read so far."""
    with open(f"/proc/{run.pid}/io", encoding="ascii") as told:
        return int(re.search(r"rchar: (\d+)", told.read())[1])


def main():
    program, count = os.path.realpath(sys.argv[1]) if sys.argv[1:] else PROGRAM, Count()
    with tempfile.TemporaryDirectory() as folder:
        for rule, command, capture, said in SAID:
            with open(os.path.join(folder, "capture"), "wb") as file:
                file.write(capture)
            words = ["list", "capture"] if command == "list" else ["convert", "--to", "pcap", "-o", "out", "capture"]
            text, status = rest_of(*begun(words, folder, program))
            wanted = rf"(?:packet .*\n)*refused: file 1 offset \d+ rule {rule}\n  capture: {re.escape(said)}\n"
            count.check(f"rule {rule} at a terminal", status == 1 and re.fullmatch(wanted, text), status, text)
            if command == "list":
                text, status = rest_of(*begun(["check", "capture"], folder, program))
                found = re.fullmatch(rf"check 1 .* interfaces \d+ refused offset \d+ rule {rule}\n", text)
                count.check(f"rule {rule} of check at a terminal", status == 1 and found, status, text)
        with open(os.path.join(folder, "no packet"), "wb") as file:
            file.write(ETHERNET)
        for command in ("merge", "join"):
            seen = rest_of(*begun([command, "--to", "pcap", "-o", "out", "no packet"], folder, program))
            wanted = ("refused: file 1 offset 0 rule 21 no-interface\n"
                      "  there is no packet or datagram to write, and so no link type for the pcap header\n")
            count.check(f"rule 21 of {command} at a terminal", seen == (wanted, 1), seen)
        for name, capture in (("a", DESCRIBED), ("b", DESCRIBED), (" c", HEADER[:-1])):
            with open(os.path.join(folder, name), "wb") as file:
                file.write(capture)
        seen = rest_of(*begun(["info", "a", "b", " c"], folder, program))
        wanted = "refused: file 3 offset 0 rule 3 cut\n   c: it is cut off inside its file header, which --allow-cut doesn't drop\n"
        count.check("the third of three files, with a space in front of its name", seen == (wanted, 1), seen)
        text, status = rest_of(*begun(["check", "--explain", "a", "none", " c", "."], folder, program))
        ends = re.findall(r"^check \d .* interfaces \d (.*)$", text, re.M)
        wanted = ["whole", "open", "refused offset 0 rule 3 cut", "read offset 0"]
        hints = re.findall(r"^  (.*)$", text, re.M)
        whys = ["none: No such file or directory (os error 2)", ".: it is a folder"]
        count.check("a check at a terminal", (status, ends, hints, text.count("\n")) == (1, wanted, whys, 6), status, text)
        # Stopped for over two seconds once it has read 2 MB: what it shows after that is how much of both files it has read.
        write_sparse(os.path.join(folder, "a"), 300_000_000)
        write_sparse(os.path.join(folder, "b"), 500_000_000)
        # `check`, which opens the second file once the first is read, doesn't say of how much.
        for command, of_all, ends in (("info", " of 800.0 MB", "files 2\n"), ("check", "", "interfaces 0 whole\n")):
            run, seen = begun([command, "a", "b"], folder, program)
            while run.poll() is None and was_read(run) < 2_500_000:
                pass
            run.send_signal(signal.SIGSTOP)
            time.sleep(2.2)
            run.send_signal(signal.SIGCONT)
            text, _ = rest_of(run, seen)
            told = re.findall(r"\r\x1b\[K\x1b\[\?7l  ([\d.]+) MB( of [^,]*)?, ", text)
            is_so = bool(told) and all(float(read) >= 2 and whole == of_all for read, whole in told)
            count.check(f"how much {command} read of both files", is_so and ends in text, text)
    count.end()


main()
