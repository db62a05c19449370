#!/usr/bin/env python3
"""Cut and lying captures through each command of the built program: its status, standard error's one line, and standard
output or OUT, held to the model beside this file.

Every length of each worked file, with --allow-cut and without, alone and as one of two files; lengths of blocks that lie;
each number of each worked file in turn replaced by 0, 1, and numbers at the ends of their range. Every other run is read by
one byte at a time (faults.c).

The same of a worked file of IPv6 with --ipv6; each of its packets cut at each place, and with each byte replaced; and chains of 8,000
extension headers, cut at places, which take as much time for a header as short ones do, and a stack of 128 KiB.

Use: checks/hostile.py [PROGRAM]     (as after `rt run` or `rt ci` in crates/capt; under two minutes)"""
import sys

sys.dont_write_bytecode = True

import multiprocessing, os, resource, struct, tempfile

import model
from captures import (IPV6_VECTORS, PROGRAM, VECTORS, Bench, Count, block, extension, fragment_header, ipv6, make_shim,
                      pcap_header, record, run,
                      udp, vector)
from soak import OF_IPV6

ONE = ["list", "classed", "blocks", "info", "report", "top", "info-skipping", "report-skipping", "digest", "check",
       "check-digest", "pcapng", "pcap", "merge", "join",
       "merge-shared", "merge-pcap", "join-pcap"]
MANY = ["diff", "info", "report", "top", "info-skipping", "report-skipping", "digest", "check", "check-digest",
        "merge", "join", "merge-shared", "merge-pcap", "join-pcap"]

# The lengths at which `list` accepts a worked file that is cut; at every other it is refused by rule 3, at the greatest of
# these and 0 that isn't above the length.
ACCEPTED = {"CARRY_PCAP": [24, 44], "CARRY_PCAPNG": [28, 60, 96], "OPTIONS_PCAPNG": [44, 96, 144, 168]}


def by_the_table(count, bench, name, length):
    """Holds `list`, `check` and `info` of a cut file to the table above."""
    places = ACCEPTED[name]
    offset = max(place for place in [0, *places] if place <= length)
    refused = f"refused: file 1 offset {offset} rule 3 cut\n".encode()
    for allow_cut in (False, True):
        is_accepted = length in places or allow_cut and length > places[0]
        wanted = (0, b"") if is_accepted else (1, refused)
        status, _, error = bench.run("list", [vector(name)[:length]], allow_cut)
        count.check(f"list of {length} bytes of {name}", (status, error) == wanted, status, error)
        end = "whole" if length in places else "whole cut" if is_accepted else f"refused offset {offset} rule 3 cut"
        status, text, error = bench.run("check", [vector(name)[:length]], allow_cut)
        is_so = text.endswith(f" {end}\n".encode()) and text.startswith(b"check 1 - ") == (offset == 0)
        is_so = is_so and (status, error) == (wanted[0], b"")
        count.check(f"check of {length} bytes of {name}", is_so, status, text, error)
    _, text, _ = bench.run("info", [vector(name)[:length]], True)
    is_cut = length > places[0] and length not in places
    count.check(f"info of {length} bytes of {name}", text.endswith(b" cut\n") == is_cut, text)


TALK = "talk udp 10.0.0.1:{} 10.0.0.2:{} {} first 1+0/1000000 last {}+0/1000000\n"
TAGGED_REPORT = ("files 1\n"
                 "file 1 pcap packets 3 bytes 180 truncated 0 skipped 0 first 1+0/1000000 last 3+0/1000000\n"
                 "total packets 3 bytes 180 truncated 0\n"
                 "frames other-link 0 not-ipv4 0 short 0 cut 0 bad 1 unjoined 0 counted 2\n"
                 "joined 0 given-up 0\ntalks 1\n" + TALK.format(1000, 2000, "forward 1 60 backward 1 60", 2))
FRAGMENT_REPORT = ("files 1\n"
                   "file 1 pcap packets 4 bytes 112 truncated 0 skipped 0 first 1+0/1000000 last 4+0/1000000\n"
                   "total packets 4 bytes 112 truncated 0\n"
                   "frames other-link 0 not-ipv4 0 short 0 cut 0 bad 0 unjoined 0 counted 4\n"
                   "joined 1 given-up 0\ntalks 1\n" + TALK.format(1001, 2001, "forward 4 112 backward 0 0", 4))
IPV6_REPORT = ("files 1\n"
               "file 1 pcap packets 6 bytes 454 truncated 0 skipped 0 first 1+0/1000000 last 6+0/1000000\n"
               "total packets 6 bytes 454 truncated 0\n"
               "frames other-link 0 not-ip 0 short 0 cut 0 bad 0 unjoined 1 counted 5\n"
               "joined 0 given-up 0\ntalks 3\n"
               "talk udp [2001:db8::1]:1000 [2001:db8::2]:2000 forward 2 136 backward 1 76 first 1+0/1000000 last 4+0/1000000\n"
               "talk tcp [2001:db8::1]:1000 [2001:db8::2]:2000 forward 1 106 backward 0 0 first 3+0/1000000 last 3+0/1000000\n"
               "talk p58 2001:db8::1 2001:db8::2 forward 0 0 backward 1 66 first 6+0/1000000 last 6+0/1000000\n")
# The line of a file of which a section was read.
CHECKED = "check 1 pcapng packets 0 bytes 0 first - last - backward 0 untimed 0 truncated 0 skipped 0 interfaces 0 {}\n"
WHOLE = "check 1 {} packets {} bytes {} first {} last {} backward 0 untimed 0 truncated 0 skipped {} interfaces 1 whole\n"
# What is written of worked files, worked out by hand: the model is held to it.
WORKED = [("pcapng", "CARRY_PCAP", vector("CARRY_PCAPNG")), ("pcap", "CARRY_PCAPNG", vector("CARRIED_PCAP")),
          ("merge", "CARRY_PCAP", vector("CARRY_PCAPNG")), ("join", "FRAGMENT_FRAMES", vector("JOINED")),
          ("merge-pcap", "CARRY_PCAPNG", vector("CARRIED_PCAP")), ("join-pcap", "FRAGMENT_FRAMES", vector("JOINED_PCAP")),
          ("report", "TAGGED_FRAMES", TAGGED_REPORT), ("report", "FRAGMENT_FRAMES", FRAGMENT_REPORT),
          ("report-ipv6", "IPV6_FRAMES", IPV6_REPORT),
          ("check", "TAGGED_FRAMES", WHOLE.format("pcap", 3, 180, "1+0/1000000", "3+0/1000000", 0)),
          ("check", "OPTIONS_PCAPNG", WHOLE.format("pcapng", 1, 4, "2+500000/1000000", "2+500000/1000000", 1))]


def lying_lengths():
    """What follows a section of 28 bytes, and where and by which rule it is refused."""
    for kind in (0, 1, 2, 3, 4, 5, 6, 0x40000001, 0x80000000, 0xFFFFFFFF):
        for total in (0, 30, 0xFFFFFFFF):
            yield kind.to_bytes(4, "little") + total.to_bytes(4, "little") + bytes(64), 28, 5
    yield (6).to_bytes(4, "little") + (524_292).to_bytes(4, "little") + bytes(524_284), 28, 5
    yield (5).to_bytes(4, "little") + (4_294_967_292).to_bytes(4, "little") + bytes(4), 28, 3
    yield block(5, bytes(8))[:-4] + (16).to_bytes(4, "little"), 28, 6


def lying_numbers(content):
    """A file with each of its numbers of four bytes in turn replaced."""
    for place in range(0, len(content) - 3, 4):
        for number in (0, 1, 0x7FFFFFFF, 0x80000000, 0xFFFFFFFC, 0xFFFFFFFF):
            yield content[:place] + number.to_bytes(4, "little") + content[place + 4:]


def all_runs():
    """Names of runs, tasks, contents of files, and whether a cut end is accepted."""
    for name in VECTORS:
        whole = vector(name)
        cuts = [(f"{length} bytes of {name}", whole[:length]) for length in range(len(whole))]
        lies = [(f"{name} with a number replaced", content) for content in lying_numbers(whole)]
        for label, content in [(name, whole), *cuts]:
            for allow_cut in (False, True):
                for task in ONE:
                    yield label, task, [content], allow_cut
        for label, content in cuts:
            if name in (*ACCEPTED, "FRAGMENT_FRAMES"):
                for contents in ([content, whole], [whole, content]):
                    for task in MANY:
                        yield label, task, contents, len(content) % 2 == 0
        for n, (label, content) in enumerate(lies):
            # in each round one further, so that each command meets each number
            yield label, ONE[(n + n // len(ONE)) % len(ONE)], [content], n % 3 == 0
            yield label, "check", [content], n % 2 == 1
            yield label, "report", [content], n % 2 == 0
            yield label, "diff", [content, whole] if n % 2 else [whole, content], n % 3 == 0
    yield from runs_of_ipv6()


def runs_of_ipv6():
    """The same of IPv6, by the commands that read it; and of each packet that lies, by one run over all of them."""
    for name in IPV6_VECTORS:
        whole = vector(name)
        for length in range(len(whole) + 1):
            # each command meets each length
            for task in OF_IPV6 if length % 8 == 0 else ("report-ipv6", "classed-ipv6"):
                for allow_cut in (False, True):
                    yield f"{length} bytes of {name}", task, [whole[:length]], allow_cut
        for n, content in enumerate(lying_numbers(whole)):
            yield f"{name} with a number replaced", ("report-ipv6", "classed-ipv6")[n % 2], [content], n % 4 < 2
        for n, packet in enumerate(model.File(1, whole, False).packets, 1):
            for label, content in (("cut at each place", cut_frames(packet.data)),
                                   ("with each byte replaced", lying_frames(packet.data))):
                for task in (*OF_IPV6, "report"):
                    yield f"packet {n} of {name} {label}", task, [content], False
    for n, (label, content) in enumerate(chains()):
        # to the commands that don't read IPv6 one chain is like another
        for task in (*ONE * (n == 0), *OF_IPV6):
            yield label, task, [content], False
        for contents in ([content, vector("TAGGED_FRAMES")], [vector("IPV6_FRAMES"), content]):
            for task in ("report-ipv6", "top-ipv6", "report-skipping-ipv6"):
                yield f"{label}, and another", task, contents, True


def cut_frames(frame):
    """A capture of the front of a frame, at each of its lengths: all that there is, or what was captured."""
    lengths = range(len(frame) + 1)
    return pcap_header(1) + b"".join(record(1, frame[:length], original) for length in lengths
                                     for original in (None, len(frame), 1_514))


def lying_frames(frame):
    """A capture of a frame of Ethernet with each of its bytes but those of addresses replaced by each other."""
    start = frame.index(b"\x86\xdd") + 2
    places = (*range(12, start + 8), *range(start + 40, len(frame)))
    lies = (frame[:place] + bytes([byte]) + frame[place + 1:] for place in places for byte in range(256))
    return pcap_header(1) + b"".join(record(1, lie) for lie in lies)


# Chains of extension headers: of one kind, of each that counts words of 8 bytes, of authentication headers of 8 bytes,
# and of fragment headers of whole
# datagrams; each ends in a header of 16 bytes that announces UDP.
MOST_HEADERS = 8_000
CHAINS = {"each kind": [0, 43, 44, 51, 60, 135, 139, 140], "one kind": [60], "authentication": [51],
          "whole fragments": [44]}


def chain(kinds, count):
    """The first number of a chain of so many headers of 8 bytes, and their bytes. The last announces destination options."""
    numbers = [kinds[n % len(kinds)] for n in range(count)] + [60]
    # the second byte of a fragment header isn't read, that of all others of 8 bytes is 0
    return numbers[0], b"".join(bytes([after, 0xFF if number == 44 else 0, 0, 0, 0, 0, 0, 0]) for number,
                                after in zip(numbers, numbers[1:]))


def chains():
    """Captures of such packets: whole, with a last header that ends with the payload or reaches past it, with a fragment behind; and cut: near both ends
    and at places between."""
    for name, kinds in CHAINS.items():
        number, headers = chain(kinds, MOST_HEADERS)
        ends = [extension(17, 16) + udp((1000, 2000), b"hi"), extension(59, 16), extension(59, 16)[:-1],
                extension(44) + fragment_header(17, 8, True, 7) + bytes(8),
                extension(44) + fragment_header(17, 0, False, 7) + udp((1000, 2000)), b"",
                bytes([59, 255]) + bytes(1_500)]
        frames = [record(1, ipv6(headers + end, number)) for end in ends]
        whole = ipv6(headers + ends[0], number)
        places = sorted({*range(120), *range(0, len(whole), 8_009), *range(len(whole) - 20, len(whole))})
        cut = [record(2, whole[:place], original) for place in places for original in (None, len(whole))]
        yield f"8,000 extension headers of {name}", pcap_header(229) + b"".join(frames + cut)


def seconds_of(program, file):
    """The least processor time of some runs of a report."""
    taken = []
    for _ in range(5):
        before = resource.getrusage(resource.RUSAGE_CHILDREN)
        status, out, _ = run(["report", "--ipv6", file], program)
        after = resource.getrusage(resource.RUSAGE_CHILDREN)
        taken.append(after.ru_utime + after.ru_stime - before.ru_utime - before.ru_stime)
    return min(taken), status, out


def grows(count, folder, program):
    """As many headers, and about as many bytes, in chains of 100 and of 8,000: a header of a long chain takes no more time. Little stack is enough."""
    for name, kinds in CHAINS.items():
        seen = {}
        for length, packets in ((100, 40_000), (MOST_HEADERS, 500)):
            number, headers = chain(kinds, length)
            packet = record(1, ipv6(headers + extension(17, 16) + udp((1000, 2000)), number))
            file = os.path.join(folder, f"chain{length}")
            with open(file, "wb") as out:
                out.write(pcap_header(229) + packet * packets)
            seconds, status, text = seconds_of(program, file)
            seen[length] = seconds
            told = f" counted {packets}\njoined 0 given-up 0\ntalks 1\ntalk udp [2001:db8::1]:1000 [2001:db8::2]:2000 forward {packets} ".encode()
            count.check(f"chains of {length} extension headers of {name}", status == 0 and told in text, status, text)
        # with room for what the machine does beside it: a chain that is read again from its front for each header takes
        # 80 times as long
        count.check(f"time for a header of {name}", seen[MOST_HEADERS] < 3 * seen[100] + 0.05, seen)
        print(f"4,000,000 extension headers of {name}: {seen[100]:.2f} seconds in chains of 100, {seen[MOST_HEADERS]:.2f} in chains of {MOST_HEADERS:,}")
    limited = ["-c", 'ulimit -s 128; exec "$@"', "bash", program, "report", "--ipv6", file]
    status, text, error = run(limited, "bash")
    count.check("8,000 extension headers, a stack of 128 KiB", (status, error) == (0, b"") and told in text, status,
                error)


def begin(folder, program, of_faults):
    """Makes what the runs of a process need, in a folder of its own."""
    global bench, shim
    bench, shim = Bench(tempfile.mkdtemp(dir=folder), program), of_faults


def held(numbered):
    """The name of a run, and None, or how it differs from the model."""
    n, (label, task, contents, allow_cut) = numbered
    by_bytes = (shim, {"PIECE": 1}) if (n + n // 8 + n // 16) % 2 else None
    name = f"{task} of {label}{', --allow-cut' if allow_cut else ''}{', by one byte' if by_bytes else ''}"
    return name, bench.differs(task, contents, allow_cut, "<", os.path.join(bench.folder, "out"), by_bytes)


def main():
    count = Count()
    program = sys.argv[1] if len(sys.argv) > 1 else PROGRAM
    with tempfile.TemporaryDirectory() as folder:
        bench, shim = Bench(folder, program), make_shim(folder)
        for task, name, wanted in WORKED:
            count.check(f"the model's {task} of {name}", model.answer(task, [vector(name)]) == (wanted, None))
        for name in ACCEPTED:
            for length in range(len(vector(name))):
                by_the_table(count, bench, name, length)
        section = vector("CARRY_PCAPNG")[:28]
        for content, offset, rule in lying_lengths():
            refusal = f"refused: file 1 offset {offset} rule {rule} {model.RULES[rule]}\n".encode()
            end = f"refused offset {offset} rule {rule} {model.RULES[rule]}"
            lines = {"digest": f"digest 1 {end}\n", "check": CHECKED.format(end),
                     "check-digest": CHECKED.format(f"sha256 - {end}"),
                     **dict.fromkeys(model.SKIPPING, f"left out 1 offset {offset} rule {rule} {model.RULES[rule]}\n")}
            for task in ONE:
                seen = bench.run(task, [section + content], out=os.path.join(folder, "out"))
                is_so = seen == (1, lines[task].encode(), b"") if task in lines else seen[0] == 1 and seen[2] == refusal
                count.check(f"{task} of a block that lies", is_so, content[:12], seen)
                if task in ("info", "report"):
                    count.check(f"{task} writes nothing", seen[1] == b"", seen)

        grows(count, folder, program)
        # by processes, since to begin a program 61,000 times is most of the work, and by more than there are
        # processors, since each waits for it
        with multiprocessing.get_context("fork").Pool(8, begin, (folder, program, shim)) as pool:
            for name, wrong in pool.imap(held, enumerate(all_runs()), 64):
                count.check(name, wrong is None, wrong)
    count.end()


main()
