"""What checks/soak.sh runs: see there."""
import sys

sys.dont_write_bytecode = True

import os, random, re, struct, tempfile, time
from collections import Counter
from concurrent.futures import ProcessPoolExecutor

import model
from captures import (ENDS_6, PROGRAM, VECTORS, WRITING, Bench, datagram, extension, fragment_header, ipv6, make_shim,
                      run, udp,
                      vector, wanted_of, words_of)

IN_UNITS = ["pcap-micro", "pcap-nano", "merge-micro", "merge-nano", "join-micro", "join-nano"]
OF_IPV6 = ["report-ipv6", "top-ipv6", "report-skipping-ipv6", "classed-ipv6"]
TASKS = ["list", "classed", "blocks", "diff", "info", "report", "top", "info-skipping", "report-skipping", *OF_IPV6,
         "digest", "check", "check-digest",
         "merge", "join", "pcap", "pcapng", "merge-shared", "merge-pcap", "join-pcap", *IN_UNITS]
MANY = ("info", "report", "top", "info-skipping", "report-skipping", *OF_IPV6[:3], "digest", "check", "check-digest",
        "merge", "join", "merge-shared",
        "merge-pcap", "join-pcap", *IN_UNITS[2:])
TIMED = ("list", "classed", "diff", "info", "report", "top", "info-skipping", "report-skipping", *OF_IPV6, "check",
         "check-digest")
NUMBERS = [0, 1, 2, 3, 4, 28, 32, 262_144, 262_145, 524_288, 524_292, 2**31, 2**32 - 4, 2**32 - 1]
LINE = re.compile(rb"refused: file \d+ offset \d+ rule \d+ [a-z-]+\n|fault: (read file \d+ offset \d+|write|memory|open file \d+|create output)\n|")
MOST_MEMORY = 16 * 1024     # KiB


def payload(rng):
    """The data of a datagram: mostly of UDP or TCP with few ports."""
    return rng.choice([udp((rng.randrange(3), rng.randrange(3)), bytes(rng.randrange(30))),
                       rng.randbytes(rng.randrange(60)),
                       struct.pack(">HHIIBBHHH", 1, 2, 3, 4, 0x50, 0, 0, 0, 0), b""])


def some_ipv6(rng):
    """An IPv6 packet of few ends, often behind extension headers, whose lengths sometimes lie."""
    data, kind = payload(rng), rng.choice([17, 17, 6, 58, 59, 50])
    for _ in range(rng.choice([0, 0, 0, 1, 1, 2, 3, 40])):
        # the last header is the first that is made
        number = rng.choice([0, 43, 60, 135, 139, 140, 44, 44, 51])
        if number == 44:
            start, more = rng.choice([(0, False), (0, True), (8 * rng.randrange(4), True),
                                      (8 * rng.randrange(4), False), (65_528, False)])
            header = fragment_header(kind, start, more, rng.randrange(3))
        else:
            size = 4 * rng.randrange(2, 6) if number == 51 else 8 * rng.randrange(1, 4)
            header = bytes([kind, size // 4 - 2]) + bytes(size - 2) if number == 51 else extension(kind, size)
        data, kind = header + data, number
    if data and rng.random() < 0.15:
        place = rng.choice([rng.randrange(len(data)), min(1, len(data) - 1)])
        data = data[:place] + rng.randbytes(1) + data[place + 1:]
    addresses = [*ENDS_6, 0x0A000001, 0x0A000002, rng.choice([0, 1, 0xFFFF_0A000001, 1 << 127,
        rng.getrandbits(128) & rng.getrandbits(128)])]
    length = len(data) + rng.choice([0] * 12 + [1, -1, -8, 8, 1_000, -len(data)])
    return ipv6(data, kind, (rng.choice(addresses), rng.choice(addresses)), min(max(length, 0), 65_535))


def frame(rng, link):
    """A frame of a link type, mostly of an IPv4 datagram or a fragment of few keys, or of an IPv6 packet."""
    data = payload(rng)
    ends = rng.choice([(0x0A000001, 0x0A000002), (0x0A000002, 0x0A000001), (0x0A000003, 0x0A000003)])
    protocol = rng.choice([17, 17, 6, 1, 253])
    if rng.random() < 0.5:
        data = rng.randbytes(8 * rng.randrange(1, 4)) if rng.random() < 0.8 else data
        start, more = 8 * rng.randrange(5), rng.random() < 0.6
        packet = datagram(data, start, more, rng.randrange(3), protocol, ends)
    else:
        packet = datagram(data, 0, False, rng.randrange(3), protocol, ends)
    tags = b"".join(rng.choice([b"\x81\x00", b"\x88\xa8"]) + rng.randbytes(2) for _ in range(rng.choice([0, 0, 0, 1, 2])))
    kind = rng.choice([b"\x08\x00", b"\x08\x00", b"\x08\x00", b"\x86\xdd"])
    if rng.random() < (0.9 if link == 229 else 0.4):
        packet, kind = some_ipv6(rng), rng.choice([b"\x86\xdd"] * 9 + [kind])
    heads = {1: bytes(12) + tags + kind, 113: bytes(14) + tags + kind}
    if link == 276:
        types = tags + kind
        return types[:2] + bytes(18) + types[2:] + packet
    return heads.get(link, b"") + packet + bytes(rng.choice([0, 0, 8]))


def captured(rng, data):
    """What was captured of a frame, and its original length."""
    if rng.random() < 0.15:
        return data[:rng.randrange(len(data) + 1)], len(data)
    return data, len(data) - rng.choice([0, 0, 0, 5]) if len(data) > 5 else len(data)


def some_pcap(rng):
    link = rng.choice([1, 1, 101, 101, 113, 228, 229, 276, 147])
    magic, order = rng.choice([(0xA1B2C3D4, "<"), (0xA1B2C3D4, ">"), (0xA1B23C4D, "<"), (0xA1B23C4D, ">")])
    out = [struct.pack(order + "IHHIIII", magic, 2, 4, 0, 0, rng.choice([0, 65_535]), link)]
    for _ in range(rng.randrange(12)):
        data, original = captured(rng, frame(rng, link))
        seconds = rng.choice([rng.randrange(6), rng.randrange(60), 2**32 - 1])
        out.append(struct.pack(order + "IIII", seconds, rng.choice([0, 1, 1_500_000, 2**32 - 1]), len(data), original) + data)
    return b"".join(out)


def some_pcapng(rng):
    out = []
    for _ in range(rng.randrange(1, 3)):
        order, links = rng.choice("<>"), []
        out.append(model.block(order, model.SECTION, struct.pack(order + "IHHq", 0x1A2B3C4D, 1, rng.choice([0, 0, 2]), -1)))
        for _ in range(rng.randrange(16)):
            if not links or rng.random() < 0.15:
                links.append(rng.choice([1, 101, 101, 113, 228, 229, 276, 5]))
                out.append(some_interface(rng, order, links[-1]))
            elif rng.random() < 0.1:
                out.append(model.block(order, rng.choice([4, 5, 0xBAD, 0x40000001]), rng.randbytes(4 * rng.randrange(6))))
            else:
                out.append(some_packet(rng, order, links))
    return b"".join(out)


def some_interface(rng, order, link):
    option = lambda code, value: struct.pack(order + "HH", code, len(value)) + value + bytes(-len(value) % 4)
    options = []
    if rng.random() < 0.6:
        options.append(option(9, bytes([rng.choice([0, 1, 3, 6, 9, 12, 19, 0x80, 0x8A, 0xBF] * 4 + [20, 0xC0])])))
    if rng.random() < 0.3:
        options.append(option(14, struct.pack(order + "q", rng.choice([-1, 1, -5, 2**32, 2**63 - 1, -2**63]))))
    if rng.random() < 0.2:
        options.append(option(rng.choice([2, 2, 2, 9, 14]), rng.randbytes(rng.randrange(6))))
    rng.shuffle(options)
    end = bytes(4) * rng.randrange(2)
    return model.block(order, 1, struct.pack(order + "HHI", link, 0, rng.choice([0, 40, 262_144])) + b"".join(options) + end)


def some_packet(rng, order, links):
    number = rng.randrange(len(links)) if rng.random() < 0.98 else len(links)
    data, original = captured(rng, frame(rng, links[number % len(links)]))
    padded = data + bytes(-len(data) % 4)
    units = rng.choice([rng.randrange(2**4), rng.randrange(2**23), rng.randrange(2**23), rng.randrange(2**35), 2**64 - 1])
    kind = rng.choice([6, 6, 6, 6, 2, 3])
    if kind == 3:
        return model.block(order, 3, struct.pack(order + "I", original) + padded)
    head = struct.pack(order + ("I" if kind == 6 else "Hxx"), number)
    return model.block(order, kind, head + struct.pack(order + "IIII", units >> 32, units & 0xFFFFFFFF, len(data), original) + padded
                       + bytes(4) * rng.choice([0, 0, 1]))


def some_large(rng):
    """A capture near a limit: of a packet's bytes, a block's, the interfaces, the groups, the end of a fragment's data, the extension headers of an
    IPv6 packet."""
    order, near = rng.choice("<>"), rng.choice([-1, 0, 1])
    head = struct.pack(order + "IHHIIII", 0xA1B2C3D4, 2, 4, 0, 0, 0, 101)
    section = model.block(order, model.SECTION, struct.pack(order + "IHHq", 0x1A2B3C4D, 1, 0, -1))
    interface = model.block(order, 1, struct.pack(order + "HHI", 101, 0, 0))
    records = lambda frames: b"".join(struct.pack(order + "IIII", 1, n, len(data), len(data)) + data for n, data in enumerate(frames))
    packet = lambda n, data: model.block(order, 6, struct.pack(order + "IIIII", n, 0, n, len(data), len(data)) + data + bytes(-len(data) % 4))
    kind = rng.randrange(6)
    if kind == 5:
        headers = extension(60) * (8_189 - rng.choice([0, 0, 1, 190])) + extension(44)
        return head + records([ipv6(headers + fragment_header(17, 8 * rng.randrange(2), near > 0) + bytes(6 + near),
                                    60), ipv6(udp((1, 2)))])
    if kind == 0:
        return head + records([rng.randbytes(262_144 + near), b"\1"])
    if kind == 1:
        return section + interface + model.block(order, rng.choice([6, 5]), bytes(20) + bytes(524_288 + 4 * near - 32)) + packet(0, b"\1")
    if kind == 2:
        return section + interface * (1_024 + near) + b"".join(packet(n, datagram(udp((n, 1)))) for n in range(1_024))
    if kind == 3:
        frames = [datagram(bytes(8), 8, True, n) for n in range(1_024 + near)]
        return head + records(frames + [datagram(udp((1, 2), bytes(8))[:8], 0, True, 0), datagram(bytes(8), 16, False, 0)])
    first = struct.pack(">HHHH", 1, 2, 65_515, 0) + bytes(65_504)
    return head + records([datagram(first, 0, True), datagram(bytes(3 + near), 65_512)])


def some_capture(rng):
    kind = rng.random()
    if kind < 0.02:
        return some_large(rng)
    if kind < 0.25:
        return vector(rng.choice(list(VECTORS)))
    if kind < 0.6:
        return some_pcap(rng)
    return some_pcapng(rng) if kind < 0.98 else rng.randbytes(rng.randrange(64))


def mutated(rng, content, other):
    """A capture after a flip, a cut, a splice with another, or a number of four bytes replaced."""
    content = bytearray(content)
    place = rng.randrange(len(content) + 1)
    how = rng.choice(["flip", "cut", "splice", "number", "number", "drop", "double"])
    if how == "flip" and place < len(content):
        content[place] ^= 1 << rng.randrange(8)
    elif how == "cut":
        del content[place:]
    elif how == "splice":
        content[place:] = other[rng.randrange(len(other) + 1):]
    elif how == "number":
        place -= place % 4 if rng.random() < 0.8 else 0
        content[place:place + 4] = struct.pack(rng.choice("<>") + "I", rng.choice(NUMBERS))
    elif how == "drop":
        del content[place:place + rng.choice([1, 4, 16])]
    elif how == "double":
        content[place:place] = content[place:place + rng.choice([4, 16, 64])]
    return bytes(content)


def some_faults(rng):
    """What fails in a run, for faults.c."""
    kind = rng.random()
    if kind < 0.4:
        first = rng.randrange(1, 60)
        return {"GROWTHS": f"{first}-{first + rng.choice([1, 2, 10**9])}"}
    if kind < 0.7:
        return {"READ": f"{rng.randrange(3, 6)}-{rng.randrange(1, 300)}", "PIECE": rng.choice([1, 7])}
    return {"WRITE": f"{rng.randrange(400)}-{rng.randrange(2)}", "PIECE": rng.choice([1, 4_096])}


def is_unread(task, contents, text, wanted):
    """Whether one line of `digest` or `check` is that of a file of which a read failed, and the others are as they are wanted."""
    lines, wanted = text.decode().splitlines(True), wanted.decode().splitlines(True)
    other = [n for n, (line, want) in enumerate(zip(lines, wanted)) if line != want]
    if len(lines) != len(wanted) or len(other) != 1:
        return False
    number, line = other[0] + 1, lines[other[0]]
    place = re.search(r" read offset (\d+)\n", line)
    return place is not None and line == model.unread(number, contents[number - 1], int(place[1]), task)


def complaint(task, contents, seen, wanted, faults):
    """What is wrong with a run, or None."""
    status, text, error, told, memory, blocks = seen
    is_told = error != b"" or task in model.SURVEYS + model.SKIPPING and model.status_of(task, text.decode(), None) == 1
    if status not in (0, 1, 3) or not LINE.fullmatch(error) or (status == 1) != is_told:
        return "no defined end"
    if memory > MOST_MEMORY or memory == 0:
        return f"{memory} KiB of memory"
    if blocks != 0:
        return f"{blocks} blocks of memory are not given back"
    if not faults or not told:
        return None if (status, text, error) == wanted else "not as the model has it"
    if (status, text, error) == wanted:
        return None
    if task in model.SURVEYS and "READ" in faults:
        return None if error == b"" and is_unread(task, contents, text, wanted[1]) else "a read that failed isn't on its line"
    if not error.startswith({"GROWTHS": b"fault: memory", "READ": b"fault: read", "WRITE": b"fault: write"}[next(iter(faults))]):
        return "another fault than was made"
    if task in ("diff", "report", "top", "info", "report-ipv6", "top-ipv6") and text and "WRITE" not in faults:
        return "something was written"
    return None if wanted[1].startswith(text) else "no prefix was written"


def some_pair(rng, captures):
    """Two captures to be compared: often the same packets in another form, or with one change."""
    kind, first = rng.random(), captures[0]
    if kind < 0.4:
        written, _ = model.answer(rng.choice(("pcap", "pcapng")), [first], order=rng.choice("<>"))
        return [first, written] if kind < 0.3 else [mutated(rng, written, first), first]
    return [first, mutated(rng, first, rng.choice(captures)) if kind < 0.7 else rng.choice(captures)]


def case(rng, bench, shim, out, counts):
    """One case: captures, which every task is run on. What was wrong, or None."""
    captures = [some_capture(rng) for _ in range(rng.choice([1, 1, 2, 3]))]
    for place, content in enumerate(captures):
        for _ in range(rng.choice([0, 0, 0, 1, 1, 2, 3])):
            captures[place] = mutated(rng, captures[place], rng.choice(captures))
    for task in TASKS:
        contents = captures if task in MANY else some_pair(rng, captures) if task == "diff" else captures[:1]
        allow_cut, order = rng.random() < 0.5, rng.choice("<>")
        faults = some_faults(rng) if rng.random() < 0.25 else {}
        variables = faults or ({"PIECE": 1} if rng.random() < 0.2 else {})
        times = rng.choice(("exact", "decimal", "utc")) if task in TIMED and not faults else "exact"
        wanted = wanted_of(task, contents, allow_cut, order, times)
        seen = bench.run(task, contents, allow_cut, order, out, (shim, variables), times)
        wrong = complaint(task, contents, seen, wanted, faults)
        counts["runs"] += 1
        refusal = seen[1] if task in model.SURVEYS + model.SKIPPING else seen[2]
        counts["refused"] += b"refused" in refusal or b"left out" in refusal
        rule = re.search(rb" rule (\d+) ", refusal)
        if rule:
            counts[int(rule[1])] += 1
        counts["faults"] += seen[3] > 0
        counts["memory"] = max(counts["memory"], seen[4])
        if not wrong and task in WRITING and seen[1]:
            counts["read again"] += 1
            again = run(words_of("list", [out]), bench.program)
            if again[0] != 0 and not (seen[3] and again[2].endswith(b" rule 3 cut\n")):
                wrong = f"OUT is not read again: {again[2]}"
        if wrong:
            words = words_of(task, [content.hex() for content in contents], allow_cut, order, "OUT", times)
            return f"{wrong}: {' '.join(words)[:4_000]} {variables}\n  wanted {str(wanted)[:500]}\n  saw {str(seen)[:500]}"
    return None


def soak(seed, worker, until, program):
    """Cases of a worker until a time. What was counted, and what was wrong."""
    counts, wrongs, n = Counter(), [], 0
    with tempfile.TemporaryDirectory() as folder:
        shim = make_shim(folder)
        while time.time() < until:
            rng = random.Random(f"{seed}/{worker}/{n}")
            wrong = case(rng, Bench(folder, program), shim, os.path.join(folder, "out"), counts)
            if wrong:
                wrongs.append(f"case {seed}/{worker}/{n}: {wrong}")
            n += 1
    counts["cases"] = n
    return counts, wrongs


def main():
    seconds = float(sys.argv[1])
    seed = sys.argv[2] if len(sys.argv) > 2 else "1"
    program = sys.argv[3] if len(sys.argv) > 3 else PROGRAM
    workers = max(1, (os.cpu_count() or 2) // 2)
    until = time.time() + seconds
    total, memory, wrongs = Counter(), 0, []
    with ProcessPoolExecutor(workers) as pool:
        for counts, wrong in pool.map(soak, [seed] * workers, range(workers), [until] * workers, [program] * workers):
            memory = max(memory, counts.pop("memory", 0))
            total += counts
            wrongs += wrong
    for wrong in wrongs[:20]:
        print(wrong)
    print(", ".join(f"{total[name]} {name}" for name in ("cases", "runs", "refused", "faults", "read again")) + f"; at most {memory} KiB resident")
    print("refused by rule: " + ", ".join(f"{total[rule]} by {rule}" for rule in model.RULES if total[rule]))
    print(f"{total['cases'] - len(wrongs)} passed, {len(wrongs)} failed")
    sys.exit(bool(wrongs))


if __name__ == "__main__":
    main()
