#!/usr/bin/env python3
"""JSON Lines: what `list`, `blocks`, `diff`, `info`, `report`, `digest` and `check` print with --json is, object for
object and byte for byte, what the text lines of the model say of the same files, and Python's json reads each line as
those values. Over the files of checks/corpus/, the examples, the worked captures, and captures made at random, some of
them damaged; `list` and `diff` also with --data, `list` with --class, `report` with --top, `info` and
`report` with --skip-refused, `report` and `list --class` with --ipv6, `diff` with --ignore, and each form of times. A refusal and a fault are an object too, with the file's path.

Use: checks/objects.py [PROGRAM [CAPTURES]]     (as after `rt run` or `rt ci` in crates/capt; 10,000 random captures in about a minute)
"""
import sys

sys.dont_write_bytecode = True

import json, os, random, re, tempfile
from concurrent.futures import ThreadPoolExecutor

import model
from captures import PROGRAM, TOP, VECTORS, Bench, Count, make_shim, run, vector, wanted_of, words_of
from soak import OF_IPV6, TIMED, mutated, some_capture, some_pair

TASKS = ("list", "classed", "blocks", "info", "report", "top", "info-skipping", "report-skipping", "report-ipv6",
         "classed-ipv6", "digest", "check",
         "check-digest")
PROTOCOLS = {"udp": 17, "tcp": 6}
TIME = re.compile(r"(-?\d+)\+(\d+)/(\d+)")


def time_of(word):
    found = TIME.fullmatch(word)
    return [int(found[1]), int(found[2]), int(found[3])] if found else None if word == "-" else word


def end_of(word):
    """An end's address, and its port if it has one: `[ADDRESS]:PORT` or ADDRESS of IPv6, `ADDRESS:PORT` or ADDRESS of IPv4."""
    found = re.fullmatch(r"\[([0-9a-f:]+)\]:(\d+)|([\d.]+):(\d+)|([0-9a-f:.]+)", word)
    address, port = found[1] or found[3] or found[5], found[2] or found[4]
    return {"address": address, "port": int(port)} if port else {"address": address}


def pairs_of(words):
    """Words by turns a name and a number."""
    return {name.replace("-", "_"): int(number) for name, number in zip(words[::2], words[1::2])}


def check_end_of(words):
    """The members that tell how a file ends that is checked."""
    if words[0] == "whole":
        return {"whole": True, "cut": words[1:] == ["cut"]}
    if words[0] == "open":
        return {"open": True}
    place = {"offset": int(words[2])}
    return {"read": place} if words[0] == "read" else {"refused": {**place, "rule": int(words[4]), "name": words[5]}}


def digest_of(words):
    """The members of the digest of a file that is checked, if its line has one, and of how it ends."""
    if words[0] == "sha256":
        return {"sha256": None if words[1] == "-" else words[1], **check_end_of(words[2:])}
    return check_end_of(words)


def described(words):
    """The members that tell what a packet is by itself, if that is told."""
    if not words:
        return {}
    _, kind, *words = words
    if kind == "counted":
        name, a, b = words
        return {"class": kind, "protocol": PROTOCOLS.get(name) or int(name[1:]), "a": end_of(a), "b": end_of(b)}
    if kind == "fragment":
        return {"class": kind, **pairs_of(words)}
    return {"class": kind, **dict(zip(words[::2], words[1::2]))}


def object_of(line):
    """The object of a text line, with its keys in their order."""
    kind, *words = line.split()
    if kind == "packet":
        n, _, offset, _, time, _, captured, _, original, _, link, _, data, *told = words
        return {"type": kind, "n": int(n), "offset": int(offset), "time": time_of(time), "captured": int(captured), "original": int(original),
                "link": int(link), "data": "" if data == "-" else data, **described(told)}
    if kind == "block":
        n, _, offset, _, order, _, number, _, total = words
        return {"type": kind, "n": int(n), "offset": int(offset), "order": order, "kind": number, "total": int(total)}
    if kind == "left":
        _, number, _, offset, _, rule, name = words
        return {"type": "left out", "file": int(number), "offset": int(offset), "rule": int(rule), "name": name}
    if kind == "file":
        number, form, *sums, _, first, _, last = words[:-1] if words[-1] == "cut" else words
        return {"type": kind, "file": int(number), "format": form, **pairs_of(sums), "first": time_of(first), "last": time_of(last),
                "cut": words[-1] == "cut"}
    if kind == "talk":
        name, a, b, _, out, out_bytes, _, back, back_bytes, _, first, _, last = words
        return {"type": kind, "protocol": PROTOCOLS.get(name) or int(name[1:]), "a": end_of(a), "b": end_of(b),
                "forward": {"packets": int(out), "bytes": int(out_bytes)}, "backward": {"packets": int(back), "bytes": int(back_bytes)},
                "first": time_of(first), "last": time_of(last)}
    if kind == "differ":
        words, place = (words[:-2], {"data_at": int(words[-1])}) if "at" in words else (words, {})
        return {"type": kind, "packet": int(words[1]), "differs": words[2:], **place}
    if kind in "-+" and words[0] == "end":
        return {"type": "side", "side": kind, "packet": None, "cut": words[1:] == ["cut"]}
    if kind in "-+":
        return {"type": "side", "side": kind, "packet": object_of(" ".join(words))}
    if kind == "same":
        return {"type": kind, **pairs_of(words[:2]), "cut_a": "A" in words, "cut_b": "B" in words}
    if kind == "digest" and words[1] != "sha256":
        return {"type": kind, "file": int(words[0]), **check_end_of(words[1:])}
    if kind == "digest":
        number, _, digits, _, packets, *cut = words
        return {"type": kind, "file": int(number), "sha256": digits, "packets": int(packets), "cut": cut == ["cut"]}
    if kind == "check":
        number, form, *sums = words[:6]
        _, first, _, last = words[6:10]
        return {"type": kind, "file": int(number), "format": None if form == "-" else form, **pairs_of(sums), "first": time_of(first),
                "last": time_of(last), **pairs_of(words[10:20]), **digest_of(words[20:])}
    if kind in ("files", "talks", "joined"):
        words = [kind, *words]
    return {"type": kind, **pairs_of(words)}


def spelled(value):
    """An object as capt prints it: no blanks, text as it is."""
    return json.dumps(value, separators=(",", ":"), ensure_ascii=False) + "\n"


def all_objects(text):
    """The objects of a command's lines. Of `diff` a side has the byte from which on its bytes are shown, if that isn't the first."""
    objects = [object_of(line) for line in text.splitlines()]
    row = objects[0].get("data_at", 0) // 16 * 16 if objects else 0
    return [{"type": "side", "side": it["side"], "data_from": row, "packet": it["packet"]} if row and it["type"] == "side" else it
            for it in objects]


def objects_of(text):
    return "".join(spelled(it) for it in all_objects(text))


def named_objects(text, paths):
    """The objects of files that are checked, each with the file's name."""
    return "".join(spelled({**object_of(line), "path": path}) for line, path in zip(text.splitlines(), paths))


def refused_object(refusal, path):
    """The object of a refusal as the model has it."""
    return spelled({"type": "refused", "file": refusal.file, "offset": refusal.offset, "rule": refusal.rule, "name": model.RULES[refusal.rule],
                    "path": path})


def wanted_objects(task, contents, paths, allow_cut, data=None, ignored=(), times="exact"):
    """The status, standard output and standard error with --json."""
    text, refusal = model.answer(task, contents, allow_cut, ignored=ignored, times=times)
    objects = all_objects(text)
    if task in model.SURVEYS:
        objects = [{**told, "path": name} for told, name in zip(objects, paths)]
    if data is not None:
        files = [model.File(number, content, allow_cut) for number, content in enumerate(contents, 1)]
        found = model.first_difference(files, ignored)[0] if task == "diff" else None
        packets = found[2:] if found else files[0].packets
        row = objects[0].get("data_at", 0) // 16 * 16 if found else 0
        for it, packet in zip((side["packet"] for side in objects[1:]) if task == "diff" else objects, packets):
            if packet:
                it["data"] = packet.data[row:row + data].hex()
    out = "".join(spelled(it) for it in objects)
    return model.status_of(task, text, refusal), out.encode(), refused_object(refusal, paths[refusal.file - 1]).encode() if refusal else b""


def main():
    count, program = Count(), sys.argv[1] if len(sys.argv) > 1 else PROGRAM
    number = int(sys.argv[2]) if len(sys.argv) > 2 else 10_000
    kept = [os.path.join(TOP, folder, name) for folder in ("checks/corpus", "examples") for name in sorted(os.listdir(os.path.join(TOP, folder)))
            if name.endswith((".pcap", ".pcapng"))]
    with tempfile.TemporaryDirectory() as folder:
        shim = make_shim(folder)

        def holds(bench, task, contents, allow_cut, data=None, faults=None, ignored=(), times="exact"):
            paths = [bench.name(content) for content in contents]
            words = [*words_of(task, [], times=times), "--json", *(["--allow-cut"] if allow_cut else []),
                     *([] if data is None else ["--data", str(data)]),
                     *(f"--ignore={kind}" for kind in ignored), *paths]
            seen = run(words, program, faults)[:3]
            wanted = wanted_objects(task, contents, paths, allow_cut, data, ignored, times)
            count.check(f"capt {' '.join(words)}", seen == wanted, f"wanted {wanted!r:.600}\n  saw {seen!r:.600}")
            try:
                for line in (seen[1] + seen[2]).splitlines():
                    json.loads(line)
            except ValueError as error:
                count.check(f"capt {' '.join(words)}", False, error, line[:200])

        def does(content):
            bench = Bench(tempfile.mkdtemp(dir=folder), program)
            for task in TASKS:
                for allow_cut in (False, True):
                    holds(bench, task, [content], allow_cut, faults=(shim, {"PIECE": 1}) if allow_cut else None)
                for times in ("decimal", "utc") if task in TIMED else ():
                    holds(bench, task, [content], False, times=times)
            for other in (content, vector("CARRY_PCAPNG")):
                for data in (None, 0, 3, 128, 129, 262_144):
                    holds(bench, "diff", [content, other], False, data)
            for data in (0, 3, 60, 61, 199, 200, 201, 400, 262_144):
                holds(bench, "list", [content], False, data)
                holds(bench, "classed", [content], False, data)
            holds(bench, "classed-ipv6", [content], False, 40)

        def random_one(n):
            rng, bench = random.Random(f"objects/{n}"), Bench(tempfile.mkdtemp(dir=folder), program)
            contents = [some_capture(rng) for _ in range(rng.choice([1, 1, 2]))]
            for place, content in enumerate(contents):
                for _ in range(rng.choice([0, 0, 0, 1, 2])):
                    contents[place] = mutated(rng, content, rng.choice(contents))
            task, allow_cut = rng.choice(("info", "report", "top", "info-skipping", "report-skipping", "digest",
                                          "check", "check-digest", "blocks", *OF_IPV6[:3])), rng.random() < 0.5
            times = rng.choice(("exact", "decimal", "utc"))
            holds(bench, task, contents[:1] if task == "blocks" else contents, allow_cut, times=times if task in TIMED
                  else "exact")
            holds(bench, rng.choice(("list", "classed", "classed-ipv6")), contents[:1], allow_cut,
                  rng.choice((None, None, 0, 20, 262_144)), times=times)
            pair, ignored = some_pair(rng, contents), [kind for kind in ("time", "link", "original") if rng.random() < 0.3]
            holds(bench, "diff", pair, allow_cut, rng.choice((None, None, 0, 20, 262_144)), ignored=ignored,
                  times=times)
            for name in os.listdir(bench.folder):
                os.remove(os.path.join(bench.folder, name))

        # a packet of the greatest length, shown whole
        longest = bytes.fromhex("d4c3b2a1020004000000000000000000000004000100000001000000000000000000040000000400") + bytes(range(256)) * 1024
        with ThreadPoolExecutor(2 * (os.cpu_count() or 2)) as pool:
            files = [open(path, "rb").read() for path in kept]
            list(pool.map(does, [*files, *(vector(name) for name in VECTORS), longest, b""]))
            list(pool.map(random_one, range(number)))

        # a path with what JSON escapes; each fault has its object
        place = os.path.join(folder, 'a "b"\\\x1bé.pcap')
        with open(place, "wb") as file:
            file.write(vector("CARRY_PCAP")[:-1])
        offset = len(vector("CARRY_PCAP")) - 20
        told = {"type": "refused", "file": 1, "offset": offset, "rule": 3, "name": "cut", "path": place}
        seen = run(["info", "--json", place], program)
        count.check("a path that is escaped", seen == (1, b"", spelled(told).encode()) and json.loads(seen[2]) == told, seen)
        seen = run(["info", "--json", f"{folder}/none"], program)
        wanted = {"type": "fault", "fault": "open", "file": 1, "path": f"{folder}/none"}
        count.check("a file that isn't there", seen == (1, b"", spelled(wanted).encode()), seen)
        checked = [model.unopened(1), model.checked(model.File(2, vector("CARRY_PCAP")[:-1], False))]
        seen = run(["check", "--json", f"{folder}/none", place], program)
        wanted = named_objects("".join(checked), [f"{folder}/none", place]).encode()
        count.check("a check of both", seen == (1, wanted, b""), seen)
        seen = run(["check", "--json", place], program, (shim, {"READ": "3-1"}))[:3]
        wanted = named_objects(model.unread(1, b"", 0), [place]).encode()
        count.check("a check whose read fails", seen == (1, wanted, b""), seen)
        seen = run(["list", "--json", place], program, (shim, {"READ": "3-1"}))[:3]
        wanted = {"type": "fault", "fault": "read", "file": 1, "offset": 0, "path": place}
        count.check("a read that fails", seen == (1, b"", spelled(wanted).encode()), seen)
        with open("/dev/full", "wb") as full:
            whole = os.path.join(folder, "whole.pcap")
            with open(whole, "wb") as file:
                file.write(vector("CARRY_PCAP"))
            for task in ("list", "check"):
                seen = run([task, "--json", whole], program, stdout=full)
                told = spelled({"type": "fault", "fault": "write"}).encode()
                count.check(f"{task} on a full disk", (seen[0], seen[2]) == (1, told), seen)
    count.end()


if __name__ == "__main__":
    main()
