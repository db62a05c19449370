"""What the command line prints: lines of facts, or objects of JSON."""
import json
import os
import re
import sys
import time
from typing import Any, Dict, List, Optional

from .program import Talk

# what a terminal doesn't show: it controls it, separates lines, or turns the direction of what follows
_HIDDEN = re.compile("[\x00-\x1f\x7f-\x9f\u061c\u200e\u200f\u2028-\u202e\u2066-\u2069]")


def shown(name: str) -> str:
    """A name as a terminal shows it, as the program shows it."""
    text = os.fsencode(name).decode(errors="replace")
    return _HIDDEN.sub(lambda found: f"\\u{{{ord(found[0]):x}}}", text)


def put(kind: str, facts: Dict[str, Any], as_json: bool) -> None:
    """Prints a line: its kind and its facts, of which `path` is the last."""
    if as_json:
        told = {"type": kind, **{name: _value(name, fact) for name, fact in facts.items()}}
        print(json.dumps(told, separators=(",", ":")))
        return
    words = [kind] if kind else []
    for name, fact in facts.items():
        if name == "path":
            words += ["name", shown(fact)]
        elif isinstance(fact, Talk):
            words += _talk_words(fact)
        else:
            words += [name.replace("_", "-"), "-" if fact is None else str(fact)]
    print(" ".join(words))


def put_talk(talk: Talk, as_json: bool, **more: Any) -> None:
    """Prints a conversation as `report` does, and more facts of it."""
    if not as_json:
        put("talk", {"": talk, **more}, False)
        return
    sides = {way: {"packets": packets, "bytes": size} for way, (packets, size) in
             (("forward", talk[5:7]), ("backward", talk[7:9]))}
    ends = {"a": _end(talk.a, talk.a_port), "b": _end(talk.b, talk.b_port)}
    put("talk", {"protocol": talk.protocol, **ends, **sides, "first": talk.first, "last": talk.last, **more}, True)


def _end(address: str, port: Optional[int]) -> Dict[str, Any]:
    return {"address": address} if port is None else {"address": address, "port": port}


def _end_text(address: str, port: Optional[int]) -> str:
    """An end as the program prints it: an IPv6 address with a port is in brackets."""
    if port is None:
        return address
    return f"[{address}]:{port}" if ":" in address else f"{address}:{port}"


def _talk_words(talk: Talk) -> List[str]:
    ends = [_end_text(*end) for end in (talk[1:3], talk[3:5])]
    counts = f"forward {talk[5]} {talk[6]} backward {talk[7]} {talk[8]}"
    return [{17: "udp", 6: "tcp"}.get(talk.protocol, f"p{talk.protocol}"), *ends, counts,
            f"first {talk.first or '-'} last {talk.last or '-'}"]


def _value(name: str, fact: Any) -> Any:
    """A fact in JSON, where a time is `[seconds, numerator, denominator]`."""
    return list(map(int, re.split("[+/]", fact))) if name in ("first", "last") and fact is not None else fact


class Progress:
    """Says on standard error how far a run is, at most once in so many seconds; nothing if it is no terminal and wasn't
    asked for."""

    def __init__(self, asked: bool, seconds: float = 1.0):
        self._clock, self._is_terminal = time.monotonic, sys.stderr.isatty()
        self._seconds = seconds if self._is_terminal or asked else float("inf")
        self._next = self._clock() + self._seconds

    def tell(self, text: str) -> None:
        """Says it, if it is time."""
        if self._clock() >= self._next:
            self._next = self._clock() + self._seconds
            begin, end = ("\r\x1b[K", "") if self._is_terminal else ("", "\n")
            print(f"{begin}{text}", end=end, file=sys.stderr, flush=True)

    def end(self) -> None:
        """Wipes what a terminal shows."""
        if self._is_terminal:
            print("\r\x1b[K", end="", file=sys.stderr, flush=True)
