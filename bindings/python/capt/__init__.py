"""Packet captures (pcap and pcapng), read and reported by capt's proved library.

    import capt
    with capt.open("monday.pcap") as capture:
        for packet in capture:
            print(packet.time, packet.link, len(packet.data))
    print(capt.report(["monday.pcap", "tuesday.pcapng"]).talks[0])

It needs libcapt.so: beside this file, where the environment's CAPT_LIBRARY says, or where the loader finds it.

A source is a path, a descriptor, an object that has the bytes (`bytes`, `bytearray`, `mmap.mmap`), or an object whose
method `read` returns bytes (a file opened as "rb", `gzip.open(..)`, `io.BytesIO`). A descriptor, and an object with
`read`, is read from where it is to its end, and isn't closed. A function of several captures takes one source, or an
iterable of 1 to 32 sources.

`Capture` reads a path, a descriptor, and an object with `read`, piece by piece. The other calls need all bytes at once,
and read them into memory. With `map=True` each call maps the file of a path instead. If a mapped file gets shorter
while it is used, the system ends the process (SIGBUS). Bytes that you give mustn't change while they are used.

Threads may share a `Capture`, a `Fed`, a `Table` or a `Writer`. One thread at a time works with it, and `close` waits
for that thread, even if it waits for a read. After `close` each call raises `Closed`. A call from within a call of the
same object, as by the handler of a signal, raises RuntimeError. If a handler raises an exception, such as KeyboardInterrupt,
and that ends an iteration, don't go on with the capture: bytes that were read may be lost.
"""
import ctypes
import io
import mmap
import os
import re
import struct
import threading
from array import array
from collections import deque
from datetime import datetime as _DateTime, timedelta, timezone
from fractions import Fraction
from itertools import islice
from typing import (Any, Callable, Deque, Iterable, Iterator, List, NamedTuple, Optional, Protocol, Sequence, Tuple,
                    TypeVar, Union)

__all__ = ["open", "Capture", "Fed", "Packet", "Batch", "Ending", "Table", "Writer", "Report", "Talk", "Side",
           "FileCounts", "Totals", "Error", "Refused", "ReadFailed", "Closed", "TooManyFiles", "report", "report_text",
           "info", "listing", "blocks", "convert", "merge", "join", "rule_name", "version"]

Path = Union[str, os.PathLike]
Buffer = Union[bytes, bytearray, memoryview, mmap.mmap]


class Readable(Protocol):
    """A source whose bytes are read."""

    def read(self, size: int = -1, /) -> Optional[bytes]:
        """At most so many bytes, or all for -1: b"" at the end, and None if there are none yet."""


Source = Union[Path, int, Buffer, Readable]
Sources = Union[Source, Iterable[Source]]

_DONE, _PACKET, _REFUSED, _READ, _MEMORY, _MISUSE, _MORE, _CAME = 0, 1, 2, 3, 5, 6, 7, 8
_ALLOW_CUT, _BIG, _TO_PCAP, _IPV6 = 1, 2, 4, 8
_ROOM, _PIECE, _MOST_FILES = 256, 1 << 18, 32
_NOT_ENDED = "the capture hasn't ended: its packets come first"
_NO_PACKET = "no packet has these fields"


class _Place(ctypes.Structure):
    _fields_ = [("offset", ctypes.c_uint64), ("file", ctypes.c_uint32), ("rule", ctypes.c_uint32)]


# capt_packet: frame, offset, instance, seconds, numerator, denominator, resolution, time_offset, carry, captured,
# original, snaplen, link
_FIELDS = struct.Struct("@PQQqQQQqIIIII0Q")


# capt_talk: of each end the address, port, version and whether it has a port; the protocol; packets, bytes and carry
# each way; seconds, carry, numerator and denominator of the first and the last time
_TALK = struct.Struct("@16sHB?16sHB?B7x6QqqQQqqQQ")
# capt_file_counts: packets, bytes and carry, truncated, skipped, the first and the last time, format, was_cut
_FILE = struct.Struct("@5QqqQQqqQQI?3x")
# capt_totals: packets, bytes and carry, and then the other counts, talks and files
_TOTALS = struct.Struct("@14QI4x")


class _Fields(ctypes.Structure):
    """The same in a batch, with the place of its bytes instead of `frame`."""
    _fields_ = [("start", ctypes.c_uint64), ("offset", ctypes.c_uint64), ("instance", ctypes.c_uint64),
                ("seconds", ctypes.c_int64), ("numerator", ctypes.c_uint64), ("denominator", ctypes.c_uint64),
                ("resolution", ctypes.c_uint64), ("time_offset", ctypes.c_int64), ("carry", ctypes.c_uint32),
                ("captured", ctypes.c_uint32), ("original", ctypes.c_uint32), ("snaplen", ctypes.c_uint32),
                ("link", ctypes.c_uint32)]


class _Ending(ctypes.Structure):
    _fields_ = [("skipped", ctypes.c_uint64), ("is_pcapng", ctypes.c_bool), ("was_cut", ctypes.c_bool)]


class _Reader(ctypes.Structure):
    _fields_ = [("at", ctypes.c_void_p), ("is_open", ctypes.c_bool)]


class _Text(ctypes.Structure):
    _fields_ = [("at", ctypes.c_void_p), ("len", ctypes.c_size_t), ("handle", _Reader)]


class _Bytes(ctypes.Structure):
    _fields_ = [("at", ctypes.c_void_p), ("len", ctypes.c_size_t)]


class _Options(ctypes.Structure):
    _fields_ = [(name, ctypes.c_uint32) for name in ("flags", "data", "top", "times", "unit")]


# the commands of enum capt_command
_LIST, _BLOCKS, _INFO, _REPORT, _CONVERT, _MERGE, _JOIN = range(1, 8)


def _load() -> ctypes.CDLL:
    beside = os.path.join(os.path.dirname(os.path.abspath(__file__)), "libcapt.so")
    library = ctypes.CDLL(os.environ.get("CAPT_LIBRARY") or (beside if os.path.exists(beside) else "libcapt.so"))
    pointer, status, size, flags = ctypes.c_void_p, ctypes.c_uint32, ctypes.c_size_t, ctypes.c_uint32
    for name, result, *words in [
        ("capt_open", status, pointer, pointer, size, flags),
        ("capt_open_fed", status, pointer, flags),
        ("capt_feed", status, pointer, pointer, size),
        ("capt_feed_end", status, pointer),
        ("capt_next", status, pointer, pointer, pointer),
        ("capt_next_many", status, pointer, pointer, size, pointer, pointer),
        ("capt_end", status, pointer, pointer),
        ("capt_close", None, pointer),
        ("capt_table_open", status, pointer, pointer, size, flags),
        ("capt_table_step", status, pointer, pointer),
        ("capt_table_write", status, pointer, pointer, pointer),
        ("capt_table_talk", status, pointer, size, pointer),
        ("capt_table_file", status, pointer, status, pointer),
        ("capt_table_totals", status, pointer, pointer),
        ("capt_writer_open", status, pointer, flags),
        ("capt_writer_put", status, pointer, pointer, pointer, size, pointer),
        ("capt_writer_take", status, pointer, pointer),
        ("capt_job_open", status, pointer, ctypes.c_uint32, pointer, size, pointer),
        ("capt_job_read", status, pointer, pointer, size, pointer, pointer),
        ("capt_text_close", None, pointer),
        ("capt_error_text", size, status, pointer, pointer, size),
        ("capt_rule_name", size, status, pointer, size),
        ("capt_version", size, pointer, size),
        # the calls of a library without it take other words
        ("capt_version_number", status),
    ]:
        try:
            call = getattr(library, name)
        except AttributeError:
            raise OSError(f"{library._name}: this libcapt is of another version, without {name}")
        call.restype, call.argtypes = result, words
    return library


class _Missing:
    """In place of the library where it isn't found: a call of it raises why. What is closed was never opened."""

    def __init__(self, why: OSError):
        self._why = str(why)

    def __getattr__(self, name: str) -> Any:
        if name in ("capt_close", "capt_text_close"):
            return lambda *_: None
        raise OSError(self._why)


def _load_or_miss() -> Any:
    # `capt.archive` runs the program, and needs no library
    try:
        return _load()
    except OSError as why:
        return _Missing(why)


_library = _load_or_miss()


class Error(Exception):
    """A capture can't be read: `file`, a number from 1, and `offset` say where. `path` is that file's path, as you gave
    it, or None if you gave no path."""

    def __init__(self, message: str, file: int = 0, offset: int = 0, path: Optional[Path] = None):
        super().__init__(message)
        self.file, self.offset, self.path = file, offset, path


class Refused(Error):
    """A capture breaks a rule, of that number and name; `text` is what was printed or written before."""

    # pickle calls it with the message alone, and then sets the attributes
    def __init__(self, message: str, file: int = 0, offset: int = 0, rule: int = 0, text: bytes = b"",
                 path: Optional[Path] = None):
        super().__init__(message, file, offset, path)
        self.rule, self.name, self.text = rule, rule_name(rule), text


class ReadFailed(Error):
    """A read failed."""


class Closed(ValueError):
    """The capture or the table is closed."""


class TooManyFiles(ValueError):
    """There are more than 32 captures."""


def _text_of(call: Callable[..., int], *words: Any) -> str:
    room = 128
    buffer = (ctypes.c_uint8 * room)()
    return bytes(buffer[:call(*words, buffer, room)]).decode()


def rule_name(rule: int) -> str:
    """The name of a rule, as "block-trailer"; "" if there is no such rule."""
    return _text_of(_library.capt_rule_name, rule)


def version() -> str:
    """The version of the library."""
    return _text_of(_library.capt_version)


def _check(status: int, place: _Place, text: bytes = b"", paths: Sequence[Optional[Path]] = (None,),
           misuse: str = "") -> None:
    if status in (_REFUSED, _READ):
        message = _text_of(_library.capt_error_text, status, ctypes.byref(place)).rstrip("\n")
        path = paths[place.file - 1]
        if status == _REFUSED:
            raise Refused(message, place.file, place.offset, place.rule, text, path)
        raise ReadFailed(message, place.file, place.offset, path)
    if status == _MEMORY:
        raise MemoryError
    if status == _MISUSE:
        raise ValueError(misuse)


def _kind(source: Any) -> str:
    """What a source is: a "path", a "descriptor", "bytes" or a "file"."""
    if isinstance(source, (str, os.PathLike)):
        return "path"
    if isinstance(source, int) and not isinstance(source, bool):
        return "descriptor"
    try:
        memoryview(source).release()
        return "bytes"
    except TypeError:
        if hasattr(source, "read"):
            return "file"
    raise TypeError(f"a capture is a path, a descriptor, bytes or a file, and no {type(source).__name__}")


def _opened(source: Union[Path, int]) -> io.FileIO:
    """The file of a path or of a descriptor, which isn't closed with it."""
    return io.FileIO(source, closefd=not isinstance(source, int))


def _listed(sources: Any) -> List[Any]:
    """One source, or those of an iterable, which are 1 to 32."""
    try:
        _kind(sources)
        return [sources]
    except TypeError:
        if not hasattr(sources, "__iter__"):
            raise
    listed = list(islice(sources, _MOST_FILES + 1))
    if len(listed) > _MOST_FILES:
        raise TooManyFiles("more than 32 captures")
    if not listed:
        raise ValueError("no capture")
    return listed


def _bytes_of(read: Any) -> bytes:
    """What was read, as bytes."""
    if read is None:
        raise BlockingIOError("the source has no bytes yet: it doesn't wait for them")
    if isinstance(read, str):
        raise TypeError("the source is read as text: open it as \"rb\"")
    return read if type(read) is bytes else bytes(memoryview(read))


def _rest_of(file: Readable) -> bytes:
    """All bytes to the end: a read of a file that doesn't wait may return fewer."""
    pieces = []
    while piece := _bytes_of(file.read()):
        pieces.append(piece)
    return b"".join(pieces)


class _Whole:
    """All bytes of a source, in memory, and their address."""

    def __init__(self, source: Any, map: bool):
        self.map: Optional[mmap.mmap] = None
        self.view: Optional[memoryview] = None
        kind = _kind(source)
        self.path = source if kind == "path" else None
        if kind == "file":
            source = _rest_of(source)
        elif kind != "bytes":
            with _opened(source) as file:
                if map and kind == "path" and os.path.isfile(source) and os.fstat(file.fileno()).st_size:
                    source = self.map = mmap.mmap(file.fileno(), 0, access=mmap.ACCESS_READ)
                else:
                    source = _rest_of(file)
        self.view = memoryview(source).cast("B")
        self.len = len(self.view)
        # the address of bytes that may not be written
        if self.len == 0:
            self.held = ctypes.create_string_buffer(1)
            self.at = ctypes.addressof(self.held)
        elif self.view.readonly:
            buffer = _View()
            _get_buffer(ctypes.py_object(self.view), ctypes.byref(buffer), 0)
            self.at = buffer.buf
            _release_buffer(ctypes.byref(buffer))
        else:
            self.at = ctypes.addressof((ctypes.c_uint8 * self.len).from_buffer(self.view))

    def close(self) -> None:
        if self.view is not None:
            self.view.release()
            self.view = None
        if self.map is not None:
            self.map.close()
            self.map = None


class _View(ctypes.Structure):
    _fields_ = [("buf", ctypes.c_void_p), ("obj", ctypes.py_object), ("len", ctypes.c_ssize_t),
                ("itemsize", ctypes.c_ssize_t), ("readonly", ctypes.c_int), ("ndim", ctypes.c_int),
                ("format", ctypes.c_char_p), ("shape", ctypes.c_void_p), ("strides", ctypes.c_void_p),
                ("suboffsets", ctypes.c_void_p), ("internal", ctypes.c_void_p)]


_get_buffer, _release_buffer = ctypes.pythonapi.PyObject_GetBuffer, ctypes.pythonapi.PyBuffer_Release
_get_buffer.argtypes = [ctypes.py_object, ctypes.c_void_p, ctypes.c_int]
_release_buffer.argtypes = [ctypes.c_void_p]
_release_buffer.restype = None


class Ending(NamedTuple):
    """How a capture ended: its format, how many blocks were skipped, and whether a cut rest was dropped."""
    format: str
    skipped: int
    was_cut: bool


_EPOCH = _DateTime(1970, 1, 1, tzinfo=timezone.utc)


class Packet:
    """A packet. `data` are its captured bytes.

    Its time since 1970-01-01 00:00 UTC is exactly `seconds`, rounded down, and `numerator`/`denominator`, in the unit
    of its interface. If it has no time, these three are None, and so is each other form of it.

    Its interface is described by `instance`, which is how many interface blocks of the file come before that of this
    interface, by `link` and `snaplen`, and by how it counts time: `resolution` units a second, from the second
    `time_offset` on."""
    __slots__ = ("offset", "instance", "seconds", "numerator", "denominator", "resolution", "time_offset", "captured",
                 "original", "snaplen", "link", "data")
    offset: int
    instance: int
    seconds: Optional[int]
    numerator: Optional[int]
    denominator: Optional[int]
    resolution: int
    time_offset: int
    captured: int
    original: int
    snaplen: int
    link: int
    data: bytes

    def __init__(self, fields: Tuple[int, ...]):
        (frame, self.offset, self.instance, seconds, self.numerator, self.denominator, self.resolution,
         self.time_offset, carry, self.captured, self.original, self.snaplen, self.link) = fields
        self.data = ctypes.string_at(frame, self.captured)
        self.seconds = seconds + (carry << 64) if carry else seconds
        if not self.denominator:
            self.seconds = self.numerator = self.denominator = None

    @property
    def time(self) -> Optional[Fraction]:
        """Its exact time since 1970, in seconds."""
        if self.seconds is None or self.numerator is None or self.denominator is None:
            return None
        return Fraction(self.seconds * self.denominator + self.numerator, self.denominator)

    @property
    def time_ns(self) -> Optional[int]:
        """Its time since 1970 in nanoseconds; None if that isn't a whole number."""
        if self.seconds is None or self.numerator is None or self.denominator is None:
            return None
        nanoseconds, rest = divmod(self.numerator * 10**9, self.denominator)
        return None if rest else self.seconds * 10**9 + nanoseconds

    @property
    def datetime(self) -> Optional[_DateTime]:
        """Its time in UTC, rounded down to a microsecond. OverflowError if its year isn't from 1 to 9999."""
        if self.seconds is None or self.numerator is None or self.denominator is None:
            return None
        microseconds = self.numerator * 10**6 // self.denominator
        return _EPOCH + timedelta(seconds=self.seconds, microseconds=microseconds)

    def __repr__(self) -> str:
        return (f"Packet(offset={self.offset}, time={self.time}, captured={self.captured}, "
                f"original={self.original}, link={self.link})")


class Batch:
    """Packets that came together, for numpy and the like.

    `fields` has a structure for each packet: `numpy.asarray(batch.fields)` copies nothing, and is an array whose fields
    are named as those of `Packet`. A time is `carry` times 2**64 seconds, and `seconds`, and `numerator`/`denominator`;
    the denominator is 0 if there is none. The captured bytes are `data[start:start + captured]`."""
    __slots__ = ("fields", "data")
    fields: Any
    data: bytes

    def __init__(self, packed: bytearray, starts: List[int], data: bytes):
        # `starts` go where the addresses of the frames are
        memoryview(packed).cast("Q")[::_FIELDS.size // 8] = memoryview(array("Q", starts))
        self.fields, self.data = (_Fields * len(starts)).from_buffer(packed), data

    def __len__(self) -> int:
        return len(self.fields)


def _ending_of(reader: _Reader) -> Ending:
    ending = _Ending()
    status = _library.capt_end(ctypes.byref(reader), ctypes.byref(ending))
    _check(status, _Place(), misuse=_NOT_ENDED)
    return Ending("pcapng" if ending.is_pcapng else "pcap", ending.skipped, ending.was_cut)


class _InMemory:
    """A reader of a capture all of whose bytes are in memory."""

    def __init__(self, source: Any, map: bool, allow_cut: bool):
        self._reader, self.place, self._count = _Reader(), _Place(), ctypes.c_size_t()
        self._whole, self._some = _Whole(source, map), bytearray(_ROOM * _FIELDS.size)
        some = (ctypes.c_uint8 * len(self._some)).from_buffer(self._some)
        self._words = (ctypes.byref(self._reader), ctypes.byref(some), _ROOM, ctypes.byref(self._count),
                       ctypes.byref(self.place))
        _check(_library.capt_open(self._words[0], self._whole.at, self._whole.len, _cut(allow_cut)),
               self.place)

    def more(self, ready: Deque[Packet]) -> int:
        """Puts the next packets behind those that are ready, and returns the status."""
        status = _library.capt_next_many(*self._words)
        if status == _PACKET:
            some = memoryview(self._some)[:self._count.value * _FIELDS.size]
            ready.extend([Packet(fields) for fields in _FIELDS.iter_unpack(some)])
        return status

    def batch(self, room: int, batches: List[Batch]) -> int:
        """Adds a batch of the next packets, at most `room` of them, and returns the status."""
        packed = bytearray(room * _FIELDS.size)
        reader, _, _, count, place = self._words
        status = _library.capt_next_many(reader, (ctypes.c_uint8 * len(packed)).from_buffer(packed), room, count, place)
        if status == _PACKET:
            packed = packed[:self._count.value * _FIELDS.size]
            frames = memoryview(packed).cast("Q")[::_FIELDS.size // 8].tolist()
            # the frames that came at once are in one piece of memory, in order, with heads between them
            captured = _FIELDS.unpack_from(packed, len(packed) - _FIELDS.size)[9]
            data = ctypes.string_at(frames[0], frames[-1] + captured - frames[0])
            batches.append(Batch(packed, [frame - frames[0] for frame in frames], data))
        return status

    def ending(self) -> Ending:
        return _ending_of(self._reader)

    def close(self) -> None:
        _library.capt_close(ctypes.byref(self._reader))
        if hasattr(self, "_whole"):
            self._whole.close()

    __del__ = close


class _InPieces:
    """A reader of a capture whose bytes are fed."""

    def __init__(self, allow_cut: bool):
        self._reader, self.place, self._packet = _Reader(), _Place(), bytearray(_FIELDS.size)
        packet = (ctypes.c_uint8 * _FIELDS.size).from_buffer(self._packet)
        self._words = ctypes.byref(self._reader), ctypes.byref(packet), ctypes.byref(self.place)
        self._has_ended = False
        _check(_library.capt_open_fed(self._words[0], _cut(allow_cut)), self.place)

    def feed(self, piece: bytes) -> None:
        status = _library.capt_feed(self._words[0], piece, len(piece))
        _check(status, self.place, misuse="bytes are fed after the end")

    def end(self) -> None:
        _check(_library.capt_feed_end(self._words[0]), self.place)

    def more(self, ready: Deque[Packet]) -> int:
        """Puts the next packets behind those that are ready, as far as what was fed tells, and returns the status."""
        step, words, unpack, fields = _library.capt_next, self._words, _FIELDS.unpack, self._packet
        for count in range(_ROOM):
            status = step(*words)
            if status != _PACKET:
                # it comes again, after the packets before it
                self._has_ended = status == _DONE and not count
                return _PACKET if count else status
            ready.append(Packet(unpack(fields)))
        return _PACKET

    def batch(self, room: int, batches: List[Batch]) -> int:
        """Adds a batch of the next packets, at most `room` of them, as far as what was fed tells, and returns the
        status."""
        step, words, unpack, fields = _library.capt_next, self._words, _FIELDS.unpack, self._packet
        packed, starts, data = bytearray(), [], bytearray()
        status = _PACKET
        while status == _PACKET and len(starts) < room:
            status = step(*words)
            if status == _PACKET:
                frame, *_, captured, _, _, _ = unpack(fields)
                packed += fields
                starts.append(len(data))
                data += ctypes.string_at(frame, captured)
        self._has_ended = status == _DONE and not starts
        if starts:
            batches.append(Batch(packed, starts, bytes(data)))
            return _PACKET
        return status

    def ending(self) -> Ending:
        if not self._has_ended:
            raise ValueError(_NOT_ENDED)
        return _ending_of(self._reader)

    def close(self) -> None:
        _library.capt_close(ctypes.byref(self._reader))

    __del__ = close


class _FromFile(_InPieces):
    """A reader of a capture that is read piece by piece: of a path, a descriptor, or an object with `read`."""

    def __init__(self, source: Any, allow_cut: bool):
        super().__init__(allow_cut)
        # a piece that was read and isn't fed yet
        self._piece: Optional[bytes] = None
        self._own = None if _kind(source) == "file" else _opened(source)
        self._file = self._own or source
        self._has_read1 = getattr(type(source), "read1", io.BufferedIOBase.read1) is not io.BufferedIOBase.read1

    def more(self, ready: Deque[Packet]) -> int:
        return self._fed(super().more, ready)

    def batch(self, room: int, batches: List[Batch]) -> int:
        return self._fed(super().batch, room, batches)

    def _fed(self, step: Callable[..., int], *words: Any) -> int:
        """Takes a step, and feeds the next piece as long as it wants more."""
        while True:
            status = step(*words)
            if status != _MORE:
                return status
            if self._piece is None:
                self._piece = self._next_piece()
            if self._piece:
                self.feed(self._piece)
                self._piece = None
            else:
                self.end()

    def _next_piece(self) -> bytes:
        # read1 doesn't wait for a whole piece; without bytes it doesn't say whether some will come
        return _bytes_of(self._has_read1 and self._file.read1(_PIECE) or self._file.read(_PIECE))

    def close(self) -> None:
        super().close()
        if getattr(self, "_own", None) is not None:
            self._own.close()

    __del__ = close


_Self = TypeVar("_Self", bound="_Handle")


class _Handle:
    """What threads work with, one at a time: `_held` is a reader, a table or a writer."""

    def __init__(self, held: Any):
        # a thread may take the lock again, as in the handler of a signal, and then sees that it is within a call
        self._held, self._lock = held, threading.RLock()
        self._is_within = self._is_closed = False

    def _check_alone(self) -> None:
        if self._is_within:
            raise RuntimeError(f"this {type(self).__name__} is called from within a call of it")

    def _call(self, call: Callable[..., Any], *words: Any) -> Any:
        """Calls it while no other call is made."""
        with self._lock:
            self._check_alone()
            if self._is_closed:
                raise Closed(f"this {type(self).__name__} is closed")
            try:
                self._is_within = True
                return call(*words)
            finally:
                self._is_within = False

    def close(self) -> None:
        """Gives back what it holds, the packets that weren't given too. Closing it twice does nothing."""
        with self._lock:
            self._check_alone()
            self._is_closed = True
            self._held.close()

    def __enter__(self: _Self) -> _Self:
        return self

    def __exit__(self, *_: object) -> None:
        self.close()


class _Packets(_Handle):
    """The packets of a reader, which come in batches."""

    def __init__(self, held: Any, path: Optional[Path] = None):
        super().__init__(held)
        # packets that came and weren't given yet
        self._ready: Deque[Packet] = deque()
        self._paths = (path,)

    def __iter__(self) -> Iterator[Packet]:
        return _Iteration(self)

    def _next_batch(self, room: int) -> Optional[Batch]:
        if self._ready:
            raise ValueError("an iteration over packets has left some: take them before batches")
        batches: List[Batch] = []
        status = self._held.batch(room, batches)
        if status != _MORE:
            _check(status, self._held.place, paths=self._paths)
        return batches[0] if batches else None

    def batches(self, room: int = 4096) -> Iterator[Batch]:
        """Its next packets in batches of 1 to `room`. A packet is in one batch, or in an iteration over packets."""
        if room < 1:
            raise ValueError("a batch has room for 1 packet or more")
        return iter(lambda: self._call(self._next_batch, room), None)

    def _fill(self) -> bool:
        """Makes packets ready; False if there are none."""
        # another thread may have made some ready
        if self._ready:
            return True
        status = self._held.more(self._ready)
        if status != _MORE:
            _check(status, self._held.place, paths=self._paths)
        return status == _PACKET

    def close(self) -> None:
        super().close()
        self._ready.clear()


class _Iteration:
    """An iteration over packets, which threads may share, unlike a generator."""

    def __init__(self, packets: _Packets):
        self._packets, self._take = packets, packets._ready.popleft

    def __iter__(self) -> Iterator[Packet]:
        return self

    def __next__(self) -> Packet:
        while True:
            try:
                return self._take()
            except IndexError:
                pass
            if not self._packets._call(self._packets._fill):
                raise StopIteration


class Capture(_Packets):
    """The packets of a capture, one by one. Close it, or use it as a context.

    A path, a descriptor, and an object with `read`, is read piece by piece while its packets are taken. With `map=True`
    the file of a path is mapped.

    An iteration that is left goes on where it was when the next one begins. Of several threads that iterate over one
    capture, one gets each packet. `data` of a packet is a copy.
    """

    def __init__(self, source: Source, allow_cut: bool = False, *, map: bool = False):
        kind = _kind(source)
        is_whole = kind == "bytes" or kind == "path" and map
        held = _InMemory(source, map, allow_cut) if is_whole else _FromFile(source, allow_cut)
        super().__init__(held, source if isinstance(source, (str, os.PathLike)) else None)

    @property
    def ending(self) -> Ending:
        """How it ended, once an iteration came to its end; before that, it raises ValueError."""
        return self._call(self._held.ending)


def open(source: Source, allow_cut: bool = False, *, map: bool = False) -> Capture:
    """Opens a capture: the same as `Capture`."""
    return Capture(source, allow_cut, map=map)


class Fed(_Packets):
    """The packets of a capture whose bytes come piece by piece, as out of a socket. Close it, or use it as a context.

        with capt.Fed() as fed:
            for piece in pieces:
                fed.feed(piece)
                for packet in fed:
                    print(packet)
            fed.end()
            for packet in fed:
                print(packet)

    An iteration gives the packets as far as the bytes tell that were fed. A cut end is refused after `end` alone.
    """

    def __init__(self, allow_cut: bool = False):
        super().__init__(_InPieces(allow_cut))

    def feed(self, piece: Buffer) -> None:
        """Feeds the next bytes, which are copied."""
        self._call(self._held.feed, piece if type(piece) is bytes else bytes(memoryview(piece)))

    def end(self) -> None:
        """No more bytes come."""
        self._call(self._held.end)

    @property
    def ending(self) -> Ending:
        """How it ended, once an iteration after `end` came to its end; before that, it raises ValueError."""
        return self._call(self._held.ending)


def _cut(allow_cut: bool) -> int:
    """The flag for it, or none."""
    return _ALLOW_CUT if allow_cut else 0


def _text(command: int, sources: Sources, map: bool, flags: int) -> bytes:
    """The text of a command over 1 to 32 captures."""
    wholes: List[_Whole] = []
    parts: List[bytes] = []
    job, place, count, piece = _Reader(), _Place(), ctypes.c_size_t(), ctypes.create_string_buffer(_PIECE)
    try:
        for source in _listed(sources):
            wholes.append(_Whole(source, map))
        files = (_Bytes * len(wholes))(*[_Bytes(it.at, it.len) for it in wholes])
        options = _Options(flags)
        opened = _library.capt_job_open(ctypes.byref(job), command, files, len(wholes), ctypes.byref(options))
        _check(opened, place)
        words = ctypes.byref(job), piece, _PIECE, ctypes.byref(count), ctypes.byref(place)
        status = _library.capt_job_read(*words)
        while status == _CAME:
            parts.append(ctypes.string_at(piece, count.value))
            status = _library.capt_job_read(*words)
        made = b"".join(parts)
        _check(status, place, made, [it.path for it in wholes])
        return made
    finally:
        _library.capt_close(ctypes.byref(job))
        for it in wholes:
            it.close()


def listing(source: Source, allow_cut: bool = False, *, map: bool = False) -> str:
    """What `capt list` prints of a capture."""
    return _text(_LIST, [source], map, _cut(allow_cut)).decode()


def blocks(source: Source, allow_cut: bool = False, *, map: bool = False) -> str:
    """What `capt blocks` prints of a pcapng capture."""
    return _text(_BLOCKS, [source], map, _cut(allow_cut)).decode()


def info(sources: Sources, allow_cut: bool = False, *, map: bool = False) -> str:
    """What `capt info` prints of 1 to 32 captures."""
    return _text(_INFO, sources, map, _cut(allow_cut)).decode()


def report_text(sources: Sources, allow_cut: bool = False, *, ipv6: bool = False, map: bool = False) -> str:
    """What `capt report` prints of 1 to 32 captures. With `ipv6` it also has the conversations of IPv6 packets, and the
    count `not-ip` in place of `not-ipv4`."""
    return _text(_REPORT, sources, map, _report_flags(allow_cut, ipv6)).decode()


def _report_flags(allow_cut: bool, ipv6: bool) -> int:
    return _cut(allow_cut) | (_IPV6 if ipv6 else 0)


def convert(source: Source, to: str, order: str = "little", allow_cut: bool = False, *, map: bool = False) -> bytes:
    """A capture as a file of the format `to`, "pcap" or "pcapng", in that order of bytes, "little" or "big"."""
    return _text(_CONVERT, [source], map, _form_flags(allow_cut, to, order))


def merge(sources: Sources, order: str = "little", allow_cut: bool = False, *, to: str = "pcapng",
          map: bool = False) -> bytes:
    """1 to 32 captures as one file of the format `to`, sorted by exact time."""
    return _text(_MERGE, sources, map, _form_flags(allow_cut, to, order))


def join(sources: Sources, order: str = "little", allow_cut: bool = False, *, to: str = "pcapng",
         map: bool = False) -> bytes:
    """The whole IPv4 datagrams of 1 to 32 captures, fragments joined, as one file of the format `to`."""
    return _text(_JOIN, sources, map, _form_flags(allow_cut, to, order))


def _form_flags(allow_cut: bool, to: str, order: str) -> int:
    return _cut(allow_cut) | _word(to, "pcapng", "pcap") * _TO_PCAP | _word(order, "little", "big") * _BIG


def _word(word: str, no: str, yes: str) -> bool:
    if word not in (no, yes):
        raise ValueError(f"{word!r} is neither {no!r} nor {yes!r}")
    return word == yes


class Side(NamedTuple):
    """The packets of a conversation that go one way, and their bytes."""
    packets: int
    bytes: int


class Talk(NamedTuple):
    """A conversation: its protocol, its two ends, the packets and bytes from a to b (`forward`) and from b to a, and
    the exact times of its first and last packet, or None. An address is one of IPv4, as "10.0.0.1", or of IPv6, as
    "2001:db8::1". A port is None where the protocol has none."""
    protocol: int
    a: str
    a_port: Optional[int]
    b: str
    b_port: Optional[int]
    forward: Side
    backward: Side
    first: Optional[Fraction]
    last: Optional[Fraction]


class FileCounts(NamedTuple):
    """What is counted of a file: its format, "pcap" or "pcapng", or None if no packet was taken of it so far; its
    packets and their bytes, how many were captured in part, how many of its blocks were skipped, the exact times of its
    first and last packet, or None, and whether a cut rest was dropped."""
    format: Optional[str]
    packets: int
    bytes: int
    truncated: int
    skipped: int
    first: Optional[Fraction]
    last: Optional[Fraction]
    was_cut: bool


class Totals(NamedTuple):
    """What is counted of all packets: how many there are, their bytes, how many were captured in part, how many are of
    each class of the line `frames` (`not_ip` is `not-ipv4` in a report without IPv6), how many datagrams were joined,
    and how many groups of fragments were given up."""
    packets: int
    bytes: int
    truncated: int
    other_link: int
    not_ip: int
    short: int
    cut: int
    bad: int
    unjoined: int
    counted: int
    joined: int
    given_up: int


class Report(NamedTuple):
    """A report: its `text`, its conversations, what is counted of each file, and of all packets."""
    text: str
    talks: List[Talk]
    files: List[FileCounts]
    totals: Totals


class _Counting:
    """A table of captures that are in memory."""

    def __init__(self, sources: Sources, map: bool, flags: int):
        self._table, self._place = _Reader(), _Place()
        self._wholes: List[_Whole] = []
        for source in _listed(sources):
            self._wholes.append(_Whole(source, map))
        files = (_Bytes * len(self._wholes))(*[_Bytes(it.at, it.len) for it in self._wholes])
        status = _library.capt_table_open(ctypes.byref(self._table), files, len(files), flags)
        _check(status, self._place)

    def step(self) -> bool:
        status = _library.capt_table_step(ctypes.byref(self._table), ctypes.byref(self._place))
        _check(status, self._place, paths=[it.path for it in self._wholes])
        return status == _PACKET

    def run(self) -> None:
        """Takes all packets that are left."""
        step, table, place = _library.capt_table_step, ctypes.byref(self._table), ctypes.byref(self._place)
        status = _PACKET
        while status == _PACKET:
            status = step(table, place)
        _check(status, self._place, paths=[it.path for it in self._wholes])

    def report(self) -> Report:
        *totals, talks, files = self._row(_library.capt_table_totals, _TOTALS)
        rows = (self._row(_library.capt_table_talk, _TALK, place) for place in range(talks))
        counts = (self._row(_library.capt_table_file, _FILE, number) for number in range(1, files + 1))
        packets, low, carry, *rest = totals
        return Report(self._write(), list(map(_talk, rows)), list(map(_file_counts, counts)),
                      Totals(packets, low + (carry << 64), *rest))

    def _row(self, call: Callable[..., int], fields: struct.Struct, *which: int) -> Tuple[Any, ...]:
        row = ctypes.create_string_buffer(fields.size)
        _check(call(ctypes.byref(self._table), *which, row), self._place)
        return fields.unpack(row.raw)

    def _write(self) -> str:
        text = _Text()
        try:
            status = _library.capt_table_write(ctypes.byref(self._table), ctypes.byref(text), ctypes.byref(self._place))
            _check(status, self._place)
            return ctypes.string_at(text.at, text.len).decode()
        finally:
            _library.capt_text_close(ctypes.byref(text))

    def close(self) -> None:
        _library.capt_close(ctypes.byref(self._table))
        for whole in self._wholes:
            whole.close()

    __del__ = close


class Table(_Handle):
    """The table of a report over 1 to 32 captures, which takes their packets one by one, in the order of exact time.
    Besides the bytes of the captures it holds bounded memory. Close it, or use it as a context. With `ipv6` it also has
    the conversations of IPv6 packets."""

    def __init__(self, sources: Sources, allow_cut: bool = False, *, ipv6: bool = False, map: bool = False):
        super().__init__(_Counting(sources, map, _report_flags(allow_cut, ipv6)))

    def step(self) -> bool:
        """Takes the next packet; False if none is left."""
        return self._call(self._held.step)

    def report(self) -> Report:
        """The report over the packets that were taken so far."""
        return self._call(self._held.report)


class _Writing:
    """A capture file that is written packet by packet."""

    def __init__(self, flags: int):
        self._writer, self._place = _Reader(), _Place()
        _check(_library.capt_writer_open(ctypes.byref(self._writer), flags), self._place)

    def put(self, packet: Any, data: bytes) -> None:
        carry, seconds = divmod((packet.seconds or 0) + (1 << 63), 1 << 64)
        try:
            fields = _FIELDS.pack(0, packet.offset, packet.instance, seconds - (1 << 63), packet.numerator or 0,
                                  packet.denominator or 0, packet.resolution, packet.time_offset, carry, 0,
                                  packet.original, packet.snaplen, packet.link)
        except struct.error:
            raise ValueError(_NO_PACKET) from None
        status = _library.capt_writer_put(ctypes.byref(self._writer), fields, data, len(data),
                                          ctypes.byref(self._place))
        _check(status, self._place, misuse=_NO_PACKET)

    def take(self) -> bytes:
        text = _Text()
        try:
            _check(_library.capt_writer_take(ctypes.byref(self._writer), ctypes.byref(text)), self._place)
            return ctypes.string_at(text.at, text.len)
        finally:
            _library.capt_text_close(ctypes.byref(text))

    def close(self) -> None:
        _library.capt_close(ctypes.byref(self._writer))

    __del__ = close


class Writer(_Handle):
    """A capture file of the format `to`, "pcapng" or "pcap", in that order of bytes, which is written packet by packet,
    in memory: what `take` returns, one after another, is the file. Close it, or use it as a context."""

    def __init__(self, to: str = "pcapng", order: str = "little"):
        super().__init__(_Writing(_form_flags(False, to, order)))

    def put(self, packet: Packet, data: Optional[Buffer] = None) -> None:
        """Puts a packet, or an object with the fields of one, at the end of the file, with those captured bytes in
        place of its own. If the file can't hold it exactly, `Refused` is raised; if no packet has such fields,
        ValueError. Either leaves the file as it was."""
        self._call(self._held.put, packet, bytes(packet.data if data is None else data))

    def take(self) -> bytes:
        """What was written since the last call."""
        return self._call(self._held.take)


def report(sources: Sources, allow_cut: bool = False, *, ipv6: bool = False, map: bool = False) -> Report:
    """The report over 1 to 32 captures, with `ipv6` as `report_text` has it."""
    with Table(sources, allow_cut, ipv6=ipv6, map=map) as table:
        table._call(table._held.run)
        return table.report()


def _time(seconds: int, carry: int, numerator: int, denominator: int) -> Optional[Fraction]:
    return seconds + (carry << 64) + Fraction(numerator, denominator) if denominator else None


def _address(raw: bytes, version: int) -> str:
    """An address as text; of IPv6 that of RFC 5952, 4, without the dotted form for any."""
    if version == 4:
        return ".".join(map(str, raw[:4]))
    text = ":".join(f"{it:x}" for it in struct.unpack(">8H", raw))
    # the longest run of two zeros or more, of equal ones the first
    run = max(re.finditer(r"\b0(?::0\b)+", text), key=lambda it: len(it[0]), default=None)
    return f"{text[:run.start()].rstrip(':')}::{text[run.end():].lstrip(':')}" if run else text


def _end(raw: bytes, port: int, version: int, has_port: bool) -> Tuple[str, Optional[int]]:
    return _address(raw, version), port if has_port else None


def _side(packets: int, low: int, carry: int) -> Side:
    return Side(packets, low + (carry << 64))


def _talk(row: Tuple[Any, ...]) -> Talk:
    return Talk(row[8], *_end(*row[:4]), *_end(*row[4:8]), _side(*row[9:12]), _side(*row[12:15]), _time(*row[15:19]),
                _time(*row[19:]))


def _file_counts(row: Tuple[Any, ...]) -> FileCounts:
    return FileCounts((None, "pcap", "pcapng")[row[13]], *_side(*row[:3]), row[3], row[4], _time(*row[5:9]),
                      _time(*row[9:13]), row[14])
