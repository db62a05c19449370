"""capt by ctypes: packets of a capture, and the texts of the commands."""
import ctypes as C
import mmap
import sys

U8P = C.POINTER(C.c_uint8)
ROOM = 1024
REFUSED = "refused: file %d offset %d rule %d"
ALLOW_CUT, BIG, TO_PCAP, IPV6 = 1, 2, 4, 8


class Place(C.Structure):
    _fields_ = [("offset", C.c_uint64), ("file", C.c_uint32), ("rule", C.c_uint32)]


class Packet(C.Structure):
    _fields_ = [("frame", C.c_void_p), ("offset", C.c_uint64), ("instance", C.c_uint64), ("seconds", C.c_int64),
                ("numerator", C.c_uint64), ("denominator", C.c_uint64), ("resolution", C.c_uint64),
                ("time_offset", C.c_int64), ("carry", C.c_uint32), ("captured", C.c_uint32), ("original", C.c_uint32),
                ("snaplen", C.c_uint32), ("link", C.c_uint32)]

    def bytes(self):
        return C.string_at(self.frame, self.captured)


class Reader(C.Structure):
    _fields_ = [("at", C.c_void_p), ("is_open", C.c_bool)]


class Options(C.Structure):
    _fields_ = [(name, C.c_uint32) for name in ("flags", "data", "top", "times", "unit")]


class Bytes(C.Structure):
    _fields_ = [("at", C.c_char_p), ("len", C.c_size_t)]


class Fault(Exception):
    pass


lib = C.CDLL(sys.argv[1] if __name__ == "__main__" else "./libcapt.so")
for name, types in {
    "capt_open": [C.POINTER(Reader), C.c_char_p, C.c_size_t, C.c_uint32],
    "capt_next": [C.POINTER(Reader), C.POINTER(Packet), C.POINTER(Place)],
    "capt_next_many": [C.POINTER(Reader), C.POINTER(Packet), C.c_size_t, C.POINTER(C.c_size_t), C.POINTER(Place)],
    "capt_job_open": [C.POINTER(Reader), C.c_uint32, C.POINTER(Bytes), C.c_size_t, C.POINTER(Options)],
    "capt_job_read": [C.POINTER(Reader), C.c_char_p, C.c_size_t, C.POINTER(C.c_size_t), C.POINTER(Place)],
}.items():
    getattr(lib, name).argtypes = types
    getattr(lib, name).restype = C.c_uint32
lib.capt_close.argtypes = [C.POINTER(Reader)]
lib.capt_close.restype = None


def packets(data, flags=0):
    """The packets of a capture in memory; its bytes are good until the next is asked for, or copy them."""
    reader, place = Reader(), Place()
    if lib.capt_open(reader, data, len(data), flags) != 0:
        raise MemoryError
    try:
        step = lib.capt_next_many
        some, count = (Packet * ROOM)(), C.c_size_t()
        r, k, q = C.byref(reader), C.byref(count), C.byref(place)
        while (status := step(r, some, ROOM, k, q)) == 1:
            yield from some[:count.value]
        if status:
            raise Fault(REFUSED % (place.file, place.offset, place.rule))
    finally:
        lib.capt_close(reader)


def report(*files, flags=0):
    table = (Bytes * len(files))(*[Bytes(f, len(f)) for f in files])
    job, place, count, buffer, text = Reader(), Place(), C.c_size_t(), C.create_string_buffer(65536), b""
    if lib.capt_job_open(job, 4, table, len(files), Options(flags)) != 0:
        raise MemoryError
    try:
        while (status := lib.capt_job_read(job, buffer, 65536, count, place)) == 8:
            text += buffer[:count.value]
        if status:
            raise Fault(REFUSED % (place.file, place.offset, place.rule))
        return text.decode()
    finally:
        lib.capt_close(job)


if __name__ == "__main__":
    for name in sys.argv[2:]:
        data = open(name, "rb").read()
        try:
            n = sum(len(p.bytes()) for p in packets(data))
            print(name, n, "bytes")
            print(report(data), end="")
        except Fault as fault:
            print(name, fault)
