"""The catalogue of an archive of captures: which captures there are, whether each is whole, and who talked in which.

    python -m capt.archive index archive.db /captures/*.pcap
    python -m capt.archive find archive.db 10.0.0.1

It runs the program `capt`, and needs no libcapt.so. The catalogue is an SQLite database, which one process writes; the
captures are read by workers, which an engine calls: any object whose `map(function, items)` gives the results, or
futures of them, in the order of the items. `concurrent.futures` has such objects, `distributed.Client` is one.

    from concurrent.futures import ProcessPoolExecutor
    from capt import archive
    with ProcessPoolExecutor() as engine, archive.writing("archive.db") as catalogue:
        for found, is_new in archive.index(catalogue, paths, engine):
            print(found.path, found.outcome)
    with archive.reading("archive.db") as catalogue:
        for talk in catalogue.find("10.0.0.1"):
            print(talk.path, talk.first, talk.last)

A catalogue that is made by `archive.writing("archive.db", ipv6=True)` has conversations of IPv6 too.
"""
from .catalogue import Catalogue, Entry, Found, NotWhole, Totals, TalkRow, reading, writing
from .engines import Engine, local, results
from .errors import ArchiveError
from .indexing import Verdict, index, verify
from .merging import merge

__all__ = ["ArchiveError", "Catalogue", "Engine", "Entry", "Found", "NotWhole", "TalkRow", "Totals", "Verdict", "index",
           "local", "merge", "reading", "results", "verify", "writing"]
