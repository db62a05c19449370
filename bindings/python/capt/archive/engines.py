"""Engines, which call a function for many items, in other processes or on other machines."""
import ctypes
import os
import signal
import sys
from collections import deque
from concurrent.futures import ProcessPoolExecutor
from concurrent.futures.process import BrokenProcessPool
from contextlib import contextmanager
from itertools import islice
from typing import Any, Callable, Deque, Iterable, Iterator, Protocol, TypeVar

from .errors import ArchiveError

_Item, _Result = TypeVar("_Item"), TypeVar("_Result")
_BATCH = 64


class Engine(Protocol):
    """Any object with this `map`: it gives the function's results, or futures of them, in the order of the items."""

    def map(self, function: Callable[[Any], Any], items: Any, /) -> Iterable[Any]:
        """Calls the function with each item."""


def results(engine: Engine, function: Callable[[_Item], _Result], items: Iterable[_Item],
            batch: int = _BATCH) -> Iterator[_Result]:
    """The function's results, in the order of the items. The engine has at most two batches of items at once."""
    waiting: Deque[Iterable[Any]] = deque()
    rest = iter(items)
    while part := list(islice(rest, batch)):
        waiting.append(engine.map(function, part))
        if len(waiting) == 2:
            yield from _ended(waiting.popleft())
    while waiting:
        yield from _ended(waiting.popleft())


def _ended(answers: Iterable[Any]) -> Iterator[Any]:
    for answer in answers:
        result = getattr(answer, "result", None)
        yield result() if callable(result) else answer


def _begin_worker(parent: int) -> None:
    """A worker ends quietly when its run is interrupted, and ends with its parent, even if that is killed."""
    for number in (signal.SIGINT, signal.SIGTERM):
        signal.signal(number, signal.SIG_DFL)
    try:
        ctypes.CDLL(None).prctl(1, signal.SIGKILL)      # PR_SET_PDEATHSIG
    except (AttributeError, OSError):
        return
    if os.getppid() != parent:
        os._exit(1)


@contextmanager
def local(jobs: int) -> Iterator[Engine]:
    """An engine of so many processes on this machine."""
    pool = ProcessPoolExecutor(jobs, initializer=_begin_worker, initargs=(os.getpid(),))
    try:
        yield pool
    except BrokenProcessPool:
        raise ArchiveError("a worker was killed: what is in the catalogue stays, and the same command goes on")
    except Exception:
        # what hasn't begun isn't waited for
        pool.shutdown(**({"cancel_futures": True} if sys.version_info >= (3, 9) else {}))
        raise
    pool.shutdown()


class _Cluster:
    """The engine of a client of dask. The results of a `map` come together: one by one, each would take a call to the
    scheduler."""

    def __init__(self, client: Any):
        self._client = client

    def map(self, function: Callable[[Any], Any], items: Any, /) -> Iterable[Any]:
        """Begins the calls, and gives their results."""
        return self._gathered(self._client.map(function, items))

    def _gathered(self, futures: Any) -> Iterator[Any]:
        yield from self._client.gather(futures)


@contextmanager
def cluster(address: str) -> Iterator[Engine]:
    """The engine of a scheduler of dask, of that address."""
    try:
        from distributed import Client
    except ImportError:
        raise ArchiveError("--dask needs the package distributed, on Debian python3-distributed", 2)
    try:
        client = Client(address, timeout=10)
    except (OSError, ValueError) as error:
        raise ArchiveError(f"no scheduler at {address}: {error}")
    with client:
        yield _Cluster(client)
