"""Maps that may stand in files: of these what is at work alone is held in memory."""
import concurrent.futures
import contextlib
import mmap
from typing import IO, Iterable, Iterator, Literal, NamedTuple, Optional, Tuple

import numpy

__all__ = ["Part", "bands", "in_file", "is_shared", "let_go", "letting_go"]

# So many rows are at work at a time.
ROWS = 256


def let_go(segments: numpy.ndarray) -> None:
    """Takes the pages of a map in a file out of memory. They are there again when they are looked at; other arrays stay
    as they are.
    """
    held = getattr(segments, "_mmap", None)
    if held is not None and hasattr(mmap, "MADV_DONTNEED"):
        held.madvise(mmap.MADV_DONTNEED)


def bands(segments: numpy.ndarray) -> Iterator[slice]:
    """The rows of a map, some at a time; those that were given before are let go."""
    for top in range(0, len(segments), ROWS):
        yield slice(top, top + ROWS)
        let_go(segments)


def letting_go(segments: numpy.ndarray, found: Iterable) -> Iterator:
    """The same things that are made of a map one after the other; what is looked at of it for each is let go."""
    for it in found:
        let_go(segments)
        yield it


def in_file(file: IO[bytes], shape: Tuple[int, int]) -> numpy.ndarray:
    """A map in a file with room for it that other processes were forked with: they find it by the name that the system
    gives to what a process has open, where it does.
    """
    with contextlib.suppress(OSError):
        return numpy.memmap(f"/dev/fd/{file.fileno()}", "i4", "r+", shape=shape)
    return numpy.memmap(file, "i4", "r+", shape=shape)


def is_shared(segments: numpy.ndarray, executor: Optional[concurrent.futures.Executor]) -> bool:
    """Whoever works in the executor, or here, finds the map where it stands: in this process, or in a file."""
    if executor is None or isinstance(executor, concurrent.futures.ThreadPoolExecutor):
        return True
    own = isinstance(getattr(segments, "base", None), mmap.mmap) and getattr(segments, "filename", None) is not None
    return own and getattr(executor, "forked", False)


class _Place(NamedTuple):
    """Where a map stands: what `numpy.memmap` wants to be told."""

    name: str
    dtype: numpy.dtype
    mode: Literal["r+"]
    offset: int
    shape: Tuple[int, ...]


class Part:
    """A window of a map for whoever works on it in an executor, or here: another process is sent where a shared map
    stands, and else the pixels.
    """

    def __init__(
        self,
        segments: numpy.ndarray,
        rows: slice,
        columns: slice = slice(None),
        executor: Optional[concurrent.futures.Executor] = None,
    ):
        self._pixels: Optional[numpy.ndarray] = segments[rows, columns]
        self._window, self._place = (rows, columns), None
        if isinstance(segments, numpy.memmap) and executor is not None and is_shared(segments, executor):
            self._place = _Place(str(segments.filename), segments.dtype, "r+", segments.offset, segments.shape)

    def __getstate__(self):
        return {**self.__dict__, "_pixels": None if self._place else numpy.array(self._pixels)}

    def pixels(self) -> numpy.ndarray:
        """Its pixels. What is written to those of a shared map is written into the map."""
        if self._pixels is None and self._place is not None:
            return numpy.memmap(*self._place)[self._window]
        return numpy.asarray(self._pixels)
