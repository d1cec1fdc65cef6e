"""The package's loops over pixels in C, where they are compiled: the same numbers as by numpy and SEP, sooner.

`scripts/loops` compiles python/loops into the library beside this module. Where it isn't there, is older than one of
its sources in a clone, or MAXDETECT_LOOPS is empty, numpy and SEP do the same work; MAXDETECT_LOOPS may name another
library. While a loop is at work other threads go on.
"""
import ctypes
import functools
import os
import pathlib
from typing import Any, Callable, Optional

import numpy

__all__ = ["Loop", "array", "flag", "library", "number", "whole"]

# Where scripts/loops puts the library, and in a clone its sources.
PLACE = pathlib.Path(__file__).resolve().with_name("libloops.so")
SOURCES = PLACE.parent.parent / "loops"

# The types of plain numbers.
number, whole, flag = ctypes.c_double, ctypes.c_int64, ctypes.c_int32


def array(dtype: str) -> Any:
    """The type of an array of these numbers, row by row without gaps."""
    return numpy.ctypeslib.ndpointer(numpy.dtype(dtype), flags="C_CONTIGUOUS")


def _is_current() -> bool:
    """Whether the library is there, and no source is newer: another version's functions may want other arguments."""
    try:
        made = PLACE.stat().st_mtime_ns
        return all(path.stat().st_mtime_ns <= made for path in SOURCES.glob("*.[ch]"))
    except OSError:
        return False


@functools.lru_cache(maxsize=None)
def library() -> Optional[ctypes.CDLL]:
    """The compiled loops, or None."""
    path = os.environ.get("MAXDETECT_LOOPS", os.fspath(PLACE) if _is_current() else "")
    try:
        return ctypes.CDLL(path) if path else None
    except OSError:
        return None


class Loop:
    """A function of the library that returns nothing, with the types of its arguments; false where it isn't there."""

    def __init__(self, name: str, *types: Any):
        self._name, self._types = name, types

    def __bool__(self) -> bool:
        return library() is not None

    @functools.cached_property
    def _function(self) -> Callable:
        function = getattr(library(), self._name)
        function.argtypes, function.restype = self._types, None
        return function

    def __call__(self, *arguments: Any) -> None:
        self._function(*arguments)
