"""The numbers that stand at some places once others are in order: medians, and other parts."""
import numpy

from ._loops import Loop, array, whole

__all__ = ["PARTS", "at_ranks", "quantiles"]

# Which parts of noise lie a deviation below its middle, and below that.
PARTS = numpy.array([0.1587, 0.5])

_RANKED = Loop("ranked", array("f4"), whole, whole, array("i8"), whole, array("u4"), array("f4"))


def at_ranks(values: numpy.ndarray, ranks: numpy.ndarray) -> numpy.ndarray:
    """For each row of numbers those at its places in order, which count from 0; NaN stands last."""
    if _RANKED and values.dtype == "f4" and values.size:
        values, ranks = numpy.ascontiguousarray(values), numpy.ascontiguousarray(ranks, dtype="i8")
        found = numpy.empty(ranks.shape, dtype="f4")
        _RANKED(values, *values.shape, ranks, ranks.shape[1], numpy.empty(3 * values.shape[1], dtype="u4"), found)
    elif len(values) == 1:
        found = numpy.partition(values, numpy.unique(ranks), axis=1)[:, ranks[0]]
    else:
        found = numpy.take_along_axis(numpy.sort(values, axis=1), ranks, axis=1)
    # Of two zeros each may stand first, with a sign or without one.
    return found + found.dtype.type(0)


def quantiles(values: numpy.ndarray, parts: numpy.ndarray) -> numpy.ndarray:
    """The numbers below which so large parts of some lie, in 64 bits; NaN where one of them is."""
    if numpy.isnan(values.max()):
        return numpy.full(len(parts), numpy.nan)
    places = (values.size - 1) * parts
    before = numpy.floor(places).astype("i8")
    ranks = numpy.concatenate([before, numpy.minimum(before + 1, values.size - 1)])
    low, high = at_ranks(values.reshape(1, -1), ranks[None]).reshape(2, -1)
    with numpy.errstate(all="ignore"):
        return low + (high - low) * (places - before)
