"""Which parts of a component are joined with each other, from the highest place where two meet down.

The loops in C (groups.c) tell the same as Python does, where they are compiled and know how significant light is.
"""
import array
import bisect
import math
from typing import NamedTuple, Tuple

import numpy

from ._loops import Loop, array as row_by_row, number as real, whole
from ._significance import AnySignificance, Significance

__all__ = ["Lit", "Meetings", "components", "levels", "needed", "owners"]

GREATEST, NONE = numpy.iinfo("i4").max, numpy.iinfo("i4").min

# The parts that meet and the numbers at which they do, and how many meetings these are.
_MEETINGS = *[row_by_row("i8")] * 3, whole
# How many parts and 0 for none there are, and the least part of each one's component.
_COMPONENTS = Loop("components", *_MEETINGS, whole, row_by_row("i8"))
# Numbers and parts of pixels, and how many they are; each part's component; a deviation, a level's own noise, and how
# many pixels share it; the square of the deviations that are wanted, and the patch; room for pixels and for parts; and
# the owners.
_OWNERS = Loop(
    "owners_of_parts",
    *(row_by_row("i4"), row_by_row("i4"), whole, *_MEETINGS, row_by_row("i8"), whole),
    *(real, real, real, real, real),
    *(row_by_row("u8"), row_by_row("i8"), row_by_row("i8")),
)


class Meetings(NamedTuple):
    """Which parts are neighbours, and the greatest number at which they meet: from the greatest down."""

    ones: numpy.ndarray
    others: numpy.ndarray
    levels: numpy.ndarray

    @property
    def told(self) -> Tuple[numpy.ndarray, numpy.ndarray, numpy.ndarray, int]:
        """What loops are told of them."""
        ones, others, levels = (numpy.ascontiguousarray(it, dtype="i8") for it in self)
        return ones, others, levels, self.ones.size


class Lit(NamedTuple):
    """The numbers and the parts of some pixels, in 32 bits."""

    values: numpy.ndarray
    labels: numpy.ndarray


def components(meetings: Meetings, count: int) -> numpy.ndarray:
    """For each of so many parts, by number, the least one of its component: parts that meet are of one."""
    if meetings.ones.min(initial=1) < 1 or meetings.others.max(initial=0) > count:
        raise ValueError("a map of other sources")
    if _COMPONENTS:
        found = numpy.empty(count + 1, dtype="i8")
        _COMPONENTS(*meetings.told, count + 1, found)
        return found
    least = list(range(count + 1))

    def of(part: int) -> int:
        while least[part] != part:
            least[part] = part = least[least[part]]
        return part

    for one, other in zip(meetings.ones.tolist(), meetings.others.tolist()):
        one, other = of(one), of(other)
        least[max(one, other)] = min(one, other)
    return numpy.array([of(part) for part in range(count + 1)])


class _Light:
    """How many pixels of some parts stand above a level, and how much light they have there."""

    def __init__(self, pixels: Lit, parts: numpy.ndarray, count: int):
        chosen = numpy.zeros(count + 1, dtype=bool)
        chosen[parts] = True
        inside = chosen[pixels.labels]
        # One number for each pixel, so that they are sorted at once: its part, and the less the greater its number is.
        keys = (pixels.labels[inside].astype("i8") << 32) + (GREATEST - pixels.values[inside].astype("i8"))
        keys.sort()
        falling = (keys & (2**32 - 1)) - GREATEST
        # As Python's own arrays, since parts are asked for one by one.
        self.falling, self.sums = array.array("q", falling.tobytes()), array.array("q", bytes(8))
        self.sums.frombytes((-numpy.cumsum(falling)).tobytes())
        self.starts = numpy.searchsorted(keys >> 32, numpy.arange(count + 2)).tolist()

    def above(self, part: int, level: int) -> Tuple[int, int]:
        begin = self.starts[part]
        end = bisect.bisect_left(self.falling, -level, begin, self.starts[part + 1])
        return end - begin, self.sums[end] - self.sums[begin] - (end - begin) * level


def needed(area: int, least: float, patch: float) -> float:
    """How many deviations a part stands above where it meets one with so many pixels there."""
    return math.sqrt(least**2 + 2 * math.log(max(1.0, area / patch)))


def owners(
    meetings: Meetings, pixels: Lit, count: int, significance: AnySignificance, least: float, patch: float
) -> numpy.ndarray:
    """For each of so many parts the number of the one to which it belongs in the end: parts with less than so many
    deviations are joined with what they stand on, or with more of them where that has more than `patch` pixels.
    """
    if not _OWNERS or not isinstance(significance, Significance):
        return _owners(meetings, pixels, count, significance, least, patch)
    found, size = numpy.empty(count + 1, dtype="i8"), len(pixels.values)
    room = numpy.empty((2, size), dtype="u8"), numpy.empty((4, count + 1), dtype="i8")
    noise = significance.deviation, significance.own_noise, significance.together
    parts = components(meetings, count), count + 1
    _OWNERS(*pixels, size, *meetings.told, *parts, *noise, float(least) ** 2, patch, *room, found)
    return found


def _owners(
    meetings: Meetings, pixels: Lit, count: int, significance: AnySignificance, least: float, patch: float
) -> numpy.ndarray:
    """The same without the loop."""
    light = _Light(pixels, numpy.array([meetings.ones, meetings.others]), count)
    owner = list(range(count + 1))
    members = {part: [part] for part in owner}

    def above(group: int, level: int) -> Tuple[int, int]:
        area = flux = 0
        for part in members[group]:
            more = light.above(part, level)
            area, flux = area + more[0], flux + more[1]
        return area, flux

    for one, other, level in zip(*(it.tolist() for it in meetings)):
        one, other = owner[one], owner[other]
        if one == other:
            continue
        of_one, of_other = above(one, level), above(other, level)
        wanted = needed(max(of_one[0], of_other[0]), least, patch)
        if min(significance(*of_one, level), significance(*of_other, level)) < wanted:
            kept, gone = (one, other) if of_one[1] >= of_other[1] else (other, one)
            for part in members.pop(gone):
                owner[part] = kept
                members[kept].append(part)
    return numpy.array(owner)


def levels(meetings: Meetings, owner: numpy.ndarray) -> numpy.ndarray:
    """For each part, by number, the greatest number at which it meets another one in the end, and NONE where it meets
    none.
    """
    ones, others = owner[meetings.ones], owner[meetings.others]
    apart = numpy.flatnonzero(ones != others)[::-1]
    found = numpy.full((2, len(owner)), NONE, dtype="i8")
    # Of several numbers the last one that is written stays, which is the greatest.
    for its, parts in zip(found, (ones, others)):
        its[parts[apart]] = meetings.levels[apart]
    return found.max(axis=0)
