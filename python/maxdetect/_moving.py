"""Gaussian windows that move with the light of sources until they stand still, and the moments of what is under them.

Where the loop in C is compiled (windows.c) it does all of this; numpy gives the same numbers to the last digit, by
batches of windows that have the sources last.
"""
from typing import NamedTuple, Optional, Tuple, Union

import numpy

from . import _stamps as stamps
from ._loops import Loop, array, flag, number, whole
from ._weights import Gaussians

__all__ = ["STILL", "Found", "Noise", "Sources", "length"]

# The centre moves until it does so by less than this many pixels, or is given up after so many steps.
STILL, STEPS = 1e-4, 40
# Those that stand still are taken out when no more than this part is left.
LEFT = 0.7
# How many different reaches windows of a batch have, next to each other: numpy takes long to begin with a batch.
ALIKE = 2
# The powers of places that moments have, and how many sums along a window's side are made beside each other.
POWERS, STRANDS = (0, 1, 2), 4

Noise = Union[float, numpy.ndarray]

_LOOP = Loop(
    "windows",
    *(array("f4"), array("f4"), flag, number, number, array("?"), array("i4"), whole, whole),
    *(array("i4"), array("i8"), array("f8"), array("i8"), whole, whole, whole, number),
    *(array("f8"), array("f8"), array("f8"), array("f8")),
)


class Found(NamedTuple):
    """Centres, rows and columns, of the light under windows that moved until they stood still, how far each went in its
    last step, infinity where in none, and the moments of the light and of the pixels' variance there: sums over windows
    times the places down and to the right of the centre to the powers that the first and the second index say, which
    are 2 together at most. Arrays have the sources last.
    """

    centres: numpy.ndarray
    last: numpy.ndarray
    light: numpy.ndarray
    variance: numpy.ndarray


def length(sides: numpy.ndarray) -> numpy.ndarray:
    """How long steps down and to the right are; `numpy.hypot` isn't the same everywhere."""
    down, right = sides
    return numpy.sqrt(down * down + right * right)


def _filled(side):
    """A length up to the next multiple of STRANDS."""
    return -(-side // STRANDS) * STRANDS


def _summed(numbers: numpy.ndarray, factors: numpy.ndarray) -> numpy.ndarray:
    """The sums of numbers times factors along the first side: of each STRANDS-th number first, one after the other, and
    then of these sums, the first with the third, the second with the fourth, and both, as the loop in C does.
    """
    sums = numbers[:STRANDS] * factors[:STRANDS]
    products = numpy.empty_like(sums)
    for first in range(STRANDS, len(numbers), STRANDS):
        numpy.multiply(numbers[first : first + STRANDS], factors[first : first + STRANDS], out=products)
        sums += products
    pairs = sums[:2] + sums[2:]
    return pairs[0] + pairs[1]


def _moments(values: numpy.ndarray, rows: numpy.ndarray, columns: numpy.ndarray) -> numpy.ndarray:
    """The sums over windows of values times the weights of their rows and columns, for each two powers of these."""
    sums = _summed(values[:, None], rows[:, :, None])
    return _summed(sums.swapaxes(0, 1)[:, :, None], columns[:, None])


class _Batch:
    """Windows of sources, with the sources last: the light, and what moves over it."""

    def __init__(self, found: stamps.Stamps, sigma: numpy.ndarray, reach: numpy.ndarray):
        half = found.rows.shape[1] // 2
        self.found, self.reach = found, reach
        self.mirrored = self._mirrored()
        self.values = self.square(self.mirrored)
        self.middles = numpy.array([found.rows[:, half], found.columns[:, half]], dtype="f8")
        self.gaussians = Gaussians(sigma, _filled(half), len(self.values))

    def _mirrored(self) -> numpy.ndarray:
        """The values, with those of the other side of the middle where a pixel isn't the source's own or sky."""
        values, own = self.found.values, self.found.own
        if own.all():
            return values
        return numpy.where(own, values, numpy.where(own[:, ::-1, ::-1], values[:, ::-1, ::-1], 0))

    def square(self, windows: numpy.ndarray) -> numpy.ndarray:
        """Windows in 64 bits, 0 where a source's own doesn't reach and around, so that the middle is a multiple of
        STRANDS, and the side too.
        """
        half = windows.shape[1] // 2
        before = _filled(half)
        side, own = before + _filled(half + 1), slice(before - half, before + half + 1)
        made = numpy.zeros((side, side, len(windows)))
        made[own, own] = numpy.moveaxis(windows, 0, -1)
        if (self.reach < half).any():
            beyond = numpy.abs(numpy.arange(side) - before)[:, None] > self.reach
            numpy.copyto(made, 0, where=beyond[:, None] | beyond)
        return made

    def variance(self, noise: Noise, gain: Optional[float]) -> numpy.ndarray:
        """That of the pixels' noise, with the light's own where the gain is known."""
        each = noise if numpy.ndim(noise) == 0 else self.found.taken(numpy.asarray(noise))
        even, light = numpy.asarray(each, dtype="f8") ** 2, self.mirrored.astype("f8")
        return self.square(
            even + numpy.maximum(light, 0) * (1 / gain) if gain else numpy.broadcast_to(even, light.shape)
        )

    def moved(self, start: numpy.ndarray) -> Tuple[numpy.ndarray, numpy.ndarray]:
        """The centres, by where they start, and how far they moved in their last steps."""
        values, middles, gaussians, at = self.values, self.middles, self.gaussians, numpy.arange(start.shape[1])
        centres, last = start.copy(), numpy.full(len(at), numpy.inf)
        now, lengths, moving = start.copy(), last.copy(), numpy.ones(len(at), dtype=bool)
        for _ in range(STEPS):
            sums = _moments(values, *gaussians.weights(now - middles, 1))
            light = sums[0, 0]
            step = 2 * numpy.array([sums[1, 0], sums[0, 1]]) / light
            far = length(step)
            moving &= (light > 0) & (length(now - start) < gaussians.sigma)
            numpy.add(now, step, out=now, where=moving)
            numpy.copyto(lengths, far, where=moving)
            moving &= far > STILL
            left = numpy.count_nonzero(moving)
            if left <= LEFT * len(at):
                centres[:, at], last[at] = now, lengths
                if not left:
                    break
                gaussians = gaussians.among(moving)
                at, values, middles, lengths, start, now = (
                    it[..., moving] for it in (at, values, middles, lengths, start, now)
                )
                moving = numpy.ones(left, dtype=bool)
        else:
            centres[:, at], last[at] = now, lengths
        return centres, last


class Sources(NamedTuple):
    """An image less its background, where it is undefined and its map, and sources: their numbers there, where they
    begin and their middle pixels, rows and columns, their windows' standard deviations, and how many pixels these reach
    from their middles. Arrays lie row by row, in 32 bits those of the image, of its map and of the numbers.
    """

    residual: numpy.ndarray
    undefined: numpy.ndarray
    segments: numpy.ndarray
    numbers: numpy.ndarray
    start: numpy.ndarray
    middles: numpy.ndarray
    sigma: numpy.ndarray
    reach: numpy.ndarray

    def found(self, noise: Noise, gain: Optional[float]) -> Found:
        """Where the light is, with the noise of pixels and the electrons for a unit of the image."""
        return self._by_loop(noise, gain) if _LOOP else self._by_batches(noise, gain)

    def _by_batches(self, noise: Noise, gain: Optional[float]) -> Found:
        """What numpy finds."""
        shape = (len(POWERS), len(POWERS), len(self.numbers))
        made = Found(self.start.copy(), numpy.full(len(self.numbers), numpy.inf), *numpy.zeros((2, *shape)))
        shared = -(-self.reach // ALIKE) * ALIKE
        for found in stamps.batches(*self[:4], (self.middles[0], self.middles[1]), shared):
            at = found.places
            batch = _Batch(found, self.sigma[at], self.reach[at])
            made.centres[:, at], made.last[at] = batch.moved(self.start[:, at])
            off = made.centres[:, at] - batch.middles
            common = batch.gaussians.common(off)
            made.light[..., at] = _moments(batch.values, *batch.gaussians.weights(off, 2)) * common
            rows, columns = batch.gaussians.weights(off, 2, True)
            made.variance[..., at] = _moments(batch.variance(noise, gain), rows, columns) * (common * common)
        return made

    def _by_loop(self, noise: Noise, gain: Optional[float]) -> Found:
        """The same by the loop in C."""
        count, each = len(self.numbers), numpy.ndim(noise) > 0
        most = int(self.reach.max(initial=0))
        side = _filled(most) + _filled(most + 1)
        room = numpy.empty((2 * side + 10) * side + side * side // 8)
        centres, last = self.start.copy(), numpy.full(count, numpy.inf)
        moments = numpy.zeros((count, 2, len(POWERS), len(POWERS)))
        noises, even = (noise, 0) if each else (numpy.empty(0), noise)
        _LOOP(
            *(self.residual, numpy.ascontiguousarray(noises, dtype="f4"), each, even, 1 / gain if gain else 0),
            *(self.undefined, self.segments, *self.residual.shape),
            *(self.numbers, self.middles, self.sigma, self.reach, count, most, STEPS, STILL),
            *(room, centres, last, moments),
        )
        return Found(centres, last, *numpy.moveaxis(moments, 0, -1))
