"""Gaussian weights that come out alike to the last digit by numpy and by the loop in C (windows.c).

numpy's own exponential function differs in its last digits from machine to machine. This one does the same steps
everywhere, each of which is rounded exactly: a number that isn't above 0 is split into a whole multiple of the
logarithm of 2, which becomes the exponent, and a rest, for which the first terms of the series are summed. That is off
by less than 1e-15 of the result.

The weight k pixels from a window's middle pixel, of which the centre lies c pixels off, has three factors: one of k
alone, the k-th power of one that c tells, and one of c alone, which is the same for the whole window.
"""
import math

import numpy

__all__ = ["Gaussians", "falling"]

# The series' factors, from the last term to the first.
TERMS = tuple(1 / math.factorial(power) for power in range(12, -1, -1))
# The logarithm of 2 in two parts, of which multiples of the first by whole numbers up to 2**23 are exact.
LN2 = (float.fromhex("0x1.62e42fep-1"), float.fromhex("0x1.f473de6af278fp-30"))
PER_LN2 = float.fromhex("0x1.71547652b82fep+0")
# A number to which this one is added is rounded to a whole one, which stands in the last bits.
ROUNDER = 1.5 * 2.0**52
# Numbers below are taken for this one; the square of the result is nearly 0 then.
LEAST = -400.0


def falling(powers: numpy.ndarray) -> numpy.ndarray:
    """The exponential function of numbers that aren't above 0."""
    rest = numpy.maximum(powers, LEAST)
    shifted = rest * PER_LN2
    shifted += ROUNDER
    whole = shifted - ROUNDER
    for part in LN2:
        rest -= whole * part
    made = numpy.full_like(rest, TERMS[0])
    for term in TERMS[1:]:
        made *= rest
        made += term
    # The whole number becomes the exponent of a power of 2.
    bits = shifted.view("u8")
    bits <<= numpy.uint64(52)
    bits += numpy.uint64(1023 << 52)
    made *= shifted
    return made


class Gaussians:
    """Gaussians of these standard deviations, a column for each, in windows that begin `reach` pixels before their
    middle pixels and are `side` long.
    """

    def __init__(self, sigma: numpy.ndarray, reach: int, side: int):
        self.sigma, self._reach, self._narrow = sigma, reach, 1 / (sigma * sigma)
        self._places = numpy.arange(-reach, side - reach, dtype="f8")[:, None, None]
        self._even = falling(-(self._places * self._places * (0.5 * self._narrow)))

    def among(self, chosen: numpy.ndarray) -> "Gaussians":
        """Those that are chosen."""
        made = Gaussians.__new__(Gaussians)
        made.sigma, made._narrow, made._even = (it[..., chosen] for it in (self.sigma, self._narrow, self._even))
        made._reach, made._places = self._reach, self._places
        return made

    def weights(self, centres: numpy.ndarray, order: int, squared: bool = False) -> numpy.ndarray:
        """The weights, or their squares, around centres that lie so far from the middles down and to the right, but for
        the factor that is the same for a window, times the places from the centre to the powers from 0 to `order`. The
        first index is that of down and right, the second the place, the third the power.
        """
        before, behind = self._reach, len(self._places) - self._reach
        made = numpy.empty((len(self._places), order + 1, *centres.shape))
        first, powers = made[:, 0], self._powers(centres, max(before + 1, behind))
        numpy.multiply(powers[:behind, 0], self._even[before:], out=first[before:])
        numpy.multiply(powers[before:0:-1, 1], self._even[:before], out=first[:before])
        if squared:
            first *= first
        if order:
            places = self._places - centres
        for power in range(order):
            numpy.multiply(made[:, power], places, out=made[:, power + 1])
        return made.transpose(2, 0, 1, 3)

    def _powers(self, centres: numpy.ndarray, count: int) -> numpy.ndarray:
        """The powers from 0 of by how much more the next weight is because of the centre, and of the inverse."""
        made = numpy.empty((count, 2, *centres.shape))
        steps, made[0], known = made[1], 1, 1
        less = falling(-(numpy.abs(centres) * self._narrow))
        steps[0] = numpy.where(centres < 0, less, 1 / less)
        numpy.divide(1, steps[0], out=steps[1])
        while known < count:
            more = min(known, count - known)
            numpy.multiply(made[:more], steps, out=made[known : known + more])
            steps, known = steps * steps, 2 * known
        return made

    def common(self, centres: numpy.ndarray) -> numpy.ndarray:
        """The factor of the weights that is the same for a window."""
        roots = falling(-(centres * centres * (0.25 * self._narrow)))
        roots *= roots
        return roots[0] * roots[1]
