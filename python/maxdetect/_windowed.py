"""Centres of sources by a Gaussian window, as Source Extractor's XWIN and YWIN, and how far off they may be.

The window is as wide as half of a source's light: light far out, where there is more noise than light, hardly counts.
Pixels of other sources and undefined ones are taken as those on the other side of the centre. The errors follow the
noise of each pixel through the sums, with the window moving along.
"""
from typing import Dict, Optional, Tuple

import numpy

from . import _moving as moving, _stamps as stamps
from ._moving import Noise

__all__ = ["NAMES", "ellipse", "of", "reach"]

# The window's standard deviation over the radius that holds half of the light, and the least one in pixels.
WIDTH, LEAST = 2 / 2.3548, 0.8
# How many deviations the sums reach, and how many pixels at most.
REACH, MOST = 4.0, 200
NAMES = ("XWIN", "YWIN", "ERRAWIN", "ERRBWIN", "ERRTHETAWIN", "SNR_WIN")


def ellipse(xx: numpy.ndarray, yy: numpy.ndarray, xy: numpy.ndarray) -> Tuple[numpy.ndarray, ...]:
    """The standard deviations along the axes of ellipses with these variances and covariances, the longer one first,
    and the angle of that in degrees from the x axis towards the y axis.
    """
    mean, apart = (xx + yy) / 2, numpy.hypot((xx - yy) / 2, xy)
    short = numpy.sqrt(numpy.maximum(mean - apart, 0))
    return numpy.sqrt(mean + apart), short, numpy.degrees(numpy.arctan2(2 * xy, xx - yy) / 2)


def _errors(sums: numpy.ndarray, noise: numpy.ndarray, sigma: numpy.ndarray) -> Tuple[numpy.ndarray, ...]:
    """The variances of the centres along x and y, and their covariance, by the moments of the light and of the
    variance under windows.
    """
    # By how much less than the centre the light under the window moves when it does.
    light = sums / (sums[0, 0] * sigma**2)
    xx, yy = (numpy.maximum(1 - it, 0.1) for it in (light[0, 2], light[2, 0]))
    xy = -light[1, 1]
    lost = numpy.maximum(xx * yy - xy**2, 0.01) * sums[0, 0]
    a, b, c = yy / lost, xx / lost, -xy / lost
    along, across, both = noise[0, 2], noise[2, 0], noise[1, 1]
    return (
        a * a * along + 2 * a * c * both + c * c * across,
        c * c * along + 2 * b * c * both + b * b * across,
        a * c * along + (a * b + c * c) * both + b * c * across,
    )


def _width(half: numpy.ndarray) -> numpy.ndarray:
    """The windows' standard deviations by the radii that hold half of the light."""
    return numpy.clip(WIDTH * numpy.nan_to_num(half), LEAST, MOST / REACH)


def reach(half: numpy.ndarray) -> numpy.ndarray:
    """How many pixels from their middles sources are looked at, by the radii that hold half of their light."""
    return numpy.ceil(REACH * _width(half)).astype("i8")


def of(
    residual: numpy.ndarray,
    noise: Noise,
    gain: Optional[float],
    undefined: numpy.ndarray,
    segments: numpy.ndarray,
    numbers: numpy.ndarray,
    x: numpy.ndarray,
    y: numpy.ndarray,
    half: numpy.ndarray,
) -> Dict[str, numpy.ndarray]:
    """The windowed centres of sources with these numbers in a map, and their error ellipses, all in pixels, counted
    from 0; angles in degrees; and the signal over the noise under the window.

    `residual` is the image less its background, `noise` that of its pixels, `gain` in electrons for a unit of it;
    (x, y) are where to begin, and `half` the radii that hold half of the light. Where there is no light under the
    window, or its centre lies further off than the window is wide, the centre is NaN.
    """
    sigma, start, within = _width(half), numpy.array([y, x], dtype="f8"), reach(half)
    sources = moving.Sources(
        residual=numpy.ascontiguousarray(residual, dtype="f4"),
        undefined=numpy.ascontiguousarray(undefined, dtype="?"),
        segments=numpy.ascontiguousarray(segments, dtype="i4"),
        numbers=numpy.ascontiguousarray(numbers, dtype="i4"),
        start=start,
        middles=stamps.middles((y, x), within, residual.shape),
        sigma=sigma,
        reach=within,
    )
    with numpy.errstate(invalid="ignore", divide="ignore", over="ignore", under="ignore"):
        found = sources.found(noise, gain)
        known = (found.last <= moving.STILL) & (moving.length(found.centres - start) < sigma)
        errors = ellipse(*_errors(found.light, found.variance, sigma))
        signal = found.light[0, 0] / numpy.sqrt(found.variance[0, 0])
    made = {name: numpy.where(known, it, numpy.nan) for name, it in zip(NAMES, (*found.centres[::-1], *errors))}
    return {**made, "SNR_WIN": numpy.where(numpy.isnan(signal), numpy.nan, signal)}
