"""Columns of a source beside its fluxes: centres with errors, sizes, peaks, and its pixels.

Where the loops in C are compiled (shapes.c) they go through the sources' pixels; numpy gives the same numbers to the
last digit.
"""
from typing import Dict, NamedTuple, Optional, Sequence, Tuple

import numpy

from . import _smoothing as smoothing, _stamps as stamps, _windowed as windowed
from ._loops import Loop, array, flag, number, whole
from ._pointlike import PointSources
from ._rows import Rows
from ._windows import rows_and_columns

__all__ = ["Scene", "Seen", "columns", "stellarity"]

# So many times the point sources' diameter is as like a star as like something wider, and how steep the step is there.
WIDER, STEEP = 1.15, 20

# An image, places and numbers of some of its pixels, and how many they are.
_OWN = array("f4"), array("i8"), array("i8"), whole
# A place that none is, and how long a list by number is; values, and places.
_PEAKS = Loop("peaks", *_OWN, whole, whole, array("f8"), array("i8"))
# The image's width; rows and columns of centres by number, and how long such a list is; whether there is a gain, and
# which; whether the noise is that of each pixel, its square if not, and the noise; and the sums.
_CENTRE_SUMS = Loop(
    "centre_sums",
    *(*_OWN, whole),
    *(array("f8"), whole, flag, number, flag, number, array("f4")),
    array("f8"),
)


class Scene(NamedTuple):
    """An image less its background, the noise of its pixels (one number, or an array), the electrons for a unit of it,
    where it is undefined, and its map without gaps.
    """

    residual: numpy.ndarray
    noise: windowed.Noise
    gain: Optional[float]
    undefined: numpy.ndarray
    segments: numpy.ndarray


class Seen(NamedTuple):
    """How the program saw the image: what one of its whole numbers is in deviations of a pixel's noise, where the
    smoothing leaves the light as it is; the width of the Gaussian that smoothed it; and whether it is the image that is
    measured in.
    """

    scale: float
    smooth: float
    same: bool


def stellarity(diameter: numpy.ndarray, points: Optional[PointSources]) -> numpy.ndarray:
    """From 1 for what is as wide as point sources, or narrower, to 0 for what is wider; NaN where nothing is known of
    point sources.
    """
    if points is None:
        return numpy.full(len(diameter), numpy.nan)
    with numpy.errstate(over="ignore"):
        return 1 / (1 + (diameter / (WIDER * points.half)) ** STEEP)


def _peaks(residual: numpy.ndarray, pixels) -> Tuple[numpy.ndarray, numpy.ndarray, numpy.ndarray]:
    """The greatest value of each source's pixels, by number, NaN where it has none, with its column and row, from 1, or
    0 where there is none.
    """
    if not _PEAKS:
        return _peaks_of(residual.ravel()[pixels.places].astype("f8"), pixels)
    peak, at = numpy.empty(pixels.length), numpy.empty(pixels.length, dtype="i8")
    # What lies a row above the image has the row 0, counted from 1.
    _PEAKS(*_own(residual, pixels), -pixels.width - 1, pixels.length, peak, at)
    rows, columns = rows_and_columns(at, pixels.width)
    has_one = at >= 0
    return peak + 0.0, ((columns + 1) * has_one).astype("i4"), ((rows + 1) * has_one).astype("i4")


def _own(residual: numpy.ndarray, pixels) -> Tuple[numpy.ndarray, numpy.ndarray, numpy.ndarray, int]:
    """What loops are told of the sources' pixels."""
    places, numbers = (numpy.ascontiguousarray(it, dtype="i8") for it in (pixels.places, pixels.numbers))
    return numpy.ascontiguousarray(residual), places, numbers, len(places)


def _peaks_of(values: numpy.ndarray, pixels) -> Tuple[numpy.ndarray, numpy.ndarray, numpy.ndarray]:
    """The same without the loop, of these values of the pixels."""
    numbers, length = pixels.numbers, pixels.length
    peak, at = numpy.full(length, numpy.nan), numpy.zeros((2, length), dtype="i4")
    # Short numbers are sorted in one pass.
    order = numpy.argsort(numbers.astype("u2") if length <= 2**16 else numbers, kind="stable")
    starts = numpy.flatnonzero(numpy.diff(numbers[order], prepend=-1))
    peak[numbers[order[starts]]] = numpy.maximum.reduceat(values[order], starts) if starts.size else numpy.nan
    # Of several places the last one that is written stays, which is the first.
    greatest = numpy.flatnonzero(values == peak[numbers])[::-1]
    at[:, numbers[greatest]] = numpy.array([it[greatest] for it in pixels.at]) + 1
    # Of two zeros each may be the greatest, with a sign or without one.
    return peak + 0.0, at[1], at[0]


def _narrower(area: numpy.ndarray, smooth: float) -> numpy.ndarray:
    """Which part of a centre's variance is left in an image that is smoothed: about what is for a Gaussian weight."""
    return (area / (area + smoothing.correlated(smooth))) ** 2


def _centre_sums(scene: Scene, gain: Optional[float], pixels, centres: numpy.ndarray) -> Sequence[numpy.ndarray]:
    """The sums over each source's pixels, by number, of their variances over the sky's times the squares of what they
    lie right of and below its centre, and times both. `centres` are rows and columns, by number.
    """
    if not _CENTRE_SUMS:
        return _centre_sums_by_numpy(scene, gain, pixels, centres)
    sums, each = numpy.zeros((3, pixels.length)), numpy.ndim(scene.noise) > 0
    even, noise = (0.0, scene.noise) if each else (scene.noise**2 if gain else 0.0, numpy.empty(0))
    noises = each, even, numpy.ascontiguousarray(noise, dtype="f4")
    _CENTRE_SUMS(
        *(*_own(scene.residual, pixels), pixels.width),
        *(numpy.ascontiguousarray(centres), pixels.length, bool(gain), gain or 0, *noises),
        sums,
    )
    return tuple(sums)


def _centre_sums_by_numpy(
    scene: Scene, gain: Optional[float], pixels, centres: numpy.ndarray
) -> Sequence[numpy.ndarray]:
    """The same without the loop."""
    down, right = (at - mid[pixels.numbers] for at, mid in zip(pixels.at, centres))
    variance = numpy.ones(len(pixels.places))
    if gain:
        noise = scene.noise if numpy.ndim(scene.noise) == 0 else numpy.asarray(scene.noise).ravel()[pixels.places]
        light = numpy.maximum(scene.residual.ravel()[pixels.places], 0).astype("f8")
        with numpy.errstate(divide="ignore", invalid="ignore"):
            more = light / gain / noise**2
        # numpy takes much longer to look for each kind of number than for all.
        variance += more if numpy.isfinite(more).all() else numpy.nan_to_num(more, posinf=0)
    return [pixels.summed(variance * it) for it in (right**2, down**2, right * down)]


def _of_centres(scene: Scene, seen: Seen, pixels, catalogue: Rows) -> Dict[str, numpy.ndarray]:
    """The error ellipses of X and Y, the means over a source's pixels weighted by what stands above its base."""
    numbers = numpy.asarray(catalogue["NUMBER"])
    centre = numpy.zeros((2, pixels.length))
    for axis, name in enumerate(("YCEN", "XCEN")):
        centre[axis, numbers] = numpy.asarray(catalogue[name]) / 1000 - 1
    area = numpy.asarray(catalogue["AREA"], dtype="f8")
    factor = _narrower(area, seen.smooth) / (numpy.asarray(catalogue["FLUX"], dtype="f8") * seen.scale) ** 2
    sums = [it[numbers] * factor for it in _centre_sums(scene, scene.gain if seen.same else None, pixels, centre)]
    return dict(zip(("ERRA", "ERRB", "ERRTHETA"), windowed.ellipse(*sums)))


def columns(scene: Scene, seen: Optional[Seen], pixels, catalogue: Rows, half: numpy.ndarray, vignet: int) -> Rows:
    """The columns of sources beside their fluxes, in the units of the residual. `pixels` are the sources' own that have
    a value, `half` the radii that hold half of their light, and `vignet` the side of the vignets, or 0.
    """
    numbers = numpy.asarray(catalogue["NUMBER"], dtype="i4")
    x, y = (numpy.asarray(catalogue[f"{axis}CEN"], dtype="f8") / 1000 - 1 for axis in "XY")
    found = windowed.of(*scene, numbers, x, y, half)
    made = Rows({} if seen is None else _of_centres(scene, seen, pixels, catalogue))
    known = numpy.isfinite(found["XWIN"])
    for name, place in (("XWIN", x), ("YWIN", y)):
        made[name] = numpy.where(known, found[name], place) + 1
    for name in ("ERRAWIN", "ERRBWIN", "ERRTHETAWIN"):
        plain = name.removesuffix("WIN")
        made[name] = numpy.where(known, found[name], made[plain] if plain in made.colnames else numpy.nan)
    made["SNR_WIN"] = found["SNR_WIN"]
    for name, column in zip(("FLUX_MAX", "XPEAK", "YPEAK"), _peaks(scene.residual, pixels)):
        made[name] = column[numbers]
    if vignet:
        made["VIGNET"] = stamps.vignets(scene.residual, scene.undefined, scene.segments, numbers, (y, x), vignet)
    return made
