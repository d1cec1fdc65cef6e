"""From floating-point numbers to the whole numbers that the program reads: a thirtieth of the noise each."""
import math
from typing import Optional, Tuple, Union

import numpy

from ._estimates import floats, of_array
from ._loops import Loop, array, number, whole
from ._nddata import AnyImage, array_of
from ._wholenumbers import WIDE_VALUE

__all__ = ["BLANK", "SIGMA", "deviations", "prepared", "smoothed", "threshold", "whole_numbers"]

SIGMA = 30
BLANK = -(2**31)
# Values are cut here, as far from 0 as a large image's may lie: at 18 million deviations of the noise.
GREATEST = WIDE_VALUE
KERNEL = (1, 2, 1)

# Scaled numbers, how many they are, how many times they are taken, the greatest whole number, and the whole numbers.
_LOOP = Loop("stored_numbers", array("f4"), whole, number, number, array(">i4"))


def threshold(sigmas: float) -> int:
    """The program's threshold for so many deviations of the noise, in an image that `prepared` made.

    Parameters
    ----------
    sigmas : float
        The deviations of the noise.

    Returns
    -------
    int
        The threshold, in thirtieths of the noise.
    """
    return math.ceil(sigmas * SIGMA)


def _along(image: numpy.ndarray, axis: int) -> numpy.ndarray:
    """The sums over three neighbours along one axis, weighted 1 2 1; beyond the edge is nothing."""
    total = image * image.dtype.type(KERNEL[1])
    across = (slice(None),) * axis
    before, behind = (*across, slice(None, -1)), (*across, slice(1, None))
    total[before] += image[behind]
    total[behind] += image[before]
    return total


def smoothed(image: numpy.ndarray) -> numpy.ndarray:
    """The mean of each pixel and its neighbours that are finite, weighted 1 2 1 / 2 4 2 / 1 2 1.

    Parameters
    ----------
    image : numpy.ndarray of float, shape (height, width)
        The image.

    Returns
    -------
    numpy.ndarray of float, shape (height, width)
        The means; a pixel that isn't finite is NaN.
    """
    finite = numpy.isfinite(image)
    filled = image if finite.all() else numpy.where(finite, image, image.dtype.type(0))
    total = _along(_along(filled, 0), 1)
    with numpy.errstate(invalid="ignore"):
        total /= _along(_along(finite.astype(image.dtype), 0), 1)
    total[~finite] = numpy.nan
    return total


def whole_numbers(scaled: numpy.ndarray) -> numpy.ma.MaskedArray:
    """The nearest whole numbers; what isn't finite is masked.

    Parameters
    ----------
    scaled : numpy.ndarray of float, shape (height, width)
        The numbers. They are changed in place.

    Returns
    -------
    numpy.ma.MaskedArray of int32, shape (height, width)
        The whole numbers.
    """
    undefined = ~numpy.isfinite(scaled)
    some = undefined.any()
    if some:
        scaled[undefined] = 0
    numpy.rint(scaled, out=scaled)
    # That of all is told much sooner than each is cut.
    if scaled.size and max(-scaled.min(), scaled.max()) > GREATEST:
        numpy.clip(scaled, -GREATEST, GREATEST, out=scaled)
    return numpy.ma.MaskedArray(scaled.astype("i4"), mask=undefined if some else numpy.ma.nomask)


def put_whole_numbers(numbers: numpy.ndarray, scaled: numpy.ndarray, times: float) -> None:
    """Puts the nearest whole numbers of so many times the scaled ones, which are 32-bit floating-point numbers row by
    row, where the program reads them: BLANK for what isn't finite. The scaled ones may be changed in place.
    """
    if _LOOP:
        _LOOP(scaled, scaled.size, times, GREATEST, numbers)
        return
    scaled *= numpy.float32(times)
    numbers[...] = whole_numbers(scaled).filled(BLANK)


def deviations(
    image: numpy.ndarray, background: Union[float, numpy.ndarray], noise: Union[float, numpy.ndarray], times: float = 1
) -> numpy.ndarray:
    """What stands above the background, in parts of the noise.

    Parameters
    ----------
    image : array_like, shape (height, width)
        The image.
    background : float or array_like, shape (height, width)
        The background, in the image's units.
    noise : float or array_like, shape (height, width)
        The noise, in the image's units.
    times : float, default: 1
        How many parts a deviation of the noise has.

    Returns
    -------
    numpy.ndarray of float32, shape (height, width)
        The deviations; pixels whose value or noise isn't defined aren't finite.
    """
    scaled = numpy.subtract(image, background, dtype="f4" if numpy.asarray(image).dtype == "f4" else "f8")
    scaled = scaled.astype("f4", copy=False)
    with numpy.errstate(divide="ignore", invalid="ignore"):
        scaled *= (times / numpy.asarray(noise)).astype("f4", copy=False)
    return scaled


def prepared(
    image: AnyImage, smooth: bool = False, mesh: Optional[int] = 64
) -> Tuple[numpy.ma.MaskedArray, float, float]:
    """An image in whole numbers whose noise is 30, for the program.

    The sky is left in, so that the program can take its own background off.

    Parameters
    ----------
    image : array_like or astropy.nddata.NDData, shape (height, width)
        The image; it is undefined where it is NaN or masked.
    smooth : bool, default: False
        Smooths it by 1 2 1 / 2 4 2 / 1 2 1.
    mesh : int, default: 64
        The side of the square cells by which the noise is told, in pixels.

    Returns
    -------
    image : numpy.ma.MaskedArray of int32, shape (height, width)
        The whole numbers, masked where the image isn't defined.
    zero : float
        The number that was taken off, in the image's units.
    scale : float
        How many of the whole numbers a unit of the image is.

    Raises
    ------
    ValueError
        Where the image has no noise to scale by.
    """
    values = array_of(image)
    found = of_array(values, mesh or 64)
    if not found.noise > 0:
        raise ValueError("the image has no noise to scale by")
    scaled = deviations(floats(values), found.zero, found.noise, SIGMA)
    return whole_numbers(smoothed(scaled) if smooth else scaled), found.zero, SIGMA / found.noise
