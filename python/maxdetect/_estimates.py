"""The noise of an image, without steps on whole numbers."""
from typing import Optional

import numpy

from . import _sky as sky, _stored as stored
from ._nddata import AnyImage, array_of


def floats(image: numpy.ndarray, less: int = 0) -> numpy.ndarray:
    """An image less a whole number as floating-point numbers row by row, NaN where it is masked: in 32 bits where they
    hold it as it is.
    """
    values = stored.values(numpy.ma.getdata(image), less=less)
    if numpy.ma.getmask(image) is not numpy.ma.nomask:
        values[numpy.ma.getmaskarray(image)] = numpy.nan
    return values


def of_array(image: numpy.ndarray, mesh: int = 64, relative: Optional[numpy.ndarray] = None) -> sky.Sky:
    """The sky of an image that is there as an array."""
    values = floats(image)
    if values.ndim != 2 or not values.size:
        raise ValueError(f"an image has two dimensions and a pixel, not the sides {values.shape}")
    height, width = values.shape
    return sky.of(values.__getitem__, (height, width), mesh, None if relative is None else relative.__getitem__)


def noise(image: AnyImage, mesh: int = 64) -> float:
    """The standard deviation of a pixel's noise: the median over cells of the image, without their sources.

    On whole numbers it is that of the pixels as they stand, rounding and all.

    Parameters
    ----------
    image : array_like or astropy.nddata.NDData, shape (height, width)
        The image, with numbers of any kind. Pixels that are masked or not finite don't count.
    mesh : int, default: 64
        The side of the square cells, in pixels.

    Returns
    -------
    float
        The noise, in the image's units.

    Raises
    ------
    ValueError
        Where the image hasn't two dimensions, or no pixel that is defined.

    See Also
    --------
    noise_map : The same for every pixel.

    Examples
    --------
    >>> import numpy
    >>> image = numpy.random.default_rng(1).normal(100, 5, (256, 256))
    >>> round(noise(image), 1)
    5.0
    """
    return of_array(array_of(image), mesh or 64).noise


def noise_map(image: AnyImage, mesh: int = 64) -> numpy.ndarray:
    """The standard deviation of the noise of every pixel, by the cells around it.

    Parameters
    ----------
    image : array_like or astropy.nddata.NDData, shape (height, width)
        The image, with numbers of any kind. Pixels that are masked or not finite don't count.
    mesh : int, default: 64
        The side of the square cells, in pixels.

    Returns
    -------
    numpy.ndarray of float32, shape (height, width)
        The noise, in the image's units.

    Raises
    ------
    ValueError
        Where the image hasn't two dimensions, or no pixel that is defined.

    See Also
    --------
    noise : One number for the whole image.
    """
    found = of_array(array_of(image), mesh or 64)
    return found.noises(slice(0, found.shape[0]), slice(0, found.shape[1]))
