"""Images of whole numbers as the programs take them: looked at some rows at a time, and as FITS files."""
import operator
from typing import Any, Iterator, Optional, Tuple, Union

import numpy
from astropy.io import fits

__all__ = ["AT_ONCE", "LEAST", "MOST_PIXELS", "MOST_SIDE", "WIDE_VALUE", "fits_of", "fits_of_stored"]
__all__ += ["header_of_stored", "is_too_large", "parts", "undefined_of", "value_range", "whole_number", "whole_numbers"]

# How many pixels maxdetect takes, and maxwide; how many on a side; and how far from 0 values lie in an image with no
# more than maxdetect takes, and in larger ones.
MOST_PIXELS, WIDE_PIXELS, MOST_SIDE = 2**24, 2**31 - 1, 65535
MOST_VALUE, WIDE_VALUE = 2**36, 2**29

# So many rows of an image are looked at at a time.
AT_ONCE = 256

# A file, some bytes at a time.
Pieces = Iterator[Union[bytes, numpy.ndarray]]

# Stands for an undefined pixel among 32-bit numbers.
LEAST = -(2**31)


def whole_number(name: str, value: Any) -> int:
    """An option's value, which has to be a whole number."""
    try:
        return operator.index(value)
    except TypeError:
        raise TypeError(f"{name} is a whole number, not {value!r}") from None


def undefined_of(image: numpy.ndarray, blank: Optional[int]) -> Optional[numpy.ndarray]:
    """Which pixels of an image, or of some of its rows, are undefined (None: none is)."""
    mask = numpy.ma.getmask(image)
    undefined = None if mask is numpy.ma.nomask or not mask.any() else mask
    if blank is None:
        return undefined
    at_blank = numpy.ma.getdata(image) == whole_number("blank", blank)
    return at_blank if undefined is None else undefined | at_blank


def whole_numbers(image: numpy.ndarray) -> numpy.ndarray:
    """An image as an array of whole numbers with two dimensions, which it has to be."""
    image = numpy.asanyarray(image)
    if image.ndim != 2:
        raise ValueError(f"an image has two dimensions, not {image.ndim}")
    if image.dtype.kind not in "iu":
        raise TypeError(f"an image has whole numbers, not {image.dtype}; maxdetect.scaling makes some of others")
    return image


def is_too_large(image: numpy.ndarray) -> bool:
    """No program takes an image of this size."""
    return max(numpy.shape(image)) > MOST_SIDE or numpy.size(image) > WIDE_PIXELS


def parts(image: numpy.ndarray, blank: Optional[int]) -> Iterator[Tuple[numpy.ndarray, Optional[numpy.ndarray]]]:
    """The values of an image, some rows at a time, and which of them are undefined (None: none is)."""
    for top in range(0, len(image), AT_ONCE):
        rows = image[top : top + AT_ONCE]
        yield numpy.ma.getdata(rows), undefined_of(rows, blank)


def value_range(image: numpy.ndarray, blank: Optional[int], pixels: int = 0) -> Tuple[int, int]:
    """The least and the greatest defined value of an image, or 0 and 0. For maxwide `pixels` says how many it has, or
    the one of which it is a window.
    """
    ends = []
    for values, undefined in parts(image, blank):
        defined = values if undefined is None else values[~undefined]
        ends += [int(defined.min()), int(defined.max())] if defined.size else []
    low, high = min(ends, default=0), max(ends, default=0)
    most = WIDE_VALUE if pixels > MOST_PIXELS else MOST_VALUE
    if low < -most or high > most:
        raise ValueError(f"the values from {low} to {high} lie too far from 0")
    return low, high


def _forms(low):
    """For each size of stored numbers: how many bits they have, the least of them, and the BZERO that puts the value
    `low` right above it.
    """
    for bits in (8, 16, 32):
        least = 0 if bits == 8 else -(2 ** (bits - 1))
        yield bits, least, min(max(low - least - 1, -(2**32)), 2**32)
    yield 64, -(2**63), 0


def fits_of(image: numpy.ndarray, blank: Optional[int], extension: bool = False, pixels: int = 0) -> Pieces:
    """An image as pieces of a FITS file, or of an extension behind one; `pixels` as in `value_range`.

    The stored numbers are the values less BZERO, in as few bytes as their range needs; the least stored number is
    BLANK. In 64 bits BZERO is 0. Of an image that no program takes there is the header alone.
    """
    image, too_large = whole_numbers(image), is_too_large(image)
    low, high = (0, 0) if too_large else value_range(image, blank, pixels)
    bits, least, zero = next(
        form
        for form in _forms(low)
        if form[0] == 64 or form[1] < low - form[2] and high - form[2] < form[1] + 2 ** form[0]
    )
    yield _header(image.shape, bits, extension, BSCALE=1, BZERO=zero, BLANK=least)
    if too_large:
        return
    for values, undefined in parts(image, blank):
        # Values and BZERO fit 64 bits; an undefined pixel may have any value.
        shifted = values.astype("i8") - zero if zero else values
        stored = shifted.astype("u1" if bits == 8 else f">i{bits // 8}", order="C")
        if undefined is not None:
            stored[undefined] = least
        yield stored.reshape(-1).view("u1")
    yield bytes(-(bits // 8 * image.size) % 2880)


def fits_of_stored(stored: numpy.ndarray) -> Pieces:
    """The same of 32-bit numbers as they are to be stored, the least of them for an undefined pixel."""
    yield header_of_stored(stored.shape)
    # Some rows at a time, since a copy of all of them would stand beside the program.
    for top in range(0, len(stored), AT_ONCE):
        yield stored[top : top + AT_ONCE].astype(">i4", order="C").reshape(-1).view("u1")
    yield bytes(-4 * stored.size % 2880)


def header_of_stored(shape) -> bytes:
    """The header of an image of 32-bit numbers with these sides, the least of them for an undefined pixel."""
    return _header(shape, 32, BLANK=LEAST)


def _header(shape, bits, extension=False, **more):
    """The header of an image with these sides, and more cards."""
    height, width = shape
    cards = [("XTENSION", "IMAGE") if extension else ("SIMPLE", True), ("BITPIX", bits), ("NAXIS", 2)]
    cards += [("NAXIS1", width), ("NAXIS2", height), *([("PCOUNT", 0), ("GCOUNT", 1)] if extension else [])]
    return fits.Header([*cards, *more.items()]).tostring().encode("ascii")
