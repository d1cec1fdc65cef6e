"""The numbers of an image as they stand in its file, and the values that they stand for.

astropy applies BLANK to some forms of a file and not to others, and adds BZERO in floating point. So every form is
read as it is stored, and one function makes the values of all of them.
"""
import dataclasses
import os
from typing import Optional, Tuple, Union

import numpy
from astropy.io import fits

from . import _cards as cards, _compressed as compressed
from ._loops import Loop, array, whole

__all__ = ["Meaning", "mapped", "meaning", "origin", "raw", "reads_rows", "rows_of_file", "sums", "values"]

# Whole numbers up to this one have no rounding in 32 bits of floating point, and in 64.
EXACT_32, EXACT_64 = 2**24, 2**53

# An open file, the place of the first byte, how many bytes a row has there, rows, columns, the bytes of a number, the
# numbers as bytes, and what failed.
_READ_ROWS = Loop("read_rows", *[whole] * 6, array("u1"), array("i4"))


@dataclasses.dataclass(frozen=True)
class Meaning:
    """What the stored numbers stand for: `scale` times the number, and `zero`; for whole numbers `blank` stands for no
    value.
    """

    scale: float = 1
    zero: Union[int, float] = 0
    blank: Optional[int] = None

    @property
    def is_whole(self) -> bool:
        """Whole numbers stand for whole numbers."""
        return self.scale == 1 and self.zero == int(self.zero)


def meaning(hdu) -> Meaning:
    """That of an image's HDU that astropy has opened, before it has read its data. Raises ValueError with the card
    that is wrong.
    """
    scale, zero = cards.number(hdu.header, "BSCALE"), cards.number(hdu.header, "BZERO")
    if scale == 0:
        raise ValueError("BSCALE is 0")
    whole = hdu.header["BITPIX"] > 0
    return Meaning(1 if scale is None else scale, 0 if zero is None else zero, _blank(hdu) if whole else None)


def _blank(hdu) -> Optional[int]:
    """BLANK of whole numbers; in a compressed image ZBLANK, where its table has one, comes first."""
    blank = None
    if isinstance(hdu, fits.CompImageHDU):
        # The image's header hasn't the table's own cards.
        table = compressed.table_header(hdu)
        columns = range(1, int(cards.number(table, "TFIELDS") or 0) + 1)
        if any(str(table.get(f"TTYPE{column}")).strip().upper() == "ZBLANK" for column in columns):
            raise ValueError("a column ZBLANK of compressed whole numbers isn't read")
        blank = cards.number(table, "ZBLANK")
    blank = cards.number(hdu.header, "BLANK") if blank is None else blank
    if blank is not None and blank != int(blank):
        raise ValueError(f"BLANK isn't a whole number: {blank}")
    return None if blank is None else int(blank)


def raw(hdu) -> Optional[numpy.ndarray]:
    """The stored numbers of an HDU that astropy opened with `do_not_scale_image_data`, compressed or not."""
    if isinstance(hdu, fits.CompImageHDU):
        compressed.check(hdu)
        # astropy scales compressed images all the same.
        hdu._orig_bscale, hdu._orig_bzero = 1, 0
    return hdu.data


def reads_rows() -> bool:
    """`rows_of_file` makes an array of its own."""
    return bool(_READ_ROWS)


def mapped(
    path: str, dtype: numpy.dtype, offset: int, shape: Tuple[int, int], columns: slice = slice(None)
) -> numpy.ndarray:
    """Some columns of numbers that stand in a file row by row, from a byte on, as a part of the file that is mapped:
    what isn't looked at isn't read. Raises OSError or ValueError where it can't be read.
    """
    return numpy.memmap(path, dtype, "r", offset, shape)[:, columns]


def rows_of_file(
    path: str, dtype: numpy.dtype, offset: int, shape: Tuple[int, int], columns: slice = slice(None)
) -> numpy.ndarray:
    """The same as an array of its own, in this machine's order of bytes, where there are loops."""
    begin, end, step = columns.indices(shape[1])
    if not _READ_ROWS or not shape[0] or end <= begin or step != 1:
        return mapped(path, dtype, offset, shape, columns)
    found, failed = numpy.empty((shape[0], end - begin), dtype=dtype.newbyteorder("=")), numpy.zeros(1, dtype="i4")
    size = dtype.itemsize
    file = os.open(path, os.O_RDONLY | os.O_CLOEXEC)
    try:
        as_bytes = found.reshape(-1).view("u1")
        _READ_ROWS(file, offset + size * begin, size * shape[1], *found.shape, size, as_bytes, failed)
    finally:
        os.close(file)
    if failed[0] > 0:
        raise OSError(int(failed[0]), os.strerror(int(failed[0])))
    if failed[0]:
        raise ValueError(f"it ends before byte {offset + size * shape[0] * shape[1]}")
    return found


def sums(stored: numpy.ndarray, zero: int, blank: Optional[int] = None) -> numpy.ndarray:
    """Whole numbers and `zero`, in 64 bits, without a sign where they reach beyond 2^63; those that are `blank` may
    become any number. Raises ValueError where 64 bits don't hold the others.
    """
    defined = stored if blank is None else stored[stored != blank]
    low, high = (int(defined.min()) + zero, int(defined.max()) + zero) if defined.size else (0, 0)
    if low < -(2**63) or high >= (2**63 if low < 0 else 2**64):
        raise ValueError(f"the values from {low} to {high} don't fit 64 bits")
    found = _carried(stored, zero)
    return found if high >= 2**63 else found.view("i8")


def _carried(stored: numpy.ndarray, zero: int) -> numpy.ndarray:
    """Whole numbers and another one by the rest of 2^64: what is carried out on the way is carried back."""
    found = stored.astype("u8" if stored.dtype.kind == "u" else "i8", order="C").view("u8")
    found += numpy.uint64(zero % 2**64)
    return found


def values(stored: numpy.ndarray, means: Meaning = Meaning(), less: int = 0, own: bool = False) -> numpy.ndarray:
    """The values less a whole number, as floating-point numbers row by row, NaN where they are undefined: in 32 bits
    where these hold all of them, and else in 64. Whole numbers within 2^53 of `less` lose no digit. With `own` the
    stored numbers may become the values.
    """
    kind, size, shift = stored.dtype.kind, stored.dtype.itemsize, means.zero - less
    if kind == "f":
        small = size <= 4 and means.scale == 1 and shift == 0
        found = stored.astype("f4" if small else "f8", order="C", copy=not own)
    elif means.is_whole and (size == 8 or abs(shift) > EXACT_64 - 2**32):
        found, shift = _moved(stored, int(means.zero) - less), 0
    else:
        small = size <= 2 and means.is_whole and abs(shift) <= EXACT_32 - 2**16
        found = stored.astype("f4" if small else "f8", order="C")
    if means.scale != 1:
        found *= means.scale
    if shift != 0:
        found += shift
    if means.blank is not None and kind != "f":
        found[stored == means.blank] = numpy.nan
    return found


def _moved(stored: numpy.ndarray, by: int) -> numpy.ndarray:
    """Whole numbers and another one as floating-point numbers, added before they are rounded where 64 bits hold it."""
    rough, carried = stored.astype("f8", order="C") + float(by), _carried(stored, by)
    exact = numpy.where(rough < 2**62, carried.view("i8").astype("f8"), carried.astype("f8"))
    return numpy.where(numpy.abs(exact - rough) < 2**60, exact, rough)


def origin(image: numpy.ndarray, means: Meaning = Meaning()) -> int:
    """A whole number near an image's values: 0 unless they are whole numbers of 64 bits whose median floating point
    holds with little room.
    """
    if image.dtype.kind not in "iu" or image.dtype.itemsize < 8 or not means.is_whole:
        return 0
    some = numpy.ma.compressed(image[tuple(slice(None, None, max(1, side // 64)) for side in image.shape)])
    defined = numpy.sort(some if means.blank is None else some[some != means.blank])
    middle = int(defined[defined.size // 2]) + int(means.zero) if defined.size else 0
    return middle if abs(middle) > EXACT_64 // 2 else 0
