"""Images in files: what astropy reads, opened once and read by windows.

HDUs are counted from 0, as astropy does, and planes of a cube from 1, as FITS counts pixels.
"""
import contextlib
import functools
import itertools
import os
import pathlib
import threading
import warnings
from typing import Any, Callable, Dict, Iterator, List, Optional, Tuple, Union

import numpy
from astropy.io import fits
from astropy.utils.exceptions import AstropyWarning

from . import _cards as cards, _headers as headers, _stored as stored
from ._errors import Mistake
from ._nddata import AnyImage, parts_of
from ._wholefiles import whole_file

Name = Union[int, str, None]
# So many rows of a file are looked at at a time.
AT_ONCE = 256


@contextlib.contextmanager
def _readable(path: str) -> Iterator[None]:
    """Whatever is wrong with a file that can't be read, as one line."""
    try:
        yield
    except Mistake:
        raise
    except OSError as error:
        raise Mistake(f"{path}: {error.strerror or ' '.join(str(error).split()) or 'it can not be read'}") from None
    except MemoryError:
        raise Mistake(f"{path}: memory is wanted") from None
    except Exception as error:  # noqa: BLE001  astropy and the decompressors raise many kinds.
        raise Mistake(
            f"{path}: not a FITS file that can be read ({' '.join(str(error).split()) or type(error).__name__})"
        ) from None


@contextlib.contextmanager
def _opened(path: str) -> Iterator[Iterator[Tuple[int, Any]]]:
    """The HDUs of a file with their numbers, one by one, each after its header was looked at. Raises Mistake."""
    with _readable(path), warnings.catch_warnings(), contextlib.closing(headers.walked(path)) as looked_at:
        warnings.simplefilter("ignore", AstropyWarning)
        first = next(looked_at)
        with fits.open(path, memmap=False, lazy_load_hdus=True, do_not_scale_image_data=True) as hdus:
            yield ((number, hdus[number]) for number in itertools.chain([first], looked_at))


def _state(path: str) -> Tuple[int, int]:
    """What another state of the file has otherwise."""
    with _readable(path):
        found = os.stat(path)
    return found.st_mtime_ns, found.st_size


@functools.lru_cache(maxsize=64)
def _check_sums(path, *state):
    """Looks at a compressed file's checksum, once for all its images."""
    headers.check_sums(path)


def _is_image(hdu) -> bool:
    """It has two axes or more, and pixels."""
    shape = hdu.shape if hdu.is_image else ()
    return len(shape) >= 2 and 0 not in shape


class Plane:
    """A plane of an image in a file, as floating-point numbers.

    `path`, `number` and `name` say which HDU it is, `shape` is (height, width), `header` the HDU's. `origin` is a whole
    number near the values, 0 unless 64 bits of floating point don't hold them. It can be pickled, and is then opened
    anew. Of an uncompressed file only the rows that are asked for are read; others are held as a whole.
    """

    def __init__(
        self,
        path: str,
        hdu,
        number: int,
        plane: Optional[int],
        beside: bool = False,
        primary: Optional[fits.Header] = None,
    ):
        self.path, self.number = os.fspath(path), number
        # astropy gives a compressed image without a name this one.
        self.name = "" if hdu.name == "COMPRESSED_IMAGE" else hdu.name
        self.header, sides = hdu.header.copy(), hdu.shape
        self.primary = None if number == 0 or self.header.get("INHERIT") is False else primary
        self.shape: Tuple[int, int] = (sides[-2], sides[-1])
        planes = int(numpy.prod(sides[:-2], dtype=int))
        if beside and planes == 1:
            plane = None
        if plane is None and planes > 1:
            raise Mistake(f"{self.label}: it has {planes} planes; say which with --plane")
        if not 1 <= (plane or 1) <= planes:
            raise Mistake(f"{self.label}: it has no plane {plane}, but {planes}")
        self._plane, self._lock = (plane or 1) - 1, threading.Lock()
        self._whole: Optional[numpy.ndarray] = None
        self._meaning = self._checked(stored.meaning, hdu)
        self._place = self._place_in_file(hdu)

    def _checked(self, read, *given):
        """What a function reads of the header; a card that is wrong is told with the image's name."""
        try:
            return read(*given)
        except ValueError as error:
            raise Mistake(f"{self.label}: {error}") from None

    def _place_in_file(self, hdu) -> Optional[Tuple[numpy.dtype, int]]:
        """Type and first byte of an image that stands in the file as it is; None for others."""
        if isinstance(hdu, fits.CompImageHDU) or hdu._file is None or hdu._file.compression:
            return None
        dtype = {8: "u1", 16: ">i2", 32: ">i4", 64: ">i8", -32: ">f4", -64: ">f8"}[hdu._orig_bitpix]
        return numpy.dtype(dtype), hdu._data_offset

    @property
    def label(self) -> str:
        """How it is named in what is printed."""
        return f"{self.path}[{self.name or self.number}]"

    @property
    def mapped(self) -> bool:
        """Only the rows that are asked for are read."""
        return self._place is not None

    @property
    def unit(self) -> Optional[str]:
        """BUNIT, where the header has one. Raises Mistake for one that can't be read."""
        return self._checked(cards.unit, self.header)

    def positive(self, keyword: str) -> Optional[float]:
        """The header's number of this name, or the primary header's where it has none; None where that isn't positive.
        Raises Mistake for what is no number.
        """
        value = self._checked(cards.number, self._having(keyword), keyword)
        return float(value) if value is not None and value > 0 else None

    def in_passing(self, keyword: str) -> Union[None, int, float, str]:
        """What the header's card of this name says, or the primary header's; None for what is no number and no text."""
        for read in (cards.number, cards.text):
            with contextlib.suppress(ValueError):
                return read(self._having(keyword), keyword)
        return None

    def inherits(self, keyword: str) -> bool:
        """The number of this name stands in the primary header alone."""
        return self._having(keyword) is not self.header

    def _having(self, keyword: str) -> fits.Header:
        """The header that has a card of this name: its own, or else the primary one of its file."""
        alone = keyword not in self.header and self.primary is not None and keyword in self.primary
        return self.primary if alone else self.header

    @functools.cached_property
    def origin(self) -> int:
        """The whole number near its values."""
        # A few of the numbers are looked at alone.
        return stored.origin(self._numbers(slice(None), slice(None), stored.mapped), self._meaning)

    def __getstate__(self):
        return {**self.__dict__, "_whole": None, "_lock": None}

    def __setstate__(self, state):
        self.__dict__.update(state, _lock=threading.Lock())

    def window(self, rows: slice, columns: slice = slice(None), less: int = 0) -> numpy.ndarray:
        """The pixels of some rows and columns less a whole number, NaN where they are undefined: 32 bits where these
        hold the values, and else 64.
        """
        first, last, _ = rows.indices(self.shape[0])
        if not self.mapped or last - first <= AT_ONCE or self._stands_as_it_is(less):
            return self._values(rows, columns, less)
        # A file's pages count as memory as long as they are looked at, and they have whole rows.
        values = self._values(slice(first, first + AT_ONCE), columns, less)
        found = numpy.empty((last - first, values.shape[1]), dtype=values.dtype)
        found[:AT_ONCE] = values
        for top in range(first + AT_ONCE, last, AT_ONCE):
            values = self._values(slice(top, min(top + AT_ONCE, last)), columns, less)
            found[top - first : top - first + len(values)] = values
        return found

    def _values(self, rows: slice, columns: slice, less: int) -> numpy.ndarray:
        """The same, all of them at once."""
        numbers = self._numbers(rows, columns)
        return self._checked(stored.values, numbers, self._meaning, less, numbers.flags.owndata)

    def _stands_as_it_is(self, less: int) -> bool:
        """The file's numbers are its values less a whole number, and become those where they are read."""
        floats = self._place is not None and self._place[0] == ">f4"
        return floats and stored.reads_rows() and self._meaning == stored.Meaning(zero=less)

    def _numbers(self, rows, columns, read: Callable = stored.rows_of_file) -> numpy.ndarray:
        """The stored numbers of some rows and columns, where they stand in the file as it is by a function of it."""
        if self._place:
            dtype, offset = self._place
            first, last, _ = rows.indices(self.shape[0])
            offset += dtype.itemsize * self.shape[1] * (self._plane * self.shape[0] + first)
            with _readable(self.path):
                return read(self.path, dtype, offset, (max(last - first, 0), self.shape[1]), columns)
        # Threads share it; one of them reads it.
        with self._lock:
            if self._whole is None:
                with _opened(self.path) as hdus:
                    _, hdu, _ = _found(self.path, hdus, self.number)
                    self._whole = numpy.asarray(stored.raw(hdu)).reshape((-1,) + self.shape)[self._plane]
                    _check_sums(self.path, *_state(self.path))
            return self._whole[rows, columns]


def _found(path: str, hdus: Iterator[Tuple[int, Any]], which: Name):
    """An HDU that is named by its number or its name, or the first one with an image, with its number and the primary
    header.
    """
    count, name, primary = 0, str(which).strip().upper(), None
    for number, hdu in hdus:
        primary = hdu.header.copy() if number == 0 else primary
        if _is_image(hdu) if which is None else number == int(name) if name.isdecimal() else hdu.name.upper() == name:
            return number, hdu, primary
        count = number + 1
    if which is None:
        raise Mistake(f"{path}: it has no image")
    raise Mistake(f"{path}: it has no HDU {which}, but {count} HDUs")


def opened(path: str, which: Name = None, plane: Optional[int] = None, beside: bool = False) -> Plane:
    """The image of an HDU: that with this number or name, or the first that has one. With `beside` the plane counts for
    cubes alone. Raises Mistake.
    """
    with _opened(path) as hdus:
        number, hdu, primary = _found(path, hdus, which)
        if not _is_image(hdu):
            raise Mistake(f"{path}: its HDU {which if which is not None else number} has no image of two axes")
        return Plane(path, hdu, number, plane, beside, primary)


def all_opened(path: str, plane: Optional[int] = None) -> List[Plane]:
    """All images of a file, in its order. Raises Mistake where there is none."""
    planes, primary = [], None
    with _opened(path) as hdus:
        for number, hdu in hdus:
            primary = hdu.header.copy() if number == 0 else primary
            if _is_image(hdu):
                planes.append(Plane(path, hdu, number, plane, primary=primary))
    if not planes:
        raise Mistake(f"{path}: it has no image")
    return planes


def split_name(text: str) -> Tuple[str, Name]:
    """FILE:HDU as the two; FILE alone where a file has the whole name."""
    path, colon, which = text.rpartition(":")
    if not colon or not which or pathlib.Path(text).exists():
        return text, None
    return path, which


def same(one: str, other: str) -> bool:
    """Two names of one file."""
    with contextlib.suppress(OSError):
        return os.path.samefile(one, other)
    return os.path.realpath(one) == os.path.realpath(other)


def matching(text: str, like: Plane, plane: Optional[int] = None) -> Plane:
    """The image that FILE[:HDU] names, of the same shape as another; where no HDU is named, the only one of the file or
    the other's counterpart. Raises Mistake.
    """
    path, which = split_name(text)
    other = opened(path, _counterpart(path, like) if which is None else which, plane, True)
    if other.shape != like.shape:
        sides = [f"{it.label} {it.shape[1]} x {it.shape[0]}" for it in (other, like)]
        raise Mistake(f"the images differ in width or height: {sides[0]}, {sides[1]}")
    return other


def _images_in(path: str) -> Dict[int, Optional[Tuple[str, int]]]:
    """For the number of each image in a file its name and version; None where it has no name of its own."""
    return _images_then_in(path, *_state(path))


@functools.lru_cache(maxsize=16)
def _images_then_in(path, *state):
    """The same for a state of the file, once for all its images."""
    with _opened(path) as hdus:
        return {number: _own_name(hdu) for number, hdu in hdus if _is_image(hdu)}


def _own_name(hdu) -> Optional[Tuple[str, int]]:
    """EXTNAME and EXTVER, or None where there is no name but those that astropy and fpack give."""
    name = hdu.name.strip().upper()
    return None if name in ("", "PRIMARY", "COMPRESSED_IMAGE") else (name, hdu.ver)


def _counterpart(path: str, like: Plane) -> int:
    """The number of a file's only image, or of that which belongs to an image of another file: by the same name and
    version, or by the same number where the files have no name in common. Raises Mistake where none does.
    """
    there = _images_in(path)
    if len(there) == 1:
        return next(iter(there))
    own = _images_in(like.path)
    found = [number for number, name in there.items() if name and name == own.get(like.number)]
    if len(found) != 1:
        apart = not {name for name in there.values() if name} & {name for name in own.values() if name}
        found = [number for number in found or (there if apart else []) if number == like.number]
    if not found or (same(path, like.path) and found == [like.number]):
        raise Mistake(f"{path}: which of its {len(there)} images belongs to {like.label}? Name it, as {path}:HDU")
    return found[0]


def save(image: AnyImage, path: Union[str, os.PathLike], header: Optional[fits.Header] = None) -> None:
    """Writes an image as a FITS file that other programs read.

    Whole numbers are written in 32 bits where they fit, and else in 64, others as 32-bit floating-point numbers. The
    file appears whole or not at all.

    Parameters
    ----------
    image : array_like or astropy.nddata.NDData, shape (height, width)
        The image. Pixels that are masked become BLANK among whole numbers, and NaN among others. Of NDData, and so of
        CCDData, mask, unit and WCS are written too, and an uncertainty isn't.
    path : str or os.PathLike
        The file's name. A file of this name is replaced.
    header : astropy.io.fits.Header, optional
        Has further cards; those that say how an image is stored are left out.

    Raises
    ------
    ValueError
        Where whole numbers don't fit 64 bits.
    Mistake
        Where the file can't be written, or unit or WCS are given twice, by NDData and by the header.
    """
    parts = parts_of(image, header=header)
    values, undefined = numpy.ma.getdata(parts.array), numpy.ma.getmaskarray(parts.array)
    cards = fits.Header() if header is None else _without_layout(header)
    if parts.wcs is not None:
        cards.update(parts.wcs.to_header(relax=True))
    if parts.unit is not None:
        cards["BUNIT"] = parts.unit
    if values.dtype.kind in "iub":
        defined = values[~undefined]
        low, high = (int(defined.min()), int(defined.max())) if defined.size else (0, 0)
        if not -(2**63) < low <= high < 2**63:
            raise ValueError(f"the values from {low} to {high} don't fit 64 bits")
        values = values.astype("i4" if -(2**31) < low <= high < 2**31 else "i8")
        if undefined.any():
            cards["BLANK"] = int(numpy.iinfo(values.dtype).min)
            values[undefined] = cards["BLANK"]
    else:
        values = values.astype("f4")
        values[undefined] = numpy.nan
    with whole_file(path) as name, warnings.catch_warnings():
        warnings.simplefilter("ignore", AstropyWarning)
        fits.PrimaryHDU(values, cards).writeto(name, overwrite=True, output_verify="silentfix")


LAYOUT = "SIMPLE XTENSION BITPIX NAXIS EXTEND PCOUNT GCOUNT BSCALE BZERO BLANK CHECKSUM DATASUM EXTNAME EXTVER"


def _without_layout(header: fits.Header) -> fits.Header:
    """The cards that say nothing of how an image is stored."""
    header = header.copy()
    for keyword in LAYOUT.split() + [card for card in header if card.startswith("NAXIS")]:
        header.remove(keyword, ignore_missing=True, remove_all=True)
    return header
