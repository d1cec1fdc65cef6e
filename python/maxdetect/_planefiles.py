"""Images that are written bit by bit: a FITS file is made with all its room, and its pixels are arrays in it."""
import contextlib
import errno
import itertools
import os
from typing import Dict, List, NamedTuple, Tuple

import numpy
from astropy.io import fits

from ._skyplaces import WCS_CARDS

__all__ = ["Head", "made", "make_room"]


class Head(NamedTuple):
    """The header of the image that a plane belongs to, the name of its HDU and its shape."""

    like: fits.Header
    name: str
    shape: Tuple[int, int]


def make_room(file, size: int) -> None:
    """Makes a file so long that is open for writing. The disk has room for it then: where an array in a file finds it
    full, a signal ends the command.
    """
    try:
        os.posix_fallocate(file.fileno(), 0, size)
    except AttributeError:
        file.truncate(size)
    except OSError as error:
        if error.errno not in (errno.EINVAL, errno.ENODEV, errno.ENOSYS, errno.EOPNOTSUPP):
            raise
        file.truncate(size)


def _cards(like: fits.Header) -> fits.Header:
    """The WCS of an image's header, of its first two axes."""
    cards = fits.Header([card for card in like.cards if WCS_CARDS.fullmatch(card.keyword)])
    if cards.get("WCSAXES", 2) != 2:
        cards["WCSAXES"] = 2
    return cards


def _texts(heads: List[Head], dtype: str, cards: Dict[str, str]) -> List[bytes]:
    """The headers of the HDUs: the first is the primary where it is the only one."""
    made = []
    for head in heads:
        hdu = fits.ImageHDU(numpy.zeros((1, 1), dtype="i4"), _cards(head.like), name=head.name)
        if len(heads) == 1:
            hdu = fits.PrimaryHDU(hdu.data, hdu.header)
        hdu.header["BITPIX"] = {"i4": 32, "f4": -32}[dtype]
        hdu.header["NAXIS1"], hdu.header["NAXIS2"] = head.shape[1], head.shape[0]
        hdu.header.update(cards)
        made.append(hdu.header.tostring().encode("ascii"))
    first = b"" if len(made) == 1 else fits.PrimaryHDU().header.tostring().encode("ascii")
    return [first + made[0], *made[1:]]


def made(path: str, heads: List[Head], dtype: str, **cards: str) -> List[numpy.ndarray]:
    """The pixels of images in a FITS file that is made for them, 0 before they are written, of the type `>i4` or
    `>f4`, with further cards in their headers. Raises OSError.
    """
    texts, size = _texts(heads, dtype[1:], cards), numpy.dtype(dtype).itemsize
    sizes = [-(-size * head.shape[0] * head.shape[1] // 2880) * 2880 for head in heads]
    ends = list(itertools.accumulate(len(text) + room for text, room in zip(texts, sizes)))
    places = [end - room for end, room in zip(ends, sizes)]
    with contextlib.closing(open(path, "wb")) as file:
        make_room(file, ends[-1])
        for text, place in zip(texts, places):
            file.seek(place - len(text))
            file.write(text)
    return [numpy.memmap(path, dtype, "r+", place, head.shape) for place, head in zip(places, heads)]
