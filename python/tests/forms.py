"""Images of whole and other numbers, written in each form that a FITS file has for them."""
import bz2
import gzip
import pathlib
from typing import Dict, Optional

import numpy
from astropy.io import fits

PACKED = {"plain": bytes, "gz": gzip.compress, "bz2": bz2.compress}
TILED = ("RICE_1", "GZIP_1", "GZIP_2", "HCOMPRESS_1", "PLIO_1")
FORMS = (*PACKED, *TILED)


def in_runs(stored: numpy.ndarray) -> numpy.ndarray:
    """The image with each eighth pixel of a row in the place of the seven behind it. PLIO is for such images: astropy
    writes beyond its memory where a row of noise takes more room than it had.
    """
    return numpy.repeat(stored[..., ::8], 8, axis=-1)[..., : stored.shape[-1]]


def holds(form: str, stored: numpy.ndarray) -> bool:
    """Whether a form has room for such numbers."""
    whole, size = stored.dtype.kind in "iu", stored.dtype.itemsize
    if form in PACKED:
        return True
    if form == "PLIO_1":
        changes = (numpy.diff(stored.astype("i8"), axis=-1) != 0).sum(axis=-1)
        small = stored.size > 0 and stored.min() >= 0 and stored.max() < 2**15
        return whole and size < 8 and small and changes.max() <= stored.shape[-1] // 4
    if form == "HCOMPRESS_1":
        if stored.ndim != 2 or min(stored.shape) < 16:
            return False
        # astropy makes tiles of so many rows; the last one has 4 or more.
        rows = 16 if stored.shape[0] > 30 else stored.shape[1]
        if 0 < stored.shape[0] % rows < 4:
            return False
    return whole and size < 8 if form in ("RICE_1", "HCOMPRESS_1") else size < 8 or not whole


def written(path: pathlib.Path, stored: numpy.ndarray, cards: Dict[str, object], form: str) -> str:
    """A file whose image has these stored numbers and cards."""
    big = stored.astype(stored.dtype.newbyteorder(">"))
    if form in PACKED:
        header = fits.PrimaryHDU(numpy.zeros((1,) * big.ndim, dtype=big.dtype)).header
        for axis, side in enumerate(reversed(big.shape), 1):
            header[f"NAXIS{axis}"] = side
        header.update(cards)
        pixels = big.tobytes()
        path.write_bytes(PACKED[form](header.tostring().encode("ascii") + pixels + bytes(-len(pixels) % 2880)))
        return str(path)
    options = {} if big.dtype.kind in "iu" else {"quantize_level": 0}
    packed = fits.HDUList([fits.PrimaryHDU(), fits.CompImageHDU(stored, compression_type=form, **options)])
    packed.writeto(path, overwrite=True)
    with fits.open(path, disable_image_compression=True, memmap=False) as tables:
        tables[1].header.update(cards)
        tables[1].data
        tables.writeto(path, overwrite=True)
    return str(path)


def values(stored: numpy.ndarray, cards: Dict[str, object]) -> numpy.ndarray:
    """What they stand for, in 64 bits."""
    scale, zero, blank = cards.get("BSCALE", 1), cards.get("BZERO", 0), cards.get("BLANK")
    if scale == 1 and zero == int(zero) and stored.dtype.kind in "iu":
        found = (stored.astype(object) + int(zero)).astype("f8")
    else:
        found = stored.astype("f8") * scale + zero
    if blank is not None and stored.dtype.kind in "iu":
        found[stored == blank] = numpy.nan
    return found


def unsigned_zero(stored: numpy.ndarray) -> Optional[int]:
    """BZERO of unsigned numbers of this size; of bytes, of signed ones."""
    return -128 if stored.dtype.itemsize == 1 else 2 ** (8 * stored.dtype.itemsize - 1)
