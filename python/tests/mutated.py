"""A small corpus of FITS files of every form, and files that differ from these in a few cards or bytes."""
import bz2
import functools
import gzip
import io
from typing import Callable, Dict, List, Tuple

import numpy
from astropy.io import fits

from forms import in_runs

# What stands behind a keyword in a card that was changed.
VALUES = (
    *(
        "-1",
        "0",
        "1",
        "2",
        "3",
        "7",
        "50",
        "999",
        "1000",
        "32768",
        "1000000",
        "2147483647",
        "2147483648",
        "-2147483648",
    ),
    *("4294967296", "99999999999", "9223372036854775807", "-9223372036854775808", "1" * 60, "0.5", "1E400", "-1E-400"),
    *("(1, 2)", "(1.5, 2)", "1,5", "1 5", "NaN", "INF", "T", "F", "''", "'abc'", "'abc", "'1'", "'a''b'", "abc", ""),
    *(
        "'BINTABLE'",
        "'IMAGE'",
        "'RICE_1'",
        "'GZIP_2'",
        "'HCOMPRESS_1'",
        "'PLIO_1'",
        "'NOCOMPRESS'",
        "'1PB(9)'",
        "'1QB'",
    ),
    *("'1J'", "'99999999B'", "'ZBLANK'", "'COMPRESSED_DATA'", "'RA---TAN'", "'m/s**(('", "\x00", "\x7f\xff", "&'", "/"),
)
Change = Tuple[str, int, object]


def _image(seed: int, kind: str) -> numpy.ndarray:
    """Stars on a sky, 48 x 64 pixels."""
    rng = numpy.random.default_rng(seed)
    image = rng.normal(100, 5, (48, 64))
    for x, y in rng.integers(4, 44, (4, 2)):
        image[y - 1 : y + 2, x - 1 : x + 2] += 120
    return image.astype(kind)


def _bytes(*hdus, **cards) -> bytes:
    """A file with these HDUs; the last of them has these cards."""
    first = [] if isinstance(hdus[0], fits.PrimaryHDU) else [fits.PrimaryHDU()]
    hdus[-1].header.update(cards)
    file = io.BytesIO()
    fits.HDUList([*first, *hdus]).writeto(file, output_verify="ignore")
    return file.getvalue()


@functools.lru_cache(maxsize=None)
def corpus() -> Dict[str, Tuple[Callable[[bytes], bytes], bytes]]:
    """For each name the bytes that are changed, and what is done with them then."""
    sky = {"CTYPE1": "RA---TAN", "CTYPE2": "DEC--TAN", "CRVAL1": 150.0, "CRVAL2": 2.0, "CRPIX1": 1, "CRPIX2": 1}
    sky.update({"CDELT1": -0.001, "CDELT2": 0.001, "BUNIT": "electron", "GAIN": 2.0, "SATURATE": 500.0})
    table = fits.BinTableHDU.from_columns(
        [fits.Column("A", "3J", array=[[1, 2, 3]]), fits.Column("B", "PE()", array=[[1.5]])]
    )
    two = [fits.ImageHDU(_image(number, "f4"), name="SCI", ver=number) for number in (1, 2)]
    found = {
        "floats": _bytes(fits.PrimaryHDU(_image(1, "f4")), **sky),
        "doubles": _bytes(fits.PrimaryHDU(_image(2, "f8"))),
        "shorts": _bytes(fits.PrimaryHDU(_image(3, "i2")), BLANK=110),
        "unsigned": _bytes(fits.PrimaryHDU(_image(4, "u8")), BLANK=0),
        "scaled": _bytes(fits.ImageHDU(_image(5, "i4")), BSCALE=0.5, BZERO=9.5, BLANK=-(2**31)),
        "several": _bytes(table, *two, EXTNAME="SCI"),
        "cube": _bytes(fits.PrimaryHDU(numpy.stack([_image(6, "f4")] * 2))),
    }
    for form in ("RICE_1", "GZIP_1", "GZIP_2", "HCOMPRESS_1", "PLIO_1"):
        image = in_runs(_image(7, "i4")) if form == "PLIO_1" else _image(7, "i4")
        found[form] = _bytes(fits.CompImageHDU(image, compression_type=form), BLANK=100, **sky)
    for form, level in (("RICE_1", 16), ("GZIP_1", 0), ("HCOMPRESS_1", 8)):
        image = _image(8, "f4")
        image[3, 4] = numpy.nan
        packed = fits.CompImageHDU(image, compression_type=form, quantize_level=level, quantize_method=2)
        found[f"{form} of floats"] = _bytes(packed, **sky)
    plain = {name: (bytes, content) for name, content in found.items()}
    packed = {f"{name} in gz": (gzip.compress, found[name]) for name in ("floats", "shorts", "several")}
    broken = {
        "broken gz": (bytes, gzip.compress(found["shorts"], mtime=0)),
        "broken bz2": (bytes, bz2.compress(found["shorts"])),
    }
    return {**plain, **packed, "shorts in bz2": (bz2.compress, found["shorts"]), **broken}


def card_places(content: bytes) -> List[int]:
    """Where the cards of all headers stand, END left out."""
    places, within = [], False
    for place in range(0, len(content) - 79, 80):
        within = within or place % 2880 == 0 and content[place : place + 8] in (b"SIMPLE  ", b"XTENSION")
        if content[place : place + 8] == b"END     ":
            within = False
        if within and content[place : place + 8].strip():
            places.append(place)
    return places


def changed(content: bytes, changes: List[Change]) -> bytes:
    """The bytes with these changes: a card has another value, stands twice, or is gone; a byte is another one, of all
    or behind the last header; the end is cut off.
    """
    for kind, place, what in changes:
        cards = card_places(content) or [0]
        card, byte = cards[place % len(cards)], place % max(len(content), 1)
        if kind == "value":
            text = content[card : card + 8] + b"= " + str(what).encode("latin-1").rjust(20)
            content = content[:card] + text[:80].ljust(80) + content[card + 80 :]
        elif kind == "twice":
            content = content[: card + 80] + content[card : card + 80] + content[card + 80 :]
        elif kind == "gone":
            content = content[:card] + content[card + 80 :]
        elif kind in ("byte", "data"):
            if kind == "data":
                byte = max(cards[-1] + 160, 0) + place % max(len(content) - cards[-1] - 160, 1)
            content = content[:byte] + bytes([what % 256]) + content[byte + 1 :]
        elif kind == "cut":
            content = content[:byte]
    return content
