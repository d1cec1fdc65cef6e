"""A catalogue as one page that opens in any browser: the image with its sources, their table, histograms, the sky's
level and noise, and what was assumed.

The page stands alone: it loads nothing, and needs no server. The image is in it as bytes, evenly in the inverse
hyperbolic sine of its values above the sky, in which the page stretches it; columns are numbers as they stand in
memory. report.html has how it looks and what it does.
"""
import base64
import dataclasses
import html
import json
import math
import os
import pathlib
import struct
import zlib
from typing import Any, Dict, List, Optional, Tuple, Union

import numpy
from astropy.table import Table

from . import _checks as checks, _pictures as pictures
from ._flags import FLAGS
from ._sky import Sky
from ._wholefiles import whole_file

__all__ = ["Skies", "page", "skies", "write"]

# How many pixels the page's image and the maps of the sky have at most along the longer side.
SIDE, MAP_SIDE = 2048, 256
# The least value that the page's image tells apart, in deviations of the noise.
LEAST = -6.0
# Columns that 32-bit floating-point numbers don't hold.
LONG = ("RA", "DEC", "X", "Y", "XWIN", "YWIN")
# Cards of a catalogue, and what they are.
CARDS = {
    "IMAGE": "image",
    "HDU": "its HDU",
    "OBJECT": "object",
    "FILTER": "filter",
    "DATE-OBS": "date of observation",
    "EXPTIME": "time of exposure",
    "TELESCOP": "telescope",
    "INSTRUME": "instrument",
    "SMOOTH": "width of the Gaussian that smoothed it, in pixels",
    "FWHM": "width of its point sources, in pixels",
    "THRESH": "threshold, in thirtieths of the noise",
    "SIGMA": "noise of a pixel, in the image's units",
    "NOISE": "noise of a pixel in the middle, by the weight map",
    "GROWTH": "total fluxes go by the growth of its point sources",
    "NCLEANED": "peaks of noise on faint light that were left out",
    "NCOSMIC": "pixels that cosmic rays have hit",
    "GAIN": "electrons for a unit of the image",
    "SATURATE": "pixels are saturated from this value on",
    "ZEROPNT": "magnitude of a flux of 1",
    "OPTIONS": "words of the command",
    "VERSION": "made by",
}


@dataclasses.dataclass
class Skies:
    """The sky's level and noise, each an array of two dimensions that covers the image evenly."""

    level: Optional[numpy.ndarray] = None
    noise: Optional[numpy.ndarray] = None


def _places(side: int, longer: int) -> numpy.ndarray:
    """Places along a side, evenly and as far apart as along the longer one, which has MAP_SIDE of them at most."""
    count = max(1, round(side * min(longer, MAP_SIDE) / longer))
    return ((numpy.arange(count) + 0.5) * side / count).astype(int)


def skies(detector, found: Optional[Sky], own: Optional[Sky]) -> Skies:
    """The sky of a field at some places, from what is known of it when its sources are: as check images have it."""
    if found is None or own is None:
        return Skies()
    height, width = detector.field.shape
    rows, columns = (_places(side, max(height, width)) for side in (height, width))
    told = {}
    for name, kind in (("level", "background"), ("noise", "rms")):
        lines = [checks.rows_of(kind, detector, found, own, slice(row, row + 1)) for row in rows.tolist()]
        told[name] = numpy.stack([numpy.broadcast_to(line, (1, width))[0, columns] for line in lines])
    return Skies(**told)


# ---- images in the page


def _png(grey: numpy.ndarray) -> str:
    """An array of bytes as a picture, its first row at the bottom, as a page names it."""
    height, width = grey.shape
    rows = numpy.zeros((height, width + 1), dtype="u1")
    rows[:, 1:] = grey[::-1]

    def chunk(name: bytes, data: bytes) -> bytes:
        return struct.pack(">I", len(data)) + name + data + struct.pack(">I", zlib.crc32(name + data))

    parts = [
        b"\x89PNG\r\n\x1a\n",
        chunk(b"IHDR", struct.pack(">IIBBBBB", width, height, 8, 0, 0, 0, 0)),
        chunk(b"IDAT", zlib.compress(rows.tobytes(), 6)),
        chunk(b"IEND", b""),
    ]
    return "data:image/png;base64," + base64.b64encode(b"".join(parts)).decode("ascii")


def _bytes(values: numpy.ndarray, low: float, high: float) -> numpy.ndarray:
    """Numbers from 1 to 255, evenly from `low` to `high`, and 0 where there is no value."""
    known = numpy.isfinite(values)
    part = (numpy.where(known, values, low) - low) / (high - low if high > low else 1.0)
    return numpy.where(known, 1 + numpy.round(254 * numpy.clip(part, 0, 1)), 0).astype("u1")


def _image(image: numpy.ndarray) -> Dict[str, Any]:
    """The image of the page: its picture, and which values its bytes stand for."""
    step = -(-max(image.shape) // SIDE)
    values = pictures.reduced(numpy.ma.filled(numpy.ma.asarray(image, dtype="f4"), numpy.nan), step)
    known = values[numpy.isfinite(values)]
    low, sky, high = numpy.percentile(known, (16, 50, 100)) if known.size else (0.0, 0.0, 1.0)
    sigma = max(float(sky - low), 1e-6 * max(abs(float(sky)), 1e-30))
    least, most = math.asinh(LEAST), math.asinh(max(float(high - sky) / sigma, 10.0))
    told = {"least": least, "most": most, "sky": float(sky), "sigma": sigma, "step": step}
    return {"png": _png(_bytes(numpy.arcsinh((values - sky) / sigma), least, most)), **told}


def _map(name: str, values: Optional[numpy.ndarray]) -> Optional[Dict[str, Any]]:
    """A map of the sky, evenly from its least to its greatest value."""
    if values is None or not numpy.isfinite(values).any():
        return None
    low, high = float(numpy.nanmin(values)), float(numpy.nanmax(values))
    return {"name": name, "png": _png(_bytes(values, low, high)), "low": low, "high": high}


# ---- the table in the page


def _column(table: Table, name: str) -> Optional[Dict[str, Any]]:
    """A column of numbers or texts, as the page takes it; None for vectors."""
    values, column = numpy.ma.asarray(table[name]), table[name]
    if values.ndim != 1:
        return None
    told = {"name": name, "unit": str(column.unit or ""), "text": column.description or ""}
    if values.dtype.kind not in "iufb":
        return {**told, "kind": "text", "values": [str(each) for each in values.filled("").tolist()]}
    if values.dtype.kind == "f":
        kind = "f8" if name in LONG else "f4"
        values = values.filled(numpy.nan)
    else:
        kind, values = "i4", values.filled(0)
    return {**told, "kind": kind, "values": base64.b64encode(values.astype(f"<{kind}").tobytes()).decode("ascii")}


def _assumed(table: Table) -> List[Tuple[str, str, str]]:
    """The cards of the catalogue that say what was assumed: name, value and meaning."""
    found = {name: table.meta[name] for name in CARDS if table.meta.get(name) is not None}
    return [(name, f"{it:.6g}" if isinstance(it, float) else str(it), CARDS[name]) for name, it in found.items()]


def page(image: numpy.ndarray, table: Table, shown: Skies) -> str:
    """The page's text, for an image of two dimensions, NaN or masked where it is undefined, and its catalogue, with X,
    Y, A, B and THETA in pixels from 1 and degrees.
    """
    columns = [_column(table, name) for name in table.colnames]
    maps = [_map("background", shown.level), _map("noise", shown.noise)]
    told = {
        "height": int(image.shape[0]),
        "width": int(image.shape[1]),
        "sources": len(table),
        "image": _image(image),
        "maps": [each for each in maps if each is not None],
        "columns": [each for each in columns if each is not None],
        "assumed": _assumed(table),
        "flags": [(bit, text) for bit, text in FLAGS.items()],
    }
    # A page's script ends at "</", wherever that stands.
    data = json.dumps(told, allow_nan=False).replace("</", "<\\/")
    text = pathlib.Path(__file__).with_name("report.html").read_text(encoding="utf-8")
    name = str(table.meta.get("IMAGE", "catalogue"))
    return text.replace("@TITLE@", html.escape(name)).replace("@DATA@", data)


def write(image: numpy.ndarray, table: Table, path: Union[str, os.PathLike], shown: Optional[Skies] = None) -> None:
    """Writes the page: `shown` is the sky, where it is to be shown. An earlier file is replaced; OSError where it can't
    be written.
    """
    text = page(image, table, shown or Skies())
    with whole_file(path) as name:
        pathlib.Path(name).write_text(text, encoding="utf-8")
