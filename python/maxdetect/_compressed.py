"""The tiles of a compressed image, looked at before astropy's decompressor sees them.

That one takes memory for whatever length a table says, never comes to the end of some broken gzip streams, and leaves
its memory where an HCOMPRESS or PLIO tile says that it is larger than it is, or where random numbers are to begin
beyond their end; it divides by the length of a Rice block. No exception tells of that.
"""
import math
import re
import zlib
from typing import List

import numpy
from astropy.io import fits

from . import _cards as cards

__all__ = ["check", "table_header"]

# Bytes for an element of a column, by the letter of its form, where it isn't one.
SIZES = {"I": 2, "J": 4, "K": 8, "E": 4, "D": 8, "C": 8, "M": 16}
BROKEN = "a compressed tile is broken"
# What an HCOMPRESS tile begins with, and how many bytes stand before its pixels.
HCOMPRESS, BEFORE = b"\xdd\x99", 25
# So many has the table that dithering takes them from.
RANDOM_NUMBERS = 10000


def check(hdu) -> None:
    """Raises ValueError where a tile of a compressed image lies beyond its table's end, or is seen to be broken."""
    _check_heap(hdu)
    table, rows = table_header(hdu), hdu.compressed_data
    method, names = table.get("ZCMPTYPE"), {name.upper(): name for name in rows.columns.names}
    _check_settings(table, method)
    gzipped = {"GZIP_COMPRESSED_DATA", *(["COMPRESSED_DATA"] if method in ("GZIP_1", "GZIP_2") else [])}
    pixels = _pixels(table)
    for name in gzipped & set(names):
        for tile in rows.field(names[name]):
            _check_gzip(tile.tobytes(), 8 * int(pixels.max(initial=0)))
    if method == "HCOMPRESS_1" and "COMPRESSED_DATA" in names:
        for tile, count in zip(rows.field(names["COMPRESSED_DATA"]), pixels):
            _check_hcompress(tile.tobytes(), int(count))
    if method == "PLIO_1" and "COMPRESSED_DATA" in names:
        for tile in rows.field(names["COMPRESSED_DATA"]):
            _check_plio(tile.tolist())


def _check_settings(table: fits.Header, method: object) -> None:
    """Looks at the length of a Rice block, and at which of its random numbers a dithered image begins with."""
    length, first = cards.number(table, "ZVAL1"), cards.number(table, "ZDITHER0")
    if method == "RICE_1" and length is not None and length < 1:
        raise ValueError(f"ZVAL1 isn't a number from 1 on: {length}")
    if table.get("ZQUANTIZ") != "NO_DITHER" and first is not None and not 1 <= first <= RANDOM_NUMBERS:
        raise ValueError(f"ZDITHER0 isn't a number from 1 to {RANDOM_NUMBERS}: {first}")


def _pixels(table: fits.Header) -> numpy.ndarray:
    """How many pixels each tile has, in the order of the table's rows."""
    found = numpy.ones(1, dtype="i8")
    for axis in range(1, table["ZNAXIS"] + 1):
        side, tile = table[f"ZNAXIS{axis}"], table[f"ZTILE{axis}"]
        along = numpy.minimum(tile, side - tile * numpy.arange(-(-side // tile), dtype="i8"))
        found = numpy.multiply.outer(along, found).ravel()
    return found


def _check_gzip(tile: bytes, most: int) -> None:
    """Reads a gzip stream of at most so many bytes."""
    stream = zlib.decompressobj(16 + zlib.MAX_WBITS)
    try:
        stream.decompress(tile, max(most, 1))
    except zlib.error as error:
        raise ValueError(f"{BROKEN} ({error})") from None
    if tile and not stream.eof:
        raise ValueError(BROKEN)


def _check_hcompress(tile: bytes, count: int) -> None:
    """Looks at how large an HCOMPRESS tile says it is."""
    sides = [int.from_bytes(tile[at : at + 4], "big", signed=True) for at in (2, 6)]
    if tile and (tile[:2] != HCOMPRESS or len(tile) < BEFORE or min(sides) < 1 or math.prod(sides) != count):
        raise ValueError(BROKEN)


def _check_plio(words: List[int]) -> None:
    """Looks at where a PLIO line begins and ends: its head has three words, or says how many it has."""
    if not words:
        return
    if len(words) < 5:
        raise ValueError(BROKEN)
    first, last = (3, words[2]) if words[2] > 0 else (words[1], (words[4] << 15) + words[3])
    if not 0 <= first <= len(words) or not 0 <= last <= len(words):
        raise ValueError(BROKEN)


def _check_heap(hdu) -> None:
    """Looks at where the table of a compressed image has its tiles: the decompressor takes memory for whatever length
    stands there. Raises ValueError where a tile lies beyond the table's end.
    """
    table, rows = table_header(hdu), hdu.compressed_data
    fixed = table["NAXIS1"] * table["NAXIS2"]
    room = table["PCOUNT"] - int(cards.number(table, "THEAP") or fixed) + fixed
    plain = rows.view(numpy.ndarray)
    for name, form in zip(plain.dtype.names, rows.columns.formats):
        variable = re.fullmatch(r"[01]?[PQ]([A-Z])(\(\d*\))?", form)
        if variable:
            lengths, places = plain[name].astype("i8").reshape(-1, 2).T
            beyond = (places < 0) | (places > room) | (lengths < 0)
            if (beyond | (lengths > (room - places) // SIZES.get(variable[1], 1))).any():
                raise ValueError("a compressed tile lies beyond the end of its table")


def table_header(hdu) -> fits.Header:
    """The header of a compressed image's table; newer releases of astropy keep the table apart."""
    return getattr(hdu, "_bintable", hdu)._header
