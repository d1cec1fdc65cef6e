"""Catalogues as binary tables of FITS, put together from plain arrays. astropy's own way takes as long as all else that
is done of a small image, and serves for the kinds of columns that no catalogue of the package has.
"""
import re
from typing import Dict, Iterator, List, NamedTuple, Optional, Tuple

import numpy
from astropy.io import fits

__all__ = ["Described", "write"]

BLOCK = 2880
# So many rows are put together at a time.
AT_ONCE = 2**13
# So many letters have room in a card; the last one is no blank.
SHORT, PRINTABLE = 67, re.compile("[ -~]*[!-~]")
# The letters of kinds of numbers, by their kind and their bytes.
FORMS = {"i2": "I", "i4": "J", "i8": "K", "f4": "E", "f8": "D", "u1": "B"}

Cards = List[Tuple[str, object, str]]


class Described(NamedTuple):
    """A column: its values, a row for a source; its unit as FITS spells it, or None; and what it is."""

    values: numpy.ndarray
    unit: Optional[str]
    text: str


def _form(values: numpy.ndarray) -> Optional[str]:
    """The letter of a column's numbers, or None for another kind of column."""
    return FORMS.get(values.dtype.str[1:]) if values.dtype.kind != "S" else "A" if values.ndim == 1 else None


def _plain(column: Described) -> Described:
    """A column whose text is bytes."""
    return (
        column._replace(values=numpy.char.encode(column.values, "ascii")) if column.values.dtype.kind == "U" else column
    )


def _described(columns: Dict[str, Described]) -> Iterator[Tuple[str, object, str]]:
    """The cards of columns."""
    for number, (name, column) in enumerate(columns.items(), 1):
        sides, form = column.values.shape[1:], _form(column.values)
        count = column.values.dtype.itemsize if form == "A" else int(numpy.prod(sides, dtype=int))
        yield f"TTYPE{number}", name, ""
        yield f"TFORM{number}", f"{count if sides or form == 'A' else ''}{form}", ""
        yield f"TCOMM{number}", column.text, ""
        if column.unit:
            yield f"TUNIT{number}", column.unit, ""
        if sides:
            yield f"TDIM{number}", f"({','.join(str(side) for side in sides[::-1])})", ""


def _card(name: str, value: object, comment: str) -> str:
    """A card as it stands in a file: here where it is a short text, which is quicker, and else by astropy."""
    if isinstance(value, str) and not comment and len(value) <= SHORT and PRINTABLE.fullmatch(value):
        text = value.replace("'", "''")
        if len(text) <= SHORT and len(name) <= 8:
            return f"{name:8}= '{text:8}'".ljust(80)
    return str(fits.Card(name, value, comment))


def _header(columns: Dict[str, Described], width: int, rows: int, told: fits.Header) -> bytes:
    """The header of a table, with further cards."""
    cards: Cards = [
        ("XTENSION", "BINTABLE", "binary table extension"),
        ("BITPIX", 8, "array data type"),
        ("NAXIS", 2, "number of array dimensions"),
        ("NAXIS1", width, "length of dimension 1"),
        ("NAXIS2", rows, "length of dimension 2"),
        ("PCOUNT", 0, "number of group parameters"),
        ("GCOUNT", 1, "number of groups"),
        ("TFIELDS", len(columns), "number of table fields"),
        *_described(columns),
        ("EXTNAME", "SOURCES", "extension name"),
    ]
    text = "".join(_card(*card) for card in cards) + told.tostring(endcard=False, padding=False)
    text += "END".ljust(80)
    return text.ljust(-(-len(text) // BLOCK) * BLOCK).encode("ascii")


def _by_astropy(columns: Dict[str, Described], rows: int, told: fits.Header) -> fits.HDUList:
    """The same by astropy."""
    array = numpy.empty(rows, dtype=[(name, it.values.dtype, it.values.shape[1:]) for name, it in columns.items()])
    for name, column in columns.items():
        array[name] = column.values
    made = fits.BinTableHDU(array).columns if columns else []
    for own, described in zip(made, columns.values()):
        own.unit = described.unit
    table = fits.BinTableHDU.from_columns(made, nrows=rows, name="SOURCES")
    for number, described in enumerate(columns.values(), 1):
        table.header.set(f"TCOMM{number}", described.text, after=f"TFORM{number}")
    table.header.extend(told.cards)
    return fits.HDUList([fits.PrimaryHDU(), table])


def write(path: str, columns: Dict[str, Described], told: fits.Header) -> None:
    """Writes a file with a table called SOURCES of these columns, which have as many rows, and further cards in its
    header. Raises OSError, and ValueError where a name or a text isn't one that FITS takes.
    """
    columns = {name: _plain(column) for name, column in columns.items()}
    rows = len(next(iter(columns.values())).values) if columns else 0
    if not columns or not all(_form(it.values) for it in columns.values()):
        _by_astropy(columns, rows, told).writeto(path, overwrite=True)
        return
    kinds = [(name, it.values.dtype.newbyteorder(">"), it.values.shape[1:]) for name, it in columns.items()]
    dtype = numpy.dtype(kinds)
    with open(path, "wb") as file:
        file.write(fits.PrimaryHDU().header.tostring().encode("ascii"))
        file.write(_header(columns, dtype.itemsize, rows, told))
        for first in range(0, rows, AT_ONCE):
            array = numpy.empty(min(AT_ONCE, rows - first), dtype=dtype)
            for name, column in columns.items():
                array[name] = column.values[first : first + AT_ONCE]
            file.write(array.view("u1").data)
        file.write(bytes(-rows * dtype.itemsize % BLOCK))
