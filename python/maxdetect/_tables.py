"""Catalogues as files: FITS, CSV, ECSV or VOTable."""
import os
import pathlib
import re
import warnings
from typing import TYPE_CHECKING, Optional, Union

import numpy
from astropy.io import fits

from . import _fitstables as fitstables, _unittexts as unittexts
from ._errors import Mistake
from ._limits import FORMATS
from ._rows import Rows, filled
from ._wholefiles import whole_file

if TYPE_CHECKING:
    from astropy.table import Table

__all__ = ["format_of", "load", "write"]

# Cards of a table's `meta` that FITS keeps for the structure of a file.
STRUCTURE = re.compile(
    r"SIMPLE|XTENSION|BITPIX|NAXIS\d*|PCOUNT|GCOUNT|TFIELDS|EXTNAME|END|CHECKSUM|DATASUM"
    r"|T(TYPE|FORM|UNIT|COMM|NULL|DIM)\d+"
)


def format_of(path: Union[str, os.PathLike]) -> str:
    """How a catalogue of this name is written: fits, csv, ecsv or votable. Raises Mistake for another end of the
    name.
    """
    end = pathlib.Path(path).suffix.lower()
    if end not in FORMATS:
        raise Mistake(f"{path}: a catalogue's name ends in {', '.join(FORMATS)}")
    return FORMATS[end]


def load(kind: str) -> None:
    """Has loaded what a catalogue of this kind is written by: that may be done while others work."""
    if kind == "ldac":
        from . import _ldac  # noqa: F401
    elif kind != "fits":
        from astropy import table, units  # noqa: F401


def _fits_value(value) -> bool:
    return isinstance(value, (bool, int, float, str, numpy.integer, numpy.floating)) and (
        not isinstance(value, float) or numpy.isfinite(value)
    )


def _write_fits(table: Rows, path: str) -> None:
    """Writes a catalogue with each column's description in a TCOMM card and what `meta` has in cards."""
    units = {name: unittexts.in_fits(unit) for name, unit in table.units.items()}
    columns = {
        name: fitstables.Described(filled(table[name]), units.get(name), table.texts.get(name, ""))
        for name in table.colnames
    }
    # Some descriptions are too long for one card, and go on in the next ones.
    told = fits.Header([("LONGSTRN", "OGIP 1.0")])
    for key, value in table.meta.items():
        if re.fullmatch(r"[A-Za-z0-9_-]{1,8}", key) and not STRUCTURE.fullmatch(key.upper()) and _fits_value(value):
            told[key.upper()] = value
    with warnings.catch_warnings():
        # A description that doesn't fit its card goes on in the next ones.
        warnings.simplefilter("ignore", fits.verify.VerifyWarning)
        fitstables.write(path, columns, told)


def _flat(table: "Table") -> "Table":
    """A catalogue with a column for each number of its vectors, as text has it; without squares of pixels."""
    made = type(table)(meta=table.meta)
    for name in table.colnames:
        column = table[name]
        if column.ndim == 2:
            for number in range(column.shape[1]):
                made[f"{name}_{number + 1}"] = column[:, number]
        elif column.ndim == 1:
            made[name] = column
    return made


def write(table: Union[Rows, "Table"], path: Union[str, os.PathLike], kind: Optional[str] = None) -> None:
    """Writes a catalogue as FITS, CSV, ECSV or VOTable, by the end of its name or as `kind` says; an earlier file is
    replaced.

    In FITS each column's description stands in its TCOMM card, and simple values of the table's `meta` in cards. CSV
    has a column for each aperture, and no vignets. Raises Mistake for another end of the name, and OSError where the
    file can't be written.
    """
    kind = kind or format_of(path)
    if kind == "ldac":
        raise Mistake(f"{path}: FITS_LDAC has the headers of its images, which a table hasn't")
    with whole_file(path) as name:
        if kind == "fits":
            _write_fits(table if isinstance(table, Rows) else Rows.of(table), name)
        else:
            _write_by_astropy(table.table() if isinstance(table, Rows) else table, name, kind)


def _write_by_astropy(table: "Table", path: str, kind: str) -> None:
    """Writes a catalogue as CSV, ECSV or VOTable."""
    from astropy import units

    # A VOTable of 33,000 sources takes 20 seconds as text, and one in binary form.
    form, more = {
        "csv": ("ascii.csv", {}),
        "ecsv": ("ascii.ecsv", {}),
        "votable": ("votable", {"tabledata_format": "binary"}),
    }[kind]
    with warnings.catch_warnings():
        warnings.simplefilter("ignore", units.UnitsWarning)
        (_flat(table) if kind == "csv" else table).write(path, format=form, overwrite=True, **more)
    if kind == "ecsv" and table.columns[0].dtype.kind in "US":
        _quote_number_signs(path)


def _quote_number_signs(path: str) -> None:
    """Puts the first field of a row of an ECSV file into quotes where it begins with a number sign, since readers take
    the row for a comment else.
    """
    lines = pathlib.Path(path).read_text(encoding="utf-8").split("\n")
    names = next(place for place, line in enumerate(lines) if not line.startswith("#"))
    rows = [re.sub("^#[^ ]*", r'"\g<0>"', line) for line in lines[names:]]
    if rows != lines[names:]:
        pathlib.Path(path).write_text("\n".join(lines[:names] + rows), encoding="utf-8")
