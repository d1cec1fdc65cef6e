"""Regions for DS9: the ellipses of sources."""
import os
import pathlib
from typing import TYPE_CHECKING, Iterator, Union

import numpy

from ._rows import Rows, filled
from ._wholefiles import whole_file

if TYPE_CHECKING:
    from astropy.table import Table

__all__ = ["write"]

# An ellipse's centre, half axes and angle.
ON_SKY, IN_PIXELS = ("RA", "DEC", "A_SKY", "B_SKY", "PA"), ("X", "Y", "A", "B", "THETA")


def _lines(table: Union[Rows, "Table"]) -> Iterator[str]:
    """The lines of a region file: an ellipse for each source."""
    yield "# Region file format: DS9"
    if set(ON_SKY) <= set(table.colnames):
        yield "icrs"
        form, names = 'ellipse({:.7f},{:.7f},{:.3f}",{:.3f}",{:.1f}) # text={{{}}}', ON_SKY
        # DS9 counts the angle from west, which lies a quarter of a turn before north.
        turn = 90
    else:
        yield "image"
        form, names = "ellipse({:.3f},{:.3f},{:.2f},{:.2f},{:.1f}) # text={{{}}}", IN_PIXELS
        turn = 0
    numbers = table["NUMBER"] if "NUMBER" in table.colnames else range(1, len(table) + 1)
    if "EXTENSION" in table.colnames:
        numbers = [f"{name}:{number}" for name, number in zip(table["EXTENSION"], numbers)]
    for *values, angle, number in zip(*(filled(table[name]).astype("f8") for name in names), numbers):
        if numpy.isfinite(values).all():
            yield form.format(*values, (angle + turn) % 360, number)


def write(table: Union[Rows, "Table"], path: Union[str, os.PathLike]) -> None:
    """Writes a region file for DS9: the sources' ellipses, in sky coordinates where the table has RA and DEC, else
    in pixels.
    """
    with whole_file(path) as name:
        pathlib.Path(name).write_text("\n".join(_lines(table)) + "\n", encoding="utf-8")
