"""The bits that a map of flags has over each source's own pixels."""
import numpy

from ._errors import Mistake
from ._planes import AnyPlane
from ._rows import Rows

__all__ = ["over"]

MOST, ROWS = 2**31, 256


def _bits(plane: AnyPlane, rows: slice) -> numpy.ndarray:
    """The map's whole numbers in some rows. Raises Mistake for others."""
    values = plane.window(rows)
    if not (numpy.isfinite(values) & (values >= 0) & (values < MOST) & (values == numpy.floor(values))).all():
        raise Mistake(f"{plane.label}: a flag map has whole numbers from 0 to {MOST - 1}")
    return values.astype("i4")


def over(plane: AnyPlane, table: Rows, segments: numpy.ndarray) -> numpy.ndarray:
    """For each source of a map the bits that any of its pixels has, in the table's order."""
    found = numpy.zeros(int(numpy.max(table["NUMBER"], initial=0)) + 1, dtype="i4")
    for top in range(0, len(segments), ROWS):
        rows = slice(top, top + ROWS)
        numbers, bits = segments[rows], _bits(plane, rows)
        flagged = (bits != 0) & (numbers > 0)
        numpy.bitwise_or.at(found, numbers[flagged], bits[flagged])
    return found[table["NUMBER"]]
