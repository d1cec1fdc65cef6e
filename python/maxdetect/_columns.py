"""The columns of the program's catalogues: how many bits their whole numbers have, their units, and what they are."""
from typing import NamedTuple, Optional

__all__ = ["CATALOGUE", "DESCRIPTIONS", "MEASURES", "Column"]


class Column(NamedTuple):
    """A column. `form` is its TFORM, "J" for 32 bits and "K" for 64; `unit` is None where it is the image's own."""

    form: str
    unit: Optional[str]
    text: str


# Of a source by itself, in their order.
CATALOGUE = {
    "NUMBER": Column("J", None, "number of the source, its number in the segmentation map"),
    "LEVEL": Column("K", None, "level of the source's node"),
    "BASE": Column("K", None, "level of the node's parent"),
    "AREA": Column("J", "pix", "pixels of the source"),
    "FLUX": Column("K", None, "sum of value less base"),
    "PEAK": Column("K", None, "greatest value"),
    "XMIN": Column("J", "pix", "least column, from 1"),
    "XMAX": Column("J", "pix", "greatest column, from 1"),
    "YMIN": Column("J", "pix", "least row, from 1"),
    "YMAX": Column("J", "pix", "greatest row, from 1"),
    "XFIRST": Column("J", "pix", "column of the least pixel, from 1"),
    "YFIRST": Column("J", "pix", "row of the least pixel, from 1"),
    "XCEN": Column("J", "0.001 pix", "mean column weighted by value less base, in thousandths of a pixel, from 1000"),
    "YCEN": Column("J", "0.001 pix", "mean row weighted by value less base, in thousandths of a pixel, from 1000"),
    "XVAR": Column("K", "0.001 pix2", "variance of the columns, in thousandths of a square pixel"),
    "YVAR": Column("K", "0.001 pix2", "variance of the rows, in thousandths of a square pixel"),
    "XYCOV": Column("K", "0.001 pix2", "covariance of columns and rows, in thousandths of a square pixel"),
}
# Behind them, of its pixels in a second image.
MEASURES = {
    "SEEN": Column("J", "pix", "pixels with a value in the second image"),
    "MISSING": Column("J", "pix", "pixels without one"),
    "VSUM": Column("K", None, "sum of the values in the second image"),
    "VLOW": Column("K", None, "least value there"),
    "VPEAK": Column("K", None, "greatest value there"),
    "VMEAN": Column("K", None, "mean of the values there, in thousandths"),
    "VBACK": Column("K", None, "mean of the values around the source there, in thousandths"),
}
DESCRIPTIONS = {name: column.text for name, column in {**CATALOGUE, **MEASURES}.items()}
