"""Catalogues as Source Extractor writes them: its names, units and meanings, and the form that SCAMP and PSFEx read.

FITS_LDAC has two tables for each image: LDAC_IMHEAD with the image's header, and LDAC_OBJECTS with its sources.
"""
import io
import itertools
import re
from typing import TYPE_CHECKING, Callable, Iterable, Iterator, List, NamedTuple, Optional, Tuple, Union

import numpy
from astropy.io import fits

from ._errors import Mistake
from ._images import Plane
from ._rows import Rows

if TYPE_CHECKING:
    from astropy.table import Table

__all__ = ["COLUMNS", "Part", "column", "save", "write"]

CARD, BLOCK = 80, 2880
# Cards that belong to a file's form, and not to its image.
FORM = re.compile(
    r"SIMPLE|XTENSION|BITPIX|NAXIS\d*|EXTEND|[PG]COUNT|BSCALE|BZERO|BLANK|CHECKSUM|DATASUM|END|INHERIT"
    r"|T(FIELDS|HEAP|(TYPE|FORM|UNIT|DIM|NULL)\d+)"
)
# From this number on pixels are saturated where nothing is known of that.
MOST_VALUE = 1e30

Made = Optional[numpy.ndarray]
# A catalogue in either form.
Catalogue = Union[Rows, "Table"]


class Part(NamedTuple):
    """The sources of an image as the package has them, and the image with its shape."""

    table: Catalogue
    plane: Plane
    shape: Tuple[int, int]


class Column(NamedTuple):
    """A column of Source Extractor's: its form, its unit, what it is, and how it comes of the package's columns."""

    form: str
    unit: Optional[str]
    text: str
    made: Callable[[Catalogue], numpy.ndarray]


def _own(name: str, times: float = 1.0) -> Callable[[Catalogue], numpy.ndarray]:
    """A column of the package's, times a number."""
    return lambda table: numpy.asarray(table[name]) * times if times != 1 else numpy.asarray(table[name])


def _variance(long: str, short: str, angle: str, which: int, times: float) -> Callable[[Catalogue], numpy.ndarray]:
    """The variance along x (0) or y (1), or the covariance (2), of an ellipse of `times` its standard deviations."""

    def made(table: Catalogue) -> numpy.ndarray:
        a, b = ((numpy.asarray(table[name], dtype="f8") * times) ** 2 for name in (long, short))
        turned = numpy.radians(numpy.asarray(table[angle], dtype="f8"))
        cosine, sine = numpy.cos(turned), numpy.sin(turned)
        return (a * cosine**2 + b * sine**2, a * sine**2 + b * cosine**2, (a - b) * cosine * sine)[which]

    return made


def _kron(table: Catalogue) -> numpy.ndarray:
    """The Kron ellipse in units of A_IMAGE."""
    return numpy.asarray(table["KRON_RADIUS"]) / (numpy.asarray(table["A"]) / 2)


# Those that are made of one column each, or of a ratio.
OF_ONE = {
    "NUMBER": Column("J", None, "Number of the source", _own("NUMBER")),
    "FLAGS": Column("I", None, "What may be wrong with it, by bits", _own("FLAGS")),
    "IMAFLAGS_ISO": Column("J", None, "What the flag map has over its pixels", _own("IMAFLAGS")),
    "ISOAREA_IMAGE": Column("J", "pixel**2", "Its pixels", _own("AREA")),
    "KRON_RADIUS": Column("E", None, "Half the long axis of its Kron ellipse over A_IMAGE", _kron),
    "FLUX_RADIUS": Column("E", "pixel", "Half-light radius", _own("FLUX_RADIUS")),
    "FWHM_IMAGE": Column("E", "pixel", "Diameter that holds half of the light", _own("FWHM")),
    "FLUX_MAX": Column("E", "count", "Greatest pixel above the sky", _own("FLUX_MAX")),
    "BACKGROUND": Column("E", "count", "Level of the sky at its centre", _own("BACKGROUND")),
    "THRESHOLD": Column("E", "count", "Least pixel of a source above the sky there", _own("THRESHOLD")),
    "ELONGATION": Column("E", None, "A_IMAGE/B_IMAGE", _own("ELONGATION")),
    "ELLIPTICITY": Column("E", None, "1 - B_IMAGE/A_IMAGE", lambda table: 1 - 1 / numpy.asarray(table["ELONGATION"])),
    "SNR_WIN": Column("E", None, "Signal to noise under a Gaussian of its width", _own("SNR_WIN")),
    "MU_MAX": Column("E", "mag * arcsec**(-2)", "Surface brightness of its greatest pixel", _own("MU_MAX")),
    "VIGNET": Column("E", "count", "Pixels around it, those of others left out", _own("VIGNET")),
    "STELLARITY": Column("E", None, "By the size of the image's point sources", _own("STELLARITY")),
    "A_IMAGE": Column("E", "pixel", "Deviation of its light along the long axis", _own("A", 0.5)),
    "B_IMAGE": Column("E", "pixel", "Deviation of its light along the short axis", _own("B", 0.5)),
    "THETA_IMAGE": Column("E", "deg", "Angle of the long axis from x to y", _own("THETA")),
    "A_WORLD": Column("E", "deg", "Deviation of its light along the long axis", _own("A_SKY", 0.5 / 3600)),
    "B_WORLD": Column("E", "deg", "Deviation of its light along the short axis", _own("B_SKY", 0.5 / 3600)),
    "THETA_J2000": Column("E", "deg", "Angle of the long axis from north to east", _own("PA")),
    "THETAWIN_IMAGE": Column("E", "deg", "Angle of the long axis from x to y", _own("THETA")),
}


def _fluxes() -> Iterator[Tuple[str, Column]]:
    """Fluxes and magnitudes, with their errors."""
    for name, text in {"ISO": "isophotal", "AUTO": "Kron ellipse", "TOTAL": "total", "APER": "circles"}.items():
        for kind, unit in (("FLUX", "count"), ("MAG", "mag")):
            for part, about in (("", ""), ("ERR", "RMS error of ")):
                own = f"{kind}{part}_{name}"
                yield own, Column("E", unit, f"{about}{'Flux' if kind == 'FLUX' else 'Magnitude'}, {text}", _own(own))


def _places() -> Iterator[Tuple[str, Column]]:
    """Positions in the image and on the sky."""
    for axis, other in (("X", "RA"), ("Y", "DEC")):
        for kind, win in (("", ""), ("WIN", "windowed ")):
            place = Column("D", "pixel", f"{win}position along {axis.lower()}", _own(f"{axis}{kind}"))
            yield f"{axis}{kind}_IMAGE", place
            sky = Column("D", "deg", f"{win}position in the ICRS", _own(other))
            yield f"{'ALPHA' if axis == 'X' else 'DELTA'}{kind}_J2000", sky
            yield f"{axis}{kind}_WORLD", sky
        for end in ("MIN", "MAX", "PEAK"):
            text = f"{axis.lower()} of the {'peak' if end == 'PEAK' else end.lower() + 'imum'}"
            yield f"{axis}{end}_IMAGE", Column("J", "pixel", text, _own(f"{axis}{end}"))


def _ellipses() -> Iterator[Tuple[str, Column]]:
    """Error ellipses and second moments."""
    for kind in ("", "WIN"):
        long, short, angle = (f"ERR{part}{kind}" for part in ("A", "B", "THETA"))
        for name, unit in ((long, "pixel"), (short, "pixel"), (angle, "deg")):
            yield f"{name}_IMAGE", Column("E", unit, "Error ellipse of the position", _own(name))
        for which, axes in enumerate(("X2", "Y2", "XY")):
            text = "Error ellipse of the position as a matrix"
            yield f"ERR{axes}{kind}_IMAGE", Column("D", "pixel**2", text, _variance(long, short, angle, which, 1.0))
    for which, axes in enumerate(("X2", "Y2", "XY")):
        yield f"{axes}_IMAGE", Column("D", "pixel**2", "Second moments", _variance("A", "B", "THETA", which, 0.5))


# Source Extractor's columns by their names.
COLUMNS = dict(itertools.chain(OF_ONE.items(), _fluxes(), _places(), _ellipses()))


def column(name: str, table: Catalogue) -> Made:
    """Source Extractor's column of this name, of the package's catalogue; None where that hasn't what it is made of."""
    try:
        return COLUMNS[name].made(table) if name in COLUMNS else None
    except KeyError:
        return None


def _fits_column(name: str, values: numpy.ndarray) -> fits.Column:
    """A column as FITS has it."""
    known = COLUMNS[name]
    sides = values.shape[1:]
    count = int(numpy.prod(sides, dtype=int)) if sides else 1
    plain = numpy.nan_to_num(values) if known.form in "IJ" else values
    return fits.Column(
        name,
        f"{count}{known.form}",
        known.unit,
        dim=f"({', '.join(str(side) for side in sides[::-1])})" if len(sides) > 1 else None,
        array=plain.astype({"I": "i2", "J": "i4", "E": "f4", "D": "f8"}[known.form]),
    )


def _background(table: Catalogue) -> float:
    """The median level of the sky beneath an image's sources, 0 where there are none."""
    levels = numpy.asarray(table["BACKGROUND"] if "BACKGROUND" in table.colnames else [], dtype="f8")
    levels = levels[numpy.isfinite(levels)]
    return float(numpy.median(levels)) if levels.size else 0.0


def _header_text(part: Part) -> str:
    """The cards of an image's header, with those of its file's and what Source Extractor tells of it, up to END."""
    header = fits.Header([("SIMPLE", True), ("BITPIX", -32), ("NAXIS", 2)])
    header["NAXIS1"], header["NAXIS2"] = part.shape[1], part.shape[0]
    for cards in (part.plane.header, part.plane.primary or fits.Header()):
        there = set(header)
        header.extend(
            [card for card in cards.cards if not FORM.fullmatch(card.keyword) and card.keyword not in there],
            strip=False,
        )
    told = part.table.meta
    used = {
        "SEXBKGND": _background(part.table),
        "SEXBKDEV": told.get("SIGMA", told.get("NOISE")),
        "SEXGAIN": told.get("GAIN", 0.0),
        "SEXSATLV": told.get("SATURATE", MOST_VALUE),
        "SEXMGZPT": told.get("ZEROPNT", 0.0),
        "SEXNFIN": len(part.table),
    }
    header.update({name: value for name, value in used.items() if value is not None})
    return header.tostring(endcard=True, padding=False)


def _header_table(text: str) -> bytes:
    """LDAC_IMHEAD with the text of a header, as it stands in a file."""
    text = text.ljust(-(-len(text) // BLOCK) * BLOCK)
    letters = numpy.frombuffer(text.encode("ascii"), dtype="u1").reshape(1, -1, CARD)
    column = fits.Column("Field Header Card", f"{len(text)}B", dim=f"({CARD}, {len(text) // CARD})", array=letters)
    hdu = fits.BinTableHDU.from_columns([column], nrows=1, name="LDAC_IMHEAD")
    # astropy would end texts with NUL bytes, and SCAMP and PSFEx want blanks: so they are written as numbers.
    return _bytes(hdu).replace(f"'{len(text)}B".encode(), f"'{len(text)}A".encode(), 1)


def _bytes(hdu: fits.BinTableHDU) -> bytes:
    """A table as it stands in a file."""
    whole = io.BytesIO()
    fits.HDUList([fits.PrimaryHDU(), hdu]).writeto(whole)
    return whole.getvalue()[BLOCK:]


def _sources_table(table: Catalogue, names: Optional[List[str]]) -> fits.BinTableHDU:
    """LDAC_OBJECTS with these columns, or with all that can be made. Raises Mistake where one can't be."""
    found = {name: column(name, table) for name in names or COLUMNS}
    missing = [name for name, values in found.items() if values is None]
    if names and missing:
        raise Mistake(f"--columns: these sources have no {', '.join(missing)} in FITS_LDAC")
    columns = [_fits_column(name, values) for name, values in found.items() if values is not None]
    return fits.BinTableHDU.from_columns(columns, nrows=len(table), name="LDAC_OBJECTS")


def save(tables: Iterable[Tuple[str, fits.BinTableHDU]], path: str) -> None:
    """Writes tables called LDAC_OBJECTS as FITS_LDAC, each behind the text of its image's header up to END."""
    with open(path, "wb") as file:
        file.write(fits.PrimaryHDU().header.tostring().encode("ascii"))
        for text, table in tables:
            file.write(_header_table(text))
            file.write(_bytes(table))


def write(parts: List[Part], path: str, names: Optional[List[str]] = None) -> None:
    """Writes the sources of images as FITS_LDAC, two tables for each image. `names` are the columns that are wanted, of
    Source Extractor's, by default all. Raises Mistake where there is no such column.
    """
    save(((_header_text(part), _sources_table(part.table, names)) for part in parts), path)
