"""What a catalogue has for its readers: sky coordinates, magnitudes, and units and descriptions of its columns."""
from typing import TYPE_CHECKING, Dict, Optional, Tuple, Union

import numpy
from astropy.io import fits

from . import _skyplaces as skyplaces
from ._columns import CATALOGUE, MEASURES, Column
from ._flags import FLAGS
from ._rows import Rows

if TYPE_CHECKING:
    from astropy.table import Table
    from astropy.wcs import WCS

__all__ = ["COLUMNS", "finished", "finished_rows", "unit_of"]

# The fluxes that `measured` gives, and what each is.
FLUXES = {
    "ISO": "sum over the source's pixels",
    "AUTO": "sum over the Kron ellipse",
    "TOTAL": "total flux",
    "APER": "sum over a circle",
}


def _as_seen(column: Column) -> str:
    """What a column of the program is in a catalogue whose image was scaled for it."""
    return column.text + ("" if column.unit or column.form == "J" else ", in the whole numbers that the program saw")


# A unit and a description for each column. FLUX stands for the unit of the image, BAND for that of a second one.
COLUMNS = {
    "EXTENSION": (None, "name or number of the image's HDU"),
    **{name: (column.unit, _as_seen(column)) for name, column in {**CATALOGUE, **MEASURES}.items()},
    "X": ("pix", "column of the centre in pixels, from 1"),
    "Y": ("pix", "row of the centre in pixels, from 1"),
    "FLUX_ISO": ("FLUX", "sum above the background over the source's pixels"),
    "FLUXERR_ISO": ("FLUX", "its standard deviation"),
    "FLUX_AUTO": ("FLUX", "sum above the background over the Kron ellipse, as Source Extractor takes it"),
    "FLUXERR_AUTO": ("FLUX", "its standard deviation"),
    "FLUX_TOTAL": ("FLUX", "total flux: of a circle or the Kron ellipse, and what point sources have beyond it"),
    "FLUXERR_TOTAL": ("FLUX", "its standard deviation"),
    "KRON_RADIUS": ("pix", "half the long axis of the Kron ellipse"),
    "FLUX_APER": ("FLUX", "sum above the background over circles around the centre"),
    "FLUXERR_APER": ("FLUX", "its standard deviation"),
    "A": ("pix", "half the long axis of the ellipse with the moments of the source's pixels"),
    "B": ("pix", "half its short axis"),
    "THETA": ("deg", "angle of its long axis from the x axis towards the y axis"),
    "FWHM": ("pix", "diameter that holds half of FLUX_AUTO"),
    "ELONGATION": (None, "A over B"),
    "STELLARITY": (
        None,
        "from 1 for what is as wide as the image's point sources to 0 for what is wider, by FLUX_RADIUS",
    ),
    "ERRA": ("pix", "standard deviation of (X, Y) along the long axis of its error ellipse"),
    "ERRB": ("pix", "standard deviation of (X, Y) along the short axis"),
    "ERRTHETA": ("deg", "angle of the long axis from the x axis towards the y axis"),
    "XWIN": ("pix", "column of the centre under a Gaussian window, from 1"),
    "YWIN": ("pix", "row of the centre under a Gaussian window, from 1"),
    "ERRAWIN": ("pix", "standard deviation of (XWIN, YWIN) along the long axis of its error ellipse"),
    "ERRBWIN": ("pix", "standard deviation of (XWIN, YWIN) along the short axis"),
    "ERRTHETAWIN": ("deg", "angle of the long axis from the x axis towards the y axis"),
    "SNR_WIN": (None, "signal over noise under the window"),
    "FLUX_RADIUS": ("pix", "radius that holds half of FLUX_TOTAL"),
    "FLUX_MAX": ("FLUX", "greatest pixel above the background"),
    "XPEAK": ("pix", "column of the greatest pixel, from 1"),
    "YPEAK": ("pix", "row of the greatest pixel, from 1"),
    "MU_MAX": ("mag / arcsec2", "magnitude of FLUX_MAX to a square second of arc"),
    "BACKGROUND": ("FLUX", "background at the centre"),
    "THRESHOLD": ("FLUX", "threshold above the background at the centre, for the smoothed image"),
    "VIGNET": ("FLUX", "pixels around the source above the background; -1e30 for other sources' and undefined ones"),
    "IMAFLAGS": (None, "the bits of the flag map over the source's pixels"),
    "FLAGS": (None, "sum of: " + ", ".join(f"{bit} {text}" for bit, text in FLAGS.items())),
    "RA": ("deg", "right ascension of the centre in the ICRS"),
    "DEC": ("deg", "declination of the centre in the ICRS"),
    "A_SKY": ("arcsec", "half the long axis A on the sky"),
    "B_SKY": ("arcsec", "half the short axis B on the sky"),
    "PA": ("deg", "angle of the long axis on the sky from north towards east"),
}


def _add_magnitudes(table: Rows, zeropoint: float, band: str = "") -> None:
    """Magnitudes and their errors, of the image or of a band; NaN where a flux isn't positive."""
    for name, text in FLUXES.items():
        name = f"{name}_{band}" if band else name
        if f"FLUX_{name}" not in table.colnames:
            continue
        flux, error = (numpy.asarray(table[f"{part}_{name}"], dtype="f8") for part in ("FLUX", "FLUXERR"))
        positive = numpy.where(flux > 0, flux, numpy.nan)
        table[f"MAG_{name}"] = zeropoint - 2.5 * numpy.log10(positive)
        table[f"MAGERR_{name}"] = 2.5 / numpy.log(10) * error / positive
        table.describe(f"MAG_{name}", "mag", f"magnitude of the {text}, {zeropoint:g} for a flux of 1")
        table.describe(f"MAGERR_{name}", "mag", "its standard deviation")


def _add_surface(table: Rows, zeropoint: float, wcs: Optional["WCS"]) -> None:
    """The magnitude of the greatest pixel to a square second of arc, where the sky's scale is known."""
    if wcs is None or "FLUX_MAX" not in table.colnames:
        return
    from astropy.wcs.utils import proj_plane_pixel_area

    area = proj_plane_pixel_area(wcs.celestial) * 3600.0**2
    with numpy.errstate(invalid="ignore", divide="ignore"):
        peak = numpy.where(table["FLUX_MAX"] > 0, table["FLUX_MAX"], numpy.nan)
        table["MU_MAX"] = zeropoint - 2.5 * numpy.log10(peak / area)


def _unit(known: Optional[str], flux: Optional[str]) -> Optional[str]:
    """The unit of a column that `COLUMNS` has, where `flux` is the image's, or None."""
    return (flux or None) if known == "FLUX" else known


def _describe(table: Rows, unit: Optional[str]) -> None:
    """Units and descriptions for the columns that lack them."""
    for name in table.colnames:
        known, text = COLUMNS.get(name, (None, ""))
        told = table.texts.get(name) if name not in COLUMNS else text
        told = told or text or name.lower().replace("_", " ")
        table.describe(name, table.units.get(name, _unit(known, unit)), told)


def _describe_band(table: Rows, band: str, unit: Optional[str]) -> None:
    """Units and descriptions for the columns of a band."""
    for name in table.colnames:
        known, text = COLUMNS.get(name.removesuffix(f"_{band}"), (None, ""))
        if name.endswith(f"_{band}") and text:
            table.describe(name, _unit(known, unit), f"{text}, in {band}")


def unit_of(header: fits.Header) -> Optional[str]:
    """The unit of an image's values by its header, or None."""
    return str(header.get("BUNIT", "")).strip() or None


def _with_exact_centres(table: Rows) -> Rows:
    """The same with centres by the program's columns, as it has them: shifts from tile to tile leave traces in the last
    digits.
    """
    for axis in "XY":
        if f"{axis}CEN" in table.colnames:
            table[axis] = numpy.asarray(table[f"{axis}CEN"]) / 1000
    return table


def _with_extension(table: Rows, name: str) -> Rows:
    """The same with the name of an image's HDU as the first column."""
    names = numpy.full(len(table), name, dtype=f"U{max(len(name), 1)}")
    return Rows({"EXTENSION": names, **dict(table.items())}, table.meta, table.units, table.texts)


def finished(table: "Table", header: Union[None, fits.Header, "WCS"], **more) -> "Table":
    """The same as `finished_rows` of astropy's table."""
    return finished_rows(Rows.of(table), header, **more).table()


def finished_rows(
    table: Rows,
    header: Union[None, fits.Header, "WCS"],
    *,
    zeropoint: Optional[float] = None,
    unit: Optional[str] = None,
    extension: Union[None, int, str] = None,
    bands: Optional[Dict[str, Tuple[Optional[float], Optional[str]]]] = None,
) -> Rows:
    """A copy of a catalogue with all that a reader wants: sky coordinates, magnitudes, and units and descriptions of
    every column.

    `table` has at least X and Y, in pixels from 1. `header` is the image's, or its WCS, or None; where it has
    celestial coordinates the table gets RA and DEC in degrees in the ICRS, whatever frame the header has, and the
    ellipse on the sky; where astropy doesn't know the frame it gets the frame's own two names instead, such as ELON
    and ELAT. A WCS that can't be read is warned of, and nothing is added. With `zeropoint` there are magnitudes,
    `zeropoint` for a flux of 1. `unit` is that of the image's values, by default the header's BUNIT. `extension`, a
    name or number, becomes the first column, EXTENSION. `bands` has for each band its zero point and its unit, or None
    for either.
    """
    table = _with_exact_centres(table.copy())
    wcs = skyplaces.wcs_of(header)
    if wcs is not None:
        skyplaces.add_columns(table, wcs)
    if zeropoint is not None:
        _add_magnitudes(table, zeropoint)
        _add_surface(table, zeropoint, wcs)
    if extension is not None:
        table = _with_extension(table, str(extension))
    if unit is None and isinstance(header, fits.Header):
        unit = unit_of(header)
    for band, (point, own) in (bands or {}).items():
        if point is not None:
            _add_magnitudes(table, point, band)
        _describe_band(table, band, own)
    _describe(table, unit)
    return table
