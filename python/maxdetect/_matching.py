"""Sources of two catalogues at the same place of the sky."""
import astropy.units
import numpy
from astropy.coordinates import SkyCoord
from astropy.table import Table, hstack

from ._errors import Mistake

__all__ = ["match"]


def _places(table: Table, which: str) -> SkyCoord:
    """The rows' places, by RA and DEC in degrees in the ICRS."""
    if not {"RA", "DEC"} <= set(table.colnames):
        raise Mistake(f"the {which} catalogue has no RA and DEC; a survey's has them where its fields' sky is given")
    degrees = [numpy.ma.asarray(table[name]).filled(numpy.nan).astype("f8") for name in ("RA", "DEC")]
    return SkyCoord(*degrees, unit="deg")


def match(first: Table, second: Table, radius: float) -> Table:
    """For each source of one catalogue the nearest one of another, where it lies near enough on the sky.

    A source of `second` may stand in several rows; rows without a place have no match.

    Parameters
    ----------
    first : astropy.table.Table
        Has the columns RA and DEC, in degrees in the ICRS, as the tables of `maxcat` and of `Survey.table(sky=...)` do.
    second : astropy.table.Table
        Has them too.
    radius : float
        The greatest angle between two sources, in arcseconds.

    Returns
    -------
    astropy.table.Table
        The columns of both, those of the same name with _1 and _2, and SEPARATION, in arcseconds.

    Raises
    ------
    Mistake
        Where a catalogue has no RA and DEC.

    Examples
    --------
    >>> from astropy.table import Table
    >>> one, other = Table({"RA": [10.0, 20.0], "DEC": [0.0, 0.0]}), Table({"RA": [20.0001], "DEC": [0.0]})
    >>> print(match(one, other, 1)["RA_1", "RA_2"].as_array())
    [(20., 20.0001)]
    """
    places, others = _places(first, "first"), _places(second, "second")
    here, there = (numpy.flatnonzero(numpy.isfinite(it.ra.deg) & numpy.isfinite(it.dec.deg)) for it in (places, others))
    if not len(here) or not len(there):
        found, near, separation = here[:0], there[:0], numpy.zeros(0)
    else:
        nearest, angles, _ = places[here].match_to_catalog_sky(others[there])
        close = angles.arcsec <= radius
        found, near, separation = here[close], there[nearest[close]], angles.arcsec[close]
    joined = hstack([first[found], second[near]], table_names=["1", "2"], metadata_conflicts="silent")
    joined["SEPARATION"] = separation
    joined["SEPARATION"].unit = astropy.units.arcsec
    joined["SEPARATION"].description = "angle between the two places"
    return joined
