"""Places in the sky: the coordinates of sources by the WCS of their image.

What is computed here is floating point by astropy and numpy, and nothing of it is proved.
"""
import gc
import re
import warnings
from typing import TYPE_CHECKING, NamedTuple, Optional, Tuple, Union

import numpy
from astropy.io import fits

from ._rows import Rows

if TYPE_CHECKING:
    from astropy.wcs import WCS

__all__ = ["WCS_CARDS", "add_columns", "icrs_places", "load", "wcs_of"]

# The cards that make up a WCS of the first two axes, for any of its versions.
WCS_CARDS = re.compile(
    r"(WCSAXES|WCSNAME|LONPOLE|LATPOLE|RADESYS|RADECSYS|EQUINOX|EPOCH|MJD-OBS|DATE-OBS"
    r"|C(TYPE|RVAL|RPIX|DELT|UNIT|ROTA|RDER|SYER)[12]|(PC|CD)[12]_[12]|PC00[12]00[12]|(PV|PS)[12]_\d+"
    r"|[ABD]P?_(ORDER|DMAX|\d+_\d+))[A-Z]?"
)
DATES = ("DATE-OBS", "MJD-OBS")
# Those of them that are numbers.
WCS_NUMBERS = re.compile(r"C(RVAL|RPIX|DELT|ROTA)[12]|(PC|CD)[12]_[12]|PC00[12]00[12]|PV[12]_\d+|LONPOLE|LATPOLE")


def _has_cards(header: fits.Header) -> bool:
    """The header has cards of a WCS, other than dates."""
    return any(WCS_CARDS.fullmatch(name) and name not in DATES for name in header)


def load(header: fits.Header) -> None:
    """Has astropy loaded what a header's WCS wants, where it has one: that takes longer than a small image, and may be
    done while others work. What is loaded stays, so Python isn't to look through it for garbage meanwhile.
    """
    collects = gc.isenabled()
    gc.disable()
    try:
        if _has_cards(header):
            from astropy import wcs  # noqa: F401
    finally:
        if collects:
            gc.enable()


def wcs_of(header: Union[None, fits.Header, "WCS"]) -> Optional["WCS"]:
    """The celestial WCS of a header's first two axes, or None where it has none that can be read, which is warned
    of.
    """
    if header is None or not isinstance(header, fits.Header):
        return header if header is not None and header.has_celestial else None
    if not _has_cards(header):
        return None
    load(header)
    from astropy.wcs import WCS, FITSFixedWarning

    try:
        for card in header.cards:
            # wcslib passes over such a card, and takes 0 for its value.
            if WCS_NUMBERS.fullmatch(card.keyword) and isinstance(card.value, (str, bool)):
                raise ValueError(f"{card.keyword} is no number")
        with warnings.catch_warnings():
            warnings.simplefilter("ignore", FITSFixedWarning)
            wcs = WCS(header, naxis=2)
    except Exception as error:  # noqa: BLE001  astropy raises many kinds.
        warnings.warn(
            f"no sky coordinates: the header's WCS can't be read ({str(error).strip().splitlines()[-1]})", stacklevel=3
        )
        return None
    return wcs if wcs.has_celestial else None


def _frame(wcs: "WCS"):
    """astropy's frame of a WCS, or None where astropy knows none."""
    # astropy takes longitudes of another name for right ascensions where RADESYS is there.
    if wcs.wcs.ctype[wcs.wcs.lng].split("-")[0] not in ("RA", "GLON", "TLON"):
        return None
    from astropy.wcs.utils import wcs_to_celestial_frame

    try:
        return wcs_to_celestial_frame(wcs)
    except ValueError:
        return None


def _degrees(wcs: "WCS", x: numpy.ndarray, y: numpy.ndarray) -> Tuple[numpy.ndarray, numpy.ndarray]:
    """Longitudes and latitudes in the WCS's own frame; NaN where a place has none."""
    if not len(x):
        return numpy.zeros(0), numpy.zeros(0)
    # The last argument counts pixels from 1.
    places = wcs.all_pix2world(numpy.column_stack([x, y]), 1)
    return places[:, wcs.wcs.lng], places[:, wcs.wcs.lat]


def _own_names(wcs: "WCS") -> Tuple[str, str]:
    """What the frame calls its longitude and latitude, such as ELON and ELAT."""
    longitude, latitude = (wcs.wcs.ctype[axis].split("-")[0] for axis in (wcs.wcs.lng, wcs.wcs.lat))
    return longitude or "LON", latitude or "LAT"


class _Places(NamedTuple):
    """Places in the ICRS, in degrees."""

    longitude: numpy.ndarray
    latitude: numpy.ndarray

    def _radians(self, other: "_Places"):
        """How far another place lies to the east, and the sines and cosines of both latitudes."""
        east = numpy.radians(other.longitude) - numpy.radians(self.longitude)
        own, its = numpy.radians(self.latitude), numpy.radians(other.latitude)
        return east, numpy.sin(own), numpy.cos(own), numpy.sin(its), numpy.cos(its)

    def apart(self, other: "_Places") -> numpy.ndarray:
        """How far other places lie away, in seconds of arc: by the formula of Vincenty (1975), which holds anywhere."""
        east, sine, cosine, its_sine, its_cosine = self._radians(other)
        across = numpy.hypot(its_cosine * numpy.sin(east), cosine * its_sine - sine * its_cosine * numpy.cos(east))
        along = sine * its_sine + cosine * its_cosine * numpy.cos(east)
        return numpy.degrees(numpy.arctan2(across, along)) * 3600

    def angle_to(self, other: "_Places") -> numpy.ndarray:
        """The angles in degrees from north towards east at which other places lie."""
        east, sine, cosine, its_sine, its_cosine = self._radians(other)
        north = its_sine * cosine - its_cosine * sine * numpy.cos(east)
        return numpy.degrees(numpy.arctan2(numpy.sin(east) * its_cosine, north)) % 360


def _icrs(wcs: "WCS", frame, x: numpy.ndarray, y: numpy.ndarray) -> _Places:
    longitude, latitude = _degrees(wcs, x, y)
    if frame.name == "icrs":
        return _Places(longitude % 360, latitude)
    from astropy.coordinates import SkyCoord

    found = SkyCoord(longitude, latitude, unit="deg", frame=frame).icrs
    return _Places(found.ra.deg, found.dec.deg)


def icrs_places(
    header: Union[fits.Header, "WCS"], x: numpy.ndarray, y: numpy.ndarray
) -> Tuple[numpy.ndarray, numpy.ndarray]:
    """Right ascensions and declinations in degrees in the ICRS of places in pixels from 1; NaN where the header has no
    celestial coordinates, or astropy doesn't know their frame.
    """
    wcs = wcs_of(header)
    frame = None if wcs is None else _frame(wcs)
    if frame is None or not len(x):
        return numpy.full(len(x), numpy.nan), numpy.full(len(x), numpy.nan)
    centre = _icrs(wcs, frame, numpy.asarray(x, dtype="f8"), numpy.asarray(y, dtype="f8"))
    return centre.longitude, centre.latitude


def add_columns(table: Rows, wcs: "WCS") -> None:
    """The columns of the place in the sky, and of the ellipse there."""
    names = ("XWIN", "YWIN") if "XWIN" in table.colnames else ("X", "Y")
    x, y = (numpy.asarray(table[name], dtype="f8") for name in names)
    frame = _frame(wcs)
    if frame is None:
        for name, values in zip(_own_names(wcs), _degrees(wcs, x, y)):
            table[name] = values
            table.describe(name, "deg", "coordinate of the centre in the frame of the image's header")
        return
    centre = _icrs(wcs, frame, x, y)
    table["RA"], table["DEC"] = centre
    if not {"A", "B", "THETA"} <= set(table.colnames):
        return
    angle = numpy.radians(numpy.asarray(table["THETA"]))
    along = _icrs(wcs, frame, x + numpy.cos(angle), y + numpy.sin(angle))
    across = _icrs(wcs, frame, x - numpy.sin(angle), y + numpy.cos(angle))
    table["A_SKY"] = numpy.asarray(table["A"]) * centre.apart(along)
    table["B_SKY"] = numpy.asarray(table["B"]) * centre.apart(across)
    table["PA"] = centre.angle_to(along) % 180
