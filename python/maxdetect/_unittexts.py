"""Units by their texts. astropy.units takes as long to load as a small image to be measured, so it is asked for units
alone that aren't in the table here.
"""
import warnings
from typing import Optional

__all__ = ["check", "in_fits"]

# How FITS spells units that catalogues and images often have, by their texts; in capital letters it knows none of them,
# and takes them as they stand.
IN_FITS = {
    "pix": "pix",
    "pixel": "pix",
    "pixel**2": "pix2",
    "deg": "deg",
    "arcsec": "arcsec",
    "mag": "mag",
    "mag / arcsec2": "arcsec-2 mag",
    "mag * arcsec**(-2)": "arcsec-2 mag",
    "0.001 pix": "10**-3 pix",
    "0.001 pix2": "10**-3 pix2",
    "adu": "adu",
    "ADU": "ADU",
    "count": "count",
    "counts": "counts",
    "ct": "count",
    "COUNTS": "COUNTS",
    "DN": "DN",
    "electron": "electron",
    "electrons": "electrons",
    "ELECTRONS": "ELECTRONS",
    "electron/s": "electron / s",
    "electrons/s": "electrons/s",
    "ELECTRONS/S": "ELECTRONS/S",
    "counts/s": "counts/s",
    "count/s": "count s-1",
    "ct/s": "count s-1",
    "adu/s": "adu s-1",
    "DN/s": "DN / s",
    "Jy": "Jy",
    "mJy": "mJy",
    "uJy": "uJy",
    "Jy/beam": "beam-1 Jy",
    "MJy/sr": "MJy sr-1",
}


def check(text: Optional[str]) -> None:
    """Raises whatever astropy raises of a text that can't be a unit, nor the name of one."""
    if text and text not in IN_FITS:
        from astropy import units

        units.Unit(text, parse_strict="silent")


def in_fits(text: str) -> str:
    """A unit as FITS spells it, or as astropy writes it where FITS has no such unit."""
    if text in IN_FITS:
        return IN_FITS[text]
    from astropy import units

    with warnings.catch_warnings():
        warnings.simplefilter("ignore", units.UnitsWarning)
        unit = units.Unit(text, parse_strict="silent")
        try:
            return unit.to_string("fits")
        except ValueError:
            return str(unit)
