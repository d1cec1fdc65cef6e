"""Images of astropy's NDData and CCDData, taken apart into what the package's functions take.

astropy loads these classes late, and so does the package: who has such an image has loaded them.
"""
import sys
from typing import TYPE_CHECKING, Any, NamedTuple, Optional, Union

import numpy
from astropy.io import fits

from ._errors import Mistake

if TYPE_CHECKING:
    from astropy.nddata import NDData
    from astropy.wcs import WCS

__all__ = ["AnyImage", "Parts", "array_of", "noise_of", "parts_of"]

AnyImage = Union[numpy.ndarray, "NDData"]

# For each kind of uncertainty that is taken: which power of a standard deviation it is.
POWERS = {"std": 1, "var": 2, "ivar": -2}


class Parts(NamedTuple):
    """An image's array, a masked one where the image has a mask; the noise of its pixels, in its units; its unit as
    FITS spells it; and its WCS. Of an image that isn't astropy's there are the array and the noise that is given.
    """

    array: Any
    noise: Any = None
    unit: Optional[str] = None
    wcs: Optional["WCS"] = None


def _is_nddata(image: Any) -> bool:
    loaded = sys.modules.get("astropy.nddata")
    return loaded is not None and isinstance(image, loaded.NDData)


def _masked(image: "NDData") -> numpy.ndarray:
    """The array of such an image."""
    values = numpy.asanyarray(image.data)
    if image.mask is None:
        return values
    mask = numpy.asarray(image.mask, dtype=bool)
    if mask.shape not in ((), values.shape):
        raise ValueError(f"the image's mask has the sides {mask.shape}, the image {values.shape}")
    return numpy.ma.MaskedArray(values, mask=numpy.broadcast_to(mask, values.shape))


def _noise(image: "NDData") -> Optional[numpy.ndarray]:
    """One standard deviation of its pixels, in its units; NaN or infinite where an uncertainty tells none."""
    told = image.uncertainty
    if told is None or told.array is None:
        return None
    power = POWERS.get(told.uncertainty_type)
    if power is None:
        raise Mistake(f"an uncertainty of the kind {told.uncertainty_type} isn't taken, but one of std, var and ivar")
    with numpy.errstate(divide="ignore", invalid="ignore"):
        noise = numpy.asarray(told.array, dtype="f8") ** (1 / power)
    if told.unit is None or image.unit is None:
        return noise
    return noise * (told.unit ** (1 / power)).to(image.unit)


def _unit(image: "NDData") -> Optional[str]:
    """The text of its unit, None where it has none or is a plain number."""
    if image.unit is None:
        return None
    try:
        return image.unit.to_string("fits") or None
    except ValueError:
        return str(image.unit) or None


def _wcs(image: "NDData") -> Optional["WCS"]:
    from astropy.wcs import WCS

    if image.wcs is not None and not isinstance(image.wcs, WCS):
        raise Mistake(f"sky coordinates by {type(image.wcs).__name__} aren't taken, but by astropy.wcs.WCS")
    return image.wcs


def _check_header(parts: Parts, header: fits.Header) -> None:
    """Raises Mistake where a header says again what an image says."""
    from astropy import units

    if parts.wcs is not None and any(name in header for name in ("CTYPE1", "CTYPE2")):
        raise Mistake("sky coordinates are given twice: the image has a WCS, and the header another")
    text = str(header.get("BUNIT", "")).strip()
    if parts.unit and text and units.Unit(text, parse_strict="silent") != units.Unit(parts.unit, parse_strict="silent"):
        raise Mistake(f"units are given twice: {parts.unit} by the image, and {text} by the header")


def array_of(image: AnyImage, mask: Optional[numpy.ndarray] = None) -> numpy.ndarray:
    """The array of an image, a masked one where astropy's has a mask. Raises Mistake where `mask` is another one."""
    if not _is_nddata(image):
        return image
    own: Any = image
    if mask is not None and own.mask is not None:
        raise Mistake("a mask is given twice: the image has one, and mask= is another")
    return _masked(own)


def noise_of(image: AnyImage, noise: Any = None) -> Any:
    """The noise of an image's pixels: `noise`, or what astropy's tells, in the image's units; None where neither does.
    Raises Mistake where both do.
    """
    own = _noise(image) if _is_nddata(image) else None
    if noise is not None and own is not None:
        raise Mistake("the noise is given twice: the image has an uncertainty, and noise= is another")
    return noise if own is None else own


def parts_of(image: AnyImage, *, noise: Any = None, header: Optional[fits.Header] = None) -> Parts:
    """The parts of an image. Raises Mistake for one that is given besides, and for one of a kind that isn't taken."""
    if not _is_nddata(image):
        return Parts(image, noise)
    parts = Parts(array_of(image), noise_of(image, noise), _unit(image), _wcs(image))
    if header is not None:
        _check_header(parts, header)
    return parts
