"""Cards of an image's header, each checked when it is read: what is wrong with one is told by its name."""
import math
from typing import Optional, Union

from astropy.io import fits

from . import _unittexts as unittexts

__all__ = ["number", "text", "unit"]


def _value(header: fits.Header, keyword: str):
    """A card's value, or None where the header hasn't the card or it has no value."""
    try:
        value = header.get(keyword)
    except (fits.VerifyError, ValueError):
        raise ValueError(f"{keyword} can't be read") from None
    return None if isinstance(value, fits.card.Undefined) else value


def number(header: fits.Header, keyword: str) -> Union[None, int, float]:
    """A finite number, or None where the header has none of this name. Raises ValueError for anything else."""
    value = _value(header, keyword)
    if value is None:
        return None
    if isinstance(value, bool) or not isinstance(value, (int, float)) or not math.isfinite(value):
        raise ValueError(f"{keyword} isn't a number: {value}")
    return value


def text(header: fits.Header, keyword: str) -> Optional[str]:
    """A text without blanks around it, or None where the header has none of this name or it is empty. Raises
    ValueError for anything else.
    """
    value = _value(header, keyword)
    if value is not None and not isinstance(value, str):
        raise ValueError(f"{keyword} isn't a text: {value}")
    return (value or "").strip() or None


def unit(header: fits.Header) -> Optional[str]:
    """BUNIT, as it stands, if it is a unit or at least the name of one. Raises ValueError where it can't be."""
    name = text(header, "BUNIT")
    try:
        unittexts.check(name)
    except Exception as error:  # noqa: BLE001  astropy's parsers raise many kinds.
        raise ValueError(f"BUNIT can't be read: {name} ({type(error).__name__})") from None
    return name
