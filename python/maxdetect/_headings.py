"""What a catalogue's header says of the images that it was made of, and of how it was made."""
import re
from typing import Any, Dict, List, Optional

from ._fields import Field
from ._images import Plane

__all__ = ["inherited", "joined", "of_field"]

# Cards of an image that a reader of its catalogue asks for.
CARDS = ("OBJECT", "FILTER", "DATE-OBS", "MJD-OBS", "EXPTIME", "AIRMASS", "TELESCOP", "INSTRUME")
# What of the primary header counts for an image in an extension.
INHERITED = ("GAIN", "SATURATE")


def plain(text: str) -> str:
    """A text as a FITS header takes it: printable ASCII alone."""
    return re.sub(r"[^ -~]", "?", text)


def inherited(plane: Plane) -> List[str]:
    """The numbers that an image in an extension has from the primary header of its file."""
    return [name for name in INHERITED if plane.inherits(name) and plane.positive(name) is not None]


def of_field(field: Field[Plane], zeropoint: Optional[float]) -> Dict[str, Any]:
    """Cards that say what an image of a file was measured with, and what its own header says of it."""
    plane, settings = field.values or field.plane, field.settings
    told: Dict[str, Any] = {"GAIN": settings.gain, "SATURATE": settings.saturation}
    told.update(ZEROPNT=zeropoint, SIGMAS=settings.sigmas)
    told.update({name: plane.in_passing(name) for name in CARDS})
    return {name: plain(it) if isinstance(it, str) else it for name, it in told.items() if it is not None}


def _numbered(name: str, number: int) -> str:
    """The name of a card that says of one of several images what NAME says of one."""
    return f"{name.replace('-OBS', '')[:5]}{number}"


def joined(told: List[Dict[str, Any]]) -> Dict[str, Any]:
    """The cards of several images: one for all where it is alike in all, and else one for each, with the image's place
    among them behind its name, as HDU1, GAIN1 and HDU2, GAIN2.
    """
    if len(told) == 1:
        return dict(told[0])
    alike = {name: value for name, value in told[0].items() if all(other.get(name) == value for other in told)}
    apart = {}
    for place, cards in enumerate(told, 1):
        apart.update({_numbered(name, place): value for name, value in cards.items() if name not in alike})
    return {**alike, **apart}
