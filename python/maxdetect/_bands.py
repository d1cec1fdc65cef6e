"""The same sources measured in further images of the same pixels, as columns with a band's name behind theirs."""
import concurrent.futures
import copy
from typing import TYPE_CHECKING, Callable, Optional

import numpy

from . import _measuring as measuring
from ._fields import Field
from ._rows import Rows

if TYPE_CHECKING:
    from ._detection import Detector

__all__ = ["COLUMNS", "columns"]

# The columns that each band has.
COLUMNS = ("FLUX", "FLUXERR", "FWHM", "SNR_WIN", "BACKGROUND", "FLAGS")


def _has(name: str) -> bool:
    """A band has the column of this name."""
    return name.startswith(("FLUX_", "FLUXERR_")) or name in COLUMNS


def columns(
    detector: "Detector",
    band: str,
    field: Field,
    table: Rows,
    segments: numpy.ndarray,
    executor: Optional[concurrent.futures.Executor] = None,
    progress: Callable[[int], None] = lambda count: None,
) -> Rows:
    """The photometry of a detector's sources, whose map this is, in the image that another field has to measure in."""
    other = copy.copy(detector)
    other.field, other.settings = field, field.settings
    own = measuring.sky_of_values(other, executor)
    beside = measuring.sky_beside(other, segments, executor, own)
    points = measuring.points_of(other, beside, executor)
    found = measuring.measured(other, beside, points, table, segments, executor, progress, own)
    return Rows({f"{name}_{band}": found[name] for name in found.colnames if _has(name)})
