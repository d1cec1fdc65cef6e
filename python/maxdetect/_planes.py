"""What finding asks of an image, whether it stands in a file or in memory."""
from typing import Optional, Protocol, Tuple, TypeVar

import numpy

__all__ = ["AnyPlane", "OwnPlane"]


class AnyPlane(Protocol):
    """An image that is read by windows, as floating-point numbers."""

    @property
    def shape(self) -> Tuple[int, int]:
        """Height and width, in pixels."""

    @property
    def label(self) -> str:
        """How it is named in what is printed."""

    @property
    def unit(self) -> Optional[str]:
        """The unit of its values, if that is known."""

    @property
    def origin(self) -> int:
        """A whole number near its values, 0 unless 64 bits of floating point don't hold them."""

    @property
    def mapped(self) -> bool:
        """It is sent to another process as its file's name, where the rows that are asked for are read."""

    def window(self, rows: slice, columns: slice = slice(None), less: int = 0) -> numpy.ndarray:
        """The pixels of some rows and columns less a whole number, NaN where they are undefined."""


# The kind of a field's images: those of files can tell more than finding asks.
OwnPlane = TypeVar("OwnPlane", bound=AnyPlane)
