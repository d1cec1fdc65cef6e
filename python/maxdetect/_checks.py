"""Check images: what was taken off an image, what was left, its noise, and the ellipses in which light was summed."""
import math
import pathlib
from typing import Callable, Dict, Optional, Union

import numpy

from ._measuring import noise_beside
from ._rows import Rows
from ._sky import Sky

__all__ = ["name", "rows_of", "writer"]

ROWS = 256


def name(output: str, kind: str) -> str:
    """The file of a check image beside a catalogue's: CATALOGUE.background.fits."""
    base = pathlib.Path(output)
    return str(base.with_name(f"{base.stem}.{kind}.fits"))


def _draw(table: Rows, image: numpy.ndarray) -> None:
    """Draws the Kron ellipses of sources into an image, each with its source's greatest pixel."""
    height, width = image.shape
    names = ("X", "Y", "A", "B", "THETA", "KRON_RADIUS", "FLUX_MAX")
    for left, up, long_axis, short_axis, angle, long, peak in zip(*(table[name].tolist() for name in names)):
        turned = math.radians(angle)
        if not math.isfinite(long):
            continue
        around = numpy.linspace(0, 2 * math.pi, max(16, math.ceil(4 * math.pi * long)))
        along, across = long * numpy.cos(around), long * short_axis / long_axis * numpy.sin(around)
        x = numpy.round(left - 1 + along * math.cos(turned) - across * math.sin(turned)).astype(int)
        y = numpy.round(up - 1 + along * math.sin(turned) + across * math.cos(turned)).astype(int)
        inside = (x >= 0) & (y >= 0) & (x < width) & (y < height)
        image[y[inside], x[inside]] = peak


def rows_of(kind: str, detector, found: Sky, own: Sky, rows: slice) -> Union[float, numpy.ndarray]:
    """Some rows of a check image, or the one number that they have."""
    every, field = slice(0, detector.field.shape[1]), detector.field
    if kind == "rms":
        return noise_beside(field, found, own, rows, every)
    level = found.level(rows, every)
    if kind == "background":
        return level + (field.values or field.plane).origin
    return field.to_measure(rows, every) - level


def writer(images: Dict[str, numpy.ndarray]) -> Callable[..., None]:
    """What fills these check images, arrays by their kinds, from what is known of a field when its sources are."""

    def told(detector, found: Optional[Sky], own: Optional[Sky], table: Rows) -> None:
        for kind, image in images.items():
            for top in range(0, image.shape[0], ROWS):
                rows = slice(top, min(top + ROWS, image.shape[0]))
                if found is None or own is None:
                    image[rows] = numpy.nan
                else:
                    image[rows] = rows_of(kind, detector, found, own, rows)
            if kind == "apertures":
                _draw(table, image)

    return told
