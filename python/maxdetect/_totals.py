"""Total fluxes: what an aperture holds, and what point sources of the same image have beyond it.

A source as narrow as point sources gets its flux from a circle about as wide as these, which holds more of its light
for its noise than a larger one, and takes in less of its neighbours'. A wider source gets its flux from its ellipse.
Which of them a source is two circles tell: a wider source has more light between them. Sources in between get a part
of both, so that no flux depends on a step.
"""
from typing import Callable, Optional, Tuple

import numpy

from ._pointlike import PointSources

__all__ = ["of", "reach", "sizes"]

# The radii of the circle from which a point source gets its flux, and of the one that tells whether a source is wider,
# in widths of a point source; and the width in pixels that is taken at least, since where a star stands in a pixel
# tells much of what a narrower circle holds.
NEAR, FAR, LEAST_WIDTH = 0.9, 1.3, 2.5
# By which part of its flux a source has more light in the outer circle than point sources have, where it begins to be
# taken for a wider one, and where it is taken for nothing else. Of a source that was split from a neighbour it is this
# many times as much, since some of that light is the neighbour's.
NARROW, WIDE, SPLIT = 0.04, 0.14, 2.0

Fluxes = Tuple[numpy.ndarray, numpy.ndarray]


def sizes(points: Optional[PointSources]) -> Tuple[float, ...]:
    """The radii of the circles, in pixels: from the least on, none without point sources."""
    return tuple(times * max(points.width, LEAST_WIDTH) for times in (NEAR, FAR)) if points else ()


def reach(points: Optional[PointSources]) -> float:
    """The radius of the largest circle, in pixels."""
    return max(sizes(points), default=0.0)


def _wide(near: numpy.ndarray, far: numpy.ndarray, split: numpy.ndarray) -> Tuple[numpy.ndarray, numpy.ndarray]:
    """From 0 for point sources to 1 for wider ones, by what two circles tell of the whole light; and by how much it
    grows with the outer circle's flux.
    """
    times = numpy.where(split, SPLIT, 1)
    with numpy.errstate(invalid="ignore", divide="ignore"):
        part = numpy.clip(((far / near - 1) / times - NARROW) / (WIDE - NARROW), 0, 1)
        slope = 6 * part * (1 - part) / (WIDE - NARROW) / times / near
    # Where there is no light to compare, the circle is the steadier.
    known = (near > 0) & numpy.isfinite(part)
    return numpy.where(known, part**2 * (3 - 2 * part), 0), numpy.where(known, slope, 0)


def of(
    points: Optional[PointSources],
    circle: Callable[[float], Fluxes],
    flux: numpy.ndarray,
    error: numpy.ndarray,
    radius: numpy.ndarray,
    split: numpy.ndarray,
) -> Fluxes:
    """The total fluxes of sources, and their errors.

    `circle` gives the fluxes of all sources within circles of a radius in pixels, and their errors; `flux` and `error`
    are those within their ellipses, whose mean radii are given, and `split` says which of them were split from a
    neighbour. Without `points` the fluxes within the ellipses are the total ones.
    """
    if points is None:
        return flux, error
    (near, near_error), (far, far_error) = (
        tuple(it / points.share(size) for it in circle(size)) for size in sizes(points)
    )
    flux, error = (it / points.share(radius) for it in (flux, error))
    wide, slope = _wide(near, far, split)
    # The circles lie within the ellipse: its noise is that of the inner one, that of the ring around it, which tells
    # too how wide the source is taken to be, and that of the rest.
    ring, rest = (numpy.maximum(it, 0) for it in (far_error**2 - near_error**2, error**2 - far_error**2))
    variance = near_error**2 + ring * (wide + slope * (flux - near)) ** 2 + rest * wide**2
    return near + wide * (flux - near), numpy.sqrt(variance)
