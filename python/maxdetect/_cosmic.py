"""Cosmic rays: pixels that stand out more sharply than any source does that the optics have blurred.

They are found by astroscrappy (L.A.Cosmic) in bands of rows that don't depend on tiles, so a pixel's answer doesn't
either. Where stars are narrower than two pixels they are as sharp as cosmic rays, and this isn't the way.
"""
from typing import Optional

import numpy

from . import _looks as looks, _sky as sky
from ._errors import Mistake
from ._fields import Field

__all__ = ["check", "struck"]

# The rows of a band, and how many more on each side are looked at: four rounds of medians over 5 and 7 pixels, each
# growing what was found, reach less far.
BAND, MARGIN = 1024, 64
# The electrons of a pixel's noise where no gain is known: so many that a source's own noise counts for little.
MANY = 1e4
# Saturated pixels are no cosmic rays; without a limit none are. 32 bits have room for this.
NEVER = 1e30


def check() -> None:
    """Raises Mistake where astroscrappy isn't there."""
    try:
        import astroscrappy  # noqa: F401
    except ImportError:
        raise Mistake("--cosmic-rays wants astroscrappy (Debian: python3-astroscrappy)") from None


def struck(field: Field, found: sky.Sky) -> numpy.ndarray:
    """Which pixels of a field with this sky cosmic rays have hit: truth values of its shape.

    Raises Mistake where astroscrappy isn't there.
    """
    check()
    height, hit = field.shape[0], numpy.zeros(field.shape, dtype=bool)
    electrons = looks.electrons(field, found) or MANY
    limit = None
    if field.own_saturation is not None:
        limit = float((field.own_saturation - found.zero) / found.noise) * electrons
    for top in range(0, height, BAND):
        begin, end = max(0, top - MARGIN), min(height, top + BAND + MARGIN)
        seen = looks.seen(field, found, 0, slice(begin, end), slice(0, field.shape[1]))
        bottom = min(height, top + BAND)
        hit[top:bottom] = _in_band(seen, electrons, limit)[top - begin : bottom - begin]
    return hit


def _in_band(seen: numpy.ndarray, electrons: float, limit: Optional[float]) -> numpy.ndarray:
    """The same of some rows, given in deviations of a pixel's noise, which has so many electrons."""
    import astroscrappy

    undefined = ~numpy.isfinite(seen)
    # Above the sky, whose electrons and the reading's are in the noise.
    light = numpy.where(undefined, numpy.float32(0), seen * numpy.float32(electrons))
    hit, _ = astroscrappy.detect_cosmics(
        light, inmask=undefined, gain=1.0, readnoise=electrons, satlevel=NEVER if limit is None else limit
    )
    return hit
