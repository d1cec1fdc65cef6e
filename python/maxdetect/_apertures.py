"""Sums over the pixels around sources, as SEP makes them: the light in circles and ellipses, and how far it reaches.

Pixels of other sources have no part in any of them: they count as sky, which is 0. Undefined pixels, which are 0 too,
count in fluxes as the mean of all others. A loop in C does this where it is there, and else SEP itself, with the same
numbers. The loop goes by SEP 1.2.
"""
import ctypes
import functools
from typing import Callable, NamedTuple, Sequence, Tuple, Union

import numpy
import sep

from . import _boxes as boxes
from ._loops import Loop, array, number, whole

__all__ = ["Apertures", "Fluxes"]

# Undefined pixels are first looked for in squares of so many pixels along a side.
COARSE = 8
# How many subpixels along its side a pixel has at a circle's edge, and in the rings in which half of the light is
# sought. At an ellipse's edge it counts as a whole.
CIRCLE, ELLIPSE, RINGS = 5, 1, 3
# Half of the light is sought within this part of the circle first, since that is quicker, and taken from there where
# its radius is less than that part of the circle's.
NEAR, ENOUGH = 0.4, 0.39

Noise = Union[float, numpy.ndarray]


class _Field(ctypes.Structure):
    """The loops' struct field."""

    _fields_ = [(name, ctypes.c_void_p) for name in ("light", "segments", "deviations", "undefined")] + [
        ("deviation", number),
        *((name, whole) for name in ("height", "width", "sources")),
        *((name, ctypes.c_void_p) for name in ("x", "y", "numbers")),
    ]


_FIELD, _REALS, _FLUXES = ctypes.POINTER(_Field), array("f8"), (array("f8"), array("f8"), array("i2"), array("?"))
_CIRCLES = Loop("circles", _FIELD, whole, _REALS, *_FLUXES)
_ELLIPSES = Loop("ellipses", _FIELD, _REALS, _REALS, _REALS, _REALS, *_FLUXES)
_KRON = Loop("kron_radii", _FIELD, _REALS, _REALS, _REALS, number, _REALS)
_HALF = Loop("half_radii", _FIELD, whole, _REALS, _REALS, number, number, _REALS)


class Fluxes(NamedTuple):
    """The light in an aperture of each source, its error without the light's own, SEP's flags, and whether there are
    undefined pixels; NaN where no pixel has a value.
    """

    flux: numpy.ndarray
    error: numpy.ndarray
    told: numpy.ndarray
    holed: numpy.ndarray


def _filled(flux, error, unseen, area, told) -> Fluxes:
    """Fluxes with the undefined pixels, which have no light in these, as the mean of all others: they are so much of
    the apertures' area.
    """
    holed = unseen > 0
    if holed.any():
        unseen, area = unseen[holed], area[holed]
        with numpy.errstate(divide="ignore", invalid="ignore"):
            times = numpy.where(area > unseen, area / (area - unseen), numpy.nan)
        flux[holed], error[holed] = flux[holed] * times, error[holed] * numpy.sqrt(times)
    return Fluxes(flux, error, told, holed)


class _Holes:
    """The undefined pixels of an image, of which there are some, and which sources have one near them."""

    def __init__(self, undefined: numpy.ndarray):
        (height, width), (down, across) = undefined.shape, (-(-side // COARSE) for side in undefined.shape)
        squares = numpy.zeros((down * COARSE, across * COARSE), dtype=bool)
        squares[:height, :width] = undefined
        squares = squares.reshape(down, COARSE, -1).any(axis=1).reshape(down, across, COARSE).any(axis=2)
        self._shape, self._sums = undefined.shape, boxes.sums(squares, "i4")
        # Images as SEP takes them: 1 at undefined pixels and else 0, and 1 everywhere.
        self.images = undefined, numpy.ones(undefined.shape, dtype=bool)

    def near(self, x: numpy.ndarray, y: numpy.ndarray, reach: numpy.ndarray) -> numpy.ndarray:
        """The places of all sources that have one so near their centres, by columns and rows, and of some that have one
        a little further off.
        """
        bounds = []
        for centre, side in zip((y, x), self._shape):
            low, high = numpy.floor(centre - reach) - 1, numpy.ceil(centre + reach) + 2
            low, high = numpy.nan_to_num(low), numpy.nan_to_num(high)
            bounds.append(numpy.clip(low, 0, side).astype(int) // COARSE)
            bounds.append(-(-numpy.clip(high, 0, side).astype(int) // COARSE))
        return numpy.flatnonzero(boxes.within(self._sums, *bounds))


class Apertures:
    """Apertures around sources of an image.

    `light` is the image less its background, `noise` that of its pixels (one number, or an array), `undefined` says
    which of them have no value, `segments` which source each belongs to, and `numbers`, `x` and `y` are the sources'
    numbers, above 0, and their centres, counted from 0.
    """

    def __init__(
        self,
        light: numpy.ndarray,
        noise: Noise,
        undefined: numpy.ndarray,
        segments: numpy.ndarray,
        numbers: numpy.ndarray,
        x: numpy.ndarray,
        y: numpy.ndarray,
    ):
        self._light, self._undefined = numpy.ascontiguousarray(light, "f4"), numpy.ascontiguousarray(undefined, "?")
        self._segments = numpy.ascontiguousarray(segments, "i4")
        self._noise: Noise = float(noise) if numpy.ndim(noise) == 0 else numpy.ascontiguousarray(noise, "f4")
        self._numbers = numpy.ascontiguousarray(numbers, "i4")
        self._x, self._y = (numpy.ascontiguousarray(it, "f8") for it in (x, y))
        for sides in (self._undefined.shape, self._segments.shape, numpy.shape(self._noise)):
            if sides not in ((), self._light.shape):
                raise ValueError(f"an image has the sides {sides}, the light {self._light.shape}")
        if not len(self._numbers) == len(self._x) == len(self._y):
            raise ValueError("numbers and centres are not as many")
        self._holed, self._plain = bool(self._undefined.any()), bool((self._numbers > 0).all())

    @functools.cached_property
    def _alone(self) -> dict:
        """What tells SEP which pixels belong to other sources."""
        return {"segmap": self._segments, "seg_id": self._numbers}

    @functools.cached_property
    def _holes(self) -> _Holes:
        return _Holes(self._undefined)

    @functools.cached_property
    def _field(self) -> _Field:
        deviations, deviation = (None, self._noise) if isinstance(self._noise, float) else (self._noise, 0.0)
        images = (self._light, self._segments, deviations, self._undefined if self._holed else None)
        height, width = self._light.shape
        return _Field(
            *(None if it is None else it.ctypes.data for it in images),
            *(deviation, height, width, len(self._numbers)),
            *(it.ctypes.data for it in (self._x, self._y, self._numbers)),
        )

    def _each(self, *values) -> Tuple[numpy.ndarray, ...]:
        """Numbers for the sources, one for each."""
        return tuple(numpy.array(numpy.broadcast_to(it, self._x.shape), "f8", order="C") for it in values)

    def _room(self, *shape: int) -> Fluxes:
        """Where a loop puts fluxes of this shape."""
        return Fluxes(*(numpy.empty(shape, dtype) for dtype in ("f8", "f8", "i2", "?")))

    def _by_sep(self, sums: Callable, places: tuple, reach: numpy.ndarray, subpix: int) -> Fluxes:
        """`sums` is a function of SEP with what it wants behind the image, and no aperture reaches further than `reach`
        from its centre.
        """
        flux, error, told = sums(self._light, *places, err=self._noise, subpix=subpix, **self._alone)
        unseen, area = numpy.zeros(len(flux)), numpy.zeros(len(flux))
        if self._holed:
            near = self._holes.near(self._x, self._y, reach)
            for part, image in zip((unseen, area), self._holes.images):
                part[near] = sums(image, *(it[near] for it in places), subpix=subpix)[0]
        return _filled(flux, error, unseen, area, told)

    def in_circles(self, radii: Sequence[float]) -> Sequence[Fluxes]:
        """The light in circles with these radii, from 0 on, in pixels: of all sources in the first one, and so on."""
        if _CIRCLES and self._plain and min(radii, default=0) >= 0:
            found = self._room(len(radii), len(self._x))
            _CIRCLES(self._field, len(radii), numpy.array(radii, dtype="f8"), *found)
            return [Fluxes(*one) for one in zip(*found)]
        sizes = (self._each(radius)[0] for radius in radii)
        return [self._by_sep(sep.sum_circle, (self._x, self._y, it), it, CIRCLE) for it in sizes]

    def in_ellipses(self, long, short, angle, radius) -> Fluxes:
        """The light in ellipses with these half axes, in pixels, each times a radius, and the angle of the long one, in
        radians up to a quarter of a turn.
        """
        shape = self._each(long, short, angle, radius)
        long, short, angle, radius = shape
        fit = (radius >= 0) & (short >= 0) & (long >= short) & (abs(angle) <= numpy.pi / 2)
        if _ELLIPSES and self._plain and fit.all():
            found = self._room(len(self._x))
            _ELLIPSES(self._field, *shape, *found)
            return found
        return self._by_sep(sep.sum_ellipse, (self._x, self._y, *shape), radius * long, ELLIPSE)

    def kron_radius(self, long, short, angle, reach: float) -> numpy.ndarray:
        """The mean distances of the light within ellipses that reach so many times these half axes, as a part of them;
        0 where there is no light.
        """
        shape = self._each(long, short, angle)
        if _KRON and self._plain:
            radius = numpy.empty(len(self._x))
            _KRON(self._field, *shape, reach, radius)
            return radius
        return sep.kron_radius(self._light, self._x, self._y, *shape, reach, **self._alone)[0]

    def half_radii(self, reaches: Sequence, fluxes: Sequence) -> Sequence[numpy.ndarray]:
        """The radii of circles that hold half of fluxes, at most as far as they reach, which is above 0, in pixels: of
        all sources for the first reach and flux, and so on.
        """
        reaches, fluxes = self._each(*reaches), self._each(*fluxes)
        if _HALF and self._plain and all((reach > 0).all() for reach in reaches):
            count, radii = len(reaches), numpy.empty((len(reaches), len(self._x)))
            lights = (numpy.reshape(it, radii.shape) for it in (reaches, fluxes))
            _HALF(self._field, count, *lights, NEAR, ENOUGH, radii)
            return list(radii)
        return [self._half_by_sep(*both) for both in zip(reaches, fluxes)]

    def _half_by_sep(self, reach: numpy.ndarray, flux: numpy.ndarray) -> numpy.ndarray:
        """The same for one reach and flux."""
        half = self._look_by_sep(NEAR * reach, flux, numpy.arange(len(flux)))
        further = numpy.flatnonzero(half >= ENOUGH * reach)
        if further.size:
            half[further] = self._look_by_sep(reach, flux, further)
        return half

    def _look_by_sep(self, reach: numpy.ndarray, flux: numpy.ndarray, chosen: numpy.ndarray) -> numpy.ndarray:
        """The same of these sources, by one look."""
        x, y, numbers, reach, flux = (it[chosen] for it in (self._x, self._y, self._numbers, reach, flux))
        alone = {"segmap": self._segments, "seg_id": numbers}
        return sep.flux_radius(self._light, x, y, reach, 0.5, normflux=flux, subpix=RINGS, **alone)[0]
