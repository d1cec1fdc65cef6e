"""An image with what belongs to it."""
import concurrent.futures
import dataclasses
import functools
import math
from typing import Callable, Generic, Iterable, List, Optional, Tuple, Union

import numpy

from . import _sky as sky
from ._errors import Mistake
from ._executors import each
from ._planes import AnyPlane, OwnPlane
from ._settings import Settings

__all__ = ["Each", "Field", "Settings", "in_parts", "noise_of", "sky_of"]

# What calls a function for each of several items, in order, as `map` does.
Each = Callable[[Callable, Iterable], Iterable]


def relative_noise(weights: numpy.ndarray, kind: str) -> numpy.ndarray:
    """The noise that a weight map tells, up to a factor for weights; NaN where there is none."""
    with numpy.errstate(divide="ignore", invalid="ignore"):
        noise = weights if kind == "rms" else numpy.sqrt(weights) if kind == "variance" else 1 / numpy.sqrt(weights)
    return numpy.where(numpy.isfinite(noise) & (noise > 0), noise, numpy.nan).astype("f4")


@dataclasses.dataclass
class Field(Generic[OwnPlane]):
    """An image with what belongs to it: a mask, whose pixels other than 0 are undefined, a weight map, and another
    image to measure in with a weight map of its own; and a map of flags.
    """

    plane: OwnPlane
    settings: Settings
    mask: Optional[OwnPlane] = None
    weights: Optional[OwnPlane] = None
    values: Optional[OwnPlane] = None
    struck: Optional[numpy.ndarray] = None
    value_weights: Optional[OwnPlane] = None
    flag_map: Optional[OwnPlane] = None

    @property
    def shape(self) -> Tuple[int, int]:
        return self.plane.shape

    @property
    def planes(self) -> List[OwnPlane]:
        """All its images."""
        every = (self.plane, self.mask, self.weights, self.values, self.value_weights, self.flag_map)
        return [plane for plane in every if plane is not None]

    def image(self, rows: slice, columns: slice = slice(None)) -> numpy.ndarray:
        """Its pixels in a window less the plane's origin, NaN where they are undefined."""
        image = self._masked(self.plane, rows, columns)
        if self.struck is not None:
            image[self.struck[rows, columns]] = numpy.nan
        return image

    def _masked(self, plane, rows, columns):
        image = plane.window(rows, columns, plane.origin)
        if self.mask is not None:
            mask = self.mask.window(rows, columns)
            image[(mask != 0) | ~numpy.isfinite(mask)] = numpy.nan
        return image

    def relative(self, rows: slice, columns: slice = slice(None)) -> numpy.ndarray:
        """Its noise in a window, up to a factor. Raises ValueError where it has no weight map."""
        if self.weights is None:
            raise ValueError(f"{self.plane.label} has no weight map")
        return relative_noise(self.weights.window(rows, columns), self.settings.weight_type)

    def to_measure(self, rows: slice, columns: slice) -> numpy.ndarray:
        """What fluxes are measured in, less its plane's origin."""
        return self.image(rows, columns) if self.values is None else self._masked(self.values, rows, columns)

    @property
    def measured(self) -> "Field[OwnPlane]":
        """What fluxes are measured in as a field of its own."""
        if self.values is None:
            return self
        settings = dataclasses.replace(self.settings, weight_type=self.settings.value_weight_type)
        return dataclasses.replace(
            self, plane=self.values, settings=settings, weights=self.value_weights, values=None, value_weights=None
        )

    @property
    def saturation(self) -> Optional[float]:
        """From which number on pixels of `to_measure` are saturated."""
        return _less_origin(self.settings.saturation, self.values or self.plane)

    @property
    def own_saturation(self) -> Optional[float]:
        """From which number on pixels of `image` are saturated."""
        return self.saturation if self.values is None else _less_origin(self.settings.own_saturation, self.plane)

    @property
    def own_gain(self) -> Optional[float]:
        """The electrons for a unit of `image`."""
        return self.settings.gain if self.values is None else self.settings.own_gain


def _less_origin(limit: Optional[float], plane: AnyPlane) -> Optional[float]:
    """A number of a plane's pixels less its origin."""
    # Where there is an origin the pixels have whole numbers, which 64 bits of floating point don't hold.
    return math.ceil(limit) - plane.origin if plane.origin and limit is not None else limit


def noise_of(field: Field, found: sky.Sky, rows: slice, columns: slice) -> Union[float, numpy.ndarray]:
    """The noise of a field's pixels in a window, in the image's units: one number, or an array."""
    if field.weights is not None:
        factor = found.noise if field.settings.weight_type == "weight" else 1
        return field.relative(rows, columns) * numpy.float32(factor)
    return found.noises(rows, columns) if field.settings.local else found.noise


def in_parts(field: Field, executor: Optional[concurrent.futures.Executor]) -> Each:
    """What works on parts of a field that take a few hundredths of a second each: the executor, but for a small field,
    which is done before it is handed out, and where other processes would be sent its pixels with each part.
    """
    light = field.struck is None and all(plane.mapped for plane in field.planes)
    shared = light or isinstance(executor, concurrent.futures.ThreadPoolExecutor)
    return functools.partial(each, executor if shared and min(field.shape) >= field.settings.tile else None)


def sky_of(field: Field, each: Each = map) -> sky.Sky:
    """The sky of a field, whose parts are looked at by `each`. Raises Mistake where it has none to speak of."""
    relative = None if field.weights is None else field.relative
    try:
        found = sky.of(field.image, field.shape, field.settings.mesh or 64, relative, each)
    except ValueError as error:
        beside = [other.label for other in (field.mask, field.weights) if other is not None]
        with_them = f" (with {' and '.join(beside)})" if beside else ""
        raise Mistake(f"{field.plane.label}{with_them}: {error}") from None
    if not found.noise > 0:
        raise Mistake(f"{field.plane.label}: it has no noise to tell sources from")
    return found
