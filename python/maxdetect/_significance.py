"""How many deviations of the noise some light is."""
import dataclasses
import math
from typing import Callable

__all__ = ["AnySignificance", "Significance"]

# How many deviations of the noise so much light is that so many pixels have above a level: area, light, level.
AnySignificance = Callable[[int, float, int], float]


@dataclasses.dataclass(frozen=True)
class Significance:
    """What tells how many deviations it is that pixels stand above a level by so much light in all: how much a pixel's
    deviation is, how much a level of 1 adds to the variance of the noise, over that of the sky, and how many pixels
    share their noise, which are those closer together than the smoothing reaches.
    """

    deviation: float
    own_noise: float
    together: float

    def __call__(self, area: int, light: float, level: int) -> float:
        if not area:
            return 0.0
        variance = 1.0 + max(level, 0) * self.own_noise
        return light / self.deviation / math.sqrt(variance * area * min(area, self.together))
