"""How sources are looked for."""
import dataclasses
from typing import Optional, Tuple

from ._limits import LISTS, RANGES, TILE

__all__ = ["Settings"]


@dataclasses.dataclass(frozen=True)
class Settings:
    """How sources are looked for.

    `sigmas` is the threshold in deviations of the noise of what is looked at, `fwhm` the width of the Gaussian that
    smooths the image before, in pixels: by default that of its point sources, 0 for none. `mesh` is the side of the
    cells of the background, 0 for one level; `min_area` is in pixels. `contrast` is the program's, in thousandths;
    without one a component is split as far as its parts stand `split_sigmas` deviations above where they meet, and
    more on a wide source. `clean` leaves out the peaks of noise on faint light, and `cosmic_rays` the pixels that these
    have hit; with `wide` wide faint sources are looked for besides. `weight_type` says what the weight map has,
    `value_weight_type` what that of the image has that is measured in, and `local` takes the noise by cells. `gain`
    is in electrons for a unit of the image, and from `saturation` on pixels are saturated: both those of the image
    that is measured in. Where that is another one than sources are looked for in, `own_gain` and `own_saturation`
    are those of the latter. `apertures` are the diameters of circles in which fluxes are summed, `kron` says how
    many Kron radii the ellipse of FLUX_AUTO reaches and how many deviations of the light at least, and `vignet` is the
    side of the squares of pixels that the catalogue has, 0 for none: both in pixels.

    What each may be stands in `_limits`. Raises ValueError for a setting that is out of its range.
    """

    sigmas: Optional[float] = None
    fwhm: Optional[float] = None
    mesh: int = 64
    min_area: Optional[int] = None
    contrast: Optional[int] = None
    split_sigmas: float = 1.0
    clean: bool = True
    cosmic_rays: bool = False
    wide: bool = False
    weight_type: str = "weight"
    value_weight_type: str = "weight"
    local: bool = False
    gain: Optional[float] = None
    saturation: Optional[float] = None
    own_gain: Optional[float] = None
    own_saturation: Optional[float] = None
    apertures: Tuple[float, ...] = (10.0,)
    kron: Tuple[float, float] = (2.5, 3.5)
    vignet: int = 0
    tile: int = TILE
    workers: int = 1

    def __post_init__(self) -> None:
        faults = [(name, wanted.wrong(getattr(self, name))) for name, wanted in LISTS.items()]
        faults += [
            (name, it.wrong(getattr(self, name))) for name, it in RANGES.items() if getattr(self, name) is not None
        ]
        for name, fault in faults:
            if fault:
                raise ValueError(f"{name}={getattr(self, name)} {fault}")
