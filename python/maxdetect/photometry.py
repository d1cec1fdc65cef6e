"""Photometry of sources that are found: fluxes with errors, ellipses, widths and flags, in the units of the image.

It works in floating point, with SEP (the library form of Source Extractor) and numpy, so nothing of it is proved.
`sky` estimates the background and the noise beside the sources, `measured` makes the table.

Places count pixels from 1, as FITS does. The ellipse of a source comes from the second moments of its pixels without
weights: A and B are the half axes of a full ellipse with these moments, so they tell how far the isophote reaches.

FLUX_AUTO is the sum in an ellipse of the source's shape as Source Extractor takes it: 2.5 Kron radii large, where the
Kron radius is the mean distance of the light, and at least 3.5 standard deviations of the light of the source's
pixels. FLUX_TOTAL has besides what point sources of the same image have further out. Pixels of other sources count as
sky in each aperture.
"""
from typing import Dict, Optional, Sequence, Tuple, Union

import numpy
import sep

from . import _beside as beside, _owned as owned, _shapes as shapes, _totals as totals
from ._apertures import Apertures, Fluxes
from ._beside import unit_of
from ._docs import described
from ._errors import Mistake
from ._estimates import of_array
from ._flags import BEYOND, CROWDED, CUT, EDGE, FLAGS, SATURATED, SPLIT, STRUCK, UNDEFINED, WIDE
from ._nddata import AnyImage, array_of, noise_of
from ._pointlike import PointSources
from ._residuals import residual_and_undefined, residual_of, undefined_in
from ._rows import Rows
from ._sky import grown
from ._stamps import LEFT_OUT

__all__ = [
    "APERTURE",
    "EDGE",
    "UNDEFINED",
    "SATURATED",
    "SPLIT",
    "CUT",
    "CROWDED",
    "BEYOND",
    "STRUCK",
    "WIDE",
    "FLAGS",
    "ellipses",
    "measured",
    "sky",
]

# The Kron radius is sought within this many standard deviations of a source's light, as Source Extractor does; how many
# Kron radii its ellipse reaches, and how many standard deviations at least, where nothing else is asked.
KRON_REACH, KRON = 6.0, (2.5, 3.5)
# The diameter of the circular aperture in pixels.
APERTURE = 10.0

Numbers = Union[float, numpy.ndarray]


@described
def sky(
    image: AnyImage,
    segments: numpy.ndarray,
    mesh: int = 64,
    *,
    mask: Optional[numpy.ndarray] = None,
    local: bool = False,
) -> Tuple[numpy.ndarray, Numbers]:
    """The background and the noise of an image beside its sources.

    The first estimate of the background is the package's own by cells: means, which the light of faint sources draws
    up. By how much SEP tells, from the residual's pixels that lie at least four pixels from every source, or closer
    where these are too few in a row of cells; the median over the cells is taken off everywhere.

    Parameters
    ----------
    image : array_like or astropy.nddata.NDData, shape (height, width)
        The image; it is undefined where it is NaN or masked.
    segments : array_like of int, shape (height, width)
        The segmentation map: the number of the source to which each pixel belongs, or 0.
    mesh : int, default: 64
        The side of the square cells, in pixels; with 0 the background is one number.
    {mask}
    local : bool, default: False
        Tells the noise of each pixel, by the cells.

    Returns
    -------
    background : numpy.ndarray of float32, shape (height, width)
        The background, in the image's units; NaN where no pixel has a value.
    noise : float or numpy.ndarray of float32, shape (height, width)
        One standard deviation of a pixel, in the image's units: one number, or with `local` an array.

    Raises
    ------
    ValueError
        Where `mesh` is below 0.
    Mistake
        Where a mask is given twice, by NDData and by `mask`.
    """
    if mesh < 0:
        raise ValueError(f"mesh is 0 or a number of pixels, not {mesh}")
    values = array_of(image, mask)
    undefined = undefined_in(values, mask)
    if undefined.all():
        unknown = numpy.full(undefined.shape, numpy.nan, dtype="f4")
        return unknown, unknown if local else numpy.nan
    found = of_array(numpy.ma.MaskedArray(numpy.ma.getdata(values), mask=undefined), mesh or 64)
    found, everywhere = found if mesh else found.flat(), tuple(slice(0, side) for side in found.shape)
    residual = residual_of(values, found.level(*everywhere), undefined)
    found = beside.of_array(residual, undefined, numpy.asarray(segments), found)
    return found.level(*everywhere), found.noises(*everywhere) if local else found.noise


def ellipses(catalogue: Rows) -> Tuple[numpy.ndarray, numpy.ndarray, numpy.ndarray]:
    """The ellipses of sources, by the second moments of their pixels' places without weights.

    Parameters
    ----------
    catalogue : astropy.table.Table or mapping from str to array_like
        Has the columns XVAR, YVAR and XYCOV of the program.

    Returns
    -------
    long : numpy.ndarray of float64
        The half axes A of full ellipses with these moments, in pixels.
    short : numpy.ndarray of float64
        The half axes B, in pixels.
    angle : numpy.ndarray of float64
        The angles of A from the x axis towards the y axis, in degrees.
    """
    # A pixel is a square of side 1, whose own variance is a twelfth.
    xx, yy, xy = (numpy.asarray(catalogue[name], dtype="f8") / 1000 for name in ("XVAR", "YVAR", "XYCOV"))
    xx, yy = xx + 1 / 12, yy + 1 / 12
    mean, apart = (xx + yy) / 2, numpy.hypot((xx - yy) / 2, xy)
    # The variance along an axis of a full ellipse is a quarter of the half axis squared.
    long, short = 2 * numpy.sqrt(mean + apart), 2 * numpy.sqrt(numpy.maximum(mean - apart, 1 / 12))
    return long, numpy.minimum(short, long), numpy.degrees(numpy.arctan2(2 * xy, xx - yy) / 2)


def reach(catalogue: Rows, points: Optional[PointSources] = None, least: float = APERTURE / 2) -> numpy.ndarray:
    """How far from their centres sources are looked at, in pixels, before their Kron radii are known."""
    circle = max(least, totals.reach(points))
    return numpy.maximum(KRON_REACH * ellipses(catalogue)[0] / 2, circle) + 2


def _noise(noise: Numbers, shape: Tuple[int, ...]) -> Numbers:
    """The noise as SEP takes it: one number, or an array of the image's shape."""
    if numpy.ndim(noise) == 0:
        return float(noise)
    if numpy.shape(noise) != shape:
        raise ValueError(f"the noise has the sides {numpy.shape(noise)}, the image {shape}")
    return numpy.ascontiguousarray(noise, dtype="f4")


def _known(noise: Numbers, mask: Optional[numpy.ndarray]) -> Tuple[Numbers, Optional[numpy.ndarray]]:
    """The noise, 0 where there is none, and a mask that has these pixels too; None for none."""
    unknown = ~numpy.isfinite(noise) if numpy.ndim(noise) else numpy.zeros(1, dtype=bool)
    if not unknown.any():
        return noise, mask
    return numpy.where(unknown, numpy.float32(0), noise), unknown if mask is None else unknown | numpy.asarray(
        mask, dtype=bool
    )


def _isophotal(sums: owned.Sums, gain: Optional[float]) -> totals.Fluxes:
    """The light of the sources' defined pixels and its errors; NaN where there are none."""
    variance = sums.variance + numpy.maximum(sums.light, 0) / gain if gain else sums.variance
    seen = sums.pixels > 0
    return numpy.where(seen, sums.light, numpy.nan), numpy.where(seen, numpy.sqrt(variance), numpy.nan)


def _flags(pixels, image, undefined, catalogue, numbers, saturation, threshold) -> numpy.ndarray:
    """The flags that the pixels and the catalogue tell, in the catalogue's order."""
    height, width = undefined.shape
    xs, ys = (numpy.asarray(catalogue[f"{name}MIN"]) == 1 for name in "XY")
    flags = EDGE * (
        xs | ys | (numpy.asarray(catalogue["XMAX"]) == width) | (numpy.asarray(catalogue["YMAX"]) == height)
    )
    if undefined.any():
        flags |= UNDEFINED * pixels.touching(grown(undefined, 1))[numbers]
    if saturation is not None:
        flags |= SATURATED * pixels.having(numpy.ma.getdata(image).ravel()[pixels.places] >= saturation)[numbers]
    if len(catalogue):
        entry = int(numpy.min(catalogue["LEVEL"])) if threshold is None else threshold
        flags |= SPLIT * (numpy.asarray(catalogue["BASE"]) >= entry)
    return flags


def _gathered(sums: owned.Sums, shape: owned.Shapes) -> numpy.ndarray:
    """By how much closer to the centre of its ellipse the light of a source lies than its pixels do: by root mean
    squares, and 1 where it doesn't.
    """
    with numpy.errstate(invalid="ignore"):
        mean = sums.moment / sums.above
    # A pixel is a square of side 1, whose own variance is a twelfth. Of a full ellipse this is a half.
    mean += (1 / shape.long**2 + 1 / shape.short**2) / 12
    return numpy.sqrt(numpy.where(numpy.isfinite(mean), numpy.minimum(2 * mean, 1), 1))


def _shapes_of(catalogue: Rows) -> owned.Shapes:
    """The centres of sources and their ellipses."""
    x, y = (numpy.asarray(catalogue[name], dtype="f8") / 1000 - 1 for name in ("XCEN", "YCEN"))
    return owned.Shapes(x, y, *ellipses(catalogue))


def _diameters(
    apertures: Apertures, reaches: Sequence[numpy.ndarray], fluxes: Sequence[numpy.ndarray]
) -> Sequence[numpy.ndarray]:
    """The diameters that hold half of these fluxes; NaN where there is none."""
    halves = apertures.half_radii(reaches, [numpy.nan_to_num(flux) for flux in fluxes])
    return [numpy.where((flux > 0) & (half > 0), 2 * half, numpy.nan) for flux, half in zip(fluxes, halves)]


@described
def measured(
    image: AnyImage,
    background: Numbers,
    noise: Optional[Numbers],
    segments: numpy.ndarray,
    catalogue: Rows,
    *,
    mask: Optional[numpy.ndarray] = None,
    gain: Optional[float] = None,
    saturation: Optional[float] = None,
    apertures: Sequence[float] = (APERTURE,),
    kron: Tuple[float, float] = KRON,
    points: Optional[PointSources] = None,
    threshold: Optional[int] = None,
    struck: Optional[numpy.ndarray] = None,
    seen: Optional[shapes.Seen] = None,
    vignet: int = 0,
) -> Rows:
    """The photometry of the sources of a segmentation map, a row for each row of a catalogue.

    Parameters
    ----------
    image : array_like or astropy.nddata.NDData, shape (height, width)
        The image, in any units; it is undefined where it is NaN or masked, `mask` is true or the noise isn't finite.
    background : float or array_like, shape (height, width)
        The level of the sky, in the image's units; `sky` estimates it.
    noise : float or array_like, shape (height, width), or None
        One standard deviation of a pixel, in the image's units; `sky` estimates it too. None takes it of an image of
        NDData, and so of CCDData, by its uncertainty.
    segments : array_like of int, shape (height, width)
        The segmentation map that the program answers for this image, of whatever scale. Where a source's number is
        below 0, the pixel is none of the source's own, but is shared out to it, and counts as another source's for the
        others.
    catalogue : astropy.table.Table or mapping from str to array_like
        The catalogue that it answers. NUMBER, centres, boxes and moments are used, and LEVEL and BASE for a flag.
    {mask}
    {gain}
    {saturation}
    apertures : sequence of float, default: (10.0,)
        The diameters of circles, in pixels.
    kron : tuple of float, default: (2.5, 3.5)
        How many Kron radii the ellipse of FLUX_AUTO reaches, and how many standard deviations of the light at least.
    points : PointSources, optional
        The image's point sources; without them FLUX_TOTAL is FLUX_AUTO.
    threshold : int, optional
        The threshold that the program was given; by default it is taken for the least LEVEL.
    struck : array_like of bool, shape (height, width), optional
        Which pixels cosmic rays have hit, for a flag.
    seen : Seen, optional
        How the program saw the image; without it there are no errors of X and Y.
    vignet : int, default: 0
        The side of the squares of pixels in the column VIGNET, an odd number; 0 for none.

    Returns
    -------
    Rows
        Columns by their names: X, Y, FLUX_ISO, FLUXERR_ISO, FLUX_AUTO, FLUXERR_AUTO, FLUX_TOTAL, FLUXERR_TOTAL,
        KRON_RADIUS (half the long axis of the ellipse of FLUX_AUTO, in pixels), FLUX_APER, FLUXERR_APER (rows of
        numbers where there are several circles), A, B, ELONGATION (A over B), THETA, FWHM (the diameter that holds half
        of FLUX_AUTO: that of a Gaussian is its full width at half its height; NaN where there is none), FLAGS, a sum of
        the bits in `FLAGS`, and further ones beside the fluxes. Errors are standard deviations; they know nothing of
        the background's error. Fluxes are NaN where no pixel has a value. `table()` of it is astropy's.

    Raises
    ------
    ValueError
        Where the map or the noise has another shape than the image.
    Mistake
        Where mask or noise are given twice, by NDData and besides, or no noise is given.
    """
    image, noise = array_of(image, mask), noise_of(image, noise)
    if noise is None:
        raise Mistake("the noise is wanted: the image has no uncertainty, and noise= is None")
    if numpy.shape(segments) != numpy.shape(image):
        raise ValueError(f"the map has the sides {numpy.shape(segments)}, the image {numpy.shape(image)}")
    noise, mask = _known(_noise(noise, numpy.shape(image)), mask)
    numbers = numpy.asarray(catalogue["NUMBER"], dtype="i4")
    pixels, segments = owned.of_map(segments, numbers)
    scene, unit = _scene(image, background, noise, mask, segments, gain)
    flags = _flags(pixels, image, scene.undefined, catalogue, numbers, saturation, threshold)
    if struck is not None and struck.any():
        flags |= STRUCK * pixels.touching(grown(struck, 1))[numbers]
    defined = pixels.without(scene.undefined)
    shape = _shapes_of(catalogue)
    own = defined.sums(scene.residual, scene.noise, numbers, shape)
    flux, error = _isophotal(own, scene.gain)
    sums = _Sums(scene, numbers, shape, _gathered(own, shape), kron)
    columns = sums.columns(apertures, points, (flags & SPLIT) != 0)
    table = Rows({"X": numpy.asarray(catalogue["XCEN"]) / 1000, "Y": numpy.asarray(catalogue["YCEN"]) / 1000})
    table["FLUX_ISO"], table["FLUXERR_ISO"] = flux * unit, error * unit
    more = shapes.columns(scene, seen, defined, catalogue, columns["FLUX_RADIUS"], vignet)
    for name, values in [*columns.items(), *more.items()]:
        table[name] = _in_units(name, values, unit)
    table["FLAGS"] = (flags | sums.flags).astype("i4")
    return table


def _scene(
    image: numpy.ndarray,
    background: Numbers,
    noise: Numbers,
    mask: Optional[numpy.ndarray],
    segments: numpy.ndarray,
    gain: Optional[float],
) -> Tuple[shapes.Scene, float]:
    """What is measured, in units near the noise, and the unit: 32 bits don't hold the squares of all images."""
    unit = unit_of(noise)
    residual, undefined = residual_and_undefined(image, background, mask, 1 / unit)
    noise = noise / unit if isinstance(noise, float) else numpy.asarray(noise / numpy.float32(unit))
    return shapes.Scene(residual, noise, gain and gain * unit, undefined, segments), unit


def _in_units(name: str, values: numpy.ndarray, unit: float) -> numpy.ndarray:
    """A column in the units of the image."""
    if name == "VIGNET":
        return numpy.where(values == numpy.float32(LEFT_OUT), values, values * numpy.float32(unit))
    return values * unit if name.startswith(("FLUX_", "FLUXERR_")) and name != "FLUX_RADIUS" else values


class _Sums:
    """The sums in apertures of sources with these numbers and shapes, and what they tell. `gathered` says by how much
    closer the light of each lies than its pixels do, and `kron` how far its Kron ellipse reaches.
    """

    def __init__(
        self,
        scene: shapes.Scene,
        numbers: numpy.ndarray,
        shape: owned.Shapes,
        gathered: numpy.ndarray,
        kron: Tuple[float, float],
    ):
        self._gain, self._shape = scene.gain, shape
        seen = (scene.residual, scene.noise, scene.undefined, scene.segments)
        self._apertures = Apertures(*seen, numbers, shape.x, shape.y)
        # SEP takes standard deviations along the axes, which are half of the half axes, and radians.
        self._axes = (shape.long / 2 * gathered, shape.short / 2 * gathered)
        self._kron(kron)

    def _with_error(self, fluxes: Fluxes) -> totals.Fluxes:
        """Fluxes and their errors, with the light's own where the gain is known."""
        flux, error = fluxes.flux, fluxes.error
        return flux, numpy.sqrt(error**2 + numpy.maximum(flux, 0) / self._gain) if self._gain else error

    def _kron(self, kron: Tuple[float, float]) -> None:
        """The Kron ellipses, and what is in them."""
        angle = numpy.clip(numpy.radians(self._shape.angle), -numpy.pi / 2, numpy.pi / 2)
        radius = self._apertures.kron_radius(*self._axes, angle, KRON_REACH)
        # Noise may leave no light to average over, or a mean that lies outside of where it was sought.
        radius = numpy.where(numpy.isfinite(radius) & (radius > 0), numpy.minimum(radius, KRON_REACH), 0)
        radius = numpy.maximum(kron[0] * radius, kron[1])
        self._long, self._size = radius * self._axes[0], radius * numpy.sqrt(self._axes[0] * self._axes[1])
        found = self._apertures.in_ellipses(*self._axes, angle, radius)
        self._flux, self._error = self._with_error(found)
        crowded, beyond = ((found.told & told) != 0 for told in (sep.APER_HASMASKED, sep.APER_TRUNC))
        self.flags = CROWDED * (crowded | found.holed) | BEYOND * beyond

    def _circles(self, radii: Sequence[float]) -> Dict[float, totals.Fluxes]:
        """The fluxes in circles, and their errors, by the radii: all at once, while a source's pixels are at hand."""
        return dict(zip(radii, map(self._with_error, self._apertures.in_circles(radii))))

    def columns(
        self, diameters: Sequence[float], points: Optional[PointSources], split: numpy.ndarray
    ) -> Dict[str, numpy.ndarray]:
        """The columns that are measured in apertures; `split` says which sources were split from a neighbour."""
        shape, radii = self._shape, [diameter / 2 for diameter in diameters]
        circles = self._circles([*radii, *totals.sizes(points)])
        in_circle = [numpy.stack(it, axis=-1) for it in zip(*(circles[radius] for radius in radii))]
        if len(diameters) == 1:
            in_circle = [it[:, 0] for it in in_circle]
        total = totals.of(points, circles.__getitem__, self._flux, self._error, self._size, split)
        reaches, fluxes = (self._long, numpy.maximum(self._long, totals.reach(points))), (self._flux, total[0])
        count = 1 if points is None else 2
        across = _diameters(self._apertures, reaches[:count], fluxes[:count])
        return {
            "FLUX_AUTO": self._flux,
            "FLUXERR_AUTO": self._error,
            "FLUX_TOTAL": total[0],
            "FLUXERR_TOTAL": total[1],
            "KRON_RADIUS": self._long,
            "FLUX_APER": in_circle[0],
            "FLUXERR_APER": in_circle[1],
            "A": shape.long,
            "B": shape.short,
            "ELONGATION": shape.long / shape.short,
            "THETA": shape.angle,
            "FWHM": across[0],
            "FLUX_RADIUS": across[-1] / 2,
        }
