"""The whole way of `maxcat` for an image that is there as an array."""
import concurrent.futures
from dataclasses import replace
from typing import TYPE_CHECKING, Optional, Sequence, Tuple

import numpy
from astropy.io import fits

from . import _detection as detection, _finishing as finishing, _kernel as kernel, _stored as stored
from ._docs import described
from ._estimates import floats
from ._limits import TILE
from ._nddata import AnyImage, Parts, parts_of
from ._rows import Rows
from ._settings import Settings

if TYPE_CHECKING:
    from astropy.table import Table

__all__ = ["ArrayPlane", "catalogue"]


class ArrayPlane:
    """An array in the place of an image in a file: it is read by windows, as floating-point numbers with NaN where it
    is masked.
    """

    mapped = False

    def __init__(self, image: numpy.ndarray, label: str = "the image"):
        if numpy.ndim(image) != 2 or not numpy.size(image):
            raise ValueError(f"an image has two dimensions and a pixel, not the sides {numpy.shape(image)}")
        height, width = numpy.shape(image)
        self.array, self.label, self.shape = image, label, (height, width)
        self.unit: Optional[str] = None
        self.origin = stored.origin(image)

    def window(self, rows: slice, columns: slice = slice(None), less: int = 0) -> numpy.ndarray:
        """The pixels of some rows and columns less a whole number: 32 bits where these hold them, and else 64."""
        return floats(self.array[rows, columns], less)


def _numbers(image, label: str) -> numpy.ndarray:
    """An image, or whatever numpy makes one of, if it has numbers."""
    array = numpy.asanyarray(image)
    if array.dtype.kind not in "biuf":
        raise TypeError(f"{label} has numbers, not {array.dtype}")
    return array


def _is_local(rms: str) -> bool:
    """Whether the noise is told by cells."""
    if rms not in ("even", "local"):
        raise ValueError(f"rms is even or local, not {rms}")
    return rms == "local"


def _field(parts: Parts, settings: Settings) -> detection.Field[ArrayPlane]:
    """What sources are sought in: the image, and the noise of its pixels where that is given."""
    values = _numbers(parts.array, "an image")
    weights = None if parts.noise is None else ArrayPlane(_numbers(parts.noise, "the noise"), "the noise")
    if weights is not None and weights.shape != numpy.shape(values):
        raise ValueError(f"the noise has the sides {weights.shape}, the image {numpy.shape(values)}")
    return detection.Field(ArrayPlane(values), settings, weights=weights)


def _finished(rows: Rows, parts: Parts, header: Optional[fits.Header], zeropoint: Optional[float]) -> "Table":
    """The catalogue of these rows, with magnitudes, places in the sky and units where image or header tell them."""
    unit = parts.unit if parts.unit or header is None else finishing.unit_of(header)
    place = header if parts.wcs is None else parts.wcs
    return finishing.finished_rows(rows, place, zeropoint=zeropoint, unit=unit).table()


@described
def catalogue(
    image: AnyImage,
    *,
    header: Optional[fits.Header] = None,
    noise: Optional[numpy.ndarray] = None,
    rms: str = "even",
    zeropoint: Optional[float] = None,
    executor: Optional[concurrent.futures.Executor] = None,
    program: Optional[kernel.Path] = None,
    sigmas: Optional[float] = None,
    fwhm: Optional[float] = None,
    mesh: int = 64,
    min_area: Optional[int] = None,
    contrast: Optional[int] = None,
    split_sigmas: float = 1.0,
    clean: bool = True,
    cosmic_rays: bool = False,
    wide: bool = False,
    gain: Optional[float] = None,
    saturation: Optional[float] = None,
    apertures: Sequence[float] = (10.0,),
    kron: Tuple[float, float] = (2.5, 3.5),
    vignet: int = 0,
    tile: int = TILE,
    workers: int = 1,
) -> Tuple["Table", numpy.ndarray]:
    """The catalogue that `maxcat` writes of an image, and the segmentation map.

    Parameters
    ----------
    image : array_like or astropy.nddata.NDData, shape (height, width)
        The image, with numbers of any kind; it is undefined where it is NaN or masked. Of NDData, and so of CCDData,
        mask, unit and WCS are taken too, and as noise an uncertainty by standard deviations, variances or inverse
        variances.
    header : astropy.io.fits.Header, optional
        Has the image's WCS and its BUNIT.
    noise : array_like, shape (height, width), optional
        The noise of each pixel, in the image's units: one standard deviation. Pixels whose noise isn't a finite number
        above 0 are undefined.
    rms : {"even", "local"}, default: "even"
        How the noise is told without such a map: as even, or by cells.
    zeropoint : float, optional
        The magnitude of a flux of 1; the catalogue has magnitudes then.
    executor : concurrent.futures.Executor, optional
        What tiles run in.
    program : str or os.PathLike, optional
        The path of `maxwide`, or for an image of one tile that of `maxdetect`; by default those of `find_program`.
    sigmas : float, optional
        The threshold, in deviations of the noise of the smoothed image; by default what suits the smoothing.
    fwhm : float, optional
        The width of the Gaussian that smooths the image before sources are sought, in pixels from 0.5 to 50; 0 for
        none, by default the width of the image's point sources.
    mesh : int, default: 64
        The side of the square cells by which the background is told, from 8 to 512 pixels; 0 for one level.
    min_area : int, optional
        The least area of a source, in pixels; by default what suits the smoothing.
    contrast : int, optional
        Which part of its component's flux a source that is split from it has at least, in thousandths; by default
        `split_sigmas` tells what is split.
    split_sigmas : float, default: 1.0
        How many deviations the parts of a component stand at least above where they meet.
    clean : bool, default: True
        Leaves out peaks of noise on faint light.
    cosmic_rays : bool, default: False
        Leaves out the pixels that cosmic rays have hit; wants astroscrappy.
    wide : bool, default: False
        Seeks wide faint sources besides.
    {gain}
    {saturation}
    apertures : sequence of float, default: (10.0,)
        The diameters of the circles in which fluxes are summed, in pixels.
    kron : tuple of float, default: (2.5, 3.5)
        How many Kron radii the ellipse of FLUX_AUTO reaches, and how many deviations of the light at least.
    vignet : int, default: 0
        The side of the squares of pixels that the catalogue has of each source, an odd number; 0 for none.
    tile : int, default: 1024
        The side of a tile's core, in pixels.
    workers : int, default: 1
        How many threads the program works with on an image of one tile.

    Returns
    -------
    catalogue : astropy.table.Table
        A row for each source, with units and descriptions; docs/GUIDE.md has its columns.
    segments : numpy.ndarray of int32, shape (height, width)
        The number of the source to which each pixel belongs, or 0.

    Raises
    ------
    ValueError
        Where the image or the noise hasn't two dimensions and a pixel, their shapes differ, or a setting is out of its
        range.
    TypeError
        Where the image or the noise hasn't numbers.
    Mistake
        Where the image has no noise to tell sources from, or noise, unit or WCS are given twice, by NDData and besides.
    NoProgram
        Where the program isn't found.
    """
    settings = Settings(sigmas=sigmas, fwhm=fwhm, mesh=mesh, min_area=min_area, wide=wide, local=_is_local(rms))
    settings = replace(settings, contrast=contrast, split_sigmas=split_sigmas, clean=clean, cosmic_rays=cosmic_rays)
    settings = replace(settings, gain=gain, saturation=saturation, apertures=tuple(apertures), kron=kron, vignet=vignet)
    settings = replace(settings, weight_type="rms", tile=tile, workers=workers)
    parts = parts_of(image, noise=noise, header=header)
    field = _field(parts, settings)
    segments = numpy.zeros(field.shape, dtype="i4")
    rows = detection.sources(field, executor, segments=segments, program=program)
    return _finished(rows, parts, header, zeropoint), segments
