"""Sources of an array of any size: whole by one process of `maxwide`, or by its tiles, which it joins.

What `maxwide join` writes of tiles is by proof what `maxwide detect` writes of the whole image. Here is decided which
windows the tiles are made from; a tile tells by its open boxes where its window was too small.
"""
import concurrent.futures
from typing import TYPE_CHECKING, BinaryIO, Callable, Iterator, List, NamedTuple, Optional, Sequence, Tuple

import numpy

from . import _emptycells as emptycells, _kernel as kernel, _wholenumbers as wholenumbers
from ._docs import described
from ._executors import each
from ._sights import boxes_in, tile_words
from ._windows import Box, Plan

if TYPE_CHECKING:
    from astropy.table import Table

__all__ = ["detect_tiles"]

# The side of a tile's core where nothing else is asked, and how far a window reaches beyond it without a mesh.
TILE, MARGIN = 3840, 128


class _Tile(NamedTuple):
    """What the program made of a window: the boxes that it may not know, and its file."""

    open: List[Box]
    file: bytes


def _answer(output: BinaryIO) -> _Tile:
    def reading(hdus):
        boxes = boxes_in(output, hdus)
        output.seek(0)
        return _Tile(boxes[3:], output.read())

    return kernel.answer(output, reading)


class _Work:
    """The work on a tile of an image: the program's, from the window's pixels alone."""

    def __init__(self, whole: Box, words: Sequence[str], blank: Optional[int], program: Optional[kernel.Path]):
        self.whole, self.words, self.blank, self.program = whole, words, blank, program

    def __call__(self, item: Tuple[Box, Box, numpy.ndarray]) -> _Tile:
        core, window, image = item
        words = tile_words(self.whole, window, core)
        pieces = wholenumbers.fits_of(image, self.blank, pixels=self.whole.pixels)
        return _answer(kernel.run([*words, *self.words], pieces, self.program, "maxwide"))


def _work(
    image: numpy.ndarray, words: List[str], mesh: int, blank: Optional[int], program: Optional[kernel.Path]
) -> Optional[_Work]:
    """The work on an image's tiles, where the background is smooth in cells with the side `mesh`. None where the image
    has no tiles: without a pixel, larger than the program takes, or with too great a number for its empty cells.
    """
    if not image.size or wholenumbers.is_too_large(image):
        return None
    number = emptycells.number_of(image, blank, mesh)
    if number is not None and abs(number) > wholenumbers.WIDE_VALUE:
        return None
    place = [] if number is None else ["--empty-cells", str(number)]
    return _Work(Box(0, image.shape[0], 0, image.shape[1]), [*place, *words], blank, program)


def _tiles(
    image: numpy.ndarray,
    side: int,
    mesh: int,
    work: _Work,
    executor: concurrent.futures.Executor,
    progress: Callable[[int], None],
    files: List[bytes],
) -> int:
    """Adds the files of an image's tiles, of which none has an open box, and says how many tiles are left since looking
    at the whole would be less work.
    """

    def made(tiles: List[Tuple[Box, Box]]) -> Iterator[_Tile]:
        return each(executor, work, ((core, it, image[it.rows, it.columns]) for core, it in tiles))

    def taken(tile: _Tile) -> None:
        files.append(tile.file)
        progress(1)

    plan = Plan(work.whole, side, 2 * mesh if mesh > 0 else MARGIN, max(mesh, 1), wholenumbers.WIDE_PIXELS)
    return len(plan.looked_at(made, taken))


def _handed_on(files: List[bytes]) -> Iterator[bytes]:
    """Each of the files, which is let go then."""
    while files:
        yield files.pop()


@described
def detect_tiles(
    image: numpy.ndarray,
    threshold: int,
    tile: int = TILE,
    executor: Optional[concurrent.futures.Executor] = None,
    *,
    min_area: int = 1,
    min_flux: int = 0,
    contrast: int = 5,
    mesh: int = 0,
    flat: bool = False,
    connect: int = 4,
    strips: int = 1,
    workers: int = 1,
    blank: Optional[int] = None,
    segments: Optional[numpy.ndarray] = None,
    progress: Callable[[int], None] = lambda count: None,
    program: Optional[kernel.Path] = None,
) -> Tuple["Table", numpy.ndarray]:
    """What `detect` answers, for an image of up to 2^31 - 1 pixels: the catalogue and the map of the whole.

    Without an executor the program `maxwide` looks at the whole image. With one it looks there at tiles, each in a
    window of its own, and joins them here. No source is cut: a tile with a component that its window may not hold is
    made again in a larger one, or the whole image is looked at.

    Parameters
    ----------
    image : numpy.ndarray of int, shape (height, width)
        The image, as that of `detect`, with values from -2^29 to 2^29 where it has more than 2^24 pixels; it may be a
        memory-mapped array, of which some rows at a time, or windows, are read.
    {threshold}
    tile : int, default: 3840
        The side of a tile's core, in pixels; it is made a multiple of the mesh.
    executor : concurrent.futures.Executor, optional
        What the tiles run in, such as that of a Dask client.
    {min_area}
    {min_flux}
    {contrast}
    {mesh}
    {flat}
    {connect}
    strips : int, default: 1
        Into how many strips the image or each window is cut, which changes nothing but the time.
    workers : int, default: 1
        How many threads work on the strips, which changes nothing but the time.
    {blank}
    segments : numpy.ndarray of int32, shape (height, width), optional
        An array, such as a memory-mapped one, that gets the map; by default one is made.
    progress : callable, optional
        Is called with the number of tiles that are done each time, 1 for an image without tiles.
    program : str or os.PathLike, optional
        The path of `maxwide`, by default that of `find_program`.

    Returns
    -------
    catalogue : astropy.table.Table
        A row for each source, as `detect` has them.
    segments : numpy.ndarray of int32, shape (height, width)
        The number of the source to which each pixel belongs, or 0.

    Raises
    ------
    ValueError
        Where the image hasn't two dimensions, values lie too far from 0, the map has another shape, or a tile has no
        pixel.
    TypeError
        Where the image or an option hasn't whole numbers.
    Refusal
        Where the program refuses the image, a window of it or an option.
    NoProgram
        Where the program isn't found.
    """
    image, side = wholenumbers.whole_numbers(image), wholenumbers.whole_number("tile", tile)
    if segments is not None and segments.shape != image.shape:
        raise ValueError(f"the map has the sides {segments.shape}, and the image {image.shape}")
    if side < 1:
        raise ValueError(f"a tile has a side of a pixel or more, not of {tile}")
    options = dict(threshold=threshold, min_area=min_area, min_flux=min_flux, contrast=contrast)
    options.update(mesh=mesh, flat=int(flat), connect=connect, strips=strips, workers=workers)
    words, left = kernel.words_of("detect", options), 1
    files: List[bytes] = []
    work = None if executor is None else _work(image, words, 0 if flat else mesh, blank, program)
    if executor is not None and work is not None:
        left = _tiles(image, side, mesh, work, executor, progress, files)
    if left:
        files.clear()
        output = kernel.run(words, wholenumbers.fits_of(image, blank, pixels=image.size), program, "maxwide")
        progress(left)
    else:
        output = kernel.run(["join"], _handed_on(files), program, "maxwide")
    segments = numpy.empty(image.shape, dtype="i4") if segments is None else segments
    return kernel.catalogue_of(kernel.sources_of(output, segments)), segments
