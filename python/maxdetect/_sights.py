"""A window's whole numbers, in a file that a program reads and that is an array too; and what a program sees there."""
from typing import Any, Dict, List, NamedTuple, Optional, Sequence

import numpy

from . import _kernel as kernel
from ._rows import Rows
from ._windows import Box, moved
from ._wholenumbers import MOST_PIXELS, header_of_stored

__all__ = ["Numbers", "Sight", "boxes_in", "tile_words"]

BLOCK = 2880


class Numbers:
    """Numbers of 32 bits, kernel.LEAST where a pixel is undefined: `array`, which is to be filled."""

    def __init__(self, shape):
        header, size = header_of_stored(shape), 4 * shape[0] * shape[1]
        self.file = kernel.in_memory()
        self.file.write(header)
        self.file.truncate(len(header) + -(-size // BLOCK) * BLOCK)
        self.file.flush()
        self.array = numpy.memmap(self.file, ">i4", "r+", len(header), shape)

    def seen(
        self, window: Box, whole: Box, threshold: int, program: Optional[kernel.Path] = None, **options: int
    ) -> "Sight":
        """What a program sees of these numbers, those of a window of an image: maxdetect of an image that is no larger
        than it takes, and else maxwide. Their file is closed then.
        """
        words, name = kernel.words_of("detect", {"threshold": threshold, **options}), "maxdetect"
        if window != whole:
            words, name = [*tile_words(whole, window, window), *words], "maxwide"
        elif whole.pixels > MOST_PIXELS:
            name = "maxwide"
        with self.file:
            output = kernel.answered(words, self.file, program, name)
        return kernel.answer(output, lambda hdus: _sight(output, hdus, window))


class Sight(NamedTuple):
    """The rows and the map of a window, in its own columns and rows, and the boxes of the image whose components it may
    not know. Of these the rows and the map are those of the window alone.
    """

    rows: Rows
    segments: numpy.ndarray
    open: List[Box]


def _sight(output, hdus: Dict[str, Any], window: Box) -> Sight:
    header, place = hdus["SEGMENT"]
    segments = numpy.memmap(output, ">i4", "r", place, window.shape)
    if window.shape != (header["NAXIS2"], header["NAXIS1"]):
        raise ValueError("a map of another image")
    rows = kernel.rows_in(output, hdus)
    if "TILE" not in hdus:
        return Sight(rows, segments, [])
    return Sight(moved(rows, -window.left, -window.top), segments, boxes_in(output, hdus)[3:])


def boxes_in(output, hdus: Dict[str, Any]) -> List[Box]:
    """The boxes that a tile's file tells: those of the image, the window and the core, and the open ones."""
    header, place = hdus["TILE"]
    cells = kernel.numbers_at(output, place, numpy.dtype(">i4"), 4 * header["NAXIS2"]).reshape(-1, 4)
    return [Box(top - 1, bottom, left - 1, right) for left, right, top, bottom in cells.tolist()]


def tile_words(whole: Box, window: Box, core: Box) -> List[str]:
    """The words that say which tile of an image `maxwide tile` makes."""
    return ["tile", "--whole", *_sides(whole), "--window", *_place(window), "--core", *_place(core)]


def _sides(box: Box) -> Sequence[str]:
    height, width = box.shape
    return [str(width), str(height)]


def _place(box: Box) -> Sequence[str]:
    return [str(box.left), str(box.top), *_sides(box)]
