"""The sources of one tile: those whose first pixel lies in its core, if its window knows all of their components.

A row that the program tells of a window is the whole image's where its first pixel lies in none of the window's open
boxes, by proof (`own_rows` and `unopened` of the crate `tile_laws`). What is made of a component behind the program
depends on its own pixels and those within a reach of them, so a component that has not all of these in the window is
unknown as well. A tile whose core meets an unknown one's box is looked at again, in a larger window.
"""
import dataclasses
from typing import List, Tuple

import numpy

from ._loops import Loop, array, whole as integer
from ._pieces import Parts
from ._rows import Rows
from ._windows import Box, in_box, moved, rows_and_columns

__all__ = ["Piece", "cut_piece", "piece"]

# Places of pixels and their owners, how many they are, and the window's width; the owners' components and how many
# owners there are, and how many components, and their boxes.
_BOXES = Loop(
    "component_boxes",
    *(array("i8"), array("i4"), integer, integer),
    *(array("i8"), integer, integer, array("i8")),
)
# The same and which pixels are shown; the owners' numbers, and how many owners there are; the width of the whole and
# the place of the window's first pixel there; and places, numbers, what is shown, and how many these are.
_PICKED = Loop(
    "picked_pixels",
    *(array("i8"), array("i4"), array("?"), integer, integer),
    *(array("i4"), integer, integer, integer),
    *(array("i8"), array("i4"), array("?"), array("i8")),
)


@dataclasses.dataclass
class Piece:
    """The sources of a tile, in columns and rows of the whole; the pixels of the whole, counted row by row, that
    belong to one, to which row, and whether the map has them; which rows are cut; and the boxes of components that the
    window may not know and that meet the core.
    """

    catalogue: Rows
    pixels: numpy.ndarray
    owners: numpy.ndarray
    shown: numpy.ndarray
    cut: numpy.ndarray
    open: List[Box]


def _unknown(parts: Parts, window: Box, whole: Box, reach: int) -> List[Box]:
    """The boxes, in the whole, of the components with sources of which not all within reach lies in the window."""
    boxes = _boxes_of(parts, window.shape[1])
    left, right = reach * (window.left > 0), window.shape[1] - reach * (window.right < whole.right)
    top, bottom = reach * (window.top > 0), window.shape[0] - reach * (window.bottom < whole.bottom)
    deep = (boxes[:, 0] >= top) & (boxes[:, 1] <= bottom) & (boxes[:, 2] >= left) & (boxes[:, 3] <= right)
    some = boxes[~deep] + [window.top, window.top, window.left, window.left]
    return [Box(*it) for it in some.tolist()]


def _boxes_of(parts: Parts, width: int) -> numpy.ndarray:
    """The boxes of the components that have pixels in a window of this width, in the order of their numbers: rows of a
    `Box`'s numbers.
    """
    if _BOXES:
        boxes = numpy.empty((int(parts.components.max(initial=0)) + 1, 4), dtype="i8")
        components = numpy.ascontiguousarray(parts.components, dtype="i8")
        owned = parts.places, parts.owners, len(parts.places)
        _BOXES(*owned, width, components, len(components), len(boxes), boxes)
        return boxes[boxes[:, 1] > boxes[:, 0]]
    component = parts.components[parts.owners]
    order = numpy.argsort(component, kind="stable")
    starts = numpy.flatnonzero(numpy.diff(component[order], prepend=-1))
    boxes = numpy.zeros((len(starts), 4), dtype="i8")
    for side, at in enumerate(rows_and_columns(parts.places, width) if len(starts) else ()):
        boxes[:, 2 * side] = numpy.minimum.reduceat(at[order], starts)
        boxes[:, 2 * side + 1] = numpy.maximum.reduceat(at[order], starts) + 1
    return boxes


def _pixels_of(
    parts: Parts, numbers: numpy.ndarray, window: Box, whole: Box
) -> Tuple[numpy.ndarray, numpy.ndarray, numpy.ndarray]:
    """Of the pixels of a window whose owners have such a number, by the owners', their places in the whole, the numbers
    less 1, and which of them are shown.
    """
    if not _PICKED:
        owners = numbers[parts.owners]
        some = owners != 0
        rows, columns = rows_and_columns(parts.places[some], window.shape[1])
        pixels = (rows + window.top) * whole.shape[1] + (columns + window.left)
        return pixels, owners[some] - 1, parts.shown[some]
    size, count = len(parts.places), numpy.empty(1, dtype="i8")
    pixels, owners, shown = (numpy.empty(size, dtype=dtype) for dtype in ("i8", "i4", "?"))
    begin = window.top * whole.shape[1] + window.left
    own = parts.places, parts.owners, parts.shown, size, window.shape[1]
    _PICKED(*own, numbers, len(numbers), whole.shape[1], begin, pixels, owners, shown, count)
    return pixels[: count[0]], owners[: count[0]], shown[: count[0]]


def _picked(parts: Parts, window: Box, whole: Box, chosen: numpy.ndarray, cut: numpy.ndarray, left: List[Box]) -> Piece:
    """The chosen rows of a window, and which of them are cut, as a piece of the whole."""
    numbers = numpy.zeros(len(parts.catalogue) + 1, dtype="i4")
    numbers[numpy.asarray(parts.catalogue["NUMBER"])[chosen]] = numpy.arange(1, chosen.sum() + 1)
    table = moved(parts.catalogue[chosen], window.left, window.top)
    return Piece(table, *_pixels_of(parts, numbers, window, whole), cut[chosen], left)


def piece(parts: Parts, opened: List[Box], core: Box, window: Box, whole: Box, reach: int) -> Piece:
    """The sources of a core that were found in a window of the whole, with these open boxes."""
    inner = Box(core.top - window.top, core.bottom - window.top, core.left - window.left, core.right - window.left)
    chosen, left = in_box(parts.catalogue, inner), []
    if window != whole:
        left = [box for box in [*opened, *_unknown(parts, window, whole, reach)] if core.meets(box) or box.pixels <= 0]
    return _picked(parts, window, whole, chosen, numpy.zeros(len(chosen), dtype=bool), left)


def cut_piece(parts: Parts, opened: List[Box], core: Box, window: Box, whole: Box, reach: int) -> Piece:
    """The same where no window may be larger: sources of components that the window may not know are cut."""
    found = piece(parts, opened, core, window, whole, reach)
    rows, columns = (numpy.asarray(found.catalogue[name]) - 1 for name in ("YFIRST", "XFIRST"))
    for box in found.open:
        found.cut |= (rows >= box.top) & (rows < box.bottom) & (columns >= box.left) & (columns < box.right)
    return dataclasses.replace(found, open=[])
