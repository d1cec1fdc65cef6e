"""Windows of an image: boxes of its pixels, and how it is looked at by tiles, each in a window that is large enough."""
import dataclasses
import itertools
from typing import Any, Callable, Iterable, List, NamedTuple, Protocol, Tuple

import numpy

from ._rows import Rows

__all__ = ["Box", "MOST_PIXELS", "Made", "Plan", "firsts", "in_box", "moved", "rows_and_columns"]

# Columns that move with a window, and by how much for a pixel.
ACROSS = {"XMIN": 1, "XMAX": 1, "XFIRST": 1, "XCEN": 1000, "X": 1, "XWIN": 1, "XPEAK": 1}
ALONG = {"YMIN": 1, "YMAX": 1, "YFIRST": 1, "YCEN": 1000, "Y": 1, "YWIN": 1, "YPEAK": 1}
# An image is looked at whole where the windows of tiles that are made again have so many times its pixels.
MOST_AGAIN = 1
# How many pixels a window has at most: those of an image for which a program takes 2 GB.
MOST_PIXELS = 2**28


@dataclasses.dataclass(frozen=True)
class Box:
    """Rows from `top` up to `bottom` and columns from `left` up to `right`, counted from 0."""

    top: int
    bottom: int
    left: int
    right: int

    @property
    def rows(self) -> slice:
        return slice(self.top, self.bottom)

    @property
    def columns(self) -> slice:
        return slice(self.left, self.right)

    @property
    def shape(self) -> Tuple[int, int]:
        return self.bottom - self.top, self.right - self.left

    @property
    def pixels(self) -> int:
        return self.shape[0] * self.shape[1]

    def holds(self, other: "Box") -> bool:
        """Another box lies in it."""
        return (
            self.top <= other.top
            and other.bottom <= self.bottom
            and self.left <= other.left
            and other.right <= self.right
        )

    def meets(self, other: "Box") -> bool:
        """Another box has a pixel in it."""
        down = max(self.top, other.top) < min(self.bottom, other.bottom)
        return down and max(self.left, other.left) < min(self.right, other.right)

    def cut(self, side: int) -> List["Box"]:
        """The squares with this side into which it is cut, row by row."""
        corners = itertools.product(range(self.top, self.bottom, side), range(self.left, self.right, side))
        return [Box(top, min(top + side, self.bottom), left, min(left + side, self.right)) for top, left in corners]

    def hull(self, others: Iterable["Box"]) -> "Box":
        """The least box that holds it and others."""
        tops, bottoms, lefts, rights = zip(*(dataclasses.astuple(box) for box in (self, *others)))
        return Box(min(tops), max(bottoms), min(lefts), max(rights))

    def wider(self, margin: int, shape: Tuple[int, ...]) -> "Box":
        """The box with a margin around it, as far as an image with these sides goes."""
        top, left = max(0, self.top - margin), max(0, self.left - margin)
        return Box(top, min(self.bottom + margin, shape[0]), left, min(self.right + margin, shape[1]))


class Made(Protocol):
    """What is made of a tile, and the boxes of the components that its window may not know."""

    @property
    def open(self) -> List[Box]:
        ...


@dataclasses.dataclass(frozen=True)
class Plan:
    """How an image is looked at: the side of a tile's core, how far its window reaches beyond that at first, of how
    many pixels windows have whole multiples, as far as the image goes, and how many pixels one has at most.
    """

    whole: Box
    side: int
    margin: int
    step: int = 1
    largest: int = MOST_PIXELS

    def cores(self) -> List[Box]:
        """The cores of the tiles, row by row."""
        return self.whole.cut(max(self.side // self.step, 1) * self.step)

    def window(self, box: Box, margin: int) -> Box:
        """The window with a margin around a box."""
        wide = box.wider(margin, self.whole.shape)
        top, left = (begin // self.step * self.step for begin in (wide.top, wide.left))
        bottom, right = (-(-end // self.step) * self.step for end in (wide.bottom, wide.right))
        return Box(top, min(bottom, self.whole.bottom), left, min(right, self.whole.right))

    def looked_at(
        self, work: Callable[[List[Tuple[Box, Box]]], Iterable[Made]], taken: Callable[[Any], None]
    ) -> List[Tuple[Box, Box]]:
        """Has each tile made of which a window knows all, and handed on. `work` makes several, of their cores and
        windows, in order. A tile with open boxes is made again in a window that holds these, each time with twice the
        margin. Some tiles are left, each with its last window: where looking at the whole image would be less work, and
        where windows would be too large.
        """
        margin, tiles = self.margin, [_Tile(core, core, self.window(core, self.margin)) for core in self.cores()]
        left: List[_Tile] = []
        while tiles:
            margin, again = 2 * margin, []
            for tile, made in zip(tiles, work([(tile.core, tile.window) for tile in tiles])):
                if not made.open:
                    taken(made)
                    continue
                held = tile.held.hull(made.open)
                wider = tile._replace(held=held, window=self.window(held, margin))
                if wider.window.pixels <= self.largest:
                    again.append(wider)
                else:
                    left.append(tile)
            tiles = again
            if self.whole.pixels <= self.largest and _pixels(tiles) > MOST_AGAIN * self.whole.pixels:
                left, tiles = tiles, []
        return [(tile.core, tile.window) for tile in left]


class _Tile(NamedTuple):
    """The core of a tile, what its window has to hold, and the window."""

    core: Box
    held: Box
    window: Box


def _pixels(tiles: List[_Tile]) -> int:
    return sum(tile.window.pixels for tile in tiles)


def rows_and_columns(places: numpy.ndarray, width: int) -> Tuple[numpy.ndarray, numpy.ndarray]:
    """Those of places in a flat image of this width. numpy's divmod takes three times as long."""
    rows = places // width
    return rows, places - rows * width


# ---- the rows of a window's catalogue


def moved(catalogue: Rows, left: int, top: int) -> Rows:
    """The rows of a window's catalogue, so many columns and rows further on."""
    for names, by in ((ACROSS, left), (ALONG, top)):
        for name in names:
            if name in catalogue.colnames and by:
                catalogue[name] += names[name] * by
    return catalogue


def firsts(catalogue: Rows) -> Tuple[numpy.ndarray, numpy.ndarray]:
    """Rows and columns of the sources' first pixels, from 0."""
    return numpy.asarray(catalogue["YFIRST"]) - 1, numpy.asarray(catalogue["XFIRST"]) - 1


def in_box(catalogue: Rows, box: Box) -> numpy.ndarray:
    """Whether the sources' first pixels lie in a box of the window."""
    rows, columns = firsts(catalogue)
    return (rows >= box.top) & (rows < box.bottom) & (columns >= box.left) & (columns < box.right)
