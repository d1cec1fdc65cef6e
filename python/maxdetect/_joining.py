"""The sources of all tiles as one catalogue and one map."""
import concurrent.futures
from typing import Callable, List, Optional, Tuple

import numpy

from . import _maps as maps
from ._executors import each
from ._holding import Piece
from ._loops import Loop, array, flag, whole
from ._rows import Rows, behind_each_other
from ._windows import firsts

__all__ = ["Gathered", "hide", "numbered", "renumber", "without_gaps"]


Executor = Optional[concurrent.futures.Executor]

# A map, how many pixels it has, the numbers, and how many they are.
_RENUMBERED = Loop("map_renumbered", array("i4"), whole, array("i4"), whole)
# A map, how many pixels, their places and owners, which are shown, the first number, and whether only pixels get one
# that have none.
_PUT_OWNERS = Loop("put_owners", array("i4"), whole, array("i8"), array("i4"), array("?"), flag, flag)


# ---- numbers


def numbered(tables: List[Rows]) -> Tuple[Rows, numpy.ndarray]:
    """The tables' rows as one, numbered from 1 by their first pixels; and where each row stood."""
    some = [table for table in tables if len(table)] or tables[:1]
    table = behind_each_other(some)
    rows, columns = firsts(table)
    places = numpy.lexsort((columns, rows))
    table = table[places]
    table["NUMBER"] = numpy.arange(1, len(table) + 1, dtype=table["NUMBER"].dtype)
    return table, places


class _Renumbered:
    """Gives the pixels of a part of a map the numbers that stand at the places of those that they have."""

    def __init__(self, numbers: numpy.ndarray):
        self.numbers = numbers

    def __call__(self, part: maps.Part) -> None:
        own = part.pixels().reshape(-1)
        if _RENUMBERED and own.dtype == self.numbers.dtype == "i4":
            _RENUMBERED(own, len(own), self.numbers, len(self.numbers))
            return
        # Most pixels are no source's.
        some = numpy.flatnonzero(own != 0)
        own[some] = self.numbers[own[some]]


def renumber(segments: numpy.ndarray, places: numpy.ndarray, count: int, executor: Executor = None) -> None:
    """A map whose numbers, those below 0 too, count so many rows as they stood, in place by where these are now; rows
    that aren't there any more are taken out of it. The executor works on a map that is shared.
    """
    numbers, every = numpy.zeros(2 * count + 1, dtype=segments.dtype), numpy.arange(1, len(places) + 1)
    numbers[places + 1] = every
    # A number below 0 is the place of its row from the end.
    numbers[-places - 1] = -every
    if len(places) == count and (numbers[1 : count + 1] == every).all():
        return
    executor = executor if maps.is_shared(segments, executor) else None
    parts = (maps.Part(segments, rows, executor=executor) for rows in maps.bands(segments))
    for _ in each(executor, _Renumbered(numbers), parts):
        pass


def without_gaps(segments: numpy.ndarray) -> numpy.ndarray:
    """A part of a map that `gathered` filled, as a map without gaps."""
    return numpy.abs(numpy.asarray(segments))


def hide(segments: numpy.ndarray) -> None:
    """Takes out of a map that `gathered` filled, in place, the pixels that it isn't to show."""
    for rows in maps.bands(segments):
        segments[rows] = numpy.maximum(segments[rows], 0)


class Gathered:
    """The rows of pieces and which of them are cut, as they come. `segments`, an array full of zeros, gets the map, and
    the numbers below 0 of the sources to which pixels belong that the map isn't to show.
    """

    def __init__(self, segments: numpy.ndarray, progress: Callable[[int], None]):
        self.segments, self.progress, self.count = segments, progress, 0
        self.tables: List[Rows] = []
        self.cut: List[numpy.ndarray] = []

    def take(self, piece: Piece) -> None:
        """Adds a piece. What a source has that is cut, no other one has already."""
        first, flat, alone = self.count + 1, self.segments.reshape(-1), bool(piece.cut.any())
        # A map that is written as it is filled has its file's order of bytes.
        if _PUT_OWNERS and flat.dtype == "i4":
            _PUT_OWNERS(flat, len(piece.pixels), piece.pixels, piece.owners, piece.shown, first, alone)
        else:
            numbers = piece.owners + first
            free = flat[piece.pixels] == 0 if alone else slice(None)
            flat[piece.pixels[free]] = numpy.where(piece.shown, numbers, -numbers)[free]
        maps.let_go(self.segments)
        self.count += len(piece.catalogue)
        self.tables.append(piece.catalogue)
        self.cut.append(piece.cut)
        self.progress(1)

    def drop(self) -> None:
        """Forgets all of them."""
        for rows in maps.bands(self.segments):
            self.segments[rows] = 0
        self.tables, self.cut, self.count = [], [], 0

    def rows(self, executor: Executor = None) -> Tuple[Rows, numpy.ndarray]:
        """The rows, numbered by their first pixels as the map now is, and which of them are cut; those alone that are
        kept, where a column says so. The executor works on the map.
        """
        table, places = numbered(self.tables)
        if "KEPT" in table.colnames:
            kept = numpy.asarray(table["KEPT"], dtype=bool)
            table, places = table[[name for name in table.colnames if name != "KEPT"]][kept], places[kept]
            table["NUMBER"] = numpy.arange(1, len(table) + 1, dtype=table["NUMBER"].dtype)
        renumber(self.segments, places, self.count, executor)
        return table, numpy.concatenate(self.cut)[places]
