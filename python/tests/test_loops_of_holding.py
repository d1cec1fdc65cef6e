"""The loops in C that take a tile's pixels give what numpy gives."""

import numpy
import pytest

from maxdetect import _holding as holding, _loops as loops
from maxdetect._pieces import Parts
from maxdetect._rows import Rows
from maxdetect._windows import Box

pytestmark = pytest.mark.skipif(not loops.library(), reason="scripts/loops has compiled no library")
WHOLE = Box(0, 500, 0, 700)


def parts_of(shape, count, part, seed):
    """Sources that have pixels anywhere in a window, some of them none, and what is near each other as a component."""
    rng = numpy.random.default_rng(seed)
    places = numpy.flatnonzero(rng.random(shape) < part)
    firsts = numpy.sort(rng.integers(0, shape[0] * shape[1], count))
    owners = numpy.clip(numpy.searchsorted(firsts, places) + rng.integers(-1, 1, len(places)), 1, count or 1)
    owners = owners.astype("i4") if count else numpy.zeros(0, dtype="i4")
    rows, columns = numpy.divmod(firsts, shape[1])
    numbers = numpy.arange(1, count + 1, dtype="i4")
    table = Rows({"NUMBER": numbers, "YFIRST": rows + 1, "XFIRST": columns + 1, "XMAX": columns + 1})
    components = numpy.concatenate([[0], (numbers + 2) // 3])
    places = places[: len(owners)]
    return Parts(table, places, owners, rng.random(len(places)) < 0.8, components)


def told(piece):
    table = piece.catalogue
    columns = [numpy.asarray(table[name]) for name in table.colnames]
    return [*columns, piece.pixels, piece.owners, piece.shown, piece.cut, numpy.array(piece.open)]


@pytest.mark.parametrize("window", [WHOLE, Box(0, 90, 0, 130), Box(40, 41, 0, 90), Box(300, 500, 650, 700)])
@pytest.mark.parametrize("reach", [1, 20])
@pytest.mark.parametrize("make", [holding.piece, holding.cut_piece])
def test_pieces(both, window, reach, make):
    core = Box(window.top + 5, window.bottom - 9, window.left + 7, window.right - 2)
    for count, part in ((0, 0), (1, 0.2), (70, 0), (70, 0.05), (3, 1), (9, 0.0005)):
        parts = parts_of(window.shape, count, part, count)

        def made():
            copy = parts._replace(catalogue=parts.catalogue.copy())
            return told(make(copy, [Box(45, 60, 10, 30)], core, window, WHOLE, reach))

        for one, other in zip(*both(made)):
            assert one.dtype == other.dtype and one.tolist() == other.tolist()


def test_boxes_of_components():
    """They hold all pixels of a component, and nothing is told of one without."""
    places = numpy.array([3, 15, 22, 47, 90])
    owners, components = numpy.array([1, 1, 4, 2, 4], dtype="i4"), numpy.array([0, 1, 2, 3, 2])
    parts = Parts(None, places, owners[[0, 1, 3, 3, 1]], owners > 0, components)
    assert holding._boxes_of(parts, 10).tolist() == [[0, 10, 0, 6], [2, 5, 2, 8]]
