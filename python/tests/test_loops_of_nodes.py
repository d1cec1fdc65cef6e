"""The loops in C that go through the pixels of nodes give what numpy gives."""
import numpy
import pytest

from maxdetect import _loops as loops, _nodes as nodes, _pieces as pieces

pytestmark = pytest.mark.skipif(not loops.library(), reason="scripts/loops has compiled no library")
LEAST, MOST = numpy.iinfo("i4").min, numpy.iinfo("i4").max
SHAPES = [(1, 1), (1, 90), (70, 1), (5, 5), (40, 130)]


def same(one, other):
    return one.dtype == other.dtype and one.tolist() == other.tolist()


def owned(shape, count, part, seed):
    """Numbers, and pixels of some of them with owners, of which each has one."""
    rng = numpy.random.default_rng(seed)
    numbers = rng.choice([LEAST, -7, -6, 0, 3, 4, 90, MOST], shape).astype("i4")
    places = numpy.flatnonzero(rng.random(shape) < part)
    count = min(count, len(places))
    owners = rng.permutation(numpy.arange(len(places)) % max(count, 1) + 1).astype("i4")
    return numbers, places, numbers.ravel()[places], owners, count


@pytest.mark.parametrize("shape", SHAPES)
@pytest.mark.parametrize("part", [0.2, 1])
@pytest.mark.parametrize("dtype", ["i4", ">i4"])
def test_pixels_of_nodes_and_what_is_beside_them(both, shape, part, dtype):
    for count in (1, 9, 300):
        numbers, places, values, owners, count = owned(shape, count, part, count)
        # Each third owner is a node.
        place = numpy.full(count + 1, -1)
        place[1::3] = numpy.arange(len(place[1::3]))

        def made():
            how_many = int(place.max(initial=-1)) + 1
            pixels = nodes.of_owners(places, values, owners, place, how_many, shape)
            if not how_many:
                return pixels
            told = [None] * how_many
            return [*pixels, nodes.bases_of(numbers.astype(dtype), pixels, told)]

        assert all(same(*them) for them in zip(*both(made)))


def test_the_greatest_number_below_a_limit():
    numbers = numpy.array([[9, 5, 9, 2], [9, 9, 7, 1], [LEAST, 3, 8, 6]], dtype="i4")
    pixels = nodes.Pixels(
        numpy.array([0, 2, 2]), numpy.array([0, 3, 1]), numpy.array([9, 6, 3]), numpy.array([0, 1, 2])
    )
    assert nodes.bases_of(numbers, pixels, [None, None, 4]).tolist() == [5, 1, 4]
    assert nodes.bases_of(numbers, pixels, [None] * 3).tolist() == [5, 1, nodes.NONE]


def test_pixels_that_get_other_owners(both):
    for count, part in ((0, 0), (1, 1), (30, 0.5)):
        _, places, values, owners, count = owned((40, 130), count, part, 8)
        rng = numpy.random.default_rng(9)
        parts = pieces.Parts(None, places, owners, rng.random(len(places)) < 0.5, owners)
        new = rng.integers(0, 9, count + 1).astype("i4")
        limits = rng.choice([LEAST, -7, 3, MOST, pieces.WITHOUT], count + 1)
        assert all(same(*them) for them in zip(*both(pieces._renumbered, values, parts, new, limits)))
