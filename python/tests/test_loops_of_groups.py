"""The loops in C that join parts give what Python gives."""
import math

import numpy
import pytest

from maxdetect import _groups as groups, _loops as loops
from maxdetect._significance import Significance

with_loops = pytest.mark.skipif(not loops.library(), reason="scripts/loops has compiled no library")
LEAST, MOST = -(2**31), 2**31 - 1


def meetings(rng, count, times, levels):
    """Meetings of some parts, each two of them once, from the greatest number down."""
    pairs = numpy.sort(rng.integers(1, count + 1, (times, 2)), axis=1)
    pairs = numpy.unique(pairs[pairs[:, 0] != pairs[:, 1]], axis=0)
    at = rng.choice(levels, len(pairs))
    order = numpy.lexsort((pairs[:, 1], pairs[:, 0], -at))
    return groups.Meetings(pairs[order, 0], pairs[order, 1], at[order].astype("i8"))


def lit(rng, count, size, low, high):
    """Pixels of all parts and of none."""
    values = rng.integers(low, high + 1, size).astype("i4")
    return groups.Lit(values, rng.integers(0, count + 1, size).astype("i4"))


@with_loops
@pytest.mark.parametrize("count", [1, 2, 9, 300])
def test_components(both, count):
    rng = numpy.random.default_rng(count)
    for times in (0, 1, count // 2, 4 * count):
        one, other = both(groups.components, meetings(rng, count, times, [40]), count)
        assert one.dtype == other.dtype and one.tolist() == other.tolist()


def test_components_of_another_map():
    pair = numpy.array([1]), numpy.array([4]), numpy.array([50])
    assert groups.components(groups.Meetings(*pair), 4).tolist() == [0, 1, 2, 3, 1]
    with pytest.raises(ValueError, match="other sources"):
        groups.components(groups.Meetings(*pair), 3)


RANGES = [(40, 90), (-30, 9000), (40, 2**22), (LEAST, MOST), (LEAST, LEAST), (MOST - 3, MOST)]


@with_loops
@pytest.mark.parametrize("low, high", RANGES)
@pytest.mark.parametrize("own_noise", [0.0, 0.02])
def test_owners(both, low, high, own_noise):
    rng = numpy.random.default_rng(5)
    joined = set()
    for count, times, size in ((1, 0, 5), (2, 1, 0), (2, 1, 9), (40, 30, 900), (40, 200, 900), (300, 600, 40000)):
        met = meetings(rng, count, times, rng.integers(low, high + 1, 20))
        pixels = lit(rng, count, size, low, high)
        for least in (0.5, 3, 8.0, 1e4, 1e12):
            for patch in (3.0, math.inf):
                noise = Significance((high - low + 1) / 60, own_noise, 3.7)
                one, other = both(groups.owners, met, pixels, count, noise, least, patch)
                assert one.dtype == other.dtype and one.tolist() == other.tolist()
                joined.add(len(set(one.tolist())) - 1)
    assert len(joined) > 2


@with_loops
def test_whatever_tells_how_significant_light_is(both):
    """What isn't known to the loops is asked for."""
    rng = numpy.random.default_rng(6)
    met, noise = meetings(rng, 40, 90, numpy.arange(40, 90)), Significance(30.0, 0.01, 2.5)
    pixels = lit(rng, 40, 2000, 40, 400)
    one, other = both(groups.owners, met, pixels, 40, lambda *light: noise(*light), 4.0, 9.0)
    assert one.tolist() == other.tolist() == groups.owners(met, pixels, 40, noise, 4.0, 9.0).tolist()


def test_levels():
    met = groups.Meetings(*numpy.array([[1, 2, 3, 1], [2, 3, 4, 5], [90, 80, 70, 60]]))
    assert groups.levels(met, numpy.arange(7)).tolist() == [groups.NONE, 90, 90, 80, 70, 60, groups.NONE]
    owner = numpy.array([0, 1, 1, 3, 3, 5, 6])
    assert groups.levels(met, owner).tolist() == [groups.NONE, 80, groups.NONE, 80, groups.NONE, 60, groups.NONE]
    assert groups.levels(met, numpy.zeros(7, dtype=int)).tolist() == [groups.NONE] * 7
