"""Tiles of whole fields of 700 x 700 pixels: each source of the field, with every column, and the map, on the fields of
the guide.
"""
import concurrent.futures
import importlib.util

import numpy
import pytest
from conftest import TOP

import maxdetect

SIDE = 700


def guide():
    """The guide's bench, which makes its fields."""
    spec = importlib.util.spec_from_file_location("guide", TOP / "bench" / "guide.py")
    module = importlib.util.module_from_spec(spec)
    spec.loader.exec_module(module)
    module.SIDE = SIDE
    return module


@pytest.fixture(scope="module")
def fields():
    """A crowd, and discs among which some pixels are undefined, each with its sky and its noise of 30."""
    bench = guide()
    crowd = bench.crowded(numpy.random.default_rng(30))[0]
    discs = numpy.ma.MaskedArray(bench.galaxies(numpy.random.default_rng(40))[0])
    discs[numpy.random.default_rng(41).random(discs.shape) < 0.002] = numpy.ma.masked
    return crowd, discs


@pytest.fixture(scope="module")
def pool():
    with concurrent.futures.ThreadPoolExecutor(2) as threads:
        yield threads


@pytest.mark.parametrize("connect, tile", [(4, 256), (8, 384)])
@pytest.mark.parametrize("mesh, flat", [(64, False), (64, True), (0, False)])
def test_tiles_give_the_sources_of_the_whole(fields, pool, mesh, flat, connect, tile):
    for image in fields:
        threshold = 68 if mesh else 968
        options = dict(min_area=5, mesh=mesh, flat=flat, connect=connect)
        whole, segments = maxdetect.detect(image, threshold, **options)
        found, mapped = maxdetect.detect_tiles(image, threshold, tile, pool, **options)
        assert len(whole) > 150
        for name in whole.colnames:
            assert (whole[name] == found[name]).all(), name
        assert (segments == mapped).all()
