"""Tiles against the whole."""
import concurrent.futures
from functools import partial

import numpy
import pytest
from scipy import ndimage

import maxdetect
from maxdetect import (
    _detection as detection,
    _emptycells as emptycells,
    _executors as executors,
    photometry,
    _sky as sky,
    _tiles as tiles,
    _wholenumbers as wholenumbers,
    _windows as windows,
)
from maxdetect._arrays import ArrayPlane

WORDS = {"min_area": 3, "connect": 8}


def rough(shape, seed=1, smooth=1.5):
    """Hills of many sizes, in whole numbers."""
    rng = numpy.random.default_rng(seed)
    hills = ndimage.gaussian_filter(rng.normal(0, 300, shape), smooth) + ndimage.gaussian_filter(
        rng.normal(0, 3e3, shape), 9
    )
    return numpy.rint(hills).astype("i4")


def are_the_same(whole, tiled):
    assert whole[0].colnames == tiled[0].colnames and len(whole[0]) == len(tiled[0])
    for name in whole[0].colnames:
        assert (whole[0][name] == tiled[0][name]).all(), name
        assert whole[0][name].dtype == tiled[0][name].dtype
    assert (whole[1] == tiled[1]).all() and whole[1].dtype == tiled[1].dtype


class InTurn(concurrent.futures.Executor):
    """Does what it is given at once, and counts it."""

    def __init__(self):
        self.count = 0

    def submit(self, work, *words, **options):
        self.count += 1
        future = concurrent.futures.Future()
        future.set_result(work(*words, **options))
        return future


class AsDask(InTurn):
    """Calls, as Dask does, each pair of a function and its arguments, and hands on what that gives."""

    def submit(self, work, *words, **options):
        words = [it[0](*it[1:]) if isinstance(it, tuple) and it and callable(it[0]) else it for it in words]
        return super().submit(work, *words, **options)


def test_a_pair_with_a_function_is_no_task():
    items = [(max, (3, 7, 5)), (len, "four")]
    assert list(executors.each(AsDask(), list, items)) == [list(it) for it in items]
    image = rough((96, 96)).astype("f4")
    found = [sky.of(image.__getitem__, image.shape, 8, each=each) for each in (map, partial(executors.each, AsDask()))]
    assert (found[0].levels == found[1].levels).all() and found[0].noise == found[1].noise


def test_twice_as_much_is_handed_out_where_nothing_is_taken_for_a_while():
    pool, counts = InTurn(), []
    pool._max_workers = 2
    answers = executors.each(pool, str, range(20), lambda: counts.append(pool.count))
    for number, answer in enumerate(answers):
        assert answer == str(number)
        counts.append(pool.count)
    assert counts == [8, *[8] * 4, *range(9, 21), *[20] * 4]
    pool.count = 0
    assert next(executors.each(pool, str, range(20))) == "0" and pool.count == 5


def whole_and_tiled(image, threshold, tile, **options):
    """Tiles give what the whole gives; how many windows were looked at for that."""
    whole, pool = maxdetect.detect(image, threshold, **options), InTurn()
    are_the_same(whole, maxdetect.detect_tiles(image, threshold, tile, pool, **options))
    return pool.count


@pytest.mark.parametrize("connect", [4, 8])
@pytest.mark.parametrize("mesh, flat", [(0, False), (8, False), (16, True)])
def test_tiles_are_the_whole(connect, mesh, flat):
    image, options = rough((100, 75)), dict(min_area=3, connect=connect, mesh=mesh, flat=flat)
    whole = maxdetect.detect(image, 120, **options)
    for tile in (16, 32, 48):
        are_the_same(whole, maxdetect.detect_tiles(image, 120, tile, InTurn(), **options))
    are_the_same(whole, maxdetect.detect_tiles(image, 120, **options))


@pytest.mark.parametrize("mesh, tile", [(0, 32), (1, 40), (2, 32), (4, 16), (8, 24)])
@pytest.mark.parametrize("flat", [False, True])
def test_tiles_of_an_image_with_holes(mesh, tile, flat):
    image, rng = rough((90, 80), 5), numpy.random.default_rng(6)
    mask = rng.random(image.shape) < 0.03
    mask[20:55, 30:62] = mask[:9, 70:] = mask[:, 79:] = True
    image = numpy.ma.MaskedArray(image, mask=mask)
    options = dict(min_area=1, connect=8, mesh=mesh, flat=flat)
    whole_and_tiled(image, 60, tile, **options)
    whole_and_tiled(image.filled(-9999), 60, tile, blank=-9999, **options)


def test_a_component_larger_than_any_first_window(monkeypatch):
    """It isn't cut: windows grow until one holds it."""
    monkeypatch.setattr(tiles, "MARGIN", 4)
    monkeypatch.setattr(windows, "MOST_AGAIN", 100)
    image = numpy.zeros((120, 130), dtype="i4")
    image[10, 5:125] = image[10:110, 124] = image[60:64, 3:128] = 100
    image[10, 60], image[100, 124], image[62, 20] = 300, 250, 220
    count = whole_and_tiled(image, 50, 16)
    assert maxdetect.detect_tiles(image, 50, 16, InTurn())[0].meta == {}
    # Where many windows would have to be large the image is looked at once.
    monkeypatch.setattr(windows, "MOST_AGAIN", 1)
    assert whole_and_tiled(image, 50, 16) == 72 < count


def test_components_that_go_around_a_corner(monkeypatch):
    # Out of the first tile's core to the side that its window holds to the image's edge, and there to where it ends.
    monkeypatch.setattr(tiles, "MARGIN", 8)
    image = numpy.zeros((60, 20), dtype="i4")
    image[2, 3:19] = image[2:55, 18] = 100
    for turned in (image, image[::-1], image[:, ::-1], image.T, image.T[::-1], image.T[:, ::-1]):
        assert maxdetect.detect(turned, 50)[0]["AREA"].tolist() == [68]
        whole_and_tiled(turned, 50, 16)


@pytest.mark.parametrize("shape", [(65, 65), (65, 60), (71, 65)])
@pytest.mark.parametrize("mesh", [2, 4])
def test_a_last_cell_of_one_pixel_without_a_value(shape, mesh):
    image = numpy.ma.MaskedArray(rough(shape, 4, 0.7), mask=False)
    image[:, -1] = image[-1] = numpy.ma.masked
    whole_and_tiled(image, 90, 16, mesh=mesh, connect=8)


def test_cells_without_a_pixel_in_an_image_of_great_values():
    """The words of a tile have no room for their number, so such an image is looked at whole."""
    image = numpy.ma.MaskedArray(rough((50, 40)) + 2**35, mask=False)
    image[8:24, 8:24] = numpy.ma.masked
    assert whole_and_tiled(image, 100, 16, mesh=8) == 0
    assert whole_and_tiled(image, 100, 16, mesh=8, flat=True) >= 12


@pytest.mark.parametrize("form", ["u1", "i2", "u4", "i8", "u8"])
@pytest.mark.parametrize("shape", [(1, 1), (3, 5), (700, 31)])
def test_the_lower_median(form, shape):
    rng, numbers = numpy.random.default_rng(8), numpy.iinfo(form)
    least, most = max(numbers.min, -(2**36)), min(numbers.max, 2**36)
    for low, high in ((least, most), (max(least, -3), 3), (most - 1, most)):
        image = rng.integers(low, high, shape, endpoint=True).astype(form)
        mask = rng.random(shape) < rng.choice([0, 0.5])
        kept = numpy.sort(image[~mask])
        masked = numpy.ma.MaskedArray(image, mask=mask)
        assert emptycells.lower_median(masked, None) == (kept[(kept.size - 1) // 2] if kept.size else 0)


def test_any_executor_and_a_mapped_image(tmp_path):
    image = numpy.memmap(tmp_path / "image", "i2", "w+", shape=(128, 96))
    image[:] = rough(image.shape)
    whole = maxdetect.detect(image, 120, mesh=8, **WORDS)
    for executor, count in ((InTurn(), 12), (None, 1)):
        segments, counted = numpy.memmap(tmp_path / "map", "i4", "w+", shape=image.shape), []
        found = maxdetect.detect_tiles(
            image, 120, 32, executor, mesh=8, segments=segments, progress=counted.append, **WORDS
        )
        are_the_same(whole, found)
        assert found[1] is segments and sum(counted) == count
    with concurrent.futures.ProcessPoolExecutor(2) as pool:
        are_the_same(whole, maxdetect.detect_tiles(image, 120, 64, pool, mesh=8, **WORDS))
    with concurrent.futures.ThreadPoolExecutor(2) as pool:
        options = dict(mesh=8, strips=4, workers=2, **WORDS)
        are_the_same(whole, maxdetect.detect_tiles(image, 120, 64, pool, **options))
        are_the_same(whole, maxdetect.detect_tiles(image, 120, **options))


def test_a_dask_cluster():
    distributed = pytest.importorskip("distributed", reason="wants Dask (Debian: python3-distributed)")
    image = rough((100, 75))
    whole = maxdetect.detect(image, 120, mesh=8, **WORDS)
    with distributed.LocalCluster(
        n_workers=2, threads_per_worker=1, processes=False, dashboard_address=None
    ) as cluster:
        with distributed.Client(cluster) as client:
            found = maxdetect.detect_tiles(image, 120, 32, client.get_executor(), mesh=8, **WORDS)
    are_the_same(whole, found)


SMALL = numpy.zeros((8, 8), dtype="i4")


@pytest.mark.parametrize("pool", [None, InTurn()])
def test_what_is_refused(pool):
    for kind, text, image, words in (
        (ValueError, "two dimensions", SMALL[0], {}),
        (ValueError, "a tile has a side", SMALL, {"tile": 0}),
        (ValueError, r"the map has the sides \(4, 4\)", SMALL, {"segments": numpy.zeros((4, 4), "i4")}),
        (ValueError, "too far from 0", SMALL + 2**37, {}),
        (TypeError, "an image has whole numbers", SMALL + 0.5, {}),
        (TypeError, "tile is a whole number", SMALL, {"tile": 1.5}),
        (TypeError, "mesh is a whole number", SMALL, {"mesh": 1.5}),
        (TypeError, "blank is a whole number", SMALL, {"blank": 1.5}),
        (maxdetect.Refusal, "usage: mesh isn't given", SMALL, {"mesh": -3}),
        (maxdetect.Refusal, "usage: connect isn't given", SMALL, {"connect": 5}),
        (maxdetect.Refusal, "NoImage", SMALL[:0], {}),
        (maxdetect.Refusal, "ImageTooLarge", numpy.zeros((1, 70000), dtype="u1"), {}),
        # Of these the program sees no pixel.
        (maxdetect.Refusal, "ImageTooLarge", numpy.broadcast_to(numpy.uint8(0), (65535, 32769)), {}),
        (maxdetect.NoProgram, "can't be run", SMALL, {"program": "/nowhere/maxwide"}),
    ):
        with pytest.raises(kind, match=text) as told:
            maxdetect.detect_tiles(image, 1, executor=pool, **words)
        assert len(str(told.value).splitlines()) == 1


def test_values_are_those_that_the_whole_may_have(monkeypatch):
    """Also where each window is small enough for more."""
    monkeypatch.setattr(wholenumbers, "MOST_PIXELS", 60)
    for pool in (None, InTurn()):
        with pytest.raises(ValueError, match="too far from 0"):
            maxdetect.detect_tiles(SMALL + 2**29 + 1, 1, 2, pool)


def test_a_program_that_is_killed(tmp_path):
    """A tile's, or the one that joins them."""
    for number, text in enumerate(("kill -9 $$", f'[ $1 = join ] && kill -9 $$; exec "{find()}" "$@"')):
        program = tmp_path / f"program{number}"
        program.write_text(f"#!/bin/sh\n{text}\n")
        program.chmod(0o755)
        for pool in (InTurn(), concurrent.futures.ThreadPoolExecutor(2)):
            with pytest.raises(maxdetect.Refusal, match="killed: signal 9"):
                maxdetect.detect_tiles(SMALL, 1, 4, pool, program=program)


def find():
    return maxdetect.find_program(name="maxwide")


@pytest.mark.parametrize("tile", [128, 256])
def test_tiles_of_a_crowd(tile):
    rng = numpy.random.default_rng(11)
    light = numpy.zeros((520, 500))
    light[rng.integers(0, 520, 2000), rng.integers(0, 500, 2000)] = 10 ** rng.uniform(2.5, 4.5, 2000)
    image = rng.poisson(900 + ndimage.gaussian_filter(light, 1.5) + ndimage.gaussian_filter(light, 9)).astype("i4")
    assert len(maxdetect.detect(image, 68, min_area=5, connect=8, mesh=64)[0]) > 500
    whole_and_tiled(image, 68, tile, min_area=5, connect=8, mesh=64)


def glow(stars):
    """Stars on the light of a galaxy that reaches over most of the image, with their tiles."""
    rows, columns = numpy.mgrid[:180, :180]
    image = (stars[0][:180, :180] + 900 * numpy.exp(-((rows - 90) ** 2 + (columns - 84) ** 2) / 4000)).astype("f4")

    def found(tile):
        segments, done = numpy.zeros(image.shape, dtype="i4"), []
        field = detection.Field(ArrayPlane(image), detection.Settings(tile=tile, mesh=0, fwhm=2.5))
        return detection.sources(field, segments=segments, progress=done.append), segments, sum(done)

    return found


def test_windows_grow_until_they_hold_a_component(stars):
    """Here to the whole image, at which tiles end."""
    found = glow(stars)
    whole, segments, _ = found(200)
    for tile in (64, 32):
        table, others, _ = found(tile)
        assert (segments == others).all() and not (numpy.asarray(table["FLAGS"]) & photometry.CUT).any()
        for name in whole.colnames:
            numpy.testing.assert_array_equal(whole[name], table[name], name)


def test_components_are_cut_where_no_window_may_hold_them(monkeypatch, stars):
    found = glow(stars)
    whole, segments, _ = found(200)
    monkeypatch.setattr(detection, "MOST_PIXELS", 100**2)
    table, others, done = found(64)
    cut = numpy.asarray(table["FLAGS"]) & photometry.CUT != 0
    assert cut.sum() > 5 and done == 9
    # All others are the whole's, and each source has pixels on the map.
    places = {(y, x): area for y, x, area in zip(whole["YFIRST"], whole["XFIRST"], whole["AREA"])}
    assert all(places.get((row["YFIRST"], row["XFIRST"])) == row["AREA"] for row in table.table()[~cut])
    assert (numpy.bincount(others.ravel(), minlength=len(table) + 1)[1:] > 0).all() and others.max() == len(table)
