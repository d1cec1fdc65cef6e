"""Maps that are joined, and rows that are read of a file, by the loops in C as without them."""
import os

import numpy
import pytest

from maxdetect import _errors as errors, _holding as holding, _images as images, _joining as joining
from maxdetect import _loops as loops, _stored as stored
from maxdetect._rows import Rows

pytestmark = pytest.mark.skipif(not loops.library(), reason="scripts/loops has compiled no library")
TYPES = ["u1", ">i2", ">i4", ">i8", ">f4", ">f8"]


# ---- maps


@pytest.mark.parametrize("dtype", ["i4", ">i4"])
@pytest.mark.parametrize("shape", [(0, 7), (1, 1), (40, 33), (300, 270)])
def test_maps_are_renumbered(both, shape, dtype):
    rng = numpy.random.default_rng(shape[0])
    segments = (rng.integers(-9, 10, shape) * (rng.random(shape) < 0.3)).astype(dtype)
    places = rng.permutation(9)[:6]

    def renumbered():
        found = segments.copy()
        joining.renumber(found, places, 9)
        return found

    with_them, without = both(renumbered)
    assert (with_them == without).all()
    assert not segments.any() or (with_them != segments).any()


@pytest.mark.parametrize("dtype", ["i4", ">i4"])
@pytest.mark.parametrize("cut", [False, True])
def test_pieces_put_their_numbers_into_the_map(both, cut, dtype):
    rng = numpy.random.default_rng(cut)
    table = Rows({"NUMBER": numpy.arange(1, 6, dtype="i4")})

    def filled():
        gathered = joining.Gathered(numpy.zeros((9, 11), dtype=dtype), lambda count: None)
        for _ in range(3):
            pixels = rng.choice(99, 40, replace=False)
            owners = rng.integers(0, 5, 40).astype("i4")
            gathered.take(holding.Piece(table, pixels, owners, rng.random(40) < 0.7, numpy.full(5, cut), []))
        return gathered.segments

    def again():
        rng.bit_generator.state = state
        return filled()

    state = rng.bit_generator.state
    with_them, without = both(again)
    assert (with_them == without).all() and (with_them < 0).any()
    # What another source has stays its own, where sources are cut.
    assert (numpy.abs(with_them) <= 5).any() == cut or not cut


# ---- rows of a file


@pytest.fixture(name="path")
def _path(tmp_path):
    path = tmp_path / "bytes"
    path.write_bytes(numpy.random.default_rng(4).integers(0, 256, 31 * 47 * 8 + 13, dtype="u1").tobytes())
    return os.fspath(path)


@pytest.mark.parametrize("dtype", TYPES)
@pytest.mark.parametrize(
    "columns", [slice(None), slice(5, 6), slice(3, 40), slice(40, 99), slice(9, 9), slice(0, 9, 2)]
)
def test_rows_are_read(both, path, dtype, columns):
    for rows in (0, 1, 31):
        if rows == 0 and columns != slice(9, 9):
            continue
        one, other = both(stored.rows_of_file, path, numpy.dtype(dtype), 13, (max(rows, 1), 47), columns)
        assert one.shape == other.shape and one.tobytes() == other.astype(one.dtype).tobytes()


def test_windows_of_images_are_the_same(both, tmp_path):
    rng = numpy.random.default_rng(6)
    for number, dtype in enumerate(TYPES):
        path = tmp_path / f"{number}.fits"
        images.fits.PrimaryHDU(rng.normal(40, 30, (600, 70)).astype(dtype)).writeto(path)
        plane = images.opened(os.fspath(path))
        for rows, columns in [
            (slice(None), slice(None)),
            (slice(3, 590), slice(9, 60)),
            (slice(599, 600), slice(0, 1)),
        ]:
            one, other = both(plane.window, rows, columns)
            assert one.dtype == other.dtype and one.flags.c_contiguous and numpy.array_equal(one, other)


def test_a_window_is_nobody_elses(tmp_path):
    images.fits.PrimaryHDU(numpy.ones((300, 20), dtype=">f4")).writeto(tmp_path / "ones.fits")
    plane = images.opened(os.fspath(tmp_path / "ones.fits"))
    plane.window(slice(None))[:] = 7
    assert (plane.window(slice(None)) == 1).all()


def test_a_file_that_ends_too_soon(tmp_path):
    path = os.fspath(tmp_path / "image.fits")
    images.fits.PrimaryHDU(numpy.ones((300, 200), dtype=">f4")).writeto(path)
    plane = images.opened(path)
    os.truncate(path, 2880 + 4 * 200 * 150)
    assert plane.window(slice(0, 150)).shape == (150, 200)
    with pytest.raises(errors.Mistake, match=r"image.fits: .*it ends before byte 242880"):
        plane.window(slice(140, 300))
    os.unlink(path)
    with pytest.raises(errors.Mistake, match=r"image.fits: No such file"):
        plane.window(slice(0, 9))


def test_a_file_that_can_not_be_read(tmp_path):
    with pytest.raises(OSError, match="directory"):
        stored.rows_of_file(os.fspath(tmp_path), numpy.dtype(">f4"), 0, (3, 3))


def test_for_its_origin_an_image_is_not_read(tmp_path, monkeypatch):
    path = os.fspath(tmp_path / "long.fits")
    images.fits.PrimaryHDU(numpy.full((300, 200), 2**60 + 5)).writeto(path)
    plane = images.opened(path)
    with monkeypatch.context() as without:
        without.setattr(stored, "_READ_ROWS", lambda *given: pytest.fail("rows were read"))
        assert plane.origin == 2**60 + 5
    assert not plane.window(slice(None), less=plane.origin).any()
