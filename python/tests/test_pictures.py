"""Pictures of images with their sources."""
import os

import numpy
import pytest
from astropy.table import Table

pytest.importorskip("sep", reason="the package wants SEP (Debian: python3-sep)")
pytest.importorskip("matplotlib", reason="pictures want matplotlib (Debian: python3-matplotlib)")

from maxdetect import _pictures as pictures  # noqa: E402
from maxdetect._errors import Mistake  # noqa: E402


def scene(height, width):
    image = numpy.random.default_rng(1).normal(0, 1, (height, width)).astype("f4")
    segments = numpy.zeros((height, width), dtype="i4")
    image[10:14, 20:26] += 50
    segments[10:14, 20:26] = 1
    image[0, 0] = numpy.nan
    table = Table({"X": [23.5], "Y": [12.5], "A": [3.4], "B": [2.3], "THETA": [0.0]})
    return image, segments, table


@pytest.mark.parametrize("sides", [(40, 60), (1500, 1300), (30, 1100)])
def test_a_picture(tmp_path, sides):
    path = tmp_path / "picture.png"
    pictures.draw(*scene(*sides), path)
    assert path.read_bytes()[:4] == b"\x89PNG" and os.listdir(tmp_path) == ["picture.png"]


def test_a_part_of_an_image(tmp_path):
    image, segments, table = scene(100, 200)
    path = tmp_path / "picture.png"
    pictures.draw(image, segments, table, path, crop=(10, 40, 1, 30))
    pictures.draw(image, None, None, path, crop=(190, 300, 90, 300))
    for crop in ((201, 300, 1, 10), (30, 20, 1, 10)):
        with pytest.raises(Mistake):
            pictures.draw(image, segments, table, path, crop=crop)


def test_images_without_a_value_or_of_one_value(tmp_path):
    _, segments, table = scene(40, 60)
    for value in (numpy.nan, 7.0, 0.0):
        pictures.draw(numpy.full((40, 60), value), segments, table, tmp_path / "picture.png")


def test_other_kinds(tmp_path):
    pictures.draw(*scene(40, 60), tmp_path / "picture.pdf")
    with pytest.raises(Mistake):
        pictures.draw(*scene(40, 60), tmp_path / "picture.txt")


def test_means_over_squares():
    image = numpy.arange(20.0).reshape(4, 5)
    image[0, 0] = numpy.nan
    reduced = pictures.reduced(image, 2)
    assert reduced.shape == (2, 3)
    assert reduced[0, 0] == pytest.approx((1 + 5 + 6) / 3) and reduced[1, 2] == pytest.approx((14 + 19) / 2)


def test_outlines_bound_the_sources():
    segments = numpy.zeros((4, 5), dtype="i4")
    segments[1, 1:3], segments[3, 4] = 1, 2
    lines, numbers = pictures.outlines(segments)
    assert (numbers == 1).sum() == 6 and (numbers == 2).sum() == 4
    one = lines[numbers == 1].reshape(-1, 2)
    assert (one.min(0) == (0.5, 0.5)).all() and (one.max(0) == (2.5, 1.5)).all()
    assert (numpy.abs(lines[:, 0] - lines[:, 1]).sum(1) == 1).all()
