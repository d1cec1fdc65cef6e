"""Sums over boxes are those of the box's numbers."""
import numpy
import pytest

from maxdetect import _boxes as boxes


@pytest.mark.parametrize("dtype", ("i8", "i4"))
def test_sums_within_boxes(dtype):
    image = numpy.random.default_rng(8).integers(-(2**31), 2**31, (23, 31)) if dtype == "i8" else numpy.eye(23, 31)
    found = boxes.sums(image, dtype)
    top, bottom, left, right = numpy.array([[0, 0, 5, 22], [23, 1, 16, 23], [0, 30, 7, 0], [31, 31, 8, 31]])
    wanted = [int(image[a:b, c:d].sum()) for a, b, c, d in zip(top, bottom, left, right)]
    assert boxes.within(found, top, bottom, left, right).tolist() == wanted


def test_an_empty_box_and_a_line():
    assert boxes.within(boxes.sums(numpy.ones((1, 4), dtype="i4")), 0, 1, 2, 2) == 0
    assert boxes.within(boxes.sums(numpy.ones((4, 1), dtype="i4")), 1, 4, 0, 1) == 3


def test_sums_and_counts_in_one_number():
    rng = numpy.random.default_rng(5)
    image, chosen = rng.integers(-(2**31), 2**31, (70, 90), dtype="i4"), rng.random((70, 90)) < 0.7
    box = [numpy.array(it) for it in ([0, 3, 69], [17, 40, 70], [0, 5, 12], [17, 28, 13])]
    both = boxes.within(boxes.both_sums(image, chosen, 10), *box)
    assert (both & 1023).tolist() == boxes.within(boxes.sums(chosen), *box).tolist()
    assert (both >> 10).tolist() == boxes.within(boxes.sums(numpy.where(chosen, image, 0)), *box).tolist()
