"""Small square windows around sources, all of one side in one array: their values, and which pixels are theirs."""
from typing import Iterator, NamedTuple, Tuple

import numpy

__all__ = ["LEFT_OUT", "Stamps", "batches", "middles", "vignets"]

# What a vignet has where a pixel is another source's or has no value, as in Source Extractor's.
LEFT_OUT = -1e30
# How many pixels are looked at at once.
MOST = 1 << 18


class Stamps(NamedTuple):
    """Windows: `places` are the sources' in their lists, `rows` and `columns` those of the windows' pixels, arrays with
    a line for a source, `values` the pixels, and `own` which of them are no other source's and have a value. Beyond
    the image `own` is false, and values are 0.
    """

    places: numpy.ndarray
    rows: numpy.ndarray
    columns: numpy.ndarray
    values: numpy.ndarray
    own: numpy.ndarray

    def taken(self, image: numpy.ndarray) -> numpy.ndarray:
        """The pixels of another image of the same shape, those at its edge for those beyond."""
        rows, columns = (numpy.clip(at, 0, side - 1) for at, side in zip((self.rows, self.columns), numpy.shape(image)))
        return image[rows[:, :, None], columns[:, None, :]]


class _Wide:
    """An image and its map with a margin of undefined pixels, so wide that no window reaches beyond it; of an undefined
    pixel the map says that it is another source's, by a number below 0.
    """

    def __init__(self, image: numpy.ndarray, undefined: numpy.ndarray, segments: numpy.ndarray, margin: int):
        self.image, self.margin = image, margin
        self.segments = numpy.where(undefined, numpy.int32(-1), segments) if undefined.any() else segments
        if margin:
            self.image, self.segments = (
                numpy.pad(it, margin, constant_values=beyond) for it, beyond in ((image, 0), (self.segments, -1))
            )

    def cut(self, numbers: numpy.ndarray, middle: Tuple[numpy.ndarray, numpy.ndarray], half: int) -> Stamps:
        """The windows of `half` pixels around these pixels, for sources with these numbers."""
        rows, columns = (it[:, None] + numpy.arange(-half, half + 1) for it in middle)
        corner = rows[:, 0] + self.margin, columns[:, 0] + self.margin
        values, there = (
            numpy.lib.stride_tricks.sliding_window_view(it, (2 * half + 1, 2 * half + 1))[corner]
            for it in (self.image, self.segments)
        )
        own = (there == 0) | (there == numbers[:, None, None])
        return Stamps(numpy.arange(len(numbers)), rows, columns, values, own)


def _beyond(middle: Tuple[numpy.ndarray, numpy.ndarray], half: numpy.ndarray, shape: Tuple[int, ...]) -> int:
    """How many pixels windows reach beyond an image."""
    ends = [(half - at, at + half + 1 - side) for at, side in zip(middle, shape)]
    return max(0, int(max(end.max(initial=0) for pair in ends for end in pair)))


def middles(centre: Tuple[numpy.ndarray, numpy.ndarray], half: numpy.ndarray, shape: Tuple[int, ...]) -> numpy.ndarray:
    """The rows and columns of the pixels at these places, counted from 0; windows of `half` pixels around them that
    would lie beyond the image lie just beside it.
    """
    return numpy.array(
        [
            numpy.clip(numpy.nan_to_num(numpy.round(at)), -half - 1, side + half).astype("i8")
            for at, side in zip(centre, shape)
        ]
    )


def batches(
    image: numpy.ndarray,
    undefined: numpy.ndarray,
    segments: numpy.ndarray,
    numbers: numpy.ndarray,
    centre: Tuple[numpy.ndarray, numpy.ndarray],
    half: numpy.ndarray,
) -> Iterator[Stamps]:
    """The windows of sources with these numbers in the map around these rows and columns, counted from 0, a batch for
    those that reach as many whole pixels, `half`, from their middles.
    """
    down, across = middles(centre, half, image.shape)
    wide = _Wide(image, undefined, segments, _beyond((down, across), half, image.shape))
    for size in numpy.unique(half):
        places = numpy.flatnonzero(half == size)
        count = max(1, MOST // (2 * int(size) + 1) ** 2)
        for first in range(0, len(places), count):
            some = places[first : first + count]
            found = wide.cut(numbers[some], (down[some], across[some]), int(size))
            yield found._replace(places=some)


def vignets(image, undefined, segments, numbers, centre, side: int) -> numpy.ndarray:
    """The squares of `side` pixels, an odd number, around sources, LEFT_OUT where a pixel isn't the source's or sky."""
    made = numpy.full((len(numbers), side, side), LEFT_OUT, dtype="f4")
    for found in batches(image, undefined, segments, numbers, centre, numpy.full(len(numbers), side // 2)):
        made[found.places] = numpy.where(found.own, found.values, LEFT_OUT)
    return made
