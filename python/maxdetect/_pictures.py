"""Pictures of an image with its sources: outlines, ellipses and a scale of the values, as PNG or whatever matplotlib
writes.

A large image is reduced to the page by means over squares of pixels; outlines are then kept wherever one of these
pixels has one. matplotlib is loaded when a picture is drawn, and not before.
"""
import os
import pathlib
from typing import Optional, Tuple, Union

import numpy
from astropy.table import Table

from ._errors import Mistake
from ._wholefiles import whole_file

__all__ = ["draw", "outlines", "reduced"]

COLOURS = ("red", "dodgerblue", "limegreen", "darkorange", "magenta")
# How many pixels of an image a panel shows at most along its longer side.
PANEL = 1000
# Below so many squares along a side outlines are drawn as lines, else as coloured squares.
FINE = 400
# More sources than this get no ellipses, which would hide everything.
MOST_ELLIPSES = 5000
# What is drawn evenly around the sky, in standard deviations of the noise; brighter values go by their logarithm.
EVEN = 3.0

Crop = Tuple[int, int, int, int]


def _window(shape: Tuple[int, ...], crop: Optional[Crop]) -> Tuple[slice, slice]:
    """The rows and columns that are drawn."""
    height, width = shape
    if crop is None:
        return slice(0, height), slice(0, width)
    xmin, xmax, ymin, ymax = (int(side) for side in crop)
    xmin, xmax, ymin, ymax = max(xmin, 1), min(xmax, width), max(ymin, 1), min(ymax, height)
    if xmin > xmax or ymin > ymax:
        raise Mistake(
            f"the part {','.join(str(side) for side in crop)} has no pixel of the image of {width} x {height}"
        )
    return slice(ymin - 1, ymax), slice(xmin - 1, xmax)


def _in_squares(array: numpy.ndarray, step: int, fill) -> numpy.ndarray:
    """The array as squares of step by step pixels, with two axes more, filled up at its ends."""
    height, width = array.shape
    padded = numpy.pad(array, ((0, -height % step), (0, -width % step)), constant_values=fill)
    return padded.reshape(padded.shape[0] // step, step, padded.shape[1] // step, step)


def reduced(image: numpy.ndarray, step: int) -> numpy.ndarray:
    """Means over squares of pixels, of those that have a value; NaN where none has."""
    if step == 1:
        return image
    # A few rows of squares at a time, so that memory doesn't go with the image.
    rows = []
    for band in numpy.array_split(image, range(64 * step, image.shape[0], 64 * step)):
        squares = _in_squares(numpy.asarray(band, dtype="f4"), step, numpy.nan)
        known = numpy.isfinite(squares)
        count = known.sum((1, 3))
        total = numpy.where(known, squares, 0).sum((1, 3), dtype="f8")
        rows.append(numpy.where(count, total / numpy.maximum(count, 1), numpy.nan))
    return numpy.concatenate(rows)


def _at_rim(segments: numpy.ndarray) -> numpy.ndarray:
    """The number of the source at each of its pixels that has another number beside it, above or below, else 0."""
    rim = numpy.zeros(segments.shape, dtype=bool)
    for axis in (0, 1):
        lines, marks = numpy.moveaxis(segments, axis, 0), numpy.moveaxis(rim, axis, 0)
        apart = lines[1:] != lines[:-1]
        marks[1:] |= apart
        marks[:-1] |= apart
    return numpy.where(rim, segments, 0)


def outlines(segments: numpy.ndarray) -> Tuple[numpy.ndarray, numpy.ndarray]:
    """The sides of pixels where two numbers meet, as lines.

    `segments` is a segmentation map. The answers are an array of shape (lines, 2, 2), with the two ends of each line
    as x and y, where the first pixel's centre is (0, 0); and the number of the source that each line bounds.
    """
    padded = numpy.pad(segments, 1)
    lines, numbers = [], []
    for axis in (0, 1):
        first, second = numpy.moveaxis(padded, axis, 0)[:-1], numpy.moveaxis(padded, axis, 0)[1:]
        for inner, outer in ((first, second), (second, first)):
            place, along = numpy.nonzero((inner != outer) & (inner != 0))
            numbers.append(inner[place, along])
            # The padding moved all by one, and pixel k reaches from k - 1/2 to k + 1/2.
            ends = [numpy.column_stack([place - 0.5, along + side]) for side in (-1.5, -0.5)]
            both = numpy.stack(ends, axis=1)
            lines.append(both[:, :, ::-1] if axis == 0 else both)
    return numpy.concatenate(lines), numpy.concatenate(numbers)


def _stretch(image: numpy.ndarray):
    """A norm that goes evenly around the sky and by the logarithm above, so that neither faint sources nor bright
    cores are lost.
    """
    from matplotlib.colors import AsinhNorm

    known = image[numpy.isfinite(image)]
    if not known.size:
        return AsinhNorm(1.0, vmin=0.0, vmax=1.0), 0.0
    low, sky, high = numpy.percentile(known, (16, 50, 99.8))
    sigma = max(float(sky - low), 1e-6 * max(abs(float(sky)), 1e-30))
    return AsinhNorm(EVEN * sigma, vmin=-1.5 * sigma, vmax=max(float(high - sky), 10 * sigma)), float(sky)


def _draw_outlines(axes, segments: numpy.ndarray, step: int, extent) -> None:
    """Outlines as lines, or on a reduced image as squares, in one of a few colours for each source."""
    from matplotlib.collections import LineCollection
    from matplotlib.colors import ListedColormap

    if step == 1 and max(segments.shape) < FINE:
        lines, numbers = outlines(segments)
        lines = lines + (extent[0] + 0.5, extent[2] + 0.5)
        axes.add_collection(
            LineCollection(lines, colors=[COLOURS[number % len(COLOURS)] for number in numbers], linewidths=1.2)
        )
        return
    rims = _at_rim(segments)
    if step > 1:
        rims = _in_squares(rims, step, 0).max((1, 3))
    shown = numpy.ma.masked_equal(numpy.where(rims > 0, 1 + rims % len(COLOURS), 0), 0)
    axes.imshow(
        shown,
        cmap=ListedColormap(COLOURS),
        vmin=1,
        vmax=len(COLOURS),
        origin="lower",
        interpolation="nearest",
        extent=extent,
    )


def _draw_ellipses(axes, table: Table, extent) -> int:
    """Draws the ellipses of the sources whose centres are shown, and tells how many these are."""
    from matplotlib.collections import EllipseCollection

    x, y = (numpy.asarray(table[name], dtype="f8") for name in ("X", "Y"))
    shown = (x > extent[0]) & (x < extent[1]) & (y > extent[2]) & (y < extent[3])
    if not 0 < shown.sum() <= MOST_ELLIPSES or not {"A", "B", "THETA"} <= set(table.colnames):
        return int(shown.sum())
    sides = (2 * numpy.asarray(table[name])[shown] for name in ("A", "B"))
    look = {"units": "xy", "facecolors": "none", "edgecolors": "gold", "linewidths": 0.8}
    places = numpy.column_stack([x, y])[shown]
    angles = numpy.asarray(table["THETA"])[shown]
    axes.add_collection(EllipseCollection(*sides, angles, offsets=places, transOffset=axes.transData, **look))
    return int(shown.sum())


def draw(
    image: numpy.ndarray,
    segments: Optional[numpy.ndarray],
    table: Optional[Table],
    path: Union[str, os.PathLike],
    *,
    crop: Optional[Crop] = None,
) -> None:
    """Draws an image, and beside it the same with the outlines and the ellipses of its sources, with a scale of the
    values.

    `image` and `segments` have the same shape, two dimensions; undefined pixels are NaN or masked. `table` has X, Y,
    A, B and THETA, in pixels from 1 and degrees. Either of these may be None, and isn't drawn then; so are ellipses
    where more than 5,000 would be shown. `crop` is the first and the last column and the first and the last row that
    are shown, from 1. `path` ends in .png, .pdf or another end that matplotlib writes. Raises Mistake where `crop`
    lies outside of the image, matplotlib is missing, or it doesn't write this end of the name.
    """
    canvas, kind = _canvas(path)
    rows, columns = _window(numpy.shape(image), crop)
    step = -(-max(rows.stop - rows.start, columns.stop - columns.start) // PANEL)
    figure, right, whole = _panels(image, rows, columns, step)
    if segments is not None:
        _draw_outlines(right, numpy.asarray(segments[rows, columns]), step, whole)
    if table is not None:
        right.set_title(f"{_draw_ellipses(right, table, _extent(rows, columns))} sources")
    with whole_file(path) as name:
        canvas(figure).print_figure(name, format=kind)


def _canvas(path: Union[str, os.PathLike]):
    """What matplotlib draws on, and the kind of picture by a file's name. Raises Mistake."""
    try:
        from matplotlib.backends.backend_agg import FigureCanvasAgg
    except ImportError:
        raise Mistake("a picture wants matplotlib (Debian: python3-matplotlib)") from None
    kind = pathlib.Path(path).suffix[1:].lower()
    if kind not in FigureCanvasAgg.get_supported_filetypes():
        raise Mistake(f"{path}: a picture's name ends in .png, .pdf, .svg or .jpg")
    return FigureCanvasAgg, kind


def _extent(rows: slice, columns: slice) -> Tuple[float, float, float, float]:
    """Where the part that is shown begins and ends, across and up, in pixels from 1."""
    return columns.start + 0.5, columns.stop + 0.5, rows.start + 0.5, rows.stop + 0.5


def _panels(image: numpy.ndarray, rows: slice, columns: slice, step: int):
    """The part of an image twice, side by side, with a scale of the values: the figure, its right half, and where what
    is shown in squares of so many pixels begins and ends.
    """
    from matplotlib.figure import Figure

    part, extent = image[rows, columns], _extent(rows, columns)
    shown = reduced(numpy.ma.filled(numpy.ma.asarray(part, dtype="f4"), numpy.nan), step)
    # The last squares may reach beyond the image.
    whole = (extent[0], extent[0] + shown.shape[1] * step, extent[2], extent[2] + shown.shape[0] * step)
    norm, sky = _stretch(shown)
    aspect = min(max(part.shape[0] / part.shape[1], 0.3), 2)
    figure = Figure(figsize=(13.2, 5.75 * aspect + 0.7), dpi=100, layout="constrained")
    left, right = figure.subplots(1, 2, sharex=True, sharey=True)
    left.set_title("image")
    how = {"cmap": "gray_r", "norm": norm, "origin": "lower", "interpolation": "nearest", "extent": whole}
    for axes in (left, right):
        drawn = axes.imshow(shown - sky, **how)
        axes.set_xlim(extent[0], extent[1])
        axes.set_ylim(extent[2], extent[3])
    figure.colorbar(drawn, ax=[left, right], pad=0.01, aspect=40, label=f"value less {sky:.6g}")
    return figure, right, whole
